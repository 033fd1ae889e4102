/* The verdict on the text of a routine, for editors written in C. See docs/EDITOR.md. */
#ifndef WISNOEUR_H
#define WISNOEUR_H

#include <stddef.h>
#include <stdint.h>

#ifdef __cplusplus
extern "C" {
#endif

typedef struct WisnoeurVerdict {
    uint32_t number; /* of the first question with a no; 0 if the routine may be translated */
    size_t place;    /* its place in the text, in bytes from 0; 0 if the routine may be translated */
} WisnoeurVerdict;

/* The text need not end with a zero. The pointer must not be null, not even for a text of length 0. */
WisnoeurVerdict wisnoeur_verdict(const uint8_t *text, size_t length);

#ifdef __cplusplus
}
#endif

#endif
