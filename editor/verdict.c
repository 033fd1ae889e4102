/* Prints the verdict on each file of the command line: its number and its place. */
#include "wisnoeur.h"

#include <stdio.h>
#include <stdlib.h>

/* The bytes of a file, which the caller frees, or NULL. */
static uint8_t *load(const char *name, size_t *length) {
    FILE *file = fopen(name, "rb");
    size_t room = 4096;
    uint8_t *text = malloc(room);
    *length = 0;
    while (file && text) {
        size_t read = fread(text + *length, 1, room - *length, file);
        *length += read;
        if (*length < room) {
            break;
        }
        room *= 2;
        uint8_t *longer = realloc(text, room);
        if (!longer) {
            free(text);
        }
        text = longer;
    }
    if (!file || ferror(file)) {
        free(text);
        text = NULL;
    }
    if (file) {
        fclose(file);
    }
    return text;
}

int main(int count, char **names) {
    for (int i = 1; i < count; i++) {
        size_t length;
        uint8_t *text = load(names[i], &length);
        if (!text) {
            fprintf(stderr, "%s cannot be read\n", names[i]);
            return 1;
        }
        WisnoeurVerdict verdict = wisnoeur_verdict(text, length);
        printf("%s: %u %zu\n", names[i], (unsigned)verdict.number, verdict.place);
        free(text);
    }
    return 0;
}
