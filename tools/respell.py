#!/usr/bin/env python3
"""Respells the repository's own definitions and lemmas: words in snake case.

usage: python3 tools/respell.py            at the top of the repository, once, after the kit's port.py

It renames what specs/ and proofs/ define (kebab-case and camelCase words), where it is defined and where it is used:
in .antt files, and in the ghost items and clauses of .rt files. Names that the kit defines
or makes (labels of goals) stay. A word that would fall together with another of its file gets the name that EXCEPT gives.
"""
import collections
import os
import re
import sys

WORD = r"[A-Za-z_][\w'₀-₉]*(?:-[\w'₀-₉]+)*\??"
TOKEN = re.compile(WORD)
USE = re.compile(r"^([ \t]*(?:pub )?(?:ghost )?use )([\w'.+-]+)\.\{([^}]*)\}", re.M)
MODULE = re.compile(r"^[ \t]*(?:pub )?(?:ghost )?use ([\w'.+-]+) as ([\w'-]+)", re.M)
DEFINED = re.compile(r"^[ \t]*((?:pub |abbrev |unfoldable |private |data |record |instance )*)([^\n:=(){}→λ]+?) :(?=[ \n])(.*)$", re.M)

# Where the plain spelling would fall together with another name, or is that of a type.
EXCEPT = {
    "Either-way": "EitherWay",
    "Node-of": "NodeOf",
    "allKnown": "are_known",
    "allPlaced": "are_placed",
    "allOnce": "are_once",
    "allWithin": "are_within",
    "allSaid": "said_by_all",
    "noAdd": "adds_none",
    "noMul": "multiplies_none",
    "noRel": "relates_none",
}

# Words that are only bound, as parameters.
BOUND = {"readingLimit", "sendLimit", "onT", "onF"}

# The name that a .rt file gives an imported word where a function of that file has its spelling.
ALIAS = {
    "unsetIn": "unset_nodes",
    "isElse": "is_else_token",
    "isMinus": "is_minus_token",
    "noToken": "no_token_text",
    "tokenLength": "token_length_of",
    "isProgram": "program_sort",
    "lineStart": "line_start_of",
    "lineEnd": "line_end_of",
    "inputBy": "input_by_type",
    "valueType": "value_type_of",
    "unaryType": "unary_type_of",
    "binaryTakes": "binary_takes_of",
    "binaryGives": "binary_gives_of",
}


def crates():
    return sorted(c for c in os.listdir("crates") if os.path.isdir(os.path.join("crates", c)))


OWN = crates()


def files(*ends):
    for folder, dirs, names in os.walk("crates"):
        dirs[:] = sorted(d for d in dirs if d != "out")
        for n in sorted(names):
            if n.endswith(ends):
                yield os.path.join(folder, n)


def stripped(text):
    return re.sub(r"--[^\n]*", "", text)


def other_spelling(word):
    return "-" in word or (word[0].islower() and re.search(r"[A-Z]", word) is not None)


# Lemmas whose spelling would be that of a definition in some file: they get _lem.
LEMMAS = set()


def snake(word):
    if word in EXCEPT:
        return EXCEPT[word]
    if word in LEMMAS:
        return plain(word) + "_lem"
    return plain(word)


def plain(word):
    w = word.replace("-", "_")
    w = re.sub(r"([a-z0-9])([A-Z])", r"\1_\2", w)
    w = re.sub(r"([A-Z])([A-Z][a-z])", r"\1_\2", w)
    return w.lower()


def own_path(path):
    parts = path.split(".")
    return len(parts) > 2 and parts[0] == "Rattle" and parts[1] in OWN and parts[2] in ("specs", "proofs") and "declared" not in parts and parts[-1] not in ("Goals", "Given")


def imports(text):
    """The names that a file takes from this repository's modules, and those it takes from elsewhere."""
    own, foreign = set(), set()
    for m in USE.finditer(text):
        into = own if own_path(m.group(2)) else foreign
        for item in m.group(3).split(","):
            words = item.split()
            if not words:
                continue
            into.add(words[-1])
            if len(words) == 3 and into is own:
                own.add(words[0])
    return own, foreign


def defined(text):
    names = set()
    text = stripped(text)
    for m in DEFINED.finditer(text):
        if re.match(r"\s*goal\.", m.group(3)):
            continue
        names.update(n for n in m.group(2).split() if TOKEN.fullmatch(n))
    names.update(re.findall(r"\b(?:data|record) (" + WORD + ")", text))
    names.update(re.findall(r"\blet (" + WORD + ")", text))
    return names


def module_aliases(text):
    return {m.group(2) for m in MODULE.finditer(text) if own_path(m.group(1))}


def fields():
    """The fields of this repository's records."""
    names = set()
    for p in files(".antt"):
        text = stripped(open(p).read())
        for m in re.finditer(r"^((?:pub )?record [^\n]*\bwhere\b[^\n]*)\n((?:[ \t]+[^\n]*\n|\n)*)", text, re.M):
            for f in re.finditer(r"^[ \t]+(?:pub )?(" + WORD + r") :", m.group(2), re.M):
                names.add(f.group(1))
    return names


def words_of(text):
    """The words that a file defines or takes from this repository and that have another spelling."""
    own, foreign = imports(text)
    return {n for n in (own | defined(text)) - (foreign - own) if other_spelling(n)}


def find_lemmas():
    for p in files(".antt"):
        text = open(p).read()
        groups = collections.defaultdict(set)
        for n in words_of(text) | {n for n in defined(text) | imports(text)[0] if not other_spelling(n)}:
            groups[n if n[0].isupper() and "-" not in n else snake(n)].add(n)
        for names in groups.values():
            if len(names) > 1:
                LEMMAS.update(n for n in names if "-" in n)


def respell_antt(path, FIELDS, report):
    text = open(path).read()
    ours = words_of(text)
    aliases = module_aliases(text)
    groups = collections.defaultdict(set)
    for n in ours:
        groups[snake(n)].add(n)
    report += [(path, *sorted(names)) for names in groups.values() if len(names) > 1]
    taken = set(TOKEN.findall(USE.sub(r"\3", re.sub(r"[\w'-]+(\.[\w'+-]+)+\.Go(als)|Rattle\.[\w.+-]+ as \w+", "", stripped(text)))))

    def word(m):
        w = m.group(0)
        before = text[: m.start()]
        if re.search(r"[{;]\s*$", before[-200:]) and re.match(r" =\s", text[m.end() : m.end() + 3]) and other_spelling(w):
            return plain(w)
        if before.endswith("."):
            head = re.search(r"([\w'.-]+)\.$", before[-200:])
            if head and (head.group(1) in aliases or own_path(head.group(1) + ".x") and text[m.end() : m.end() + 1] not in ".{") and other_spelling(w):
                return snake(w)
            if w in FIELDS and other_spelling(w):
                return plain(w)
            return w
        if w in ours:
            n = snake(w)
            if n in taken:
                report.append((path, w, n))
            return n
        return w

    new = TOKEN.sub(word, text)
    return text, new


def respell_rt(path, report):
    text = open(path).read()
    own, _ = imports(text)
    own = {n for n in own if other_spelling(n)}
    code = re.sub(r"^[ \t]*ghost use [^\n]*", "", re.sub(r"//[^\n]*", "", text), flags=re.M)
    taken = set(TOKEN.findall(code))
    local = {}
    for w in own:
        n = snake(w)
        if n in taken and re.search(r"(?<![\w'-])" + re.escape(w) + r"(?![\w'-])", code):
            if w not in ALIAS:
                report.append((path, w, n))
            n = ALIAS.get(w, n)
        local[w] = n

    def use(m):
        items = []
        for item in m.group(3).split(","):
            words = item.split()
            if words and own_path(m.group(2)) and other_spelling(words[0]):
                source = snake(words[0])
                name = local.get(words[-1], words[-1])
                item = item.replace(item.strip(), source if name == source else f"{source} as {name}")
            elif len(words) == 3 and words[2] in local:
                item = item.replace(item.strip(), f"{words[0]} as {local[words[2]]}")
            items.append(item)
        return m.group(1) + m.group(2) + ".{" + ",".join(items) + "}"

    new = USE.sub(use, text)
    lines = [l if re.match(r"[ \t]*ghost use ", l) else TOKEN.sub(lambda m: local.get(m.group(0), m.group(0)), l) for l in new.split("\n")]
    return text, "\n".join(lines)


def members():
    """Ghost members of traits and ghost fields, which .rt files define."""
    names = set()
    for p in files(".rt"):
        names.update(re.findall(r"^[ \t]*(?:pub )?ghost ([a-z][\w-]*)(?= *[:=])", open(p).read(), re.M))
    return {n for n in names if other_spelling(n)}


def respell_members(text, names):
    return TOKEN.sub(lambda m: snake(m.group(0)) if m.group(0) in names else m.group(0), text)


def main():
    report = []
    MEMBERS = members() | BOUND
    find_lemmas()
    FIELDS = fields()
    todo = []
    for p in files(".antt"):
        todo.append((p, *respell_antt(p, FIELDS, report)))
    for p in files(".rt"):
        todo.append((p, *respell_rt(p, report)))
    for line in sorted(set(report)):
        print("falls together:", *line)
    if report or "--dry" in sys.argv:
        raise SystemExit(1 if report else 0)
    for p, old, new in todo:
        new = respell_members(new, MEMBERS)
        if old != new:
            open(p, "w").write(new)


main()
