#!/usr/bin/env python3
"""Respells the repository's own definitions, lemmas, constructors and fields of specs/ and proofs/.

usage: tools/respell.py [--dry]     at the top of the repository

Words become snake case (isIdent and hex-digit-value become is_ident and hex_digit_value), facts become upper camel case
(Preprocessing-settles becomes PreprocessingSettles). Names of src/, of the library and of generated goals stay.
It prints each name that would fall together with another one, and then writes nothing.
"""

import collections
import os
import re
import sys

TOKEN = re.compile(r"[^\s(){}\[\].,;«»@]+")
DECLARED = re.compile(
    r"^\s*(?:(?:abbrev|unfoldable|pub)\s+)*(?:(?:data|record)\s+)?([^\s(){}\[\].,;:«»]+)(?:\s*[({][^:]*:.*)?\s*:(?:\s|$)"
)
# parameters of definitions and lemmas
PARAMETERS = {"aheadP", "aheadQ", "byNumber", "endingP", "endingQ", "heldA", "heldB", "takesA", "takesB"}
ANSWERS = {"Answers.antt", "Invariants.antt", "Choices.antt", "Proof.antt"}
# lemmas whose plain spelling is the name of the definition that they are about
LEMMAS = ("all-lawful", "ending-in-sight", "ends-url", "four_bytes", "found-by", "hex-digit", "is-ident", "is-second", "kind-at", "number-at", "three-bytes", "two_bytes")


def files():
    for folder, dirs, names in os.walk("crates"):
        dirs[:] = sorted(d for d in dirs if d != "out")
        for n in sorted(names):
            if n.endswith((".antt", ".rt")):
                yield os.path.join(folder, n)


def respelt(name):
    if name in LEMMAS:
        return name.replace("-", "_") + "_lem"
    if name[0].isupper():
        return "".join(p[:1].upper() + p[1:] for p in name.split("-"))
    return re.sub(r"(?<=[a-z0-9])([A-Z])", lambda m: "_" + m.group(1).lower(), name).replace("-", "_")


def declared(text, answers):
    for line in text.split("\n"):
        m = DECLARED.match(line)
        if not m:
            continue
        name = m.group(1)
        if not name[0].isalpha() or not name[0].isascii():
            continue
        if answers and re.search(r":\s*(goal|given)\.", line):
            continue
        yield name


def own_names(texts):
    names = set()
    for path, text in texts.items():
        if path.endswith(".antt"):
            names |= set(declared(text, os.path.basename(path) in ANSWERS))
    return PARAMETERS | {n for n in names if respelt(n) != n}


def from_library(text):
    found = set()
    for m in re.finditer(r"use Rattle\.std\.[^\n{]*\{([^}]*)\}", text):
        found |= {w.strip() for w in re.split(r",|\bas\b", m.group(1))}
    return found


def generated(text):
    """The words of generated goals: what an answers file declares by `goal.` or `given.`."""
    return set(re.findall(r"\b(?:goal|given)\.([^\s(){}.,;]+)", text))


def turn_words(text, names, keep):
    def word(m):
        w = m.group(0)
        return respelt(w) if w in names and w not in keep else w

    return TOKEN.sub(word, text)


def turn_comment(text, names):
    return re.sub(r"`[^`]*`", lambda m: turn_words(m.group(0).replace("`", " ` "), names, set()).replace(" ` ", "`"), text)


def turn_antt(text, names, answers, fields):
    keep = from_library(text)
    if answers:
        keep |= generated(text)
    out = []
    for line in text.split("\n"):
        m = re.search(r"(^|\s)--\s.*$", line)
        code, comment = (line[: m.start()], line[m.start() :]) if m else (line, "")

        def word(t):
            w = t.group(0)
            if w not in names or w in keep:
                return w
            if answers and t.start() > 0 and code[t.start() - 1] == "." and w not in fields:
                return w
            return respelt(w)

        out.append(TOKEN.sub(word, code) + turn_comment(comment, names))
    return "\n".join(out)


def ghost_parts(text):
    """The spans of clauses, ghost fields, ghost members and imports."""
    for m in re.finditer(r"(?m)^\s*(?:pub\s+)?ghost use [^;]*;", text):
        yield m.start(), m.end()
    for m in re.finditer(r"(?m)^\s*(?:requires|ensures|ghost(?! use))\b[^{;]*\{", text):
        depth, i = 1, m.end()
        while depth:
            depth += {"{": 1, "}": -1}.get(text[i], 0)
            i += 1
        yield m.end(), i


def turn_rt(text, names):
    keep = from_library(text)
    out, at = [], 0
    for start, end in sorted(ghost_parts(text)):
        if start < at:
            continue
        out += [text[at:start], turn_words(text[start:end], names, keep)]
        at = end
    return "".join(out) + text[at:]


def record_fields(texts):
    found = set()
    for path, text in texts.items():
        if path.endswith(".antt") and os.path.basename(path) not in ANSWERS:
            found |= set(re.findall(r"(?m)^\s+pub ([^\s(){}.,;:]+)\s*:", text))
    return found


def fallen_together(texts, names):
    """Names of one file that would be spelt alike, though they were not."""
    by_new = collections.defaultdict(set)
    for n in names:
        by_new[respelt(n)].add(n)
    for path, text in texts.items():
        if not path.endswith(".antt"):
            continue
        code = re.sub(r"(?m)(^|\s)--\s.*$", "", text)
        words = {m.group(0) for m in TOKEN.finditer(code) if code[max(m.start() - 1, 0)] != "."}
        for new, olds in by_new.items():
            here = (olds | ({new} - names)) & words
            if len(here) > 1:
                yield path, new, sorted(here)


def main():
    texts = {}
    for path in files():
        with open(path, encoding="utf-8") as f:
            texts[path] = f.read()
    names = own_names(texts)
    fields = record_fields(texts)
    clashes = list(fallen_together(texts, names))
    for path, new, olds in clashes:
        print(f"falls together: {path}: {', '.join(olds)} -> {new}")
    if "--dry" in sys.argv or clashes:
        print(f"{len(names)} names, nothing written")
        return 1
    for path, text in texts.items():
        if path.endswith(".rt"):
            new = turn_rt(text, names)
        else:
            new = turn_antt(text, names, os.path.basename(path) in ANSWERS, fields)
        if new != text:
            with open(path, "w", encoding="utf-8") as f:
                f.write(new)
    print(f"{len(names)} names")
    return 0


if __name__ == "__main__":
    sys.exit(main())
