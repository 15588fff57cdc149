#!/usr/bin/env python3
"""Spells the repository's own definitions and lemmas as today's Rattle does: words in snake case, a dash between two names, types in camel case.

usage: respell.py       at the top, after port.py, once

A name of the libraries keeps its spelling, and so does a name that Rattle makes for a proof (`tie.Need-..`, a step below `c.`). It says which names
fall together in a file, and then writes nothing.
"""
import collections
import glob
import re
import sys

SYMBOL = r"A-Za-z0-9_'′ℕℤ₀-₉⁻⁺?!*+<≤≡∷◌·"
TOKEN = re.compile(rf"[{SYMBOL}]+(?:-[{SYMBOL}]+)*")
SIGNATURE = re.compile(r"^\s*(abbrev |unfoldable )?(pub )?((?:[^\s:(){},]+ )+): ")
FIELD = re.compile(r"^\s+(?:pub )?([^\s:(){},]+) : ")
USE = re.compile(r"^\s*(?:pub |ghost )?use ([^\s{;]+?)(?:\.\{([^}]*)\})?(?: as (\S+?))?;?$")
CAMEL = re.compile(r"^[a-z][A-Za-z0-9']*$")
WORD = re.compile(r"^[A-Za-z][A-Za-z0-9'_]*$")


def read(path):
    with open(path, encoding="utf-8") as it:
        return it.read()


def snake(word):
    if not CAMEL.match(word) or word == word.lower():
        return word
    return re.sub(r"(?<=[a-z0-9])([A-Z])", lambda it: "_" + it[1], word).lower()


def is_own(module):
    parts = module.split(".")
    return parts[0] == "Rattle" and len(parts) > 1 and parts[1] in CRATES


def code_of(line):
    return line.split("--")[0] if line.lstrip().startswith("--") else re.sub(r" -- .*", "", line)


CRATES = {line.split(":")[0].split()[0] for line in read("crates.txt").splitlines() if line.strip() and not line.startswith("#")}
ANTT = sorted(p for c in CRATES for part in ("specs", "proofs") for p in glob.glob(f"crates/{c}/{part}/**/*.antt", recursive=True))
RT = sorted(p for c in CRATES for p in glob.glob(f"crates/{c}/src/**/*.rt", recursive=True))
PAGES = ["README.md"] + sorted(glob.glob("docs/**/*.md", recursive=True))

# What the libraries name, what the repository declares, and which of that is a definition or a field.
foreign, declared, definitions, fields = set(), set(), set(), set()
for path in ANTT + RT:
    lines = read(path).splitlines()
    in_record = False
    for line in lines:
        use = USE.match(line)
        if use:
            if not is_own(use[1]):
                foreign |= {it.split(" as ")[0].strip() for it in (use[2] or "").split(",")}
            continue
        if path.endswith(".rt"):
            found = re.match(r"\s*(?:pub(?:\(crate\))? )?(?:extern \"C\" )?fn (\w+)", line)
            if found:
                definitions.add(found[1])
            continue
        code = code_of(line)
        if re.match(r"^\s*(pub )?record ", code) or re.match(r"^\s*(pub )?data ", code):
            in_record = True
            continue
        if not code.strip():
            in_record = False
        if in_record:
            found = FIELD.match(code)
            if found:
                fields.add(found[1])
                declared.add(found[1])
                continue
        found = SIGNATURE.match(code)
        if found:
            for name in found[3].split():
                declared.add(name)
                if found[1] or "/specs/" in path:
                    definitions.add(name)
foreign.discard("")
names = {snake(it) for it in definitions} | definitions | foreign


def respelled(token):
    if token in foreign and token not in declared:
        return token
    # a lemma that would have a definition's name
    return plain(token) + ("_lem" if token in lemmas_named_so else "")


def plain(token):
    if not re.search(r"[a-z]", token):
        return token
    parts = token.split("-")
    out = snake(parts[0])
    for before, part in zip(parts, parts[1:]):
        plain = WORD.match(part) and WORD.match(before)
        joins_names = before in names and part in names or before in names and CAMEL.match(before) and before != before.lower()
        is_word = token in fields or token in definitions
        dash = not plain or (joins_names and not is_word)
        out += ("-" if dash else "_") + snake(part)
    return out


# Lemmas that fall together with a definition.
spelled = collections.defaultdict(set)
lemmas_named_so = set()
for it in declared | definitions:
    if not (it in foreign and it not in declared):
        spelled[plain(it)].add(it)
for each in spelled.values():
    if len(each) > 1 and each & definitions:
        lemmas_named_so |= each - definitions - fields


def in_code(line, changed):
    def turn(found):
        token, at = found[0], found.start()
        before = line[at - 1] if at else ""
        if before == ".":
            head = re.search(r"([^\s(){},]*)\.$", line[:at])
            top = head[1] if head else ""
            path = top.split(".")[0]
            if path == "tie":
                return token
            if path == "Rattle":
                return token if not is_own(top) else changed(token)
            if path in ("lib", "mathlib", "native", "borrow", "mir", "Prim", "denote"):
                return token
            # a field, or a name behind a module: a step below `c` keeps its spelling
            return respelled(token) if token in fields or token in definitions or CAMEL.match(token) and token in declared else token
        if before == '"':
            return token
        return changed(token)

    return TOKEN.sub(turn, line)


def in_use(line, changed):
    use = USE.match(line)
    if not use or not is_own(use[1]):
        return line
    head, tail = (line.split(".{", 1) + [None])[:2]
    if tail is None:
        return line
    return head + ".{" + TOKEN.sub(lambda it: changed(it[0]), tail)


def in_comment(line, changed):
    # names in a header's list, in back quotes, and in camel case
    def turn(found):
        token = found[0]
        if token not in declared:
            return token
        is_listed = re.match(r"^\s*--  +([^\s].*?)(  +|$)", line) and found.start() < len(re.match(r"^\s*--  +[^\s].*?(?=  +|$)", line)[0])
        is_camel = bool(CAMEL.match(token)) and token != token.lower()
        is_quoted = line[: found.start()].count("`") % 2 == 1
        return changed(token) if is_listed or is_camel or is_quoted else token

    return TOKEN.sub(turn, line)


def turned(path, text, changed):
    out = []
    is_rt = path.endswith(".rt")
    for line in text.split("\n"):
        if is_rt:
            if re.match(r"^\s*ghost use ", line):
                line = in_use(line, changed)
            elif re.match(r"^\s*(requires|ensures|ghost)\b", line):
                line = in_code(line, changed)
            elif re.match(r"^\s*//", line):
                line = in_comment(line.replace("//", "--", 1), changed).replace("--", "//", 1)
        elif USE.match(line):
            line = in_use(line, changed)
        elif line.lstrip().startswith("--"):
            line = in_comment(line, changed)
        else:
            parts = re.split(r"( -- .*)$", line)
            line = in_code(parts[0], changed) + "".join(in_comment(it, changed) for it in parts[1:])
        out.append(line)
    return "\n".join(out)


def in_page(text):
    def turn(found):
        return "`" + TOKEN.sub(lambda it: respelled(it[0]) if it[0] in declared else it[0], found[1]) + "`"

    return re.sub(r"`([^`\n]+)`", turn, text)


def main():
    written, bad = {}, 0
    for path in ANTT + RT:
        seen = collections.defaultdict(set)

        def changed(token):
            new = respelled(token)
            seen[new].add(token)
            return new

        text = read(path)
        written[path] = turned(path, text, changed)
        for new, olds in seen.items():
            if len(olds) > 1:
                bad += 1
                print(f"{path}: {' and '.join(sorted(olds))} fall together as {new}")
    if bad:
        sys.exit(1)
    for path in PAGES:
        written[path] = in_page(read(path))
    for path, text in written.items():
        if text != read(path):
            with open(path, "w", encoding="utf-8") as it:
                it.write(text)
            print(path)


main()
