#!/usr/bin/env python3
"""Respells the repository's own definitions and lemmas in snake case: `constantsOf` and `cut-line` become
`constants_of` and `cut_line`. Types keep their capitals; names of std, of the code and of goals stay.

usage: python3 tools/respell.py [--list]     at the top of the repository, once

It goes by text. A name counts as the repository's own where a file of specs/ or proofs/ gives it a signature, a field
or a constructor, or an import gives it by `as`. It says which names would fall together, and then writes nothing.
std's `AllByRecursion`, which an import calls `All`, gets its own name: `All` is another word of std.
"""
import os
import re
import sys

NAME = r"[^\s(){};,.λ:=⌜⌝]+"
SIGNATURE = re.compile(rf"((?:abbrev |unfoldable |pub )*)({NAME}) : (.*)")
MEMBER = re.compile(rf"\s+(?:pub )?({NAME}) :(?= )")
TYPE = re.compile(rf"(?:abbrev |unfoldable |pub )*(?:data|record) (?:pub )?({NAME})")
GOAL = re.compile(r"\s*(?:goal|goals|need|needs|rule|rules|given)\.")
TOKEN = re.compile(r"[^\s(){};,.λ⌜⌝|]+")
IMPORTED = re.compile(r"^(?:ghost )?use (Rattle\.std|borrow|logic|lib|Prim|mathlib|core|Prelude)[^{;\n]*\{([^}]*)\}", re.M)


# a lemma beside a definition of the same words, or beside a function whose name it would have
LEMMAS = {
    "left-all": "left_all_lem",
    "operand_on": "operand_on_lem",
    "places-are-first": "places_are_first_lem",
    "side-on": "side_on_lem",
    "sign-if": "sign_if_lem",
    "sign-of": "sign_of_lem",
    "target-on": "target_on_lem",
}


def texts(*endings):
    for folder, folders, files in os.walk("crates"):
        folders[:] = sorted(f for f in folders if f != "out")
        for file in sorted(files):
            if file.endswith(endings):
                yield os.path.join(folder, file)


def read(path):
    with open(path, encoding="utf-8") as file:
        return file.read()


def snake(name):
    if name in LEMMAS:
        return LEMMAS[name]
    if not name[0].islower():
        return name
    words = re.sub(r"(?<=[a-z0-9])([A-Z])", lambda m: "_" + m.group(1).lower(), name)
    return re.sub(r"(?<=[a-z0-9])-(?=[a-z0-9])", "_", words)


def own_names():
    names = set()
    for path in texts(".antt"):
        within = False
        for line in read(path).split("\n"):
            if TYPE.match(line):
                within = True
            elif line and not line.startswith(" "):
                within = False
                found = SIGNATURE.match(line)
                if found and not line.startswith(("use ", "--")) and not GOAL.match(found.group(3)):
                    names.add(found.group(2))
            elif within and MEMBER.match(line):
                names.add(MEMBER.match(line).group(1))
    for path in texts(".rt"):
        for items in re.findall(r"^ghost use [^{;\n]*\{([^}]*)\}", read(path), re.M):
            names |= {item.split(" as ")[1].strip() for item in items.split(",") if " as " in item}
    return names


def foreign_names():
    names = set()
    for path in texts(".antt", ".rt"):
        for _, items in IMPORTED.findall(read(path)):
            names |= {item.strip().split(" as ")[-1].strip() for item in items.split(",")}
    return names


def clashes(turned, own, foreign):
    seen = {}
    for old in sorted(turned):
        new = turned[old]
        if new in own and new not in turned:
            yield f"{old}: {new} is there already"
        if new in foreign or old in foreign:
            yield f"{old}: {new} or it is a name of the library"
        if new in seen:
            yield f"{old} and {seen[new]} become {new}"
        seen[new] = old


def respell(text, turned, ending):
    lines = []
    for line in text.split("\n"):
        mark = "--" if ending == ".antt" else "//"
        at = line.find(mark + " ") if line.lstrip().startswith(mark) else -1
        body = line if at < 0 else ""
        rest = "" if at < 0 else line
        body = TOKEN.sub(lambda m: turned.get(m.group(0), m.group(0)), body)
        rest = TOKEN.sub(lambda m: turned.get(m.group(0), m.group(0)) if "-" not in m.group(0) else m.group(0), rest)
        lines.append(body + rest)
    return "\n".join(lines)


def by_recursion(text):
    renamed = "{AllByRecursion as All}"
    if renamed not in text:
        return text
    return re.sub(r"(?<![\w'.-])All(?![\w'-])", "AllByRecursion", text.replace(renamed, "{AllByRecursion}"))


def main():
    own = own_names()
    turned = {name: snake(name) for name in own if snake(name) != name}
    if "--list" in sys.argv:
        for old in sorted(turned):
            print(old, turned[old])
        return 0
    said = list(clashes(turned, own, foreign_names()))
    if said:
        print("\n".join(said))
        return 1
    for path in texts(".antt", ".rt"):
        old = read(path)
        new = respell(by_recursion(old), turned, os.path.splitext(path)[1])
        if new != old:
            with open(path, "w", encoding="utf-8") as file:
                file.write(new)
    print(len(turned), "names respelled")
    return 0


if __name__ == "__main__":
    sys.exit(main())
