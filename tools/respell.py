#!/usr/bin/env python3
"""Brings the repository's own names to today's spelling: words in snake case, modules in camel case.

usage: respell.py [ROOT]     once, right after port.py, at the top of the repository

tools/respell.tsv has a row for each name: the old one, a tab, the new one. Whole words turn, all rows at once:
  .antt         code and comments; in a comment a name with a dash between backticks alone
  .rt           all in ghost use items; elsewhere, but for strings, names with an inner capital
  .edit         names with an inner capital
  .md .h .c .rs code spans of .md; comments of the others: names between backticks
Functions of src/, exported names, strings, inputs and outputs have no row. The folders in FOLDERS, which are modules, move.
"""
import os
import re
import subprocess
import sys

ROOT = os.path.realpath(sys.argv[1] if len(sys.argv) > 1 else ".")
HERE = os.path.dirname(os.path.realpath(__file__))
WORD = re.compile(r'[^\s(){}.;,@"«»`|]+')
FOLDERS = [("specs", "inner", "Inner")] + [("history/proofs", n, n.capitalize()) for n in ("names", "records", "repeat", "root", "step", "theorem", "tree", "verdict", "walk")]


def rows():
    with open(os.path.join(HERE, "respell.tsv"), encoding="utf-8") as f:
        return dict(line.rstrip("\n").split("\t") for line in f)


TABLE = rows()
CAMEL = {o: n for o, n in TABLE.items() if "-" not in o and re.search("[A-Z]", o)}
PROSE = {o: n for o, n in TABLE.items() if "-" in o or re.search("[A-Z]", o)}


def turned(text, table):
    def one(m):
        word = m.group(0)
        tail = ""
        while word and word not in table and word[-1] in "'’:":
            word, tail = word[:-1], word[-1] + tail
        if word not in table:
            return m.group(0)
        return table[word] + tail

    return WORD.sub(one, text)


def modules(text):
    text = re.sub(r"(Rattle\.\w+\.specs|specs)\.inner\b", r"\1.Inner", text)
    for _, old, new in FOLDERS[1:]:
        text = re.sub(rf"(Rattle\.history\.proofs)\.{old}\b", rf"\1.{new}", text)
    return text


def paths(text):
    text = re.sub(r"\bspecs/inner\b", "specs/Inner", text)
    for _, old, new in FOLDERS[1:]:
        text = re.sub(rf"\bhistory/proofs/{old}/", f"history/proofs/{new}/", text)
    return text


def antt(text):
    out = []
    for line in text.split("\n"):
        code, dashes, comment = re.match(r"^(.*?)((?:(?<=\s)|^)--(?=\s|$))?((?<=--).*)?$", line).groups()
        code = modules(turned(code, TABLE))
        comment = re.sub(r"`[^`]*`|[^`]+", lambda m: turned(m.group(0), PROSE if m.group(0)[0] == "`" else CAMEL), comment or "")
        out.append(code + (dashes or "") + comment)
    return "\n".join(out)


def rt(text):
    def part(m):
        it = m.group(0)
        if it.startswith("//"):
            return re.sub(r"`[^`\n]*`|[^`]+", lambda s: turned(s.group(0), PROSE if s.group(0)[0] == "`" else CAMEL), it)
        return it if it[0] == '"' and len(it) > 1 else turned(it, TABLE if it.startswith("ghost") else CAMEL)

    return modules(re.sub(r'//[^\n]*|"(?:[^"\\\n]|\\.)*"|ghost\s+use\b[^;]*;|(?:(?!ghost\s+use\b|//)[^"])+|"', part, text))


def spans(text):
    return paths(re.sub(r"```.*?```|`[^`\n]+`", lambda m: modules(turned(m.group(0), PROSE)), text, flags=re.S))


def comments(text):
    return re.sub(r"(?m)//[^\n]*|/\*.*?\*/|^ \*[^\n]*", lambda m: spans(m.group(0)), text, flags=re.S)


def edit(text):
    return paths(turned(text, CAMEL))


TURN = {".antt": antt, ".rt": rt, ".edit": edit, ".md": spans, ".h": comments, ".c": comments, ".rs": comments}


def move(old, new):
    subprocess.run(["git", "mv", old, new], cwd=ROOT, check=True)


def main():
    for folder, old, new in FOLDERS:
        places = [f"crates/{c}/specs" for c in sorted(os.listdir(os.path.join(ROOT, "crates")))] if folder == "specs" else [f"crates/{folder}"]
        for place in places:
            for end in ("", ".antt"):
                if os.path.exists(os.path.join(ROOT, place, old + end)):
                    move(f"{place}/{old}{end}", f"{place}/{new}{end}")
                lib = os.path.join(ROOT, place, "Lib.antt")
                if os.path.isfile(lib):
                    text = open(lib, encoding="utf-8").read()
                    with open(lib, "w", encoding="utf-8") as f:
                        f.write(re.sub(rf"(?m)^((?:pub )?mod ){old}$", rf"\g<1>{new}", text))
    n = 0
    for top, folders, names in os.walk(ROOT):
        folders[:] = sorted(d for d in folders if d not in ("out", ".git", "target", "tools"))
        for name in sorted(names):
            turn = TURN.get(os.path.splitext(name)[1])
            if not turn:
                continue
            path = os.path.join(top, name)
            with open(path, encoding="utf-8") as f:
                text = f.read()
            new = turn(text)
            if new != text:
                n += 1
                with open(path, "w", encoding="utf-8") as f:
                    f.write(new)
    print(f"respell: {len(TABLE)} rows, {n} files")


if __name__ == "__main__":
    main()
