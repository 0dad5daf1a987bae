#!/usr/bin/env python3
"""Respells the repository's own definitions and lemmas as today's Rattle spells its own: words in snake case, types and facts in camel case.
And the crate `futures` becomes `jobs`, since the kit has a library named futures.

usage: python3 tools/respell.py        once, at the top of the repository, after /opt/rattle/port/port.py

A name is respelled where a file of specs/ or proofs/ defines it: at the head of a definition, a lemma, a field or a constructor, also under
`where`. Names that Rattle makes from the code (the names of goals, and the steps in them) and names of the library keep their dashes.
Comments and strings are not touched. It stops, and writes nothing, where two names would fall together in one file.
"""
import os
import re
import subprocess
import sys

OLD, NEW = "futures", "jobs"
DASHED = r"[A-Za-z][\w']*(?:-[\w'\u2080-\u2089]+)+"
TOKEN = re.compile(r"(?<![\w'.\u2080-\u2089-])(" + DASHED + r")(?![\w'\u2080-\u2089-])")
FIELD = re.compile(r"(?<=\.)(" + DASHED + r")(?![\w'\u2080-\u2089-])")
HEAD = re.compile(r"^\s*(?:(?:pub|abbrev|unfoldable|record|data|let)\s+)*(" + DASHED + r")\s*(?:\([^=]*\)\s*|\{[^=]*\}\s*)*:\s")
# names that are bound in the middle of a line, or by 'as'
EXTRA = {"first-is", "times-moved", "long-moved", "either-of", "without-content", "length-shuffled", "taken-in"}
LET = re.compile(r"\blet (" + DASHED + r")\b")
USE = re.compile(r"^\s*(?:pub |ghost )?use ((?:[\w']+\.)*[\w']+)\.\{(.*)\};?\s*$")


def files():
    for folder, dirs, names in os.walk("crates"):
        dirs[:] = sorted(d for d in dirs if d != "out")
        for n in sorted(names):
            if n.endswith((".rt", ".antt")):
                yield os.path.join(folder, n)


def split(line, rt):
    """The line's text, and its comment."""
    mark = "//" if rt else "--"
    at = line.find(mark)
    while at >= 0:
        before = line[:at]
        if before.count('"') % 2 == 0 and (rt or at == 0 or line[at - 1] == " "):
            return before, line[at:]
        at = line.find(mark, at + 1)
    return line, ""


def respelled(name):
    if name[0].isupper():
        return "".join(p[0].upper() + p[1:] for p in name.split("-"))
    return name.replace("-", "_")


def main():
    texts = {p: open(p, encoding="utf-8").read() for p in files()}
    own = set(EXTRA)
    for p, t in texts.items():
        if not p.endswith(".antt"):
            continue
        for line in t.splitlines():
            code, _ = split(line, False)
            m = HEAD.match(code)
            if m and not re.search(r":\s+goal\.", code):
                own.add(m.group(1))
            own.update(LET.findall(code))
    changed, renamed = {}, {}
    for p, t in texts.items():
        rt = p.endswith(".rt")
        foreign, made = set(), set()
        for line in t.splitlines():
            code, _ = split(line, rt)
            m = USE.match(code)
            if m and (not m.group(1).startswith("Rattle.") or m.group(1).startswith("Rattle.std.")):
                foreign.update(TOKEN.findall(m.group(2)))
            made.update(re.findall(r"^\s*(?:pub |abbrev )*(" + DASHED + r")\s*:\s+goal\.", code))
        mine = own - foreign - made
        out, here = [], {}
        for line in t.split("\n"):
            code, comment = split(line, rt)

            def turn(m):
                n = m.group(1)
                if n not in mine:
                    return n
                here[n] = respelled(n)
                return here[n]

            parts = re.split(r'("(?:[^"\\]|\\.)*")', code) if rt else [code]
            for i in range(0, len(parts), 2):
                parts[i] = TOKEN.sub(turn, parts[i])
                if not rt or re.search(r"Rattle\.|ghost |ensures|requires|\u2261", parts[i]):
                    parts[i] = FIELD.sub(lambda m: turn(m) if m.group(1) in own and not re.search(r"\bgoal\.$|\bc(?:\.[\w'-]+)*\.$", m.string[: m.start()][-60:]) else m.group(1), parts[i])
                parts[i] = re.sub(r"\bRattle\." + OLD + r"\.", "Rattle." + NEW + ".", parts[i])
                if rt:
                    parts[i] = re.sub(r"\buse " + OLD + r"::", "use " + NEW + "::", parts[i])
                    parts[i] = re.sub(r"(?<![\w:])" + OLD + r"::", NEW + "::", parts[i])
            out.append("".join(parts) + comment)
        new = "\n".join(out)
        words = set(re.findall(r"[A-Za-z][\w'\u2080-\u2089]*", t))
        for n, r in sorted(here.items()):
            renamed[n] = r
            if r in words:
                print(f"look: {p}: {n} becomes {r}, which the file has already")
        if len(set(here.values())) < len(here):
            sys.exit(f"respell: {p}: two names fall together: {here}")
        if new != t:
            changed[p] = new
    for p, new in changed.items():
        with open(p, "w", encoding="utf-8") as f:
            f.write(new)
    print(f"respell: {len(renamed)} names, {len(changed)} files")
    for n, r in sorted(renamed.items()):
        print(f"  {n} -> {r}")
    with open("crates.txt", encoding="utf-8") as f:
        listed = f.read()
    lines = [l if l.startswith("#") else re.sub(rf"\b{OLD}\b", NEW, l) for l in listed.split("\n")]
    with open("crates.txt", "w", encoding="utf-8") as f:
        f.write("\n".join(lines))
    if os.path.isdir("crates/" + OLD):
        subprocess.run(["git", "mv", "crates/" + OLD, "crates/" + NEW], check=True)


if __name__ == "__main__":
    main()
