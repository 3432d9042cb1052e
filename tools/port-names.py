#!/usr/bin/env python3
"""Brings the repository's own definitions and lemmas to the spelling of today's Rattle: words in snake case, types and modules in camel
case. Run it once at the top of the repository, after port.py. tools/port-names.txt has a line `OLD NEW` for each name, and a line
`FILE OLD NEW` for a name that changes in one file or folder alone, since it would fall together with another. Functions of src/, exported
names and strings keep their names."""
import os
import re

here = os.path.dirname(os.path.realpath(__file__))
names, in_file = {}, []
for line in open(os.path.join(here, "port-names.txt"), encoding="utf-8"):
    words = line.split()
    if len(words) == 2:
        names[words[0]] = words[1]
    elif len(words) == 3:
        in_file.append(words)

TOKEN = re.compile(r"[A-Za-z_][\w'₀-₉]*(?:-[\w'₀-₉]+)*")
STRING = re.compile(r'"(?:[^"\\]|\\.)*"')


def respelt(text, which):
    return TOKEN.sub(lambda m: which.get(m.group(0), m.group(0)), text)


def prose(text):
    """In prose a name with a dash is one only between back quotes."""
    plain = {old: new for old, new in names.items() if "-" not in old}
    return "".join(respelt(part, names if k % 2 else plain) for k, part in enumerate(re.split(r"(`[^`]*`)", text)))


def code(text, which):
    """Strings stay."""
    out, at = [], 0
    for m in STRING.finditer(text):
        out += [respelt(text[at : m.start()], which), m.group(0)]
        at = m.end()
    return "".join(out + [respelt(text[at:], which)])


def turned(path, text):
    which = dict(names)
    which.update({old: new for place, old, new in in_file if path.startswith(place)})
    mark = "//" if path.endswith(".rt") else "--"
    lines = []
    for line in text.split("\n"):
        at = line.find(mark)
        if at >= 0 and (at == 0 or line[at - 1] == " ") and not (mark == "//" and '"' in line[:at]):
            lines.append(code(line[:at], which) + prose(line[at:]))
        else:
            lines.append(code(line, which))
    return "\n".join(lines)


for folder, dirs, files in os.walk("."):
    dirs[:] = sorted(d for d in dirs if d not in ("out", ".git", "target", "tools"))
    for f in sorted(files):
        path = os.path.join(folder, f)[2:]
        if not (path.startswith("crates/") and f.endswith((".rt", ".antt", ".edit")) or f.endswith(".md")):
            continue
        with open(path, encoding="utf-8") as it:
            text = it.read()
        new = prose(text) if f.endswith(".md") else turned(path, text)
        if new != text:
            with open(path, "w", encoding="utf-8") as it:
                it.write(new)
