#!/usr/bin/env python3
"""Brings the repository's own names to the spelling of today's Rattle. Run once at the top, after port.py.

A word is in snake case, a fact in upper camel case, and the crate `log`, whose name a library of the kit has, is `bus_log`.
"""
import os
import re
import sys

PART = re.compile(r"^[a-z][a-z0-9]*[A-Z]")
WORD = re.compile(r"[^\s(){}\[\],;.:`\"]+")

# Names that would fall together with a field or a lemma beside them, and a fact whose name is a plain word.
OWN = {
    "inWindow": "window_loss",
    "rowWords": "words_of_row",
    "getD-in": "get_or-in",
    "getD-piece": "get_or-piece",
    "getD-tab": "get_or-tab",
    "possible-asks": "possible-Asks",
    "possible-there": "possible-There",
    "search-asks": "search-Asks",
    "search-there": "search-There",
}


def snake(word):
    if word in OWN:
        return OWN[word]
    parts = word.split("-")
    return "-".join(re.sub(r"(?<=[a-z0-9])[A-Z]", lambda m: "_" + m.group(0).lower(), p) if PART.match(p) else p for p in parts)


def files(ends):
    for folder, dirs, names in os.walk("crates"):
        dirs[:] = sorted(d for d in dirs if d != "out")
        for n in sorted(names):
            if n.endswith(ends):
                yield os.path.join(folder, n)


def read(path):
    with open(path, encoding="utf-8") as f:
        return f.read()


def write(path, text):
    if text != read(path):
        with open(path, "w", encoding="utf-8") as f:
            f.write(text)


def own_words():
    """The words of the definitions and proofs that change."""
    words = set()
    for p in files(".antt"):
        words |= {w for w in WORD.findall(read(p)) if snake(w) != w}
    return words


def outside_strings(line, turn):
    """Turns a line of code but for its strings."""
    pieces = re.split(r'("(?:[^"\\]|\\.)*")', line)
    return "".join(p if i % 2 else turn(p) for i, p in enumerate(pieces))


def respell():
    words = own_words()

    def in_proofs(text):
        return WORD.sub(lambda m: snake(m.group(0)) if m.group(0) in words else m.group(0), text)

    for p in files(".antt"):
        t = in_proofs(read(p))
        if p.startswith(("crates/cells/specs/Table", "crates/cells/proofs/mark/")):
            t = t.replace("pub to :", "pub Becomes :").replace("\nto x", "\nBecomes x").replace("(to ", "(Becomes ").replace("{to}", "{Becomes}")
        t = re.sub(r"\bRattle\.log\.", "Rattle.bus_log.", t)
        write(p, t)
    for p in files((".rt", ".edit")):
        t = "\n".join(outside_strings(line, in_proofs) for line in read(p).split("\n"))
        t = re.sub(r"\bRattle\.log\.", "Rattle.bus_log.", t)
        t = re.sub(r"(?<![\w.:])log::(?=\w|\{)", "bus_log::", t)
        write(p, t)


def rename_crate():
    if os.path.isdir("crates/log"):
        os.rename("crates/log", "crates/bus_log")
    t = read("crates.txt")
    write("crates.txt", re.sub(r"(?m)(?<=[ :])log(?=[ :\n])|^log(?=:)", "bus_log", t))


if __name__ == "__main__":
    if not os.path.isdir("crates"):
        sys.exit("run it at the top of the repository")
    rename_crate()
    respell()
