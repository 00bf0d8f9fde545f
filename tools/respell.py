#!/usr/bin/env python3
"""Respells this repository's own names as the kit's scripts left them to us: run once, at the top, after port.py.

Words are in snake case, types in camel case. Three things are turned, in crates/*/{src,specs,proofs}:
- the definitions, lemmas and fields that specs/ and proofs/ declare with dashes: `open-orders` is `open_orders`, and a
  type, `Same-policies`, is `SamePolicies`;
- in proof files the names that Rattle makes of source names, which keep the source's spelling: `trade-level-requires` is
  `trade_level-requires`;
- in proof files the words of Rattle's own in such names: `overflow-add-x` is `overflow_add-x`.
Strings, and comments but for names between backquotes, stay as they are.

usage: python3 tools/respell.py           rewrites the files, and prints names that fall together
       python3 tools/respell.py --list    prints the renamings only
"""

import os
import re
import sys

NAME = re.compile(r"[A-Za-z_][\w'′]*(?:-[\w'′]+)*")
DECLARED = re.compile(r"^\s*(?:(?:abbrev|unfoldable|pub)\s+)*(?:(?:record|data)\s+([A-Za-z][\w'′]*(?:-[\w'′]+)+)|([A-Za-z][\w'′]*(?:-[\w'′]+)+)\s*:)")
# The names under which a file takes something.
TAKEN_AS = re.compile(r"^\s*(?:ghost )?use .*?$", re.M)
# A parameter that no pattern here finds.
PARAMETERS = ["first-number"]
# What a file takes from elsewhere keeps its name there.
TAKEN = re.compile(r"^\s*(?:ghost )?use (?:Rattle\.std|borrow|denote|native|lib|mathlib|logic|specs)\b[^{]*\{([^}]*)\}", re.M)
WORDS = ["overflow_add", "overflow_sub", "overflow_mul", "overflow_cast", "overflow_step", "overflow_shl", "overflow_shr",
         "nonzero_div", "nonzero_rem", "slice_bounds", "offset_bounds", "in_ok", "in_err", "in_default", "invariant_of"]
# Names that Rattle makes in every proof, which only look like ours.
MADE = re.compile(r"^(returns|invariant-loop|decreases|loop-|if-|in-|then-|else-|bounds-|After-|At-|In-|Then-|Else-|After_)")


def files(top):
    for folder, dirs, names in os.walk(os.path.join(top, "crates")):
        dirs[:] = sorted(d for d in dirs if d != "out")
        for name in sorted(names):
            if name.endswith((".rt", ".antt")):
                yield os.path.join(folder, name)


def answers(path):
    return os.path.basename(path) in ("Answers.antt", "Invariants.antt")


def read(path):
    with open(path, encoding="utf-8") as f:
        return f.read()


def respelled(name):
    if name in ("All-append", "All-weaker"):  # lemmas of a fact, which keeps its capital
        return name
    if name[0].isupper():
        return "".join(p[:1].upper() + p[1:] for p in name.split("-"))
    return name.replace("-", "_")


def pieces(path, text):
    """Splits a text into (kind, piece): code, string, comment."""
    mark = "//" if path.endswith(".rt") else "--"
    out, i, start = [], 0, 0
    while i < len(text):
        if text[i] == '"':
            out.append(("code", text[start:i]))
            j = i + 1
            while j < len(text) and text[j] != '"':
                j += 2 if text[j] == "\\" else 1
            out.append(("string", text[i:j + 1]))
            i = start = j + 1
        elif path.endswith(".rt") and text[i] == "'" and re.match(r"'(\\.|[^\\'])'", text[i:i + 4]):
            i += len(re.match(r"'(\\.|[^\\'])'", text[i:i + 4]).group(0))
        elif text.startswith(mark, i) and (i == 0 or text[i - 1] in " \t\n"):
            out.append(("code", text[start:i]))
            j = text.find("\n", i)
            j = len(text) if j < 0 else j
            out.append(("comment", text[i:j]))
            i = start = j
        else:
            i += 1
    out.append(("code", text[start:]))
    return out


def main():
    top = "."
    texts = {p: read(p) for p in files(top)}
    ours = {}
    for path, text in texts.items():
        if path.endswith(".antt"):
            for line in text.splitlines():
                m = DECLARED.match(line)
                if m and not line.lstrip().startswith("--") and not (answers(path) and re.search(r":\s*goal\.", line)):
                    name = m.group(1) or m.group(2)
                    if not (answers(path) and MADE.match(name)):
                        ours[name] = respelled(name)
    for text in texts.values():
        for line in TAKEN_AS.findall(text):
            for name in re.findall(r" as ([a-z][\w']*(?:-[\w']+)+)", line):
                ours[name] = respelled(name)
    for name in PARAMETERS:
        ours[name] = respelled(name)
    # names of the source with an underscore, by their spelling with a dash
    source = {}
    for path, text in texts.items():
        if path.endswith(".rt"):
            for kind, piece in pieces(path, text):
                if kind == "code":
                    for name in re.findall(r"\b[A-Za-z][A-Za-z0-9]*(?:_[A-Za-z0-9]+)+\b", piece):
                        source[name.replace("_", "-")] = name
    for name in ("saturating_add", "saturating_sub", "is_empty", "is_ascii_digit", "strip_prefix", "to_vec", "as_slice",
                 "from_residual", "split_once", "from_utf8"):
        source[name.replace("_", "-")] = name
    for word in WORDS:
        source[word.replace("_", "-")] = word
    if "--list" in sys.argv:
        for name in sorted(ours):
            print(name, ours[name])
        return
    longest = sorted(source, key=len, reverse=True)
    made = re.compile(r"(?<![\w'-])(?:" + "|".join(map(re.escape, longest)) + r")(?![\w'])") if longest else None
    inner = re.compile(r"(?<![\w'])(?:" + "|".join(map(re.escape, longest)) + r")(?![\w'])")

    taken = {p: {n.strip() for group in TAKEN.findall(text) for n in group.split(",")} for p, text in texts.items()}

    def turn(path, piece):
        def one(m):
            name = m.group(0)
            if name in taken[path]:
                return name
            if name in ours:
                return ours[name]
            if answers(path) and "-" in name:
                return inner.sub(lambda k: source[k.group(0)], name)
            return name
        return NAME.sub(one, piece)

    new = {}
    for path, text in texts.items():
        before = set()
        for kind, piece in pieces(path, text):
            if kind == "code":
                before |= set(NAME.findall(piece))
        for name in before:
            if name in ours and ours[name] != name and ours[name] in before:
                print(f"together: {path}: {name} and {ours[name]}")
        out = []
        for kind, piece in pieces(path, text):
            if kind == "code":
                piece = turn(path, piece)
            elif kind == "comment":
                piece = re.sub(r"`[^`]*`", lambda m: turn(path, m.group(0)), piece)
            out.append(piece)
        new[path] = "".join(out)
    for path, text in new.items():
        if text != texts[path]:
            with open(path, "w", encoding="utf-8") as f:
                f.write(text)


main()
