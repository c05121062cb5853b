#!/usr/bin/env python3
"""Turns the names of this repository's own definitions, lemmas and fields to the spelling of the installed Rattle.

usage: tools/respell.py [--show]     at the top of the repository, once, right after the kit's port.py

Words are in snake case, types in upper camel case. A dash joins two names of definitions (length-differences); the words of a phrase are
joined by '_' (left_in_window). A lemma whose new name is that of a definition, or of one of the library's words
that its file brings in, gets '_lem'. Names of Rust, exported names and strings stay.
The words are turned by the kit's snake.py, in specs/, proofs/, the clauses and ghost items of src/ and the code spans of pages and
comments; in edits by this script. --show writes nothing: it prints the table, and each file where a new name stood already.
"""

import collections
import os
import re
import subprocess
import sys
import tempfile

SNAKE = "port/notes/2026-11-18-names-are-in-snake-case/snake.py"
WORD = re.compile(r'[^\s(){}.;,@"«»`]+')
# The library's functions whose names a dash may join, and own definitions whose names are plain words in a phrase.
LIBRARY = set("length take drop append set get_or sum reverse add sub mul div mod xor".split())
PHRASES = set("after first last before bytes fixed typed any as no written by others whole none same wrong text type fits".split())


def sources(endings):
    for folder, dirs, files in os.walk("crates"):
        dirs[:] = sorted(d for d in dirs if d != "out")
        for f in sorted(files):
            if f.endswith(endings):
                yield os.path.join(folder, f)


def declared():
    """Each declared name, with its file and what it is: a signature, or the word record, data, ruleset or mod."""
    for path in sources(".antt"):
        if path.endswith("/Proof.antt"):
            continue
        with open(path, encoding="utf-8") as f:
            lines = f.read().split("\n")
        for i, line in enumerate(lines):
            m = re.match(r"\s*(?:(?:abbrev|unfoldable|pub)\s+)*([^\s(){}:;,.]+)\s+:\s", line)
            if m and not line.lstrip().startswith(("let ", "in ", "|", "→", "--", "use ")):
                signature, j = line, i + 1
                while j < len(lines) and re.match(r"\s+(→|≡|×|⊎)", lines[j]):
                    signature += " " + lines[j].strip()
                    j += 1
                yield m[1], path, signature.strip()
            m = re.match(r"\s*(?:pub\s+)?(record|data|ruleset|mod)\s+([^\s(){}:;,.]+)", line)
            if m:
                yield m[2], path, m[1]


def snake(name):
    return re.sub(r"(?<=[a-z0-9])([A-Z])", lambda m: "_" + m[1].lower(), name)


def camel(name):
    return "".join(w[:1].upper() + w[1:] for w in name.split("-"))


def split(name, names):
    """The fewest names of definitions, at least two, that a name joins."""
    words, best = name.split("-"), None

    def on(at, found):
        nonlocal best
        if at == len(words):
            if len(found) > 1 and (best is None or len(found) < len(best)):
                best = found
            return
        for end in range(at + 1, len(words) + 1):
            word = "_".join(words[at:end])
            if word in names:
                on(end, found + [word])

    on(0, [])
    return best


def table():
    kinds = collections.OrderedDict()
    for name, path, what in declared():
        kinds.setdefault(name, []).append((path, what))
    defined = {
        name
        for name, found in kinds.items()
        if name[:1].islower() and any("/specs/" in p and not w.startswith("pub " + name) or w.startswith(("abbrev", "unfoldable")) for p, w in found)
    }
    names = ({snake(n).replace("-", "_") for n in defined} | LIBRARY) - PHRASES
    turned = {}
    for name, found in kinds.items():
        if any(w in ("record", "data") or re.search(r"(: |→ )Type 0$", w) for _, w in found):
            new = camel(name)
        elif name[:1].isupper():
            new = name
        else:
            new = snake(name)
            joined = split(new, names)
            new = "-".join(joined) if joined else new.replace("-", "_")
        turned[name] = new
    together = collections.defaultdict(list)
    for name, new in turned.items():
        together[new].append(name)
    for new, olds in together.items():
        if len(olds) > 1:
            laws = [n for n in olds if n not in defined]
            if len(laws) != len(olds) - 1:
                sys.exit(f"respell: these fall together: {', '.join(olds)}")
            for name in laws:
                turned[name] = new + "_lem"
    for path in sources(".antt"):
        with open(path, encoding="utf-8") as f:
            text = f.read()
        brought = {w for line in re.findall(r"(?m)^use .*", text) for w in WORD.findall(line)} - set(turned)
        for name in set(WORD.findall(text)) & set(turned) - defined:
            if turned[name] in brought:
                turned[name] += "_lem"
    return {name: new for name, new in turned.items() if name != new}


def look(turn):
    """Where a new name stood already: in a file of definitions or proofs, or as a parameter beside a clause."""
    for path in sources((".antt", ".rt")):
        with open(path, encoding="utf-8") as f:
            words = set(WORD.findall(f.read()))
        for name in sorted(words & set(turn)):
            if turn[name] in words and turn[name] not in turn:
                print(f"look: {path}: {name} becomes {turn[name]}, which stands there")


def main(argv):
    if argv not in ([], ["--show"]) or not os.path.isdir("crates"):
        sys.exit(__doc__)
    turn = table()
    if argv:
        for name, new in turn.items():
            print(f"{name}\t{new}")
        look(turn)
        return
    kit = os.path.dirname(subprocess.run(["rt", "doc"], capture_output=True, text=True, check=True).stdout.strip())
    with tempfile.NamedTemporaryFile("w", suffix=".tsv", encoding="utf-8") as f:
        f.writelines(f"{name}\t{new}\n" for name, new in turn.items())
        f.flush()
        pages = [p for p in ("README.md", "docs") if os.path.exists(p)]
        subprocess.run([sys.executable, os.path.join(kit, SNAKE), "--table", f.name, "--only", "antt,rt,md", "crates", *pages], check=True)
    for path in sources(".edit"):
        with open(path, encoding="utf-8") as f:
            text = f.read()
        with open(path, "w", encoding="utf-8") as f:
            f.write(WORD.sub(lambda m: turn.get(m[0], m[0]), text))


if __name__ == "__main__":
    main(sys.argv[1:])
