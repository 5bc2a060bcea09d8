#!/usr/bin/env python3
"""After port.py: the repository's own definitions, lemmas and modules in today's spelling.

usage: python3 tools/respell.py FOLDER [--check]      (a checkout as port.py leaves it)

Words are in snake case, types, facts and modules in upper camel case. A name that begins with a type keeps the dash after
it, and so do the names of a proof's goals, which Rattle makes. Functions of src/, exported names and strings stay. A lemma
whose new name another thing has gets `_lem`. With --check it prints the table and writes nothing.
"""

import os
import re
import sys

WORD = r"[^\s(){}.;,@\"«»\[\]\\`]+"
TOKEN = re.compile(r"--[^\n]*|\"(?:[^\"\\]|\\.)*\"|«[^»]*»|" + WORD)
DEFINED = re.compile(r"^((?:abbrev|unfoldable|pub|data|record|ruleset|axiom)\s+)*(" + WORD + r")\s*(?=[:({])")
MODULES = {"inner": "Inner", "computed": "Computed"}
# Two files whose names would now be one with what Rattle makes.
FILES = {"crates/promises/specs/Contracts.antt": "crates/promises/specs/StatedContracts.antt"}
PATHS = [("Rattle.promises.specs.Contracts", "Rattle.promises.specs.StatedContracts")]
# In these crates the word is a field or a module, and no lemma.
OF_A_CRATE = {("promises", "no-function"): "no_function", ("trace", "in-memory"): "in_memory", ("promises", "line_reads_lem"): "line-reads"}


def snake(name):
    """A word in snake case; a part that begins with a capital is a type's or a fact's name, and stays."""
    parts = name.split("-")
    out = []
    for i, part in enumerate(parts):
        if part and part[0].islower():
            part = re.sub(r"([a-z0-9])([A-Z])", lambda m: m[1] + "_" + m[2].lower(), part)
            part = re.sub(r"([A-Z])", lambda m: "_" + m[1].lower(), part)
        out.append(part)
    text = out[0]
    for part in out[1:]:
        joint = "-" if out[0][:1].isupper() and text == out[0] else "_"
        text += joint + part
    return text


def files(root, ends):
    for folder, below, names in os.walk(os.path.join(root, "crates")):
        below[:] = sorted(it for it in below if it != "out")
        for name in sorted(names):
            if name.endswith(ends):
                yield os.path.join(folder, name)


def read(path):
    with open(path, encoding="utf-8") as f:
        return f.read()


def write(path, text):
    with open(path, "w", encoding="utf-8") as f:
        f.write(text)


def is_proof(path):
    return os.path.basename(path) == "Proof.antt"


def gather(root):
    """The names that the repository defines, those of libraries that it uses, and its records' fields."""
    own, fields, foreign, tokens = {}, {}, set(), set()
    for path in files(root, ".antt"):
        text = read(path)
        in_record, depth, in_data, data_depth = False, 0, False, 0
        for line in text.split("\n"):
            if line.startswith("use "):
                m = re.match(r"use (\S+?)(?:\.\{(.*)\})?(?: as (\S+))?$", line)
                if m and not is_proof(path) and not re.match(r"Rattle\.(?!std\b)", m[1]):
                    for it in (m[2] or "").split(","):
                        foreign.add(it.strip().split(" as ")[-1])
                        foreign.add(it.strip().split(" as ")[0])
                if m and " as " in (m[2] or ""):
                    for it in m[2].split(","):
                        if " as " in it:
                            own.setdefault(it.split(" as ")[1].strip(), set()).add(path)
                continue
            if re.match(r"^ *(pub )?record ", line):
                in_record, depth = True, len(line) - len(line.lstrip())
            elif line.strip() and len(line) - len(line.lstrip()) <= depth and not line.lstrip().startswith("--"):
                in_record = False
            if re.match(r"^ *(pub )?data ", line):
                in_data, data_depth = True, len(line) - len(line.lstrip())
            elif line.strip() and len(line) - len(line.lstrip()) <= data_depth and not line.lstrip().startswith("--"):
                in_data = False
            if in_data:
                m = re.match(r"^\s+(" + WORD + r"(?: " + WORD + r")*)\s+:\s", line)
                for name in (m[1].split() if m else []):
                    own.setdefault(name, set()).add(path)
            if in_record:
                m = re.match(r"^\s+(?:pub )?(" + WORD + r")\s+(?::|\()", line)
                if m:
                    fields.setdefault(m[1], set()).add(path)
            m = DEFINED.match(line.lstrip() if re.match(r"^ +(abbrev|unfoldable|pub)\b", line) else line)
            if m and not line.startswith(("--", "mod ", "pub mod ", "unfolding ", "module ", "open ")) and re.search(r"(^|\s):(\s|$)", line):
                own.setdefault(m[2], set()).add(path)
    return own, fields, foreign


def table(root):
    own, fields, foreign = gather(root)
    wanted = {}
    for name, where in own.items():
        if name in foreign or not re.match(r"[a-zA-Z+]", name) or "◌" in name:
            continue
        only_proofs = all(is_proof(it) for it in where)
        if only_proofs and "-" in name:
            continue
        new = snake(name)
        if new != name:
            wanted[name] = new
    for name in fields:
        if name not in foreign and name[0].islower():
            new = snake(name)
            if new != name:
                wanted.setdefault(name, new)
    stay = {it for it in list(own) + list(foreign) if it not in wanted}
    by_new = {}
    for old, new in wanted.items():
        by_new.setdefault(new, []).append(old)
    for new, olds in by_new.items():
        # The word keeps the name; a lemma, which had a dash, gives way.
        olds.sort(key=lambda it: ("-" in it, it))
        taken = new in foreign or (new in stay and "-" in olds[0])
        if new in stay and not taken:
            wanted[new] = new + "_lem"
            print(f"same: {olds[0]} is {new}, which port.py had made of a lemma's name: that is {new}_lem now", file=sys.stderr)
        for old in olds:
            if taken:
                wanted[old] = new + "_lem"
                print(f"same: {old} would be {new}, and is {new}_lem", file=sys.stderr)
            taken = True
    return wanted, fields


def aliases(text):
    """The names of modules that a file brings in, but for those of a proof's own steps."""
    out = set()
    for line in text.split("\n"):
        m = re.match(r"(?:pub )?(?:ghost )?use (Rattle\.\S+?)(?: as (\S+?))?;?$", line)
        if m and "{" not in line:
            out.add(m[2] or m[1].split(".")[-1])
    return out


def turn(text, wanted, fields):
    known = aliases(text)

    def one(m):
        word, at = m[0], m.start()
        if word.startswith("--"):
            return re.sub(r"`([^`]*)`", lambda q: "`" + TOKEN.sub(lambda n: wanted.get(n[0], n[0]), q[1]) + "`", word)
        if word not in wanted:
            return word
        if at and text[at - 1] == ".":
            base = re.search(r"([^\s(){};,@\"«»\[\]\\]+)\.$", text[:at])
            first = base[1].split(".")[0] if base else ""
            if first in known or word in fields:
                return wanted[word]
            return word
        return wanted[word]

    return TOKEN.sub(one, text)


def turn_modules(text):
    for old, new in PATHS:
        text = re.sub(re.escape(old) + r"(?![\w-])", new, text)
    return re.sub(r"(Rattle\.\w+\.specs\.)(inner|computed)(?![\w-])", lambda m: m[1] + MODULES[m[2]], text)


def turn_rattle(text, wanted, fields):
    """The `ghost use` items and the clauses of a source, and what its comments quote."""
    out, at = [], 0
    starts = re.compile(r"ghost use [^;]*;|(?<=\s)(?:requires|ensures)\*?(?: \w+)? \{|//[^\n]*|\"(?:[^\"\\]|\\.)*\"|ghost \w+: \{")
    while True:
        m = starts.search(text, at)
        if not m:
            return "".join(out) + text[at:]
        out.append(text[at : m.start()])
        end = m.end()
        part = m[0]
        if part.endswith("{"):
            depth = 1
            while depth:
                depth += {"{": 1, "}": -1}.get(text[end], 0)
                end += 1
            part = text[m.start() : end]
        if part.startswith('"'):
            out.append(part)
        elif part.startswith("//"):
            out.append(re.sub(r"`([^`]*)`", lambda q: "`" + TOKEN.sub(lambda n: wanted.get(n[0], n[0]) if n[0] not in fields else n[0], q[1]) + "`", part))
        else:
            out.append(turn(turn_modules(part), wanted, fields))
        at = end


def main(argv):
    root = argv[0]
    wanted, fields = table(root)
    if "--check" in argv:
        for old in sorted(wanted):
            print(f"{old}\t{wanted[old]}")
        return
    for path in list(files(root, ".antt")):
        text = read(path)
        crate = os.path.relpath(path, os.path.join(root, "crates")).split(os.sep)[0]
        new = turn(turn_modules(text), wanted | {word: it for (c, word), it in OF_A_CRATE.items() if c == crate}, fields)
        if os.path.basename(path) == "Lib.antt":
            new = re.sub(r"(?m)^((?:pub )?mod )(inner|computed)$", lambda m: m[1] + MODULES[m[2]], new)
            new = re.sub(r"(?m)^((?:pub )?mod )Contracts$", r"\1StatedContracts", new)
        if new != text:
            write(path, new)
    for path in list(files(root, ".rt")):
        text = read(path)
        new = turn_rattle(text, wanted, fields)
        if new != text:
            write(path, new)
    for path in list(files(root, ".edit")):
        text = read(path)
        new = "\n".join(turn_modules(TOKEN.sub(lambda m: wanted.get(m[0], m[0]), line)) if line.startswith(("old:", "new:")) else line for line in text.split("\n"))
        new = re.sub(r"(?m)^(file: specs/)(inner|computed)/", lambda m: m[1] + MODULES[m[2]] + "/", new)
        new = re.sub(r"(?m)^file: specs/Contracts\.antt$", "file: specs/StatedContracts.antt", new)
        if new != text:
            write(path, new)
    for old, new in FILES.items():
        if os.path.exists(os.path.join(root, old)):
            os.rename(os.path.join(root, old), os.path.join(root, new))
    for crate in sorted(os.listdir(os.path.join(root, "crates"))):
        for old, new in MODULES.items():
            for end in ("", ".antt"):
                path = os.path.join(root, "crates", crate, "specs", old + end)
                if os.path.exists(path):
                    os.rename(path, os.path.join(root, "crates", crate, "specs", new + end))


if __name__ == "__main__":
    main(sys.argv[1:])
