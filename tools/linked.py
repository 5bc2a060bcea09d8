#!/usr/bin/env python3
"""Writes crates/NAME/proofs/Linked.antt: each function's code with the code of all that it calls, for a look-up that finds it.

usage: python3 tools/linked.py FOLDER NAME..

FOLDER holds, for each crate NAME, what `rt check --generated FOLDER/NAME` wrote in the crate's folder. Run it again where a
function came, went or calls others.
"""

import os
import re
import sys


def read(path):
    with open(path, encoding="utf-8") as f:
        return f.read()


def known():
    out = {}
    for line in read("crates.txt").split("\n"):
        m = re.match(r"([a-z_0-9]+)(?: staticlib)?:(.*)$", line)
        if m:
            out[m[1]] = m[2].split()
    return out


def functions(folder, crate):
    """Each function's path, with its symbol and the paths of what it calls, in the order that its link takes them."""
    root = os.path.join(folder, crate, f"Rattle-{crate}-proofs")
    out = {}
    for below, _, names in os.walk(root):
        if "TheLink.antt" not in names or "TheLinks" in below or below == root:
            continue
        text = read(os.path.join(below, "TheLink.antt"))
        if "pub has :" not in text:
            continue
        path = os.path.relpath(below, root).replace(os.sep, ".")
        key = os.path.join(folder, crate, f"Rattle-{crate}-specs", "contracts", *path.split("."), "Key.antt")
        symbol = re.search(r'symbol = "(.*)"', read(key))[1]
        uses = {}
        for line in text.split("\n"):
            m = re.match(r"use Rattle\.(\w+)\.proofs\.(\S+)\.Symbol(?: as (\S+))?$", line)
            if m:
                uses[m[3] or "Symbol"] = (m[1], m[2])
        has = text[text.index("pub has :") : text.index("has = λ")]
        calls = [uses[it] for it in re.findall(r"HasT look pool (Symbol\S*?)\.code", has)]
        out[path] = (symbol, calls)
    return out


def name_of(path):
    return path.replace(".", "_")


def alias_of(path):
    return "link-" + path.replace(".", "-")


def ordered(of, crate):
    out, done = [], set()

    def visit(path):
        if path in done:
            return
        done.add(path)
        for c, p in of[path][1]:
            if c == crate:
                visit(p)
        out.append(path)

    for path in sorted(of):
        visit(path)
    return out


def needs_of(crate, of, below, all_of):
    """The crates whose functions this one's call, directly or not, in the order of crates.txt."""
    used = {c for path in of for c, _ in of[path][1] if c != crate}
    return sorted({d for c in used for d in [*all_of[c], c]}, key=below.index)


def top_of(comment, uses):
    return [*(f"-- {it}" for it in comment), "-- Assumes nothing.", *(f"use {it}" for it in uses)]


def given_of(c, all_of, prefix="in_"):
    return "".join(f" {prefix}{d}" for d in [*all_of[c], c])


def has_of(crate, path, calls, all_of):
    parts = [name_of(p) if c == crate else f"({c}.{name_of(p)} look{given_of(c, all_of)})" for c, p in calls]
    return [
        f"  pub {name_of(path)} : HasT look false {alias_of(path)}.code",
        f"  {name_of(path)} = {alias_of(path)}.has look false here.{name_of(path)}" + "".join(" " + p for p in parts),
        "",
    ]


def text_of(crate, of, all_of):
    order = ordered(of, crate)
    lines = top_of(
        [
            "Each function of this crate with its code and the code of all that it calls, for a look-up of the machine that finds the functions",
            "(`prog.Linked`). So there is an environment in which a function's name means its code. Written by tools/linked.py.",
        ],
        [
            "mathlib.Core.Path.{◌≡◌}",
            "mathlib.Core.Bool.{false}",
            "mathlib.Core.List.{◌∷◌}",
            "mir.Syntax.{Symbol}",
            "prog.Linked.{Entry, Entries}",
            "prog.LinkedThreads.{HasT}",
            *(f"Rattle.{c}.proofs.Linked as {c}" for c in all_of[crate]),
            *(f"Rattle.{crate}.proofs.TheLinks.{crate}-{path.replace('.', '-')} as {alias_of(path)}" for path in order),
        ],
    )
    lines += ["", "-- the functions with their code, before more", "abbrev pub entries : Entries → Entries", "entries more ="]
    lines += [f'    ("{of[path][0]}", {alias_of(path)}.entry) ∷' for path in order]
    lines += ["    more", "", "-- a look-up finds them", "pub record Finds (look : Symbol → Entry) : Type 0 where"]
    lines += [f'  pub {name_of(path)} : look "{of[path][0]}" ≡ {alias_of(path)}.entry' for path in order]
    head = "".join(f" (in_{c} : {c}.Finds look)" for c in all_of[crate])
    lines += ["", f"module _ (look : Symbol → Entry){head} (here : Finds look) where"]
    for path in order:
        lines += has_of(crate, path, of[path][1], all_of)
    return "\n".join(lines).rstrip("\n") + "\n"


def found_of(crate, order, of_more, more):
    """That a look-up finds the functions of `crate`: each is listed, with its code, and none before it has its name."""
    head = [f"{of_more[0]}_{crate} : {of_more[1]}{crate}.Finds {more}", f"{of_more[0].split()[-1]}_{crate}{of_more[2]} =", "    record {"]
    return [*head, *(f"      {name_of(path)} = refl;" for path in order), "    }", ""]


def text_of_table(layers, orders):
    """The list of all functions of the library, before more, and that a look-up in it finds them."""
    listed = "more"
    for c in reversed(layers):
        listed = f"{c}.entries {listed}" if listed == "more" else f"{c}.entries ({listed})"
    lines = top_of(
        ["The table of all functions of the library with their code, before more, and that a look-up in it finds each. Written by", "tools/linked.py."],
        ["mathlib.Core.Path.{refl}", "prog.Linked.{Entries, in_entries}", *(f"Rattle.{c}.proofs.Linked as {c}" for c in layers)],
    )
    lines += ["", "abbrev pub table : Entries → Entries", f"table more = {listed}", ""]
    for c in layers:
        lines += found_of(c, orders[c], ("pub table_has", "(more : Entries) → ", " more"), "(in_entries (table more))")
    return "\n".join(lines).rstrip("\n") + "\n"


def cited_of(source):
    """The functions whose return `source` states: the theorem's name, the function's alias there, its crate and its path."""
    returned = read(source)
    uses = re.finditer(r"(?m)^use Rattle\.(\w+)\.proofs\.(\S+?)(?: as (\S+))?$", returned)
    named = {m[3] or m[2].split(".")[-1]: (m[1], m[2]) for m in uses}
    stated = re.findall(r"(?m)^pub (\w+)_returns : \(γ : Env\) → Wired γ (\S+)\.Symbol\.code", returned)
    return [(theorem, alias, *named[alias]) for theorem, alias in stated]


def wired_of(cited, linked, all_of):
    lines = [
        f"wired : (code : Code) → HasT look false code → Wired {linked} code",
        f"unfolding {linked}",
        "wired code has = Has-Wired look (tie look) (tie-Follows look) code (no_threads look code has)",
        "",
    ]
    for theorem, alias, c, path in cited:
        shown = f"{theorem}_wired = wired {alias}-symbol.code ({c}.{name_of(path)} look{given_of(c, all_of, 'found_')})"
        lines += [f"pub {theorem}_wired : Wired {linked} {alias}-symbol.code", shown, ""]
    return lines


def text_of_environment(layers, own, orders, all_of, source, linked):
    """The environment of the table, with the functions of the crate `own` behind it, and what `source` states is wired in it."""
    cited, crates = cited_of(source), [*layers, *own]
    more = f"({own[0]}.entries [])" if own else "[]"
    lines = top_of(
        [
            "There is an environment of the machine in which the name of each function means its code, with the code of all that it calls: that of",
            "the look-up which lists them (`tie` of `prog.Linked`). So what is said of every environment that is wired for a function's code is not",
            "said of nothing. Written by tools/linked.py.",
        ],
        [
            *(["mathlib.Core.Path.{refl}"] if own else []),
            "mathlib.Core.Bool.{false}",
            "mathlib.Core.List.{[]}",
            "mir.Syntax.{Symbol}",
            "prog.Linked.{Entry, in_entries, tie, tie-Follows, Has-Wired}",
            "prog.LinkedThreads.{HasT, no_threads}",
            "prog.Routine.{Env}",
            "prog.Wired.{Code, Wired}",
            "Rattle.promises.proofs.CodeTable as code_table",
            *(f"Rattle.{c}.proofs.Linked as {c}" for c in crates),
            *(f"Rattle.{c}.proofs.{path}.Symbol as {alias}-symbol" for _, alias, c, path in cited),
        ],
    )
    lines += ["", "abbrev look : Symbol → Entry", f"look = in_entries (code_table.table {more})", "", f"pub {linked} : Env", f"{linked} = tie look", ""]
    for c in layers:
        lines += [f"found_{c} : {c}.Finds look", f"found_{c} = code_table.table_has_{c} {more}", ""]
    for c in own:
        lines += found_of(c, orders[c], ("found", "", ""), "look")
    return "\n".join([*lines, *wired_of(cited, linked, all_of)]).rstrip("\n") + "\n"


def write(crate, module, text):
    """The module, listed in the crate's proofs/Lib.antt."""
    with open(f"crates/{crate}/proofs/{module}.antt", "w", encoding="utf-8") as f:
        f.write(text)
    lib = f"crates/{crate}/proofs/Lib.antt"
    lines = set(read(lib).split("\n")) if os.path.exists(lib) else set()
    names = sorted((lines | {f"pub mod {module}"}) - {""}, key=lambda it: it.split()[-1])
    with open(lib, "w", encoding="utf-8") as f:
        f.write("\n".join(names) + "\n")


def main(argv):
    folder, crates = argv[0], argv[1:]
    below = list(known())
    all_of, orders = {}, {}
    for crate in sorted(crates, key=below.index):
        of = functions(folder, crate)
        all_of[crate] = needs_of(crate, of, below, all_of)
        write(crate, "Linked", text_of(crate, of, all_of))
        orders[crate] = ordered(of, crate)
        print(crate, len(of), all_of[crate])
    layers = [it for it in sorted(crates, key=below.index) if it != "suntimpani_c"]
    write("promises", "CodeTable", text_of_table(layers, orders))
    write("promises", "Linked", text_of_environment(layers, [], orders, all_of, "crates/promises/proofs/Returned.antt", "linked"))
    if "suntimpani_c" in crates:
        source = "crates/suntimpani_c/proofs/Exported.antt"
        write("suntimpani_c", "Environment", text_of_environment(layers, ["suntimpani_c"], orders, all_of, source, "linked_with_exports"))


if __name__ == "__main__":
    main(sys.argv[1:])
