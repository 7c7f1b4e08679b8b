#!/usr/bin/env python3
"""Respells the repository's own definitions and lemmas in snake case: `edgeIn` becomes edge_in, `tells-or` tells_or.

What is declared in specs/ and in the files of lemmas in proofs/ is renamed everywhere: there, in the proofs of functions,
in the clauses of src/, in the must-fail edits, and in the pages where a name stands in backticks or as the end of a path.
Types and facts keep their capitals, names of src/ and of the libraries stay as they are, and text in quotes stays.
Run once, at the top of the repository: `python3 tools/respell.py`. With --list it prints old and new and changes nothing;
it stops where two names would fall together in one file.
"""
import glob
import re
import sys

IDENT = r"[^\s(){}\[\];,.:λ⌜⌝«»\"`]+"
TOKEN = re.compile(r'"(?:[^"\\]|\\.)*"|' + IDENT)
DECLARED = re.compile(r"^\s*(?:(?:abbrev|unfoldable|pub|ruleset)\s+)*(" + IDENT + r")\s+:(?:\s|$)")


# What a function of src/ returns has its name and `_of`; a lemma that would have its function's name ends in `_lem`.
CHOSEN = {
    "afterGap": "after_gap_of", "isAbsent": "is_absent_of", "isGap": "is_gap_of", "oneForm": "one_form_of",
    "isEnd": "is_end_of", "refusedAt": "refused_at_of", "endBefore": "end_before_of", "sameStart": "same_start_of",
    "newEnd": "new_end_of", "putFirst": "put_first_of", "badNode": "bad_node_of", "badRow": "bad_row_of",
    "sizeRule": "size_rule_of", "setEdge": "set_edge_of", "labelRule": "label_rule_of", "mayHold": "may_hold_of",
    "mayJoin": "may_join_of", "mayRefer": "may_refer_of", "nodeRule": "node_rule_of",
    "gotOf": "got_of", "got_of": "got_of_lem", "numbersOf": "numbers_of", "numbers_of": "numbers_of_lem", "lines-of": "lines_of_lem", "num-at": "num_at_lem",
    "scan-rows": "scan_rows_lem", "head-is": "head_is_lem", "is-got": "is_got_lem", "new-end": "new_end_lem",
    "text-plan": "text_plan_lem", "then-edges": "then_edges_lem",
}


def snake(name):
    """One name in snake case: dashes and humps become underscores; a type's or a fact's capital stays."""
    parts = re.split("-", name)
    out = []
    for part in parts:
        if part[:1].isupper() and not part.isupper():
            out.append(part)
        else:
            out.append(re.sub(r"(?<=[a-z0-9])([A-Z])", lambda m: "_" + m.group(1).lower(), part))
    return "_".join(out)


def declared():
    """The names that specs/ and the files of lemmas declare: old and new where a respelling changes them, and all."""
    everything = set()
    for path in sorted(glob.glob("crates/*/specs/**/*.antt", recursive=True) + glob.glob("crates/*/proofs/*.antt")):
        with open(path) as file:
            for line in file:
                if line.lstrip().startswith("--"):
                    continue
                found = DECLARED.match(line)
                if found and re.search(r"[a-zA-Z]", found.group(1)):
                    everything.add(found.group(1))
    names = {n: CHOSEN.get(n, snake(n)) for n in everything if CHOSEN.get(n, snake(n)) != n}
    return names, everything


def respelled(text, names):
    """The text with each whole name replaced."""
    return TOKEN.sub(lambda m: m.group(0) if m.group(0)[0] == '"' else names.get(m.group(0), m.group(0)), text)


def in_backticks(text, names):
    """A page: only what stands in backticks is a name. The kit's script changed no page, so its names are turned too."""
    turned = {old: snake(old) for old in TOKEN.findall(text) if snake(old) in names[""]}
    turned.update(names)
    return re.sub(r"`[^`\n]+`", lambda m: "`" + respelled(m.group(0)[1:-1], turned) + "`", text)


def edit(text, names):
    """A must-fail edit: only the lines that stand for a file's text."""
    lines = text.split("\n")
    return "\n".join(respelled(l, names) if re.match(r"(old|new):", l) else l for l in lines)


def main():
    names, everything = declared()
    if "--list" in sys.argv:
        for old in sorted(names):
            print(old, names[old])
    antt = sorted(glob.glob("crates/**/*.antt", recursive=True) + glob.glob("crates/*/src/*.rt"))
    clashes = 0
    for path in antt:
        if "/out/" in path:
            continue
        with open(path) as file:
            text = file.read()
        tokens = {m.group(0) for m in TOKEN.finditer(text)}
        for old in sorted(tokens & set(names)):
            if names[old] in tokens and names[old] not in names:
                clashes += 1
                print(f"{path}: {old} would fall together with {names[old]}", file=sys.stderr)
    if "--list" in sys.argv or (clashes and "--force" not in sys.argv):
        return 1 if clashes else 0
    pages = [(p, respelled) for p in antt if "/out/" not in p]
    pages += [(p, edit) for p in glob.glob("crates/*/must-fail/*.edit")]
    names[""] = everything
    pages += [(p, in_backticks) for p in ["README.md"] + glob.glob("docs/*.md")]
    for path, how in pages:
        with open(path) as file:
            text = file.read()
        new = how(text, names)
        if new != text:
            with open(path, "w") as file:
                file.write(new)
    return 0


if __name__ == "__main__":
    sys.exit(main())
