#!/usr/bin/env python3
"""Brings the repository's own definitions, lemmas, fields and import aliases to snake case: isMember, found-steps -> is_member, found_steps.

usage: python3 tools/snake_names.py [--dry]     at the top of the repository, once, after the kit's port.py

Goals and other names that Rattle makes keep their dashes, as do names of the kit's library. Comments, strings and Rust's own names are left alone.
In README.md and docs/ only what stands between backticks is turned.
"""

import collections
import os
import re
import sys

IDENT = re.compile(r"(?<![\w'·-])[A-Za-z_][\w']*(?:-[\w']+)*")
DECLARED = re.compile(r"^\s*(?:(?:abbrev|unfoldable|pub|opaque) )*([A-Za-z_][\w']*(?:-[\w']+)*)\s*:\s")
GOAL = re.compile(r":\s*\(?(?:goal|given|need)\.")
ALIAS = re.compile(r"^\s*(?:pub )?(?:ghost )?use \S+ as ([a-z][\w']*(?:-[\w']+)+)")
GHOST = re.compile(r"^\s*ghost ([a-z]\w*)\s*[:=]")
IMPORT = re.compile(r"^\s*(?:pub )?(?:ghost )?use ([\w.'-]+?)\.\{(.*?)\}", re.S)
# spelled by hand: what the rule would give a name that is there already (a lemma with the name of its function gets _lem)
BY_HAND = {
    "and-then": "and_then_lem",
    "are-sequences": "are_sequences_lem",
    "as-update": "as_update_lem",
    "at-end": "at_end_lem",
    "by-kind": "by_kind_lem",
    "by-size": "by_size_lem",
    "clauses-read": "clauses_read_lem",
    "content-answer": "content_answer_lem",
    "down-row": "down_row_lem",
    "goesDown": "going_down",
    "is-path": "is_path_lem",
    "is-prefix": "is_prefix_lem",
    "is-route": "has_route",
    "is-sequence": "is_sequence_lem",
    "item-word": "an_item_word",
    "no-route": "no_route_lem",
    "on-kind": "on_kind_lem",
    "on-word": "on_word_lem",
    "overruns-past": "overruns_past_lem",
    "own-fault": "own_fault_lem",
    "pieces-past": "pieces_past_lem",
    "precedes-all": "precedes_all_lem",
    "prefix-size": "prefix_size_lem",
    "read-update": "read_update_lem",
    "repeats-after": "repeats_after_lem",
    "rules-at-start": "rules_at_start_lem",
    "said-below": "said_below_lem",
    "taken-down": "taken_down_lem",
    "unless-ring": "unless_ring_lem",
    "with-communities": "with_communities_lem",
    "with-list": "with_list_lem",
    "with-path": "with_path_lem",
    "with-policy": "with_policy_lem",
}
# lemmas that the kit's script had turned already, in the proofs of one crate
BY_CRATE = {
    "policy_print_laws": {"is_name": "is_name_lem"},
    "policy_tables": {"list_at": "list_at_lem"},
}


def snake(name):
    if name in BY_HAND:
        return BY_HAND[name]
    name = re.sub(r"getD\b|getD(?=-)", "get_or", name)
    name = re.sub(r"(?<=[a-z0-9])([A-Z])", r"_\1", name)
    return name.replace("-", "_").lower()


def files(*ends):
    for folder, dirs, names in os.walk("crates"):
        dirs[:] = sorted(d for d in dirs if d != "out")
        for f in sorted(names):
            if f.endswith(ends):
                yield os.path.join(folder, f)


def read(path):
    with open(path, encoding="utf-8") as f:
        return f.read()


def is_own(path, crates):
    parts = path.split(".")
    return parts[0] == "Rattle" and len(parts) > 1 and parts[1] in crates


def main(argv):
    crates = set(os.listdir("crates"))
    own, foreign, ghosts = collections.defaultdict(set), collections.defaultdict(set), set()
    for p in files(".antt"):
        text = read(p)
        for m in IMPORT.finditer(text):
            if not is_own(m.group(1), crates):
                for n in m.group(2).replace("\n", " ").split(","):
                    foreign[n.strip().split(" as ")[-1].strip()].add(p)
        for line in text.split("\n"):
            if line.lstrip().startswith("--"):
                continue
            a = ALIAS.match(line)
            if a:
                own[a.group(1)].add(p)
            d = DECLARED.match(line)
            if d and not GOAL.search(line):
                own[d.group(1)].add(p)
    for p in files(".rt"):
        for line in read(p).split("\n"):
            a = ALIAS.match(line)
            if a:
                own[a.group(1)].add(p)
            g = GHOST.match(line)
            if g:
                own[g.group(1)].add(p)
    turned = {n: snake(n) for n in own if n[0].islower() and snake(n) != n}
    kept = {n for n in turned if n in foreign}
    if "--dry" in argv:
        by = collections.defaultdict(set)
        for n in own:
            by[turned.get(n, n)].add(n)
        print("fall together:")
        for t, ns in sorted(by.items()):
            if len(ns) > 1:
                print("  ", t, {n: sorted(own[n])[:3] for n in ns})
        print("also a name of the library's, as imported:", {n: (sorted(own[n])[:2], sorted(foreign[n])[:2]) for n in sorted(kept)})
        print("now spelled as an import from the library:", {n: t for n, t in turned.items() if t in foreign})
        print("begin as goals do:", sorted(n for n in turned if re.match(r"(returns|loop|in|if|then|else|invariant|overflow|bounds|decreases)-", n) or n.endswith("-requires")))
        print(len(turned), "names")
        return 0

    def turn(text):
        return IDENT.sub(lambda m: turned.get(m.group(0), m.group(0)), text)

    def outside_strings(line):
        parts = re.split(r'("(?:[^"\\]|\\.)*")', line)
        return "".join(s if i % 2 else turn(s) for i, s in enumerate(parts))

    changed = 0
    for p in list(files(".antt", ".rt", ".edit")):
        text = read(p)
        mark = "--" if p.endswith(".antt") else "//"
        lemmas, out = text, []
        for old, now in BY_CRATE.get(p.split(os.sep)[1], {}).items() if p.endswith(".antt") and "/proofs/" in p else ():
            lemmas = re.sub(r"(?<![\w'·.-])" + old + r"(?![\w'·-])", now, lemmas)
        for line in lemmas.split("\n"):
            out.append(line if line.lstrip().startswith(mark) else outside_strings(line))
        new = "\n".join(out)
        if new != text:
            changed += 1
            with open(p, "w", encoding="utf-8") as f:
                f.write(new)
    for p in ["README.md"] + [os.path.join("docs", f) for f in sorted(os.listdir("docs")) if f.endswith(".md")]:
        text = read(p)
        new = re.sub(r"`[^`\n]*`", lambda m: turn(m.group(0)), text)
        if new != text:
            changed += 1
            with open(p, "w", encoding="utf-8") as f:
                f.write(new)
    print(f"{len(turned)} names turned in {changed} files")
    return 0


if __name__ == "__main__":
    raise SystemExit(main(sys.argv[1:]))
