#!/usr/bin/env python3
"""Lists the places in src/ that read like an older Rattle, by point, so that they can be counted again.

    python3 tools/places.py [-v] [ROOT]

It goes by text: what it lists is to be looked at, not always to be changed. Without -v only the counts are shown.
"""
import collections
import pathlib
import re
import sys

KEYWORDS = set("""as break const continue else enum false fn for if impl in let loop match mod move mut pub ref return self Self
struct super trait true type unsafe use where while u8 u16 u32 u64 usize bool str Option Result Some None Ok Err Vec""".split())


class Function:
    def __init__(self, crate, path, line, head, clauses, body, block):
        self.crate, self.path, self.line = crate, path, line
        self.head, self.clauses, self.body = head, clauses, body
        self.block = block
        self.name = re.search(r"fn (\w+)", head).group(1)
        self.place = f"{path}:{line} {self.name}"

    def is_law(self):
        return "trait" not in self.block and bool(self.clauses) and self.body.strip() in ("", "true") and ("-> bool" in self.head or "->" not in self.head)

    def is_public(self):
        return self.head.startswith("pub fn")


def functions(root):
    for path in sorted(root.glob("crates/*/src/**/*.rt")):
        crate, lines, i = path.parts[-1 - len(path.parts) + len(root.parts) + 2], path.read_text().split("\n"), 0
        block = ""
        while i < len(lines):
            if re.match(r"(impl|pub trait|trait)\b.*\{$", lines[i]):
                block = lines[i]
            elif lines[i] == "}":
                block = ""
            if not re.match(r"\s*(pub(\(\w+\))? )?(final )?fn \w", lines[i]):
                i += 1
                continue
            start, indent = i, re.match(r"\s*", lines[i]).group()
            while not (lines[i] == indent + "{" or lines[i].endswith((" {", ";", "{}"))):
                i += 1
            head = []
            clauses = []
            for line in lines[start:i + 1]:
                (clauses if re.match(r"\s*(requires|ensures)", line) else head).append(line.strip())
            body = []
            if lines[i].endswith("{"):
                i += 1
                while i < len(lines) and lines[i] != indent + "}":
                    body.append(lines[i])
                    i += 1
            yield Function(crate, path.relative_to(root), start + 1, " ".join(head).rstrip("{; "), clauses, "\n".join(body), block)
            i += 1


def normal(text):
    """The text of a body with its own names and numbers taken out."""
    text = re.sub(r"//[^\n]*", "", text)
    text = re.sub(r'b?"[^"]*"|b?\'[^\']\'|\b\d[\w]*\b', "0", text)
    return re.sub(r"\w+", lambda m: m.group() if m.group() in KEYWORDS else "x", re.sub(r"\s+", " ", text)).strip()


def sources(root):
    for path in sorted(root.glob("crates/*/src/**/*.rt")):
        for number, line in enumerate(path.read_text().split("\n"), 1):
            yield path.relative_to(root), number, line


def matching(root, pattern, after=None):
    """Lines that match; where `after` is given, only those before a line that matches that."""
    found, rows = [], list(sources(root))
    for k, (path, number, line) in enumerate(rows):
        if re.search(pattern, line) and not line.strip().startswith("//"):
            if after is None or any(re.search(after, l) for _, _, l in rows[k + 1:k + 2]):
                found.append(f"{path}:{number} {line.strip()}")
    return found


def twins(all_functions):
    groups = collections.defaultdict(list)
    for f in all_functions:
        if f.body.count("\n") >= 2 and not f.is_law():
            groups[normal(f.body)].append(f.place)
    return [" = ".join(places) for places in groups.values() if len(places) > 1]


def parameters(f):
    m = re.search(r"\((.*)\)", f.head)
    return sorted(set(re.findall(r"(\w+): ", m.group(1)))) if m else []


def groups_of_parameters(all_functions):
    """Names of three parameters that stand together in three functions or more of a crate."""
    found = collections.defaultdict(set)
    for f in all_functions:
        names = parameters(f)
        for a in range(len(names)):
            for b in range(a + 1, len(names)):
                for c in range(b + 1, len(names)):
                    found[f.crate, names[a], names[b], names[c]].add(f.name)
    return [f"{' '.join(key)}: {', '.join(sorted(fs))}" for key, fs in sorted(found.items()) if len(fs) >= 3]


def facts(all_functions):
    """Terms of more than 30 letters in parentheses, and whole requires, that stand in the clauses of three functions or more."""
    found = collections.defaultdict(set)
    for f in all_functions:
        if f.is_law():
            continue
        for clause in f.clauses:
            text = re.sub(r"\.(old|new|now)\b", "", clause)
            if clause.startswith("requires"):
                found[text].add(f.place)
            opened = []
            for k, letter in enumerate(text):
                if letter == "(":
                    opened.append(k)
                elif letter == ")" and opened:
                    term = text[opened.pop():k + 1]
                    if len(term) > 30:
                        found[term].add(f.place)
    return [f"{len(places)} {term}" for term, places in sorted(found.items(), key=lambda x: -len(x[1])) if len(places) >= 3]


def conversions(all_functions):
    """Functions that are one match from a value to literals or variants, that compare, or that write a value as text, and are no derive and no
    impl of a trait of the library for just that."""
    found = []
    for f in all_functions:
        if re.search(r"\b(From|TryFrom|FromStr|Display|PartialEq|Ord|PartialOrd)\b.* for ", f.block) or f.is_law():
            continue
        arms = re.findall(r"=> (.*?),?$", f.body, re.M)
        literal = arms and all(re.fullmatch(r'(Some\()?([\w:]+|b?"[^"]*"|b?\'.\'|\d+)\)?', a) for a in arms)
        if re.match(r"\s*match [\w.*()]+ \{", f.body) and literal:
            found.append("match " + f.place)
        elif re.match(r"(is|same|same_\w+|is_same|outranks)$", f.name) or re.search(r"\w+: &mut String\b", f.head):
            found.append("by hand " + f.place)
    return found


def buffers(root):
    text = "\n".join(line for _, _, line in sources(root))
    found = []
    for m in re.finditer(r"struct (\w+)[^{;]*\{([^}]*(?:\{[^}]*\}[^}]*)*)\n\}", text):
        fields = m.group(2)
        if re.search(r": \[[^\]]*; ", fields):
            found.append("array in struct " + m.group(1))
        if len(re.findall(r": Vec<", fields)) > 1:
            found.append("Vecs beside each other in struct " + m.group(1))
    return found


def report(title, places, verbose):
    print(f"{title}: {len(places)}")
    if verbose:
        for place in places:
            print("    " + place)


def main():
    arguments = [a for a in sys.argv[1:] if a != "-v"]
    verbose = "-v" in sys.argv
    root = pathlib.Path(arguments[0] if arguments else ".").resolve()
    all_functions = list(functions(root))
    report("1 enums with a variant for nothing", matching(root, r"^\s*(Other|GoesOn|None|Nothing|Unknown|Missing|NoMemory|Done|Unused),"), verbose)
    report("1 flags in structs", matching(root, r"^\s*(pub )?\w+: bool,"), verbose)
    report("1 refusals told by a bool", [f.place for f in all_functions if "&mut self" in f.head and f.head.endswith("-> bool")], verbose)
    report("1 numbers for kinds", matching(root, r"^(pub )?const \w+: u8 = ") + matching(root, r"^\s*\d+( \| \d+)*( if .*)? => "), verbose)
    report("1 ? written out", matching(root, r"else \{$", r"^\s*return None;$") + matching(root, r"(Err\((\w+)\) => (return )?Err\(\2\)|Some\((\w+)\) => Some\(\4\)|Ok\((\w+)\) => Ok\(\5\)|None => None|Err\(_\) => (None|Err))"), verbose)
    report("2 bodies that are alike", twins(all_functions), verbose)
    report("3 loops by an index or a count", matching(root, r"for \w+ in [^{]*\.\.|for \(\w+, ?\w+\) in .*enumerate|^\s*while (?!let)|^\s*loop \{"), verbose)
    report("4 conversions and comparisons by hand", conversions(all_functions), verbose)
    report("5 facts in three contracts", facts(all_functions), verbose)
    report("5 parameters that travel together", groups_of_parameters(all_functions), verbose)
    report("6 arrays and rows in structs", buffers(root), verbose)
    report("6 a lent row and a place in it", [f.place for f in all_functions if re.search(r": &mut \[[^\]]*\].*\b(count|place|end|start|at): usize", f.head)], verbose)
    report("7 switches on what to do", matching(root, r"match (case|step|task|mode|what)\b"), verbose)
    report("7 functions in tables", matching(root, r": fn\(|dyn Fn|\[fn\("), verbose)
    laws = [f for f in all_functions if f.is_law()]
    report("8 functions that only cite a law", [f.place for f in laws], verbose)
    report("8 calls of such functions", matching(root, r"^\s*(let _ = )?\(?([\w.]+\.)?(" + "|".join(sorted({f.name for f in laws if not f.is_public()} | {"unrolls", "ends", "fills"})) + r")\("), verbose)
    report("8 answers", [str(p.relative_to(root)) for p in sorted(root.glob("crates/*/proofs/**/Answers.antt")) if "/out/" not in str(p)], verbose)


main()
