#!/usr/bin/env python3
"""Brings the repository's own definitions and lemmas to today's spelling, once, after the kit's port.py.

A definition (an abbrev, an unfoldable, a constructor, a field, or what an `unfolding` line names) is in snake case, with no
dash. A lemma keeps a dash where that joins the names of two definitions, and has an underscore elsewhere. A name that would fall
together with another in one file keeps its dashes. Strings and the names of Rust items stay as they are.

usage: python3 tools/spelling.py [--dry]       at the top of the repository
"""
import collections
import os
import re
import sys

PREFIXES = r"((?:(?:abbrev|unfoldable|pub|infix|infixl|infixr)\s+)*)"
NAME = r"[^\s:(){};,|=←→λ`\"]+"
DECLARED = re.compile(rf"^(\s*)((?:(?:abbrev|unfoldable|pub)\s+)*)({NAME}(?:\s+{NAME})*)((?:\s*[({{].*?[)}}])*)\s+:(?:\s|$)")
TOKEN = re.compile(r"\"(?:[^\"\\]|\\.)*\"|[^\s()\[\]{}.,;\"`⌜⌝⟦⟧]+|[.`\s()\[\]{},;⌜⌝⟦⟧]|\"")
PLAIN = set("refl sym trans comm assoc same at of is to by on in all none some more less other new old end start first last left right before after here there one two no not ok set back way put in_use".split()) - {"set"}
OLD_STD = {"getD": "get_or"}
# Names of two definitions that would fall together.
CHOSEN = {
    "bad-line": "bad_line",
    "badLine": "bad_line_lem",
    "equationLines": "equation_lines",
    "equation-lines": "equation_lines_lem",
    "face-line": "line_of_face",
    "is-rule": "shape_is_rule",
    "net-lines": "lines_of_net",
    "new-names": "new_names",
    "newNames": "new_names_of",
    "number-of": "call_number",
    "sidesIn": "sides_within",
    "terms-of": "equation_terms",
    "too_long": "too_long",
    "tooLong": "is_too_long",
    "two-sided": "two_sided",
    "twoSided": "is_two_sided",
}


def files(*ends):
    for folder, dirs, names in os.walk("crates"):
        dirs[:] = sorted(d for d in dirs if d not in ("out", "data"))
        for name in sorted(names):
            if name.endswith(ends):
                yield os.path.join(folder, name)


def read(path):
    with open(path, encoding="utf-8") as it:
        return it.read()


def parts(name):
    """The words of a name: at its dashes and where a capital follows a small letter."""
    words = []
    for word in name.split("-"):
        if word in OLD_STD:
            words.append(OLD_STD[word])
        elif re.match(r"[a-z][a-z0-9_]*[A-Z]", word):
            words += [w[0].lower() + w[1:] for w in re.findall(r"[a-z0-9_']+|[A-Z][a-z0-9_']*", word)]
        else:
            words.append(word)
    return words


def wants(name):
    return "-" in name.strip("-+") and not name.startswith("+") and not name.endswith(("-spec", "_spec")) or re.match(r"[a-z][a-z0-9_']*[A-Z]", name)


def declared():
    """Each name that a page declares: where, and whether it is a definition."""
    found = collections.defaultdict(list)
    opened, own_fields = set(), set()
    for path in files(".antt"):
        proof = os.path.basename(path) in ("Proof.antt", "Answers.antt", "Invariants.antt")
        block, is_record = None, False
        for line in read(path).split("\n"):
            unfolded = re.match(r"\s*unfolding (.*)", line)
            if unfolded:
                opened.update(unfolded.group(1).split())
            opened.update(re.findall(r"\bunfold (\S+) in\b", line))
            indent = len(line) - len(line.lstrip())
            if block is not None and line.strip() and indent <= block and not line.strip().startswith("--"):
                block = None
            data = re.match(r"(\s*)(?:pub )?(data|record) ", line)
            it = DECLARED.match(line)
            if it and not data:
                names = it.group(3).split()
                if names[0] in ("let", "go", "elim", "in", "where", "module", "use", "--", "unfolding", "data", "record", "(", "rw"):
                    continue
                is_goal = proof and re.search(r"\b(tie|[a-z-]*lts|goal)\.", line) is not None
                for name in names:
                    if not is_goal:
                        found[name].append((path, block is not None or bool(re.search(r"abbrev|unfoldable", it.group(2)))))
                        if block is not None and is_record:
                            own_fields.add(name)
            if data:
                block, is_record = len(data.group(1)), data.group(2) == "record"
    return found, opened, own_fields


def mapping():
    found, opened, own_fields = declared()
    definitions = {n for n, at in found.items() if n in opened or any(d for _, d in at)}
    snake = {n: "_".join(parts(n)) for n in definitions}
    std = set()
    for page in ("specs/Prelude", "proofs/Common"):
        for names in re.findall(r"\{([^}]*)\}", read(f"/opt/rattle/rattle/std/{page}.antt")):
            std.update(n.strip().strip("◌") for n in names.split(",") if "-" not in n.strip("◌-"))
    known = (set(snake.values()) | std | {"append", "cons", "snoc", "++", "+", "-", "*", "<", "≤", "≡", "≈", "∼", "≃"}) - PLAIN
    new = {}
    for name in found:
        if not wants(name):
            continue
        if name in definitions:
            new[name] = snake[name]
            continue
        words, segments, i = parts(name), [], 0
        while i < len(words):
            for j in range(len(words), i, -1):
                if "_".join(words[i:j]) in known:
                    break
            segments.append(("_".join(words[i:j]), "_".join(words[i:j]) in known))
            i = max(j, i + 1)
        out = segments[0][0]
        for (_, was), (word, here) in zip(segments, segments[1:]):
            out += ("-" if was and here else "_") + word
        new[name] = out
    return {n: m for n, m in new.items() if n != m}, found, definitions, own_fields


def tokens(text):
    return TOKEN.findall(text)


def turned(text, new, own_fields):
    """The text with each name in its new spelling. Behind a value's dot only a field is turned, since other names there are made by the check."""
    out, root, dotted = [], "", False
    for t in tokens(text):
        behind_value = dotted and not root[:1].isupper()
        out.append(new[t] if t in new and not (behind_value and t not in own_fields) else t)
        if t == ".":
            dotted = bool(out) and bool(root)
        elif t.isspace() or t in "([{⌜⟦,;`":
            root, dotted = "", False
        else:
            root, dotted = (root if dotted else t), False
    return "".join(out)


def main():
    new, found, definitions, own_fields = mapping()
    # Names that would fall together in one file: the definition that most files cite takes the name, the others an ending.
    everywhere = collections.defaultdict(set)
    for path in files(".antt", ".rt"):
        for t in set(tokens(read(path))):
            everywhere[t].add(path)
    onto = collections.defaultdict(list)
    for old, to in new.items():
        onto[to].append(old)
    kept = []
    for to, olds in sorted(onto.items()):
        group = olds + ([to] if to in found else [])
        where = [{p for p in everywhere[o] if p.endswith(".antt")} for o in group]
        if not any(a & b for i, a in enumerate(where) for b in where[i + 1 :]):
            continue
        for i, o in enumerate(sorted(group, key=lambda n: (n not in definitions, -len(everywhere[n])))):
            if i == 0:
                new[o] = to
            else:
                new[o] = to + "_lem" * i
            kept.append((o, to, new[o]))
    new.update(CHOSEN)
    new = {o: n for o, n in new.items() if o != n}
    print("fell together:", *[f"{o} -> {new.get(o, o)} {'def' if o in definitions else ''} {len(everywhere[o])}" for o, _, _ in kept], sep="\n  ")
    print(len(new), "names turned")
    if "--dry" in sys.argv:
        for o, n in sorted(new.items()):
            print(o, "->", n)
        return
    for path in list(files(".antt", ".rt", ".edit")) + ["README.md", "docs/pages.py"] + [f"docs/{f}" for f in sorted(os.listdir("docs")) if f.endswith(".md")]:
        text = read(path)
        goals = set()
        if os.path.basename(path) == "Proof.antt":
            goals = {n for n in re.findall(r"(?m)^(?:pub )?(\S+) : (?:\(t : ℕ\) → )?(?:tie|[a-z-]*lts|goal)\.", text)}
        after = turned(text, {o: n for o, n in new.items() if o not in goals}, own_fields)
        if after != text:
            with open(path, "w", encoding="utf-8") as it:
                it.write(after)


main()
