#!/usr/bin/env python3
"""Lists the definitions that the statements of crates/review rest on, page by page; with --text it prints them.

A statement is a public theorem on a page of crates/review/proofs. A definition is reached if a statement names it, or a definition that
is reached does; it is found by its page and its name, through the `use` lines. Proofs are not followed. Nor is a definition in HIDDEN:
the theorems beside it determine it, and are statements themselves wherever it is reached. The script refuses a hidden name unless

- each theorem named beside it is there and public, and one of them has the name on one side of an `↔`, or on a side of the equation in
  which it ends;
- nothing that those theorems rest on is defined by the name, at whatever remove, the theorems of other hidden names included.

A definition that is shut can't be read, so a statement may name none; but for the proofs in PROOFS.

A bound variable that has the name of a definition counts as a use, so the lists are rather too long than too short. A field after a dot is
not followed: its record is reached by the type of what stands before the dot.
"""
import os
import re
import sys

ROOT = os.path.join(os.path.dirname(os.path.abspath(__file__)), "..", "crates")
# Every page of crates/review/proofs that has statements, by the question that it answers.
QUESTIONS = {
    "1 (header, refusals)": ["Demand1", "Demand1Texts", "Answered"],
    "2 (texts, step, answer)": ["Demand2", "Program"],
    "3 (order)": ["Demand3", "Bench"],
}
# A definition that a reader need not look at, and the theorems that determine it.
HIDDEN = {
    # what the calls promise, and so how their answers are come to
    "review/Promises.RulesCall": ["review/proofs/Demand1Texts.rules-refused", "review/proofs/Demand2.rules-spelt"],
    "review/Promises.NetCall": ["review/proofs/Demand1Texts.net-refused", "review/proofs/Demand1Texts.net_16", "review/proofs/Demand2.net-spelt"],
    "review/Promises.StepCall": [
        "review/proofs/Demand1.step_16",
        "review/proofs/Demand1.step_12",
        "review/proofs/Demand1.step_13",
        "review/proofs/Demand1.step_no_other",
        "review/proofs/Demand2.step-made",
    ],
    "review/Promises.RunCall": [
        "review/proofs/Demand1.run_16",
        "review/proofs/Demand1.run_17",
        "review/proofs/Demand1.run_no_other",
        "review/proofs/Demand2.run_is",
    ],
    "review/Promises.AnswerCall": [
        "review/proofs/Demand1.answer_16",
        "review/proofs/Demand1.answer_14",
        "review/proofs/Demand1.answer_15",
        "review/proofs/Demand1.answer_no_other",
        "review/proofs/Demand2.answer-read",
    ],
    "review/Promises.EmptyState": ["review/proofs/Answered.empty-state_is"],
    "review/Promises.EmptyTable": ["review/proofs/Answered.empty-table_is"],
    "evaluation/Evaluated.evaluated": [
        "review/proofs/Program.rules-refused-printed",
        "review/proofs/Program.net-refused-printed",
        "review/proofs/Program.run_on",
        "review/proofs/Program.paused-printed",
        "review/proofs/Program.noroom-printed",
        "review/proofs/Program.answer_on",
        "review/proofs/Program.end_printed",
    ],
    # the table of a book, and its bytes
    "texts/Coded.table_of": ["review/proofs/Demand2.table-exact"],
    "texts/Coded.machine": ["review/proofs/Demand2.table-exact"],
    "sound/Lent.under": ["review/proofs/Demand2.table-under"],
    "table/Layout.agents_in": ["review/proofs/Demand2.table-agents"],
    "table/Layout.table_bytes": ["review/proofs/Demand2.table-code"],
    # a net loaded
    "texts/Coded.load": ["review/proofs/Demand2.load-exact"],
    "model/Load.loaded": ["review/proofs/Demand2.load-exact"],
    # tests of a record
    "texts/RuleText.fault7": ["texts/proofs/Main.number_7"],
    "texts/RuleText.fault8": ["texts/proofs/Main.number_8"],
    "texts/RuleText.fault10": ["texts/proofs/Main.number_10"],
    "texts/NetText.net_fault7": ["texts/proofs/Main.net_number_7"],
}
# A proof off which statements read something, and the theorem that says that another proof gives the same.
PROOFS = {"lent/Both.sound-state": ["model/proofs/Kept.one_meaning"]}
WORD = re.compile(r"[^\s(){}\[\];,|]+")
WORDS_BEFORE = re.compile(r"\s*(?:(?:abbrev|unfoldable|pub|data|record|mutual) )*([^(){}=→]+?)(?: [({].*)? : ")


def named_before_colon(line):
    """The names that a line brings: of a definition, its constructors or its fields."""
    head = WORDS_BEFORE.match(line + " ")
    return head.group(1).split() if head else []


class Definition:
    """A block of a page: its comment, its code, the names that it brings."""

    def __init__(self, page, block, context):
        self.page, self.text, self.context = page, block, context
        self.code = [line for line in block if not line.strip().startswith("--")]
        first = self.code[0].strip()
        self.is_public = " pub " in " " + first + " "
        self.is_theorem = not re.match(r"(abbrev|unfoldable|infix|module|mutual)|(pub )?(data|record) ", first)
        is_record = re.match(r"(pub )?record ", first)
        brought = [name for line in (self.code[:1] if self.is_theorem else self.code) for name in named_before_colon(line)]
        self.name = brought[0] if brought else first
        # a field is named after a dot, or inside its own record
        self.names, self.own = set(brought[:1] if is_record else brought), set(brought)

    def statement(self):
        """A theorem's own statement: its first line, and the lines that go on from it."""
        indent = len(self.code[0]) - len(self.code[0].lstrip())
        end = 1
        while end < len(self.code) and len(self.code[end]) - len(self.code[end].lstrip()) > indent:
            end += 1
        return self.code[:end]

    def lines(self):
        return self.context + (self.statement() if self.is_theorem else self.code)

    def uses(self):
        """The definitions that its words may mean."""
        for line in self.lines():
            for word in WORD.findall(line):
                if not word.startswith(".") and word not in self.own:
                    yield from self.page.find(word)


class Page:
    def __init__(self, pages, crate, inner, path):
        self.pages, self.key, self.path = pages, f"{crate}/{inner}", path
        self.imports, self.aliases, self.definitions = {}, {}, []
        block, modules = [], []
        for line in open(path, encoding="utf-8").read().split("\n") + [""]:
            used = re.match(r"(?:pub )?use (\S+?)(?:\.\{(.*)\}| as (\S+))$", line)
            if used:
                self.take(*used.groups())
            elif line.strip() and not line.startswith(("pub mod", "mod ")):
                block.append(line)
            elif block:
                self.put(block, modules)
                block = []
        self.names = {}
        for d in self.definitions:
            for name in d.names:
                for part in {name, *(name.split("◌") if "◌" in name else ())} - {""}:
                    self.names.setdefault(part, []).append(d)

    def take(self, module, names, alias):
        if alias:
            self.aliases[alias] = module
        for name in (names or "").split(","):
            old, _, new = name.strip().partition(" as ")
            inner, _, last = old.rpartition(".")
            target = f"{module}.{inner}" if inner else module
            for part in {new or last, *(last.split("◌") if "◌" in last and not new else ())} - {""}:
                self.imports.setdefault(part, []).append((target, last))

    def put(self, block, modules):
        """Adds a block as a definition, or to the one before it where it goes on. Modules are open from an indent on."""
        code = [line for line in block if not line.strip().startswith("--")]
        if not code:
            return
        indent = len(code[0]) - len(code[0].lstrip())
        modules[:] = [m for m in modules if m[0] < indent]
        if code[0].lstrip().startswith("module _"):
            end = next(i for i, line in enumerate(block) if line.endswith(" where")) + 1
            modules.append((indent, [line for line in block[:end] if not line.strip().startswith("--")]))
            if block[end:]:
                self.put(block[end:], modules)
        elif indent == (modules[-1][0] + 2 if modules else 0):
            self.definitions.append(Definition(self, block, sum((m[1] for m in modules), [])))
        elif self.definitions:
            last = self.definitions.pop()
            self.definitions.append(Definition(self, last.text + block, last.context))

    def find(self, word):
        """Every definition that a word of this page may mean: its own, an imported one, one of a page with a short name."""
        yield from self.names.get(word, [])
        places = list(self.imports.get(word, []))
        if "." in word:
            alias, _, name = word.partition(".")
            if alias in self.aliases:
                places.append((self.aliases[alias], name))
            for module, last in self.imports.get(alias, []):
                places.append((module, last))
        for module, name in places:
            key = page_key(module)
            target = self.pages.get(key)
            if target:
                yield from target.find(name)
            elif key and is_ours(key):
                sys.exit(f"pages.py: {self.key} takes {name} from {module}, and that page was not read")


def page_key(module):
    """`Rattle.texts.specs.Books` is the page texts/Books, and `Rattle.texts.proofs.Main` is texts/proofs/Main."""
    found = re.match(r"Rattle\.([^.]+)\.(specs|proofs)\.(.+)$", module)
    return found and f"{found.group(1)}/{'proofs/' if found.group(2) == 'proofs' else ''}{found.group(3).replace('.', '/')}"


def is_ours(key):
    """Whether a page is one of this repository's files, and not one that the check makes of its code."""
    crate, _, inner = key.partition("/")
    return os.path.isdir(os.path.join(ROOT, crate)) and not inner.startswith(("declared/", "contracts/"))


def read_pages():
    pages = {}
    for crate in sorted(os.listdir(ROOT)):
        for part, before in (("specs", ""), ("proofs", "proofs/")):
            top = os.path.join(ROOT, crate, part)
            for folder, _, files in os.walk(top):
                for file in files:
                    if file.endswith(".antt") and not (part == "proofs" and file in ("Answers.antt", "Invariants.antt")):
                        path = os.path.join(folder, file)
                        page = Page(pages, crate, before + os.path.relpath(path, top)[:-5], path)
                        pages[page.key] = page
    return pages


def named(pages, key):
    """The definitions of that page and name; a field is no definition of its own."""
    page, _, name = key.rpartition(".")
    found = [d for d in pages[page].names.get(name, []) if d.name == name] if page in pages else []
    if not found:
        sys.exit(f"pages.py: there is no {key}")
    return found


def reached(todo, hidden):
    """What the statements rest on, the theorems of hidden names included."""
    seen, todo = set(), list(todo)
    while todo:
        d = todo.pop()
        if d not in seen:
            seen.add(d)
            todo += hidden[d] if d in hidden else d.uses()
    return seen


def determines(theorem, name):
    """The name stands on one side of an equivalence, or in the equation in which the theorem ends."""
    statement = " ".join(line.strip() for line in theorem.statement())
    word = rf"(?<![^\s(){{}}])({re.escape(name)})(?![^\s(){{}}])"
    sides = re.split(r" ↔ ", statement)
    if len(sides) > 1:
        return sum(bool(re.search(word, side)) for side in sides) == 1
    end = re.split(r" → ", statement)[-1]
    return "≡" in end and bool(re.search(word, end))


def hide(pages):
    """What is not followed, with what is followed in its place: the theorems of a hidden definition, once they have passed."""
    hidden = {}
    for key, theorems in HIDDEN.items():
        proofs = [t for key in theorems for t in named(pages, key)]
        name = key.rpartition(".")[2]
        if not all(t.is_theorem and t.is_public for t in proofs):
            sys.exit(f"pages.py: {key} is hidden by what is no public theorem")
        if not any(determines(t, name) for t in proofs):
            sys.exit(f"pages.py: {key} is hidden, and {', '.join(theorems)} does not determine it")
        for d in named(pages, key):
            hidden[d] = proofs
    for d, proofs in hidden.items():
        rests = reached([e for t in proofs for e in t.uses() if e not in proofs], {**hidden, d: []})
        for e in rests - {d} - set(proofs) - set(hidden):
            if any(u is d for u in e.uses()):
                sys.exit(f"pages.py: {d.page.key}.{d.name} is hidden by what rests on it: {e.page.key}.{e.name}")
    for key, theorems in PROOFS.items():
        for d in named(pages, key):
            hidden[d] = [t for k in theorems for t in named(pages, k)] + list(d.uses())
    return hidden


def shut(hidden, statements):
    """Refuses a statement that names a definition which is shut."""
    allowed = set(statements) | set(hidden) | {t for proofs in hidden.values() for t in proofs}
    for d in reached(statements, hidden):
        if d.is_theorem and d not in allowed:
            sys.exit(f"pages.py: a statement names {d.page.key}.{d.name}, which is shut")


def main():
    pages = read_pages()
    hidden = hide(pages)
    asked = {n for names in QUESTIONS.values() for n in names}
    everything = set()
    for key, page in pages.items():
        name = key.removeprefix("review/").removeprefix("proofs/")
        if key.startswith("review/") and "/" not in name and name not in asked:
            if any(d.is_theorem and d.is_public for d in page.definitions):
                sys.exit(f"pages.py: the statements of {key} answer no question")
    for question, names in list(QUESTIONS.items()) + [("all", None)]:
        if names:
            statements = [d for n in names for d in pages[f"review/proofs/{n}"].definitions if d.is_theorem and d.is_public]
            shut(hidden, statements)
            found = {d for d in reached(statements, hidden) if not d.is_theorem and d not in hidden}
            everything |= found
        else:
            found = everything
        print(f"Question {question}: {sum(len(d.code) for d in found)} lines")
        for page in sorted({d.page.path for d in found}):
            mine = sorted((d for d in found if d.page.path == page), key=lambda d: d.page.definitions.index(d))
            print(f"  {sum(len(d.code) for d in mine):4d}  crates/{os.path.relpath(page, ROOT)}")
            if "--text" in sys.argv and not names:
                print("\n\n".join("\n".join(d.text) for d in mine) + "\n")


main()
