#!/usr/bin/env python3
"""Brings the repository's own names of definitions and lemmas to today's spelling: `tailOf` becomes `tail_of`, `white-means-no` becomes `white_means_no`.

usage: tools/respell.py            at the repository's top, once, after port.py of the kit and before any edit by hand

Functions, lemmas, record fields, constructors and local names of antt are in snake case: a dash becomes `_`, and so does the step to a capital letter inside a
name that begins with a small one. Names that begin with a capital (types, facts and modules) stay. What a file takes from a library of the kit stays in that
file, and so does what Rattle makes or takes from the code: what stands after a dot, unless it is a field of a record of ours or a name of a module of ours.

It rewrites, in place, and has `rt fmt` lay each crate out afterwards:

- crates/*/{specs,proofs}/**/*.antt: the text, and comments as below;
- crates/*/src/*.rt: lines `ghost use` and clauses `requires {..}` and `ensures {..}`, with a label or none, and comments; the code stays as it is;
- crates/*/must-fail/*.edit: the lines `old:` and `new:`, and the name after `Fails in PAGE,`;
- *.md, the headers of include/ and the scripts of docs/ and crates/*: what stands in backquotes, in blocks of code, and words with a capital inside.

In a comment a word with a capital inside is turned wherever it stands, and a word with a dash only in backquotes, or where it is no plain compound.

Two names that would become one are told apart by TAKEN below. At its end it looks whether each name that a page imports is declared in the page it comes
from, and whether two names fell together; if so it prints them, and its status is 1. A second run changes nothing.
"""
import collections
import os
import re
import subprocess
import sys

# Lemmas and local names that would take the name of the definition that they speak of.
LEMMAS = """
    all-finite as-queued-at at-once block-sound box-number can-queue carried-turn child-along child-of children-number children-record coordinate-record counts-number
    enough-bytes first-blocks first-place has-run in-float in-picture is-nan is-ready judged-as last-from last-place legal-bounds legal-chosen marks-in-order
    move-number moved-record not-moved not-run one-over pixel-cells place-along place-listed quarters-cut queued-one reads-false reads-true run-number
    run-word said-false same-integer setup-number sized-turn sound-last sound-record start-record step-number table-begun tile-in
""".split()
TAKEN = {name: name.replace("-", "_") + "_lem" for name in LEMMAS}

# Other names that would fall together with one, and what they become.
TAKEN |= {"ranges-legal": "ranges_are_legal", "fromBits": "answer_from_bits", "markedBy": "marking_by"}

# The same for fields of records, and for names of a page that no other page takes.
TAKEN_FIELDS = {"sound-record": "record_is_sound", "block-sound": "block_is_sound", "start-cells": "begun_as_started", "table-enough": "table_is_enough"}
TAKEN_ON = {"crates/promises/proofs/Standings.antt": {"given-up": "given_up_lem"}}

# Lemmas that have today's spelling already, which their definition takes: turned only while there is a definition of the older spelling.
HELD = {"half_up": "halfUp", "own_turn": "ownTurn", "same_end": "sameEnd", "seen_if": "seenIf", "table_filled": "tableFilled"}
TAKEN |= {name.replace("_", "-"): name + "_lem" for name in HELD}

# Lemmas that comments name without backquotes.
BARE = {"level-bound", "pixel-bound", "empty-at-floor"}

END = r"""\s(){}.;,@"«»\[\]`"""
NAME = re.compile(rf"[^{END}]+")
CHAIN = re.compile(rf"[^{END}]+(?:\.[^{END}]+)*\.$")
COMMENT = re.compile(rf"(?:(?<=[{END}])|^)--(?![^{END}-]).*$", re.M)
USE = re.compile(r"^ *(?:(?:unfoldable|ghost|pub|abbrev) )*use +([^\s{;]+?)(?:\.\{([^}]*)\}|(?: +as +([^\s;]+))?);?[ ]*$", re.M)
MODIFIERS = r"(?:(?:abbrev|unfoldable|pub|opaque|private) )*"
SIGNATURE = re.compile(rf"^( *){MODIFIERS}([^{END}:]+(?: [^{END}:]+)*) :(?: |$)", re.M)
TYPE = re.compile(rf"^( *){MODIFIERS}(data|record) ([^{END}:]+)", re.M)
NO_NAME = {"=", "let", "module", "use", "in", "open", "data", "record", "elim", "λ", "mod"}
CLAUSE = re.compile(r"\b(?:requires|ensures)(?: \w+)? \{")
STEP = re.compile(r"(?<=[a-z0-9'′₀-₉])(?=[A-Z])")


def snake(name):
    """Today's spelling of a name of ours."""
    if name in TAKEN:
        return TAKEN[name]
    if "-" not in name.strip("-") and not STEP.search(name) or not re.search("[A-Za-z]", name) or re.match(r"[A-Z]|--", name):
        return name
    return re.sub(r"(?<=[a-z0-9'′₀-₉_])[A-Z]+", lambda m: m[0].lower(), STEP.sub("_", name.replace("-", "_")))


def read(path):
    with open(path, encoding="utf-8") as f:
        return f.read()


def files(top, *endings):
    for folder, dirs, names in os.walk(top):
        dirs[:] = sorted(d for d in dirs if d not in ("out", ".git", "__pycache__"))
        for name in sorted(names):
            if name.endswith(endings):
                yield os.path.join(folder, name)


def crates():
    return {c for c in os.listdir("crates") if os.path.isdir(os.path.join("crates", c, "src"))}


def module_of(path):
    """Rattle.CRATE.specs.PAGE of crates/CRATE/specs/PAGE.antt."""
    return "Rattle." + path[len("crates/"):-len(".antt")].replace("/", ".")


class Page:
    """An antt page: what it declares, and what it takes from where."""

    def __init__(self, text, ours):
        self.code = COMMENT.sub("", text)
        self.imports, self.library, self.heads, self.handed_on = [], set(), {}, set()
        for m in USE.finditer(self.code):
            path, items, alias = m[1], m[2], m[3]
            own = path.split(".")[0] == "Rattle" and path.split(".")[1] in ours
            for item in (items or "").split(","):
                words = item.split()
                if not words:
                    continue
                self.imports.append((path, words[0], own))
                if not own:
                    self.library.add(words[0])
                if " pub " in m[0].split(path)[0] or m[0].lstrip().startswith("pub "):
                    self.handed_on.add(words[-1])
            if items is None:
                self.heads[alias or path.split(".")[-1]] = (path, own)
        self.body = USE.sub("", self.code)
        self.declared, self.fields = collections.Counter(), set()
        record = None
        for line in self.body.split("\n"):
            if not line.strip():
                continue
            indent = len(line) - len(line.lstrip())
            if record is not None and indent <= record:
                record = None
            t = TYPE.match(line)
            s = SIGNATURE.match(line)
            if t:
                self.declared[t[3]] += 1
                record = indent if t[2] == "record" else None
            elif s and not NO_NAME & set(s[2].split()):
                for name in s[2].split():
                    self.declared[name] += indent == 0
                    if record is not None and indent == record + 2:
                        self.fields.add(name)


class Speller:
    """How the names in one file are turned.

    table has our names of an older spelling, and known has today's, for what cites a name that was turned before. The path is that of a page of antt, else None.
    """

    def __init__(self, page, ours, fields, table, known, path=None):
        self.page, self.ours, self.fields, self.table, self.known, self.path = page, ours, fields, table, known, path
        self.met = collections.defaultdict(set)

    def bare(self, name):
        """A name that does not stand after a dot. On a page of antt that is a local name too, elsewhere only one that is declared."""
        if name in self.page.library:
            return name
        if name in TAKEN_ON.get(self.path, ()):
            return TAKEN_ON[self.path][name]
        if name in HELD and HELD[name] in self.table:
            return name + "_lem"
        return snake(name) if self.path or name in self.table else name

    def dotted(self, chain, name):
        """A name after a dot; chain is what stands before it, with no space between."""
        parts = chain[:-1].split(".")
        head = self.page.heads.get(parts[0])
        if head or parts[0] == "Rattle":
            own = head[1] if head else parts[1] in self.ours if len(parts) > 1 else False
            generated = head and re.search(r"\.(Tie|Statement)$", head[0])
            return self.bare(name) if own and not generated and name in self.table else name
        if parts[0] in ("lib", "mathlib", "native", "Prim", "borrow", "denote"):
            return name
        return TAKEN_FIELDS.get(name, snake(name)) if name in self.fields else name

    def is_field(self, text, m):
        """Does a name declare or fill a field of a record?"""
        if m[0] not in TAKEN_FIELDS:
            return False
        before, behind = text[max(0, m.start() - 120):m.start()], text[m.end():m.end() + 3]
        return re.match(" = ", behind) and re.search(r"[{;]\s*$", before) or re.match(" :", behind) and re.search(r"\n +(pub )?$", before) and m[0] in self.page.fields

    def turn(self, text, start=0, end=None):
        """The text between start and end, turned as antt."""
        out, at = [], start
        end = len(text) if end is None else end
        for m in NAME.finditer(text, start, end):
            name, i = m[0], m.start()
            if text[i - 1:i] == "«":
                continue
            if i and text[i - 1] == "." and i > 1 and not text[i - 2].isspace():
                chain = CHAIN.search(text[max(0, i - 200):i])
                new = self.dotted(chain[0] if chain else ".", name)
            elif self.is_field(text, m):
                new = TAKEN_FIELDS[name]
            else:
                new = self.bare(name)
                self.met[new].add(name)
            if new != name:
                out += [text[at:i], new]
                at = m.end()
        return "".join(out) + text[at:end]

    def items(self, m):
        """A line `use`."""
        if m[2] is None:
            return m[0]
        own = m[1].split(".")[0] == "Rattle" and m[1].split(".")[1] in self.ours
        turned = []
        for item in m[2].split(","):
            words = item.split()
            if own and words:
                words[0] = self.bare(words[0])
            if len(words) == 3:
                words[2] = self.bare(words[2])
            if words:
                self.met[words[-1]].add(item.split()[-1])
            turned.append(" ".join(words))
        a, b = m.start(2) - m.start(), m.end(2) - m.start()
        return m[0][:a] + ", ".join(turned) + m[0][b:]

    def words(self, text, quoted):
        """Words of a comment or a document: in backquotes all names of ours, elsewhere only what is no plain compound."""
        def word(m):
            name = m[0]
            if name not in self.table and snake(name) not in self.known:
                return name
            return (self.bare(name) if name in self.table else snake(name)) if quoted or name in BARE or not re.fullmatch(r"[a-z]+(?:-[a-z]+)+", name) else name
        return re.sub(r"[^\s(){}.;,@\"«»\[\]`:/|\\!?=]+", word, text)

    def comment(self, text):
        parts = text.split("`")
        return "`".join(self.words(p, i % 2 == 1 and i + 1 < len(parts)) for i, p in enumerate(parts))

    def antt(self, text):
        out, at = [], 0
        for m in COMMENT.finditer(text):
            out += [self.code(text[at:m.start()]), self.comment(m[0])]
            at = m.end()
        return "".join(out) + self.code(text[at:])

    def code(self, text):
        out, at = [], 0
        for m in USE.finditer(text):
            out += [self.turn(text, at, m.start()), self.items(m)]
            at = m.end()
        return "".join(out) + self.turn(text, at)

    def rattle(self, text):
        """A file of the code: its lines `ghost use`, its clauses and its comments."""
        spans = [(m.start(), m.end(), "comment") for m in re.finditer(r"//.*$", text, re.M)]
        inside = lambda i: any(a <= i < b for a, b, _ in spans)
        found = [(m.start(), m.end(), "use") for m in re.finditer(r"^ *ghost use [^;]*;", text, re.M)]
        for m in CLAUSE.finditer(text):
            if inside(m.start()):
                continue
            depth, i = 1, m.end()
            while depth:
                depth += {"{": 1, "}": -1}.get(text[i], 0)
                i += 1
            found.append((m.end(), i - 1, "clause"))
        spans = sorted(found + [s for s in spans if not any(a <= s[0] < b for a, b, _ in found)])
        out, at = [], 0
        for a, b, kind in spans:
            out.append(text[at:a])
            part = text[a:b]
            out.append(self.comment(part) if kind == "comment" else USE.sub(self.items, part) if kind == "use" else self.turn(part))
            at = b
        return "".join(out) + text[at:]

    def document(self, text):
        """Backquotes and blocks of code, and elsewhere what is no plain compound."""
        out = []
        for i, part in enumerate(re.split(r"(?m)^```", text)):
            out.append(self.words(part, True) if i % 2 else self.comment(part))
        return "```".join(out)


def edit(text, speller, page):
    """A must-fail edit; page is the speller of the page that it changes."""
    lines = []
    for line in text.split("\n"):
        key = re.match(r"(old|new): ", line)
        if key:
            line = key[0] + page.turn(line[key.end():])
        elif not line.startswith("file:"):
            line = re.sub(r"(Fails in \w+, )([^ :,;]+)", lambda m: m[1] + (speller.bare(m[2]) if m[2] in speller.table else m[2]), speller.comment(line))
        lines.append(line)
    return "\n".join(lines)


def headers(text, speller):
    return re.sub(r"/\*.*?\*/|//[^\n]*", lambda m: speller.comment(m[0]), text, flags=re.S)


def collect(ours):
    texts = {p: read(p) for p in files("crates", ".antt")}
    return texts, {p: Page(t, ours) for p, t in texts.items()}


def faults(pages, ours):
    """Names that a page or a file of the code takes from a page of ours that does not declare them, older spellings in code, and names declared twice."""
    modules = {module_of(p): g for p, g in pages.items()}
    has = lambda path, name: path not in modules or name in modules[path].declared or name in modules[path].handed_on
    code = {p: Page(re.sub(r"(?m)//.*$", "", read(p)), ours) for p in files("crates", ".rt")}
    declared = {n for g in pages.values() for n in g.declared}
    for p, page in code.items():
        for name in re.findall(r"[\w'-]+", re.sub(r'"(?:\\.|[^"\\])*"', "", page.body)):
            if snake(name) != name and snake(name) in declared:
                yield f"{p}: {name} is left"
    for p, page in [*pages.items(), *code.items()]:
        for path, name, own in page.imports:
            if own and not has(path, name):
                yield f"{p}: {path} has no {name}"
            if own and path not in modules and not re.search(r"\.(declared|contracts)\.|\.(Tie|Statement)$", path) and not any(m.startswith(path + ".") for m in modules):
                yield f"{p}: there is no page {path}"
        for m in re.finditer(rf"(?<![^{END}])(?<!\.)([^{END}]+)\.([^{END}]+)", page.body if p in pages else ""):
            head = page.heads.get(m[1])
            if head and head[1] and not has(head[0], m[2]):
                yield f"{p}: {m[0]}: {head[0]} has no {m[2]}"
        if p in pages:
            for name, count in page.declared.items():
                if count > 1:
                    yield f"{p}: {name} is declared {count} times"


def main():
    if not os.path.isdir("crates"):
        print("respell: run it at the top of the repository", file=sys.stderr)
        return 2
    ours = crates()
    texts, pages = collect(ours)
    fields = {f for g in pages.values() for f in g.fields}
    answers = {n for p, g in pages.items() if p.endswith("/Proof.antt") for n in g.declared}
    declared = {n for p, g in pages.items() if not p.endswith("/Proof.antt") for n in g.declared}
    turned = lambda names: {n for n in names if snake(n) != n}
    cited = turned(declared | {n for n in answers if n.endswith("-spec")})
    cited |= {n for n in HELD if HELD[n] in cited}
    table = cited | turned(answers)
    known = {snake(n) for n in declared} | {n + "_lem" for n in HELD}
    changed, together = collections.Counter(), []

    def write(path, old, new, kind):
        if new != old:
            with open(path, "w", encoding="utf-8") as f:
                f.write(new)
            changed[kind] += 1

    spellers = {p: Speller(g, ours, fields, table, known, p) for p, g in pages.items()}
    for p, t in texts.items():
        write(p, t, spellers[p].antt(t), "pages of antt")
        together += [f"{p}: {', '.join(sorted(olds))} become {new}" for new, olds in spellers[p].met.items() if len(olds) > 1]
    for p in files("crates", ".rt"):
        t = read(p)
        s = Speller(Page(re.sub(r"(?m)//.*$", "", t), ours), ours, fields, cited, known)
        write(p, t, s.rattle(t), "files of code")
        together += [f"{p}: {', '.join(sorted(olds))} become {new}" for new, olds in s.met.items() if len(olds) > 1]
    plain = Speller(Page("", ours), ours, fields, cited, known)
    for p in files("crates", ".edit"):
        t = read(p)
        target = re.search(r"(?m)^file: *(\S+)", t)
        target = os.path.join(p.split("/must-fail/")[0], target[1]) if target else None
        write(p, t, edit(t, plain, spellers.get(target, plain)), "must-fail edits")
    for p in sorted(files(".", ".md")):
        t = read(p)
        write(p, t, plain.document(t), "documents")
    for p in files("include", ".h"):
        t = read(p)
        write(p, t, headers(t, plain), "headers")
    for p in sorted([*files("crates", ".py"), os.path.join("docs", "check-rules"), os.path.join("docs", "unreached")]):
        if os.path.isfile(p):
            t = read(p)
            write(p, t, plain.comment(t), "scripts")

    print(f"respell: {len(table)} names of ours had an older spelling")
    for kind, n in changed.items():
        print(f"respell: {n} {kind} changed")
    apart = [(n, n, TAKEN.get(n, n + "_lem")) for n in [*TAKEN, *HELD]] + [(n, "the field " + n, new) for n, new in TAKEN_FIELDS.items()]
    apart += [(n, f"{n} of {p}", new) for p, names in TAKEN_ON.items() for n, new in names.items()]
    for name, what, new in apart:
        if name in table:
            print(f"respell: told apart: {what} became {new}")
    wrong = [f"fell together: {t}" for t in together] + list(faults(collect(ours)[1], ours))
    for line in wrong:
        print("respell: " + line)
    for crate in sorted(ours):
        subprocess.run(["rt", "fmt"], cwd=os.path.join("crates", crate), stdout=subprocess.DEVNULL, check=False)
    return 1 if wrong else 0


if __name__ == "__main__":
    sys.exit(main())
