#!/usr/bin/env python3
"""Counts the places in crates/*/src that docs/DESIGN-PASS.md looks for, a number for each kind of place.

    tools/count_forms.py [FOLDER] [-v]      FOLDER holds crates/, this repository if it is not given; -v prints each place too

A place is found by its shape, so a kind may hold places that are right as they are; the page says which. It reads text and writes nothing.
"""
import collections
import difflib
import pathlib
import re
import sys

# Variants that only say that there is no value, or why there is none.
NO_VALUE = {"Refused", "Rejected", "Nothing", "Beyond", "Outside", "Damaged", "NoRoom", "NotCodable", "Stopped"}
# Fields that say whether the fields beside them mean anything.
FLAGS = r"^\s*(?:pub(?:\(crate\))? )?(going|ok|check|answer|ending|legal|done)\s*:"
ITEM = re.compile(r"^(?:pub(?:\(crate\))? )?(?:extern \"C\" )?(?:const )?(fn|enum|struct) (\w+)", re.M)


def sources(root):
    for path in sorted(root.glob("crates/*/src/**/*.rt")):
        yield path.relative_to(root), path.read_text()


def items(text, kind):
    """Each item of a kind at the file's edge or in an impl, with its first line and its text."""
    lines = text.split("\n")
    head = re.compile(r"^( *)(?:pub(?:\(crate\))? )?(?:extern \"C\" )?(?:const )?%s (\w+)" % kind)
    for i, line in enumerate(lines):
        m = head.match(line)
        if not m:
            continue
        end = next((j for j in range(i, len(lines)) if lines[j] in (m[1] + "}", m[1] + "};") or lines[i].endswith(";")), i)
        yield i + 1, m[2], lines[i : end + 1]


def body(lines):
    """A function's lines behind its contract."""
    start = next((i for i, l in enumerate(lines) if l.strip() == "{" or (l.endswith("{") and "ensures" not in l and "requires" not in l)), 0)
    return [re.sub(r"//.*", "", l).strip() for l in lines[start + 1 : -1] if l.strip()]


def own_answers(files):
    """1a: enums with a variant that only says that there is no value, or why."""
    for path, text in files:
        for at, name, lines in items(text, "enum"):
            variants = set(re.findall(r"^    (\w+)", "\n".join(lines), re.M))
            if variants & NO_VALUE and len(variants) <= 4 and not name.endswith("Error"):
                yield path, at, name


def flagged(files):
    """1b: structs with a field that says whether the others mean anything."""
    for path, text in files:
        for at, name, lines in items(text, "struct"):
            for line in lines:
                m = re.match(FLAGS, line)
                if m:
                    yield path, at, f"{name}.{m[1]}"


def number_codes(files):
    """1c: matches and tests of a kind, a call or a reason by its number."""
    for path, text in files:
        for i, line in enumerate(text.split("\n")):
            if re.search(r"(?:match|if) (?:kind|call|want|what|reason|ending|op)\w*(?: [=!<]=? \d+)? \{", line) and re.search(
                r"^\s*(?:match|if)", line
            ):
                following = "\n".join(text.split("\n")[i : i + 3])
                if re.search(r"== \d+|^\s+\d+ =>", following, re.M):
                    yield path, i + 1, line.strip()


def functions(files):
    for path, text in files:
        for at, name, lines in items(text, "fn"):
            yield path, at, name, lines


def twins(files):
    """2: pairs of functions of six lines or more whose bodies are alike by nine parts in ten, names and numbers aside."""
    shaped = []
    for path, at, name, lines in functions(files):
        code = body(lines)
        if len(code) >= 6:
            shape = [re.sub(r"\b\d\w*\b", "0", re.sub(r"\b[a-z]\w*\b(?!\()", "v", l)) for l in code]
            shaped.append((path, at, name, "\n".join(shape), len(code)))
    for i, a in enumerate(shaped):
        for b in shaped[i + 1 :]:
            if 2 * abs(a[4] - b[4]) <= 0.2 * (a[4] + b[4]):
                m = difflib.SequenceMatcher(None, a[3], b[3], autojunk=False)
                if m.real_quick_ratio() > 0.9 and m.quick_ratio() > 0.9 and m.ratio() > 0.9:
                    yield a[0], a[1], f"{a[2]} ~ {b[0]}:{b[1]} {b[2]}"


def counted_loops(files):
    """3a: `while` and `loop`. 3b: `for` over numbers, whose variable is an index of something."""
    for path, text in files:
        lines = text.split("\n")
        for i, line in enumerate(lines):
            if re.match(r"\s*(?:while|loop)\b", line):
                yield "while", path, i + 1, line.strip()
            m = re.match(r"(\s*)for (\w+) in .*\.\.", line)
            if m:
                inner = []
                for later in lines[i + 1 :]:
                    if later == m[1] + "}":
                        break
                    inner.append(later)
                used = re.search(r"\[[^\]]*\b%s\b[^\]]*\]" % re.escape(m[2]), "\n".join(inner))
                yield ("indexed" if used else "numbered"), path, i + 1, line.strip()


def by_hand(files):
    """4: functions named as equality, order, copying, conversion or printing are, and what std names min, max and is_finite."""
    names = r"(?:same_\w+|is_same\w*|by_fields|\w+_from|kind_of|number_of|\w+_record|least|smaller|larger|at_most\w*|wide|\w*max|\w*min|copy\w*|put_\w+)$"
    for path, at, name, _ in functions(files):
        if re.match(names, name):
            yield path, at, name


def repeated_facts(files):
    """5a: parts of clauses, up to ×, that stand in the requires of three functions of a crate or more."""
    seen = collections.defaultdict(set)
    for path, at, name, lines in functions(files):
        for clause in re.findall(r"requires \w*\s*\{(.*?)\}\s*(?=requires|ensures|\n\s*\{|$)", "\n".join(lines), re.S):
            for part in clause.split("×"):
                fact = re.sub(r"\s+", " ", part).strip().strip("()")
                if len(fact) > 8:
                    seen[path.parts[1], fact].add((path, at, name))
    for (crate, fact), where in sorted(seen.items()):
        if len(where) >= 3:
            path, at, _ = min(where)
            yield path, at, f"{len(where)} functions: {fact}"


def travelling(files):
    """5b: three parameters, by name and type, that stand together in four functions of a crate or more; the largest such groups."""
    groups = collections.defaultdict(set)
    for path, at, name, lines in functions(files):
        head = re.sub(r"\s+", " ", "\n".join(lines))
        m = re.match(r".*?fn \w+(?:<[^(]*>)?\((.*?)\)(?: ->| requires| ensures| \{)", head)
        if not m:
            continue
        params = [p.strip() for p in re.split(r",(?![^<\[]*[>\]])", m[1]) if ":" in p]
        for i in range(len(params)):
            for j in range(i + 1, len(params)):
                for k in range(j + 1, len(params)):
                    groups[path.parts[1], (params[i], params[j], params[k])].add((path, at, name))
    merged = {}
    for (crate, three), where in groups.items():
        if len(where) >= 4:
            merged.setdefault((crate, frozenset(where)), set()).update(three)
    for (crate, where), params in sorted(merged.items(), key=lambda x: (x[0][0], -len(x[0][1]))):
        path, at, _ = min(where)
        yield path, at, f"{len(where)} functions: {', '.join(sorted(params))}"


def lengths_beside(files):
    """6: a slice or an array with a place or a count beside it, as parameters or as fields."""
    for path, at, name, lines in functions(files):
        head = re.sub(r"\s+", " ", "\n".join(lines)).split(" ensures ")[0].split(" requires ")[0]
        if re.search(r"\w+: &(?:'a )?(?:mut )?\[[^)]*\b(?:at|count|n|len|from): usize", head):
            yield path, at, name
    for path, text in files:
        for at, name, lines in items(text, "struct"):
            joined = "\n".join(lines)
            if re.search(r": \[\w+; ", joined) and re.search(r"\b(?:count|len|used)\b: usize", joined):
                yield path, at, name


def switches(files):
    """7: functions that take a bool or a number which says what is to be done."""
    for path, at, name, lines in functions(files):
        head = re.sub(r"\s+", " ", "\n".join(lines)).split(" ensures ")[0].split(" requires ")[0]
        m = re.search(r"\b(tape|clean|table|kind|call|which|what|explain): (?:bool|u8|u64|usize)", head)
        if m:
            yield path, at, f"{name}({m[1]})"


def main():
    words = [w for w in sys.argv[1:] if w != "-v"]
    root = pathlib.Path(words[0]) if words else pathlib.Path(__file__).resolve().parent.parent
    files = list(sources(root))
    loops = list(counted_loops(files))
    found = [
        ("1a", "own enums of the shape of Option or Result", list(own_answers(files))),
        ("1b", "flags with a value beside", list(flagged(files))),
        ("1c", "numbers for kinds", list(number_codes(files))),
        ("2", "pairs of functions that are alike", list(twins(files))),
        ("3a", "while and loop", [l[1:] for l in loops if l[0] == "while"]),
        ("3b", "for over numbers that are indices", [l[1:] for l in loops if l[0] == "indexed"]),
        ("3c", "for over numbers that are none", [l[1:] for l in loops if l[0] == "numbered"]),
        ("4", "equality, copying, conversion and printing by hand", list(by_hand(files))),
        ("5a", "facts in three contracts or more", list(repeated_facts(files))),
        ("5b", "parameters that travel together", list(travelling(files))),
        ("6", "buffers with a place or a length beside", list(lengths_beside(files))),
        ("7", "switches on what to do", list(switches(files))),
    ]
    for point, what, places in found:
        print(f"{point:3} {len(places):4}  {what}")
        if "-v" in sys.argv:
            for path, at, text in places:
                print(f"          {path}:{at} {text}")


if __name__ == "__main__":
    main()
