"""The archive's module, which is written for x86-64, for aarch64.

Nothing inside a function is changed but in the exported ones, which hand their arguments on: they take and answer them as System V says. How the C
procedure calls of aarch64 do it is told by declarations that a compiler for aarch64 has made of the header. Where both say the same, the words stay;
four things are known to differ and are put right; where anything else differs, there is no module.
"""
import re

# An exported function, its answer, name, arguments and body; a declaration's answer, name and arguments.
EXPORTED = re.compile(r"(?ms)^define (?!internal |private )([^@\n]*?) ?@(\w+)\((.*?)\) (#\d+ \{.*?^\}$)")
DECLARED = re.compile(r"(?m)^declare ([^@\n]*?) ?@(\w+)\((.*)\) #\d+$")
# Whole numbers and doubles that go in registers.
REGISTERS = 8
# What the header includes: the compiler may have no files of C's own.
INCLUDED = {
    "stdint.h": "".join(f"typedef __{u}INT{n}_TYPE__ {u.lower()}int{n}_t;\n" for n in (8, 16, 32, 64) for u in ("", "U")),
    "stddef.h": "typedef __SIZE_TYPE__ size_t;\n#define offsetof(type, field) __builtin_offsetof(type, field)\n",
    "stdbool.h": "#define bool _Bool\n",
}


class Unsure(Exception):
    """Why a module is not made for aarch64."""


def split(arguments):
    """The arguments of a definition or a declaration."""
    return [word.strip() for word in re.split(r",(?![^(\[{]*[)\]}])", arguments) if word.strip()]


def kind(word):
    """An argument's type: that of `sret` is its own, others stand in front."""
    return "sret" if "sret(" in word else re.match(r"\[\d+ x \w+\]|\w+", word).group()


def arguments(name, given, declared):
    """The arguments for aarch64, of those for System V."""
    left, made, count = list(given), [], {"whole": 0, "double": 0}
    for told in map(kind, declared):
        part = re.fullmatch(r"\[2 x (i64|double)\]", told)
        words = [left.pop(0) for _ in range(2 if part else 1) if left]
        types = [kind(word) for word in words]
        is_struct = "byval(" in "".join(words)
        if told == "sret" and types == ["ptr"] and not is_struct:
            # The place of an answer goes in a register of its own.
            made.append(words[0].replace("ptr noundef", "ptr noundef sret([8 x i8]) align 8", 1))
            continue
        if told == "ptr" and is_struct and "align 8 " in words[0]:
            # A long struct goes by a pointer to the caller's copy, and not on the stack.
            words = [re.sub(r"byval\(\[\d+ x i8\]\)", "noalias", words[0])]
        elif is_struct or not (types == [told] or part and types in ([part[1]] * 2, ["i64", "i32"])):
            raise Unsure(f"{name}: {', '.join(words) or 'nothing'} on x86-64 is {told} on aarch64")
        place = "double" if "double" in told else "whole"
        count[place] += len(words)
        if count[place] > REGISTERS and told not in ("ptr", "i64", "i32"):
            # Numbers and pointers have eight bytes each on the stack, as the module's are laid there; of others this is not looked at.
            raise Unsure(f"{name}: {told} behind the {REGISTERS} that go in registers")
        made += words
    if left:
        raise Unsure(f"{name}: {', '.join(left)} on x86-64 is nothing on aarch64")
    return made


def answer(name, given, body, told, declared):
    """The answer and the body for aarch64."""
    bare = given.replace("noundef ", "")
    if told == "void" and bare == "ptr" and declared[:1] and "sret(" in declared[0] and body.count("ret ptr %a0\n") == body.count("  ret ") == 1:
        # Nor is the place of an answer handed back.
        return "void", body.replace("ret ptr %a0\n", "ret void\n")
    if told == "[2 x i64]" and bare == "{ i64, double }":
        # A struct of a number and a double goes in two registers for numbers: it is read as two numbers where it is handed back.
        handed = re.search(r"(?m)^  (%\w+) = load \{ i64, double \}(, ptr %\w+, align 8\n  ret )\{ i64, double \} \1$", body)
        if handed and body.count(" ret ") == 1:
            return "{ i64, i64 }", body.replace(handed[0], f"  {handed[1]} = load {{ i64, i64 }}{handed[2]}{{ i64, i64 }} {handed[1]}")
    if (told, bare) in (("[2 x i64]", "{ i64, i64 }"), ("i64", "i64")):
        return given, body
    raise Unsure(f"{name}: the answer {given} on x86-64 is {told} on aarch64")


def exported(module):
    """The names of the functions that a module exports."""
    return [found[2] for found in EXPORTED.finditer(module)]


def using(header, names):
    """C that names functions of a header, so that a compiler tells their declarations."""
    return f'#include "{header}"\nconst void *entries[] = {{{", ".join(names)}}};\n'


def retarget(module, told):
    """The module for aarch64. What is told are the declarations of its exported functions, with the layout of that machine."""
    declared = {found[2]: (found[1], split(found[3])) for found in DECLARED.finditer(told)}
    if foreign := re.search(r"llvm\.x86\.\w+|\basm ", module):
        raise Unsure(f"the module has instructions of one machine: {foreign.group()}")

    def rewritten(found):
        given, name, words, body = found.groups()
        if name not in declared:
            raise Unsure(f"{name} is not in the header")
        made = arguments(name, split(words), declared[name][1])
        given, body = answer(name, given, body, *declared[name])
        return f"define {given} @{name}({', '.join(made)}) {body}"

    module = EXPORTED.sub(rewritten, module)
    for line in ("target datalayout", "target triple"):
        there = re.search(rf'(?m)^{line} = ".*"$', told).group()
        module, count = re.subn(rf'(?m)^{line} = ".*"$', lambda _: there, module)
        if count != 1:
            raise Unsure(f"the module has {count} lines of its {line}")
    if "byval(" in module:
        raise Unsure("a struct that goes on the stack inside the module")
    return re.sub(r'"target-cpu"="x86-64[\w-]*"', '"target-cpu"="generic"', module)
