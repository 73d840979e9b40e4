"""The most stack that each entry of the archive can take, by its machine code: the frames along the longest way of calls.

A frame is what a function pushes and takes off the stack pointer, what it writes below that, and its return address. Arguments that are pushed for one
call and given back count all the same, so the figure can be some bytes too high, never too low. There is no recursion and no
call through a pointer; either is said so. Of a function outside the archive only the return address is counted.
"""
import re
import subprocess


def functions(objdump, library):
    """Of each function its frame, what it uses below it, and the functions that it calls (True) or jumps to (False)."""
    command = [objdump, "-dr", "--no-show-raw-insn", str(library)]
    lines = subprocess.run(command, text=True, capture_output=True, check=True).stdout.splitlines()
    found, frame, ways, word = {}, [0, 0], set(), ""
    for line in lines:
        if head := re.match(r"[0-9a-f]+ <(.+)>:$", line):
            name, frame, ways = head.group(1), [0, 0], set()
            found[name] = (frame, ways)
        elif place := re.search(r"R_X86_64_PLT32\s+(?:\.text\.)?(.+?)-0x4$", line):
            if place.group(1) != name:
                ways.add((word.startswith("call"), place.group(1)))
        elif code := re.match(r"\s+[0-9a-f]+:\s+(\S+)\s*(.*)$", line):
            word, rest = code.groups()
            near = re.search(r"<([^>+]+)>$", rest)
            if near and near.group(1) != name and word.startswith(("call", "j")):
                ways.add((word.startswith("call"), near.group(1)))
            taken = re.match(r"\$(0x[0-9a-f]+),%rsp$", rest)
            below = re.search(r"-(0x[0-9a-f]+)\(%rsp", rest)
            if below:
                frame[1] = max(frame[1], int(below.group(1), 16))
            if word.startswith("push"):
                frame[0] += 8
            elif word == "sub" and taken:
                frame[0] += int(taken.group(1), 16)
            elif word == "add" and taken and int(taken.group(1), 16) >> 63:
                frame[0] += (1 << 64) - int(taken.group(1), 16)
            elif word in ("sub", "and", "mov", "lea") and rest.endswith(",%rsp") or word.startswith("call") and rest[0] == "*":
                raise SystemExit(f"{name}: a frame that the code does not tell: {word} {rest}")
    return {name: (*frame, ways) for name, (frame, ways) in found.items()}


def most(found, name, above=()):
    """The most bytes that a call of a function takes, its return address with them."""
    if name not in found:
        return 8
    if name in above:
        raise SystemExit(f"{name} calls itself")
    frame, below, ways = found[name]
    # Who jumps to another has given its own frame back.
    deeper = [most(found, to, (*above, name)) - (0 if calls else frame + 8) for calls, to in ways]
    return 8 + frame + max([below, *deeper])


def print_table(objdump, library):
    found = functions(objdump, library)
    print()
    print("| call | bytes of stack, no call takes more |")
    print("|---|---|")
    for name in sorted(found):
        if name.startswith("smyrilox_"):
            print(f"| {name.removeprefix('smyrilox_')} | {most(found, name)} |")
    print()
