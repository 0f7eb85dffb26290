"""machine_code.py: what the machine code of an x86-64 image does, read from llvm-objdump: registers, red zone, and depth of stack.

The image is linked, so that each call names its target. Anything that moves RSP in a way that is not known here is an error, as are
recursion and calls through registers: a depth that is printed is the deepest there is.
"""
import re
from kit import fail, run, tool

JUMP = re.compile(r"j\w+|loop\w*")
ENDS, FILL = ("ret", "jmp", "ud2"), ("nop", "int3")   # what a block ends with, and what stands between blocks


class Function:
    def __init__(self, name, start):
        self.name, self.start, self.code = name, start, []   # code: (address, mnemonic, operands)
        self.own = 0                                         # its own deepest, with the return address
        self.calls = {}                                      # name: depth at which it is called
        self.below = 0                                       # the deepest use of the red zone
        self.tabled = False                                  # it jumps through a table


def functions(image):
    """The functions of an image, by name; the second of a name, as another part of an archive has it, by name and address."""
    found, now = {}, None
    for line in run(tool("llvm-objdump"), "-d", "--no-show-raw-insn", "-M", "intel", image).splitlines():
        head = re.match(r"([0-9a-f]+) <(.*)>:$", line)
        if head:
            name = head[2] if head[2] not in found else f"{head[2]} at {head[1].lstrip('0')}"
            now = found[name] = Function(name, int(head[1], 16))
            continue
        m = re.match(r"\s*([0-9a-f]+):\s+(\S+)\s*(.*)$", line)
        if m and now:
            now.code.append((int(m[1], 16), m[2], re.sub(r"\s+#.*", "", m[3]).strip()))
    return found


def number(text):
    return int(text, 0)


def walk(f, named):
    """Follows each path through a function, and keeps how deep RSP is at each instruction. `named` has the name of each function's start."""
    at = {address: i for i, (address, _, _) in enumerate(f.code)}
    depth_at, todo = {}, [(0, 8, None, None)]   # index, depth, depth of RBP where it holds RSP, depth where a loop that probes ends
    tables = []                                 # the same, at each jump through a table

    def bad(i, why):
        address, word, operands = f.code[i]
        fail(f"{f.name}: {why}: {address:x}: {word} {operands}")

    while todo or tables:
        if not todo:   # what only a table leads to: the blocks that no path has reached
            i, *state = tables.pop()
            if any(depth != state[0] for _, depth, *_ in tables):
                bad(i, "it jumps through tables at two depths of the stack")
            todo = [(j, *state) for j in range(1, len(f.code)) if j not in depth_at and f.code[j][1] not in FILL and f.code[j - 1][1] in ENDS + FILL]
            if not todo and not f.tabled:
                bad(i, "a jump whose target is not known")
            f.tabled = True
            continue
        i, depth, frame, probed = todo.pop()
        while i < len(f.code):
            if i in depth_at:
                if depth_at[i] != depth:
                    bad(i, f"two depths of the stack, {depth_at[i]} and {depth}")
                break
            depth_at[i] = depth
            f.own = max(f.own, depth)
            address, word, operands = f.code[i]
            target = re.search(r"<(.+?)(?:\+0x([0-9a-f]+))?>$", operands)
            # what lies below RSP and is used all the same
            for low in re.findall(r"\[rsp(?: \+ [^\]]*)? - (0x[0-9a-f]+|\d+)", operands):
                f.below = max(f.below, number(low))
                f.own = max(f.own, depth + number(low))
            if word.startswith("push"):
                depth += 8
            elif word.startswith("pop"):
                depth -= 8
                if operands == "rbp":
                    frame = None
            elif word in ("sub", "add") and operands.startswith("rsp,"):
                amount = operands.split(",")[1].strip()
                if not re.fullmatch(r"-?(0x[0-9a-f]+|\d+)", amount):
                    bad(i, "RSP moves by an unknown number")
                depth += number(amount) if word == "sub" else -number(amount)
            elif (word, operands) == ("mov", "rbp, rsp"):
                frame = depth
            elif word == "sub" and operands.startswith("r11,") and f.code[i - 1][1:] == ("mov", "r11, rsp"):
                probed = depth + number(operands.split(",")[1].strip())   # a large frame: a loop moves RSP there page by page
            elif word == "lea" and operands.startswith("rsp, [rbp") and frame:
                m = re.fullmatch(r"rsp, \[rbp(?: ([+-]) (\w+))?\]", operands)
                depth = frame - (number(m[2]) * (1 if m[1] == "+" else -1) if m[1] else 0)
            elif (word, operands) == ("mov", "rsp, rbp") and frame:
                depth = frame
            elif word == "leave" and frame:
                depth, frame = frame - 8, None
            elif word == "and" and operands.startswith("rsp,"):
                depth += -number(operands.split(",")[1].strip()) - 8
            elif re.match(r"(e?sp|spl?|rsp)\b", operands) and word not in ("cmp", "test"):
                bad(i, "RSP moves in a way that is not known here")
            elif word.startswith("call"):
                if not target or target[2]:
                    bad(i, "a call whose target is not known")
                callee = named.get(int(operands.split()[0], 16), target[1])
                f.calls[callee] = max(f.calls.get(callee, 0), depth)
            elif JUMP.fullmatch(word):
                if not target:
                    tables.append((i, depth, frame, probed))
                    break
                goal = int(operands.split()[0], 16)
                if goal in at:
                    if probed and f.code[i - 1][1:] == ("cmp", "rsp, r11"):
                        depth, probed = probed, None   # after the loop that probes
                    else:
                        todo.append((at[goal], depth, frame, probed))
                else:   # a tail call
                    callee = named.get(goal, target[1])
                    f.calls[callee] = max(f.calls.get(callee, 0), depth - 8)
                if word == "jmp":
                    break
            if word.startswith("ret"):
                if depth != 8:
                    bad(i, f"it returns at depth {depth}")
                break
            if word in ("ud2", "int3", "hlt"):
                break
            i += 1


def depths(found):
    """How deep each function's stack is with all that it calls, its return address counted."""
    named = {f.start: name for name, f in found.items()}
    for f in found.values():
        walk(f, named)
    deepest = {}

    def of(name, path):
        if name in path:
            fail("recursion:", " -> ".join(path[path.index(name):] + [name]))
        if name not in found:
            fail(f"{path[-1]} calls {name}, which is not in the image")
        if name not in deepest:
            f = found[name]
            deepest[name] = max([f.own] + [depth + of(callee, path + [name]) for callee, depth in f.calls.items()])
        return deepest[name]

    for name in found:
        of(name, [])
    return deepest


def registers(found):
    """The registers beyond the general ones that the code names."""
    used = set()
    for f in found.values():
        for _, _, operands in f.code:
            used |= set(re.findall(r"\b(?:[xyz]mm\d+|k[0-7]|mm[0-7]|st\(\d\)|st)\b", re.sub(r"<.*>", "", operands)))
    return sorted(used, key=lambda r: (r.rstrip("0123456789"), int(re.sub(r"\D", "", r) or 0)))
