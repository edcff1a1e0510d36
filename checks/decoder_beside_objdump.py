#!/usr/bin/env python3
"""Compares decoder and encoder with objdump over the golden table, over random bytes and over real programs.

    decoder_beside_objdump.py [FILE..]

The files are i386 ELF files, by default the system's i386 libraries; others are passed over. Of each list of bytes, length and
operands have to be the same, and of each row of the table the shortest spellings have to mean the row's instruction, but for the
classes of difference below, which docs/DECISIONS.md explains; each is printed with its number and an example. The status is 0
where each difference is in a class, 1 where one is in none, and 3 where nothing was compared, since objdump or the program is missing.
"""

import os
import random
import re
import shutil
import subprocess
import sys
import tempfile

TOP = os.path.dirname(os.path.dirname(os.path.abspath(__file__)))
sys.dont_write_bytecode = True
sys.path.insert(0, os.path.join(TOP, "checks"))
from elf_text import PACKAGES, libraries, texts_of  # noqa: E402
from programs import built, skip  # noqa: E402

RANDOM = 300_000
REAL = 400_000
SEED = 20261201
# room for the longest instruction, and NOPs in which objdump finds its way again
KEPT, ROOM = 16, 48

# ---- this decoder's line as objdump writes it

WIDE = ["eax", "ecx", "edx", "ebx", "esp", "ebp", "esi", "edi"]
NAMES = {
    1: ["al", "cl", "dl", "bl", "ah", "ch", "dh", "bh"],
    2: ["ax", "cx", "dx", "bx", "sp", "bp", "si", "di"],
    4: WIDE,
}
SIZES = {1: "BYTE PTR ", 2: "WORD PTR ", 4: "DWORD PTR "}
ONE_OPERAND = {"Inc": "inc", "Dec": "dec", "Not": "not", "Neg": "neg", "Mul": "mul", "ImulWide": "imul", "Div": "div", "Idiv": "idiv"}


def address(text):
    parts = text[1:-1].split("+")
    offset = int(parts.pop(), 16)
    if not parts:
        return f"ds:0x{offset:x}"
    if offset:
        parts.append(f"0x{offset:x}")
    return "[" + "+".join(parts) + "]"


def operand(text, width, sized=True):
    if text.startswith("["):
        return (SIZES[width] if sized else "") + address(text)
    if text.startswith("0x"):
        return f"0x{int(text, 16):x}"
    return NAMES[width][WIDE.index(text)]


def two(name, left, right):
    """Two operands. objdump says a size where no register tells it."""
    return f"{name} {left},{right}"


def expected(form, f, place, length):
    """The text of an instruction at a place."""
    width = int(f.get("width", 4))
    operands = lambda a, b, name: two(name, operand(f[a], width), operand(f[b], width))
    target = lambda: f"0x{(place + length + int(f['by'], 16)) % 2**32:x}"
    if form == "Alu":
        return operands("to", "from", f["op"].lower())
    if form == "Test":
        return operands("left", "right", "test")
    if form == "Mov":
        return operands("to", "from", "mov")
    if form == "Lea":
        return two("lea", operand(f["to"], width), address(f["at"]))
    if form in ONE_OPERAND:
        return f"{ONE_OPERAND[form]} {operand(f.get('to') or f['from'], width)}"
    if form == "Imul":
        return operands("to", "from", "imul")
    if form == "ImulBy":
        return operands("to", "from", "imul") + "," + operand(f["by"], width)
    if form in ("Shift", "Shld", "Shrd"):
        count = f["count"] if f["count"] == "cl" else f"0x{int(f['count'], 16):x}"
        if form == "Shift":
            return two(f["op"].lower(), operand(f["to"], width), count)
        return operands("to", "from", form.lower()) + "," + count
    if form == "Push":
        return f"push {operand(f['from'], 4)}"
    if form == "Pop":
        return f"pop {operand(f['to'], 4)}"
    if form == "Xchg":
        return operands("left", "right", "xchg")
    if form in ("Movzx", "Movsx"):
        return two(form.lower(), operand(f["to"], int(f["wide"])), operand(f["from"], width))
    if form == "Cmov":
        return operands("to", "from", "cmov" + f["cond"].lower())
    if form == "Setcc":
        return f"set{f['cond'].lower()} {operand(f['to'], 1)}"
    if form == "Extend":
        return {2: "cbw", 4: "cwde"}[width]
    if form == "Spread":
        return {2: "cwd", 4: "cdq"}[width]
    if form in ("Bsf", "Bsr"):
        return operands("to", "from", form.lower())
    if form == "Bswap":
        return f"bswap {f['to']}"
    if form in ("Movs", "Stos"):
        rep = "rep " if f["repeat"] == "true" else ""
        source = f"{SIZES[width]}ds:[esi]" if form == "Movs" else NAMES[width][0]
        return f"{rep}{form.lower()} {SIZES[width]}es:[edi],{source}"
    if form == "Jmp":
        return f"jmp {target()}"
    if form in ("JmpTo", "CallTo"):
        return f"{form[:-2].lower()} {operand(f['to'], 4)}"
    if form == "Jcc":
        return f"j{f['cond'].lower()} {target()}"
    if form == "Call":
        return f"call {target()}"
    if form == "Ret":
        drop = int(f["drop"], 16)
        return f"ret 0x{drop:x}" if drop else "ret"
    return {"Leave": "leave", "Int80": "int 0x80", "Cld": "cld", "Nop": "nop"}[form]


def read(line):
    """Length, form and fields of a line, or None."""
    words = line.split(" encode=")[0].split()
    if len(words) < 2 or not words[0].isdigit():
        return None
    return int(words[0]), words[1], dict(word.split("=", 1) for word in words[2:])


# ---- objdump's text, without what says nothing of the instruction

def plain(text):
    """One space, no comment, no symbol, displacements as words, no index that is none, the NOPs as one."""
    text = re.sub(r"\s+", " ", text.split("#")[0].split("<")[0]).strip()
    text = re.sub(r"\+(eiz)\*[1248]|(eiz)\*[1248]\+?", "", text)
    text = re.sub(r"-0x([0-9a-f]+)\]", lambda m: f"+0x{(-int(m.group(1), 16)) % 2**32:x}]", text)
    text = re.sub(r"\[\+0x", "[0x", text)
    text = text.replace("+0x0]", "]")
    text = re.sub(r"ds:\[0x", "ds:0x", re.sub(r"(?<!:)\[(0x[0-9a-f]+)\]", r"ds:\1", text))
    if re.fullmatch(r"((data16|cs) )*(nop( (D?WORD PTR (cs:)?)(\[.*\]|ds:.*))?|nop [a-z]+|xchg ax,ax|nopw .*)", text) or text == "endbr32":
        return "nop"
    text = re.sub(r"^notrack ", "", text)
    text = re.sub(r"^repz ret$", "ret", text)
    text = re.sub(r"^(cs )+lea ", "lea ", text)
    text = re.sub(r"^lea (\w+),cs:(?=0x)", r"lea \1,ds:", text)
    text = re.sub(r"^lea (\w+),cs:", r"lea \1,", text)
    text = re.sub(r"^(ret) 0x0$", r"\1", text)
    text = re.sub(r"^((?:rol|ror|shl|shr|sar) .*),1$", r"\1,0x1", text)
    return text


def same(ours, theirs):
    if ours == theirs:
        return True
    # objdump says no size where the address stands alone behind A0 to A3
    if ours.startswith("mov ") and re.sub(r"D?(WORD|BYTE) PTR ds:", "ds:", ours) == theirs:
        return True
    # an exchange has no first operand
    left, right = re.fullmatch(r"xchg (.*),(.*)", ours), re.fullmatch(r"xchg (.*),(.*)", theirs)
    return bool(left and right and {left[1], left[2]} == {right[1], right[2]})


# ---- classes of difference

LISTED = (
    "add or adc sbb and sub xor cmp test mov lea inc dec not neg mul imul div idiv rol ror shl shr sar shld shrd push pop xchg "
    "movzx movsx cwde cbw cwd cdq bsf bsr bswap movs stos jmp call ret leave int cld nop endbr32"
).split()
CONDITIONS = "o no b ae e ne be a s ns p np l ge le g".split()
LISTED += [name + c for name in ("j", "cmov", "set") for c in CONDITIONS]


def prefixes_of(bytes_):
    found = []
    for byte in bytes_:
        if byte not in (0x66, 0x67, 0x2E, 0x36, 0x3E, 0x26, 0x64, 0x65, 0xF0, 0xF2, 0xF3):
            break
        found.append(byte)
    return found


def class_of(bytes_, line, said):
    """Why the two differ, or None. The order matters: the first that fits."""
    found = prefixes_of(bytes_)
    rest = bytes_[len(found) :]
    opcode = rest[0] if rest else None
    middle = rest[1] // 8 % 8 if len(rest) > 1 else None
    second = rest[1] if opcode == 0x0F and len(rest) > 1 else None
    words = plain(said).split()
    name = next((word for word in words if word not in PREFIX_WORDS), words[0])
    if line.startswith("15 Nop") and found == [0x66] * 14:
        return "fourteen 66 before a NOP"
    if line not in ("Outside", "Short"):
        return None
    if said.strip() == "(bad)" or "(bad)" in said:
        return "objdump finds no instruction either"
    if name in PREFIX_WORDS or len(found) == len(bytes_[:15]):
        return "objdump shows prefixes as an instruction of their own"
    if any(byte in (0x67, 0x36, 0x26, 0x64, 0x65, 0xF0, 0xF2) for byte in found):
        return "prefixes 67, 26, 36, 64, 65, F0 and F2 are outside the list"
    if name not in LISTED:
        return "an instruction outside the list"
    if opcode == 0x82:
        return "opcode 82"
    if opcode in (0xF6, 0xF7) and middle == 1:
        return "F6 /1 and F7 /1"
    if opcode in (0xC0, 0xC1, 0xD0, 0xD1, 0xD2, 0xD3) and middle == 6:
        return "shifts with /6"
    if second is not None and 0x90 <= second <= 0x9F:
        return "SETcc with another middle field than 0, or with a prefix"
    if second in (0x0D, 0x18, 0x19, 0x1A, 0x1B, 0x1C, 0x1D, 0x1E, 0x1F):
        return "NOPs of other opcodes, middle fields and prefixes than 0F 1F /0"
    if opcode in (0x06, 0x07, 0x0E, 0x16, 0x17, 0x1E, 0x1F, 0x8C, 0x8E) or second in (0xA0, 0xA1, 0xA8, 0xA9, 0x20, 0x21, 0x22, 0x23, 0x24, 0x26):
        return "segment, control, debug and test registers"
    if opcode in (0x9A, 0xEA, 0xCA, 0xCB) or (opcode == 0xFF and middle in (3, 5)):
        return "far jumps, calls and returns"
    if opcode == 0xCD:
        return "INT of another number than 80"
    if found:
        return "prefixes that the list doesn't give this instruction"
    return None


PREFIX_WORDS = {"data16", "addr16", "cs", "ds", "es", "ss", "fs", "gs", "lock", "rep", "repz", "repnz", "bnd", "notrack", "xacquire", "xrelease"}


# ---- both programs over lists of bytes

def table_of(lists):
    text = "\n".join(bytes_.hex() for bytes_ in lists)
    said = subprocess.run([built("instruction_table")], input=text, capture_output=True, text=True, check=True).stdout
    return said.splitlines()


def objdump_of(lists):
    """Length and text of the first instruction of each list, which stands at 48 times its number."""
    with tempfile.NamedTemporaryFile() as file:
        for bytes_ in lists:
            file.write(bytes_.ljust(ROOM, b"\x90"))
        file.flush()
        words = ["objdump", "-D", "-z", "-w", "-b", "binary", "-m", "i386", "-M", "intel", "--insn-width=16", file.name]
        said = subprocess.run(words, capture_output=True, text=True, check=True).stdout
    found = {}
    for line in said.splitlines():
        parts = line.split("\t")
        if len(parts) >= 2 and parts[0].strip().endswith(":"):
            place = int(parts[0].strip()[:-1], 16)
            if place % ROOM == 0:
                text = parts[2] if len(parts) > 2 else "(bad)"
                found[place // ROOM] = (len(parts[1].split()), text)
    return [found.get(i, (0, "(lost)")) for i in range(len(lists))]


def random_lists(count):
    chance = random.Random(SEED)
    for _ in range(count):
        front = bytes(chance.choice((0x66, 0x2E, 0x3E, 0xF3)) for _ in range(chance.choice((0, 0, 0, 0, 1, 1, 2, 3))))
        if chance.random() < 0.3:
            front += b"\x0F"
        yield (front + chance.randbytes(KEPT))[:KEPT]


def real_lists(paths, count):
    """Instructions of real text, each list of bytes once, found by this decoder's own lengths from each text's start."""
    seen = set()
    for text in texts_of(paths):
        with tempfile.NamedTemporaryFile() as file:
            file.write(text[: 8 * 1000 * 1000])
            file.flush()
            words = ["objdump", "-D", "-z", "-w", "-b", "binary", "-m", "i386", "-M", "intel", "--insn-width=16", file.name]
            said = subprocess.run(words, capture_output=True, text=True, check=True).stdout
        for line in said.splitlines():
            parts = line.split("\t")
            if len(parts) >= 2 and parts[0].strip().endswith(":"):
                seen.add(bytes.fromhex(parts[1].replace(" ", "")))
            if len(seen) == count:
                return sorted(seen)
    return sorted(seen)


def compare(title, lists):
    classes, unknown, equal = {}, [], 0
    for number, (bytes_, line, (length, said)) in enumerate(zip(lists, table_of(lists), objdump_of(lists))):
        row = read(line)
        if row is not None and row[0] == length and same(expected(row[1], row[2], ROOM * number, length), plain(said)):
            equal += 1
            continue
        why = class_of(bytes_, line, said)
        if why is None:
            unknown.append((bytes_, line, length, said))
        else:
            count, example = classes.get(why, (0, None))
            classes[why] = (count + 1, example or f"{bytes_[:length or 1].hex(' ')}: {' '.join(said.split())}")
    print(f"{title}: {len(lists)} lists of bytes, {equal} the same in length and operands")
    for why, (count, example) in sorted(classes.items(), key=lambda item: -item[1][0]):
        print(f"  {count:7} {why}; as {example}")
    for bytes_, line, length, said in unknown[:40]:
        print(f"  NO CLASS {bytes_[:max(length, 1)].hex(' ')}: {line} | {length} {' '.join(said.split())}")
    if unknown:
        print(f"  {len(unknown)} in no class")
    return not unknown


def table_lists():
    """The golden table's lists of bytes that begin with an instruction. Of those that are cut off objdump sees more."""
    folder = os.path.join(TOP, "crates", "instruction_table")
    with open(os.path.join(folder, "stdin"), "rb") as file, open(os.path.join(folder, "stdout")) as wanted:
        for line, answer in zip(file.read().split(b"\n"), wanted):
            if read(answer) is not None:
                yield bytes.fromhex(line.decode())[:KEPT]


def compare_spellings(lists):
    """Whether objdump reads the shortest spellings of what the lists begin with as the same instructions."""
    rows = []
    for line in table_of(lists):
        row = read(line)
        if row is not None:
            rows += [(row, bytes.fromhex(word)) for word in re.findall(r" (?:encode|wide)=([0-9a-f]{2,})", line)]
    wrong = 0
    for number, ((row, spelling), (length, said)) in enumerate(zip(rows, objdump_of([bytes_ for _, bytes_ in rows]))):
        if length != len(spelling) or not same(expected(row[1], row[2], ROOM * number, length), plain(said)):
            wrong += 1
            print(f"  ANOTHER MEANING {spelling.hex(' ')}: {' '.join(row[1:2])} | {length} {' '.join(said.split())}")
    print(f"shortest spellings: {len(rows)}, {wrong} with another meaning")
    return wrong == 0


def main():
    if shutil.which("objdump") is None:
        skip("objdump, of the package binutils, isn't found")
    table = list(table_lists())
    good = compare("the golden table", table)
    good = compare_spellings(table) and good
    good = compare("random bytes", list(random_lists(RANDOM))) and good
    real = real_lists(sys.argv[1:] or libraries(), REAL)
    if real:
        good = compare("real programs", real) and good
    else:
        print(f"real programs: skipped, no i386 ELF file was found; the packages {PACKAGES} have some")
    return 0 if good else 1


if __name__ == "__main__":
    sys.exit(main())
