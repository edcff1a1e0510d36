#!/usr/bin/env python3
"""Writes the worked rows of specs/Worked.antt and proofs/Worked.antt.

With --check it writes nothing, and ends with 1 where a file differs. A spelling is written as prefixes, opcode, ModRM with
what follows it, and number, with a bar between; then the instruction, and the place of the form in
its list. The rows were read off the manual's pages.
"""
import os
import sys

sys.path.insert(0, os.path.dirname(os.path.abspath(__file__)))
from generated import finish, read  # noqa: E402

SPELLED = [
    # Alu
    ("|00|C8|", "Alu alu.Add One (rm.Reg reg.Eax) (src.Reg reg.Ecx)", 0),
    ("66|83|C0|FF", "Alu alu.Add Two (rm.Reg reg.Eax) (src.Imm 0xFFFF)", 2),
    ("|2B|0C 24|", "Alu alu.Sub Four (rm.Reg reg.Ecx) (src.Mem (at (Some reg.Esp) None 1 0))", 0),
    ("|3D||78 56 34 12", "Alu alu.Cmp Four (rm.Reg reg.Eax) (src.Imm 0x12345678)", 1),
    # Test
    ("|85|C0|", "Test Four (rm.Reg reg.Eax) (src.Reg reg.Eax)", 0),
    ("|A8||01", "Test One (rm.Reg reg.Eax) (src.Imm 1)", 1),
    ("66|F7|45 FC|34 12",
     "Test Two (rm.Mem (at (Some reg.Ebp) None 1 0xFFFFFFFC)) (src.Imm 0x1234)", 0),
    # Mov
    ("|B8||01 00 00 00", "Mov Four (rm.Reg reg.Eax) (src.Imm 1)", 1),
    ("|8A|A0 00 01 00 00|",
     "Mov One (rm.Reg reg.Esp) (src.Mem (at (Some reg.Eax) None 1 0x100))", 0),
    ("|A1||00 A0 04 08", "Mov Four (rm.Reg reg.Eax) (src.Mem (at None None 1 0x804A000))", 1),
    ("66|A3||00 A0 04 08", "Mov Two (rm.Mem (at None None 1 0x804A000)) (src.Reg reg.Eax)", 1),
    ("|8B|44 8D FC|",
     "Mov Four (rm.Reg reg.Eax) (src.Mem (at (Some reg.Ebp) (Some reg.Ecx) 4 0xFFFFFFFC))", 0),
    ("|8B|04 64|", "Mov Four (rm.Reg reg.Eax) (src.Mem (at (Some reg.Esp) None 1 0))", 0),
    ("66|B8||34 12", "Mov Two (rm.Reg reg.Eax) (src.Imm 0x1234)", 1),
    ("|B4||01", "Mov One (rm.Reg reg.Esp) (src.Imm 1)", 1),
    ("|88|E9|", "Mov One (rm.Reg reg.Ecx) (src.Reg reg.Ebp)", 0),
    ("|8A|FE|", "Mov One (rm.Reg reg.Edi) (src.Reg reg.Esi)", 1),
    # Lea
    ("|8D|04 8D 00 00 00 00|", "Lea Four reg.Eax (at None (Some reg.Ecx) 4 0)", 0),
    ("2E 66 2E|8D|41 01|", "Lea Two reg.Eax (at (Some reg.Ecx) None 1 1)", 0),
    # Inc, Dec
    ("|40||", "Inc Four (rm.Reg reg.Eax)", 1),
    ("|FE|00|", "Inc One (rm.Mem (at (Some reg.Eax) None 1 0))", 0),
    ("66|4F||", "Dec Two (rm.Reg reg.Edi)", 1),
    ("|FF|0D 00 00 00 10|", "Dec Four (rm.Mem (at None None 1 0x10000000))", 0),
    # Not, Neg
    ("|F6|D4|", "Not One (rm.Reg reg.Esp)", 0),
    ("66|F7|D0|", "Not Two (rm.Reg reg.Eax)", 0),
    ("|F7|D8|", "Neg Four (rm.Reg reg.Eax)", 0),
    ("|F6|18|", "Neg One (rm.Mem (at (Some reg.Eax) None 1 0))", 0),
    # Mul, ImulWide, Div, Idiv
    ("|F7|E1|", "Mul Four (rm.Reg reg.Ecx)", 0),
    ("66|F7|E9|", "ImulWide Two (rm.Reg reg.Ecx)", 0),
    ("|F6|F1|", "Div One (rm.Reg reg.Ecx)", 0),
    ("|F7|F9|", "Idiv Four (rm.Reg reg.Ecx)", 0),
    # Imul
    ("|0F AF|C1|", "Imul Four reg.Eax (rm.Reg reg.Ecx)", 0),
    ("66|0F AF|01|", "Imul Two reg.Eax (rm.Mem (at (Some reg.Ecx) None 1 0))", 0),
    # ImulBy
    ("|69|C1|E8 03 00 00", "ImulBy Four reg.Eax (rm.Reg reg.Ecx) 0x3E8", 0),
    ("66|6B|C1|80", "ImulBy Two reg.Eax (rm.Reg reg.Ecx) 0xFF80", 1),
    # Shift
    ("|C1|E0|05", "Shift shift.Shl Four (rm.Reg reg.Eax) (count.Imm 5)", 0),
    ("66|D1|F8|", "Shift shift.Sar Two (rm.Reg reg.Eax) (count.Imm 1)", 1),
    ("|D2|C8|", "Shift shift.Ror One (rm.Reg reg.Eax) count.Cl", 0),
    # Shld, Shrd
    ("|0F A4|C8|03", "Shld (rm.Reg reg.Eax) reg.Ecx (count.Imm 3)", 0),
    ("|0F A5|C8|", "Shld (rm.Reg reg.Eax) reg.Ecx count.Cl", 0),
    ("|0F AC|C8|03", "Shrd (rm.Reg reg.Eax) reg.Ecx (count.Imm 3)", 0),
    ("|0F AD|C8|", "Shrd (rm.Reg reg.Eax) reg.Ecx count.Cl", 0),
    # Push
    ("|55||", "Push (src.Reg reg.Ebp)", 1),
    ("|6A||FF", "Push (src.Imm 0xFFFFFFFF)", 1),
    ("|FF|74 24 08|", "Push (src.Mem (at (Some reg.Esp) None 1 8))", 0),
    # Pop
    ("|5D||", "Pop (rm.Reg reg.Ebp)", 1),
    ("|8F|00|", "Pop (rm.Mem (at (Some reg.Eax) None 1 0))", 0),
    # Xchg
    ("|87|C8|", "Xchg Four (rm.Reg reg.Eax) reg.Ecx", 0),
    ("66|97||", "Xchg Two (rm.Reg reg.Eax) reg.Edi", 1),
    # Movzx, Movsx
    ("|0F B6|C1|", "Movzx Four One reg.Eax (rm.Reg reg.Ecx)", 0),
    ("|0F B7|C1|", "Movzx Four Two reg.Eax (rm.Reg reg.Ecx)", 0),
    ("66|0F BE|C1|", "Movsx Two One reg.Eax (rm.Reg reg.Ecx)", 0),
    ("|0F BF|00|", "Movsx Four Two reg.Eax (rm.Mem (at (Some reg.Eax) None 1 0))", 0),
    # Cmov
    ("|0F 44|C1|", "Cmov cond.E Four reg.Eax (rm.Reg reg.Ecx)", 0),
    ("66|0F 4F|C1|", "Cmov cond.G Two reg.Eax (rm.Reg reg.Ecx)", 0),
    # Setcc
    ("|0F 94|C0|", "Setcc cond.E (rm.Reg reg.Eax)", 0),
    ("|0F 92|04 24|", "Setcc cond.B (rm.Mem (at (Some reg.Esp) None 1 0))", 0),
    # Extend, Spread
    ("66|98||", "Extend Two", 0),
    ("|98||", "Extend Four", 0),
    ("66|99||", "Spread Two", 0),
    ("|99||", "Spread Four", 0),
    # Bsf, Bsr
    ("|0F BC|C1|", "Bsf Four reg.Eax (rm.Reg reg.Ecx)", 0),
    ("66|0F BD|C1|", "Bsr Two reg.Eax (rm.Reg reg.Ecx)", 0),
    # Bswap
    ("|0F C8||", "Bswap reg.Eax", 0),
    ("|0F CF||", "Bswap reg.Edi", 0),
    # Movs, Stos
    ("F3 66|A5||", "Movs Two true", 0),
    ("66 F3|A5||", "Movs Two true", 0),
    ("|A4||", "Movs One false", 0),
    ("F3|AB||", "Stos Four true", 0),
    # Jmp
    ("|EB||FE", "Jmp 0xFFFFFFFE", 1),
    ("|E9||00 01 00 00", "Jmp 0x100", 0),
    # JmpTo, CallTo
    ("3E|FF|E0|", "JmpTo (rm.Reg reg.Eax)", 0),
    ("|FF|24 85 54 90 04 08|", "JmpTo (rm.Mem (at None (Some reg.Eax) 4 0x8049054))", 0),
    ("|FF|D0|", "CallTo (rm.Reg reg.Eax)", 0),
    # Jcc
    ("|70||23", "Jcc cond.O 0x23", 1),
    ("|71||23", "Jcc cond.No 0x23", 1),
    ("|72||23", "Jcc cond.B 0x23", 1),
    ("|73||23", "Jcc cond.Ae 0x23", 1),
    ("|74||23", "Jcc cond.E 0x23", 1),
    ("|75||23", "Jcc cond.Ne 0x23", 1),
    ("|76||23", "Jcc cond.Be 0x23", 1),
    ("|77||23", "Jcc cond.A 0x23", 1),
    ("|78||23", "Jcc cond.S 0x23", 1),
    ("|79||23", "Jcc cond.Ns 0x23", 1),
    ("|7A||23", "Jcc cond.P 0x23", 1),
    ("|7B||23", "Jcc cond.Np 0x23", 1),
    ("|7C||23", "Jcc cond.L 0x23", 1),
    ("|7D||23", "Jcc cond.Ge 0x23", 1),
    ("|7E||23", "Jcc cond.Le 0x23", 1),
    ("|7F||23", "Jcc cond.G 0x23", 1),
    ("|0F 84||FA FF FF FF", "Jcc cond.E 0xFFFFFFFA", 0),
    # Call
    ("|E8||10 00 00 00", "Call 0x10", 0),
    ("|E8||FA FF FF FF", "Call 0xFFFFFFFA", 0),
    # Ret
    ("|C3||", "Ret 0", 1),
    ("F3|C3||", "Ret 0", 2),
    ("|C2||08 00", "Ret 8", 0),
    # Leave, Int80, Cld
    ("|C9||", "Leave", 0),
    ("|CD||80", "Int80", 0),
    ("|FC||", "Cld", 0),
    # Nop
    ("66 66|90||", "Nop", 0),
    ("66 66 66 66 66 66 66 66 66 66 66 66 66 66|90||", "Nop", 0),
    ("66 66 2E|0F 1F|84 00 00 00 00 00|", "Nop", 1),
    ("F3|0F 1E||FB", "Nop", 2),
]

NOTHING = [
    ("82 C0 01", "opcode 82"),
    ("F6 C8 01", "F6 /1"),
    ("F7 C8 01 00 00 00", "F7 /1"),
    ("C1 D0 01", "a rotate through carry, /2"),
    ("D1 D8", "a rotate through carry, /3"),
    ("D3 F0", "a shift with /6"),
    ("66 0F C8", "66 before BSWAP"),
    ("F3 0F BC C1", "F3 before BSF"),
    ("0F 28", "MOVAPS"),
    ("F3 90", "PAUSE"),
    ("66 8F C0", "66 before POP"),
    ("3E C3", "3E before RET"),
    ("66 66 05 01 00", "two 66"),
    ("8D C0", "LEA of a register"),
    ("CD 81", "another interrupt"),
    ("F3 0F 1E FA", "ENDBR64"),
    ("2E 90", "2E before NOP"),
    ("F3 F3 A4", "two F3"),
]

TOO_LONG = [
    ("66 66 66 66 66 66 66 66 66 66 66 66 66 66 66 90", "NOP on 16 bytes"),
    ("2E 2E 2E 2E 2E 2E 2E 2E 2E 2E 2E 2E 2E 2E 2E 2E", "16 prefixes"),
]

READER = "entry_of numbers sib_at after_m m_at plain_at after_opcode after_escape at_opcode read_from"

# How the lemmas of the two lists are proved: the reader sees nothing there, or the bytes are too many.
SEEN = f"unfolding {READER}\n{{name}} = none_spelled ({{bytes}}) refl\n"
COUNTED = "{name} i s = let h = s.short in absurd (omega arith)\n"


def numbers(text):
    return [int(word, 16) for word in text.split()]


def listed(numbers_):
    return "".join(f"0x{n:02X} ∷ " for n in numbers_) + "[]"


def hexa(number):
    return f"0x{number:02X}" if number else "0"


def shown(numbers_):
    return " ".join(f"{n:02X}" for n in numbers_)


def operand(parts):
    """ModRM, SIB (0 where it doesn't stand) and the displacement."""
    if not parts:
        return 0, 0, 0
    rest = parts[1:]
    sib = 0
    if parts[0] < 0xC0 and parts[0] % 8 == 4:
        sib, rest = rest[0], rest[1:]
    return parts[0], sib, sum(byte << (8 * at) for at, byte in enumerate(rest))


def spelled(at, row):
    text, instr, place = row
    prefixes, opcode, rm, number = [numbers(part) for part in text.split("|")]
    among = "inl refl"
    for _ in range(place):
        among = f"inr ({among})"
    says = "refl" if rm and opcode != [0x0F, 0x1F] else "tt"
    m, sib, disp = operand(rm)
    everything = prefixes + opcode + rm + number
    return (f"-- {shown(everything)}\n"
            f"spelled_{at} : Spells ({listed(everything)}) (instr.{instr})\n"
            f"spelled_{at} = spelled ({listed(prefixes)}) _ (operand {hexa(m)} {hexa(sib)} {hexa(disp)}) _ "
            f"({among}) {says} refl\n")


def unspelled(name, proof, rows):
    """A lemma for each row: no instruction is spelled by its bytes."""
    for at, (text, why) in enumerate(rows):
        bytes_ = listed(numbers(text))
        yield (f"-- {text}: {why}\n"
               f"{name}_{at} : (i : Instr) → Spells ({bytes_}) i → ⊥\n"
               + proof.format(name=f"{name}_{at}", bytes=bytes_))


def table(comment, name, type_, rows):
    lines = " ∷\n    ".join(rows + ["[]"])
    return f"-- {comment}\nabbrev pub {name} : {type_}\n{name} =\n    {lines}\n"


def all_of(*tables):
    """The lemmas of tables' rows as one fact, in the layout of rt fmt."""
    names = [f"{name}_{at}" for name, rows in tables for at, _ in enumerate(rows)]
    lines = ["("]
    for at, name in enumerate(names):
        lines.append("  " * (at + 1) + name + ",")
        lines.append("  " * (at + 1) + ("(" if at + 1 < len(names) else "tt,"))
    lines += ["  " * at + ")" + ("," if at else "") for at in range(len(names) - 1, -1, -1)]
    return "\n".join(lines)


def rewrite(text, begin, end, body):
    return text[:text.index(begin) + len(begin)] + "\n" + body + "\n" + text[text.index(end):]


def proofs():
    path = "proofs/Worked.antt"
    text = read(path)
    text = rewrite(text, "-- ---- what is spelled, by tools/worked.py\n",
                   "-- ---- reading in vain\n",
                   "\n".join(spelled(at, row) for at, row in enumerate(SPELLED)))
    text = rewrite(text, "-- ---- what spells nothing, by tools/worked.py\n",
                   "-- ---- the end of the rows\n",
                   "\n".join([*unspelled("nothing", SEEN, NOTHING),
                              *unspelled("too_long", COUNTED, TOO_LONG)]))
    begin = "-- ---- the end of the rows\n"
    text = text[:text.index(begin) + len(begin)] + f"""
pub all_spelled : AllSpelled
all_spelled = {all_of(("spelled", SPELLED))}

pub none_spelled_there : NoneSpelled
none_spelled_there = {all_of(("nothing", NOTHING), ("too_long", TOO_LONG))}
"""
    return {path: text}


def tables():
    rows = [f"({listed(numbers(text.replace('|', ' ')))}, instr.{instr})" for text, instr, _ in SPELLED]
    vain = [f"({listed(numbers(text))})" for text, _ in NOTHING + TOO_LONG]
    path = "specs/Worked.antt"
    text = read(path)
    begin = "-- ---- the tables, by tools/worked.py\n"
    text = text[:text.index(begin) + len(begin)]
    text += "\n" + table("bytes with the instruction that they spell", "worked", "List (List ℕ × Instr)", rows)
    text += "\n" + table("bytes that spell nothing", "in_vain", "List (List ℕ)", vain)
    text += """
-- each row's bytes spell its instruction
abbrev pub AllSpelled : Type 0
AllSpelled = AllByRecursion (λ (row : List ℕ × Instr). Spells row.0 row.1) worked

-- each row's bytes spell nothing
abbrev pub NoneSpelled : Type 0
NoneSpelled = AllByRecursion (λ (bytes : List ℕ). (i : Instr) → Spells bytes i → ⊥) in_vain
"""
    return {path: text}


if __name__ == "__main__":
    finish({**proofs(), **tables()})
