#!/usr/bin/env python3
"""The rows of the opcode map, in its order, and the files that follow from them alone.

It writes specs/Rows.antt, specs/Meaning.antt, src/rows.rt, proofs/Again.antt and the variants of Row in src/row.rt. With
--check it writes nothing, and ends with 1 where a file differs. The map
itself, src/opcode_map.rt, is written by hand, and proofs/Again.antt checks it against this list.
"""
from generated import finish, read

# name, payload (o: operation, s: shift, w: w bit, r: register, c: condition), opcode (0x100 for 0F before it), reg field of
# ModRM or None, ModRM, prefixes (66: makes width Two; 66w: where w is 1; 66*, 2E*: any number; 3E: one; F3?: may stand; F3:
# must stand), bytes of the immediate (w: the operand's), meaning
ROWS = [
    ("AluToRm", "ow", "8 * number_of_alu op + bit w", None, 1, "66w", "0",
     "Some (instr.Alu op (width_of w operand_size) m (src.Reg (reg_of n)))"),
    ("AluToReg", "ow", "8 * number_of_alu op + (2 + bit w)", None, 1, "66w", "0",
     "Some (instr.Alu op (width_of w operand_size) (rm.Reg (reg_of n)) (src_of m))"),
    ("AluAcc", "ow", "8 * number_of_alu op + (4 + bit w)", None, 0, "66w", "w",
     "Some (instr.Alu op (width_of w operand_size) (rm.Reg Eax) (src.Imm v))"),
    ("IncReg", "r", "0x40 + number_of_reg r", None, 0, "66", "0",
     "Some (instr.Inc (width_of true operand_size) (rm.Reg r))"),
    ("DecReg", "r", "0x48 + number_of_reg r", None, 0, "66", "0",
     "Some (instr.Dec (width_of true operand_size) (rm.Reg r))"),
    ("PushReg", "r", "0x50 + number_of_reg r", None, 0, "", "0",
     "Some (instr.Push (src.Reg r))"),
    ("PopReg", "r", "0x58 + number_of_reg r", None, 0, "", "0",
     "Some (instr.Pop (rm.Reg r))"),
    ("PushWord", "", "0x68", None, 0, "", "4",
     "Some (instr.Push (src.Imm v))"),
    ("ImulWord", "", "0x69", None, 1, "66", "2/4",
     "Some (instr.ImulBy (width_of true operand_size) (reg_of n) m v)"),
    ("PushByte", "", "0x6A", None, 0, "", "1",
     "Some (instr.Push (src.Imm (signed Four v)))"),
    ("ImulByte", "", "0x6B", None, 1, "66", "1",
     "Some (instr.ImulBy (width_of true operand_size) (reg_of n) m (signed (width_of true operand_size) v))"),
    ("JccShort", "c", "0x70 + number_of_cond c", None, 0, "", "1",
     "Some (instr.Jcc c (signed Four v))"),
    ("AluImm", "w", "0x80 + bit w", None, 1, "66w", "w",
     "Some (instr.Alu (alu_of n) (width_of w operand_size) m (src.Imm v))"),
    ("AluByte", "", "0x83", None, 1, "66", "1",
     "Some (instr.Alu (alu_of n) (width_of true operand_size) m (src.Imm (signed (width_of true operand_size) v)))"),
    ("TestRm", "w", "0x84 + bit w", None, 1, "66w", "0",
     "Some (instr.Test (width_of w operand_size) m (src.Reg (reg_of n)))"),
    ("Xchg", "w", "0x86 + bit w", None, 1, "66w", "0",
     "Some (instr.Xchg (width_of w operand_size) m (reg_of n))"),
    ("MovToRm", "w", "0x88 + bit w", None, 1, "66w", "0",
     "Some (instr.Mov (width_of w operand_size) m (src.Reg (reg_of n)))"),
    ("MovToReg", "w", "0x8A + bit w", None, 1, "66w", "0",
     "Some (instr.Mov (width_of w operand_size) (rm.Reg (reg_of n)) (src_of m))"),
    ("Lea", "", "0x8D", None, 1, "66 2E*", "0",
     "lea (width_of true operand_size) (reg_of n) m"),
    ("Pop", "", "0x8F", 0, 1, "", "0",
     "Some (instr.Pop m)"),
    ("XchgAcc", "r", "0x90 + number_of_reg r", "x", 0, "66", "0",
     "Some (instr.Xchg (width_of true operand_size) (rm.Reg Eax) r)"),
    ("Nop", "", "0x90", None, 0, "66*", "0",
     "Some instr.Nop"),
    ("Extend", "", "0x98", None, 0, "66", "0",
     "Some (instr.Extend (width_of true operand_size))"),
    ("Spread", "", "0x99", None, 0, "66", "0",
     "Some (instr.Spread (width_of true operand_size))"),
    ("MovLoad", "w", "0xA0 + bit w", None, 0, "66w", "4",
     "Some (instr.Mov (width_of w operand_size) (rm.Reg Eax) (src.Mem (number_alone v)))"),
    ("MovStore", "w", "0xA2 + bit w", None, 0, "66w", "4",
     "Some (instr.Mov (width_of w operand_size) (rm.Mem (number_alone v)) (src.Reg Eax))"),
    ("Movs", "w", "0xA4 + bit w", None, 0, "66w F3?", "0",
     "Some (instr.Movs (width_of w operand_size) rep)"),
    ("TestAcc", "w", "0xA8 + bit w", None, 0, "66w", "w",
     "Some (instr.Test (width_of w operand_size) (rm.Reg Eax) (src.Imm v))"),
    ("Stos", "w", "0xAA + bit w", None, 0, "66w F3?", "0",
     "Some (instr.Stos (width_of w operand_size) rep)"),
    ("MovReg", "rw", "0xB0 + (8 * bit w + number_of_reg r)", None, 0, "66w", "w",
     "Some (instr.Mov (width_of w operand_size) (rm.Reg r) (src.Imm v))"),
    ("ShiftImm", "sw", "0xC0 + bit w", "s", 1, "66w", "1",
     "Some (instr.Shift op (width_of w operand_size) m (count.Imm v))"),
    ("RetDrop", "", "0xC2", None, 0, "", "2",
     "Some (instr.Ret v)"),
    ("Ret", "", "0xC3", None, 0, "F3?", "0",
     "Some (instr.Ret 0)"),
    ("MovImm", "w", "0xC6 + bit w", 0, 1, "66w", "w",
     "Some (instr.Mov (width_of w operand_size) m (src.Imm v))"),
    ("Leave", "", "0xC9", None, 0, "", "0",
     "Some instr.Leave"),
    ("Int80", "", "0xCD", None, 0, "", "1",
     "if v == 0x80 then Some instr.Int80 else None"),
    ("ShiftOne", "sw", "0xD0 + bit w", "s", 1, "66w", "0",
     "Some (instr.Shift op (width_of w operand_size) m (count.Imm 1))"),
    ("ShiftCl", "sw", "0xD2 + bit w", "s", 1, "66w", "0",
     "Some (instr.Shift op (width_of w operand_size) m count.Cl)"),
    ("CallNear", "", "0xE8", None, 0, "", "4",
     "Some (instr.Call v)"),
    ("JmpNear", "", "0xE9", None, 0, "", "4",
     "Some (instr.Jmp v)"),
    ("JmpShort", "", "0xEB", None, 0, "", "1",
     "Some (instr.Jmp (signed Four v))"),
    ("TestImm", "w", "0xF6 + bit w", 0, 1, "66w", "w",
     "Some (instr.Test (width_of w operand_size) m (src.Imm v))"),
    ("Not", "w", "0xF6 + bit w", 2, 1, "66w", "0",
     "Some (instr.Not (width_of w operand_size) m)"),
    ("Neg", "w", "0xF6 + bit w", 3, 1, "66w", "0",
     "Some (instr.Neg (width_of w operand_size) m)"),
    ("Mul", "w", "0xF6 + bit w", 4, 1, "66w", "0",
     "Some (instr.Mul (width_of w operand_size) m)"),
    ("ImulWide", "w", "0xF6 + bit w", 5, 1, "66w", "0",
     "Some (instr.ImulWide (width_of w operand_size) m)"),
    ("Div", "w", "0xF6 + bit w", 6, 1, "66w", "0",
     "Some (instr.Div (width_of w operand_size) m)"),
    ("Idiv", "w", "0xF6 + bit w", 7, 1, "66w", "0",
     "Some (instr.Idiv (width_of w operand_size) m)"),
    ("Cld", "", "0xFC", None, 0, "", "0",
     "Some instr.Cld"),
    ("Inc", "w", "0xFE + bit w", 0, 1, "66w", "0",
     "Some (instr.Inc (width_of w operand_size) m)"),
    ("Dec", "w", "0xFE + bit w", 1, 1, "66w", "0",
     "Some (instr.Dec (width_of w operand_size) m)"),
    ("CallTo", "", "0xFF", 2, 1, "3E", "0",
     "Some (instr.CallTo m)"),
    ("JmpTo", "", "0xFF", 4, 1, "3E", "0",
     "Some (instr.JmpTo m)"),
    ("Push", "", "0xFF", 6, 1, "", "0",
     "Some (instr.Push (src_of m))"),
    ("NopEnd", "", "0x11E", None, 0, "F3", "1",
     "if v == 0xFB then Some instr.Nop else None"),
    ("NopLong", "", "0x11F", 0, 1, "66* 2E*", "0",
     "Some instr.Nop"),
    ("Cmov", "c", "0x140 + number_of_cond c", None, 1, "66", "0",
     "Some (instr.Cmov c (width_of true operand_size) (reg_of n) m)"),
    ("JccNear", "c", "0x180 + number_of_cond c", None, 0, "", "4",
     "Some (instr.Jcc c v)"),
    ("Setcc", "c", "0x190 + number_of_cond c", 0, 1, "", "0",
     "Some (instr.Setcc c m)"),
    ("ShldImm", "", "0x1A4", None, 1, "", "1",
     "Some (instr.Shld m (reg_of n) (count.Imm v))"),
    ("ShldCl", "", "0x1A5", None, 1, "", "0",
     "Some (instr.Shld m (reg_of n) count.Cl)"),
    ("ShrdImm", "", "0x1AC", None, 1, "", "1",
     "Some (instr.Shrd m (reg_of n) (count.Imm v))"),
    ("ShrdCl", "", "0x1AD", None, 1, "", "0",
     "Some (instr.Shrd m (reg_of n) count.Cl)"),
    ("Imul", "", "0x1AF", None, 1, "66", "0",
     "Some (instr.Imul (width_of true operand_size) (reg_of n) m)"),
    ("MovzxByte", "", "0x1B6", None, 1, "66", "0",
     "Some (instr.Movzx (width_of true operand_size) One (reg_of n) m)"),
    ("MovzxWord", "", "0x1B7", None, 1, "", "0",
     "Some (instr.Movzx Four Two (reg_of n) m)"),
    ("Bsf", "", "0x1BC", None, 1, "66", "0",
     "Some (instr.Bsf (width_of true operand_size) (reg_of n) m)"),
    ("Bsr", "", "0x1BD", None, 1, "66", "0",
     "Some (instr.Bsr (width_of true operand_size) (reg_of n) m)"),
    ("MovsxByte", "", "0x1BE", None, 1, "66", "0",
     "Some (instr.Movsx (width_of true operand_size) One (reg_of n) m)"),
    ("MovsxWord", "", "0x1BF", None, 1, "", "0",
     "Some (instr.Movsx Four Two (reg_of n) m)"),
    ("BswapReg", "r", "0x1C8 + number_of_reg r", None, 0, "", "0",
     "Some (instr.Bswap r)"),
]

NAMES = {"o": "op", "s": "op", "w": "w", "r": "r", "c": "c"}
TYPES = {"o": "AluOp", "s": "ShiftOp", "w": "bool", "r": "Reg", "c": "Cond"}
VALUES = {
    "o": ["alu." + x for x in "Add Or Adc Sbb And Sub Xor Cmp".split()],
    "s": ["shift." + x for x in "Rol Ror Shl Shr Sar".split()],
    "w": ["false", "true"],
    "r": ["reg." + x for x in "Eax Ecx Edx Ebx Esp Ebp Esi Edi".split()],
    "c": ["cond." + x for x in "O No B Ae E Ne Be A S Ns P Np L Ge Le G".split()],
}


def pattern(row, values=None):
    words = ["row." + row[0]] + (values or [NAMES[p] for p in row[1]])
    return "(" + " ".join(words) + ")" if len(words) > 1 else words[0]


def rust_enum():
    lines = []
    for row in ROWS:
        payload = ", ".join(TYPES[p] for p in row[1])
        lines.append("    " + row[0] + (f"({payload})" if payload else "") + ",")
    return "\n".join(lines)


# ---- the facts of a row

# the prefixes of a row, as a word of specs/Rows with its argument
PREFIXES = {"": ("no_prefix", ""), "66": ("sized", "true"), "66w": ("sized", "w"), "66*": ("any_66", ""),
            "66* 2E*": ("any_66_2e", ""), "66 2E*": ("sized_2e", ""), "3E": ("one_3e", ""),
            "F3?": ("may_f3", "false"), "66w F3?": ("may_f3", "w"), "F3": ("must_f3", "")}


def spec_prefixes(row):
    word, argument = PREFIXES[row[5]]
    return f"({word} {argument})" if argument else word


def rust_prefixes(row):
    word, argument = PREFIXES[row[5]]
    return f"{word}({argument})"


def spec_reg_field(row):
    if row[3] is None:
        return "Any"
    return {"s": "(Is (number_of_shift op))", "x": "(not_eax r)"}.get(row[3], f"(Is {row[3]})")


def rust_reg_field(row):
    if row[3] is None:
        return "Any"
    return {"s": "Is(shift_number(op))", "x": "not_eax(reg)"}.get(row[3], f"Is({row[3]})")


# a fixed number of bytes at the end
IMM = {"0": "NoImm", "1": "Imm8", "2": "Imm16", "4": "Imm32"}


def spec_imm(row):
    return {"w": "(ImmOperand w)", "2/4": "(ImmOperand true)"}.get(row[6]) or IMM[row[6]]


def rust_imm(row):
    return {"w": "ImmOperand(w)", "2/4": "ImmOperand(true)"}.get(row[6]) or IMM[row[6]]


ROWS_HEAD = """-- Written by tools/rows.py.
-- The facts of each row, a line each in the order of the opcode map: opcode, ModRM with its reg field, prefixes, and the number at
-- the end. Intel SDM volume 2, section 2.1.1, appendix A, tables A-2, A-3 and A-6, and the pages that
-- Forms names; which prefixes may stand is this project's own rule.
use Rattle.std.specs.Prelude.{ℕ, ◌+◌, ◌*◌, Bool, true, false, ◌==◌}
use Rattle.x86_types.specs.declared.operand.Reg.{Reg}
use Rattle.x86_types.specs.declared.operand.Reg.TheVariants as reg
use Rattle.x86_types.specs.Numbers.{number_of_reg, number_of_alu, number_of_shift, number_of_cond}
use Rattle.x86_grammar.specs.declared.row.Row.{Row}
use Rattle.x86_grammar.specs.declared.row.Row.TheVariants as row
use Rattle.x86_grammar.specs.declared.row.Attributes.{Attributes}
use Rattle.x86_grammar.specs.declared.row.F3.{F3}
use Rattle.x86_grammar.specs.declared.row.F3.TheVariants.{Never, May, Must}
use Rattle.x86_grammar.specs.declared.row.ImmSize.{ImmSize}
use Rattle.x86_grammar.specs.declared.row.ImmSize.TheVariants.{NoImm, Imm8, Imm16, Imm32, ImmOperand}
use Rattle.x86_grammar.specs.declared.row.Prefixes.{Prefixes}
use Rattle.x86_grammar.specs.declared.row.RegField.{RegField}
use Rattle.x86_grammar.specs.declared.row.RegField.TheVariants.{Any, Is, Nowhere}

-- a truth value as a bit
abbrev pub bit : Bool → ℕ
bit false = 0
bit true = 1

-- which prefixes a row knows: one 66 that makes width Two, any number of 66, any number of 2E, one 3E, and F3
abbrev pub known_prefixes : Bool → Bool → Bool → Bool → F3 → Prefixes
known_prefixes size a66 a2e o3e f = record { operand_size = size; any_66 = a66; any_2e = a2e; one_3e = o3e; f3 = f }

-- none
abbrev pub no_prefix : Prefixes
no_prefix = known_prefixes false false false false Never

-- one 66, where the w bit is 1
abbrev pub sized : Bool → Prefixes
sized w = known_prefixes w false false false Never

-- one 66 and any number of 2E
abbrev pub sized_2e : Prefixes
sized_2e = known_prefixes true false true false Never

-- any number of 66
abbrev pub any_66 : Prefixes
any_66 = known_prefixes false true false false Never

-- any number of 66 and of 2E
abbrev pub any_66_2e : Prefixes
any_66_2e = known_prefixes false true true false Never

-- one 3E
abbrev pub one_3e : Prefixes
one_3e = known_prefixes false false false true Never

-- F3, and one 66 where the w bit is 1
abbrev pub may_f3 : Bool → Prefixes
may_f3 w = known_prefixes w false false false May

-- F3, without which the row isn't there
abbrev pub must_f3 : Prefixes
must_f3 = known_prefixes false false false false Must

-- 90 is no exchange
abbrev pub not_eax : Reg → RegField
not_eax reg.Eax = Nowhere
not_eax _ = Any

-- a row with ModRM
abbrev pub modrm : ℕ → RegField → Prefixes → ImmSize → Attributes
modrm o n p i = record { opcode = o; modrm = true; reg_field = n; prefixes = p; imm = i }

-- a row without ModRM
abbrev pub alone : ℕ → RegField → Prefixes → ImmSize → Attributes
alone o n p i = record { opcode = o; modrm = false; reg_field = n; prefixes = p; imm = i }

-- in an opcode 0x100 stands for 0F before the byte
abbrev pub attributes_of : Row → Attributes
"""

ROWS_END = """
-- the row's opcode
abbrev pub opcode_of : Row → ℕ
opcode_of r = (attributes_of r).opcode

-- the values of ModRM's reg field
abbrev pub reg_field_of : Row → RegField
reg_field_of r = (attributes_of r).reg_field

-- whether a reg field is one of them
abbrev pub fits_reg_field : RegField → ℕ → Bool
fits_reg_field Any n = true
fits_reg_field (Is m) n = m == n
fits_reg_field Nowhere n = false

-- whether ModRM stands behind the opcode
abbrev pub has_operand : Row → Bool
has_operand r = (attributes_of r).modrm
"""


def rows_spec():
    lines = []
    for r in ROWS:
        word = "modrm" if r[4] else "alone"
        opcode = r[2] if " " not in r[2] else f"({r[2]})"
        lines.append(f"attributes_of {pattern(r)} = {word} {opcode} {spec_reg_field(r)} {spec_prefixes(r)} {spec_imm(r)}")
    return ROWS_HEAD + "\n".join(lines) + "\n" + ROWS_END


ROWS_CODE_HEAD = """// Written by tools/rows.py.
// The facts of each row, a line each in the order of the opcode map.
ghost use Rattle.std.specs.Prelude.{◌≡◌, ◌<◌};
ghost use Rattle.x86_types.specs.Numbers.{number_of_alu, number_of_cond, number_of_reg};
ghost use Rattle.x86_grammar.specs.Rows as spec;

use crate::row::ImmSize::{Imm8, Imm16, Imm32, ImmOperand, NoImm};
use crate::row::RegField::{Any, Is, Nowhere};
use crate::row::{Attributes, F3, ImmSize, Prefixes, RegField, Row};
use x86_types::{AluOp, Cond, Reg, alu_number, cond_number, reg_number, shift_number};

fn bit(w: bool) -> u16
    ensures number { result ≡ spec.bit w }
    ensures small { result < 2 }
{
    if w { 1 } else { 0 }
}

fn alu_bits(op: AluOp) -> u16
    ensures number { result ≡ number_of_alu op }
    ensures small { result < 8 }
{
    alu_number(op) as u16
}

fn reg_bits(reg: Reg) -> u16
    ensures number { result ≡ number_of_reg reg }
    ensures small { result < 8 }
{
    reg_number(reg) as u16
}

fn cond_bits(cond: Cond) -> u16
    ensures number { result ≡ number_of_cond cond }
    ensures small { result < 16 }
{
    cond_number(cond) as u16
}

fn known_prefixes(operand_size: bool, any_66: bool, any_2e: bool, one_3e: bool, f3: F3) -> Prefixes
    ensures { result ≡ spec.known_prefixes operand_size any_66 any_2e one_3e f3 }
{
    Prefixes {
        operand_size,
        any_66,
        any_2e,
        one_3e,
        f3,
    }
}

fn no_prefix() -> Prefixes
    ensures { result ≡ spec.no_prefix }
{
    known_prefixes(false, false, false, false, F3::Never)
}

fn sized(w: bool) -> Prefixes
    ensures { result ≡ spec.sized w }
{
    known_prefixes(w, false, false, false, F3::Never)
}

fn sized_2e() -> Prefixes
    ensures { result ≡ spec.sized_2e }
{
    known_prefixes(true, false, true, false, F3::Never)
}

fn any_66() -> Prefixes
    ensures { result ≡ spec.any_66 }
{
    known_prefixes(false, true, false, false, F3::Never)
}

fn any_66_2e() -> Prefixes
    ensures { result ≡ spec.any_66_2e }
{
    known_prefixes(false, true, true, false, F3::Never)
}

fn one_3e() -> Prefixes
    ensures { result ≡ spec.one_3e }
{
    known_prefixes(false, false, false, true, F3::Never)
}

fn may_f3(w: bool) -> Prefixes
    ensures { result ≡ spec.may_f3 w }
{
    known_prefixes(w, false, false, false, F3::May)
}

fn must_f3() -> Prefixes
    ensures { result ≡ spec.must_f3 }
{
    known_prefixes(false, false, false, false, F3::Must)
}

fn not_eax(reg: Reg) -> RegField
    ensures { result ≡ spec.not_eax reg }
{
    match reg {
        Reg::Eax => Nowhere,
        Reg::Ecx => Any,
        Reg::Edx => Any,
        Reg::Ebx => Any,
        Reg::Esp => Any,
        Reg::Ebp => Any,
        Reg::Esi => Any,
        Reg::Edi => Any,
    }
}

fn modrm(opcode: u16, reg_field: RegField, prefixes: Prefixes, imm: ImmSize) -> Attributes
    ensures { result ≡ spec.modrm opcode reg_field prefixes imm }
{
    Attributes {
        opcode,
        modrm: true,
        reg_field,
        prefixes,
        imm,
    }
}

fn alone(opcode: u16, reg_field: RegField, prefixes: Prefixes, imm: ImmSize) -> Attributes
    ensures { result ≡ spec.alone opcode reg_field prefixes imm }
{
    Attributes {
        opcode,
        modrm: false,
        reg_field,
        prefixes,
        imm,
    }
}

/// The facts of a row. In its opcode 0x100 stands for 0F before the byte.
pub fn attributes_of(row: Row) -> Attributes
    ensures attributes { result ≡ spec.attributes_of row }
    ensures small { result.opcode < 0x200 }
{
    match row {
"""

RUST_NAMES = {"o": "op", "s": "op", "w": "w", "r": "reg", "c": "cond"}


def rust_pattern(row):
    names = [RUST_NAMES[p] for p in row[1]]
    return "Row::" + row[0] + (f"({', '.join(names)})" if names else "")


def rust_opcode(row):
    answer = row[2].replace("bit w", "bit(w)")
    for kind, name in (("alu op", "op"), ("reg r", "reg"), ("cond c", "cond")):
        answer = answer.replace("number_of_" + kind, kind.split()[0] + f"_bits({name})")
    return answer


def rows_code():
    lines = []
    for r in ROWS:
        word = "modrm" if r[4] else "alone"
        lines.append(f"        {rust_pattern(r)} => {word}({rust_opcode(r)}, {rust_reg_field(r)}, {rust_prefixes(r)}, {rust_imm(r)}),")
    return ROWS_CODE_HEAD + "\n".join(lines) + "\n    }\n}\n"


MEANING_HEAD = """-- Written by tools/rows.py.
-- What the parts of a spelling mean: the row, whether 66 makes width Two, whether F3 stands, ModRM's
-- reg field, its operand, and the immediate.
use Rattle.std.specs.Prelude.{ℕ, Bool, true, Option, Some, None, if◌then◌else◌, ◌==◌}
use Rattle.x86_types.specs.declared.operand.Reg.{Reg}
use Rattle.x86_types.specs.declared.operand.Reg.TheVariants.{Eax}
use Rattle.x86_types.specs.declared.operand.Rm.{Rm}
use Rattle.x86_types.specs.declared.operand.Rm.TheVariants as rm
use Rattle.x86_types.specs.declared.operand.Src.{Src}
use Rattle.x86_types.specs.declared.operand.Src.TheVariants as src
use Rattle.x86_types.specs.declared.operand.Address.{Address}
use Rattle.x86_types.specs.declared.operation.Count.TheVariants as count
use Rattle.x86_types.specs.declared.width.Width.{Width}
use Rattle.x86_types.specs.declared.width.Width.TheVariants.{One, Two, Four}
use Rattle.x86_types.specs.declared.instr.Instr.{Instr}
use Rattle.x86_types.specs.declared.instr.Instr.TheVariants as instr
use Rattle.x86_types.specs.Numbers.{reg_of, alu_of}
use Rattle.x86_grammar.specs.declared.row.Row.{Row}
use Rattle.x86_grammar.specs.declared.row.Row.TheVariants as row
use Rattle.x86_grammar.specs.Attributes.{width_of}
use Rattle.x86_grammar.specs.Parts.{signed}

-- an operand as a source
abbrev pub src_of : Rm → Src
src_of (rm.Reg r) = src.Reg r
src_of (rm.Mem a) = src.Mem a

-- Lea takes a place in memory alone
abbrev pub lea : Width → Reg → Rm → Option Instr
lea w to (rm.Reg r) = None
lea w to (rm.Mem a) = Some (instr.Lea w to a)

-- an address without base and index
abbrev pub number_alone : ℕ → Address
number_alone d = record { base = None; index = None; scale = 1; disp = d }

-- the instruction of a row with those parts
abbrev pub build : Row → Bool → Bool → ℕ → Rm → ℕ → Option Instr
"""


def meaning_spec():
    return MEANING_HEAD + "\n".join(
        f"build {pattern(r)} operand_size rep n m v = {r[7]}" for r in ROWS) + "\n"


AGAIN_HEAD = """-- Written by tools/rows.py.
-- The map gives each row at its opcode.
use Rattle.std.proofs.Common.{◌≡◌, ℕ, Some, true, false, refl}
use Rattle.std.proofs.lemmas.Bool.{eqb-true, false≢true}
use Rattle.x86_types.specs.declared.operand.Reg.TheVariants as reg
use Rattle.x86_types.specs.declared.operation.AluOp.TheVariants as alu
use Rattle.x86_types.specs.declared.operation.ShiftOp.TheVariants as shift
use Rattle.x86_types.specs.declared.operation.Cond.TheVariants as cond
use Rattle.x86_grammar.specs.declared.row.Row.{Row}
use Rattle.x86_grammar.specs.declared.row.Row.TheVariants as row
use Rattle.x86_grammar.specs.Table.{entry_of, row_at}
use Rattle.x86_grammar.specs.Rows.{opcode_of, reg_field_of, fits_reg_field}

pub row_again : (r : Row) (n : ℕ) → fits_reg_field (reg_field_of r) n ≡ true → row_at (opcode_of r) n ≡ Some r
unfolding entry_of
"""


def again_proof():
    out = []
    for r in ROWS:
        combos = [[]]
        for p in r[1]:
            combos = [c + [v] for c in combos for v in VALUES[p]]
        for c in combos:
            proof = "refl"
            if r[0] == "XchgAcc" and c == ["reg.Eax"]:
                proof = "absurd (false≢true h)"
            elif r[3] == "s" or isinstance(r[3], int):
                proof = "let e = eqb-true _ _ h in rw (← e) refl"
            out.append(f"row_again {pattern(r, c or None)} n h = {proof}")
    return AGAIN_HEAD + "\n".join(out) + "\n"


def row_code():
    """src/row.rt with the variants of Row in the order of the list."""
    text = read("src/row.rt")
    begin = text.index("pub enum Row {\n") + len("pub enum Row {\n")
    return text[:begin] + rust_enum() + "\n" + text[text.index("}\n", begin):]


if __name__ == "__main__":
    finish({
        "specs/Rows.antt": rows_spec(),
        "specs/Meaning.antt": meaning_spec(),
        "src/row.rt": row_code(),
        "src/rows.rt": rows_code(),
        "proofs/Again.antt": again_proof(),
    })
