#!/usr/bin/env python3
"""Writes the clauses of proofs/Among.antt, one lemma for each row of rows.py.

With --check it writes nothing, and ends with 1 where the file differs. Each lemma says that what the row means has the row among
its forms: at which place of the list, by which of the helpers above the clauses, and why the
reg field and the number are those of the form.
"""
from generated import finish, read
from rows import ROWS

BEGIN = "-- ---- the rows, by tools/among.py\n"
END = "-- ---- the end of the rows\n"
BY_NAME = {row[0]: row for row in ROWS}
NAME = {"o": "op", "s": "op", "w": "w", "r": "r", "c": "c"}
TYPE = {"o": "AluOp", "s": "ShiftOp", "w": "Bool", "r": "Reg", "c": "Cond"}
NO_NUMBER = "(no_number v x.imm)"
MIDDLE = {"reg": "(sym (reg_again n x.reg_field))", "alu": "(sym (alu_again n x.reg_field))",
          "none": "(x.known refl)", "shift": "(reg_field_is (number_of_shift op) n x.suits.reg_field)"}
SAME = "same_form _ _ _ _ _ _ _ _ _ _ _"


def fields(name):
    return [NAME[p] for p in BY_NAME[name][1]]


def row_of(name):
    words = ["row." + name] + fields(name)
    return "(" + " ".join(words) + ")" if len(words) > 1 else words[0]


def reg_field(name, kind):
    if kind == "is":
        return f"(reg_field_is {BY_NAME[name][3]} n x.suits.reg_field)"
    return MIDDLE[kind]


def at(place, proof):
    text = f"inl ({proof})"
    for _ in range(place):
        text = f"inr ({text})"
    return text


def clause(name, place, proof, rm="m", operand_size="h", rep="p", number="v", first=None):
    head = " ".join([name + "_has"] + (fields(name) if first is None else [first]))
    parts = f"{operand_size} {rep} n {rm} {number}"
    return f"{head} {parts} i x e = by_built _ {parts} i _ e ({at(place, proof)})"


def lemma(name, clauses):
    binders = " ".join(f"({NAME[p]} : {TYPE[p]})" for p in BY_NAME[name][1])
    arrow = " → " if binders else ""
    return "\n".join([f"{name}_has : {binders}{arrow}HasForm {row_of(name)}",
                      "unfolding HasForm"] + clauses) + "\n"


def sized(name, kind, number):
    base = [NAME[p] for p in BY_NAME[name][1] if p != "w"]
    row = "(row." + name + " " + " ".join(base) + ")" if base else "row." + name
    return (f"sized_form {row} w h p _ _ _ _ _ x.suits.operand_size x.suits.rep "
            f"{reg_field(name, kind)} {number}")


def fixed(name, kind, number):
    return f"fixed_form _ h p _ _ _ _ _ x.suits.operand_size x.suits.rep {reg_field(name, kind)} {number}"


def wide(name, kind, number=NO_NUMBER, place=0, rm="m", first=None):
    proof = f"{SAME} refl refl (no_rep p x.suits.rep) {reg_field(name, kind)} {number}"
    return [clause(name, place, proof, rm=rm, operand_size=h, first=first) for h in ("false", "true")]


def signed(name, kind, before, after, width, operand_size, form, same):
    """The byte with its sign."""
    parts = f"{operand_size} p n m v"
    has = " ".join([name + "_has"] + fields(name))
    return (f"{has} {parts} i x e = by_built _ {parts} i _ e ({before}In-signed {width} v "
            f"(λ b. {form}) (form_of {row_of(name)} {parts}) x.imm ({same}){after})")


def signed_wide(name, kind, before, after, form):
    return [signed(name, kind, before, after, w, h, form.replace("WIDTH", w),
                   f"{SAME} refl refl (no_rep p x.suits.rep) {reg_field(name, kind)} refl")
            for h, w in (("false", "Four"), ("true", "Two"))]


def signed_plain(name):
    return [signed(name, "none", "inr (", ")", "Four", "h", f"plain {row_of(name)} Four b",
                   fixed(name, "none", "refl"))]


def tested(name, literal, instr, place, rep):
    same = f"{SAME} refl (no_operand_size h x.suits.operand_size) {rep} (x.known refl) (eqb-true _ _ t.0)"
    return [f"{name}_has h p n m v i x e =",
            f"    let g = chosen (eqb v {literal}) (Some instr.{instr}) None (Some i) e in",
            "    elim g [",
            f"      | inl t ↦ by_built _ h p n m v i _ t.1 ({at(place, same)})",
            "      | inr t ↦ absurd (none_some t.1)", "    ]"]


# place in the list, reg field, whether a number stands
SIZED = {"AluToRm": (0, "reg", 0), "AluAcc": (1, "none", 1), "AluImm": (0, "alu", 1),
         "TestRm": (0, "reg", 0), "TestAcc": (1, "none", 1), "TestImm": (0, "is", 1),
         "MovToRm": (0, "reg", 0), "MovReg": (1, "none", 1), "MovImm": (0, "is", 1),
         "MovLoad": (1, "none", 1), "MovStore": (1, "none", 1), "Inc": (0, "is", 0),
         "Dec": (0, "is", 0), "Not": (0, "is", 0), "Neg": (0, "is", 0), "Mul": (0, "is", 0),
         "ImulWide": (0, "is", 0), "Div": (0, "is", 0), "Idiv": (0, "is", 0),
         "ShiftImm": (0, "shift", 1), "ShiftOne": (1, "shift", 0), "ShiftCl": (0, "shift", 0),
         "Xchg": (0, "reg", 0)}
FIXED = {"ShldImm": (0, "reg", 1), "ShldCl": (0, "reg", 0), "ShrdImm": (0, "reg", 1),
         "ShrdCl": (0, "reg", 0), "PushReg": (1, "none", 0), "PushWord": (0, "none", 1),
         "PopReg": (1, "none", 0), "Pop": (0, "is", 0), "MovzxWord": (0, "reg", 0),
         "MovsxWord": (0, "reg", 0), "Setcc": (0, "is", 0), "BswapReg": (0, "none", 0),
         "JmpNear": (0, "none", 1), "JmpTo": (0, "is", 0), "CallTo": (0, "is", 0),
         "JccNear": (0, "none", 1), "CallNear": (0, "none", 1), "Leave": (0, "none", 0),
         "Cld": (0, "none", 0), "Nop": (0, "none", 0), "NopLong": (1, "is", 0)}
WIDE = {"IncReg": ("none", 1), "DecReg": ("none", 1), "Imul": ("reg", 0), "MovzxByte": ("reg", 0),
        "MovsxByte": ("reg", 0), "Cmov": ("reg", 0), "Extend": ("none", 0), "Spread": ("none", 0),
        "Bsf": ("reg", 0), "Bsr": ("reg", 0)}


def clauses(name):
    if name in SIZED:
        place, kind, some = SIZED[name]
        return [clause(name, place, sized(name, kind, "refl" if some else NO_NUMBER))]
    if name in FIXED:
        place, kind, some = FIXED[name]
        return [clause(name, place, fixed(name, kind, "refl" if some else NO_NUMBER))]
    if name in WIDE:
        kind, place = WIDE[name]
        return wide(name, kind, place=place)
    if name in ("AluToReg", "MovToReg"):
        proof = sized(name, "reg", NO_NUMBER)
        return [clause(name, 1, proof, rm="(rm.Reg q)"), clause(name, 0, proof, rm="(rm.Mem a)")]
    if name == "Push":
        proof = fixed(name, "is", NO_NUMBER)
        return [clause(name, 0, proof, rm="(rm.Reg q)"), clause(name, 0, proof, rm="(rm.Mem a)")]
    if name == "AluByte":
        return signed_wide(name, "alu", "inr (In-append_right _ (if_acc m _) _ (", "))",
                           "with_rm row.AluByte WIDTH (number_of_alu (alu_of n)) m b")
    if name == "ImulWord":
        return wide(name, "reg", "refl")
    if name == "ImulByte":
        return signed_wide(name, "reg", "inr (", ")",
                           "with_rm row.ImulByte WIDTH (number_of_reg (reg_of n)) m b")
    if name == "Lea":
        return ["Lea_has h p n (rm.Reg q) v i x e = absurd cc"] + wide(name, "reg",
                                                                       rm="(rm.Mem a)")
    if name in ("PushByte", "JmpShort", "JccShort"):
        return signed_plain(name)
    if name == "XchgAcc":
        lines = ["XchgAcc_has reg.Eax h p n m v i x e = absurd (false≢true x.suits.reg_field)"]
        for r in "Ecx Edx Ebx Esp Ebp Esi Edi".split():
            lines += wide(name, "none", place=1, first="reg." + r)
        return lines
    if name in ("Movs", "Stos"):
        return [clause(name, 0, f"{SAME} (ap row.{name} (w_back w h)) "
                       f"(operand_size_back w h x.suits.operand_size) refl (x.known refl) {NO_NUMBER}")]
    if name == "Ret":
        proof = f"{SAME} refl (no_operand_size h x.suits.operand_size) refl (x.known refl) {NO_NUMBER}"
        return [clause(name, 1, proof, rep="false"), clause(name, 2, proof, rep="true")]
    if name == "RetDrop":
        proof = fixed(name, "none", "refl")
        return [clause(name, 0, proof, number="zero"), clause(name, 0, proof, number="(suc v)")]
    if name == "Int80":
        return tested(name, "0x80", "Int80", 0, "(no_rep p x.suits.rep)")
    if name == "NopEnd":
        return tested(name, "0xFB", "Nop", 2, "x.suits.rep")
    raise KeyError(name)


def main():
    path = "proofs/Among.antt"
    text = read(path)
    parts = [lemma(row[0], clauses(row[0])) for row in ROWS]
    parts.append("pub has_form : (r : Row) → HasForm r\n" + "".join(
        f"has_form {row_of(r[0])} = " + " ".join([r[0] + "_has"] + fields(r[0])) + "\n"
        for r in ROWS))
    body = BEGIN + "\n" + "\n".join(parts) + "\n"
    finish({path: text[:text.index(BEGIN)] + body + text[text.index(END):]})


if __name__ == "__main__":
    main()
