"""The instructions by their names in the listing, and the two words for bytes as they are: what each takes, and its first byte."""
import difflib
from typing import NamedTuple, Optional

PLAIN = """halt discard dcopy pcopy swap call jump jump-if jump-if-not syscall extcall eq ne le gt lt ge and or xor add sub mul
    shl shr inc dec not neg ld-u8 ld-u16 ld-u8--offs ld-u16-offs st-u8 st-u16 st-u8--offs st-u16-offs"""
ARITHMETIC = "eq-{0} ne-{0} le-{0} gt-{0} lt-{0} ge-{0} and{0} or-{0} xor{0} add{0} sub{0} mul{0}"
SHIFTS = "shl-imm4 shr-imm4"
MEMORY = "ld-u8-{0} ld-u16{0} ld-u8--offs{0} ld-u16-offs{0} st-u8-{0} st-u16{0} st-u8--offs{0} st-u16-offs{0}"
FLOW = "call{0} jump{0} jump{0}-if jump{0}-if-not syscall{0} extcall{0}"
BY_CODE = " ".join([
    PLAIN,
    ARITHMETIC.format("-imm8"), SHIFTS, MEMORY.format("-imm8"), FLOW.format("-imm8"),
    ARITHMETIC.format("-imm16"), MEMORY.format("-imm16"), FLOW.format("-imm16"),
]).split()
OPERAND_MAX = 65_535


class Form(NamedTuple):
    """How an instruction is written."""
    code: Optional[int]                 # the first byte, but for what the operands add to it; byte and word have none
    least: int                          # operands
    most: Optional[int]
    width: int                          # the bytes of each operand; 0 where it is a part of the first byte
    limit: int                          # every operand is below


def form(code, name):
    """The form of an instruction with at most one number behind its first byte."""
    if name in SHIFTS.split():
        return Form(code, 1, 1, 1, 16)
    width = 2 if "-imm16" in name else 1 if "-imm8" in name else 0
    taken = 1 if width else 0
    return Form(code, taken, taken, width, 256 ** width)


FORMS = {
    **{name: form(code, name) for code, name in enumerate(BY_CODE)},
    "push-u8": Form(0x80, 1, 1, 0, 64),
    "push-values": Form(0xC0, 1, 4, 2, OPERAND_MAX + 1),
    "byte": Form(None, 1, None, 1, 256),
    "word": Form(None, 1, None, 2, OPERAND_MAX + 1),
}


def wider(name):
    """The instruction that does the same with numbers of up to 65,535, if there is one."""
    name = {"push-u8": "push-values", "byte": "word"}.get(name, name.replace("-imm8", "-imm16"))
    return name if name in FORMS and FORMS[name].limit > OPERAND_MAX else None


def expected(name):
    """How many operands are expected, in words."""
    least, most = FORMS[name].least, FORMS[name].most
    if most is None:
        return f"{name} takes one operand or more"
    if most == 0:
        return f"{name} takes no operand"
    return f"{name} takes one operand" if most == 1 else f"{name} takes {least} to {most} operands"


def nearest(word, words):
    """A question that names the words most like this one, if there are any."""
    near = difflib.get_close_matches(word.lower(), words, 3, 0.7)
    return f": did you mean {' or '.join(near)}?" if near else ""
