#!/usr/bin/env python3
"""Writes the stored list of commands and answers that the program `replay` is compared with.

usage: make_list.py ORACLE [--check]      from any folder

Writes crates/replay/stdin (commands) and crates/replay/stdout (answers). With --check it writes nothing, and fails where the stored files
are not what it would write. The list is the same at each run: every choice is from a fixed seed.

ORACLE is a program that answers the same lines as `replay`, with `panic` where the Rust stops: the functions of cranelift-codegen 0.137.1
(src/isa/s390x/inst/emit.rs, imms.rs and args.rs, and src/ir/condcodes.rs), cut out unchanged and compiled with debug assertions and overflow
checks on. What these functions lean on and was not at hand (the register type of the register allocator, memory flags, labels, the code
buffer) was replaced by stand-ins, so nothing here compares those. A register of the stand-in has a class and a number below 16 (integer)
or 32 (float), and every register is a real one. To make one again: take those files of that release, put the 37 `enc_*`, `rxb`,
`machreg_to_*`, `UImm12`, `SImm20`, `UImm16Shifted`, `UImm32Shifted`, `Cond` and `IntCC` into one file beside such stand-ins, and add a
reader of lines: words separated by blanks, the function's name (`uimm12_`, `simm20_`, `u16s_`, `u32s_`, `cond_`, `intcc_` in front of a
method's) and its arguments in order. Numbers are decimal or 0x with `-` in front, registers `i0`..`i15` and `f0`..`f31`, `-` for an absent
register, displacements and the distances of RIL-b and RIL-c raw 32 bits. It answers bytes as hexadecimal digits, numbers in decimal,
`bits shift` for shifted immediates, `none`, `panic`, or `error` and what is wrong with the line.

For addresses add `mem_finalize`, the five `mem_*emit`, `MemArg` and its methods (`memarg_` in front), and the three arms of `Inst::emit` for
LoadAddr, Mov64SImm16 and Mov64SImm32. `state NOMINAL OUTGOING INCOMING CLOBBER FIXED STACKSLOTS OUTARGS` sets the frame for the lines after it; a
`mem_*emit` takes the data operands, the opcodes (`-` for an absent one), whether it may trap, and an address. An address is `bxd12 B X D FLAGS`,
`bxd20 B X D FLAGS`, `label N`, `const N`, `sym N OFF FLAGS`, `reg R OFF FLAGS`, or `isp`, `inarg`, `outarg`, `slot`, `spill` and OFF; FLAGS are `a`
or `u`, aligned or not, with the trap code, 0 for none. `mem_finalize` takes the permissions D12 D20 PCREL UNALIGNED_PCREL INDEX and an address, and
answers `[helper; helper] ADDRESS`. A `mem_*emit` answers the bytes of each instruction, then `use=OFFSET:LABEL:2`, `reloc=OFFSET:SYMBOL:ADDEND`
and `trap=OFFSET:CODE`. What the library plans has no trap records: the `trap=` words are taken off, so answers are compared without trap records.

What the oracle answers is stored otherwise as it is, with `refused 6` for `panic`: the library refuses, where the Rust panics, for an operand
outside its kind. For addresses, addresses.py says which refusal stands for `panic`, and this fails where the two do not refuse the same lines. What
the Rust does not look at and the library refuses (constants, odd offsets of symbols, masks above 15, and for `mem_finalize` the class of registers)
and the one symbol offset to which the Rust cannot add 2 are left out of that part. Behind it, under a comment of their own, stand lines that the
oracle does not know, with answers written here; of the catalogue's lines (`admit`, `read`) those at the end read the oracle's bytes.
"""
import itertools
import os
import random
import subprocess
import sys

import addresses
from forms import EXAMPLES, FORMS

ROOT = os.path.join(os.path.dirname(os.path.abspath(__file__)), "..", "..")
SEED = 390
TOGETHER = 24  # lines for each form in which every operand is drawn at random

VALUES = {
    "G": ["i0", "i1", "i7", "i15", "f0", "f5", "f15", "f16", "f17", "f31"],
    "V": ["f0", "f1", "f15", "f16", "f17", "f31", "i0", "i5", "i15"],
    "F": ["f0", "f7", "f15", "f16", "f17", "f31", "i0", "i5", "i15"],
    "N": ["i0", "i15", "f0", "f7", "f15", "f16", "f17", "f31"],
    "M": ["0", "1", "8", "15", "16", "31", "255"],
    "U8": ["0", "1", "127", "128", "255"],
    "U16": ["0", "1", "0x7fff", "0x8000", "0xffff"],
    "U32": ["0", "1", "0xffff", "0x10000", "0x7fffffff", "0x80000000", "0xffffffff"],
    "S16": ["0", "1", "-1", "255", "256", "-256", "32767", "-32768"],
    "D": ["0", "1", "0xff", "0x100", "0xfff", "0x1000", "0x7ffff", "0x80000", "0xfffff", "0x100000", "0xffffffff"],
    "H32": ["-3", "-2", "-1", "0", "1", "2", "3", "-65538", "-65536", "65534", "65535", "65536", "131072", "-2147483648", "2147483647"],
    "HU32": ["0", "1", "2", "3", "65534", "65536", "0xffff0000", "0x7fffffff", "0x80000000", "0x80000001", "0xfffffffd", "0xfffffffe", "0xffffffff"],
}
# registers that an operand of the kind can have
RIGHT = {
    "G": [f"i{n}" for n in range(16)],
    "V": [f"f{n}" for n in range(32)],
    "F": [f"f{n}" for n in range(16)],
    "N": [f"i{n}" for n in range(16)] + [f"f{n}" for n in range(16)],
}
ANY = [f"i{n}" for n in range(16)] + [f"f{n}" for n in range(32)]
RANGES = {
    "M": (0, 255), "U8": (0, 255), "U16": (0, 0xFFFF), "U32": (0, 0xFFFFFFFF), "S16": (-0x8000, 0x7FFF), "D": (0, 0xFFFFFFFF),
    "H32": (-0x80000000, 0x7FFFFFFF), "HU32": (0, 0xFFFFFFFF),
}
# what an operand has while another is varied: no two are alike in one line, so that exchanged digits show
STEADY = {
    "G": ["i3", "i6", "i9", "i12"], "V": ["f2", "f21", "f11", "f28"], "F": ["f4", "f10", "f13"], "N": ["i5", "f8", "i14"],
    "M": ["6", "9", "13"], "U8": ["0x12", "0x34", "0x56"], "U16": ["0x789a"], "U32": ["0x89abcdef"], "S16": ["-12345"],
    "D": ["0x6b4c3"], "H32": ["-74566"], "HU32": ["0x13579bdf"],
}
CONDITIONS = "eq ne slt sge sgt sle ult uge ugt ule".split()


def steady(kinds):
    seen = dict.fromkeys(STEADY, 0)
    line = []
    for kind in kinds:
        line.append(STEADY[kind][seen[kind]])
        seen[kind] += 1
    return line


def drawn(rng, kind):
    """A value of the kind. Of ten registers, nine are of their kind; of the numbers, half are from the list above."""
    if kind in RIGHT:
        return rng.choice(RIGHT[kind] if rng.random() < 0.9 else ANY)
    return rng.choice(VALUES[kind]) if rng.random() < 0.5 else str(rng.randint(*RANGES[kind]))


def encoder(rng, name):
    digits, opcode, kinds = FORMS[name]
    base = steady(kinds)
    opcodes = [opcode, 0, 1, 16 ** digits - 1, 16 ** (digits - 1), 0xFFFF, 0xFEDC]
    lines = [[hex(o)] + base for o in opcodes]
    for i, kind in enumerate(kinds):
        lines += [[hex(opcode)] + base[:i] + [v] + base[i + 1:] for v in VALUES[kind]]
    for _ in range(TOGETHER if kinds else 4):
        o = opcode if rng.random() < 0.7 else rng.randint(0, 0xFFFF)
        lines.append([hex(o)] + [drawn(rng, kind) for kind in kinds])
    return [" ".join([name] + line) for line in unique(lines)]


def unique(lines):
    return [list(x) for x in dict.fromkeys(map(tuple, lines))]


def around(*limits):
    return sorted({n + d for n in limits for d in (-1, 0, 1)})


def immediates(rng):
    whole = [n for n in around(0, 4096, 524288, 1 << 15, 1 << 16, 1 << 31, 1 << 32, 1 << 47, 1 << 48, 1 << 63, 1 << 64) if 0 <= n < 1 << 64]
    signed = [n for n in around(0, 4096, -4096, 524288, -524288, 1 << 31, -(1 << 31), 1 << 63, -(1 << 63)) if -(1 << 63) <= n < 1 << 63]
    lines = ["uimm12_zero"]
    lines += [f"uimm12_maybe_from_u64 {n}" for n in whole]
    lines += [f"uimm12_maybe_from_simm20 {n}" for n in signed if -524288 <= n < 524288]
    lines += [f"simm20_maybe_from_i64 {n}" for n in signed]
    lines += [f"simm20_from_uimm12 {n}" for n in around(0, 15, 4095) if 0 <= n < 4096]
    parts = [0, 1, 0x7FFF, 0x8000, 0xFFFF]
    shifted = sorted({p << s for p in parts for s in (0, 16, 32, 48)})
    several = [a | b for a, b in itertools.combinations([1, 1 << 15, 1 << 16, 1 << 31, 1 << 32, 1 << 47, 1 << 48, 1 << 63], 2)]
    some = [rng.getrandbits(rng.randint(1, 64)) for _ in range(16)] + [rng.getrandbits(32) << rng.choice([0, 16, 32]) for _ in range(16)]
    wide = [0xFFFFFFFF, 0xFFFFFFFF << 32, 0xFFFFFFFF << 16, (1 << 64) - 1]
    for width in ("16", "32"):
        lines += [f"u{width}s_maybe_from_u64 {hex(n)}" for n in dict.fromkeys(shifted + several + wide + whole + some)]
        top = (1 << int(width)) - 1
        for shift in (0, 1, 15, 16, 17, 31, 32, 33, 47, 48, 49, 63, 64, 65, 95, 96, 97, 127, 128, 129, 254, 255):
            lines += [f"u{width}s_maybe_with_shift {imm} {shift}" for imm in (0, 1, top)]
        for bits in (0, 1, 0x5555, top >> 1, (top >> 1) + 1, top):
            lines += [f"u{width}s_negate_bits {bits} {shift}" for shift in (0, 1, 3, 4, 255)]
    return lines


def registers():
    lines = [f"machreg_to_{kind} {reg}" for kind in ("gpr", "vr", "fpr", "gpr_or_fpr") for reg in ANY]
    lines += ["rxb " + " ".join(regs) for regs in itertools.product(["-", "f3", "f20", "i4"], repeat=4)]
    for place in range(4):
        for reg in ["f0", "f15", "f16", "f31", "i0", "i15"]:
            lines.append("rxb " + " ".join(reg if i == place else "-" for i in range(4)))
    return lines


def conditions():
    lines = [f"cond_from_mask {mask}" for mask in range(256)]
    # the Rust inverts any mask; a condition of the library holds those alone that `from_mask` takes
    lines += [f"cond_invert {mask}" for mask in range(1, 15)]
    lines += [f"cond_from_intcc {cc}" for cc in CONDITIONS]
    lines += ["intcc_all"]
    lines += [f"intcc_{call} {cc}" for call in ("complement", "swap_args", "without_equal", "unsigned") for cc in CONDITIONS]
    return lines


# Lines that both find wrong.
BAD = [
    "enc_rr", "enc_rr 0x1a i1", "enc_rr 0x1a i1 i2 i3", "enc_rr 0x10000 i1 i2", "enc_rr -1 i1 i2", "enc_rr 0x1a i1 2", "enc_rr 0x1a r1 i2",
    "enc_rr 0x1a i i2", "enc_rr 0x1a i1 i256", "enc_rr 0x1g i1 i2", "enc_ri_b 0xa76 i1 2147483648", "enc_ri_b 0xa76 i1 -2147483649",
    "enc_sil 0xe548 i1 0 32768", "enc_sil 0xe548 i1 0 -32769", "enc_si 0x94 i1 4294967296 0", "enc_si 0x94 i1 0 256", "enc_si 0x94 i1 -1 0",
    "rxb f1 f2 f3", "rxb f1 f2 f3 +", "cond_from_mask 256", "cond_from_mask x", "cond_from_intcc lt", "intcc_all eq", "intcc_unsigned",
    "uimm12_maybe_from_u64 18446744073709551616", "uimm12_maybe_from_u64 -1", "simm20_maybe_from_i64 9223372036854775808",
    "uimm12_maybe_from_simm20 524288", "simm20_from_uimm12 4096", "u16s_maybe_with_shift 65536 0", "u32s_maybe_with_shift 0 256",
    "uimm12_zero 0", "enc_xyz 1", "unknown", "machreg_to_gpr -", "machreg_to_gpr i1 i2",
]

# Lines that the oracle does not know, and what the library answers: registers that do not exist are refused, and a mask from which no
# condition is made cannot be inverted.
OURS = [(f"machreg_to_{kind} {reg}", "refused 6") for kind in ("gpr", "vr", "fpr", "gpr_or_fpr") for reg in ("i16", "i255", "f32", "f255")]
OURS += [("rxb i16 - - -", "8"), ("rxb - f32 - -", "4"), ("rxb - - i255 -", "2"), ("rxb - - - f255", "1")]
OURS += [(f"cond_invert {mask}", "refused 6") for mask in (0, 15, 16, 255)]
OURS += [
    ("enc_rr_a 0x1a i1 i2", "error unknown command enc_rr_a"), ("enc_", "error unknown command enc_"), ("cond_", "error unknown command cond_"),
    ("enc_ri_d 1", "error unknown command enc_ri_d"), ("rxb_of -", "error unknown command rxb_of"),
    ("cond_from_mask --1", "error not a number: --1"), ("cond_from_mask 0x", "error not a number: 0x"),
    ("   cond_from_mask\t8   # blanks and a comment", "8"),
]

# The catalogue: one for the whole list, with LGFI, LA, LAY and LARL at the start.
CATALOGUE = [
    ("read -", "none"), ("read c01100080000", "ril_a 0xc01 1 524288 0 0 0 0"), ("read 41412345", "rx 0x41 4 2 1 837 0 0"),
    ("read e3341ffbff71", "rxy 0xe371 3 1 4 -5 0 0"), ("read c01000000005", "ril_b 0xc00 1 10 0 0 0 0"), ("read 5834", "refused 17"),
    ("read 58341005", "refused 18"), ("admit rx 0x58", "ok"), ("admit rx 0x58", "refused 4"), ("admit rs 0x58", "refused 4"),
    ("read 58341005", "rx 0x58 3 1 4 5 0 0"), ("admit rx 0x158", "refused 3"), ("admit rx 0xe3", "refused 3"), ("admit sil 0xe301", "refused 4"),
    ("admit rr 0x1a", "ok"), ("read 1a34", "rr 0x1a 3 4 0 0 0 0"), ("read 1a3458341005", "rr 0x1a 3 4 0 0 0 0"), ("read 1a", "refused 17"),
    ("admit rre 0xb904", "ok"), ("read b9040034", "rre 0xb904 3 4 0 0 0 0"), ("read b9041034", "refused 19"), ("admit vrx 0xe706", "ok"),
    ("read e7541ffb6806", "vrx 0xe706 21 1 4 4091 6 0"), ("read e7541ffb6406", "refused 19"), ("read e7541ffb6807", "refused 18"),
    ("read 1a3", "error not bytes: 1a3"), ("read 1g", "error not bytes: 1g"), ("read 1a341a341a341a341a", "error not bytes: 1a341a341a341a341a"),
    ("admit rx_a 0x58", "error unknown form rx_a"), ("admit rx 65536", "error 65536 out of range of u16"), ("admit rx", "error missing argument"),
    ("admit_rx 0x58", "error unknown command admit_rx"),
]


def unknown_registers():
    """Each register operand of each form with registers that do not exist."""
    lines = []
    for name, (_, opcode, kinds) in FORMS.items():
        base = steady(kinds)
        for i, kind in enumerate(kinds):
            if kind in RIGHT:
                for reg in ("i16", "i255", "f32", "f255"):
                    lines.append((" ".join([name, hex(opcode)] + base[:i] + [reg] + base[i + 1:]), "refused 6"))
    return lines


def without_traps(answer):
    return " ".join(word for word in answer.split(" ") if not word.startswith("trap="))


def answered(oracle, lines):
    run = subprocess.run([oracle], input="".join(line + "\n" for line in lines), capture_output=True, text=True, check=True)
    answers = run.stdout.splitlines()
    assert len(answers) == len(lines), (len(answers), len(lines))
    return [without_traps(answer) for answer in answers]


def ask(oracle, lines):
    return ["refused 6" if answer == "panic" else answer for answer in answered(oracle, lines)]


def read_back(oracle):
    """Each form's opcode is admitted, and the oracle's bytes are read as the operands that it was given."""
    values = dict(STEADY, D=["0x4c3"], H32=["-7456"], HU32=["0x3579bde"])
    held = {"ril_a": 0xC01, "ril_b": 0xC00, "rx": 0x58, "rr": 0x1A, "rre": 0xB904}
    lines = []
    for name, (_, opcode, kinds) in FORMS.items():
        form = name.removeprefix("enc_")
        given = [values[kind][kinds[:i].count(kind)] for i, kind in enumerate(kinds)]
        numbers = [int(word.lstrip("if"), 0) for word in given]
        (code,) = ask(oracle, [" ".join([name, hex(opcode)] + given)])
        lines.append((f"admit {form} {hex(opcode)}", "refused 4" if held.get(form) == opcode else "ok"))
        lines.append((f"read {code}", " ".join([form, hex(opcode)] + [str(n) for n in numbers + [0] * (6 - len(numbers))])))
    return lines


def ask_addresses(oracle, expected):
    """The oracle's answers, with the refusals that the rules tell; both have to refuse the same lines."""
    answers = answered(oracle, [line for line, _ in expected])
    for (line, refusal), answer in zip(expected, answers):
        assert (answer == "panic") == (refusal != 0) and not answer.startswith("error"), (line, refusal, answer)
    return [f"refused {refusal}" if refusal else answer for (_, refusal), answer in zip(expected, answers)]


def main():
    oracle = sys.argv[1]
    rng = random.Random(SEED)
    parts = [(name, encoder(rng, name)) for name in FORMS]
    parts += [("immediates", immediates(rng)), ("registers", registers()), ("conditions", conditions())]
    parts += [("examples of the Principles of Operation", [command for _, command, _ in EXAMPLES])]
    bad = BAD + addresses.BAD
    parts += [("lines that are wrong", bad)]
    commands, answers = ["# Made by tests/oracle/make_list.py: do not edit."], []
    for title, lines in parts:
        got = ask(oracle, lines)
        assert all(answer.startswith("error") == (lines is bad) for answer in got), title
        commands += [f"# {title}"] + lines
        answers += got
    for (_, command, known), got in zip(EXAMPLES, ask(oracle, [command for _, command, _ in EXAMPLES])):
        assert got == known, (command, got, known)
    expected = addresses.lines(rng)
    commands += ["# addresses and accesses"] + [line for line, _ in expected]
    answers += ask_addresses(oracle, expected)
    asked = len(answers)
    refused = sum(answer.startswith("refused") for answer in answers)
    commands.append("# From here on: not known to the oracle.")
    for command, answer in unknown_registers() + OURS + addresses.ours() + CATALOGUE + read_back(oracle):
        commands.append(command)
        answers.append(answer)
    print(f"{asked} answers of the oracle, {refused} of them refusals; {len(answers) - asked} of our own")
    for name, lines in (("stdin", commands), ("stdout", answers)):
        path = os.path.join(ROOT, "crates", "replay", name)
        text = "".join(line + "\n" for line in lines)
        if "--check" not in sys.argv:
            with open(path, "w") as out:
                out.write(text)
        elif open(path).read() != text:
            sys.exit(f"{name} is not what this writes")


if __name__ == "__main__":
    main()
