#!/usr/bin/env python3
"""Compares the layouts of the forms with what the GNU assembler writes. Not part of the gate.

usage: check_binutils.py PROGRAM [PREFIX]

PROGRAM answers the lines of `replay` (crates/replay/out/replay, or an oracle: see make_list.py). PREFIX stands before `as` and `objcopy`, by
default s390x-linux-gnu-. For each form, instructions of one or two mnemonics with operands from a fixed seed are assembled, and their bytes
compared with the encoder's. So are the instructions of the Principles of Operation that make_list.py stores.

Not compared: VRI-k, whose one instruction, VEVAL, came to binutils in 2.44 (it is tried, and skipped where it is unknown); and distances
below zero of RIL-b and RIL-c, which their encoders take as 32 bits without a sign and halve as such.
"""
import os
import random
import subprocess
import sys
import tempfile

from forms import EXAMPLES, FORMS

SEED = 390
TIMES = 40
ARCH = "arch13"
NEWER = "arch15"

# The encoder, its opcode, and the assembler's text of its operands: {0} is the operand behind the opcode, {1} the next, ..
SAMPLES = [
    ("enc_e", 0x0101, "pr"), ("enc_e", 0x010E, "sam64"),
    ("enc_ri_a", 0xA79, "lghi {0},{1}"), ("enc_ri_a", 0xA71, "tmll {0},{1}"),
    ("enc_ri_b", 0xA76, "brct {0},{1}"), ("enc_ri_c", 0xA74, "brc {0},{1}"),
    ("enc_rie_a", 0xEC70, "cgit {0},{1},{2}"),
    ("enc_rie_d", 0xECD8, "ahik {0},{1},{2}"),
    ("enc_rie_f", 0xEC55, "risbg {0},{1},{2},{3},{4}"),
    ("enc_rie_g", 0xEC42, "lochi {0},{1},{2}"),
    ("enc_ril_a", 0xC01, "lgfi {0},{1}"), ("enc_ril_b", 0xC00, "larl {0},{1}"), ("enc_ril_c", 0xC04, "brcl {0},{1}"),
    ("enc_rr", 0x1A, "ar {0},{1}"), ("enc_rr", 0x2A, "adr {0},{1}"),
    ("enc_rrd", 0xB30E, "maebr {0},{2},{1}"),
    ("enc_rre", 0xB904, "lgr {0},{1}"), ("enc_rre", 0xB3CD, "lgdr {0},{1}"),
    ("enc_rrf_ab", 0xB9E3, "selgr {0},{1},{2},{3}"), ("enc_rrf_ab", 0xB35B, "didbr {0},{2},{1},{3}"),
    ("enc_rrf_cde", 0xB9E2, "locgr {0},{1},{2}"), ("enc_rrf_cde", 0xB35F, "fidbra {0},{2},{1},{3}"),
    ("enc_rs", 0x98, "lm {0},{1},{3}({2})"), ("enc_rsy", 0xEB04, "lmg {0},{1},{3}({2})"),
    ("enc_rx", 0x58, "l {0},{3}({2},{1})"), ("enc_rx", 0x68, "ld {0},{3}({2},{1})"),
    ("enc_rxy", 0xE304, "lg {0},{3}({2},{1})"), ("enc_rxy", 0xED65, "ldy {0},{3}({2},{1})"),
    ("enc_si", 0x94, "ni {1}({0}),{2}"), ("enc_sil", 0xE548, "mvghi {1}({0}),{2}"), ("enc_siy", 0xEB54, "niy {1}({0}),{2}"),
    ("enc_vri_a", 0xE745, "vrepi {0},{1},{2}"), ("enc_vri_b", 0xE746, "vgm {0},{1},{2},{3}"),
    ("enc_vri_c", 0xE74D, "vrep {0},{2},{1},{3}"), ("enc_vri_k", 0xE788, "veval {1},{2},{3},{4},{0}"),
    ("enc_vrr_a", 0xE7C7, "vfi {0},{1},{2},{3},{4}"), ("enc_vrr_b", 0xE7F8, "vceq {0},{1},{2},{3},{4}"),
    ("enc_vrr_c", 0xE7E8, "vfce {0},{1},{2},{3},{4},{5}"), ("enc_vrr_d", 0xE78A, "vstrc {0},{1},{2},{3},{4},{5}"),
    ("enc_vrr_e", 0xE78F, "vfma {0},{1},{2},{3},{4},{5}"), ("enc_vrr_f", 0xE762, "vlvgp {0},{1},{2}"),
    ("enc_vrs_a", 0xE733, "verll {0},{3},{2}({1}),{4}"), ("enc_vrs_b", 0xE722, "vlvg {0},{3},{2}({1}),{4}"),
    ("enc_vrs_c", 0xE721, "vlgv {0},{3},{2}({1}),{4}"), ("enc_vrx", 0xE705, "vlrep {0},{3}({2},{1}),{4}"),
]
# operands that the mnemonic has no place for, or takes in part: the encoder is given this
FIXED = {("enc_rrf_cde", 0xB9E2): {3: 0}}
# mnemonics whose registers are float ones, and those that read an immediate without a sign
FLOAT = {0x2A, 0x68, 0xED65, 0xB35B, 0xB35F}
MIXED = {0xB3CD: ["G", "F"]}
PLAIN = {0xA71}
LONG = {"enc_rsy", "enc_rxy", "enc_siy"}


def register(rng, kind):
    letter, count, name = {"G": ("i", 16, "r"), "V": ("f", 32, "v"), "F": ("f", 16, "f")}[kind]
    n = rng.randrange(count)
    return f"{letter}{n}", f"%{name}{n}"


def operand(rng, name, opcode, place, kind):
    """An operand as the encoder and as the assembler takes it."""
    if (name, opcode) in FIXED and place in FIXED[name, opcode]:
        return str(FIXED[name, opcode][place]), ""
    if opcode in MIXED:
        kind = MIXED[opcode][place]
    if kind == "N":
        kind = "F" if opcode in FLOAT else "G"
    if kind in "GVF":
        return register(rng, kind)
    if kind == "M":
        n = rng.randrange(16)
        return str(n), str(n)
    if kind == "U8":
        n = rng.randrange(256)
        return str(n), str(n)
    if kind == "U16":
        n = rng.randrange(1 << 16)
        return str(n), str(n if opcode in PLAIN or name == "enc_vri_c" else n - (n >> 15 << 16))
    if kind == "U32":
        n = rng.getrandbits(32)
        return str(n), str(n - (n >> 31 << 32))
    if kind == "S16":
        n = rng.randrange(-(1 << 15), 1 << 15)
        return str(n), str(n)
    if kind == "D":
        if name in LONG:
            n = rng.getrandbits(20)
            return hex(n), str(n - (n >> 19 << 20))
        n = rng.getrandbits(12)
        return hex(n), str(n)
    if kind == "H32":
        n = 2 * rng.randrange(-(1 << 15), 1 << 15)
        return str(n), f".{n:+}"
    n = 2 * rng.randrange(1 << 30)
    return str(n), f".{n:+}"


def assembled(prefix, arch, texts):
    """The bytes of each instruction, or None where the assembler refuses the text."""
    with tempfile.TemporaryDirectory() as folder:
        source, made, code = (os.path.join(folder, x) for x in ("x.s", "x.o", "x.bin"))
        with open(source, "w") as out:
            out.write("".join(f" {text}\n" for text in texts))
        run = subprocess.run([prefix + "as", f"-march={arch}", source, "-o", made], capture_output=True, text=True)
        if run.returncode != 0:
            return None, run.stderr.strip().splitlines()[-1]
        subprocess.run([prefix + "objcopy", "-O", "binary", "-j", ".text", made, code], check=True)
        data = open(code, "rb").read()
    out = []
    while data and len(out) < len(texts):
        size = (2, 4, 4, 6)[data[0] >> 6]
        out.append(data[:size].hex())
        data = data[size:]
    return out, ""


def answered(program, lines):
    run = subprocess.run([program], input="".join(line + "\n" for line in lines), capture_output=True, text=True, check=True)
    return run.stdout.splitlines()


def main():
    program = sys.argv[1]
    prefix = sys.argv[2] if len(sys.argv) > 2 else "s390x-linux-gnu-"
    rng = random.Random(SEED)
    compared, wrong = set(), 0
    for name, opcode, text in SAMPLES:
        commands, texts = [], []
        for _ in range(TIMES if FORMS[name][2] else 1):
            pairs = [operand(rng, name, opcode, i, kind) for i, kind in enumerate(FORMS[name][2])]
            commands.append(" ".join([name, hex(opcode)] + [ours for ours, _ in pairs]))
            texts.append(text.format(*[theirs for _, theirs in pairs]))
        want, why = assembled(prefix, NEWER if name == "enc_vri_k" else ARCH, texts)
        if want is None:
            print(f"{name}: not compared: {why}")
            continue
        got = answered(program, commands)
        bad = [(c, t, g, w) for c, t, g, w in zip(commands, texts, got, want) if g != w]
        bad += [] if len(got) == len(want) == len(texts) else [("lengths", len(got), len(want), len(texts))]
        for line in bad[:3]:
            print(f"{name}: DIFFERS", *line)
        wrong += len(bad)
        compared.add(name)
    want, why = assembled(prefix, ARCH, [text for text, _, _ in EXAMPLES])
    got = answered(program, [command for _, command, _ in EXAMPLES])
    if not (want == got == [known for _, _, known in EXAMPLES]):
        print("EXAMPLES DIFFER", want, got, why)
        wrong += 1
    print(f"{len(compared)} of {len(FORMS)} forms compared, {wrong} differences; not compared: {sorted(set(FORMS) - compared)}")
    sys.exit(wrong != 0)


if __name__ == "__main__":
    main()
