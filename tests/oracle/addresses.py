"""Lines about addresses and accesses for make_list.py, and which refusal each of them meets.

The oracle says `panic` and not why, so `Rules` decides the number of the refusal by the rules of docs/ADDRESSES.md and docs/REFUSALS.md, written
here once more and on their own. make_list.py fails where these rules refuse and the oracle does not, or the other way round.
"""
import itertools

OPERAND, FRAME, TEMPORARY, FAR, FORM, ODD, CONSTANT = 6, 7, 8, 10, 11, 13, 14
LIMIT = 1 << 31
SAVE_AREA = 160


def is_gpr(reg):
    return reg[0] == "i" and int(reg[1:]) < 16


def is_fpr(reg):
    return reg[0] == "f" and int(reg[1:]) < 16


def is_vr(reg):
    return reg[0] == "f" and int(reg[1:]) < 32


def is_either(reg):
    return is_gpr(reg) or is_fpr(reg)


class Rules:
    """Which refusal a line meets, 0 for none. Keeps the frame of the last `state`."""

    def __init__(self):
        self.frame = [0] * 7

    def offset(self, kind, rest):
        """The register of an offset, the sizes that are added to it, and the whole sum."""
        nominal, outgoing, incoming, clobber, fixed, slots, arguments = self.frame
        initial = clobber + fixed + arguments + nominal
        if kind == "reg":
            return rest[0], 0, int(rest[1])
        sizes = {
            "isp": initial, "inarg": incoming + SAVE_AREA + initial, "slot": arguments + nominal, "spill": slots + arguments + nominal,
            "outarg": SAVE_AREA,
        }[kind]
        return "i15", sizes, int(rest[0]) + sizes - (outgoing if kind == "outarg" else 0)

    def address(self, address, displacement, relative, unaligned, data_fits):
        kind, rest = address[0], address[1:]
        registers = {"bxd12": rest[:2], "bxd20": rest[:2], "reg": rest[:1]}.get(kind, [])
        stays = kind in ("label", "const") and relative or kind == "sym" and relative and (unaligned or rest[2][0] == "a")
        if not all(map(is_gpr, registers)) or not data_fits(stays):
            return OPERAND
        if kind in ("reg", "isp", "inarg", "outarg", "slot", "spill"):
            base, sizes, total = self.offset(kind, rest)
            if sizes >= 1 << 32 or not -(1 << 63) <= total < 1 << 63:
                return FRAME
            if not -(1 << 19) <= total < 1 << 19:
                if base == "i1":
                    return TEMPORARY
                if not -LIMIT <= total < LIMIT:
                    return FAR
        if not stays and not displacement:
            return FORM
        return 0

    def access(self, name, words):
        """The words behind the access, its permissions, and whether its registers fit."""
        if name == "mem_emit":
            rd, rx, rxy, ril, trap = words[:5]
            return words[5:], (rx, rxy) != ("-", "-"), ril != "-", trap == "0", lambda stays: is_gpr(rd) if stays else is_either(rd)
        if name == "mem_rs_emit":
            rd, rn, rs, rsy, _ = words[:5]
            return words[5:], (rs, rsy) != ("-", "-"), False, False, lambda _: is_either(rd) and is_either(rn)
        if name == "mem_vrx_emit":
            return words[4:], True, False, False, lambda _: is_vr(words[0]) and int(words[2]) < 16
        return words[4 if name == "mem_imm8_emit" else 3:], True, False, False, lambda _: True

    def refusal(self, line):
        name, *words = line.split()
        if name == "state":
            self.frame = [int(word) for word in words]
        if name == "mem_finalize":
            d12, d20, relative, unaligned = (word != "0" for word in words[:4])
            return self.address(words[5:], d12 or d20, relative, unaligned, lambda _: True)
        if not name.endswith("_emit"):
            return 0
        address, *rules = self.access(name, words)
        refused = self.address(address, *rules)
        if not refused and address[0] == "sym" and int(address[2]) % 2 != 0:
            return ODD
        if not refused and address[0] == "const":
            return CONSTANT
        return refused

    def differs(self, line, refusal):
        """Where the library is known to answer otherwise than the Rust, which does not look at these, or fails to add 2 in 32 bits."""
        name, *words = line.split()
        if name == "mem_finalize":
            return refusal == OPERAND
        if not name.endswith("_emit"):
            return False
        if name == "mem_vrx_emit" and int(words[2]) > 15:
            return True
        address = self.access(name, words)[0]
        if address[0] == "sym" and int(address[2]) == LIMIT - 1:
            return False
        return refusal in (ODD, CONSTANT) or address[0] == "sym" and int(address[2]) == LIMIT - 2


def around(*limits):
    return sorted({n + d for n in limits for d in (-1, 0, 1)})


OFFSETS = around(0, 4096, 1 << 15, -(1 << 15), 1 << 19, -(1 << 19), LIMIT, -LIMIT)
OFFSETS += [-(1 << 63), -(1 << 63) + 1, -(1 << 63) + 160, (1 << 63) - 161, (1 << 63) - 160, (1 << 63) - 2, (1 << 63) - 1]
FRAME_KINDS = ["isp", "inarg", "outarg", "slot", "spill"]
FLAGS = ["a0", "u0", "a7", "u255"]
NO_FRAME = "state 0 0 0 0 0 0 0"
SOME_FRAME = "state 16 320 512 160 64 1024 176"
TOP = (1 << 32) - 1
# NOMINAL OUTGOING INCOMING CLOBBER FIXED STACKSLOTS OUTARGS: sums of sizes at 2^32 - 1 and at 2^32, by one part and by several
LIMITS = [
    [TOP, 0, 0, 0, 0, 0, 0], [0, TOP, 0, 0, 0, 0, 0], [0, 0, TOP - 160, 0, 0, 0, 0], [0, 0, TOP - 159, 0, 0, 0, 0], [0, 0, TOP, 0, 0, 0, 0],
    [0, 0, 0, TOP, 0, 0, 0], [0, 0, 0, 0, TOP, 0, 0], [0, 0, 0, 0, 0, TOP, 0], [0, 0, 0, 0, 0, 0, TOP], [1, 0, 0, 0, 0, 0, TOP],
    [TOP, 0, 0, 1, 0, 0, 0], [TOP - 1, 0, 0, 0, 0, 1, 0], [TOP - 1, 0, 0, 0, 0, 1, 1], [LIMIT, 0, 0, LIMIT - 1, 0, 0, 0],
    [LIMIT, 0, 0, LIMIT, 0, 0, 0], [1 << 30, 0, (1 << 30) - 161, 1 << 30, 1 << 29, 1 << 30, 1 << 29], [TOP] * 7, [0, 160, 0, 0, 0, 0, 0], [0, 161, 0, 0, 0, 0, 0],
    [0, 4096, 0, 0, 0, 0, 0], [4095, 0, 0, 0, 0, 0, 0], [4096, 0, 0, 0, 0, 0, 0], [0, 0, 3935, 0, 0, 0, 0], [0, 0, 3936, 0, 0, 0, 0],
    [0, 0, 0, 1 << 18, 0, 1 << 18, 1 << 18], [0, 0, 0, LIMIT - 1, 0, LIMIT - 1, 0], [0, 0, 0, LIMIT, 0, LIMIT, 0],
]
# one of each kind and more where a permission or a limit decides
ADDRESSES = [
    "bxd12 i0 i0 0 a0", "bxd12 i1 i0 1 u9", "bxd12 i2 i15 4095 a7", "bxd12 i15 i1 2048 u0", "bxd20 i0 i0 0 a0", "bxd20 i2 i0 -1 u3",
    "bxd20 i15 i2 -524288 a7", "bxd20 i1 i1 524287 a0", "bxd20 i2 i0 4096 a9", "label 0", "label 4294967295", "sym 3 0 a0", "sym 3 2 u0",
    "sym 4294967295 -2147483648 a8", "sym 5 2147483644 u8", "sym 9 -2 u0", "reg i0 0 a0", "reg i1 4095 u5", "reg i2 4096 a0", "reg i15 -1 a6",
    "reg i1 524287 a0", "reg i2 -524288 u0", "reg i2 524288 a6", "reg i15 -524289 u6", "reg i0 2147483647 a0", "reg i2 -2147483648 a0",
    "reg i1 524288 a0", "reg i1 2147483648 a0", "reg i2 2147483648 a0", "isp 0", "inarg 8", "outarg -8", "slot 4096", "spill 524288",
]
# registers of a wrong class: mem_finalize of the oracle does not look, its encoders do
WRONG = [
    "bxd12 f2 i0 0 a0", "bxd12 i2 f3 0 a0", "bxd12 i2 f0 4095 a0", "bxd20 f15 i1 -1 a0", "bxd20 i2 f16 4096 a0", "bxd20 i0 f0 0 u4",
    "reg f1 0 a0", "reg f2 524288 a0", "reg f1 524288 a0", "reg f16 2147483648 a0", "reg f31 4096 u0",
]


def finalizing():
    yield NO_FRAME
    every = ADDRESSES + ["const 0", "const 4294967295", "sym 3 1 u0", "sym 3 2147483646 a0", "sym 3 2147483647 u7"]
    for permitted in itertools.product("01", repeat=5):
        for address in every:
            yield " ".join(["mem_finalize", *permitted, address])
    for permitted in ("1 1 1 1 1", "1 0 0 0 1", "0 1 0 0 0"):
        for reg, off in itertools.product(("i0", "i1", "i2", "i15"), OFFSETS):
            yield f"mem_finalize {permitted} reg {reg} {off} {FLAGS[off % 4]}"
    yield SOME_FRAME
    for permitted in ("1 1 0 0 1", "1 0 0 0 0", "0 1 0 0 1"):
        for kind, off in itertools.product(FRAME_KINDS, OFFSETS):
            yield f"mem_finalize {permitted} {kind} {off}"
    for base, index, flags in itertools.product(("i0", "i1", "i2", "i15"), ("i0", "i1", "i2", "i15"), FLAGS):
        yield f"mem_finalize 1 0 0 0 0 bxd12 {base} {index} 4095 {flags}"
        yield f"mem_finalize 0 1 0 0 1 bxd12 {base} {index} 0 {flags}"
        yield f"mem_finalize 1 1 1 0 0 bxd20 {base} {index} -524288 {flags}"


def limits():
    offsets = [0, -1, -TOP, 4095 - TOP, 4096 - TOP, (1 << 19) - TOP, LIMIT - TOP, -(1 << 63), (1 << 63) - 1, (1 << 63) - 1 - TOP, (1 << 63) - TOP]
    for frame in LIMITS:
        yield "state " + " ".join(map(str, frame))
        for kind in FRAME_KINDS:
            for off in offsets:
                yield f"mem_finalize 1 1 0 0 1 {kind} {off}"
            yield f"mem_emit i4 0x58 0xe358 0xc4d 1 {kind} {8 - TOP}"
            yield f"mem_imm16_emit -2 0xe54c 0 {kind} 0"


def accessing():
    yield SOME_FRAME
    opcodes = [" ".join(given) for given in itertools.product(("0x58", "-"), ("0xe358", "-"), ("0xc4d", "-"))]
    for given, trap, address in itertools.product(opcodes, "01", ADDRESSES):
        yield f"mem_emit i3 {given} {trap} {address}"
    for given, trap, address in itertools.product(("0xeb 0xeb04", "0xeb -", "- 0xeb04", "- -"), "01", ADDRESSES):
        yield f"mem_rs_emit i6 i12 {given} {trap} {address}"
    for trap, address in itertools.product("01", ADDRESSES + WRONG):
        yield f"mem_imm8_emit 0x5a 0x92 0xeb52 {trap} {address}"
        yield f"mem_imm16_emit -300 0xe548 {trap} {address}"
        yield f"mem_vrx_emit f21 0xe706 6 {trap} {address}"
    for address in WRONG:
        yield f"mem_emit i3 0x58 0xe358 0xc4d 0 {address}"
        yield f"mem_emit f3 0x78 - - 1 {address}"
        yield f"mem_rs_emit i6 i12 0xeb 0xeb04 0 {address}"


def data():
    """The access's own registers, immediates, masks and opcodes."""
    some = ["bxd12 i2 i0 5 a0", "bxd20 i2 i3 -5 u0", "label 7", "sym 8 16 a0", "sym 8 16 u4", "reg i2 524288 a0", "reg i1 -524289 a0", "spill 0"]
    regs = ["i0", "i1", "i2", "i15", "f0", "f1", "f15", "f16", "f31"]
    for rd, trap, address in itertools.product(regs, "01", some):
        yield f"mem_emit {rd} 0x50 0xe350 0xc4f {trap} {address}"
        yield f"mem_emit {rd} 0x70 0xed66 - {trap} {address}"
        yield f"mem_vrx_emit {rd} 0xe70e 0 {trap} {address}"
    for rd, rn, address in itertools.product(regs, regs, some[:2] + some[5:7]):
        yield f"mem_rs_emit {rd} {rn} 0x98 0xeb98 1 {address}"
    for imm, address in itertools.product((0, 1, 127, 128, 255), some):
        yield f"mem_imm8_emit {imm} 0x94 0xeb54 1 {address}"
    for imm, address in itertools.product((-32768, -1, 0, 1, 256, 32767), some):
        yield f"mem_imm16_emit {imm} 0xe544 1 {address}"
    for m3, address in itertools.product((0, 1, 8, 15), some):
        yield f"mem_vrx_emit f9 0xe705 {m3} 1 {address}"
    for opcode, address in itertools.product(("0", "1", "0xffff", "0x1234", "0xfedc"), some):
        yield f"mem_emit i5 {opcode} {opcode} {opcode} 0 {address}"
        yield f"mem_rs_emit i5 i6 {opcode} {opcode} 0 {address}"
        yield f"mem_imm8_emit 0xa5 {opcode} {opcode} 0 {address}"
        yield f"mem_imm16_emit 0x1234 {opcode} 0 {address}"
        yield f"mem_vrx_emit f30 {opcode} 9 0 {address}"


def making():
    for reg, flags in itertools.product(("i0", "i1", "i2", "i15", "f0", "f31"), FLAGS):
        yield f"memarg_reg {reg} {flags}"
        yield f"memarg_reg_plus_reg {reg} i7 {flags}"
        yield f"memarg_reg_plus_reg i9 {reg} {flags}"
        yield f"memarg_reg_plus_off {reg} -5 {flags}"
    for off in OFFSETS:
        yield f"memarg_reg_plus_off i4 {off} u1"
    for address in ADDRESSES + WRONG + ["const 7"]:
        yield f"memarg_get_flags {address}"


def drawn_address(rng):
    kind = rng.choice(["bxd12", "bxd20", "label", "sym", "reg", "reg", "reg"] + FRAME_KINDS)
    reg = lambda: f"i{rng.randint(0, 15)}"
    flags = rng.choice("au") + str(rng.choice([0, 0, rng.randint(1, 255)]))
    off = rng.choice([rng.randint(-5000, 9000), rng.randint(-600000, 600000), rng.randint(-LIMIT - 5000, LIMIT + 5000)])
    return {
        "bxd12": f"bxd12 {reg()} {reg()} {rng.randint(0, 4095)} {flags}", "bxd20": f"bxd20 {reg()} {reg()} {rng.randint(-524288, 524287)} {flags}",
        "label": f"label {rng.randint(0, TOP)}", "sym": f"sym {rng.randint(0, TOP)} {2 * rng.randint(-LIMIT // 2, LIMIT // 2 - 3)} {flags}",
        "reg": f"reg {reg()} {off} {flags}",
    }.get(kind, f"{kind} {off}")


def together(rng):
    """Everything at random."""
    maybe = lambda opcode: opcode if rng.random() < 0.7 else "-"
    either = lambda: rng.choice("iiif") + str(rng.randint(0, 15))
    for turn in range(700):
        if turn % 10 == 0:
            yield "state " + " ".join(str(rng.getrandbits(rng.choice([5, 12, 18, 29, 31]))) for _ in range(7))
        trap, address = rng.choice("01"), drawn_address(rng)
        yield rng.choice([
            f"mem_finalize {' '.join(rng.choice('01') for _ in range(5))} {address}",
            f"mem_emit {either()} {maybe('0x5a')} {maybe('0xe35a')} {maybe('0xc4b')} {trap} {address}",
            f"mem_rs_emit {either()} {either()} {maybe('0x90')} {maybe('0xeb90')} {trap} {address}",
            f"mem_imm8_emit {rng.randint(0, 255)} 0x97 0xeb57 {trap} {address}",
            f"mem_imm16_emit {rng.randint(-32768, 32767)} 0xe55c {trap} {address}",
            f"mem_vrx_emit f{rng.randint(0, 31)} 0xe70e {rng.randint(0, 15)} {trap} {address}",
        ])


def lines(rng):
    """Lines whose answer the oracle knows, and for each which refusal it meets, 0 for none. They begin with a `state`."""
    rules = Rules()
    kept = []
    for line in itertools.chain(finalizing(), limits(), accessing(), data(), making(), together(rng)):
        refusal = rules.refusal(line)
        if not rules.differs(line, refusal):
            kept.append((line, refusal))
    return kept


BAD = [
    "state 0 0 0 0 0 0", "state 0 0 0 0 0 0 4294967296", "mem_finalize 1 1 1 1 bxd12 i1 i2 0 a0", "mem_finalize 1 1 1 1 256 label 1",
    "mem_finalize 1 1 1 1 1 lable 1", "mem_finalize 1 1 1 1 1 label -1", "mem_finalize 1 1 1 1 1 bxd12 i1 i2 0 b0",
    "mem_finalize 1 1 1 1 1 bxd12 i1 i2 0 a256", "mem_finalize 1 1 1 1 1 reg i1 9223372036854775808 a0", "mem_emit i1 - - - 0",
    "mem_emit i1 65536 - - 0 label 0", "mem_emit - 1 1 1 0 label 0", "mem_emit i1 + 1 1 0 label 0", "mem_rs_emit i1 0x98 0xeb98 0 label 0",
    "mem_imm8_emit 1 - - 0 label 0", "mem_imm16_emit 32768 1 0 label 0", "mem_vrx_emit f1 1 256 0 label 0", "memarg_reg i1 0",
    "memarg_reg_plus_off i1 a0", "memarg_get_flags label", "memarg_get_flags label 1 2", "memarg_get_flags sym 1 2147483648 a0",
]


def ours():
    """Where the library is known to answer otherwise, and registers that do not exist."""
    rules = Rules()
    asked = [NO_FRAME]
    asked += [f"mem_finalize 1 1 1 1 1 {address}" for address in WRONG + ["bxd12 i16 i0 0 a0", "bxd12 i0 i255 0 a0", "bxd20 f32 i0 0 a0", "reg i17 0 a0"]]
    asked += [f"mem_finalize 0 0 0 0 0 {address}" for address in WRONG]
    for constant in ("const 0", "const 4294967295"):
        asked += [f"mem_emit i1 0x58 0xe358 0xc4d 0 {constant}", f"mem_emit f1 0x58 - - 1 {constant}", f"mem_rs_emit i1 i2 0x98 0xeb98 0 {constant}"]
        asked += [f"mem_imm8_emit 1 0x92 0xeb52 0 {constant}", f"mem_imm16_emit 1 0xe548 0 {constant}", f"mem_vrx_emit f1 0xe706 0 0 {constant}"]
        asked += [f"mem_emit i1 - - - 0 {constant}", f"mem_emit f16 0x58 0xe358 0xc4d 0 {constant}"]
    for offset in (-LIMIT + 1, -1, 1, LIMIT - 1):
        asked += [f"mem_emit i1 0x58 0xe358 0xc4d 0 sym 1 {offset} a0", f"mem_imm16_emit 1 0xe548 0 sym 1 {offset} u0", f"mem_emit i1 - - - 0 sym 1 {offset} u0"]
    for m3 in (16, 31, 255):
        asked += [f"mem_vrx_emit f1 0xe706 {m3} 0 bxd12 i1 i2 0 a0", f"mem_vrx_emit f1 0xe706 {m3} 0 reg i1 524288 a0"]
    for address in ("bxd12 i16 i0 0 a0", "bxd20 i0 i255 0 a0", "reg i16 0 a0", "bxd12 f32 i0 0 a0"):
        asked += [f"mem_emit i1 0x58 0xe358 0xc4d 0 {address}", f"mem_imm16_emit 1 0xe548 0 {address}"]
    asked += ["mem_emit i16 0x58 0xe358 0xc4d 0 label 0", "mem_rs_emit i1 f16 0x98 0xeb98 0 slot 0", "mem_vrx_emit f32 0xe706 0 0 slot 0"]
    answers = []
    for line in asked:
        refusal = rules.refusal(line)
        assert refusal or line == NO_FRAME, line
        answers.append((line, f"refused {refusal}" if refusal else "ok"))
    answers += [
        (f"mem_emit i3 0x58 0xe358 0xc4d 0 sym 7 {LIMIT - 2} a0", f"c43d00000000 reloc=2:7:{LIMIT}"),
        (f"mem_imm16_emit -1 0xe548 1 sym 7 {LIMIT - 2} u5", f"c01000000000 e5481000ffff reloc=2:7:{LIMIT}"),
        ("mem_finalize 1 1 1 1 1 bxd12 i1 i2 4096 a0", "error outside UImm12"), ("mem_finalize 1 1 1 1 1 bxd20 i1 i2 524288 a0", "error outside SImm20"),
        ("mem_finalise 1 1 1 1 1 label 0", "error unknown command mem_finalise"), ("memarg_of i1 a0", "error unknown command memarg_of"),
    ]
    return answers
