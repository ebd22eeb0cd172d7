"""The instruction set: words, and what each instruction does."""
from modelled.sealing import MASK, word32

R_FORMS = {0: "sll dta", 2: "srl dta", 3: "sra dta", 4: "sllv dts", 6: "srlv dts", 7: "srav dts", 8: "jr s",
           9: "jalr ds", 12: "syscall c", 13: "break c", 16: "mfhi d", 17: "mthi s", 18: "mflo d", 19: "mtlo s",
           24: "mult st", 25: "multu st", 26: "div st", 27: "divu st", 32: "add dst", 33: "addu dst", 34: "sub dst",
           35: "subu dst", 36: "and dst", 37: "or dst", 38: "xor dst", 39: "nor dst", 42: "slt dst", 43: "sltu dst"}
C_FORMS = {1: "xmvtn s", 2: "xmvfn ds", 3: "xexit ", 4: "xhand s", 5: "xsigret ", 16: "xinstall std", 17: "xenter s",
           18: "xresume st", 19: "xsave std", 20: "xrestore std", 21: "xmap std", 22: "xunmap st", 24: "xkill s",
           25: "xout s", 26: "xhalt ", 27: "xstat d", 28: "xcause d", 29: "xarg d", 30: "xwho d"}
B_FORMS = {0: "bltz", 1: "bgez", 16: "bltzal", 17: "bgezal"}
I_FORMS = {2: "j", 3: "jal", 4: "beq", 5: "bne", 6: "blez", 7: "bgtz", 8: "addi", 9: "addiu", 10: "slti", 11: "sltiu",
           12: "andi", 13: "ori", 14: "xori", 15: "lui", 32: "lb", 33: "lh", 34: "lwl", 35: "lw", 36: "lbu", 37: "lhu",
           38: "lwr", 40: "sb", 41: "sh", 42: "swl", 43: "sw", 46: "swr", 50: "xlwn", 58: "xswn"}
GUEST_ONLY = {"xmvtn", "xmvfn", "xexit", "xhand", "xsigret", "xlwn", "xswn"}
KERNEL_ONLY = {form.split()[0] for function, form in C_FORMS.items() if function >= 16}
LOADS = {"lb", "lh", "lwl", "lw", "lbu", "lhu", "lwr", "xlwn"}
STORES = {"sb", "sh", "swl", "sw", "swr", "xswn"}


class Instruction:
    def __init__(self, name, word):
        self.name = name
        self.s, self.t, self.d, self.a = word >> 21 & 31, word >> 16 & 31, word >> 11 & 31, word >> 6 & 31
        self.code, self.index = word >> 6 & 0xFFFFF, word & 0x3FFFFFF
        self.low = word & 0xFFFF
        self.signed = self.low - (self.low >> 15 << 16)


def decode(word):
    """The instruction of a word, or None where it is reserved."""
    op, function = word >> 26, word & 63
    if op in (0, 18):
        name, _, fields = (R_FORMS if op == 0 else C_FORMS).get(function, "").partition(" ")
        it = Instruction(name, word)
        spare = 0 if "c" in fields else sum(getattr(it, field) for field in "stda" if field not in fields)
        if not name or spare or name in ("xmvtn", "xmvfn") and (it.s == 0 or "d" in fields and it.d == 0):
            return None
        return it
    if op == 1:
        return Instruction(B_FORMS[word >> 16 & 31], word) if word >> 16 & 31 in B_FORMS else None
    if op not in I_FORMS:
        return None
    it = Instruction(I_FORMS[op], word)
    return None if it.name in ("blez", "bgtz") and it.t or it.name == "lui" and it.s else it


def sources(it):
    """The cells whose values an instruction reads; those that it receives aren't among them."""
    name = it.name
    if name in ("mfhi", "mflo"):
        cells = [32 if name == "mfhi" else 33]
    elif name in ("sll", "srl", "sra"):
        cells = [it.t]
    elif name in R_FORMS_TWO or name in ("beq", "bne", "lwl", "lwr") or name in STORES:
        cells = [it.s, it.t]
    elif name in ("j", "jal", "lui", "syscall", "break", "xmvfn", "xexit", "xsigret", "xhalt", "xstat", "xcause", "xarg", "xwho"):
        cells = []
    elif name in ("xinstall", "xsave", "xrestore", "xmap"):
        cells = [it.s, it.t, it.d]
    elif name in ("xresume", "xunmap"):
        cells = [it.s, it.t]
    else:
        cells = [it.s]
    return [cell for cell in cells if cell]


R_FORMS_TWO = {form.split()[0] for form in R_FORMS.values() if {"s", "t"} <= set(form.split()[1])}


class Fault(Exception):
    """A fault of the instruction's own: Reserved, Foreign, Overflow, Address, Break."""


def whole(value):
    return value - (value >> 31 << 32)


def exact(number):
    if not -2 ** 31 <= number < 2 ** 31:
        raise Fault("Overflow")
    return number & MASK


def quotient(name, a, b):
    if b == 0:
        return a & MASK, 0
    q = abs(a) // abs(b) * (1 if (a < 0) == (b < 0) else -1)
    return (a - q * b) & MASK, q & MASK


ARITHMETIC = {
    "sll": lambda it, s, t: t << it.a, "srl": lambda it, s, t: t >> it.a, "sra": lambda it, s, t: whole(t) >> it.a,
    "sllv": lambda it, s, t: t << (s & 31), "srlv": lambda it, s, t: t >> (s & 31),
    "srav": lambda it, s, t: whole(t) >> (s & 31),
    "add": lambda it, s, t: exact(whole(s) + whole(t)), "addu": lambda it, s, t: s + t,
    "sub": lambda it, s, t: exact(whole(s) - whole(t)), "subu": lambda it, s, t: s - t,
    "and": lambda it, s, t: s & t, "or": lambda it, s, t: s | t, "xor": lambda it, s, t: s ^ t,
    "nor": lambda it, s, t: ~(s | t), "slt": lambda it, s, t: int(whole(s) < whole(t)), "sltu": lambda it, s, t: int(s < t),
    "addi": lambda it, s, t: exact(whole(s) + it.signed), "addiu": lambda it, s, t: s + it.signed,
    "slti": lambda it, s, t: int(whole(s) < it.signed), "sltiu": lambda it, s, t: int(s < it.signed & MASK),
    "andi": lambda it, s, t: s & it.low, "ori": lambda it, s, t: s | it.low, "xori": lambda it, s, t: s ^ it.low,
    "lui": lambda it, s, t: it.low << 16}
PRODUCTS = {
    "mult": lambda s, t: divmod(whole(s) * whole(t) & 2 ** 64 - 1, 2 ** 32),
    "multu": lambda s, t: divmod(s * t, 2 ** 32),
    "div": lambda s, t: quotient("div", whole(s), whole(t)), "divu": lambda s, t: quotient("divu", s, t)}
BRANCHES = {
    "beq": lambda s, t: s == t, "bne": lambda s, t: s != t, "blez": lambda s, t: whole(s) <= 0,
    "bgtz": lambda s, t: whole(s) > 0, "bltz": lambda s, t: whole(s) < 0, "bgez": lambda s, t: whole(s) >= 0,
    "bltzal": lambda s, t: whole(s) < 0, "bgezal": lambda s, t: whole(s) >= 0}
SIZES = {"lb": 1, "lbu": 1, "sb": 1, "lh": 2, "lhu": 2, "sh": 2}


class Effect:
    """What an instruction does beside memory: cells written, where memory is met, and the next pair."""
    def __init__(self, it, value, pc, npc):
        self.writes, self.pair, self.address, self.count = {}, (npc, npc + 4 & MASK), None, 0
        name, s, t = it.name, value(it.s), value(it.t)
        rd = it.t if name in I_FORMS.values() else it.d
        if name in ARITHMETIC:
            self.writes = {rd: ARITHMETIC[name](it, s, t) & MASK}
        elif name in PRODUCTS:
            high, low = PRODUCTS[name](s, t)
            self.writes = {32: high, 33: low}
        elif name in BRANCHES:
            self.writes = {31: npc + 4 & MASK} if name.endswith("al") else {}
            if BRANCHES[name](s, t):
                self.pair = (npc, npc + 4 * it.signed & MASK)
        elif name in ("j", "jal"):
            self.writes = {31: npc + 4 & MASK} if name == "jal" else {}
            self.pair = (npc, npc & 0xF0000000 | it.index << 2)
        elif name in ("jr", "jalr"):
            self.writes = {it.d: npc + 4 & MASK} if name == "jalr" else {}
            self.pair = (npc, s)
        elif name in ("mfhi", "mflo"):
            self.writes = {it.d: value(32 if name == "mfhi" else 33)}
        elif name in ("mthi", "mtlo"):
            self.writes = {32 if name == "mthi" else 33: s}
        elif name == "break":
            raise Fault("Break")
        elif name in LOADS or name in STORES:
            self.meet(name, s + it.signed & MASK)
        self.writes = {cell: number for cell, number in self.writes.items() if cell}

    def meet(self, name, address):
        """Which bytes are loaded or stored."""
        offset = address & 3
        if name in ("lwl", "swl"):
            self.address, self.count = address, 4 - offset
        elif name in ("lwr", "swr"):
            self.address, self.count = address - offset, offset + 1
        else:
            self.address, self.count = address, SIZES.get(name, 4)
            if address % self.count:
                raise Fault("Address")


def loaded(name, data, old):
    """What a register becomes by the bytes that are loaded."""
    number = int.from_bytes(data, "big")
    if name in ("lb", "lh") and number >> 8 * len(data) - 1:
        return number - (1 << 8 * len(data)) & MASK
    if name == "lwl":
        keep = 8 * (4 - len(data))
        return number << keep | old & (1 << keep) - 1
    if name == "lwr":
        return old >> 8 * len(data) << 8 * len(data) | number
    return number


def stored(name, count, value):
    data = word32(value)
    return data[:count] if name == "swl" else data[4 - count:]


def step_text(pc, npc, writes, stored_at, received, released, end):
    if 32 in writes and 33 in writes:
        cells = f"hl={writes[32]:08x}:{writes[33]:08x}"
    else:
        cells = "".join(f"r{cell}={number:08x}" for cell, number in writes.items()) or "-"
    store = f"{stored_at[0]:08x}+{len(stored_at[1])}={stored_at[1].hex()}" if stored_at else "-"
    return f"{pc:08x} {npc:08x} {cells} {store} {received or '-'} {released or '-'} {end}"
