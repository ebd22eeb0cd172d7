"""A program run alone, by which the steps of a run are judged, and a guest's instruction that retires."""
from modelled.sealing import MASK
from modelled.instructions import (
    Effect, Fault, KERNEL_ONLY, LOADS, STORES, decode, loaded, sources, step_text, stored)

WINDOW = 1 << 20


class Plain:
    """The machine of one program without tags, keys, lines and kernel, by which a run is judged."""
    def __init__(self, entry, data):
        self.own, self.pair = {}, (entry, entry + 4)
        self.memory = bytearray(data.ljust(WINDOW, b"\0"))
        self.handler, self.kept, self.over = 0, None, False

    def step(self, given):
        """The text of the next step with the given value, or None where it isn't what comes next."""
        if self.over:
            return None
        if given.startswith("signal="):
            return self.signal(int(given[7:]))
        try:
            return self.instruction(given)
        except Fault:
            return None

    def signal(self, number):
        if not 1 <= number <= 63 or self.handler == 0 or self.kept:
            return None
        text = step_text(*self.pair, {26: number}, None, f"signal={number}", None, "goes")
        self.kept, self.pair = self.pair, (self.handler, self.handler + 4 & MASK)
        self.own[26] = number
        return text

    def instruction(self, given):
        pc, npc = self.pair
        if pc % 4 or pc >= WINDOW:
            raise Fault("Address")
        it = decode(int.from_bytes(self.memory[pc:pc + 4], "big"))
        check_guest(it, self.own, self.kept)
        effect = Effect(it, lambda cell: self.own.get(cell, 0), pc, npc)
        check_window(it, effect)
        if (it.name in ("xmvfn", "xlwn")) != (given != "-"):
            return None
        data = bytes(self.memory[effect.address:effect.address + effect.count]) if reaches_private(it, effect) else b""
        if it.name == "xlwn":
            data = bytes.fromhex(given[-8:])
        done = Done(it, effect, self.own, data, int(given[-8:], 16) if it.name == "xmvfn" else 0, self.kept)
        if done.store:
            self.memory[done.store[0]:done.store[0] + len(done.store[1])] = done.store[1]
        self.own.update(done.writes)
        if it.name == "xmvtn":
            del self.own[it.s]
        self.pair, self.kept = done.pair, done.kept
        self.handler = done.handler if done.handler is not None else self.handler
        self.over = it.name == "xexit"
        return step_text(pc, npc, done.writes, done.store, done.received, done.released, done.end)


def check_guest(it, own, kept):
    """Whether the instruction may be a guest's, with these cells of its own."""
    if it is None or it.name in KERNEL_ONLY or it.name == "xsigret" and kept is None:
        raise Fault("Reserved")
    if any(cell not in own for cell in sources(it)) or it.name == "xmvfn" and it.s in own:
        raise Fault("Foreign")


def reaches_private(it, effect):
    return effect.address is not None and it.name not in ("xlwn", "xswn")


def check_window(it, effect):
    if reaches_private(it, effect) and effect.address >= WINDOW:
        raise Fault("Address")


class Done:
    """A guest's instruction that retires: the parts of its step, and what of its session changes."""
    def __init__(self, it, effect, own, data, cell_value, kept):
        self.writes, self.pair, self.kept, self.handler = dict(effect.writes), effect.pair, kept, None
        self.store = self.received = self.released = None
        self.end = {"syscall": f"call={it.code}", "xexit": "exit"}.get(it.name, "goes")
        number = own.get(it.t, 0)
        if it.name in LOADS:
            self.writes = {it.t: loaded(it.name, data, number)} if it.t else {}
        if it.name == "xlwn":
            self.received = f"null={effect.address:08x}:{data.hex()}"
        elif it.name == "xswn":
            self.released = f"null={effect.address:08x}:{number:08x}"
        elif it.name in STORES:
            self.store = (effect.address, stored(it.name, effect.count, number))
        elif it.name == "xmvfn":
            self.writes, self.received = {it.d: cell_value}, f"cell={cell_value:08x}"
        elif it.name == "xmvtn":
            self.released = f"r{it.s}={own[it.s]:08x}"
        elif it.name == "xhand":
            self.handler = own.get(it.s, 0)
        elif it.name == "xsigret":
            self.pair, self.kept = kept, None
