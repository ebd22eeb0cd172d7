"""The machine: RAM, private lines, trees of versions, guests, the operations of a kernel, null code."""
import hashlib
import struct

from modelled.sealing import MASK, image_message, mac, sealed, word32, word64
from modelled.instructions import (
    C_FORMS, Effect, Fault, GUEST_ONLY, KERNEL_ONLY, LOADS, STORES, decode, loaded, step_text, stored)
from modelled.plain import Done, WINDOW, check_guest, check_window, reaches_private

LINES, PAGES = 32768, 256
AREA = 411904
# Of each level: how many blocks, bytes of a block, and its place in the area.
LEVELS = [(4096, 64, 0), (512, 256, 262144), (64, 256, 393216), (8, 256, 409600), (1, 256, 411648)]


class Torn(Exception):
    pass


class Stopped(Exception):
    """The access or the operation stopped the slot that it was made for."""


class PageFault(Exception):
    pass


class Session:
    def __init__(self):
        self.state, self.install, self.id, self.key = "Free", 0, bytes(16), bytes(32)
        self.entry = self.lines = self.epoch = self.handler = 0
        self.pair, self.kept, self.mask = (0, 0), None, set()


class Tree:
    """Versions in RAM, with the root here."""
    def __init__(self, machine):
        self.machine, self.area, self.root = machine, 0, bytes(32)

    def hashed(self, level, block):
        text = bytes([level]) + block
        digest = hashlib.sha256(text).digest()
        self.machine.journal.append(f"hash {text.hex()} {digest.hex()}")
        return digest

    def build(self, area, lines):
        self.area = area
        parts = [word64(int(line < lines)) for line in range(LINES)]
        for level, (count, size, at) in enumerate(LEVELS):
            blocks = [b"".join(parts[8 * i:8 * i + 8]) for i in range(count)]
            self.machine.store(area + at, b"".join(blocks))
            parts = [self.hashed(level, block) for block in blocks]
        self.root = parts[0]

    def path(self, line):
        """The blocks of a line's path from level 0 up, checked from the top down."""
        wanted, blocks = self.root, []
        for level in (4, 3, 2, 1, 0):
            _, size, at = LEVELS[level]
            place = self.area + at + size * (line // 8 ** (level + 1))
            block = bytes(self.machine.ram[place:place + size])
            if self.hashed(level, block) != wanted:
                raise Torn(level)
            part = line // 8 ** level % 8
            wanted = block[32 * part:32 * part + 32]
            blocks.insert(0, (place, block))
        return blocks

    def version(self, line):
        part = line % 8 * 8
        return int.from_bytes(self.path(line)[0][1][part:part + 8], "big")

    def raised(self, line):
        blocks = self.path(line)
        part = line % 8 * 8
        version = (int.from_bytes(blocks[0][1][part:part + 8], "big") + 1) % 2 ** 64
        new, renewed = word64(version), []
        for level, (place, block) in enumerate(blocks):
            part = line // 8 ** level % 8 * len(new)
            block = block[:part] + new + block[part + len(new):]
            renewed.append((place, block))
            new = self.hashed(level, block)
        for place, block in renewed:
            self.machine.store(place, block)
        self.root = new
        return version


class Chip:
    """Versions on chip: no area is touched, and no line of the journal tells of them."""
    def __init__(self, machine):
        self.versions = []

    def build(self, area, lines):
        self.versions = [int(line < lines) for line in range(LINES)]

    def version(self, line):
        return self.versions[line]

    def raised(self, line):
        self.versions[line] += 1
        return self.versions[line]


RULES = {"LineTag": 1, "TreeNode": 2, "RegisterTag": 3, "RegisterMissing": 4}
FAULTS = {"Reserved": 1, "Foreign": 2, "Overflow": 3, "Address": 4, "Break": 5}
CAUSES = {"interrupt": 1, "call": 2, "page": 3, "fault": 4, "exit": 5, "stopped": 6}


class Machine:
    def __init__(self, frames, key, boot, store):
        self.size = 8192 * frames
        self.ram, self.key, self.boot = bytearray(self.size), key, boot
        self.values, self.tags = [0] * 34, [0] * 34
        self.slots = [Session() for _ in range(17)]
        self.stores = [store(self) for _ in range(17)]
        self.pages, self.ways, self.turns = {}, [[None] * 4 for _ in range(32)], [0] * 32
        self.journal, self.installs = [], 0
        self.status, self.cause, self.argument, self.who = 0, 0, 0, 0
        self.null_pair, self.ended = (0, 4), None

    # RAM

    def fits(self, address, count):
        return address + count <= self.size

    def store(self, address, data):
        self.ram[address:address + len(data)] = data

    def byte(self, address):
        return self.ram[address] if address < self.size else 0

    def write(self, address, data):
        """A kernel's write."""
        self.status = 0 if self.fits(address, len(data)) else 4
        if self.status == 0:
            self.store(address, data)

    # private lines

    def line_name(self, session, line, version, text):
        """The key and the message of a line."""
        if line < session.lines and version == 1:
            return session.key, image_message(session.id, line, text)
        run = word64(self.boot) + word64(session.install)
        return mac(session.key, b"\x10" + run), b"\x02" + run + word32(line) + word64(version) + text

    def line_cipher(self, session, line, version, text):
        if line < session.lines and version == 1:
            return sealed(mac(session.key, b"\x14" + session.id)[:16], 1, line, version, text)
        run = word64(self.boot) + word64(session.install)
        return sealed(mac(session.key, b"\x11" + run)[:16], 2, line, version, text)

    def line_place(self, slot, line):
        return self.pages[slot, line // 128] * 8192 + line % 128 * 32

    def access(self, slot, line):
        """The way that holds a line of the running slot."""
        if (slot, line // 128) not in self.pages:
            raise PageFault(line // 128)
        ways = self.ways[line % 32]
        for way in ways:
            if way and way[:2] == [slot, line]:
                return way
        data = self.opened(slot, line)
        if None in ways:
            turn, victim = ways.index(None), None
        else:
            turn = self.turns[line % 32]
            victim, self.turns[line % 32] = ways[turn], (turn + 1) % 4
        ways[turn] = way = [slot, line, False, data]
        if victim and victim[2]:
            try:
                self.write_back(victim)
            except Torn as torn:
                self.stop(victim[0], f"TreeNode {torn.args[0]}")
                if victim[0] == slot:
                    raise Stopped() from None
        return way

    def opened(self, slot, line):
        session = self.slots[slot]
        try:
            version = self.stores[slot].version(line)
        except Torn as torn:
            self.stop(slot, f"TreeNode {torn.args[0]}")
            raise Stopped() from None
        if version == 0:
            return bytearray(32)
        place = self.line_place(slot, line)
        text, tag = bytes(self.ram[place:place + 32]), bytes(self.ram[place + 4096:place + 4128])
        key, message = self.line_name(session, line, version, text)
        if mac(key, message) != tag:
            self.stop(slot, f"LineTag {line}")
            raise Stopped()
        self.journal.append(f"accept {key.hex()} {message.hex()} {place}")
        return bytearray(self.line_cipher(session, line, version, text))

    def write_back(self, way):
        slot, line, _, data = way
        session = self.slots[slot]
        version = self.stores[slot].raised(line)
        text = self.line_cipher(session, line, version, data)
        key, message = self.line_name(session, line, version, text)
        self.journal.append(f"seal {key.hex()} {message.hex()}")
        place = self.line_place(slot, line)
        self.store(place, text)
        self.store(place + 4096, mac(key, message))

    def drop(self, slot, page=None):
        """Drops the cached lines of a slot, of one page or of all."""
        for ways in self.ways:
            for turn, way in enumerate(ways):
                if way and way[0] == slot and page in (None, way[1] // 128):
                    ways[turn] = None

    def leave_for_good(self, slot):
        self.drop(slot)
        for cell in range(1, 34):
            if self.tags[cell] == slot:
                self.values[cell] = self.tags[cell] = 0
        self.pages = {place: frame for place, frame in self.pages.items() if place[0] != slot}

    def stop(self, slot, rule):
        self.journal.append(f"stop {self.slots[slot].install} {rule}")
        self.slots[slot].state = f"stopped {rule}"
        self.leave_for_good(slot)

    # a guest's event

    def running(self):
        return next((slot for slot in range(1, 17) if self.slots[slot].state == "Running"), 0)

    def left(self, slot, cause, argument=0):
        self.cause, self.argument, self.who = CAUSES[cause], argument, slot

    def trap(self, slot, cause, argument, text):
        session = self.slots[slot]
        session.state = "Paused"
        self.journal.append(f"trap {session.install} {text}")
        session.epoch += 1
        self.left(slot, cause, argument)

    def guest_event(self, slot, interrupt):
        try:
            it = self.retire(slot)
        except Stopped:
            return self.left(slot, "stopped", RULES[self.slots[slot].state.split()[1]])
        except PageFault as fault:
            return self.trap(slot, "page", fault.args[0], f"page {fault.args[0]}")
        except Fault as fault:
            return self.trap(slot, "fault", FAULTS[fault.args[0]], f"fault {fault.args[0]}")
        if it.name == "syscall":
            self.trap(slot, "call", it.code, f"call {it.code}")
        elif it.name == "xexit":
            self.slots[slot].state = "Ended"
            self.leave_for_good(slot)
            self.left(slot, "exit")
        elif interrupt:
            self.trap(slot, "interrupt", 0, "interrupt")

    def retire(self, slot):
        session = self.slots[slot]
        pc, npc = session.pair
        if pc % 4 or pc >= WINDOW:
            raise Fault("Address")
        data = self.access(slot, pc // 32)[3]
        it = decode(int.from_bytes(data[pc % 32:pc % 32 + 4], "big"))
        own = {cell: self.values[cell] for cell in session.mask}
        check_guest(it, own, session.kept)
        effect = Effect(it, lambda cell: own.get(cell, 0), pc, npc)
        check_window(it, effect)
        way, data = None, b""
        if reaches_private(it, effect):
            way = self.access(slot, effect.address // 32)
            data = bytes(way[3][effect.address % 32:effect.address % 32 + effect.count])
        elif it.name == "xlwn":
            data = bytes(self.byte(effect.address + i) for i in range(4))
        lent = self.values[it.s] if it.name == "xmvfn" and self.tags[it.s] == 0 else 0
        done = Done(it, effect, own, data, lent, session.kept)
        self.carry_out(slot, it, effect, done, way)
        text = step_text(pc, npc, done.writes, done.store, done.received, done.released, done.end)
        self.journal.append(f"step {session.install} {text}")
        return it

    def carry_out(self, slot, it, effect, done, way):
        session = self.slots[slot]
        if done.store:
            at = done.store[0] % 32
            way[3][at:at + len(done.store[1])] = done.store[1]
            way[2] = True
        if it.name == "xswn" and self.fits(effect.address, 4):
            self.store(effect.address, word32(self.values[it.t] if it.t else 0))
        for cell, number in done.writes.items():
            self.values[cell], self.tags[cell] = number, slot
            session.mask.add(cell)
        if it.name == "xmvtn":
            self.tags[it.s] = 0
            session.mask.discard(it.s)
        session.pair, session.kept = done.pair, done.kept
        if done.handler is not None:
            session.handler = done.handler

    # a kernel's operations

    def operate(self, name, *numbers):
        try:
            self.status = getattr(self, f"do_{name}")(*numbers) or 0
        except Stopped:
            self.status = 8

    def slot_state(self, slot, *states):
        """Why a slot isn't in one of these states, 0 where it is."""
        if not 1 <= slot <= 16 or self.slots[slot].state == "Free":
            return 1
        return 0 if not states or self.slots[slot].state in states else 2

    def do_install(self, slot, address, area):
        if not 1 <= slot <= 16:
            return 1
        if self.slots[slot].state != "Free":
            return 2
        if not self.fits(address, 88) or not self.fits(area, AREA):
            return 4
        envelope = bytes(self.ram[address:address + 88])
        message = b"\x04" + envelope[:56]
        if mac(self.key, message) != envelope[56:]:
            return 3
        session = Session()
        session.id, wrapped = envelope[:16], envelope[24:56]
        session.entry, session.lines = struct.unpack(">II", envelope[16:24])
        if session.lines > LINES or session.entry % 4 or session.entry >= WINDOW:
            return 7
        session.key = sealed(mac(self.key, b"\x13" + session.id)[:16], 4, 0, 0, wrapped)
        self.installs += 1
        session.install, session.state = self.installs, "Fresh"
        self.slots[slot] = session
        self.journal.append(f"accept {self.key.hex()} {message.hex()} {address}")
        self.journal.append(f"install {session.install} {slot} {session.id.hex()} {address} {session.entry} {session.lines}")
        self.stores[slot].build(area, session.lines)

    def do_enter(self, slot):
        status = self.slot_state(slot, "Fresh")
        if status == 0:
            session = self.slots[slot]
            session.state, session.pair = "Running", (session.entry, session.entry + 4)
        return status

    def do_resume(self, slot, number):
        status = self.slot_state(slot, "Paused")
        if status:
            return status
        session = self.slots[slot]
        if number > 63:
            return 7
        if number and (session.handler == 0 or session.kept):
            return 2
        missing = sorted(cell for cell in session.mask if self.tags[cell] != slot)
        if missing:
            self.stop(slot, f"RegisterMissing {missing[0]}")
            return 8
        if number:
            text = step_text(*session.pair, {26: number}, None, f"signal={number}", None, "goes")
            self.journal.append(f"step {session.install} {text}")
            session.kept, session.pair = session.pair, (session.handler, session.handler + 4 & MASK)
            self.values[26], self.tags[26] = number, slot
            session.mask.add(26)
        session.state = "Running"

    def register_keys(self, session):
        run = word64(self.boot) + word64(session.install) + word64(session.epoch)
        keys = mac(session.key, b"\x12" + run)
        return keys[:16], keys[16:], b"\x03" + run

    def register_status(self, slot, cell, address):
        status = self.slot_state(slot, "Paused")
        if status == 0 and not 1 <= cell <= 33:
            status = 7
        return status or (0 if self.fits(address, 36) else 4)

    def do_save(self, slot, cell, address):
        status = self.register_status(slot, cell, address) or (6 if self.tags[cell] != slot else 0)
        if status:
            return status
        session = self.slots[slot]
        cipher, key, head = self.register_keys(session)
        text = sealed(cipher, 3, cell, session.epoch, word32(self.values[cell]))
        message = head + bytes([cell]) + text
        self.journal.append(f"seal {key.hex()} {message.hex()}")
        self.store(address, text + mac(key, message))

    def do_restore(self, slot, cell, address):
        status = self.register_status(slot, cell, address) or (6 if cell not in self.slots[slot].mask else 0)
        if status:
            return status
        session = self.slots[slot]
        cipher, key, head = self.register_keys(session)
        text, tag = bytes(self.ram[address:address + 4]), bytes(self.ram[address + 4:address + 36])
        message = head + bytes([cell]) + text
        if mac(key, message) != tag:
            self.stop(slot, f"RegisterTag {cell}")
            return 8
        self.journal.append(f"accept {key.hex()} {message.hex()} {address}")
        self.values[cell] = int.from_bytes(sealed(cipher, 3, cell, session.epoch, text), "big")
        self.tags[cell] = slot

    def do_map(self, slot, page, frame):
        status = self.slot_state(slot, "Fresh", "Paused")
        if status or page >= PAGES or not self.fits(8192 * frame, 8192) or (slot, page) in self.pages:
            return status or (7 if page >= PAGES else 4 if not self.fits(8192 * frame, 8192) else 5)
        self.pages[slot, page] = frame

    def do_unmap(self, slot, page):
        status = self.slot_state(slot, "Fresh", "Paused")
        if status or page >= PAGES or (slot, page) not in self.pages:
            return status or (7 if page >= PAGES else 5)
        dirty = [way for ways in self.ways for way in ways if way and way[0] == slot and way[1] // 128 == page and way[2]]
        for way in sorted(dirty, key=lambda way: way[1]):
            try:
                self.write_back(way)
            except Torn as torn:
                self.stop(slot, f"TreeNode {torn.args[0]}")
                return 8
        self.drop(slot, page)
        del self.pages[slot, page]

    def do_setreg(self, cell, number):
        if not 1 <= cell <= 33:
            return 7
        self.values[cell], self.tags[cell] = number, 0

    def do_kill(self, slot):
        status = self.slot_state(slot)
        if status == 0:
            self.journal.append(f"kill {self.slots[slot].install}")
            self.leave_for_good(slot)
            self.slots[slot] = Session()
        return status

    def do_out(self, byte):
        self.journal.append(f"out {byte & 255}")

    def do_halt(self):
        self.ended = "halted"

    # null code

    def null_event(self):
        pc, npc = self.null_pair
        try:
            self.null_instruction(pc, npc)
        except Fault as fault:
            self.ended = f"kernel fault at {pc:08x} {fault.args[0]}"

    def null_value(self, cell):
        return self.values[cell] if cell and self.tags[cell] == 0 else 0

    def null_instruction(self, pc, npc):
        if pc % 4 or not self.fits(pc, 4):
            raise Fault("Address")
        it = decode(int.from_bytes(self.ram[pc:pc + 4], "big"))
        if it is None or it.name in GUEST_ONLY:
            raise Fault("Reserved")
        effect = Effect(it, self.null_value, pc, npc)
        if it.name == "syscall":
            raise Fault("Call")
        if effect.address is not None and not self.fits(effect.address, effect.count):
            raise Fault("Address")
        told = {"xstat": self.status, "xcause": self.cause, "xarg": self.argument, "xwho": self.who}
        if it.name in told and it.d:
            effect.writes = {it.d: told[it.name]}
        elif it.name in LOADS and it.t:
            data = bytes(self.ram[effect.address:effect.address + effect.count])
            effect.writes = {it.t: loaded(it.name, data, self.null_value(it.t))}
        elif it.name in STORES:
            self.store(effect.address, stored(it.name, effect.count, self.null_value(it.t)))
        for cell, number in effect.writes.items():
            self.values[cell], self.tags[cell] = number, 0
        self.null_pair = effect.pair
        if it.name in KERNEL_ONLY and it.name not in told:
            fields = next(form for form in C_FORMS.values() if form.startswith(it.name + " ")).split(" ")[1]
            self.operate(it.name[1:], *(self.null_value(getattr(it, field)) for field in fields))
