"""Runs of run files under scripts and kernel images, and the judgement of their journals."""
import re
import struct

from modelled.sealing import sealed_image
from modelled.plain import Plain, WINDOW
from modelled.machine import LINES, Machine


class NotModelled(Exception):
    """What the case asks for isn't part of the model."""


def number(word, below):
    if not re.fullmatch(r"[0-9]+|0x[0-9a-fA-F]{1,16}", word) or int(word, 0 if word.startswith("0x") else 10) >= below:
        raise NotModelled(f"number {word}")
    return int(word, 0 if word.startswith("0x") else 10)


def hex_word(word, counts):
    if not re.fullmatch(r"([0-9a-fA-F]{2})+", word) or len(word) // 2 not in counts:
        raise NotModelled(f"digits {word}")
    return bytes.fromhex(word)


def lines_of(text):
    for line in text.split(b"\n"):
        words = line.split(b"#")[0].decode("latin1").split()
        if words:
            yield words


def plain_image(file):
    if file[:8] != b"XOMP\0\0\0\x01" or len(file) < 16:
        raise NotModelled("a plain image")
    entry, length = struct.unpack(">II", file[8:16])
    if entry % 4 or entry >= WINDOW or length > WINDOW or len(file) != 16 + length:
        raise NotModelled("a plain image")
    return entry, file[16:]


def sealed_guest(file):
    entry, count = struct.unpack(">II", file[24:32]) if len(file) >= 96 else (1, 0)
    if file[:8] != b"XOMS\0\0\0\x01" or entry % 4 or entry >= WINDOW or count > LINES or len(file) != 96 + 64 * count:
        raise NotModelled("a sealed image")
    return file


class Run:
    """A run file with all that it names."""
    def __init__(self, files, name):
        self.owners, self.guests, self.pokes, self.flags = [], [], {}, lambda event: False
        self.files = files
        order = ["machine", "boot", "frames", "budget", "owner", "guest", "kernel", "interrupt", "poke"]
        last, kernel, self.machine, self.boot, self.frames, self.budget = 0, None, None, None, 0, 0
        for words in lines_of(self.file(name)):
            head, rest = words[0], words[1:]
            if head not in order or order.index(head) < last:
                raise NotModelled(f"run line {words}")
            last = order.index(head) + (head not in ("owner", "guest", "poke"))
            if head == "machine":
                self.machine = hex_word(rest[0], [32])
            elif head == "boot":
                self.boot = number(rest[0], 2 ** 63)
            elif head == "frames":
                self.frames = number(rest[0], 8193)
            elif head == "budget":
                self.budget = number(rest[0], 1048577)
            elif head == "owner":
                self.owners.append((plain_image(self.file(rest[0])), hex_word(rest[1], [32]), hex_word(rest[2], [16])))
            elif head == "guest":
                self.guests.append(sealed_guest(self.file(rest[0])))
                if len(rest) > 1 and len(self.file(rest[1])) > 1 << 20:
                    raise NotModelled("a long input")
            elif head == "kernel":
                kernel = rest
            elif head == "interrupt":
                self.read_interrupt(rest)
            else:
                self.pokes[number(rest[0], 2 ** 64)] = (number(rest[1], 2 ** 32), hex_word(rest[2], range(1, 8193)))
        if last < 8 or not 4 <= self.frames <= 8192 or None in (self.boot, self.machine, kernel) or len({owner[2] for owner in self.owners}) < len(self.owners):
            raise NotModelled("a run file")
        self.script = self.image = None
        if kernel[0] == "script":
            self.script = [words for words in lines_of(self.file(kernel[1]))]
        elif kernel[0] == "image":
            self.image = plain_image(self.file(kernel[1]))
        else:
            raise NotModelled("xomos")

    def file(self, name):
        if name not in self.files:
            raise NotModelled("a file that is missing")
        return self.files[name]

    def read_interrupt(self, rest):
        numbers = [number(word, 2 ** 64) for word in rest[1:]]
        if 0 in numbers or len(numbers) != {"never": 0, "every": 1}.get(rest[0], max(1, len(numbers))):
            raise NotModelled("an interrupt line")
        if rest[0] == "every":
            self.flags = lambda event: event % numbers[0] == 0
        elif rest[0] == "at":
            self.flags = lambda event: event in numbers

    def machine_on(self, store):
        machine = Machine(self.frames, self.machine, self.boot, store)
        if self.image:
            if len(self.image[1]) > min(131072, machine.size):
                raise NotModelled("a large kernel")
            machine.store(0, self.image[1])
            machine.null_pair = (self.image[0], self.image[0] + 4)
        frame = 16
        for guest in self.guests:
            count = (len(guest) - 96) // 64
            last = frame + (count + 127) // 128
            if last >= self.frames:
                raise NotModelled("a guest that has no place")
            machine.store(8192 * frame, guest[8:96])
            for line in range(count):
                place = 8192 * (frame + 1 + line // 128) + line % 128 * 32
                machine.store(place, guest[96 + 64 * line:128 + 64 * line])
                machine.store(place + 4096, guest[128 + 64 * line:160 + 64 * line])
            frame = last + 1
        return machine

    def play(self, store):
        """The machine after the run, and how many events there were."""
        machine, turn, events, guests = self.machine_on(store), 0, 0, 0
        while events < self.budget and machine.ended is None:
            events += 1
            slot = machine.running()
            if events in self.pokes:
                address, data = self.pokes[events]
                if machine.fits(address, len(data)):
                    machine.store(address, data)
            elif slot:
                guests += 1
                machine.guest_event(slot, self.flags(guests))
            elif self.image:
                machine.null_event()
            else:
                script_turn(machine, self.script[turn] if turn < len(self.script) else ["halt"])
                turn += 1
        return machine, events


def run_of(files, name):
    """The run of a run file; what isn't in its form is passed over."""
    try:
        return Run(files, name)
    except (LookupError, ValueError, TypeError) as why:
        raise NotModelled(f"a run file: {why}") from None


OPERANDS = {"install": 3, "enter": 1, "resume": 2, "save": 3, "restore": 3, "map": 3, "unmap": 2, "setreg": 2, "kill": 1,
            "out": 1, "halt": 0, "show": 0, "write": 2, "copy": 3, "flip": 2}


def script_turn(machine, words):
    name, rest = words[0], words[1:]
    if len(rest) != OPERANDS.get(name):
        raise NotModelled(f"script line {words}")
    if name == "write":
        return machine.write(number(rest[0], 2 ** 32), hex_word(rest[1], range(1, 8193)))
    numbers = [number(word, 2 ** 32) for word in rest]
    if name == "show":
        machine.operate("out", 48 + machine.status)
    elif name == "copy":
        source, target, count = numbers
        machine.write(target, bytes(machine.byte(source + i) for i in range(count)))
    elif name == "flip":
        machine.write(numbers[0], bytes([machine.byte(numbers[0]) ^ number(rest[1], 256)]))
    else:
        machine.operate(name, *numbers)


def report(run, journal):
    """The lines of the report, and the status if nothing but the journal counts."""
    lines, is_bad = [], False
    for entry in journal:
        words = entry.split()
        if words[0] != "install":
            continue
        of_install = [it.split(" ", 2) for it in journal if it.split(" ", 2)[1] == words[1] and it[:4] in ("step", "stop", "kill")]
        steps = [it[2] for it in of_install if it[0] == "step"]
        verdict = judged(run, bytes.fromhex(words[3]), steps)
        is_bad |= not verdict.startswith("follows")
        end = "ended" if steps and steps[-1].endswith(" exit") else "open"
        for it in of_install:
            end = {"stop": f"stopped {it[2]}" if it[0] == "stop" else "", "kill": "killed" if end == "open" else end}.get(it[0], end)
        lines.append(f"guest {words[1]} slot {words[2]} id {words[3]} {verdict} {end}")
    forged = first_forged(run, journal)
    lines += [f"forged at entry {forged}" if forged else "forged none", "collision none"]
    has_stop = any(entry.startswith("stop ") for entry in journal)
    return lines, 9 if is_bad or forged else 8 if has_stop else 0


def judged(run, image_id, steps):
    for (entry, data), _, owner_id in run.owners:
        if owner_id == image_id:
            plain = Plain(entry, data)
            for count, text in enumerate(steps, 1):
                if plain.step(text.split()[4]) != text:
                    return f"departs at step {count}"
            return f"follows {len(steps)} steps"
    return "no owner"


def first_forged(run, journal):
    known = set()
    for (entry, data), key, image_id in run.owners:
        messages = sealed_image(run.machine, key, image_id, entry, data)[2]
        known.update((key.hex(), message.hex()) for key, message in messages)
    for count, entry in enumerate(journal, 1):
        words = entry.split()
        if words[0] == "seal":
            known.add((words[1], words[2]))
        elif words[0] == "accept" and (words[1], words[2]) not in known:
            return count
    return None


def traced(files, words, store):
    """The status and the text of `trace` or `run`; the journal goes into the files."""
    run = run_of(files, words[1])
    machine, events = run.play(store)
    lines, status = report(run, machine.journal)
    end = machine.ended or "budget"
    status = status or (7 if end.startswith("kernel") else 6 if end == "budget" else 0)
    console = bytes(int(entry.split()[1]) for entry in machine.journal if entry.startswith("out "))
    if words[0] == "run":
        return status, console
    if len(words) > 2:
        files[words[2]] = "".join(f"{entry}\n" for entry in machine.journal).encode()
    gap = b"\n" if console and not console.endswith(b"\n") else b""
    return status, console + gap + "".join(f"{line}\n" for line in lines + [f"events {events} {end}"]).encode()


def seal(files, words):
    entry, data = plain_image(files[words[1]])
    key, image_id, machine = (hex_word(word, [count]) for word, count in zip(words[2:5], (32, 16, 32)))
    envelope, lines, _ = sealed_image(machine, key, image_id, entry, data)
    files[words[5]] = b"XOMS\0\0\0\x01" + envelope + b"".join(lines)
    return 0, f"sealed {len(lines)} lines {len(files[words[5]])} bytes\n".encode()
