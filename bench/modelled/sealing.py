"""AES-128 of FIPS 197, HMAC, and what is sealed with them."""
import functools
import hashlib
import hmac
import struct


MASK = 0xFFFFFFFF


def word32(number):
    return struct.pack(">I", number & MASK)


def word64(number):
    return struct.pack(">Q", number)


def mac(key, text):
    return hmac.new(key, text, hashlib.sha256).digest()


def xtime(a):
    return (a << 1) ^ (0x11B if a & 0x80 else 0)


def times(a, b):
    product = 0
    while b:
        product ^= a if b & 1 else 0
        a, b = xtime(a), b >> 1
    return product


def substitution():
    """The S-box of FIPS 197: the inverse in the field, and the affine map."""
    box = [0x63]
    for a in range(1, 256):
        inverse = next(b for b in range(1, 256) if times(a, b) == 1)
        box.append(0x63 ^ inverse)
        for turn in range(1, 5):
            box[a] ^= (inverse << turn | inverse >> 8 - turn) & 0xFF
    return box


BOX = substitution()
TWICE, THRICE = [times(a, 2) for a in range(256)], [times(a, 3) for a in range(256)]


@functools.lru_cache
def round_keys(key):
    words, constant = [list(key[i:i + 4]) for i in range(0, 16, 4)], 1
    for i in range(4, 44):
        last = words[-1]
        if i % 4 == 0:
            last = [BOX[b] for b in last[1:] + last[:1]]
            last[0] ^= constant
            constant = xtime(constant)
        words.append([a ^ b for a, b in zip(words[i - 4], last)])
    return [sum(words[i:i + 4], []) for i in range(0, 44, 4)]


@functools.lru_cache(100000)
def encrypt(key, block):
    keys = round_keys(key)
    state = [a ^ b for a, b in zip(block, keys[0])]
    for number, round_key in enumerate(keys[1:], 1):
        state = [BOX[state[(i + 4 * (i % 4)) % 16]] for i in range(16)]
        if number < 10:
            state = [TWICE[state[i]] ^ THRICE[state[i & 12 | i + 1 & 3]] ^ state[i & 12 | i + 2 & 3]
                     ^ state[i & 12 | i + 3 & 3] for i in range(16)]
        state = [a ^ b for a, b in zip(state, round_key)]
    return bytes(state)


def sealed(key, domain, place, version, plain):
    """A ciphertext, and the same way back."""
    pad = b"".join(encrypt(key, bytes([domain, block, 0, 0]) + word32(place) + word64(version)) for block in (0, 1))
    return bytes(a ^ b for a, b in zip(plain, pad))


def image_message(image_id, line, text):
    return b"\x01" + image_id + word32(line) + text


def sealed_image(machine, key, image_id, entry, data):
    """The envelope and the lines of an image, and the messages that its owner seals with it."""
    count = (len(data) + 31) // 32
    wrapped = sealed(mac(machine, b"\x13" + image_id)[:16], 4, 0, 0, key)
    head = image_id + word32(entry) + word32(count) + wrapped
    lines, messages = [], [(machine, b"\x04" + head)]
    for line in range(count):
        text = sealed(mac(key, b"\x14" + image_id)[:16], 1, line, 1, data[32 * line:32 * line + 32].ljust(32, b"\0"))
        messages.append((key, image_message(image_id, line, text)))
        lines.append(text + mac(key, messages[-1][1]))
    return head + mac(machine, b"\x04" + head), lines, messages
