#!/usr/bin/env python3
"""A courier box's tag, written a second time and from docs/ alone.

Reads the lines of docs/trial.md on standard input and prints what the
program trial prints. The names of the pages stand where their rules are.
"""

import sys

# The states (docs/states.md).
OFF, KILLED, IDLE, HALT, READY1, READY2, ACTIVE = (
    "OFF", "KILLED", "IDLE", "HALT", "READY1", "READY2", "ACTIVE")

HYPHENS = b"---"
KILL_MARK = 0xA5


def crc_a(data):
    """CRC_A of a run of bytes, as its two bytes are sent (docs/crc.md)."""
    register = 0x6363
    for byte in data:
        for place in range(8):
            comes = byte >> place & 1
            leaves = register & 1
            register >>= 1
            if leaves != comes:
                register ^= 0x8408
    return bytes([register & 0xFF, register >> 8])


def bits_of(data):
    """The bits of a run of bytes in the order of sending."""
    return [byte >> place & 1 for byte in data for place in range(8)]


def bytes_of(bits):
    """Bits packed from bit 0 of the first byte on."""
    data = bytearray((len(bits) + 7) // 8)
    for i, bit in enumerate(bits):
        data[i // 8] |= bit << i % 8
    return bytes(data)


class Refused(Exception):
    """A refusal (docs/faults.md)."""

    def __init__(self, number, layer, address):
        Exception.__init__(self, number, layer, address)
        self.number, self.layer, self.address = number, layer, address


# ---------------------------------------------------------------- docs/memory.md

class Memory:
    """What is the same in both memories: the refusals, and their order."""

    def read(self, block):
        if block > 63:
            raise Refused(14, "memory", 0)
        return self.stored(block)

    def write(self, block, data):
        if block > 63:
            raise Refused(14, "memory", 0)
        if self.left() == 0:
            raise Refused(15, "memory", 0)
        self.store(block, bytes(data))


class PictureMemory(Memory):
    def __init__(self, picture, writes):
        self.fits = len(picture) == 256
        self.picture = picture
        self.writes = min(writes, 100000) if self.fits else 0

    def left(self):
        return self.writes

    def stored(self, block):
        if not self.fits:
            return bytes(4)
        return bytes(self.picture[4 * block:4 * block + 4])

    def store(self, block, data):
        self.picture[4 * block:4 * block + 4] = data
        self.writes -= 1


class LogMemory(Memory):
    def __init__(self, places):
        self.places = min(places, 4096)
        self.records = []
        self.latest = {}  # of each block with a record, the place of its latest

    def left(self):
        return self.places - len(self.records)

    def stored(self, block):
        if block not in self.latest:
            return bytes(4)
        return self.records[self.latest[block]][1]

    def store(self, block, data):
        self.latest[block] = len(self.records)
        self.records.append((block, data))


# ---------------------------------------------------------------- docs/making.md

def check_bytes(uid):
    """BCC_1 and BCC_2."""
    return (0x88 ^ uid[0] ^ uid[1] ^ uid[2],
            uid[3] ^ uid[4] ^ uid[5] ^ uid[6])


def write_new(memory, uid, product, password):
    """The first call of making: writes all 64 blocks."""
    if memory.left() < 64:
        raise Refused(5, "call", 0)
    bcc_1, bcc_2 = check_bytes(uid)
    blocks = [bytes(4)] * 64
    blocks[0] = bytes([uid[0], uid[1], uid[2], bcc_1])
    blocks[1] = bytes(uid[3:7])
    blocks[2] = bytes([bcc_2, 0x2C, 0x00, 0x00])
    blocks[3] = bytes([0xE1, 0x10, 0x14, 0x00])
    blocks[4] = bytes([0x03, 0x00, 0xFE, 0x00])
    blocks[45] = bytes(product)
    blocks[46] = bytes([0x0F, 0x00, 0x00, 0x00])
    blocks[47] = bytes(password)
    digits = "".join("%02X" % byte for byte in uid).encode("ascii")
    last = digits + b"x" + bytes(1)
    for i in range(4):
        blocks[60 + i] = last[4 * i:4 * i + 4]
    for block in range(64):
        memory.write(block, blocks[block])


# ---------------------------------------------------------------- docs/power.md

DIGITS = b"0123456789ABCDEFGHIJKLMNOPQRSTUVWXYZ"


def code_of(tap):
    return bytes([DIGITS[tap // 1296], DIGITS[tap // 36 % 36], DIGITS[tap % 36]])


# ---------------------------------------------------------------- the tag

# The answers of four bits (docs/frames.md), each as (number of bits, bytes).
ACK = (4, b"\x0A")
NACK_0 = (4, b"\x00")
NACK_1 = (4, b"\x01")
NACK_5 = (4, b"\x05")
SILENCE = (0, b"")


def whole(data):
    """An answer of whole bytes."""
    return (8 * len(data), bytes(data))


class Tag:
    def __init__(self, memory):
        """The second call of making: takes a memory over (docs/making.md)."""
        self.memory = memory
        self.state = OFF
        self.home = IDLE
        self.code = HYPHENS
        uid = memory.read(0)[:3] + memory.read(1)
        bcc_1, bcc_2 = check_bytes(uid)
        self.level_1 = bytes([0x88]) + uid[:3] + bytes([bcc_1])
        self.level_2 = uid[3:] + bytes([bcc_2])

    def byte(self, address):
        """The stored byte of an address."""
        return self.memory.read(address // 4)[address % 4]

    # ------------------------------------------------------------ docs/power.md

    def power_off(self):
        self.state = OFF

    def power_on(self):
        """Answers whether a code was drawn, and the tap number it was drawn for."""
        if self.state != OFF:
            raise Refused(4, "call", 0)
        self.state = KILLED if self.byte(200) == KILL_MARK else IDLE
        tap = int.from_bytes(self.memory.read(49), "little")
        if self.state == IDLE and tap < 46656 and self.memory.left() > 0:
            self.memory.write(49, (tap + 1).to_bytes(4, "little"))
            self.code = code_of(tap)
            return (True, tap)
        self.code = HYPHENS
        return (False, 0)

    # ------------------------------------------------------------ docs/frames.md

    def frame(self, data, count, buffer):
        """Plays a frame; answers the number of answer bits."""
        if len(buffer) < 18:
            raise Refused(1, "call", 0)
        if len(data) > 64:
            raise Refused(2, "call", 0)
        if len(data) > 0 and not 1 <= count <= 8:
            raise Refused(3, "call", 0)
        number, answer = self.answer(data, count)
        buffer[:len(answer)] = answer
        return number

    def answer(self, data, count):
        """The answer to a frame that is not refused; moves the state (docs/states.md)."""
        if self.state == IDLE:
            if self.is_short(data, count, 0x26) or self.is_short(data, count, 0x52):
                return self.woken(IDLE)
            return SILENCE
        if self.state == HALT:
            if self.is_short(data, count, 0x52):
                return self.woken(HALT)
            return SILENCE
        if self.state == READY1:
            return self.at_level(0x93, self.level_1, b"\x04", READY2, data, count)
        if self.state == READY2:
            return self.at_level(0x95, self.level_2, b"\x00", ACTIVE, data, count)
        if self.state == ACTIVE:
            return self.active(data, count)
        return SILENCE  # OFF, KILLED

    @staticmethod
    def is_short(data, count, byte):
        return len(data) == 1 and count == 7 and data[0] & 0x7F == byte

    def woken(self, home):
        self.home = home
        self.state = READY1
        return whole(b"\x44\x00")

    def go_home(self, answer=SILENCE):
        self.state = self.home
        return answer

    def at_level(self, command, level, sak, next_state, data, count):
        """READY1 and READY2: anticollision and selection of the level."""
        if len(data) < 2 or data[0] != command:
            return self.go_home()
        nvb = data[1]
        if nvb == 0x70:
            five = data[2:7]
            if len(data) == 9 and count == 8 and five == level and data[7:] == crc_a(data[:7]):
                self.state = next_state
                return whole(sak + crc_a(sak))
            return self.go_home()
        high, low = nvb >> 4, nvb & 0x0F
        if not (2 <= high <= 6 and low <= 7):
            return self.go_home()
        sent = 8 * (len(data) - 1) + count
        if sent != 8 * high + low:
            return self.go_home()
        known = bits_of(data)[16:sent]
        bits = bits_of(level)
        if known != bits[:len(known)]:
            return self.go_home()
        rest = bits[len(known):]
        return (len(rest), bytes_of(rest))

    def active(self, data, count):
        if len(data) > 0 and count == 8:
            right = data[-2:] == crc_a(data[:-2])
            if data[0] == 0x50 and len(data) == 4 and data[1] == 0x00 and right:
                self.state = HALT
                return SILENCE
            if data[0] == 0x30 and len(data) == 4:
                return self.read(data[1]) if right else self.go_home(NACK_1)
            if data[0] == 0xA2 and len(data) == 8:
                return self.write(data[1], data[2:6]) if right else self.go_home(NACK_1)
        return self.go_home()

    # ------------------------------------------------------------ docs/window.md

    def read(self, block):
        if block > 63:
            return self.go_home(NACK_0)
        start, text = self.text()
        shown = bytearray()
        for b in range(block, block + 4):
            stored = self.memory.read(b % 64)
            for i in range(4):
                shown.append(self.shown(4 * (b % 64) + i, stored[i], start, text))
        return whole(shown + crc_a(shown))

    def text(self):
        """The address at which the text starts, and the text."""
        settings = self.memory.read(46)
        start = 4 * (settings[0] & 0x3F) + (settings[1] >> 6)
        field_on = settings[1] & 0x01 != 0
        code_on = settings[1] & 0x04 != 0
        last = b"".join(self.memory.read(block) for block in range(60, 64))
        if field_on and code_on:
            return start, last[:15] + self.code
        if field_on:
            return start, last[:14]
        if code_on:
            return start, self.code
        return start, b""

    @staticmethod
    def shown(address, stored, start, text):
        if 188 <= address <= 195:
            return 0x00
        if 16 <= address <= 175 and start <= address < start + len(text):
            return text[address - start]
        return stored

    # ------------------------------------------------------------ docs/locks.md

    def is_locked(self, block):
        if block < 3:
            return False
        if block <= 15:
            return self.statlock() >> block & 1 == 1
        lock_block = self.memory.read(44)
        if 44 <= block <= 51:
            return lock_block[3] >> (block - 44) & 1 == 1
        return int.from_bytes(lock_block[:3], "little") >> (block - 16) // 2 & 1 == 1

    def statlock(self):
        return int.from_bytes(self.memory.read(2)[2:4], "little")

    def gained_block_2(self, data):
        old = self.statlock()
        carried = int.from_bytes(data[2:4], "little")
        masks = 0
        for guard, mask in ((0, 0x0008), (1, 0x03F0), (2, 0xFC00)):
            if old >> guard & 1:
                masks |= mask
        new = old | carried & ~masks
        return self.memory.read(2)[:2] + new.to_bytes(2, "little")

    # ------------------------------------------------------------ docs/write.md

    def write(self, block, data):
        """WRITE with a right CRC_A."""
        if block > 63 or block in (0, 1, 45, 49, 50, 51) or self.is_locked(block):
            return self.go_home(NACK_0)
        place, becomes, next_state = block, data, ACTIVE
        if block == 48:
            if not self.is_locked(47) or data != self.memory.read(47):
                return self.go_home(NACK_0)
            place = 50
            becomes = bytes([KILL_MARK]) + self.memory.read(50)[1:]
            next_state = KILLED
        elif block == 2:
            becomes = self.gained_block_2(data)
        elif block in (3, 44):
            becomes = bytes(old | new for old, new in zip(self.memory.read(block), data))
        if self.memory.left() == 0:
            return self.go_home(NACK_5)
        self.memory.write(place, becomes)
        self.state = next_state
        return ACK


# ---------------------------------------------------------------- docs/trial.md

class Expected(Exception):
    """A line that cannot be read; says what was expected."""


class Words:
    """The words of a line, taken from left to right."""

    def __init__(self, line):
        before = line.split(b"#", 1)[0]
        self.words = [word for word in before.split(b" ") if word]

    def take(self):
        """The next word, or None."""
        return self.words.pop(0) if self.words else None

    def number(self, limit, expected):
        word = self.take()
        if word and all(byte in b"0123456789" for byte in word):
            digits = word.lstrip(b"0") or b"0"
            if len(digits) <= len(str(limit)) and int(digits) <= limit:
                return int(digits)
        raise Expected(expected)

    def fixed_hex(self, digits, expected):
        word = self.take()
        if word and len(word) == digits and is_hex(word):
            return bytes.fromhex(word.decode("ascii"))
        raise Expected(expected)

    def frame_hex(self):
        word = self.take()
        if word == b"-":
            return b""
        if word and len(word) % 2 == 0 and is_hex(word):
            return bytes.fromhex(word.decode("ascii"))
        raise Expected("a frame in pairs of hexadecimal digits, or `-`")

    def end(self):
        if self.words:
            raise Expected("the end of the line")


def is_hex(word):
    return all(byte in b"0123456789ABCDEFabcdef" for byte in word)


def in_hex(data):
    return bytes(data).hex().upper()


class Trial:
    """Plays lines; `tag` is None while there is no box."""

    def __init__(self):
        self.tag = None

    def play(self, line):
        """Plays one line, without its line feed; answers the lines to print."""
        words = Words(line)
        word = words.take()
        if word is None:
            return []
        if word == b"box":
            return self.box(words)
        if word == b"on":
            return self.on(words)
        if word == b"off":
            return self.off(words)
        if word == b"frame":
            return self.frame(words)
        if word == b"memory":
            return self.memory(words)
        raise Expected("`box`, `on`, `off`, `frame` or `memory`")

    def ready(self, words):
        """The line has its right form so far: it must end, and there must be a box."""
        words.end()
        if self.tag is None:
            raise Expected("a box first")

    def box(self, words):
        kind = words.take()
        if kind not in (b"picture", b"log"):
            raise Expected("`picture` or `log`")
        what = "writes" if kind == b"picture" else "places"
        number = words.number(4294967295, "a number of %s up to 4294967295" % what)
        uid = words.fixed_hex(14, "a UID of 14 hexadecimal digits")
        product = words.fixed_hex(8, "product bytes of 8 hexadecimal digits")
        password = words.fixed_hex(8, "a password of 8 hexadecimal digits")
        words.end()
        self.tag = None
        if kind == b"picture":
            memory = PictureMemory(bytearray(256), number)
        else:
            memory = LogMemory(number)
        try:
            write_new(memory, uid, product, password)
        except Refused as refusal:
            return [refused(refusal)]
        self.tag = Tag(memory)
        return ["made"]

    def on(self, words):
        self.ready(words)
        try:
            drawn, tap = self.tag.power_on()
        except Refused as refusal:
            return [refused(refusal)]
        if drawn:
            return ["drawn %d %s" % (tap, self.tag.code.decode("ascii"))]
        return ["no code"]

    def off(self, words):
        self.ready(words)
        self.tag.power_off()
        return ["off"]

    def frame(self, words):
        data = words.frame_hex()
        count = words.number(255, "a bit count from 0 to 255") if words.words else 8
        room = words.number(4294967295, "a room of up to 4294967295 bytes") if words.words else None
        self.ready(words)
        buffer = bytearray(b"\xEE") * (18 if room is None else room)
        try:
            number = self.tag.frame(data, count, buffer)
            if number == 0:
                said = "silence"
            else:
                said = "answer %d %s" % (number, in_hex(buffer[:(number + 7) // 8]))
        except Refused as refusal:
            said = refused(refusal)
        if room is not None:
            said += " | " + (in_hex(buffer) or "-")
        return [said]

    def memory(self, words):
        self.ready(words)
        memory = self.tag.memory
        stored = b"".join(memory.read(block) for block in range(64))
        lines = ["left %d" % memory.left()]
        for address in range(0, 256, 16):
            lines.append(in_hex(stored[address:address + 16]))
        return lines


def refused(refusal):
    return "refused %d %s %d" % (refusal.number, refusal.layer, refusal.address)


def main():
    trial = Trial()
    number = 0
    for line in iter(sys.stdin.buffer.readline, b""):
        number += 1
        if line.endswith(b"\n"):
            line = line[:-1]
        try:
            lines = trial.play(line)
        except Expected as expected:
            print("line %d: expected %s" % (number, expected), file=sys.stderr)
            return 1
        if lines:
            sys.stdout.write("".join(each + "\n" for each in lines))
            sys.stdout.flush()
    return 0


if __name__ == "__main__":
    try:
        sys.exit(main())
    except OSError as error:
        print("cannot read or write: %s" % error, file=sys.stderr)
        sys.exit(1)
