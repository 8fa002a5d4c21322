#!/usr/bin/env python3
"""Random lists of calls for the program trial (docs/trial.md).

    random_lists.py SEED LISTS        prints the lists 1 to LISTS of a seed
    random_lists.py SEED LISTS K      prints list K of them alone
    random_lists.py SEED LISTS count  prints how often the calls led from which state to what

A list depends on the seed and its own number alone. While a list is made, it
is played on the box of box.py, so that the next call can suit the box's state.
"""

import collections
import random
import sys

sys.dont_write_bytecode = True
import box
from box import crc_a

DOC_UID = "022EE5E2842000"


def with_crc(data):
    return bytes(data) + crc_a(data)


class Maker:
    """Makes one list. `lines` has its lines, `ends` says whether the last cannot be read."""

    def __init__(self, seed, number, seen=None):
        self.r = random.Random("%d/%d" % (seed, number))
        self.lines = []
        self.ends = False
        self.guide = box.Trial()
        self.seen = seen  # counts of (state, call, answer, next state), or None

    # ------------------------------------------------------------ lines

    def chance(self, percent):
        return self.r.random() * 100 < percent

    def some_bytes(self, number):
        return bytes(self.r.randrange(256) for _ in range(number))

    def play(self, *words):
        """Adds a line of these words, in one of the ways to write it, and plays it."""
        r = self.r
        line = " ".join(words)
        if self.chance(6):
            line = line.replace(" ", " " * r.randint(1, 3))
            line = " " * r.randint(0, 3) + line + " " * r.randint(0, 3)
        if self.chance(4):
            line += r.choice(["#", " # a comment", "#on", " ## frame 26 7", "# \t\r\x00\xE9"])
        if self.chance(2):
            self.lines.append(r.choice(["", " ", "   ", "#", "  # off", "#box", "# \xFF\t"]))
        self.lines.append(line)
        tag = self.guide.tag
        before = tag.state if tag else "no box"
        try:
            said = self.guide.play(line.encode("latin-1"))
        except box.Expected as expected:
            self.ends = True
            said = ["line cannot be read: %s" % expected]
        if self.seen is not None:
            tag = self.guide.tag
            after = tag.state if tag else "no box"
            answer = said[0].split(" | ")[0] if said else "nothing"
            if answer.startswith("drawn"):
                answer = "drawn"
            elif answer.startswith("left"):
                answer = "left"
            elif answer.startswith("answer"):
                bits = int(answer.split()[1])
                answer = answer if bits in (4, 16, 24) and before != "READY1" else "answer %d" % bits
                if before in ("READY1", "READY2") and after == before:
                    answer = "answer of 1 to 40 bits"
            call = words[0] if not self.ends else "-"
            self.seen[(before, call, answer, after)] += 1
        return said

    def hexed(self, data):
        digits = bytes(data).hex()
        kind = self.r.randrange(8)
        if kind == 0:
            return digits
        if kind == 1:
            return "".join(self.r.choice([d, d.upper()]) for d in digits)
        return digits.upper()

    def decimal(self, number):
        return "0" * (self.r.randint(1, 12) if self.chance(4) else 0) + str(number)

    def frame(self, data, count=8):
        """A frame, now and then with a room."""
        r = self.r
        words = ["frame", self.hexed(data) or "-"]
        kind = r.random()
        if kind < 0.10:
            words += [self.decimal(count), self.decimal(r.randint(18, 24))]
        elif kind < 0.12:
            words += [self.decimal(count), self.decimal(r.choice([18, 19, 64, 300] * 6 + [5000]))]
        elif kind < 0.14:
            words += [self.decimal(count), self.decimal(r.choice([0, 1, 2, 5, 16, 17]))]
        elif count != 8 or kind < 0.2:
            words += [self.decimal(count)]
        self.play(*words)

    # ------------------------------------------------------------ the box

    def new_box(self, refused=False, large=False):
        r = self.r
        kind = r.choice(["picture", "log"])
        if refused:
            writes = r.choice([0, 1, 32, 62, 63, 63, r.randrange(64)])
        elif large:
            writes = r.choice([4096, 100000, 4294967295])
        else:
            writes = r.choice([64, 65, 66, 67, 68, r.randint(69, 80), r.randint(69, 120), 130, 300, 1000, 1000,
                               4095, 4096, 4097, 99999, 100000, 100001, 4294967295])
        uid = r.choice([self.some_bytes(7)] * 4 + [
            bytes.fromhex(DOC_UID), bytes(7), b"\xFF" * 7, b"\x88" * 7,
            bytes([r.choice([0, 0x88, 0xFF, 0x0A, 0xA0]) for _ in range(7)])])
        password = r.choice([self.some_bytes(4)] * 4 + [bytes(4), b"\x11\x22\x33\x44", b"\xFF" * 4])
        self.play("box", kind, self.decimal(writes), self.hexed(uid), self.hexed(self.some_bytes(4)),
                  self.hexed(password))

    @property
    def tag(self):
        return self.guide.tag

    @property
    def state(self):
        return self.guide.tag.state

    def stored(self, block):
        return self.tag.memory.read(block)

    # ------------------------------------------------------------ frames

    def wake(self):
        byte = self.r.choice([0x26, 0x52])
        self.frame([byte | (0x80 if self.chance(20) else 0)], 7)

    def short(self):
        """One byte, mostly close to 26h and 52h."""
        r = self.r
        byte = r.choice([0x26, 0x52, 0xA6, 0xD2, 0x27, 0x53, 0x22, 0x66, 0x06, 0x12, 0x93, 0x95, 0x50, 0x30, 0xA2,
                         r.randrange(256)])
        self.frame([byte], r.choice([7, 7, 7, 8, 6, r.randint(1, 8)]))

    def level(self, right=True):
        """Command and five bytes of the level of the state, or of the other."""
        levels = [(0x93, self.tag.level_1), (0x95, self.tag.level_2)]
        at = 1 if self.state == box.READY2 else 0
        return levels[at if right else 1 - at]

    def anticollision(self, right=True):
        """With right bits, at any NVB; or with one thing wrong about it."""
        r = self.r
        wrong = None if right else r.choice(["bit", "bit", "bit", "last bit", "count", "more", "less", "nvb", "level",
                                             "command", "stray bit", "digit", "part"])
        command, five = self.level(wrong != "level")
        known = r.choice([0, 8, 16, 24, 32, 39, 1, 7] + [r.randrange(40)] * 8)
        bits = box.bits_of(five)[:known]
        if wrong == "bit" and known:
            bits[r.randrange(known)] ^= 1
        if wrong == "last bit" and known:
            bits[-1] ^= 1
        nvb = (16 + known) // 8 << 4 | known % 8
        if wrong == "digit":
            if known >= 8:  # the same number of bits, with a low digit from 8 on
                nvb += 8 - 16
            else:
                nvb |= 8
        elif wrong == "part":  # NVB itself is a part byte
            self.frame([command, r.choice([0x10, 0x20, 0x70]) | known % 8], known % 8 or 8)
            return
        data = bytearray([command, nvb]) + box.bytes_of(bits)
        count = known % 8 or 8
        if count < 8 and self.chance(50):
            data[-1] |= r.randrange(256) << count & 0xFF  # bits that do not belong to the frame
        if wrong == "count":
            count = r.randint(1, 8)
        elif wrong == "more":
            data += self.some_bytes(1)
        elif wrong == "less":
            data = data[:-1]
        elif wrong == "nvb":
            data[1] = r.choice([nvb ^ 1 << r.randrange(8), r.randrange(256), 0x68, 0x70, 0x10, 0x28, nvb | 8])
        elif wrong == "command":
            data[0] = r.choice([0x97, 0x92, 0x94, 0x13, r.randrange(256)])
        elif wrong == "stray bit" and count < 8:
            count += 1
        self.frame(data, count)

    def selection(self, right=True):
        r = self.r
        wrong = None if right else r.choice(["bit", "bit", "check byte", "crc", "crc", "no crc", "more", "less", "level",
                                             "count", "nvb", "swapped crc"])
        command, five = self.level(wrong != "level")
        five = bytearray(five)
        if wrong == "bit":
            five[r.randrange(5)] ^= 1 << r.randrange(8)
        elif wrong == "check byte":
            five[4] ^= 1 << r.randrange(8)
        nvb = r.choice([0x71, 0x60, 0x78, 0x7F, 0xF0, 0x67]) if wrong == "nvb" else 0x70
        data = bytearray(with_crc(bytes([command, nvb]) + five))
        count = 8
        if wrong == "crc":
            data[r.choice([7, 8])] ^= 1 << r.randrange(8)
        elif wrong == "swapped crc":
            data[7], data[8] = data[8], data[7]
        elif wrong == "no crc":
            data = data[:7]
        elif wrong == "more":
            data += self.some_bytes(1)
        elif wrong == "less":
            data = data[:r.randint(1, 8)]
        elif wrong == "count":
            count = r.randint(1, 7)
        self.frame(data, count)

    def command(self, data):
        """A frame with CRC_A for ACTIVE, sent as it is."""
        self.frame(with_crc(data))

    def damaged(self, data):
        """The same with something wrong in its form."""
        r = self.r
        frame = bytearray(with_crc(data))
        count = 8
        wrong = r.choice(["crc", "crc", "crc", "one byte", "swapped", "more", "less", "longer", "count", "first", "data"])
        if wrong == "crc":
            frame[r.choice([-1, -2])] ^= 1 << r.randrange(8)
        elif wrong == "one byte":
            frame[-2:] = self.some_bytes(2)
        elif wrong == "swapped":
            frame[-2], frame[-1] = frame[-1], frame[-2]
        elif wrong == "more":
            frame += self.some_bytes(1)
        elif wrong == "less":
            frame = frame[:r.randint(1, len(frame) - 1)]
        elif wrong == "longer":
            frame = bytearray(with_crc(bytes(data) + self.some_bytes(r.randint(1, 6))))
        elif wrong == "count":
            count = r.randint(1, 7)
        elif wrong == "first":
            frame = bytearray(with_crc(bytes([r.choice([0x31, 0xA3, 0x50, 0x1B, 0x60, 0x3A, 0x22, 0xB0])]) +
                                       bytes(data[1:])))
        elif wrong == "data":
            frame[r.randrange(len(frame) - 2)] ^= 1 << r.randrange(8)
        self.frame(frame, count)

    def halt_bytes(self):
        return bytes([0x50, self.r.choice([0] * 12 + [1, 0x80, 0x30])])

    def read_bytes(self):
        r = self.r
        settings = self.stored(46)
        start = 4 * (settings[0] & 0x3F) + (settings[1] >> 6)
        near = max(0, min(63, start // 4 + r.randint(-4, 6)))
        block = r.choice([near] * 6 + [r.randrange(64)] * 5 + [0, 2, 3, 4, 40, 43, 44, 45, 46, 47, 48, 49, 50, 60, 61, 62,
                                                             63] + [r.choice([64, 65, 127, 128, 192, 255, 0xAE])])
        return bytes([0x30, block])

    def few_bits(self, number):
        """Bytes with few bits set, so that locks close one after another."""
        data = bytearray(number)
        for _ in range(self.r.choice([0, 1, 1, 1, 2, 3])):
            data[self.r.randrange(number)] |= 1 << self.r.randrange(8)
        return bytes(data)

    def write_bytes(self):
        r = self.r
        kind = r.randrange(25)
        if kind < 7:
            block, data = r.randint(4, 43), self.some_bytes(4)
        elif kind < 11:
            block, data = 46, self.settings()
        elif kind < 13:
            block, data = r.randint(52, 63), self.some_bytes(4)
        elif kind < 15:
            block = 2
            data = self.some_bytes(2) + r.choice([self.few_bits(2)] * 6 + [self.some_bytes(2), b"\xFF\xFF", bytes(2)])
        elif kind < 17:
            block = 44
            data = r.choice([self.few_bits(4)] * 6 + [bytes([0, 0, 0, 1 << r.randrange(8)])] * 3 + [
                self.some_bytes(4), bytes([0, 0, 0, 8]), b"\xFF\xFF\xFF\xF6"])
        elif kind == 17:
            block, data = 3, r.choice([self.few_bits(4)] * 4 + [b"\xE1\x10\x14\x00", bytes(4), self.some_bytes(4)])
        elif kind == 18:
            block = 47
            data = r.choice([self.some_bytes(4), bytes(4), b"\x11\x22\x33\x44"])
        elif kind < 21:
            block, data = 48, self.password()
        elif kind < 23:
            block = r.choice([0, 1, 45, 49, 50, 51, 64, 65, 128, 192, 255, 44 + 64, 2 + 64])
            data = r.choice([self.some_bytes(4), b"\xA5\x00\x00\x00", bytes(4)])
        else:
            block, data = r.randrange(64), self.some_bytes(4)
            if block in (2, 44) and self.chance(70):
                data = self.few_bits(4)
        return bytes([0xA2, block]) + data

    def settings(self):
        """Windows at all places, many of them at an edge of 16 to 175."""
        r = self.r
        start = r.choice([r.randrange(256), r.randrange(16, 176), r.randrange(0, 20), r.randrange(155, 200),
                          r.choice([0, 1, 2, 12, 13, 14, 15, 16, 17, 157, 158, 159, 160, 161, 162, 170, 172, 173, 174, 175,
                                    176, 177, 188, 238, 240, 255])])
        on = r.choice([0x05] * 5 + [0x01, 0x01, 0x04, 0x04, 0x00])
        other = r.choice([0, 0, r.randrange(256)])
        return bytes([start // 4 | other & 0xC0, on | start % 4 << 6 | other & 0x3A]) + \
            r.choice([bytes(2), self.some_bytes(2)])

    def password(self):
        r = self.r
        right = self.stored(47)
        near = bytearray(right)
        near[r.randrange(4)] ^= 1 << r.randrange(8)
        return r.choice([right] * 3 + [bytes(near)] * 2 + [bytes(4), self.some_bytes(4), right[::-1]])

    def any_frame(self):
        """A frame of any kind, right or wrong, whatever the state."""
        r = self.r
        kind = r.randrange(20)
        if kind < 3:
            self.short()
        elif kind < 5:
            self.anticollision(self.chance(50))
        elif kind < 7:
            self.selection(self.chance(50))
        elif kind < 13:
            data = r.choice([self.halt_bytes, self.read_bytes, self.write_bytes])()
            if self.chance(40):
                self.command(data)
            else:
                self.damaged(data)
        elif kind == 13:
            self.frame(b"", r.choice([0, 1, 7, 8, 9, 255]))
        elif kind == 14:
            self.frame(self.some_bytes(r.choice([63, 64, 65, 66, 100] * 6 + [256, 3000])), r.choice([8, 8, 7, 0, 9]))
        elif kind == 15:
            self.frame(self.some_bytes(r.randint(1, 12)), r.choice([0, 9, 16, 255, r.randrange(256)]))
        elif kind == 16:
            self.frame(with_crc(bytes([r.choice([0x26, 0x52, 0x93, 0x95, 0x50, 0x30, 0xA2])]) +
                                self.some_bytes(r.randint(0, 10))), r.choice([8, 8, 8, 7]))
        elif kind == 17:
            self.frame(bytes([r.choice([0x26, 0x52])]) + self.some_bytes(r.choice([1, 1, 2, 3])), r.choice([7, 8]))
        elif kind == 18:
            # Several things wrong at once: which is asked first?
            self.play("frame", self.hexed(self.some_bytes(r.choice([1, 64, 65]))), str(r.choice([0, 8, 9])),
                      str(r.choice([0, 17, 18])))
        else:
            self.frame(self.some_bytes(r.randint(1, 20)), r.choice([8, 8, 8, r.randint(1, 8)]))

    # ------------------------------------------------------------ steps

    def step(self):
        """One call that mostly suits the state."""
        r = self.r
        state = self.state
        kind = r.random() * 100
        if kind < 1.5:
            self.play("memory")
        elif kind < 3:
            self.play("off")
        elif kind < 4:
            self.play("on")
        elif kind < 12:
            self.any_frame()
        elif state == box.OFF:
            self.play("on") if self.chance(80) else self.any_frame()
        elif state == box.KILLED:
            self.play("off") if self.chance(30) else self.any_frame()
        elif state == box.IDLE:
            self.wake() if self.chance(95) else self.short()
        elif state == box.HALT:
            self.frame([0x52 if self.chance(75) else 0x26], 7)
        elif state in (box.READY1, box.READY2):
            kind = r.randrange(100)
            if kind < 62:
                self.selection()
            elif kind < 92:
                self.anticollision()
            elif kind < 96:
                self.anticollision(False)
            else:
                self.selection(False)
        else:
            kind = r.randrange(100)
            if kind < 40:
                self.command(self.read_bytes())
            elif kind < 88:
                self.command(self.write_bytes())
            elif kind < 94:
                self.command(self.halt_bytes())
            else:
                self.damaged(r.choice([self.halt_bytes, self.read_bytes, self.write_bytes])())

    def activate(self):
        """Straight to ACTIVE, or to KILLED where the box was killed."""
        while self.state not in (box.ACTIVE, box.KILLED):
            if self.state == box.OFF:
                self.play("on")
            elif self.state in (box.READY1, box.READY2):
                self.selection()
            else:
                self.frame([0x52], 7)

    # ------------------------------------------------------------ kinds of lists

    def walk(self):
        """A box, and steps at random."""
        if self.chance(8):
            self.new_box(refused=True)
        self.new_box()
        for _ in range(self.r.choice([20, 60, 100, 160])):
            self.step()
        self.play("memory")

    def kill(self):
        """The keyhole, with its locks in all settings."""
        r = self.r
        self.new_box(large=self.chance(50))
        for _ in range(r.randint(1, 4)):
            self.activate()
            if self.chance(30):
                self.command(bytes([0xA2, 47]) + self.some_bytes(4))
            self.activate()
            if self.chance(75):
                self.command(bytes([0xA2, 44, 0, 0, 0, r.choice([0x08] * 6 + [0x18, 0x10, 0x48, 0x09])]))
            for _ in range(r.randint(1, 3)):
                self.activate()
                self.command(bytes([0xA2, 48]) + self.password())
            if self.chance(30):
                self.play("off")
        for _ in range(r.randint(3, 12)):
            self.step()
        self.play("memory")

    def windows(self):
        """Windows at many places, all of each read."""
        r = self.r
        self.new_box(large=self.chance(50))
        for _ in range(r.randint(1, 5)):
            self.activate()
            self.command(bytes([0xA2, 46]) + self.settings())
            if self.chance(30):
                self.activate()
                self.command(bytes([0xA2, r.randint(60, 63)]) + self.some_bytes(4))
            for block in range(0, 64, 4):
                if self.chance(70):
                    self.activate()
                    self.command(bytes([0x30, block]))
            if self.chance(50):
                self.play("off")
        self.play("memory")

    def locks(self):
        """Lock bits set one by one, and after each a WRITE to the blocks about it."""
        r = self.r
        self.new_box(large=self.chance(70))
        for _ in range(r.randint(2, 12)):
            self.activate()
            if self.chance(50):
                bit = r.choice([0, 1, 2, 3, 4, 9, 10, 15, r.randrange(16), r.randrange(16)])
                data = bytes([0xA2, 2]) + self.some_bytes(2) + (1 << bit).to_bytes(2, "little")
                about = [bit]
            else:
                bit = r.randrange(32)
                data = bytes([0xA2, 44]) + (1 << bit).to_bytes(4, "little")
                about = [16 + 2 * bit, 17 + 2 * bit] if bit < 24 else [44 + bit - 24]
            self.command(data)
            blocks = about + [r.choice([about[0] - 1, about[-1] + 1]) % 64, r.randrange(64)]
            for block in r.sample(blocks, len(blocks)):
                self.activate()
                if self.state == box.KILLED:
                    return
                data = self.few_bits(4) if block in (2, 3, 44) else self.some_bytes(4)
                self.command(bytes([0xA2, block]) + data)
        self.play("memory")

    def taps(self):
        """Many taps, so that the code's higher digits count."""
        r = self.r
        self.new_box(large=True)
        for _ in range(r.choice([38, 38, 75, 1340])):
            self.play("on")
            if self.chance(2):
                self.activate()
                self.command(bytes([0xA2, 46]) + self.settings())
            if self.chance(4):
                self.activate()
                self.command(self.read_bytes())
            self.play("off")
        self.play("memory")

    def wear(self):
        """A memory that is used up, and what is still answered then."""
        r = self.r
        kind, writes = r.choice([("picture", 64 + r.randint(0, 300)), ("log", 64 + r.randint(0, 300)),
                                 ("log", r.choice([4095, 4096, 4097, 4294967295]))])
        self.play("box", kind, str(writes), DOC_UID, "01020304", "11223344")
        self.activate()
        self.command(b"\xA2\x2C\x00\x00\x00\x08")
        while self.tag.memory.left() > r.randrange(3):
            self.activate()
            self.frame(with_crc(bytes([0xA2, r.randint(4, 40)]) + self.some_bytes(4)))
        for _ in range(r.randint(10, 50)):
            self.step()
            if self.chance(30):
                self.activate()
                self.command(self.write_bytes())
        self.play("memory")

    def unreadable(self):
        """A few calls, and then a line that cannot be read."""
        r = self.r
        if self.chance(50):
            self.new_box()
            for _ in range(r.randint(0, 10)):
                self.step()
        elif self.chance(60):
            if self.chance(60):
                self.new_box()
            self.new_box(refused=True)
        for _ in range(100):
            words = self.right_words()
            if self.tag is not None or self.chance(40):
                words = self.broken(words)
            if self.chance(30):
                words = self.broken(words)
            trial = box.Trial()
            trial.tag = self.guide.tag
            try:
                trial.play(" ".join(words).encode("latin-1"))
            except box.Expected:
                self.play(*words)
                break
        if self.chance(50):
            self.lines += ["box picture 64 %s 00000000 00000000" % DOC_UID, "on"]

    def right_words(self):
        r = self.r
        return r.choice([
            ["on"], ["off"], ["memory"],
            ["frame", "26", "7"], ["frame", "9320"], ["frame", "-", "0", "18"], ["frame", "5000", "8", "20"],
            ["box", "picture", "1000", DOC_UID, "01020304", "11223344"],
            ["box", "log", "64", DOC_UID, "0102030a", "AABBCCDD"],
            ["box", "log", "64", DOC_UID, "0102030a", "AABBCCDD"]])

    def broken(self, words):
        r = self.r
        words = list(words)
        at = r.randrange(len(words))
        kind = r.randrange(6)
        if kind == 0:
            return words[:max(1, at)]
        if kind == 1:
            return words + [r.choice(["8", "on", "-", "00", "\t", "\r", "x"])]
        if kind == 2:
            words[at] += r.choice(["0", "00", "\r", "\t", "g", "\x00", "\xE9", "-", ","])
        elif kind == 3:
            words[at] = words[at][:-1] or "x"
        elif kind == 4:
            words[at] = r.choice(["Box", "ON", "Picture", "LOG", "-", "--", "0x26", "2", "2G", "+1", "-1", "1.0", "1e2", "256",
                                  "255", "4294967295", "4294967296", "18446744073709551616", "9" * 40, "0" * 30 + "256",
                                  "frames", "\ton", "on,off", "26\t7", "022EE5E284200", "022EE5E28420000", "022EE5E284200G",
                                  "0102030", "010203040", "0102030G", "01_2", "\xB2"])
        else:
            other = r.randrange(len(words))
            words[at], words[other] = words[other], words[at]
        return words

    def make(self):
        kind = self.r.random() * 100
        if kind < 50:
            self.walk()
        elif kind < 60:
            self.kill()
        elif kind < 70:
            self.windows()
        elif kind < 80:
            self.locks()
        elif kind < 82:
            self.taps()
        elif kind < 84:
            self.wear()
        else:
            self.unreadable()
        return self


def make_list(seed, number, seen=None):
    """List `number` of a seed: its lines, and whether it has a line that cannot be read."""
    made = Maker(seed, number, seen).make()
    return made.lines, made.ends


def every_tap():
    """One box, tapped until all codes are drawn, and a little longer."""
    lines = ["box picture 100000 %s 01020304 11223344" % DOC_UID]
    for _ in range(46660):
        lines += ["on", "off"]
    return lines + ["on", "frame 26 7", "memory"]


def main():
    if len(sys.argv) not in (3, 4):
        print(__doc__, file=sys.stderr)
        return 2
    seed, lists = int(sys.argv[1]), int(sys.argv[2])
    only = sys.argv[3] if len(sys.argv) == 4 else None
    if only == "count":
        seen = collections.Counter()
        for number in range(1, lists + 1):
            make_list(seed, number, seen)
        for (before, call, answer, after), times in sorted(seen.items()):
            if answer.startswith("answer 144"):
                answer = "answer 144"
            print("%7d  %-7s %-7s %-7s %s" % (times, before, after, call, answer))
        return 0
    for number in [int(only)] if only else range(1, lists + 1):
        lines, ends = make_list(seed, number)
        text = "# seed %d, list %d%s\n" % (seed, number, ", which cannot be read to its end" if ends else "")
        sys.stdout.buffer.write((text + "\n".join(lines) + "\n").encode("latin-1"))
    return 0


if __name__ == "__main__":
    sys.exit(main())
