#!/usr/bin/env python3
"""Makes a random script for the chip script program of docs/chipscript.md.

    make_chipscript.py SEED LINES        prints a script of LINES lines

crates/chipscript/stdin was made by

    python3 independent/make_chipscript.py 15 3000 > crates/chipscript/stdin

and crates/chipscript/stdout is what independent/chipscript.c prints for it.

A script is a row of scenes: a character sent, a character received, a break, a reset, and so on. So that a scene has clocks that fit the
chip, the generator follows the registers and flags that a script writes (class Registers); it knows nothing of what the chip answers. The
clocks of a script are at most 950 for each of its lines. The numbers come from a generator of its own, so that a seed gives the same script
under every Python.
"""

import sys

CLOCKS_PER_LINE = 950
LONGEST_RUN = 30_000  # clocks of one line, but for slow characters

SMALL_RATES = [(1, 10), (2, 6), (3, 4), (5, 3), (1025, 4), (1026, 1), (1027, 1)]
SLOW_RATES = [(0, 4), (1024, 2), (1023, 1), (2047, 1), (1592, 1), (1536, 1), (512, 1), (256, 1)]
INTERVALS = [(0, 3), (1, 6), (2, 5), (3, 1), (25, 3), (128, 1)]
CHARACTERS = [0, 1, 65, 85, 127, 128, 170, 254, 255]

# Single writes: the weight of each address.
WRITES = [(a, 1) for a in range(11)] + [(7, 2), (10, 1), (11, 2), (12, 2), (13, 3), (14, 2), (15, 4), (16, 6), (17, 5), (18, 5), (19, 5),
                                        (20, 6), (21, 6), (31, 1)] + [(a, 0.4) for a in range(22, 31)]

MALFORMED = [
    "", " ", "?", "X", "o 1 1 1 1", "w 16 1", "t", "OO 1 1 1 1", "O", "O 131 1 1", "O 131 1 1 0 0", "O 256 1 1 0", "O 131 2048 1 0",
    "O 131 1 2048 0", "O 131 1 1 256", "O 131 1 1 -1", "W", "W 31", "W 32 0", "W 31 2", "W 31 x", "W 31 0 0", "W31 0", "W 310", "W 3l 0",
    "W -1 0", "C", "C 5", "C 5 1", "C 5 1 1 1", "C 5 2 1", "C 5 1 2", "C 4294967296 1 1", "C 18446744073709551617 1 1", "C 1.5 1 1",
    "C -3 1 1", "C 0x3 1 1", "C 3,1,1", "D", "D 2", "D 1 1", "P", "P 0 8", "P 0 8 1 1", "P 0 0 0", "P 0 17 0", "P 31 2 3", "P 17 16 65535",
    "P 32 1 1", "P 0 16 65536", "G", "G 0", "G 0 0", "G 0 17", "G 31 2", "G 20 13", "G 32 1", "G 0 8 8", "L", "L 256", "L 65 66", "L A",
    "T 1", "TT", "1 T", "O131 1 1 0",
]


class Chance:
    """Random numbers: splitmix64."""

    def __init__(self, seed):
        self.state = seed % 2**64

    def bits(self):
        self.state = (self.state + 0x9E3779B97F4A7C15) % 2**64
        z = self.state
        z = (z ^ (z >> 30)) * 0xBF58476D1CE4E5B9 % 2**64
        z = (z ^ (z >> 27)) * 0x94D049BB133111EB % 2**64
        return z ^ (z >> 31)

    def between(self, low, high):
        """low to high, both included."""
        return low + self.bits() % (high - low + 1)

    def one_of(self, items):
        return items[self.bits() % len(items)]

    def weighted(self, pairs):
        at = self.bits() / 2**64 * sum(weight for _, weight in pairs)
        for item, weight in pairs:
            at -= weight
            if at < 0:
                return item
        return pairs[-1][0]

    def happens(self, percent):
        return self.bits() % 100 < percent

    def shuffled(self, items):
        items = list(items)
        for last in range(len(items) - 1, 0, -1):
            at = self.between(0, last)
            items[at], items[last] = items[last], items[at]
        return items


class Deck:
    """Items drawn in random order, all of them before one comes again."""

    def __init__(self, chance, items):
        self.chance, self.items, self.left = chance, items, []

    def draw(self):
        if not self.left:
            self.left = self.chance.shuffled(self.items)
        return self.left.pop()


class Registers:
    """The registers and flags that writes reach, and the recovery count."""

    def __init__(self):
        self.open(0, 0, 0, 0)

    def open(self, control, transmit, receive, interval):
        self.control, self.transmit, self.receive, self.interval = control, transmit, receive, interval
        self.ldctrl = self.ldir = self.lrdr = self.lxdr = 0
        self.tstmd = self.rtson = self.brkon = 0
        self.recovery = 0

    def reset(self):
        self.ldctrl = self.ldir = self.lrdr = self.lxdr = 1
        self.tstmd = self.rtson = self.brkon = 0
        self.recovery = 11

    def write(self, address, bit):
        names = {11: "lxdr", 12: "lrdr", 13: "ldir", 14: "ldctrl", 15: "tstmd", 16: "rtson", 17: "brkon"}
        if address <= 10:
            self.write_register(address, bit)
        elif address in names:
            setattr(self, names[address], bit)
        elif address == 31:
            self.reset()

    def write_register(self, address, bit):
        if self.ldctrl:
            self.write_byte("control", "ldctrl", address, bit)
        elif self.ldir:
            self.write_byte("interval", "ldir", address, bit)
        elif self.lrdr or self.lxdr:
            self.write_rates(address, bit)

    def write_byte(self, register, flag, address, bit):
        if address > 7:
            return
        self.set_bit(register, address, bit)
        if address == 7:
            setattr(self, flag, 0)

    def write_rates(self, address, bit):
        if self.lrdr:
            self.set_bit("receive", address, bit)
        if self.lxdr:
            self.set_bit("transmit", address, bit)
        if address == 10:
            self.lrdr = 0

    def set_bit(self, register, address, bit):
        setattr(self, register, getattr(self, register) & ~(1 << address) | bit << address)

    def put(self, address, count, number):
        if self.recovery > 0:
            return
        for i in range(count):
            self.write(address + i, number >> i & 1)

    def clocks(self, count):
        self.recovery = max(0, self.recovery - count)

    def load_flag(self):
        return self.ldctrl or self.ldir or self.lrdr or self.lxdr

    @property
    def q(self):
        return 4 if self.control & 8 else 3

    @property
    def data_bits(self):
        return 5 + self.control % 4

    @property
    def parity(self):
        return self.control >> 5 & 1

    @property
    def odd(self):
        return self.control >> 4 & 1

    @property
    def stop(self):
        """Half-bits of the stop."""
        return [3, 4, 2, 2][self.control >> 6]

    @property
    def half_bits(self):
        """Half-bits of a character."""
        return 2 + 2 * (self.data_bits + self.parity) + self.stop


def half_bit_count(rate):
    return (8 if rate & 1024 else 1) * (rate % 1024 or 1024)


class Script:
    """The lines made so far, and one method for each kind of line."""

    def __init__(self, seed, most_lines):
        self.chance = Chance(seed)
        self.lines = []
        self.most_lines = most_lines
        self.clocks_left = CLOCKS_PER_LINE * most_lines
        self.chip = Registers()
        self.line, self.cts, self.dsr = 1, 0, 0
        self.scenes = Deck(self.chance, [scene for scene, weight in SCENES for _ in range(weight)])
        self.malformed = Deck(self.chance, MALFORMED)

    def full(self):
        return len(self.lines) >= self.most_lines

    def say(self, *words):
        self.lines.append(" ".join(str(word) for word in words))

    def open(self, control, transmit, receive, interval):
        self.chip.open(control, transmit, receive, interval)
        self.dsr = 0
        self.say("O", control, transmit, receive, interval)

    def write(self, address, bit):
        self.chip.write(address, bit)
        self.say("W", address, bit)

    def run(self, count, line=None, cts=None, longest=LONGEST_RUN):
        """Clocks. The levels stay for the runs that follow."""
        self.line = self.line if line is None else line
        self.cts = self.cts if cts is None else cts
        count = max(0, min(count, longest, self.clocks_left))
        self.clocks_left -= count
        self.chip.clocks(count)
        self.say("C", count, self.line, self.cts)

    def set_dsr(self, state):
        self.dsr = state
        self.say("D", state)

    def put(self, address, count, number):
        self.chip.put(address, count, number)
        self.say("P", address, count, number)

    def get(self, address, count):
        self.say("G", address, count)

    def load(self, character):
        self.say("L", character)

    def take(self):
        self.say("T")

    # ---- Times, in phi clocks ----

    def receive_half(self):
        return self.chip.q * half_bit_count(self.chip.receive)

    def transmit_half(self):
        return self.chip.q * half_bit_count(self.chip.transmit)

    def transmit_character(self):
        return self.transmit_half() * self.chip.half_bits

    def timer_period(self):
        return (2 if self.chip.tstmd else 64) * self.chip.interval * self.chip.q

    # ---- Random things ----

    def bit(self):
        return self.chance.between(0, 1)

    def character(self):
        return self.chance.one_of(CHARACTERS) if self.chance.happens(40) else self.chance.between(0, 255)

    def near(self, count):
        return max(0, count + self.chance.between(-2, 2))

    def some_time(self):
        """A number of clocks at which something may happen."""
        kind = self.chance.weighted([("few", 8), ("q", 5), ("half", 3), ("bit", 4), ("character", 2), ("timer", 2)])
        return {
            "few": self.chance.between(1, 3),
            "q": self.chip.q,
            "half": self.near(self.chance.one_of([self.receive_half(), self.transmit_half()])),
            "bit": self.near(2 * self.chance.one_of([self.receive_half(), self.transmit_half()])),
            "character": self.near(self.transmit_character()),
            "timer": self.near(self.timer_period()),
        }[kind]


# ---- Setting up ----


def small_rates(s):
    transmit = s.chance.weighted(SMALL_RATES)
    receive = transmit if s.chance.happens(65) else s.chance.weighted(SMALL_RATES)
    return transmit, receive


def open_chip(s):
    transmit, receive = small_rates(s)
    s.open(s.chance.between(0, 255), transmit, receive, s.chance.weighted(INTERVALS))
    s.line, s.cts = 1, 1 if s.chance.happens(85) else 0
    if s.chance.happens(80):
        s.write(16, 1)
    if s.chance.happens(60):
        enable(s)
    if s.chance.happens(20):
        feed(s, levels_of(s, s.character()))
    s.run(s.chance.between(1, 12), 1)


def enable(s):
    """Interrupts, one by one or all of them."""
    if s.chance.happens(40):
        s.put(18, 4, 15)
    else:
        s.write(s.chance.between(18, 21), 1)


def manual_setup(s):
    """As the manual does it: control, interval, receive rate, transmit rate, RTSON. Some of it in other ways."""
    transmit, receive = small_rates(s)
    set_control(s)
    set_interval(s)
    if s.chance.happens(85):
        s.put(0, 11, receive)
    else:
        s.write(12, 0)
    if s.chance.happens(85):
        s.put(0, 12, transmit)
    else:
        s.put(0, 16, transmit)
    if s.chance.happens(90):
        s.write(16, 1)
    if s.chance.happens(20):
        enable(s)


def set_control(s):
    control = s.chance.between(0, 255)
    way = s.chance.weighted([("put", 10), ("bits", 1), ("more", 2), ("none", 1)])
    if way == "put":
        s.put(0, 8, control)
    elif way == "bits":
        for i in range(8):
            s.write(i, control >> i & 1)
    elif way == "more":
        s.put(8, 3, s.chance.between(0, 7))
        s.put(0, 11, control + 256 * s.chance.between(0, 7))
    else:
        s.write(14, 0)


def set_interval(s):
    way = s.chance.weighted([("put", 10), ("more", 2), ("none", 2)])
    interval = s.chance.weighted(INTERVALS)
    if way == "put":
        s.put(0, 8, interval)
    elif way == "more":
        s.put(0, 10, interval + 256 * s.chance.between(0, 3))
    else:
        s.write(13, 0)


def working(s):
    """Mostly, the chip is made to work again: no load flags, no break, no test mode, RTS on, CTS active."""
    if s.chance.happens(12):
        return
    s.run(s.chip.recovery) if s.chip.recovery else None
    if s.chip.load_flag():
        s.put(11, 4, 0) if s.chance.happens(80) else [s.write(a, 0) for a in (14, 13, 12, 11)]
    if s.chip.brkon:
        s.write(17, 0)
    if s.chip.tstmd:
        s.write(15, 0)
    if not s.chip.rtson:
        s.write(16, 1)
    s.cts = 1
    keep_rates_small(s)


def keep_rates_small(s):
    """Random bits may have made a rate slow."""
    if max(s.transmit_half(), s.receive_half()) > 200:
        transmit, receive = small_rates(s)
        s.put(11, 2, 3)
        s.put(0, 11, receive)
        s.put(0, 12, transmit)


def same_rates(s):
    if s.chip.transmit != s.chip.receive:
        s.put(11, 2, 3)
        s.put(0, 12, s.chance.weighted(SMALL_RATES))


# ---- Receiving ----


def levels_of(s, character):
    """Start, data bits, parity bit and stop of a character, without faults."""
    data = [character >> i & 1 for i in range(s.chip.data_bits)]
    parity = [(sum(data) + s.chip.odd) % 2] if s.chip.parity else []
    return [0] + data + parity + [1]


def damage(s, levels):
    """One level is wrong: the stop, the parity bit or any but the start."""
    at = s.chance.one_of([len(levels) - 1, len(levels) - 2, s.chance.between(1, len(levels) - 1)])
    levels[at] ^= 1


def feed(s, levels):
    """Bit by bit; one time in three, equal neighbours are one run. Now and then the format changes before the start sample, or something
    else happens amid a bit."""
    bit = 2 * s.receive_half()
    pieces = [(bit, level) for level in levels]
    if s.chance.happens(33):
        pieces = joined(pieces)
    for i, (time, level) in enumerate(pieces):
        if s.chance.happens(15 if i == 0 else 8):
            first = s.chance.between(0, bit // 2 if i == 0 else time)
            s.run(first, level)
            turn_control_bit(s, s.chance.one_of([0, 1, 4, 5])) if i == 0 else meddle(s)
            s.run(time - first)
        else:
            s.run(time, level)


def joined(pieces):
    whole = []
    for time, level in pieces:
        if whole and whole[-1][1] == level:
            whole[-1] = (whole[-1][0] + time, level)
        else:
            whole.append((time, level))
    return whole


def meddle(s):
    """Something that takes no time."""
    kind = s.chance.weighted([("get", 2), ("take", 2), ("load", 2), ("control", 6), ("rate", 2), ("dsr", 1), ("interrupts", 2)])
    if kind == "get":
        some_get(s)
    elif kind == "take":
        s.take()
    elif kind == "load":
        s.load(s.character())
    elif kind == "control":
        new_control(s)
    elif kind == "rate":
        new_rates(s)
    elif kind == "dsr":
        s.set_dsr(s.bit())
    else:
        s.write(s.chance.between(18, 21), s.bit())


def new_control(s):
    """One bit of the control register turned over, or a new control register, or the lower bits of one."""
    way = s.chance.weighted([("turn", 5), ("new", 2), ("lower", 1)])
    if way == "turn":
        turn_control_bit(s, s.chance.between(0, 7))
    elif way == "new":
        s.write(14, 1)
        s.put(0, 8, s.chance.between(0, 255))
    else:
        s.write(14, 1)
        s.put(0, s.chance.between(2, 6), s.chance.between(0, 63))
        s.run(s.some_time())
        s.write(14, 0)


def turn_control_bit(s, at):
    control = s.chip.control ^ 1 << at
    s.write(14, 1)
    s.put(at, 8 - at, control >> at)


def new_rates(s):
    """Both rates or one, or some bits of them."""
    which = s.chance.between(1, 3)  # LXDR, LRDR or both
    s.put(11, 2, which)
    if s.chance.happens(75):
        s.put(0, 11, s.chance.weighted(SMALL_RATES))
    else:
        s.put(0, 3, s.chance.between(0, 7))
        s.run(s.some_time())
    if s.chip.lrdr or s.chip.lxdr:
        s.put(11, 2, 0)


def after_receiving(s):
    for _ in range(s.chance.weighted([(0, 4), (1, 8), (2, 2)])):
        kind = s.chance.weighted([("take", 6), ("get", 2), ("forget", 1)])
        if kind == "take":
            s.take()
        elif kind == "get":
            s.get(0, s.chance.between(8, 16))
        else:
            s.write(18, s.bit())


def receive(s):
    """One to three characters, often while others are sent."""
    working(s)
    if s.chance.happens(25):
        new_rates(s)
    s.run(s.chance.between(1, 9), 1)
    for _ in range(s.chance.weighted([(1, 6), (2, 3), (3, 1)])):
        if s.chance.happens(60):
            give(s, s.character())
        levels = levels_of(s, s.character())
        if s.chance.happens(40):
            damage(s, levels)
        feed(s, levels)
        after_receiving(s)
    s.run(s.some_time())
    s.run(s.chance.between(1, 8), 1)


def receive_break(s):
    """Space for longer than a character, then mark, then a character."""
    working(s)
    s.run(s.chance.between(3, 9), 1)
    half = s.receive_half()
    for _ in range(s.chance.between(1, 3)):
        s.run(s.near(half * s.chance.between(3, s.chip.half_bits)), 0)
    after_receiving(s)
    if s.chance.happens(50):
        s.run(s.chance.between(1, 2), 1)
    s.run(half + s.chance.between(-2, 2 * s.chip.q), 0)
    s.run(s.chance.between(1, 6), 1)
    if s.chance.happens(50):
        feed(s, levels_of(s, s.character()))
        after_receiving(s)


def false_start(s):
    """Space for less than half a bit, or just about half a bit."""
    working(s)
    s.run(s.chance.between(3, 9), 1)
    half = s.receive_half()
    s.run(s.chance.one_of([s.chance.between(1, half), s.near(half), half, half + s.chip.q]), 0)
    s.run(s.chance.between(1, half), 1)
    s.run(s.some_time(), 1)


def noise(s):
    for _ in range(s.chance.between(3, 9)):
        s.run(s.some_time(), s.bit(), s.cts ^ s.chance.happens(15))


# ---- Sending ----


def give(s, character):
    """A character for the transmit buffer."""
    way = s.chance.weighted([("load", 8), ("put", 3), ("part", 1), ("more", 1), ("bits", 1)])
    if way == "load":
        s.load(character)
    elif way == "put":
        s.put(0, 8, character)
    elif way == "part":
        s.put(0, 5, character % 32)
        s.put(5, 3, character // 32)
    elif way == "more":
        s.put(0, 10, character + 256 * s.chance.between(0, 3))
    else:
        for i in (0, 3, 7):
            s.write(i, s.bit())


def watch(s, clocks):
    """A few runs that show what is sent, for these clocks in all."""
    for _ in range(s.chance.between(1, 4)):
        step = s.chance.one_of([s.chip.q, s.transmit_half(), 2 * s.transmit_half(), clocks // 2])
        if 0 < step < clocks:
            s.run(step)
            clocks -= step
    s.run(clocks)


def slowly(s):
    """Two internal clocks or one, the second way phi clock by phi clock."""
    if s.chance.happens(70):
        s.run(s.chip.q)
        s.run(s.chip.q)
    else:
        singly(s)


def singly(s):
    for _ in range(s.chip.q + 1):
        s.run(1)


def send(s):
    working(s)
    s.line = 1
    give(s, s.character())
    slowly(s) if s.chance.happens(40) else s.run(s.chip.q)
    time = s.transmit_character()
    for _ in range(s.chance.between(1, 2)):
        event = s.chance.weighted([("next", 8), ("rts off", 4), ("cts off", 3), ("brkon", 3), ("format", 3), ("rate", 2), ("rts on", 1)])
        watch(s, s.chance.between(1, time // 2))
        sending_event(s, event)
    watch(s, time + s.transmit_half())
    end_of_sending(s)


def sending_event(s, event):
    if event == "next":
        for _ in range(s.chance.between(1, 2)):
            give(s, s.character())
    elif event in ("rts off", "rts on"):
        s.write(16, 1 if event == "rts on" else 0)
    elif event == "cts off":
        s.run(s.chip.q, None, 0)
    elif event == "brkon":
        s.write(17, 1)
    elif event == "format":
        new_control(s)
    else:
        new_rates(s)


def end_of_sending(s):
    """What waits may go out now."""
    if s.chip.brkon and s.chance.happens(70):
        s.write(17, 0)
    if not s.cts:
        s.run(s.chip.q, None, 1)
    if not s.chip.rtson and s.chance.happens(60):
        s.write(16, 1)
    watch(s, s.chance.between(1, s.transmit_character()))


def whole_character(s):
    """A character from an idle transmitter, to the clock of its end."""
    working(s)
    s.run(s.transmit_character() + 2 * s.chip.q, 1)
    s.load(s.character())
    if s.chance.happens(50):
        s.load(s.character())
    slowly(s)
    if s.chance.happens(50):
        s.load(s.character())
    if s.chance.happens(50):
        s.write(16, 0)
    s.run(max(0, s.transmit_character() - 2 * s.chip.q - 2))
    slowly(s)
    slowly(s)
    if s.chance.happens(50):
        s.run(s.transmit_character())


def format_changes(s):
    """The control register changes while a character is sent and often one received, mostly with parity. Both keep their format."""
    working(s)
    same_rates(s)
    s.run(s.transmit_character() + 2 * s.chip.q, 1)
    if not s.chip.parity and s.chance.happens(75):
        turn_control_bit(s, 5)
    s.load(s.character())
    s.run(s.chip.q)
    levels = levels_of(s, s.character())
    if s.chance.happens(35):
        levels = [1] * len(levels)
    at = s.chance.between(1, len(levels) - 1)
    for i, level in enumerate(levels):
        if i == at:
            turn_control_bit(s, s.chance.one_of([0, 1, 4, 4, 5, 6, 7]))
        s.run(2 * s.transmit_half(), level)
    slowly(s)
    if s.chance.happens(50):
        s.take()


def wait_for_cts(s):
    working(s)
    s.run(s.chip.q, 1, 0)
    give(s, s.character())
    if s.chance.happens(30):
        s.write(16, 0)
    s.run(s.some_time())
    if s.chance.happens(30):
        s.write(17, 1)
    s.run(s.chance.between(1, 2), None, 1)
    slowly(s)
    watch(s, s.transmit_character())


def send_break(s):
    working(s)
    if s.chance.happens(25):
        s.write(16, 0)
    s.run(s.chip.q, 1)
    s.write(17, 1)
    if s.chance.happens(30):
        give(s, s.character())
    slowly(s)
    break_event(s)
    slowly(s)
    s.write(17, 0)
    if s.chance.happens(50):
        give(s, s.character())
    slowly(s)
    slowly(s)
    if s.chance.happens(60):
        watch(s, s.transmit_character())


def break_event(s):
    event = s.chance.weighted([("load", 2), ("put", 2), ("cts", 3), ("rts", 2), ("time", 2)])
    if event == "load":
        s.load(s.character())
    elif event == "put":
        s.put(0, s.chance.between(7, 11), s.character())
    elif event == "cts":
        s.run(s.chip.q, None, 0)
        s.run(s.chip.q, None, 1)
    elif event == "rts":
        s.write(16, 0)
    else:
        s.run(s.some_time())


def break_and_character(s):
    """BRKON while a character is sent: the break follows its stop at once, and RTS stays as long as BRKON does."""
    working(s)
    s.run(s.transmit_character() + s.chip.q, 1)
    s.load(s.character())
    if s.chance.happens(50):
        s.write(17, 1)
    s.run(s.chip.q)
    if not s.chip.brkon:
        s.write(17, 1)
    if s.chance.happens(50):
        s.write(16, 0)
    s.run(max(0, s.transmit_character() - s.chip.q - 1))
    slowly(s)
    slowly(s)
    s.write(17, 0)
    slowly(s)


def break_and_reset(s):
    """A reset amid a break, then single writes, which need no recovery, until a character waits before the next clock."""
    working(s)
    s.run(s.transmit_character() + s.chip.q, 1)
    s.write(17, 1)
    s.run(2 * s.chip.q)
    s.write(31, s.bit())
    for address in (14, 13, 12, 11):
        s.write(address, 0)
    s.write(16, 1)
    s.write(7, s.bit())
    slowly(s)
    for _ in range(s.chip.data_bits):
        s.run(2 * s.transmit_half())


def request_to_send(s):
    """RTSON on and off; RTS falls at an internal clock, and not while a character waits."""
    if s.chance.happens(40):
        s.run(s.chip.q, 1, 0)
        s.load(s.character())
    for _ in range(s.chance.between(3, 6)):
        s.write(16, s.bit())
        if s.chance.happens(70):
            s.run(s.chance.between(1, s.chip.q))
    s.run(s.chip.q, None, 1)


# ---- Reset, registers ----


def upset(s):
    """Much is going on and many flags stand."""
    working(s)
    if s.chance.happens(70):
        enable(s)
    if s.chance.happens(50):
        give(s, s.character())
    s.run(s.chance.between(1, 9), 1)
    if s.chance.happens(70):
        levels = levels_of(s, s.character())
        damage(s, levels)
        feed(s, levels)
    if s.chance.happens(60):
        s.write(s.chance.one_of([13, 15, 15, 17]), 1)
        s.run(s.chip.q, 1)
    if s.chance.happens(60):
        s.cts = s.bit()
        give(s, s.character())
        s.run(2 * s.receive_half() * s.chance.between(1, 4), 0)


def turn_line(s):
    """DSR or CTS changes, often not yet seen by an internal clock."""
    if s.bit():
        s.set_dsr(1 - s.dsr)
        s.run(1)
    else:
        s.run(1, None, 1 - s.cts)


def reset(s):
    if s.chance.happens(60):
        upset(s)
    if s.chance.happens(60):
        turn_line(s)
    if s.chance.happens(70):
        s.write(31, s.bit())
    else:
        count = s.chance.between(1, 16)
        s.put(32 - count, count, s.chance.between(0, 2**count - 1))
    for _ in range(s.chance.between(0, 2)):
        any_call(s)
    if s.chance.happens(30):
        reset_meddling(s)
    else:
        recovery(s)
    if s.chance.happens(40):
        s.run(64 * s.chip.q * s.chance.between(1, 3), s.bit())
    manual_setup(s)
    s.run(s.chance.between(1, 12), 1)
    if s.chance.happens(60):
        s.chance.one_of([receive, whole_character])(s)


def reset_meddling(s):
    """Writes and clocks before the chip has recovered, often another reset."""
    for _ in range(s.chance.between(1, 4)):
        s.write(s.chance.weighted(WRITES), s.bit())
        s.run(s.chance.between(1, 4), s.bit())
        any_call(s)
    if s.chance.happens(80):
        s.write(31, s.bit())
        recovery(s)
    s.run(11)


def recovery(s):
    """Ten clocks are not enough, eleven are."""
    s.run(10, s.line if s.chance.happens(60) else 1 - s.line)
    any_call(s)
    any_call(s)
    s.run(1)
    any_call(s)


def any_call(s):
    kind = s.chance.weighted([("put", 3), ("get", 2), ("load", 2), ("take", 2)])
    if kind == "put":
        s.put(18, 4, s.chance.between(0, 15))
    elif kind == "get":
        some_get(s)
    elif kind == "load":
        s.load(s.character())
    else:
        s.take()


def some_get(s):
    if s.chance.happens(50):
        s.get(s.chance.one_of([0, 16]), 16)
    else:
        count = s.chance.between(1, 16)
        s.get(s.chance.between(0, 32 - count), count)


def reload(s):
    """Load flags in any combination, then puts under them."""
    full = s.chance.happens(30)
    if full:
        s.run(s.chip.q, None, 0)
        s.load(s.character())
    s.put(11, 4, s.chance.between(1, 15)) if s.chance.happens(60) else s.write(s.chance.between(11, 14), 1)
    if full or s.chance.happens(30):
        s.load(s.character())
    for _ in range(s.chance.between(1, 4)):
        put_register(s)
        if s.chance.happens(20):
            s.run(s.some_time())
    if s.chance.happens(70) and s.chip.load_flag():
        s.put(11, 4, 0)
    s.run(s.some_time())


def put_register(s):
    count = s.chance.weighted([(8, 5), (11, 5), (12, 4), (16, 2), (3, 3), (s.chance.between(1, 16), 2)])
    number = s.chance.weighted(SMALL_RATES) if count >= 11 else s.chance.weighted(INTERVALS + [(s.chance.between(0, 255), 12)])
    if count == 16:
        number += s.chance.between(0, 31) * 2048
    if count == 3:
        s.put(8, 3, s.chance.between(1, 7))
    else:
        s.put(0, count, number % 2**count)


# ---- Timer, lines, test mode ----


def timer(s):
    s.run(s.chip.recovery) if s.chip.recovery else None
    if s.chance.happens(75):
        s.write(15, 1 if s.chance.happens(25) else 0)
    if s.chance.happens(50):
        s.write(20, s.bit())
    load_timer(s)
    for _ in range(s.chance.between(1, 3)):
        timer_elapses(s)
    if s.chance.happens(60):
        s.write(20, s.bit())


def load_timer(s):
    """The interval register, all of it or some bits, and the timer with it; or the bits alone, for the next time that it elapses."""
    s.put(13, 2, 1)
    way = s.chance.weighted([("put", 5), ("none", 1), ("beyond", 2), ("bits", 2)])
    if way == "put":
        s.put(0, 8, s.chance.weighted(INTERVALS))
    elif way == "beyond":
        s.put(8, 3, s.chance.between(1, 7))
        s.put(0, 8, s.chance.between(1, 2))
    elif way == "bits":
        s.put(0, 2, s.chance.between(0, 3))
    else:
        s.write(13, 0)


def timer_elapses(s):
    """To the internal clock before the timer elapses, and over it. Amid that, test mode may change, or LDIR be written."""
    period = s.timer_period() or 64 * s.chip.q
    if s.chance.happens(20):
        s.run(s.chance.between(1, period))
        s.write(15, 1 - s.chip.tstmd)
        s.run(s.some_time())
    first = 0
    if s.chance.happens(25):
        first = s.chance.between(0, period // 2)
        s.run(first)
        s.write(13, s.bit())
    s.run(max(0, period - first - s.chip.q - s.chance.between(0, 1)))
    for _ in range(s.chance.between(2, s.chip.q + 1)):
        s.run(1)


def control_lines(s):
    if s.chance.happens(60):
        s.write(21, s.bit())
    for _ in range(s.chance.between(2, 6)):
        if s.chance.happens(40):
            s.set_dsr(1 - s.dsr)
        s.run(s.chance.between(1, s.chip.q), None, s.cts ^ s.chance.happens(40))
        if s.chance.happens(20):
            s.write(21, s.bit())


def test_mode(s):
    """The chip receives what it sends, whatever the line has."""
    working(s)
    if s.chance.happens(80):
        same_rates(s)
    s.write(15, 1)
    for _ in range(s.chance.between(1, 3)):
        give(s, s.character())
        if s.chance.happens(30):
            s.write(17, 1)
        s.line, s.cts = s.bit(), s.bit()
        watch(s, s.transmit_character() + s.chip.q)
        if s.chance.happens(60):
            s.take()
    if s.chip.brkon:
        s.write(17, 0)
    if s.chance.happens(50):
        s.run(s.transmit_character())
        s.write(16, 0)
        singly(s)
    if s.chance.happens(80):
        s.line, s.cts = 1, 1
        s.write(15, 0)
        s.run(s.some_time())


# ---- Others ----


def single_writes(s):
    for _ in range(s.chance.between(2, 8)):
        s.write(s.chance.weighted(WRITES), s.bit())
        if s.chance.happens(60):
            s.run(s.some_time(), s.line ^ s.chance.happens(15), s.cts ^ s.chance.happens(15))


def puts(s):
    for _ in range(s.chance.between(1, 3)):
        count = s.chance.between(1, 16)
        last = 32 if s.chance.happens(10) else 31
        s.put(s.chance.between(0, last - count), count, s.chance.between(0, 2**count - 1))
        s.run(s.some_time())


def wide_number(s):
    """Bits of the number above the count do nothing."""
    count = s.chance.between(1, 15)
    s.put(s.chance.between(15, 31 - count), count, s.chance.between(0, 65535))
    s.run(s.some_time())


def gets(s):
    for _ in range(s.chance.between(1, 3)):
        some_get(s)
    if s.chance.happens(40):
        s.take()


def malformed(s):
    for _ in range(s.chance.between(1, 3)):
        s.say(s.malformed.draw())


def no_clocks(s):
    s.run(0, s.bit(), s.bit())


def slow(s):
    slow_character(s, s.chance.between(0, 255), s.chance.weighted(SLOW_RATES), s.chance.happens(50))


def slowest(s):
    """The largest countdown: 2 stop bits at the slowest rate."""
    slow_character(s, 64 + s.chance.one_of([0, 1, 2, 3, 32, 33, 48, 49]), 1024, True)


def slow_character(s, control, rate, whole):
    """The start of a character or all of it, each element to the clock of its end, while the line has a break."""
    s.open(control, rate, rate, s.chance.weighted(INTERVALS))
    s.write(16, 1)
    s.run(2 * s.chip.q, 1, 1)
    s.load(s.character())
    s.run(s.chip.q, 0, 1)
    half = s.transmit_half()
    elements = [1, 1, 1, 1]
    if whole and s.transmit_character() < s.clocks_left // 3:
        elements += [2] * (s.chip.data_bits + s.chip.parity - 1) + [s.chip.stop]
    for half_bits in elements:
        s.run(half_bits * half - 1, None, None, 4 * half)
        s.run(1)


# Each scene and how often it is in the deck.
SCENES = [
    (receive, 8),
    (receive_break, 4),
    (false_start, 4),
    (noise, 3),
    (send, 6),
    (whole_character, 4),
    (format_changes, 5),
    (wait_for_cts, 3),
    (send_break, 4),
    (break_and_character, 3),
    (break_and_reset, 1),
    (request_to_send, 3),
    (reset, 6),
    (reload, 6),
    (timer, 6),
    (control_lines, 5),
    (test_mode, 4),
    (single_writes, 6),
    (puts, 4),
    (wide_number, 2),
    (gets, 4),
    (malformed, 7),
    (no_clocks, 1),
    (slow, 2),
]


def before_open(s):
    """The chip before the first O."""
    some_get(s)
    s.load(s.character())
    s.write(16, 1)
    s.run(3, 1, 1)
    s.run(6143)
    s.run(1)


def make(seed, most_lines):
    s = Script(seed, most_lines)
    before_open(s)
    slowest(s)
    while not s.full():
        open_chip(s)
        for _ in range(s.chance.between(3, 9)):
            s.scenes.draw()(s)
        if s.chance.happens(15):
            s.write(31, s.bit())
    return s.lines[:most_lines]


def main(arguments):
    if len(arguments) != 2 or not all(a.isascii() and a.isdigit() for a in arguments):
        sys.exit("usage: make_chipscript.py SEED LINES")
    for line in make(int(arguments[0]), int(arguments[1])):
        print(line)


if __name__ == "__main__":
    main(sys.argv[1:])
