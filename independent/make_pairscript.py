#!/usr/bin/env python3
"""Makes a random script for the script program of docs/script.md.

    make_pairscript.py SEED LINES        prints a script of LINES lines; one script in two lacks its last byte 10

A script is a row of scenes over one bench: characters sent, a break, a reset, test mode, malformed lines and so on. So that a scene has moments
that fit the chips, the generator follows the registers and flags that a script writes (class Registers of make_chipscript.py); it knows
nothing of what the bench answers. The moments of a script are about 900 for each of its lines.

Of the causes, 8 cannot be drawn by a script, since nothing ever waits in a straight cable, and 10 only by 40,000 lines of 100,000 moments;
make_eventscript.py draws both. Scripts of about 10,000 lines open the bench with every control value.
"""

import sys

from make_chipscript import CHARACTERS, Chance, Deck, Registers, half_bit_count

MOMENTS_PER_LINE = 900
LONGEST_RUN = 20_000  # moments of one line, but for the edges of M

RATES = [(1, 10), (2, 6), (3, 4), (5, 2), (7, 1), (1025, 3), (1026, 1)]
SLOW_RATES = [(0, 4), (1024, 1), (1023, 1), (2047, 1), (1592, 1), (256, 2), (100, 2)]
INTERVALS = [(0, 2), (1, 6), (2, 5), (3, 1), (25, 1), (255, 1)]

WORDS = 2**32  # one more than the largest number of a field
OVERLONG = [WORDS, WORDS + 1, 10 * WORDS, 2**64, 2**64 + 1, 2**128 + 1, 10**70]
BAD_BYTES = [0, 1, 9, 9, 9, 11, 12, 13, 13, 33, 43, 45, 46, 47, 47, 47, 58, 58, 58, 65, 79, 97, 127, 128, 160, 176, 177, 194, 255]
ENDS = [(0, 6), (1, 6), (2, 3), (3, 1), (WORDS - 1, 1), (WORDS - 2, 1)]
ADDRESSES = [0, 1, 7, 10, 15, 16, 17, 18, 30, 31, 31, 32, 32, 33, 255, WORDS - 1, WORDS - 16]
COUNTS = [0, 1, 1, 2, 8, 15, 16, 16, 17, 17, 18, 32, WORDS - 1, WORDS - 31]
NUMBERS = [0, 1, 255, 256, 32768, 65535, 65535, 65536, 65537, WORDS - 1]
FIRST_BYTES = list(b"oQmNpgltXSKEC0 ?\t\r\0\x7f\xcf\xcd\xd0\xff")


class BenchScript:
    """The lines made so far, and one method for each kind of line."""

    def __init__(self, seed, most_lines):
        self.chance = Chance(seed)
        self.lines = []
        self.most_lines = most_lines
        self.moments_left = MOMENTS_PER_LINE * most_lines
        self.ends = [Registers(), Registers()]
        self.is_open = False
        self.delay = 0  # of the cable, toward the end that is farther off
        self.controls = Deck(self.chance, list(range(256)))  # for open: every value before one comes again

    def full(self):
        return len(self.lines) >= self.most_lines

    def say(self, *words):
        self.lines.append(" ".join(str(word) for word in words).encode())

    def say_open(self, control, x, r, interval):
        self.say("O", control, x, r, interval)

    def open(self, control, x, r, interval):
        self.say_open(control, x, r, interval)
        if control > 255 or x > 2047 or r > 2047 or interval > 255:
            return
        self.ends[0].open(control, x, r, interval)
        self.ends[1].open(control, r, x, interval)
        self.is_open = True

    def passed(self, moments):
        """Moments have passed."""
        self.moments_left -= moments
        for end in self.ends:
            end.clocks(moments)

    def run(self, moments, longest=LONGEST_RUN):
        moments = max(0, min(moments, longest, self.moments_left))
        self.say("M", moments)
        self.passed(moments)

    def put(self, e, address, count, number):
        self.say("P", e, address, count, number)
        if e <= 1 and 1 <= count <= 16 and address + count <= 32 and number <= 65535 and self.is_open:
            self.ends[e].put(address, count, number)

    def get(self, e, address, count):
        self.say("G", e, address, count)

    def load(self, e, character):
        self.say("L", e, character)

    def take(self, e):
        self.say("T", e)

    # ---- Times, in moments ----

    def half(self, e):
        """A half-bit as end e sends."""
        return self.ends[e].q * half_bit_count(self.ends[e].transmit)

    def receive_half(self, e):
        return self.ends[e].q * half_bit_count(self.ends[e].receive)

    def character_time(self, e):
        return self.half(e) * self.ends[e].half_bits

    def deadline(self, e):
        end = self.ends[e]
        return 2 * end.q + self.delay + self.half(e) * (2 * (end.data_bits + end.parity) + 3)

    def timer_period(self, e):
        end = self.ends[e]
        return (2 if end.tstmd else 64) * end.interval * end.q

    def some_time(self):
        """A number of moments at which something may happen."""
        e = self.end()
        kind = self.chance.weighted([("few", 8), ("q", 5), ("half", 3), ("bit", 4), ("character", 2), ("timer", 2)])
        return {
            "few": self.chance.between(1, 3),
            "q": self.ends[e].q,
            "half": self.near(self.half(e)),
            "bit": self.near(2 * self.half(e)),
            "character": self.near(self.character_time(e)),
            "timer": self.near(self.timer_period(e)),
        }[kind]

    # ---- Random things ----

    def bit(self):
        return self.chance.between(0, 1)

    def end(self):
        return self.chance.between(0, 1)

    def near(self, count):
        return max(0, count + self.chance.between(-2, 2))

    def character(self):
        return self.chance.one_of(CHARACTERS) if self.chance.happens(40) else self.chance.between(0, 255)

    def character_of_length(self):
        """Mostly without bits that are not sent."""
        character = self.character()
        return character if self.chance.happens(30) else character % 2 ** self.ends[0].data_bits

    def rates(self):
        x = self.chance.weighted(RATES)
        return x, x if self.chance.happens(60) else self.chance.weighted(RATES)


# ---- Setting up ----


def open_bench(s):
    x, r = s.rates()
    s.open(s.controls.draw(), x, r, s.chance.weighted(INTERVALS))


def connect(s):
    """RTS on at both ends."""
    for e in s.chance.shuffled([0, 1]):
        s.put(e, 16, 1, 1)


def fresh(s):
    """A new open, RTS on, and time for CTS."""
    open_bench(s)
    connect(s)
    if s.chance.happens(60):
        s.run(s.delay + s.chance.between(1, 9))
    if s.chance.happens(40):
        enable(s, s.end())


def enable(s, e):
    """Interrupts, one by one or all of them."""
    if s.chance.happens(40):
        s.put(e, 18, 4, 15)
    else:
        s.put(e, s.chance.between(18, 21), 1, 1)


def recover(s):
    recovery = max(end.recovery for end in s.ends)
    if recovery:
        s.run(recovery)


def working(s):
    """Mostly, both ends are made to work again: no load flags, no break, no test mode, RTS on, rates that fit and are not slow."""
    if s.chance.happens(8):
        return
    if not s.is_open or s.chance.happens(45):
        fresh(s)
        return
    recover(s)
    for e, end in enumerate(s.ends):
        if end.load_flag():
            s.put(e, 11, 4, 0)
        if end.brkon or end.tstmd or not end.rtson:
            s.put(e, 15, 3, 2)
    if s.chance.happens(85):
        fit(s)


def fit(s):
    """Rates and control registers of both ends fit each other."""
    a, b = s.ends
    slow = max(half_bit_count(rate) for end in s.ends for rate in (end.transmit, end.receive)) > 60
    if slow or (a.transmit, a.receive) != (b.receive, b.transmit):
        x, r = s.rates()
        put_rates(s, 0, x, r)
        put_rates(s, 1, r, x)
    if a.control != b.control:
        put_control(s, 1, a.control)


def put_rates(s, e, transmit, receive):
    """As the manual does it, or one by one."""
    if s.chance.happens(60):
        s.put(e, 11, 2, 3)
        s.put(e, 0, 11, receive)
        s.put(e, 0, 12, transmit)
    else:
        s.put(e, 12, 1, 1)
        s.put(e, 0, 11, receive)
        s.put(e, 11, 1, 1)
        s.put(e, 0, 11, transmit)
        s.put(e, 11, 1, 0)


def put_control(s, e, control):
    s.put(e, 14, 1, 1)
    if s.chance.happens(80):
        s.put(e, 0, 8, control)
    else:
        s.put(e, 0, 4, control % 16)
        s.put(e, 4, 7, control // 16)


# ---- Characters ----


def give(s, e, character):
    """A character for the transmit buffer."""
    if s.chance.happens(75):
        s.load(e, character)
    elif s.chance.happens(60):
        s.put(e, 0, 8, character)
    else:
        s.put(e, 0, 5, character % 32)
        s.put(e, 5, s.chance.between(3, 6), character // 32)


def look(s, e):
    """Some input bits."""
    if s.chance.happens(50):
        s.get(e, s.chance.one_of([0, 16]), 16)
    else:
        count = s.chance.between(1, 16)
        s.get(e, s.chance.between(0, 32 - count), count)


def step_to(s, e, moments):
    """To the moment in which a character is stored, and over it."""
    q = s.ends[e].q
    back = s.chance.between(0, 2 * q)
    s.run(moments - back)
    for _ in range(s.chance.between(1, 4)):
        s.take(1 - e)
        s.run(s.chance.weighted([(1, 8), (q, 3), (2 * q, 1)]))
    s.run(back + 2)
    s.take(1 - e)


def one_character(s):
    working(s)
    e = s.end()
    s.run(s.chance.between(0, 9))
    give(s, e, s.character_of_length())
    if s.chance.happens(60):
        step_to(s, e, s.deadline(e))
    else:
        s.run(s.deadline(e) + s.chance.between(-1, 1))
        s.take(1 - e)
    if s.chance.happens(50):
        look(s, 1 - e)
    if s.chance.happens(50):
        s.run(s.character_time(e))


def row_of_characters(s):
    """Back to back, with takes and without."""
    working(s)
    e = s.end()
    for _ in range(s.chance.between(2, 6)):
        give(s, e, s.character_of_length())
        s.run(s.chance.one_of([s.ends[e].q, s.ends[e].q, s.some_time()]))
        if s.chance.happens(40):
            give(s, e, s.character_of_length())
        s.run(s.near(s.character_time(e)))
        if s.chance.happens(60):
            s.take(1 - e)
        elif s.chance.happens(30):
            s.put(1 - e, 18, 1, s.bit())
        if s.chance.happens(25):
            look(s, s.end())
    s.run(s.character_time(e))
    s.take(1 - e)


def both_ways(s):
    working(s)
    for _ in range(s.chance.between(1, 3)):
        give(s, 0, s.character_of_length())
        if s.chance.happens(40):
            s.run(s.some_time())
        give(s, 1, s.character_of_length())
        s.run(max(s.deadline(0), s.deadline(1)) + s.chance.between(-2, 6))
        for e in s.chance.shuffled([0, 1]):
            s.take(e)


def misfit(s):
    """The ends disagree on parity, length, stop or q, or on the rate; sometimes from amid a character on."""
    working(s)
    e = s.end()
    early = s.chance.happens(60)
    if early:
        disagree(s, s.end())
    give(s, e, s.character())
    s.run(s.chance.between(1, s.deadline(e)))
    if not early:
        disagree(s, s.end())
    for _ in range(s.chance.between(1, 3)):
        s.run(s.chance.one_of([s.deadline(e), s.some_time(), s.half(e)]))
        s.take(1 - e)
    look(s, 1 - e)


def disagree(s, e):
    kind = s.chance.weighted([("bit", 6), ("control", 2), ("rate", 3), ("bits", 1)])
    if kind == "bit":
        put_control(s, e, s.ends[e].control ^ 1 << s.chance.between(0, 7))
    elif kind == "control":
        put_control(s, e, s.chance.between(0, 255))
    elif kind == "rate":
        put_rates(s, e, *s.rates())
    else:
        s.put(e, 14, 1, 1)
        s.put(e, 0, s.chance.between(1, 7), s.chance.between(0, 127))
        s.run(s.some_time())
        s.put(e, 14, 1, 0)


def slow_character(s):
    """Slow rates, also the slowest, as far as the moments go: to the end of the start, which begins in moment q, or to the stop sample."""
    rate = s.chance.weighted(SLOW_RATES)
    s.open(s.controls.draw(), rate, rate, s.chance.weighted(INTERVALS))
    connect(s)
    e = s.end()
    s.load(e, 255 if s.chance.happens(50) else s.character())
    if s.deadline(e) < s.moments_left // 4:
        s.run(s.deadline(e) - 1, 100_000)
        s.take(1 - e)
    elif 3 * s.half(e) < s.moments_left // 4:
        s.run(s.ends[e].q + 2 * s.half(e), 100_000)
        s.get(1 - e, 13, 3)
    s.run(1)
    s.get(1 - e, 13, 3)
    s.take(1 - e)


def format_changes(s):
    """The control register of the sender changes amid a character, mostly its stop length: the stop still ends when it would have, unless q is
    another."""
    e = s.end()
    open_bench(s)
    connect(s)
    s.load(e, s.character())
    ended = s.ends[e].q + s.character_time(e)
    first = s.chance.between(s.ends[e].q, ended - 2)
    s.run(first)
    put_control(s, e, s.ends[e].control ^ 1 << s.chance.one_of([7, 7, 6, 6, 6, 5, 4, 3, 1, 0]))
    s.run(ended - first - 1)
    s.get(e, 22, 2)
    s.run(1)
    s.get(e, 22, 2)
    s.take(1 - e)


def divider_changes(s):
    """q changes after any number of moments; RTS falls at the next internal clock."""
    fresh(s)
    e = s.end()
    s.run(s.chance.between(1, 9))
    s.put(e, 16, 1, 0)
    put_control(s, e, s.ends[e].control ^ 8)
    for _ in range(4):
        s.run(1)
        s.get(e, 26, 1)


# ---- Lines between the ends ----


def wait_for_cts(s):
    """A character waits until the other end switches RTS on."""
    working(s)
    e = s.end()
    s.put(1 - e, 16, 1, 0)
    s.run(s.chance.between(1, 2 * s.ends[e].q) + s.delay)
    give(s, e, s.character_of_length())
    s.load(e, s.character())
    s.run(s.some_time())
    look(s, e)
    s.put(1 - e, 16, 1, 1)
    s.run(s.chance.between(1, 2 * s.ends[e].q) + s.delay)
    look(s, e)
    s.run(s.deadline(e))
    s.take(1 - e)


def status_change(s):
    """RTS on and off, and DSCH at the other end."""
    e = s.end()
    recover(s)
    s.put(1 - e, 21, 1, s.bit())
    for _ in range(s.chance.between(1, 4)):
        s.put(e, 16, 1, s.bit())
        s.run(s.chance.between(1, 5))
        s.get(1 - e, 20, 12)
        if s.chance.happens(30):
            s.put(1 - e, 21, 1, s.bit())


def rts_falls(s):
    """RTSON 0 amid a character: RTS stays until the stop ends."""
    working(s)
    e = s.end()
    give(s, e, s.character())
    s.run(s.chance.between(1, s.character_time(e)))
    s.put(e, 16, 1, 0)
    if s.chance.happens(30):
        give(s, e, s.character())
    for _ in range(s.chance.between(1, 3)):
        s.run(s.chance.between(1, s.character_time(e)))
        s.get(e, 21, 11)
    s.take(1 - e)


def break_line(s):
    working(s)
    e = s.end()
    if s.chance.happens(30):
        give(s, e, s.character())
        s.run(s.some_time())
    s.put(e, 17, 1, 1)
    if s.chance.happens(50):
        s.load(e, s.character())
    if s.chance.happens(30):
        s.put(e, 0, 8, s.character())
    s.run(s.chance.one_of([s.deadline(e), 2 * s.deadline(e), s.some_time()]) + s.delay)
    look(s, 1 - e)
    s.take(1 - e)
    if s.chance.happens(20):
        s.put(e, 16, 1, 0)
        s.run(s.some_time())
    s.put(e, 17, 1, 0)
    if s.chance.happens(60):
        give(s, e, s.character_of_length())
    s.run(s.chance.between(1, 2 * s.ends[e].q))
    look(s, e)
    s.run(s.deadline(e))
    s.take(1 - e)


def test_mode(s):
    """An end receives what it sends; the other end does too."""
    working(s)
    e = s.end()
    if s.chance.happens(70):
        rate = s.chance.weighted(RATES)
        put_rates(s, e, rate, rate)
    s.put(e, 15, 1, 1)
    if s.chance.happens(30):
        s.put(1 - e, 16, 1, 0)
        s.run(s.some_time())
    for _ in range(s.chance.between(1, 3)):
        give(s, e, s.character_of_length())
        if s.chance.happens(20):
            s.put(e, 17, 1, 1)
        s.run(s.deadline(e) + s.chance.between(-2, 6))
        look(s, e)
        s.take(e)
        if s.chance.happens(50):
            s.take(1 - e)
    if s.chance.happens(70):
        s.put(e, 15, 1, 0)
        s.run(s.some_time())
        look(s, e)


# ---- Timer, reset, registers ----


def timer(s):
    e = s.end()
    recover(s)
    if s.chance.happens(50):
        s.put(e, 15, 1, 1 if s.chance.happens(60) else 0)
    if s.chance.happens(60):
        s.put(e, 20, 1, s.bit())
    s.put(e, 13, 2, 1)
    if s.chance.happens(80):
        s.put(e, 0, s.chance.between(8, 11), s.chance.weighted(INTERVALS))
    else:
        s.put(e, 0, 2, s.bit() + 1)
        s.put(e, 13, 1, 0)
    for _ in range(s.chance.between(1, 3)):
        period = s.timer_period(e)
        if s.chance.happens(40):
            first = s.chance.between(0, period // 2)
            s.run(first)
            s.put(e, 13, 1, 1 if s.chance.happens(25) else 0)
            period -= first
        s.run(max(0, period - s.chance.between(0, 2 * s.ends[e].q)))
        s.get(e, 16, 16)
        for _ in range(s.chance.between(1, 3)):
            s.run(s.chance.between(1, s.ends[e].q))
            s.get(e, 19, 7)
    if s.chance.happens(50):
        s.put(e, 20, 1, s.bit())
        s.get(e, 19, 13)
    if s.ends[e].tstmd and s.chance.happens(80):
        s.put(e, 15, 1, 0)


def any_call(s, e):
    kind = s.chance.weighted([("put", 3), ("get", 3), ("load", 2), ("take", 2)])
    if kind == "put":
        s.put(e, s.chance.between(15, 21), 1, s.bit())
    elif kind == "get":
        look(s, e)
    elif kind == "load":
        s.load(e, s.character())
    else:
        s.take(e)


def reset(s):
    """Ten moments after it are not enough, eleven are. Then, often, all registers anew as the manual does it."""
    working(s) if s.chance.happens(60) else None
    e = s.end()
    if s.chance.happens(60):
        give(s, s.end(), s.character())
        s.run(s.chance.between(1, s.deadline(e)))
    if s.chance.happens(30):
        row_of_characters(s)
        enable(s, e)
    if s.chance.happens(30):
        s.put(e, s.chance.one_of([13, 14, 15, 15, 15, 17]), 1, 1)
        s.run(s.some_time())
    if s.chance.happens(30):
        s.put(1 - e, 16, 1, 0)
        s.run(s.some_time())
        s.load(e, s.character())
    count = s.chance.weighted([(1, 10), (s.chance.between(2, 16), 3)])
    s.put(e, 32 - count, count, s.chance.between(0, 2**count - 1))
    any_call(s, e)
    s.run(10)
    any_call(s, e)
    any_call(s, 1 - e)
    s.run(1)
    if s.chance.happens(60):
        s.get(e, 0, 16)
        s.get(e, 16, 16)
    else:
        any_call(s, e)
    if s.chance.happens(30):
        s.put(1 - e, 16, 1, s.bit())
        s.run(64 * s.ends[e].q * max(1, min(3, s.ends[e].interval)))
        s.get(e, 16, 16)
    if s.chance.happens(80):
        recover(s)
        manual_setup(s, e)
        s.run(s.some_time())
        look(s, e)


def reset_amid_break(s):
    """An end in test mode has its own CTS, so its break goes on while the other end is reset; that has then seen space, and waits for mark."""
    working(s)
    e = s.end()
    s.put(e, 15, 3, 7)
    s.run(s.deadline(e))
    s.put(1 - e, 31, 1, s.bit())
    s.run(11)
    s.put(1 - e, 11, 4, 0)
    s.run(s.deadline(e))
    s.get(1 - e, 12, 4)
    s.take(1 - e)
    if s.chance.happens(50):
        s.put(e, 31, 1, s.bit())
        s.run(11)
        look(s, e)
    else:
        s.put(e, 15, 3, 2)
    s.run(s.some_time())


def manual_setup(s, e):
    """Control, interval, receive rate, transmit rate, RTSON. What has no load flag any more goes elsewhere."""
    other = s.ends[1 - e]
    s.put(e, 0, 8, other.control if s.chance.happens(70) else s.chance.between(0, 255))
    s.put(e, 0, 8, s.chance.weighted(INTERVALS)) if s.chance.happens(80) else s.put(e, 13, 1, 0)
    s.put(e, 0, 11, other.transmit)
    s.put(e, 0, 12, other.receive)
    s.put(e, 16, 1, 1)


def load_flags(s):
    """Load flags in any combination, puts under them, and loads that they refuse."""
    e = s.end()
    recover(s)
    s.put(e, 11, 4, s.chance.between(1, 15))
    if s.chance.happens(20):
        s.put(e, 17, 1, 1)
    s.load(e, s.character())
    for _ in range(s.chance.between(1, 4)):
        count = s.chance.weighted([(8, 5), (11, 4), (12, 3), (16, 1), (s.chance.between(1, 16), 2)])
        number = s.chance.weighted(RATES) if count >= 11 else s.chance.between(0, 255)
        s.put(e, 0, count, number)
        if s.chance.happens(30):
            s.load(e, s.character())
    s.run(s.some_time())
    if s.chance.happens(80):
        s.put(e, 11, 4, 0)
        s.load(e, s.character())


def full_buffer(s):
    """Loads without a moment between them."""
    working(s)
    e = s.end()
    for _ in range(s.chance.between(2, 3)):
        give(s, e, s.character())
    s.run(s.some_time())
    s.load(e, s.character())
    s.load(e, s.character())
    s.run(2 * s.character_time(e))
    s.take(1 - e)


def puts(s):
    """Anything anywhere."""
    for _ in range(s.chance.between(1, 4)):
        count = s.chance.between(1, 16)
        last = 32 if s.chance.happens(10) else 31
        s.put(s.end(), s.chance.between(0, last - count), count, s.chance.between(0, 65535))
        s.run(s.some_time())


def looks(s):
    for _ in range(s.chance.between(1, 4)):
        look(s, s.end())
        s.run(s.chance.between(0, 4))


# ---- Edges ----


def numbers_at_their_edges(s):
    for _ in range(s.chance.between(2, 5)):
        s.chance.weighted([(edge_of_put, 4), (edge_of_get, 4), (edge_of_open, 2), (edge_of_moments, 1), (edge_of_load, 2), (edge_of_take, 1)])(s)


def edge_of_put(s):
    s.put(s.chance.weighted(ENDS), s.chance.one_of(ADDRESSES), s.chance.one_of(COUNTS), s.chance.one_of(NUMBERS))


def edge_of_get(s):
    s.get(s.chance.weighted(ENDS), s.chance.one_of(ADDRESSES), s.chance.one_of(COUNTS))


def edge_of_open(s):
    """Mostly out of range."""
    numbers = [s.chance.one_of([0, 255, s.chance.between(0, 255)]), s.chance.weighted(RATES), s.chance.weighted(RATES), s.chance.one_of([0, 255])]
    if s.chance.happens(80):
        at = s.chance.between(0, 3)
        numbers[at] = s.chance.weighted([(2048 if at in (1, 2) else 256, 4), (65536, 1), (WORDS - 1, 1)])
    s.open(*numbers)


def edge_of_moments(s):
    moments = s.chance.one_of([0, 1, 99_999, 100_000, 100_001, 100_001, 4_000_000_001, WORDS - 1])
    if moments > 100_000:
        s.say("M", moments)
    elif moments < s.moments_left // 4:
        s.run(moments, 100_000)


def edge_of_load(s):
    s.load(s.chance.weighted(ENDS), s.chance.one_of([0, 255, 255, 256, 256, 256, 257, 65535, WORDS - 1]))


def edge_of_take(s):
    s.take(s.chance.weighted(ENDS))


# ---- Lines that are badly written ----


def good_line(s):
    """The fields of a line that would be accepted or refused by 4 to 14, and changes little."""
    e = s.end()
    return s.chance.one_of([
        ["M", s.chance.between(0, 9)],
        ["P", e, s.chance.between(16, 21), 1, s.bit()],
        ["G", e, s.chance.between(0, 16), s.chance.between(1, 16)],
        ["L", e, s.character()],
        ["T", e],
        ["O", s.chance.between(0, 255), 1, 1, 0],
    ])


def written(words):
    return " ".join(str(word) for word in words).encode()


def fewer(s, words):
    return written(words[:s.chance.between(1, len(words) - 1)])


def more(s, words):
    return written(words + [s.chance.one_of([0, 1, "x"])])


def gaps(s, words):
    """A space too many, or the one after the letter missing."""
    line = written(words)
    way = s.chance.between(0, 3)
    if way == 0:
        return line + b" "
    if way == 1:
        return line[:1] + line[2:]
    if way == 2:
        return b" " + line
    at = s.chance.one_of([i for i, byte in enumerate(line) if byte == 32])
    return line[:at] + b" " + line[at:]


def spoiled_field(s, words):
    """One field with a leading zero, a sign, too large a number and so on."""
    at = s.chance.between(1, len(words) - 1)
    word = words[at]
    forms = [f"0{word}", "00", "01", f"+{word}", f"-{word}", "-0", "", f"{word}.0", f"0x{word}", f"{word},", "1e1", "999999999999", "4294967296"]
    words[at] = s.chance.one_of(forms) if s.chance.happens(70) else s.chance.one_of(OVERLONG)
    return written(words)


def spoiled_byte(s, words):
    """A bad byte put in, or in the place of another."""
    line = written(words)
    at = s.chance.between(0, len(line) - 1)
    bad = bytes([s.chance.one_of(BAD_BYTES)])
    if s.chance.happens(30):
        return line + bad
    return line[:at] + bad + line[at + s.bit():]


def raised_byte(s, words):
    """A byte with its high bit set, so that seven bits of it are right."""
    line = bytearray(written(words))
    line[s.chance.between(0, len(line) - 1)] |= 128
    return bytes(line)


def wrong_letter(s, words):
    line = written(words)
    return bytes([s.chance.one_of(FIRST_BYTES)]) + line[1:]


def long_line(s, words):
    """79, 80, 81 bytes or many more."""
    length = s.chance.weighted([(79, 1), (80, 4), (81, 5), (82, 1), (200, 1), (3000, 1)])
    line = written(words) if s.chance.happens(80) else s.chance.one_of([b"", b"X", b"\xff"])
    filler = bytes([s.chance.one_of(list(b"  009X\0\xff"))])
    return line + filler * (length - len(line))


def nearly_nothing(s, words):
    return s.chance.one_of([b"", b"", b" ", words[0].encode(), words[0].encode() + b" ", b"0", b"\r", b"\0", b"\xff"])


WAYS = [(fewer, 2), (more, 2), (gaps, 3), (spoiled_field, 5), (spoiled_byte, 4), (raised_byte, 2), (wrong_letter, 2), (long_line, 4), (nearly_nothing, 3)]


def badly_written(s):
    for _ in range(s.chance.between(2, 5)):
        s.lines.append(s.chance.weighted(WAYS)(s, good_line(s)))


# ---- A script ----


def before_open(s):
    """Every call on a bench that is not open: causes 4 and 5 come before 9."""
    for _ in range(s.chance.between(3, 8)):
        s.chance.weighted([(edge_of_put, 1), (edge_of_get, 1), (edge_of_load, 1), (edge_of_take, 1), (calls_not_open, 3), (badly_written, 1)])(s)


def calls_not_open(s):
    e = s.end()
    s.chance.one_of([lambda: s.put(e, 16, 1, 1), lambda: s.get(e, 0, 16), lambda: s.load(e, 65), lambda: s.take(e),
                     lambda: s.say("M", s.chance.one_of([0, 1, 100_000, 100_001]))])()


# Each scene and how often it is in the deck.
SCENES = [
    (one_character, 9),
    (row_of_characters, 6),
    (both_ways, 4),
    (misfit, 6),
    (slow_character, 2),
    (format_changes, 3),
    (divider_changes, 2),
    (wait_for_cts, 3),
    (status_change, 3),
    (rts_falls, 3),
    (break_line, 5),
    (test_mode, 4),
    (timer, 6),
    (reset, 7),
    (reset_amid_break, 2),
    (load_flags, 4),
    (full_buffer, 3),
    (puts, 3),
    (looks, 2),
    (numbers_at_their_edges, 9),
    (badly_written, 10),
    (fresh, 3),
]


def deck_of(s, scenes):
    return Deck(s.chance, [scene for scene, weight in scenes for _ in range(weight)])


def make(seed, most_lines):
    s = BenchScript(seed, most_lines)
    scenes = deck_of(s, SCENES)
    before_open(s)
    while not s.full():
        scenes.draw()(s)
    lines = s.lines[:most_lines]
    ending = b"" if s.bit() and lines[-1] else b"\n"
    return b"\n".join(lines) + ending


def main(arguments):
    if len(arguments) != 2 or not all(a.isascii() and a.isdigit() for a in arguments) or int(arguments[1]) < 1:
        sys.exit("usage: make_pairscript.py SEED LINES")
    sys.stdout.buffer.write(make(int(arguments[0]), int(arguments[1])))


if __name__ == "__main__":
    main(sys.argv[1:])
