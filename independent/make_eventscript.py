#!/usr/bin/env python3
"""Makes a random list of calls for the event program of eventbench.md.

    make_eventscript.py SEED LINES        prints LINES lines

The lines are chapters, each over a new cable and a new bench: scenes with events, refusals of moments, characters over delaying and disturbed
cables, the last clocks, and most scenes of make_pairscript.py, many of whose puts and moments become moments with events. As there, the
generator follows registers, flags, recovery counts and the clock, and knows nothing of what the bench answers.
"""

import sys

import make_pairscript as pair
from make_chipscript import half_bit_count

MOMENTS_PER_LINE = 500
LAST_CLOCK = 4_000_000_000
WORDS = 2**32
DSR, WRITE = 0, 1
LENGTHS = [1, 1, 2, 2, 3, 4, 5, 7, 8, 16, 31, 32, 33, 63, 64, 64]

# Writes that do little harm to what goes on: the weight of each address.
MILD = [(16, 2), (18, 3), (19, 3), (20, 3), (21, 3)] + [(a, 0.5) for a in range(22, 31)]
# Writes of all kinds.
WILD = MILD + [(a, 0.7) for a in range(11)] + [(11, 1), (12, 1), (13, 1), (14, 1), (15, 1), (17, 2), (31, 1)]


class EventScript(pair.BenchScript):
    def __init__(self, seed, most_lines):
        super().__init__(seed, most_lines)
        self.moments_left = MOMENTS_PER_LINE * most_lines
        self.clock = self.start = 0
        self.plain = False  # puts and moments stay as they are

    # ---- Cables ----

    def new_bench(self):
        self.is_open = False
        self.clock = self.start = 0

    def straight(self):
        self.say("C s")
        self.delay = 0
        self.new_bench()

    def delaying(self, toward_b, toward_a):
        self.say("C d", toward_b, toward_a)
        good = 1 <= toward_b <= 64 and 1 <= toward_a <= 64
        self.delay = max(toward_b, toward_a) if good else 1
        self.new_bench()

    def disturbed(self, toward_b, toward_a):
        self.say("C f", len(toward_b), *toward_b, len(toward_a), *toward_a)
        self.delay = 0
        self.new_bench()

    # ---- Calls ----

    def say_open(self, control, x, r, interval):
        self.say("O", self.start, control, x, r, interval)

    def open_at(self, start, control, x, r, interval):
        self.start = start
        if start > LAST_CLOCK:
            self.say_open(control, x, r, interval)
            self.start = self.clock
            return
        self.open(control, x, r, interval)
        self.clock = start

    def open(self, control, x, r, interval):
        super().open(control, x, r, interval)
        if self.is_open:
            self.clock = self.start

    def passed(self, moments):
        super().passed(moments)
        self.clock += moments

    def run(self, moments, longest=pair.LONGEST_RUN):
        """Now and then the last moment has events. Where the clock would pass its end nothing happens."""
        moments = max(0, min(moments, longest, self.moments_left))
        if not self.is_open or self.clock + moments > LAST_CLOCK:
            self.say("M", moments)
        elif moments and not self.plain and self.chance.happens(12):
            self.run(moments - 1) if moments > 1 else None
            self.moment(self.mild_events(self.chance.between(0, 3)))
        else:
            super().run(moments, longest)

    def put(self, e, address, count, number):
        """Now and then as events."""
        fits = e <= 1 and count <= 16 and address + count <= 32 and number <= 65535
        if fits and not self.plain and self.chance.happens(35 if count <= 2 else 15):
            events = bits(e, address, count, number)
            if self.chance.happens(30):
                events = mixed(self, events, self.mild_events(2))
            self.moment(events)
        else:
            super().put(e, address, count, number)

    def moment(self, events):
        self.say("E", len(events), *(number for event in events for number in event))
        if not self.accepts(events):
            return
        self.passed(1)
        for end in (0, 1):
            for e, kind, address, value in events:
                if kind == WRITE and e == end:
                    self.ends[e].write(address, value)

    def accepts(self, events):
        good = all(e <= 1 and kind <= 1 and value <= 1 and (kind == DSR or address <= 31) for e, kind, address, value in events)
        if not good or len(events) > 32 or not self.is_open or self.clock >= LAST_CLOCK:
            return False
        settings = [e for e, kind, _, _ in events if kind == DSR]
        if len(settings) > len(set(settings)):
            return False
        recovering = [end.recovery > 1 for end in self.ends]
        for e, kind, address, _ in events:
            if kind == WRITE and recovering[e]:
                return False
            if kind == WRITE and address == 31:
                recovering[e] = True
        return True

    def show(self):
        for line in self.chance.shuffled(["S 0", "S 1", "K"])[: self.chance.between(1, 3)]:
            self.say(line)

    # ---- Random events ----

    def dsr_event(self, e):
        return (e, DSR, self.chance.one_of([0, 0, 31, 32, 99, WORDS - 1]), self.bit())

    def write_event(self, e, weights):
        return (e, WRITE, self.chance.weighted(weights), self.bit())

    def mild_events(self, count):
        """Events that are accepted unless an end is recovering."""
        return self.events(count, MILD)

    def events(self, count, weights):
        events = []
        settings = self.chance.shuffled([0, 1])
        for _ in range(count):
            if settings and self.chance.happens(25):
                events.append(self.dsr_event(settings.pop()))
            else:
                events.append(self.write_event(self.end(), weights))
        return events


def bits(e, address, count, number):
    """A put as events."""
    return [(e, WRITE, address + i, number >> i & 1) for i in range(count)]


def mixed(s, first, second):
    """Both lists in one, each in its order."""
    whole, first, second = [], list(first), list(second)
    while first or second:
        from_first = bool(first) and (not second or s.bit() == 1)
        whole.append((first if from_first else second).pop(0))
    return whole


# ---- Cables ----


def random_flips(s):
    """Single flips and runs of them, mostly in the first two thousand steps."""
    flips = set()
    for _ in range(s.chance.weighted([(0, 2), (1, 3), (s.chance.between(2, 12), 5), (s.chance.between(13, 60), 1)])):
        at = s.chance.between(0, s.chance.one_of([30, 300, 2000]))
        flips.update(range(at, at + s.chance.weighted([(1, 8), (2, 2), (s.chance.between(3, 12), 4), (s.chance.between(13, 200), 1)])))
    if s.chance.happens(10):
        flips.add(WORDS - 1)
    return sorted(flips)


def any_cable(s):
    kind = s.chance.weighted([("straight", 3), ("delaying", 5), ("disturbed", 4)])
    if kind == "straight":
        s.straight()
    elif kind == "delaying":
        s.delaying(s.chance.one_of(LENGTHS), s.chance.one_of(LENGTHS))
    else:
        s.disturbed(random_flips(s), random_flips(s))


def refused_cable(s):
    """A setting that is refused: the cable stays as it was made, which a character shows."""
    kind = s.chance.weighted([("lengths", 4), ("order", 4), ("long", 1), ("longest", 1)])
    if kind == "lengths":
        lengths = s.chance.shuffled([s.chance.one_of([0, 65, 66, 256, WORDS - 1, WORDS - 64]), s.chance.one_of([1, 64, 5, 0, 65])])
        s.delaying(*lengths)
    elif kind == "order":
        flips = random_flips(s) + [5000, s.chance.one_of([5000, 4999, 0])]
        lists = s.chance.shuffled([flips, random_flips(s)])
        s.disturbed(*lists)
    else:
        count = 4097 if kind == "long" else 4096
        first = s.chance.between(0, 40)
        lists = s.chance.shuffled([[first + i for i in range(count)], random_flips(s)])
        s.disturbed(*lists)
    s.open(s.controls.draw(), 1, 1, 0)
    s.plain = True
    pair.connect(s)
    for _ in range(3):
        s.get(s.end(), 28, 1)
        s.run(1)
    s.plain = False
    s.load(0, s.character())
    s.load(1, s.character())
    s.run(s.deadline(0))
    s.take(0)
    s.take(1)


# ---- Opening ----


def quiet(s):
    """Both ends reset and the cable run empty, so that it is clear, but for flips."""
    pair.recover(s)
    s.moment([(0, WRITE, 31, 0), (1, WRITE, 31, 1)])
    s.run(max(11, s.delay + 1))


def open_events(s):
    """Over a clear cable, mostly; RTS on by events."""
    if s.is_open and s.delay and s.chance.happens(85):
        quiet(s)
    s.start = s.chance.weighted([(0, 4), (s.chance.between(1, 10**6), 2), (s.chance.between(0, LAST_CLOCK - 10**6), 3)])
    pair.open_bench(s)
    s.moment(mixed(s, s.chance.shuffled([(0, WRITE, 16, 1), (1, WRITE, 16, 1)]), s.mild_events(s.chance.between(0, 3))))
    s.run(s.delay + s.chance.between(1, 9))


def unclear_cable(s):
    """Open while a space waits, or may wait: cause 8. From the reset on, the last space leaves as the delay has passed."""
    toward_b, toward_a = s.chance.one_of(LENGTHS), s.chance.one_of(LENGTHS)
    s.delaying(toward_b, toward_a)
    x, r = s.rates()
    s.open(s.controls.draw(), x, r, 0)
    e = s.end()
    delay = (toward_b, toward_a)[e]
    pair.connect(s)
    s.run(s.delay + 3)
    s.load(e, s.character()) if s.chance.happens(50) else s.put(e, 17, 1, 1)
    s.run(s.chance.between(s.ends[e].q, 8 * s.half(e)))
    control = s.controls.draw()
    s.say("O", s.chance.one_of([0, 5, LAST_CLOCK, LAST_CLOCK + 1]), control, x, r, s.chance.one_of([0, 1, 255, 256]))
    s.show()
    s.moment([(e, WRITE, 31, s.bit())])
    s.run(max(0, delay - s.chance.between(1, 2)))
    for _ in range(3):
        s.say_open(control, x, r, 1)
        s.show()
        s.say("M 1")
    s.moments_left -= 3
    s.is_open = True
    s.ends[0].open(control, x, r, 1)
    s.ends[1].open(control, r, x, 1)
    s.clock = s.start + 1


def not_open(s):
    """Calls of a bench that is not open: causes 4 to 7 come before 9, and 9 before 10 and 11."""
    for _ in range(s.chance.between(1, 4)):
        kind = s.chance.weighted([("good", 3), ("faulty", 3), ("calls", 3), ("show", 1)])
        if kind == "good":
            s.moment(s.events(s.chance.between(0, 6), WILD))
        elif kind == "faulty":
            faulty_moment(s)
        elif kind == "calls":
            pair.calls_not_open(s)
        else:
            s.show()


# ---- Moments with events ----


def some_moments(s):
    for _ in range(s.chance.between(1, 4)):
        s.moment(s.events(s.chance.between(0, 9), WILD if s.chance.happens(40) else MILD))
        if s.chance.happens(50):
            pair.look(s, s.end())
        if s.chance.happens(50):
            s.run(s.some_time())
    s.show()


def many_events(s):
    """31 to 34 events, all of them good."""
    s.moment(s.events(s.chance.between(31, 34), MILD))
    s.show()


def fault(s, events):
    """One fault more in a list of events."""
    kind = s.chance.weighted([("end", 3), ("kind", 2), ("address", 3), ("value", 3), ("repeat", 5), ("many", 3), ("reset", 6), ("two", 2)])
    at = s.chance.between(0, len(events))
    e, value = s.end(), s.bit()
    if kind == "end":
        events.insert(at, (s.chance.one_of([2, 3, WORDS - 1]), s.bit(), s.chance.one_of([0, 18, 32]), s.chance.one_of([0, 1, 2])))
    elif kind == "kind":
        events.insert(at, (e, s.chance.one_of([2, 2, 3, 257, WORDS - 1]), s.chance.one_of([0, 18, 99]), value))
    elif kind == "address":
        events.insert(at, (e, WRITE, s.chance.one_of([32, 32, 32, 33, 63, 287, WORDS - 1]), value))
    elif kind == "value":
        events.insert(at, (e, s.bit(), 18, s.chance.one_of([2, 2, 2, 3, 256, WORDS - 1])))
    elif kind == "many":
        events.extend(s.write_event(s.end(), MILD) for _ in range(33 - len(events) + s.chance.between(0, 3)))
    elif kind == "repeat":
        events.insert(at, (e, DSR, 0, value))
        events.insert(s.chance.between(0, len(events)), (e, DSR, 7, s.bit()))
    elif kind == "reset":
        events.insert(at, (e, WRITE, 31, value))
    else:
        for end in (0, 1):
            events.insert(s.chance.between(0, len(events)), (end, WRITE, 31, value))


def faulty_moment(s):
    """One to three faults among good events, sometimes in a long list."""
    count = s.chance.weighted([(s.chance.between(0, 5), 6), (s.chance.between(6, 30), 2), (s.chance.between(31, 33), 2)])
    events = s.events(count, MILD)
    for _ in range(s.chance.weighted([(1, 5), (2, 4), (3, 2)])):
        fault(s, events)
    s.moment(events[:40])


def faulty_moments(s):
    for _ in range(s.chance.between(1, 5)):
        faulty_moment(s)
    s.show()


def characters_by_events(s):
    """Both transmit buffers bit by bit in one moment."""
    pair.working(s)
    events = mixed(s, bits(0, 0, 8, s.character()), bits(1, 0, s.chance.between(7, 11), s.character()))
    if s.chance.happens(40):
        events = mixed(s, events, s.mild_events(s.chance.between(1, 8)))
    s.moment(events)
    s.show()
    s.run(max(s.deadline(0), s.deadline(1)) + s.chance.between(-3, 3))
    s.take(0)
    s.take(1)


def registers_by_events(s):
    """Control registers or rates in one moment, with the flags that they need."""
    pair.working(s)
    e = s.end()
    if s.chance.happens(50):
        control = s.controls.draw()
        events = [(e, WRITE, 14, 1)] + bits(e, 0, 8, control)
    else:
        rate = s.chance.weighted(pair.RATES)
        events = bits(e, 11, 2, 3) + bits(e, 0, 12, rate)
    s.moment(mixed(s, events, s.mild_events(s.chance.between(0, 4))))
    pair.give(s, s.end(), s.character())
    s.run(max(s.deadline(0), s.deadline(1)))
    s.take(s.end())


def data_set_ready(s):
    """DSR of both ends, and DSCH."""
    for _ in range(s.chance.between(1, 4)):
        events = [s.dsr_event(e) for e in s.chance.shuffled([0, 1])[: s.chance.between(1, 2)]]
        s.moment(mixed(s, events, s.mild_events(s.chance.between(0, 2))))
        s.get(s.end(), 27, 3)
        s.run(s.chance.between(0, 4))
        s.get(s.end(), 20, 10)
    s.show()


# ---- Recovery ----


def recovering(s):
    """A reset by an event or by a put, and what is refused until the eleventh moment after it."""
    pair.recover(s)
    e = s.end()
    if s.chance.happens(30):
        pair.give(s, e, s.character())
        s.run(s.some_time())
    pair.recover(s)
    if s.chance.happens(60):
        s.moment(mixed(s, [(e, WRITE, 31, s.bit())], s.mild_events(s.chance.between(0, 2))))
    else:
        s.put(e, 31, 1, s.bit())
    while s.ends[e].recovery > 1 and not s.full():
        during_recovery(s, e)
    s.moment([(e, WRITE, s.chance.one_of([11, 13, 14, 16, 18]), s.bit())])
    pair.any_call(s, e)
    s.show()
    if s.chance.happens(70):
        pair.recover(s)
        pair.manual_setup(s, e)


def during_recovery(s, e):
    kind = s.chance.weighted([("run", 6), ("write", 4), ("dsr", 2), ("other", 2), ("mixed", 3), ("call", 3), ("reset", 2)])
    if kind == "run":
        s.run(s.chance.one_of([1, 1, 2, s.ends[e].recovery - 1]))
    elif kind == "write":
        s.moment([(e, WRITE, s.chance.between(0, 31), s.bit())])
    elif kind == "reset":
        s.moment([(1 - e, WRITE, 18, 0), (e, WRITE, 31, s.bit())])
    elif kind == "dsr":
        s.moment([s.dsr_event(e)])
    elif kind == "other":
        s.moment([s.dsr_event(e), s.write_event(1 - e, MILD), s.dsr_event(1 - e)])
    elif kind == "mixed":
        s.moment(s.mild_events(s.chance.between(1, 6)))
    else:
        pair.any_call(s, e)


# ---- The last clocks ----


def last_clocks(s):
    """Open near clock 4,000,000,000, and go to it and beyond."""
    if s.is_open and s.delay:
        quiet(s)
    left = s.chance.one_of([0, 0, 1, 1, 2, 5, 12, 40, 130])
    s.open_at(s.chance.one_of([LAST_CLOCK + 1, WORDS - 1]), s.controls.draw(), 1, 1, 0) if s.chance.happens(40) else None
    s.open_at(LAST_CLOCK - left, s.controls.draw(), 1, 1, s.chance.one_of([0, 1]))
    pair.connect(s)
    s.load(s.end(), s.character())
    for _ in range(s.chance.between(3, 8)):
        at_the_last_clocks(s)
    s.show()
    s.start = 0
    if s.delay:
        s.delaying(s.chance.one_of(LENGTHS), s.chance.one_of(LENGTHS))
    pair.open_bench(s)


def at_the_last_clocks(s):
    left = LAST_CLOCK - s.clock
    kind = s.chance.weighted([("near", 4), ("beyond", 2), ("moment", 4), ("faulty", 2), ("call", 2), ("reset", 2), ("clock", 1)])
    if kind == "near":
        s.run(max(0, left + s.chance.between(-3, 1)))
    elif kind == "beyond":
        s.say("M", s.chance.one_of([left + 1, 100_000, 100_001, WORDS - 1]))
    elif kind == "moment":
        s.moment(s.events(s.chance.between(0, 4), MILD))
    elif kind == "faulty":
        faulty_moment(s)
    elif kind == "call":
        pair.any_call(s, s.end())
    elif kind == "reset":
        e = s.end()
        s.put(e, 31, 1, 0)
        s.run(max(0, left - s.chance.between(0, 2)))
        s.moment([(e, WRITE, 18, 0)])
    else:
        s.say("K")


# ---- Characters to the moment ----


def stop_moment(load, delay, end):
    """The moment of the stop sample, numbered from the opening, of a character that is loaded `load` moments after it; both ends have had
    their internal clocks in step since then, and end sends."""
    half = end.q * half_bit_count(end.transmit)
    start = end.q * (load // end.q + 1)  # the start begins
    seen = end.q * -(-(start + 1 + delay) // end.q)  # the first internal clock of the receiver that has it
    return seen + half + 2 * half * (end.data_bits + end.parity + 1)


def at_the_stop_sample(s):
    """A write to bit 18 in the very moment of a stop sample, or in one beside it: of a first character, or of a second while the first has
    not been taken."""
    toward = 0, 0
    if s.chance.happens(60):
        toward = s.chance.one_of(LENGTHS), s.chance.one_of(LENGTHS)
        s.delaying(*toward)
    elif s.chance.happens(50):
        s.straight()
    else:
        s.disturbed([], [])
    s.plain = True
    x = s.chance.weighted(pair.RATES)
    s.open(s.controls.draw(), x, x, 0)
    e = s.end()
    pair.connect(s)
    if s.chance.happens(60):
        s.put(1 - e, 18, 1, 1)
    now = s.delay + s.chance.between(1, 9)
    s.run(now)
    for _ in range(s.chance.between(1, 2)):
        s.load(e, s.character())
        moment = stop_moment(now, toward[e], s.ends[e])
        aim = moment + s.chance.weighted([(0, 6), (-1, 2), (1, 2)])
        s.run(aim - 1 - now)
        if s.chance.happens(70):
            s.moment([(1 - e, WRITE, s.chance.weighted([(18, 8), (19, 1)]), s.bit())])
        else:
            s.run(1)
        s.get(1 - e, 9, 13)
        s.say("S", 1 - e)
        if s.chance.happens(40):
            s.run(1)
            s.get(1 - e, 0, 16)
            aim += 1
        s.run(s.character_time(e) + toward[e])
        now = aim + s.character_time(e) + toward[e]
    s.take(1 - e)
    s.plain = False


def flips_in_a_character(s):
    """Flips at the samples of a character, beside them, or outside of it."""
    s.plain = True
    control, x, e = s.controls.draw(), s.chance.weighted(pair.RATES), s.end()
    end = pair.Registers()
    end.open(control, x, x, 0)
    half = end.q * half_bit_count(x)
    now = s.chance.between(1, 12)
    stop = stop_moment(now, 0, end)
    samples = [stop - 2 * half * i for i in range(end.data_bits + end.parity + 2)]
    flips = set()
    for _ in range(s.chance.between(1, 4)):
        at = s.chance.weighted([(s.chance.one_of(samples), 8), (stop, 3), (s.chance.between(0, 2 * stop), 3), (samples[-1], 1), (stop + half, 1)])
        at = max(0, at - 1 + s.chance.weighted([(0, 7), (-1, 1), (1, 1)]))
        flips.update(range(at, at + s.chance.weighted([(1, 8), (end.q, 2), (2 * half, 1)])))
    lists = [sorted(flips), random_flips(s) if s.chance.happens(30) else []]
    s.disturbed(lists[e], lists[1 - e])
    s.open(control, x, x, 0)
    pair.connect(s)
    s.run(now)
    s.load(e, s.character_of_length())
    s.run(stop - now + s.chance.between(-1, 1))
    s.take(1 - e)
    pair.look(s, 1 - e)
    s.run(s.chance.between(1, stop))
    s.load(e, s.character_of_length())
    s.run(s.deadline(e))
    s.take(1 - e)
    s.take(e)
    s.plain = False


# ---- A list of calls ----

# Each scene of a chapter and how often it is in the deck.
SCENES = [
    (some_moments, 6),
    (many_events, 2),
    (faulty_moments, 8),
    (characters_by_events, 4),
    (registers_by_events, 3),
    (data_set_ready, 3),
    (recovering, 5),
    (open_events, 4),
    (pair.one_character, 5),
    (pair.row_of_characters, 3),
    (pair.both_ways, 3),
    (pair.misfit, 2),
    (pair.format_changes, 1),
    (pair.divider_changes, 1),
    (pair.wait_for_cts, 2),
    (pair.status_change, 2),
    (pair.rts_falls, 1),
    (pair.break_line, 3),
    (pair.test_mode, 2),
    (pair.timer, 2),
    (pair.reset, 2),
    (pair.load_flags, 1),
    (pair.full_buffer, 1),
    (pair.numbers_at_their_edges, 4),
]

# Chapters with a cable of their own.
CHAPTERS = [
    (at_the_stop_sample, 5),
    (flips_in_a_character, 6),
    (unclear_cable, 4),
    (refused_cable, 3),
]


def chapter(s, scenes):
    any_cable(s)
    if s.chance.happens(40):
        not_open(s)
    open_events(s)
    for _ in range(s.chance.between(2, 7)):
        scenes.draw()(s)
    if s.chance.happens(25):
        last_clocks(s)


def make(seed, most_lines):
    s = EventScript(seed, most_lines)
    scenes, chapters = pair.deck_of(s, SCENES), pair.deck_of(s, CHAPTERS)
    while not s.full():
        chapter(s, scenes)
        chapters.draw()(s)
    return b"\n".join(s.lines[:most_lines]) + b"\n"


def main(arguments):
    if len(arguments) != 2 or not all(a.isascii() and a.isdigit() for a in arguments) or int(arguments[1]) < 1:
        sys.exit("usage: make_eventscript.py SEED LINES")
    sys.stdout.buffer.write(make(int(arguments[0]), int(arguments[1])))


if __name__ == "__main__":
    main(sys.argv[1:])
