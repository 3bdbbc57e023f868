#!/usr/bin/env python3
"""Prints the fixed list of calls eventbench.stdin. What each part is for stands before it; the list itself can have no comments.

    python3 fixed_eventscript.py > eventbench.stdin        and eventbench.stdout is what ./eventbench prints for it
"""

import sys

LINES = []


def say(text):
    """Lines of text; indentation and empty lines do not count."""
    LINES.extend(line.strip() for line in text.splitlines() if line.strip())


def moment(*events):
    """Events as (end, kind, address, value)."""
    LINES.append(" ".join(["E", str(len(events))] + [str(number) for event in events for number in event]))


def write(end, address, value):
    return (end, 1, address, value)


def dsr(end, value, address=0):
    return (end, 0, address, value)


def disturbed(toward_b, toward_a):
    LINES.append(" ".join(str(word) for word in ["C f", len(toward_b), *toward_b, len(toward_a), *toward_a]))


def both_on():
    moment(write(1, 16, 1), write(0, 16, 1))


# ---- The example of eventbench.md ----


def example():
    say("""
        C f 1 8 0
        K
        E 2 0 1 16 1 1 1 16 1
        O 3999999990 131 1 1 0
        E 4 1 1 16 1 0 1 16 1 1 0 99 1 0 1 31 0
        E 1 0 1 31 0
        E 3 0 0 0 1 0 0 0 1 2 1 0 0
        S 1
        M 8
        K
        M 2
        E 1 1 1 32 0
        E 0
        E 0
    """)


# ---- A bench that is not open: 4, 5, 6 and 7 come before 9 ----


def not_open():
    say("C s\nS 0\nS 1\nK\nE 0\nM 0\nM 100001\nP 1 16 1 1\nG 0 32 1\nL 0 65\nT 1\nT 2")
    moment(dsr(0, 1), dsr(1, 1), write(0, 16, 1))
    moment(dsr(0, 1), write(0, 16, 1), dsr(0, 1))
    moment(*[write(1, 20, 0)] * 32)
    moment(*[write(1, 20, 0)] * 33)
    moment(write(0, 31, 0), write(0, 31, 2))
    moment(write(0, 31, 0), write(2, 31, 0))
    say("O 4000000001 131 1 1 0\nO 0 256 1 1 0\nK\nO 4000000000 131 1 1 0\nK\nS 0")


# ---- Ranks and serving numbers ----


def ranks():
    say("C s\nO 100 131 1 1 0\nK")
    # DSR settings, then writes at A, then writes at B.
    moment(write(1, 21, 1), write(0, 21, 1), dsr(1, 1, 4294967295), write(1, 16, 1), dsr(0, 1, 32), write(0, 16, 1))
    say("G 0 26 4\nG 1 26 4\nS 0\nS 1\nK")
    # Within one end the order of the list: the later write stands.
    moment(write(0, 19, 1), write(1, 19, 0), write(0, 19, 0), write(1, 19, 1))
    say("S 0\nS 1")
    # The third moment is an internal clock: CTS and DSR have changed, and DSCENB stands.
    moment()
    say("G 0 26 4\nG 1 26 4\nS 0\nS 1")
    # In the sixth, DSR is set before the clock, DSCH falls after it.
    moment(write(0, 21, 1), write(1, 21, 1))
    moment()
    moment(dsr(0, 0), write(1, 21, 0), dsr(1, 0))
    say("G 0 26 4\nG 1 26 4\nS 0\nS 1")
    # A write to RTSON comes after the clock: B takes CTS one moment later.
    moment(write(0, 16, 0))
    say("S 0\nM 2\nS 0\nG 1 28 1\nM 1\nG 1 28 1")
    # A control register and a transmit buffer in one moment, 32 events.
    moment(write(0, 14, 1), *[write(0, i, 131 >> i & 1) for i in range(8)], *[write(1, i, 90 >> i & 1) for i in range(8)],
           write(0, 16, 1), *[write(0, i, 85 >> i & 1) for i in range(8)], write(1, 18, 1), write(0, 18, 1), dsr(0, 1), dsr(1, 1), write(1, 30, 1), write(0, 22, 0))
    say("G 0 22 9\nG 1 22 9\nM 63\nT 0\nT 1\nM 3\nT 0\nT 1\nS 0")


# ---- Refusals of a moment ----


def refusals():
    say("C s\nO 0 131 1 1 0")
    good = [write(1, 18, 1)]
    moment(*good, write(2, 18, 0), write(3, 32, 2))  # 4
    moment(*good, write(0, 32, 0), write(4294967295, 18, 0))  # 4 before 5
    moment(*good, (1, 2, 0, 0), write(0, 32, 0))  # 5: kind
    moment(*good, *good, write(0, 32, 0))  # 5: address
    moment(dsr(0, 2))  # 5: value
    moment(write(1, 4294967295, 1))
    moment(*good, (0, 4294967295, 0, 0), *good)
    moment(write(0, 18, 4294967295))
    moment(*good * 40)  # 6
    moment(*good * 32, write(0, 18, 0))
    moment(*good * 32, write(0, 18, 0), *good)
    moment(*good * 32)  # 32 are accepted
    moment(*good * 34, write(0, 32, 0))  # 5 behind the 33rd comes before 6
    moment(*good * 34, write(0, 32, 0), write(2, 0, 0))  # and 4 before it
    moment(dsr(0, 1), dsr(0, 1), *good * 32)  # 6 before 7
    moment(dsr(0, 1), dsr(1, 1), *good, dsr(1, 0), dsr(0, 0))  # 7: the repeating one
    moment(write(0, 31, 0), write(0, 18, 0), dsr(1, 1), dsr(1, 1))  # 7 before 11
    moment(write(0, 31, 0), write(1, 18, 1), dsr(0, 1), write(0, 18, 0), write(1, 31, 0), write(1, 31, 0))  # 11: an earlier event resets
    moment(dsr(0, 1, 31), write(0, 18, 0))  # a DSR setting is no reset, whatever its address
    moment(write(1, 16, 1), write(0, 31, 0), dsr(0, 1), write(1, 18, 1))  # what is not behind the reset is accepted
    say("K\nS 0\nS 1\nG 0 16 16\nG 1 16 16")


# ---- Recovery ----


def recovery():
    # From here A is recovering, and the reset's own moment does not count.
    moment(write(1, 18, 1), write(0, 18, 0))
    moment(write(0, 31, 0))
    moment(dsr(0, 0), write(1, 18, 0))
    say("M 8\nP 0 16 1 1\nG 0 0 1\nL 0 1\nT 0\nK")
    moment(write(0, 16, 1))  # would be the tenth moment
    say("K\nM 1\nG 0 0 1")
    moment(write(0, 16, 1), write(0, 31, 1))  # the eleventh
    say("K\nS 0\nG 0 0 1\nM 10\nG 0 0 1\nM 1\nG 0 16 16")
    # A reset by a put: the same.
    say("P 1 31 1 0\nM 9")
    moment(write(0, 18, 0), write(1, 18, 0))
    moment(dsr(1, 1))
    say("G 1 27 1")
    moment(write(0, 18, 0), write(1, 14, 0))
    say("G 1 16 16\nG 1 27 2")
    # Both ends recover: the lowest index, not the first in serving order.
    moment(write(1, 31, 0), write(0, 31, 0))
    moment(dsr(0, 1), write(1, 18, 0), write(0, 18, 0))
    moment(write(0, 18, 0), write(1, 18, 0))


# ---- A write to bit 18 in the moment of a stop sample ----


def stop_sample():
    # Two characters back to back, stored in moments 63 and 123, as in the script's example. RIENB stands.
    say("C s\nO 0 131 1 1 0\nP 0 16 1 1\nP 1 16 1 1\nP 1 18 1 1\nL 0 65\nM 3\nL 0 66\nM 59\nG 1 21 1\nS 1")
    moment()
    say("G 1 9 13\nS 1\nM 59")
    moment(write(1, 18, 1))
    say("G 1 9 13\nS 1\nT 1\nG 1 0 8")
    # Once more: a first character whose RBRL falls in its very moment, so the second overruns nothing; one moment later, nothing falls.
    say("L 0 67\nM 3\nL 0 68\nM 59")
    moment(write(1, 18, 1))
    say("G 1 9 13\nM 59\nP 1 18 1 0\nM 1\nG 1 9 13\nT 1")


# ---- Delaying cables ----


def delaying():
    # Toward B 5: CTS of B is active from moment 6 on; the start begins in moment 3 and is seen at 9 (it comes at 3 + 1 + 5), stored at 66.
    say("C d 5 1\nO 0 131 1 1 0\nP 0 16 1 1\nP 1 16 1 1\nL 0 65\nM 5\nG 1 28 1\nM 1\nG 1 28 1\nM 2\nG 1 15 1\nM 1\nG 1 15 1\nM 56\nT 1\nM 1\nT 1")
    # Toward A 64: A has no CTS before moment 65; B sends at once. Control 171: 8 bits, even parity, q 4.
    say("C d 1 64\nO 7 171 1 2 0\nP 0 16 1 1\nP 1 16 1 1\nL 0 200\nL 1 100\nM 64\nG 0 28 1\nG 0 22 2\nM 1\nG 0 28 1\nM 3\nG 0 22 2\nM 96\nT 1\nM 74\nT 0\nM 2\nT 0\nK")
    say("T 1\nM 0")
    # Opened anew, the cable is kept: the pairs that wait still have their control lines.
    say("C d 3 64\nO 0 131 1 1 0\nP 1 16 1 1\nM 70\nG 0 28 1\nO 5 131 1 1 0\nG 0 28 1\nM 1\nG 0 28 1\nS 1\nM 63\nG 0 28 1\nM 1\nG 0 28 1\nK")
    # Settings that are refused leave one pair each way.
    for lengths in ("0 5", "5 0", "65 1", "1 65", "4294967295 1"):
        say(f"C d {lengths}")
    say("O 0 131 1 1 0\nP 1 16 1 1\nM 1\nG 0 28 1\nM 1\nG 0 28 1\nC d 64 64\nC d 1 1\nT 0")


def unclear():
    """The break begins in moment 3, its first space enters in moment 4, its last in the moment of the reset. Lengths 4 and 2."""
    setting = "C d 4 2\nO 0 131 1 1 0\nP 0 16 1 1\nP 1 16 1 1"
    say(f"{setting}\nP 0 17 1 1\nM 3\nS 0\nO 9 131 1 1 0\nK")
    say(f"{setting}\nP 0 17 1 1\nM 4\nO 9 131 1 1 0\nO 9 256 1 1 0\nK\nS 0\nM 3\nO 9 131 1 1 0")
    moment(write(0, 31, 0))
    say("M 3\nO 9 131 1 1 0\nK\nM 1\nG 1 15 1\nO 9 131 1 1 0\nK\nG 0 16 16\nG 1 16 16")
    # Toward A: B waits for CTS until moment 5, so its break begins in moment 6.
    say(f"{setting}\nP 1 17 1 1\nM 6\nS 1\nM 1\nO 9 131 1 1 0")
    moment(write(1, 31, 0))
    say("M 1\nO 9 131 1 1 0\nM 1\nO 9 131 1 1 0")


# ---- Disturbed cables ----


def flips_at(toward_b, control, character):
    """Loaded at clock 0 at rate 1: the start sample is taken in moment 9, the others every six; step s is moment s + 1."""
    disturbed(toward_b, [])
    say(f"O 0 {control} 1 1 0\nP 0 16 1 1\nP 1 16 1 1\nL 0 {character}\nM 70\nT 1")


def disturbing():
    flips_at([14], 131, 0)  # the first data bit
    flips_at([13, 15], 131, 0)  # beside it: nothing
    flips_at([14, 20], 163, 0)  # two data bits: the parity is right, the character wrong
    flips_at([62], 163, 7)  # the parity bit
    flips_at([62], 131, 7)  # the stop
    flips_at([8], 131, 255)  # the start sample: a false start, then nothing but marks
    flips_at([4294967295], 131, 65)
    say("M 100\nL 0 66\nM 63\nT 1")
    # A false character out of nothing, toward A: space in steps 2 to 8. The list toward B has its first flip there too.
    disturbed([0, 3], [2, 3, 4, 5, 6, 7, 8])
    say("O 0 131 1 1 0\nG 1 15 1\nM 1\nG 0 15 1\nG 1 15 1\nM 1\nG 1 15 1\nM 2\nG 0 15 1\nG 1 15 1\nM 60\nT 0\nT 1")
    # Steps count from the setting; opening does not set them back, refused moments are no steps. The flip meets moment 6.
    disturbed([5], [])
    say("O 0 131 1 1 0\nM 2\nM 100001\nE 1 2 0 0 0\nO 77 131 1 1 0\nM 3\nG 1 15 1\nM 1\nG 1 15 1\nM 1\nG 1 15 1\nO 0 131 1 1 0\nM 6\nG 1 15 1")
    # Lists that are refused leave no flips; 4,096 numbers are accepted, 4,097 not.
    for lists in (([3, 3], []), ([], [4, 3]), ([0, 1, 2], [5, 6, 6])):
        disturbed(*lists)
    say("O 0 131 1 1 0\nM 1\nG 1 15 1")
    disturbed(range(4096), [0])
    say("O 0 131 1 1 0\nM 4095\nG 1 15 1\nM 1\nG 1 15 1\nM 1\nG 1 15 1")
    disturbed([0], range(4097))
    say("O 0 131 1 1 0\nM 1\nG 1 15 1\nG 0 15 1")


# ---- The last clocks ----


def last_clocks():
    say("C s\nO 3999999935 131 1 1 0\nP 0 16 1 1\nP 1 16 1 1\nL 0 65\nM 66\nM 63\nK\nM 3\nM 100000\nM 100001\nT 1")
    moment(write(0, 31, 0))
    moment(write(0, 18, 0), dsr(1, 1))  # 11 in the last moment but none after it
    moment(dsr(1, 1))
    say("K\nM 0\nM 1\nE 0")
    moment(write(0, 18, 0))  # 10 before 11
    moment(dsr(1, 1), dsr(1, 1))  # 7 before 10
    say("G 0 0 1\nG 1 27 1\nL 1 5\nP 1 16 1 0\nS 1\nO 3999999999 131 1 1 0\nM 2\nM 1\nK\nO 0 131 1 1 0\nK\nM 100000\nK")


if __name__ == "__main__":
    for part in (example, not_open, ranks, refusals, recovery, stop_sample, delaying, unclear, disturbing, last_clocks):
        part()
    sys.stdout.write("".join(line + "\n" for line in LINES))
