#!/usr/bin/env python3
"""Prints the fixed script pairbench.stdin. What each part is for stands before it; the script itself can have no comments.

    python3 fixed_pairscript.py > pairbench.stdin        and pairbench.stdout is what ./pairbench prints for it

With the argument `closed` it prints the short script of a bench that is not open (cause 9), pairbench_closed.stdin: the first nine lines of the long
one are the example of docs/script.md, whose first line opens the bench, and an open bench stays open.
"""

import sys

LINES = []


def say(text):
    """Lines of text; indentation and empty lines do not count."""
    LINES.extend(line.strip().encode() for line in text.splitlines() if line.strip())


def raw(*lines):
    LINES.extend(lines)


def both_on():
    say("P 0 16 1 1\nP 1 16 1 1")


# ---- The example of docs/script.md ----


def example():
    say("""
        O 131 1 1 0
        P 0 16 1 1
        P 1 16 1 1
        L 0 65
        M 62
        T 1
        M 1
        T 1
        Q
    """)


# ---- Characters of every length, parity and stop length, under both q, to the moment ----


def character(control, rate, sender, value):
    """Loaded at clock 0, so the start begins in moment q; the receiver sees it at 2q. Before and in the moment of the stop sample; then before
    and in the moment in which the sender's stop ends: XSRE. Where H and the stop are shortest both are the same moment."""
    q = 4 if control & 8 else 3
    h = (8 if rate & 1024 else 1) * (rate % 1024 or 1024)
    n = 5 + control % 4 + (control >> 5 & 1)
    stop = [3, 4, 2, 2][control >> 6]
    stored = 2 * q + q * h * (2 * n + 3)
    ended = q + q * h * (2 + 2 * n + stop)
    rates = (rate, 7) if sender == 0 else (7, rate)
    say(f"O {control} {rates[0]} {rates[1]} 0")
    both_on()
    say(f"""
        L {sender} {value}
        M {stored - 1}
        T {1 - sender}
        G {sender} 23 1
        M 1
        T {1 - sender}
    """)
    if ended > stored:
        say(f"M {ended - stored - 1}\nG {sender} 23 1\nM 1")
    say(f"G {sender} 23 1")


def characters():
    character(0, 1, 0, 255)  # 5 bits, no parity, 1.5 stop bits, q 3: 255 arrives as 31
    character(33, 2, 1, 43)  # 6 bits, even, 1.5 stop bits
    character(114, 3, 0, 97)  # 7 bits, odd, 2 stop bits
    character(75, 1025, 1, 200)  # 8 bits, no parity, 2 stop bits, q 4, rate with m 8
    character(187, 1, 0, 0)  # 8 bits, odd, 1 stop bit, q 4
    character(128, 0, 1, 9)  # 5 bits, 1 stop bit, rate 0: H is 1024
    character(212, 1, 0, 10)  # 5 bits, 1 stop bit written 11, no parity: bits 4 and 2 say nothing


def receiving():
    """RSBD from the start sample, RFBD from the first data bit on, both to the stop sample: moments 9, 15 and 63."""
    say("O 131 1 1 0")
    both_on()
    say("L 0 0\nM 8\nG 1 13 2\nM 1\nG 1 13 2\nM 5\nG 1 13 2\nM 1\nG 1 13 2\nM 47\nG 1 13 2\nM 1\nG 1 13 2")


# ---- Back to back, the buffer full, an overrun, both ways at once ----


def rows():
    say("O 131 1 2 0")
    both_on()
    say("""
        L 0 1
        L 0 2
        M 3
        G 0 22 2
        L 0 2
        L 0 3
        G 0 22 2
        L 1 200
        M 60
        T 1
        M 59
        T 1
        M 1
        T 1
        L 0 4
        M 63
        L 0 5
        M 63
        G 1 9 13
        T 1
        T 1
        G 1 9 13
        T 0
        L 0 6
        M 63
        P 1 18 1 1
        G 1 9 13
        T 1
    """)


# ---- Ends that disagree: parity, length, rate ----


def misfits():
    # A sends odd parity, B expects even: RPER; then B goes back to none and takes the parity bit for the stop.
    say("O 179 1 1 0")
    both_on()
    say("""
        P 1 14 1 1
        P 1 0 8 163
        L 0 65
        M 69
        T 1
        P 1 14 1 1
        P 1 0 8 131
        M 12
        L 0 64
        M 69
        T 1
    """)
    # A sends 8 bits, B expects 7: the eighth is its stop, and a 0 there is a framing error.
    say("O 131 1 1 0")
    both_on()
    say("""
        P 1 14 1 1
        P 1 0 7 2
        P 1 7 1 1
        L 0 85
        M 60
        T 1
        M 30
        T 1
    """)
    # A change of control while a character is under way: the format of the start and of the start sample holds, also the stop length, here 1 and
    # not 2 stop bits, so that the stop ends in moment 63.
    say("O 131 1 1 0")
    both_on()
    say("L 0 1\nM 50\nP 0 14 1 1\nP 0 0 8 67\nM 12\nG 0 23 1\nM 1\nG 0 23 1\nT 1")
    say("O 163 2 2 0")
    both_on()
    say("""
        L 0 90
        M 30
        P 0 14 1 1
        P 0 0 8 128
        P 1 14 1 1
        P 1 0 8 128
        M 150
        T 1
        L 0 90
        M 200
        T 1
    """)


# ---- Rates by puts ----


def rates():
    say("O 131 1024 0 0")
    both_on()
    say("""
        P 0 11 2 3
        P 0 0 11 3
        G 0 30 1
        L 0 7
        P 0 0 12 2
        G 0 30 1
        P 1 12 1 1
        P 1 0 11 2
        G 1 30 1
        P 1 11 1 1
        P 1 0 11 3
        G 1 30 1
        P 1 11 1 0
        L 0 7
        L 1 8
        M 119
        T 1
        M 1
        T 1
        M 50
        T 0
        M 15
        T 0
    """)
    # LDCTRL with LRDR: bits 0 to 7 fill the control register and drop LDCTRL, bits 8 to 10 go to the receive rate and drop LRDR. So B has 5 data
    # bits and still rate 1; the sixth data bit of 53 is the stop sample, a mark; that of 21 would be a space.
    say("""
        O 131 1 1 0
        P 1 16 1 1
        P 0 16 1 1
        P 1 12 3 5
        P 1 0 11 128
        G 1 30 1
        L 0 53
        M 44
        T 1
        M 1
        T 1
    """)


# ---- Load flags, BRKON and the transmit buffer ----


def load_flags():
    say("O 131 1 1 0")
    for address in (11, 12, 13, 14, 17):
        say(f"P 0 {address} 1 1\nL 0 65\nP 0 {address} 1 0")
    say("L 0 65\nP 0 14 1 1\nL 0 65\nL 0 256\nP 0 14 1 0\nL 0 65")
    # The buffer by puts: bits 0 to 6 alone do not fill it, bit 7 does, and more bits overwrite.
    say("O 131 1 1 0")
    both_on()
    say("""
        P 0 0 7 65
        G 0 22 1
        L 0 255
        P 0 0 4 10
        P 0 8 3 7
        M 63
        T 1
        P 0 0 11 2047
        G 0 22 1
        P 0 7 1 0
        M 63
        T 1
    """)


# ---- Breaks ----


def breaks():
    say("O 131 1 1 0")
    both_on()
    say("""
        P 0 17 1 1
        L 0 65
        P 0 0 8 65
        M 3
        G 1 15 1
        M 1
        G 1 15 1
        M 59
        T 1
        M 100
        T 1
        G 1 9 7
        P 0 17 1 0
        L 0 66
        M 2
        G 1 15 1
        M 1
        G 1 15 1
        G 0 23 1
        M 4
        G 0 23 1
        M 60
        T 1
    """)
    # BRKON while a character waits: the character first. BRKON without CTS: nothing.
    say("""
        L 0 70
        P 0 17 1 1
        M 63
        T 1
        P 0 17 1 0
        M 3
        P 1 16 1 0
        M 4
        P 0 17 1 1
        M 9
        G 1 15 1
        P 1 16 1 1
        M 7
        G 1 15 1
        P 0 17 1 0
        M 60
        T 1
    """)
    # BRKON while a character is under way: the break follows its stop. RTSON 0: RTS stays as long as BRKON does.
    say("""
        L 0 67
        M 9
        P 0 17 1 1
        P 0 16 1 0
        M 54
        G 0 23 1
        T 1
        M 60
        G 0 26 1
        T 1
        P 0 17 1 0
        M 3
        G 0 26 1
        M 1
        G 1 28 2
    """)


# ---- Reset: ten moments are not enough, eleven are ----


def resets():
    say("O 131 2 2 9")
    both_on()
    say("""
        L 0 1
        M 20
        P 0 31 1 0
        P 0 16 1 1
        G 0 0 1
        L 0 1
        T 0
        G 2 0 1
        L 0 256
        G 1 26 3
        M 10
        P 0 16 1 1
        G 0 16 16
        L 0 1
        T 0
        M 1
        G 0 16 16
        L 0 1
        T 0
        P 0 0 8 131
        P 0 0 8 1
        P 0 0 11 2
        P 0 0 12 2
        P 0 16 1 1
        G 0 30 1
        M 200
        T 1
        L 0 99
        M 127
        T 1
    """)
    # Everything that a reset clears: an overrun, all enables, test mode, a waiting character, a running timer.
    say("O 131 1 1 1")
    both_on()
    say("""
        L 0 1
        M 63
        L 0 2
        M 63
        P 1 18 4 15
        M 3
        L 0 3
        M 63
        L 0 4
        M 60
        P 0 16 1 0
        M 6
        P 1 15 1 1
        P 1 16 1 0
        M 3
        L 1 9
        G 1 0 16
        G 1 16 16
        P 1 31 1 0
        M 11
        G 1 0 16
        G 1 16 16
        P 0 16 1 1
        M 400
        G 1 16 16
        O 131 2 2 9
    """)
    both_on()
    # A in test mode has its own CTS, so its break goes on while B is reset, here by the last bit of a put: B has seen space and waits for mark.
    say("""
        P 0 15 3 7
        M 200
        T 1
        P 1 16 16 65535
        M 11
        G 1 16 16
        P 1 11 4 0
        M 200
        T 1
        G 1 14 2
        P 0 15 3 2
        M 1
        P 1 16 1 1
        L 0 100
        M 140
        T 1
        P 1 31 1 1
        M 5
        P 1 31 1 1
        M 6
        P 1 31 1 1
        M 10
        T 1
        M 1
        T 1
    """)


# ---- Test mode ----


def test_mode():
    say("""
        O 163 1 1 1
        P 0 15 2 3
        L 0 77
        M 66
        T 0
        M 3
        T 0
        T 1
        G 0 26 3
        G 1 26 3
        M 300
        G 0 24 2
        P 0 20 1 1
        P 0 15 1 0
        M 1
        G 0 26 3
        P 1 15 1 1
        P 1 17 1 1
        P 1 16 1 1
        M 100
        G 1 9 7
        G 0 9 7
    """)


# ---- Timer ----


def timer():
    say("""
        O 131 1 1 2
        P 0 20 1 1
        M 383
        G 0 24 2
        G 0 19 1
        M 1
        G 0 24 2
        G 0 19 1
        G 1 19 7
        M 384
        G 0 24 2
        P 0 20 1 0
        G 0 19 7
        M 33
        P 0 13 1 1
        P 0 0 11 1793
        G 0 30 1
        M 99
        P 0 13 1 0
        M 92
        G 0 25 1
        M 1
        G 0 25 1
        P 0 20 1 1
        P 0 15 1 1
        P 0 13 1 1
        P 0 13 1 0
        M 5
        G 0 25 1
        M 1
        G 0 25 1
        P 0 13 1 1
        P 0 0 8 0
        P 0 20 1 1
        M 5000
        G 0 24 2
        O 139 1 1 25
        M 6399
        G 1 25 1
        M 1
        G 1 25 1
        O 0 0 0 255
        M 48959
        G 0 25 1
        M 1
        G 0 25 1
    """)


# ---- CTS, RTS, DSCH and interrupts ----


def lines():
    say("""
        O 131 1 1 0
        P 0 21 1 1
        P 0 19 1 1
        G 0 16 16
        P 1 16 1 1
        G 0 28 1
        M 2
        G 0 28 2
        M 1
        G 0 28 2
        G 0 16 16
        P 0 21 1 0
        G 0 28 4
        L 0 33
        G 0 16 16
        M 20
        G 0 22 2
        P 0 16 1 1
        M 3
        G 0 22 2
        P 1 18 1 1
        P 0 16 1 0
        M 57
        G 0 26 1
        M 3
        G 0 26 1
        G 1 16 1
        G 1 31 1
        G 1 16 16
        T 1
        G 1 31 1
        M 1
        P 1 16 1 0
        M 2
        G 1 26 1
        M 1
        G 1 26 1
        G 0 28 1
        M 1
        G 0 28 1
    """)
    # RTSON 0 while a character waits for CTS: RTS stays.
    say("O 131 1 1 0\nP 0 16 1 1\nL 0 33\nM 1\nP 0 16 1 0\nM 9\nG 0 22 5\nP 1 16 1 1\nM 63\nT 1\nG 0 22 5")


def divider():
    """q goes from 4 to 3 while the divider stands at 3: the next moment is an internal clock, and RTS falls."""
    say("O 139 1 1 0\nP 0 16 1 1\nM 1\nP 0 16 1 0\nM 2\nG 0 26 1\nP 0 14 1 1\nP 0 0 8 131\nM 1\nG 0 26 1")


# ---- Numbers at their edges ----


def edges():
    say("""
        O 256 1 1 0
        O 131 2048 1 0
        O 131 1 2048 0
        O 131 1 1 256
        O 255 2047 2047 255
        O 0 0 0 0
        O 131 1 1 0
        P 0 32 1 0
        P 0 31 2 0
        P 1 17 16 0
        P 1 0 17 0
        P 0 0 0 0
        P 0 0 16 65536
        P 0 4294967295 1 0
        P 0 4294967280 16 0
        P 2 0 1 0
        P 4294967295 32 17 65536
        P 0 22 9 511
        P 0 18 1 65534
        G 0 18 1
        G 0 16 1
        P 0 18 1 65535
        G 0 0 16
        G 0 16 16
        G 0 31 1
        G 0 32 1
        G 0 31 2
        G 0 17 16
        G 0 0 17
        G 1 0 0
        G 1 4294967295 1
        G 2 32 17
        L 0 256
        L 2 256
        L 1 255
        L 1 0
        T 2
        T 4294967295
        T 1
        M 0
        M 100001
        M 4294967295
        M 100000
    """)


# ---- Lines that are badly written ----


def badly_written():
    # Cause 1: 81 bytes, whatever they are. 80 bytes are cause 2 or 3.
    raw(b"M 0" + b" " * 77, b"M 0" + b" " * 78, b"X" * 80, b"X" * 81, b"M " + b"9" * 78, b"T 0" + b"\0" * 78, b"M " + b"1" * 998, b"\xff" * 81)
    # Cause 2
    raw(b"", b" ", b" M 1", b"m 1", b"0", b"\xcd 1", b"\r", b"\0", b"S 0", b"N 1")
    # Cause 3
    raw(b"T1", b"T  1", b"T 1 ", b"T 01", b"T +1", b"T", b"T ", b"T 1 1", b"T -1", b"T 00", b"T 4294967296", b"T 4294967297", b"TT 1", b"T\t1", b"T 1\r")
    raw(b"M", b"M 18446744073709551617", b"M 340282366920938463463374607431768211456", b"M 1\0", b"M \xb1", b"M /", b"M :", b"M 1/", b"M 1:", b"M\xa01")
    raw(b"O 131 1 1", b"O 131 1 1 0 0", b"O 131 1  1 0", b"O 131 1 1 00", b"O 131,1,1,0", b"P 0 16 1", b"P 0 16 1 1 1", b"P 2 016 1 1", b"G 0 0", b"G x 0 1", b"L 0", b"L 0 65 0")
    # The bench is as it was: L 1 255 of the edges still waits.
    say("L 1 1\nG 1 22 1")


def last():
    """The last line lacks its byte 10."""
    say("M 9\nG 0 16 16")


def long_script():
    for part in (example, characters, receiving, rows, misfits, rates, load_flags, breaks, resets, test_mode, timer, lines, divider, edges, badly_written, last):
        part()
    return b"\n".join(LINES)


# ---- A bench that is not open ----


def closed():
    """Causes 1 to 5 come before 9."""
    raw(b"")
    say("""
        M 0
        M 100000
        M 100001
        P 0 16 1 1
        P 1 31 1 0
        P 0 32 1 0
        P 2 16 1 1
        P 0 4294967295 1 0
        P 0 0 17 0
        P 1 0 0 0
        P 1 0 1 65536
        G 1 4294967280 16
        G 0 0 0
        G 0 0 16
        G 1 16 16
        G 1 16 17
        G 2 0 0
        L 0 65
        L 1 255
        L 1 256
        L 3 0
        T 0
        T 1
        T 2
        T 01
        O 256 1 1 0
        M 0
        O 131 1 2048 0
        T 0
        O 131 1 1 0
        T 0
        M 0
        O 256 1 1 0
        G 0 16 16
    """)
    raw(b"", b"")
    return b"\n".join(LINES)


if __name__ == "__main__":
    sys.stdout.buffer.write(closed() if sys.argv[1:] == ["closed"] else long_script())
