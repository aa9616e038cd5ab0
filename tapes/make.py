#!/usr/bin/env python3
"""make.py shipped FOLDER: writes the tapes of this folder, NAME.tape, into another.
make.py long|numbers|far N: writes a tape of N records to standard output.
make.py pages|plain N: writes a tape of N accepted ticks."""
import os, random, sys

BLOCK = 1024    # records that the program reads at once
PAGE = 62       # ticks on a page
TURN = 256      # ticks after which the clock reads the same

def record(*head):
    return bytes(head) + bytes(24 - len(head))

def control(register, value):
    return record(0x43, register, value)

def arrival(port, identifier, time, data=b""):
    return record(0x41, port, 0, 0, identifier, time % 256, *data)

def tick(best_effort=0):
    return record(0x54, best_effort)

def connect(incoming, outgoing, d, mask):
    return control(0, outgoing) + control(1, d) + control(2, mask) + control(3, incoming)

def horizon(mask, value):
    return control(4, mask) + control(5, value)

def refusals():
    """Every number that a tape can meet: 3, 4, 5, 6, 7, 10, 11, 12, and 9 at the end (8 stands in full)."""
    t = control(6, 0) + control(255, 1) + control(1, 128) + control(2, 32) + control(4, 32) + control(5, 128)
    t += connect(5, 33, 10, 2)
    t += arrival(0, 5, 0) + tick(32) + tick(255) + tick()
    t += arrival(0, 6, 0) + arrival(1, 5, -11) + arrival(2, 5, 129) + arrival(3, 5, 128) + arrival(4, 5, 127) + tick()
    t += record(0) + record(0x44, 1) + record(0x63) + bytes([0x55] * 24)
    t += control(0, 1)[:23] + b"\x01" + record(0x43, 0, 1, 1) + record(0x54, 0, 1) + tick()[:23] + b"\xff"
    t += record(0x41, 0, 1) + record(0x41, 0, 0, 1) + arrival(5, 5, 1) + arrival(255, 5, 1)
    t += arrival(2, 5, 1) + arrival(2, 5, 1) + record(0x41, 2, 1) + tick() + arrival(2, 5, 1) + tick()
    # 10 comes before 11, 11 before 12.
    t += record(0x42, 9, 9, 9) + arrival(1, 5, 1) + record(0x41, 1, 0, 9) + record(0x41, 9, 0, 0)
    return t + tick() + b"\x54" + bytes(10)

def turns():
    """The clock turns over four times, with packets stored across the turn."""
    t = connect(1, 0xA1, 127, 1) + connect(2, 0xB2, 40, 2) + connect(3, 0xC3, 0, 4) + horizon(3, 96)
    for n in range(1100):
        if n % 16 == 8:
            t += arrival(0, 1, n + 110)
        if n % 32 == 24:
            t += arrival(1, 2, n + 97) + arrival(2, 3, n)
        if n % 64 == 50:
            t += arrival(3, 1, n - 127) + arrival(4, 2, n - 41)
        t += tick(0x1F if n % 256 in (254, 255, 0, 1) else 0)
    return t

def full():
    """256 stored, the next refused with 8, though that tick frees a slot; then a place again."""
    t = connect(9, 0x99, 100, 1) + connect(10, 0x10, 127, 31) + connect(11, 0x11, 90, 2)
    for n in range(52):
        for p in range(5 if n < 51 else 1):
            t += arrival(p, 9, n + 120)
        t += tick()
    t += arrival(0, 11, 52) + arrival(1, 12, 52) + arrival(2, 11, 52 - 91) + tick()
    t += b"".join(tick() for _ in range(66))
    # On time now: port 0 sends one in this tick, and its slot is free only after it.
    t += arrival(4, 11, 119) + tick() + arrival(4, 11, 120) + tick() + arrival(3, 11, 121) + arrival(4, 11, 121) + tick() + tick()
    return t

def multicast():
    """Masks of several ports, sent in one tick or over several; the slot is next to be taken."""
    t = connect(1, 0x01, 20, 31) + connect(2, 0x02, 5, 21) + connect(3, 0x03, 9, 10)
    t += arrival(0, 1, 0) + tick() + arrival(0, 2, 1) + arrival(1, 3, 1) + tick()
    t += arrival(0, 1, 2) + arrival(1, 1, 2) + arrival(2, 2, 2) + arrival(3, 3, 2) + arrival(4, 1, 4) + tick()
    return t + b"".join(tick() for _ in range(8))

def withdrawals():
    """Several ports withdraw in one tick, up to 1,275 in all."""
    t = connect(1, 0x77, 3, 31) + connect(2, 0x78, 0, 24)
    for p in range(5):
        t += arrival(p, 1, 0)
    t += tick() + tick() + tick() + tick() + arrival(0, 2, 4) + arrival(1, 2, 4) + arrival(2, 1, 2) + tick() + tick()
    # 256 wait for clock 70 with d 0: five leave, and all else goes.
    t += connect(3, 0x79, 0, 31)
    for n in range(52):
        for p in range(5 if n < 51 else 1):
            t += arrival(p, 3, 70)
        t += tick(31)
    return t + b"".join(tick(31) for _ in range(20))

def best_effort():
    """Best-effort holds a port against an early packet, and yields to one on time."""
    t = connect(1, 0xEE, 30, 3) + horizon(3, 20)
    t += arrival(0, 1, 10) + tick(1) + tick(3) + tick(2) + tick(0) + arrival(0, 1, 30) + tick(0)
    t += b"".join(tick(31) for _ in range(24)) + b"".join(tick(0) for _ in range(12))
    return t + arrival(0, 1, 61) + tick(0) + tick(0)

def queues():
    """Ends after a turn of the clock with packets on time and early on several ports, many with equal keys."""
    t = connect(1, 0xA1, 60, 1) + connect(2, 0xB2, 40, 6) + connect(3, 0xC3, 90, 8) + connect(4, 0xD4, 15, 13)
    t += horizon(1, 12) + horizon(2, 3) + horizon(12, 20) + b"".join(tick() for _ in range(250))
    for n in range(250, 262):
        t += arrival(0, 1, n - n % 3) + arrival(1, 2, n - n % 2 + 4 * (n // 2 % 3)) + arrival(2, 2, 248) + arrival(3, 3, n + 9 + n % 2 * 30) + arrival(4, 4, 268 + n % 3)
        t += tick(26)
    return t + arrival(2, 4, 263) + tick(18)

def ties():
    """Fives of packets that come in one tick for one port: on time with one deadline, early with one time, or with both one time and one
    deadline. Each packet has a connection of its own. Ends with such ties on every port."""
    due = lambda deadline, *times: [(time, deadline - time) for time in times]
    at = lambda time, *delays: [(time, d) for d in delays]
    fives = {   # by clock: output port, and time and delay of the packet of each input port
        0: (0, due(20, 0, -3, -1, -4, -2)), 1: (1, at(30, 9, 5, 8, 1, 7)), 2: (2, at(100, 127, 20, 60, 29, 30)),
        3: (3, at(3, *[15] * 5)), 4: (4, at(40, *[15] * 5)), 12: (0, due(40, 8, 9, 10, 11, 12)), 13: (1, at(60, 5, 4, 3, 2, 1)),
        # Across the turn of the clock. Of the ten for port 3 some come later than others and have the earlier time.
        250: (1, at(252, 8, 1, 6, 3, 4)), 251: (2, at(300, 127, 70, 90, 79, 78)), 252: (3, due(270, 252, 250, 251, 252, 250)),
        253: (3, due(270, 249, 253, 247, 251, 248)), 258: (0, due(270, 258, 255, 257, 254, 256)),
        # From here on the horizon is 0, and early packets wait.
        264: (1, at(290, 9, 5, 8, 1, 7)), 265: (2, at(385, 127, 10, 60, 11, 12)), 266: (4, at(320, *[15] * 5)),
        267: (3, at(267, *[15] * 5)), 268: (0, due(290, 269, 255, 257, 254, 256)),
    }
    t, identifier = horizon(31, 127), 16
    for n in range(269):
        if n == 264:
            t += horizon(31, 0)
        if n in fives:
            port, five = fives[n]
            for p, (time, d) in enumerate(five):
                t += connect(identifier + p, identifier + p, d, 1 << port) + arrival(p, identifier + p, time)
            identifier += 8
        t += tick()
    return t

def empty():
    """Nothing, so nothing is printed."""
    return b""

def rest():
    """23 bytes: 9 for record 1."""
    return tick()[:23]

def blocks(n=2100):
    """More records than one reading takes, and a rest: ticks, arrivals and refusals by chance (fixed seed)."""
    return chance(1, n) + b"A"

def no_ticks():
    """Controls, arrivals, refused ticks and other refusals, and no accepted tick: no page."""
    t = connect(1, 0xA1, 9, 1) + control(1, 128) + tick(32) + arrival(0, 1, 0) + arrival(0, 1, 0) + arrival(1, 9, 0)
    return t + tick(32) + tick(255) + record(0x44) + record(0x54, 0, 1) + control(6, 0) + record(0x74)

def ticks(n):
    """n accepted ticks. The first of a page withdraws more than that of the page before, and the last one what the page has
    stored: less than that of the page before. Between them packets on time and early, and refusals."""
    t = connect(1, 0xA1, 9, 1) + connect(2, 0xB2, 0, 31) + connect(3, 0xC3, 0, 31) + horizon(1, 4)
    for i in range(n):
        page, row = divmod(i, PAGE)
        # On port 0 early, refused with 6, on time, refused with 7.
        t += (arrival(0, 1, i + 6), arrival(0, 9, i), arrival(0, 1, i - 3), arrival(0, 1, i - 10))[i % 4]
        if row == 0:
            t += b"".join(arrival(p, 2, i) for p in range(1, 3 + page))
        else:
            t += b"".join(arrival(p, 3, i - row + PAGE - 1) for p in range(1, 5 - page))
        if row % 5 == 0:
            t += record(0x44) + tick(32) + control(1, 128) + arrival(0, 1, i)
        t += tick(1 << row % 6 & 30)
    return t

def turn(n):
    """The first n ticks of a turn of the clock, with withdrawals and refusals now and then; nothing stays stored."""
    t = b""
    for i in range(n):
        if i % 5 == 1:
            t += b"".join(arrival(p, 1, i) for p in range(i % 3 + 2))
        if i % 16 == 7:
            t += tick(32) + arrival(4, 9, i)
        t += tick(i % 32)
    return t

def pages(n):
    """Many ticks, quickly made: turns of the clock, each like the one before."""
    return connect(1, 0xA1, 0, 21) + turn(TURN) * (n // TURN) + turn(n % TURN)

def far(n):
    """A million records by chance, and a rest: the last of each block is an arrival, so that one waits across each boundary."""
    t = bytearray(chance(n, n))
    for k in range(BLOCK, n + 1, BLOCK):
        t[24 * (k - 1):24 * k] = arrival(k // BLOCK % 5, 255, 0)
    return bytes(t) + b"T" * 13

def chance(seed, n):
    """n records by chance."""
    r, t, clock = random.Random(seed), b"", 0
    parts = [connect(i, r.randrange(256), r.randrange(128), r.randrange(32)) for i in range(16)] + [horizon(r.randrange(32), r.randrange(128)) for _ in range(4)]
    t = b"".join(parts)
    out, count = [t], len(t) // 24
    while count < n:
        k = r.randrange(20)
        if k < 11:
            out.append(arrival(r.randrange(5), r.randrange(18), clock + r.randrange(-140, 140), bytes(r.randrange(256) for _ in range(4))))
        elif k < 18:
            best = r.choice((0, 0, 0, 31, r.randrange(34)))
            out.append(tick(best))
            clock += best < 32
        elif k == 18:
            out.append(control(r.randrange(7), r.randrange(140)))
        else:
            out.append(bytes([r.choice((0x41, 0x43, 0x54, r.randrange(256))), r.randrange(6), r.randrange(2), r.randrange(2)]) + bytes(20))
        count += 1
    return b"".join(out)

TAPES = {make.__name__.replace("_", "-"): make for make in (refusals, turns, full, multicast, withdrawals, best_effort, queues, ties, empty, rest, blocks)}
TAPES.update({f"ticks-{n}": lambda n=n: ticks(n) for n in (1, PAGE, PAGE + 1, 2 * PAGE, 2 * PAGE + 1)})
TAPES.update({"ticks-0": no_ticks, "ticks-62-rest": lambda: ticks(PAGE) + record(0x44) + tick(32) + tick()[:23]})
MADE = {"long": lambda n: chance(n, n), "numbers": lambda n: record(0) * n, "far": far,
        "pages": pages, "plain": lambda n: b"".join(tick(i % 32) for i in range(n))}

def ship(folder):
    for name, make in TAPES.items():
        with open(os.path.join(folder, name + ".tape"), "wb") as f:
            f.write(make())

if __name__ == "__main__":
    what, *words = sys.argv[1:] or ["?"]
    if what == "shipped" and len(words) == 1:
        ship(words[0])
    elif what in MADE and len(words) == 1:
        sys.stdout.buffer.write(MADE[what](int(words[0])))
    else:
        sys.exit(__doc__)
