#!/usr/bin/env python3
"""Makes bench logs, each the same on every run: the three that are measured, random and damaged ones for comparison, and worked
ones, of which the report is known.

    logs.py a|b|c [--lines N] [--seed N]    a log for a measurement, of N lines (1,000,000)
    logs.py random [--seed N]               the random log of a seed
    logs.py NAME                            a damaged or worked log by its name
    logs.py names                           the names of the damaged and worked logs
"""

import argparse
import random
import sys

SIZE = 256
MOST_LINES = 1_000_000
MICROS_LIMIT = 1_999_999_999
FRAMES_LIMIT = 99_999
MICROS_IN_FRAME = 20_000
SHEET, TABLE = "4C", "52"
DIGITS = b"0123456789ABCDEF"


# Frames, as the digits of their lines.


def keep(side):
    return side + "4B"


def insert(side, at):
    return f"{side}49{at:04X}"


def remark(at, text):
    return f"{SHEET}4E{at:04X}{text.hex().upper()}"


def delete(side, at):
    return f"{side}44{at:04X}"


def move(side, at, to):
    return f"{side}4D{at:04X}{to:04X}"


def change(side, at, column, letter, operand):
    return f"{side}43{at:04X}{column:02X}{ord(letter):02X}{operand & 0xFFFFFFFF:08X}"


def flags(mask, bits):
    return mask << 16 | bits


def text(rng, most=24):
    return bytes(rng.randint(0x20, 0x7E) for _ in range(rng.randint(0, most)))


class Shape:
    """Which lines of a sheet are records. It lets a log be written whose positions mean something."""

    def __init__(self):
        self.kinds = bytearray()
        self.records = 0

    def length(self, side):
        return len(self.kinds) if side == SHEET else self.records

    def line_of(self, record):
        """The line of a record, or the sheet's end for the record after the last."""
        low, high = record, len(self.kinds)
        while low < high:
            middle = (low + high) // 2
            if self.kinds.count(1, 0, middle + 1) > record:
                high = middle
            else:
                low = middle + 1
        return low

    def insert(self, side, at):
        if at <= self.length(side) and len(self.kinds) < SIZE:
            self.kinds.insert(at if side == SHEET else self.line_of(at), 1)
            self.records += 1

    def remark(self, at):
        if at <= len(self.kinds) < SIZE:
            self.kinds.insert(at, 0)

    def delete(self, side, at):
        if at < self.length(side):
            self.records -= self.kinds.pop(at if side == SHEET else self.line_of(at))

    def move(self, side, at, to):
        if max(at, to) < self.length(side) and at != to:
            if side == SHEET:
                self.kinds.insert(to, self.kinds.pop(at))
            else:
                self.kinds.pop(self.line_of(at))
                self.kinds.insert(self.line_of(to), 1)


# The logs that are measured, as lists of lines.


def changes(rng, lines):
    """Changes on 36 records among 8 remarks, in each column, from both sides; a few in a hundred are refused, with 9."""
    log = []
    records = []
    for line in range(44):
        if line % 11 in (3, 7):
            log.append(remark(line, text(rng)))
        else:
            log.append(insert(SHEET, line))
            records.append(line)
    times = [0] * len(records)
    places = [(SHEET, 0), (SHEET, 1), (SHEET, 2), (TABLE, 0), (TABLE, 1), (TABLE, 2), (TABLE, 3)]
    while len(log) < lines:
        record = rng.randrange(len(records))
        side, column = rng.choice(places)
        at = records[record] if side == SHEET else record
        if column == 0:
            log.append(change(side, at, 0, "S", rng.randrange(256)))
        elif column == 1:
            step = 1 if side == SHEET else MICROS_IN_FRAME
            scale = rng.choice((999, MICROS_IN_FRAME, 1_000_000, MICROS_LIMIT) if side == SHEET else (1, 50, FRAMES_LIMIT))
            amount = rng.randint(-scale, scale)
            if not 0 <= times[record] + amount * step <= MICROS_LIMIT and rng.random() < 0.9:
                amount = -amount
            if 0 <= times[record] + amount * step <= MICROS_LIMIT:
                times[record] += amount * step
            log.append(change(side, at, 1, "A", amount))
        elif column == 2:
            mask = rng.randint(1, 0xFFFF if side == SHEET else 0xF)
            log.append(change(side, at, 2, "F", flags(mask, rng.randrange(0x10000) & mask)))
        else:
            log.append(change(side, at, 3, "S", rng.randrange(16)))
    return log


def edits(rng, lines):
    """Insertions, deletions and moves from both sides on a sheet of 246 to 254 lines, about one in five a remark. All fit."""
    log = []
    shape = Shape()

    def add(side, at):
        if side == SHEET and rng.random() < 0.2:
            log.append(remark(at, text(rng)))
            shape.remark(at)
        else:
            log.append(insert(side, at))
            shape.insert(side, at)

    while len(shape.kinds) < 250 and len(log) < lines:
        add(SHEET, rng.randint(0, len(shape.kinds)))
    while len(log) < lines:
        side = rng.choice((SHEET, TABLE))
        length = shape.length(side)
        edit = rng.choice((insert, delete, move))
        if edit != move and not 246 < len(shape.kinds) < 254:
            edit = insert if len(shape.kinds) <= 246 else delete
        if edit == insert:
            add(side, rng.randint(0, length))
        elif edit == delete:
            at = rng.randrange(length)
            log.append(delete(side, at))
            shape.delete(side, at)
        else:
            at, to = rng.randrange(length), rng.randrange(length)
            log.append(move(side, at, to))
            shape.move(side, at, to)
    return log


def refusals(rng, lines):
    """A sheet is filled with 192 records among 64 remarks; each line after that is refused, with one of 2 to 9. A line over the
    million is refused with 1, if so many lines are asked for."""
    log = []
    for line in range(SIZE):
        log.append(remark(line, text(rng)) if line % 4 == 3 else insert(SHEET, line))
    records = SIZE * 3 // 4

    def place(side):
        """Where a record is."""
        record = rng.randrange(records)
        return record // 3 * 4 + record % 3 if side == SHEET else record

    def too_long():
        return rng.choice((";", "")) + "4C4B" * rng.randint(21, 30)

    def no_digits():
        line = insert(SHEET, rng.randrange(0x10000))
        return rng.choice((line[:-1], line.lower(), line + " ", line[:4] + "G" + line[5:]))

    def no_frame():
        side = rng.choice((SHEET, TABLE))
        return rng.choice(
            (
                "4C",
                "4D490000",
                side + "51",
                TABLE + "4E0000",
                insert(side, 0) + "00",
                change(side, 0, 1, "A", 1)[:-2],
                remark(0, b"a\tb"),
                change(side, 0, 1, "B", 1),
                change(side, 0, 1, "K", 1),
            )
        )

    def no_position():
        side = rng.choice((SHEET, TABLE))
        length = SIZE if side == SHEET else records
        past = length + rng.choice((0, 1, 1000))
        return rng.choice(
            (
                insert(side, past + 1),
                remark(SIZE + 1 + rng.randrange(9), b"note"),
                delete(side, past),
                move(side, past, 0),
                move(side, rng.randrange(length), past),
                change(side, past, 1, "A", 1),
            )
        )

    def no_room():
        at = rng.randint(0, records)
        return rng.choice((insert(SHEET, at), insert(TABLE, at), remark(at, b"note")))

    def at_remark():
        return change(SHEET, rng.randrange(SIZE // 4) * 4 + 3, rng.randrange(5), "S", 1)

    def no_kind():
        side = rng.choice((SHEET, TABLE))
        column, letter, operand = rng.choice(
            (
                (4, "K", 0),
                (255, "S", 1),
                (0, "S", 256),
                (0, "A", 1),
                (1, "S", 1),
                (1, "A", MICROS_LIMIT + 1),
                (2, "F", flags(1, 2)),
                (2, "A", 1),
                (3, "S", 16),
                (3, "F", flags(1, 1)),
            )
        )
        return change(side, place(side), column, letter, operand)

    def no_value():
        side = rng.choice((SHEET, TABLE))
        return change(side, place(side), 1, "A", -rng.randint(1, MICROS_LIMIT if side == SHEET else FRAMES_LIMIT))

    ways = (too_long, no_digits, no_frame, no_position, no_room, at_remark, no_kind, no_value)
    while len(log) < lines:
        log.append(rng.choice(ways)())
    return log


MEASURED = {
    "a": ("changes of values", changes, MOST_LINES),
    "b": ("insertions, deletions and moves", edits, MOST_LINES),
    "c": ("refused lines", refusals, MOST_LINES + 1),
}


def measured_log(name, lines=None, seed=1):
    _, make, most = MEASURED[name]
    log = make(random.Random(f"{name} {seed}"), lines or most)
    return "".join(line + "\n" for line in log[: lines or most]).encode()


# Random logs, for comparison.


def random_log(seed):
    """A log of frames whose positions lie near the ends, of which some lines are damaged, and sometimes the whole."""
    rng = random.Random(f"random {seed}")
    if rng.random() < 0.02:
        return rng.randbytes(rng.randint(0, 20_000))
    shape = Shape()
    lines = []
    for _ in range(rng.choice((0, 0, 10, 250, 256))):
        lines.append(random_insertion(rng, shape, SHEET, rng.randint(0, len(shape.kinds))).encode())
    damage = rng.choice((0, 0.02, 0.02, 0.3, 0.9))
    weights = rng.choice(([1, 4, 3, 3, 12], [1, 6, 3, 3, 4], [1, 6, 6, 2, 2], [1, 2, 2, 12, 2], [0, 1, 0, 0, 20]))
    for _ in range(rng.choice((5, 50, 500, 500, 2_000, 2_000, 10_000))):
        if rng.random() < damage:
            # The shape does not follow what is damaged, which mostly is refused.
            line = random_frame(rng, Shape(), weights).encode()
            lines.append(rng.choice(DAMAGES)(rng, line))
        else:
            lines.append(random_frame(rng, shape, weights).encode())
    log = b"\n".join(lines) + b"\n"
    if rng.random() < 0.3:
        log = rng.choice(
            (
                log[:-1],
                log + b"\n",
                log[: rng.randint(0, len(log))],
                log.replace(b"\n", b"\r\n"),
                log.replace(b"\n", b"\n\n"),
                b"\xef\xbb\xbf" + log,
            )
        )
    return log


def near(rng, length):
    """A position, mostly near an end of what has that length."""
    if rng.random() < 0.4:
        return rng.randint(0, length)
    at = rng.choice((0, 1, length - 2, length - 1, length - 1, length, length, length + 1, 255, 256, 0xFFFF))
    return max(at, 0)


def random_insertion(rng, shape, side, at):
    if side == SHEET and rng.random() < 0.3:
        shape.remark(at)
        return remark(at, text(rng))
    shape.insert(side, at)
    return insert(side, at)


def random_frame(rng, shape, weights):
    side = rng.choice((SHEET, TABLE))
    length = shape.length(side)
    at, to = near(rng, length), near(rng, length)
    edit = rng.choices((keep, insert, delete, move, change), weights)[0]
    if edit == keep:
        return keep(side)
    if edit == insert:
        return random_insertion(rng, shape, side, at)
    if edit == delete:
        shape.delete(side, at)
        return delete(side, at)
    if edit == move:
        shape.move(side, at, to)
        return move(side, at, to)
    return random_change(rng, side, min(at, length) if rng.random() < 0.9 else at)


def random_change(rng, side, at):
    column = rng.randrange(4) if rng.random() < 0.95 else rng.choice((4, 5, 255))
    # Mostly a change of the column's kind, and else any.
    letter = "SAFS"[column % 4] if rng.random() < 0.9 else rng.choice("KSAF")
    if letter == "K":
        return change(side, at, column, "K", 0)
    if letter == "S":
        limit = rng.choice((15, 255))
        return change(side, at, column, "S", rng.choice((0, 1, limit, limit + 1, 0xFFFFFFFF, rng.randint(0, limit))))
    if letter == "F":
        mask = rng.choice((0, 1, 0xF, 0x10, 0xFFFF, rng.randrange(16), rng.randrange(0x10000)))
        bits = rng.randrange(0x10000)
        return change(side, at, column, "F", flags(mask, bits & mask if rng.random() < 0.9 else bits))
    scale = rng.choice((1, 2, 999, 1000, 1001, 19_999, 20_000, 20_001))
    limit = MICROS_LIMIT if side == SHEET else FRAMES_LIMIT
    amounts = (0, scale, rng.randint(1, scale), limit, limit - 1, limit + 1, rng.randint(0, limit), 0x7FFFFFFF, 0x80000000)
    return change(side, at, column, "A", rng.choice(amounts) * rng.choice((1, -1)))


def replaced(rng, line):
    at = rng.randrange(len(line))
    return line[:at] + rng.choice((rng.randbytes(1), b"G", b"0", b"4")) + line[at + 1 :]


def inserted(rng, line):
    at = rng.randint(0, len(line))
    return line[:at] + rng.choice((b"\0", b"\r", b" ", b";", b"\n", b"\xff", rng.randbytes(1))) + line[at:]


def lengthened(rng, line):
    """A line of 79 to 83 characters: digits, a comment, or others."""
    length = rng.randint(79, 83)
    line = rng.choice((line, b";" + line, b"4C4E0000", b"\0", b"")) + rng.choice((b"4C4B", b"20", b".", b"\r")) * 83
    return line[:length]


def other_letter(rng, line):
    """The side or operation letter, or some other byte, is another; the digits are digits."""
    at = rng.choice((0, 2, 2 * rng.randrange(len(line) // 2)))
    return line[:at] + rng.choice((b"4C", b"52", b"4B", b"49", b"4E", b"44", b"4D", b"43", b"00", b"7F")) + line[at + 2 :]


DAMAGES = (
    replaced,
    inserted,
    lengthened,
    other_letter,
    other_letter,
    lambda rng, line: line.lower(),
    lambda rng, line: line[: rng.randrange(len(line))],
    lambda rng, line: line[: rng.randrange(len(line)) // 2 * 2],
    lambda rng, line: line + bytes(rng.choices(DIGITS, k=rng.randint(1, 4))),
    lambda rng, line: line + b"20" * rng.randint(1, 40),
    lambda rng, line: line + rng.choice((b"\r", b"\0", b" ", b"\t")),
    lambda rng, line: rng.choice((b" ", b"\0", b"\r")) + line,
    lambda rng, line: bytes(rng.choices(DIGITS, k=rng.randint(0, 90))),
    lambda rng, line: rng.randbytes(rng.randint(0, 100)),
    lambda rng, line: b";" + line,
    lambda rng, line: b"",
)


# Damaged logs by name, each made when it is asked for.


def at_a_cut(size):
    """Lines of 78 to 83 characters and short ones around each multiple of a reader's likely buffer."""
    rng = random.Random(f"cut {size}")
    log = bytearray()
    for multiple in range(1, 9):
        end = multiple * size - rng.randint(0, 90)
        while len(log) < end:
            log += b";" * min(rng.randint(0, 60), end - len(log) - 1) + b"\n"
        for _ in range(4):
            log += rng.choice((insert(SHEET, 0).encode(), lengthened(rng, b"4C4B"), b"")) + b"\n"
    return bytes(log)


LONG = 10_000_000
FRAMES = "".join(line + "\n" for line in (insert(SHEET, 0), change(SHEET, 0, 1, "A", 20_000))).encode()

DAMAGED = {
    "empty": lambda: b"",
    "one newline": lambda: b"\n",
    "newlines": lambda: b"\n" * 70_000,
    "one comment": lambda: b";",
    "one character": lambda: b"4",
    "no final newline": lambda: FRAMES[:-1],
    "no final newline, odd": lambda: FRAMES[:-2],
    "carriage returns": lambda: FRAMES.replace(b"\n", b"\r\n"),
    "a NUL": lambda: FRAMES + b"\0\n" + FRAMES,
    "81 characters at the end": lambda: FRAMES + b"4" * 81,
    "80 characters at the end": lambda: FRAMES + b"4" * 80,
    "a million newlines": lambda: b"\n" * MOST_LINES,
    "a million newlines and a character": lambda: b"\n" * MOST_LINES + b";",
    "a million and one newlines": lambda: b"\n" * (MOST_LINES + 1),
    "a million and two frames": lambda: b"4C4B\n" * (MOST_LINES + 2),
    "a million lines, the last without a newline": lambda: b"\n" * (MOST_LINES - 1) + FRAMES[:8],
    "a long line after a million": lambda: b"\n" * MOST_LINES + b"4C4B" * (LONG // 4) + b"\n" + FRAMES,
    "a long line": lambda: FRAMES + b"4C4B" * (LONG // 4) + b"\n" + FRAMES,
    "a long line at the end": lambda: FRAMES + b"4C4B" * (LONG // 4),
    "a long comment": lambda: FRAMES + b";" * LONG + b"\n" + FRAMES,
    "a long line of NUL": lambda: b"\0" * LONG,
} | {f"cut at {size}": lambda size=size: at_a_cut(size) for size in (512, 1024, 4096, 8192, 16384, 32768, 65536, 131072)}


# Logs worked by hand, with their reports.

WORKED = {
    "bench 4": (
        "; bench 4\n4C490000\n4C4E00004D31\n4C430001014100004E1F\n4C430001014100000001\n524300000141FFFFFFFE\n"
        "52430000035300000005\n4C430001005300000083\n4C430000005300000001\n4C430001024600310021\n",
        "! 6 9\n! 9 7\nLEFT 2\n# M1\n131 20000 33 0\nRIGHT 1\n193 1 1 5\nEND 7 2\n",
    ),
    # The millionth line is played, and the next is refused for its number though it is a comment. No third is read.
    "refusal 1": (
        "\n" * 999_999 + "4C490000\n;\n4C490000\n",
        "! 1000001 1\nLEFT 1\n0 0 0 0\nRIGHT 1\n0 0 0 0\nEND 1 1\n",
    ),
    # 80 characters are a keep with 38 bytes too many, or a comment; 81 are too many for either, and for no digits too.
    "refusal 2": (
        "4C4B" * 20 + "\n" + "4C4B" * 20 + "4\n;" + "." * 79 + "\n;" + "." * 80 + "\n" + "\r" * 81 + "\n4C4B\n",
        "! 1 4\n! 2 2\n! 4 2\n! 5 2\nLEFT 0\nRIGHT 0\nEND 1 4\n",
    ),
    # An odd count; a lower-case digit; a carriage return, which makes the count even; a space; a semicolon that is not first.
    "refusal 3": (
        "4C4\n4c4B\n4C4\r\n 4C4B\n4C;B\n\n;\n4C4B",
        "! 1 3\n! 2 3\n! 3 3\n! 4 3\n! 5 3\nLEFT 0\nRIGHT 0\nEND 1 5\n",
    ),
    # One byte; side M; operation Q; a remark from the table; an insertion a byte short, and a byte long; a text of 25 bytes; a
    # text with 1F, and 7F; a change letter B; a keep with operand 1. Then texts of 0 and 24 bytes, and one of 20 and 7E.
    "refusal 4": (
        "4C\n4D4B\n4C51\n524E00004D31\n4C4900\n4C49000000\n4C4E0000" + "41" * 25 + "\n4C4E00001F\n4C4E00007F\n"
        "4C430000004200000000\n4C430000004B00000001\n4C4E0000\n4C4E0001" + "41" * 24 + "\n4C4E0002207E\n",
        "".join(f"! {line} 4\n" for line in range(1, 12)) + "LEFT 3\n# \n# " + "A" * 24 + "\n#  ~\nRIGHT 0\nEND 3 11\n",
    ),
    # On an empty pair: insert at 1 from either side, a remark at 1, delete, move, change at 0. Then remark, record: a move from
    # 2, and to 2; in the table a move to 1, a deletion and a change at 1, an insertion at 2, and one at 1, which is the end.
    "refusal 5": (
        "4C490001\n52490001\n4C4E0001\n4C440000\n524D00000000\n4C430000004B00000000\n4C4E000041\n4C490001\n4C4D00020000\n"
        "4C4D00000002\n524D00000001\n52440001\n52430001004B00000000\n52490002\n52490001\n",
        "".join(f"! {line} 5\n" for line in (1, 2, 3, 4, 5, 6, 9, 10, 11, 12, 13, 14))
        + "LEFT 3\n# A\n0 0 0 0\n0 0 0 0\nRIGHT 2\n0 0 0 0\n0 0 0 0\nEND 3 12\n",
    ),
    # 255 remarks and a record fill the sheet: an insertion from either side and a remark have no room, but the position comes
    # first: 1 is the table's end and 2 is past it. A line is deleted, and there is room for one.
    "refusal 6": (
        "4C4E0000\n" * 255 + "52490000\n4C490000\n52490001\n4C4E0100\n52490002\n4C440000\n52490001\n4C490000\n",
        "! 257 6\n! 258 6\n! 259 6\n! 260 5\n! 263 6\nLEFT 256\n" + "# \n" * 254 + "0 0 0 0\n" * 2 + "RIGHT 2\n" + "0 0 0 0\n" * 2
        + "END 258 5\n",
    ),
    # Changes at a remark: a keep, one in column 4, and one of no column's kind.
    "refusal 7": (
        "4C4E0000\n4C430000004B00000000\n4C430000044B00000000\n4C4300000053FFFFFFFF\n4C430001004B00000000\n",
        "! 2 7\n! 3 7\n! 4 7\n! 5 5\nLEFT 1\n# \nRIGHT 0\nEND 1 4\n",
    ),
    # On a record: a keep in column 4; choice 256 on either side of column 0; 2,000,000,000 microseconds, and -100,000 frames; bits
    # outside the mask, and a mask of five bits from the table; a choice in column 3 from the sheet, and 16 from the table; an
    # amount in column 0. Then a keep in column 3 from the sheet, 255 from the table, and 15 from the table are accepted.
    "refusal 8": (
        "4C490000\n4C430000044B00000000\n4C430000005300000100\n52430000005300000100\n4C430000014177359400\n524300000141FFFE7960\n"
        "4C430000024600010002\n52430000024600100010\n4C430000035300000001\n52430000035300000010\n4C430000004100000001\n"
        "4C430000034B00000000\n5243000000530000007F\n5243000003530000000F\n",
        "".join(f"! {line} 8\n" for line in range(2, 12)) + "LEFT 1\n254 0 0 0\nRIGHT 1\n127 0 0 15\nEND 4 10\n",
    ),
    # -1 microsecond from 0; 1,999,999,999 and one more; -99,999 frames and one less; then 19,999 microseconds are left in frame 0.
    "refusal 9": (
        "4C490000\n4C4300000141FFFFFFFF\n4C4300000141773593FF\n4C430000014100000001\n524300000141FFFE7961\n"
        "524300000141FFFFFFFF\n",
        "! 2 9\n! 4 9\n! 6 9\nLEFT 1\n0 19999 0 0\nRIGHT 1\n0 0 0 0\nEND 3 3\n",
    ),
    # The worked cases of carrying edits, on remark, record, remark, record, with labels 1, 2 to tell the records. From the sheet,
    # line 3 goes to 0, and is the table's first record; from the table, 0 goes to 1, so line 0 goes to the end, and 1 to 1 stays.
    "moves": (
        "4C4E000061\n4C490001\n4C4E000262\n4C490003\n4C430001005300000001\n4C430003005300000002\n4C4D00030000\n"
        "524D00000001\n524D00010001\n",
        "LEFT 4\n# a\n1 0 0 0\n# b\n2 0 0 0\nRIGHT 2\n128 0 0 0\n64 0 0 0\nEND 9 0\n",
    ),
}


def log_of_name(name):
    return DAMAGED[name]() if name in DAMAGED else WORKED[name][0].encode()


def main():
    parser = argparse.ArgumentParser(description=__doc__, formatter_class=argparse.RawDescriptionHelpFormatter)
    parser.add_argument("name", choices=["names", *MEASURED, "random", *DAMAGED, *WORKED], metavar="NAME")
    parser.add_argument("--lines", type=int)
    parser.add_argument("--seed", type=int, default=1)
    given = parser.parse_args()
    if given.name == "names":
        print(*DAMAGED, *WORKED, sep="\n")
    elif given.name in MEASURED:
        sys.stdout.buffer.write(measured_log(given.name, given.lines, given.seed))
    elif given.name == "random":
        sys.stdout.buffer.write(random_log(given.seed))
    else:
        sys.stdout.buffer.write(log_of_name(given.name))


if __name__ == "__main__":
    main()
