#!/usr/bin/env python3
"""record_vectors.py: writes the vectors that crates/replay_record reads to standard output.

usage: tools/record_vectors.py > crates/replay_record/stdin

Corner records by the text of document 02, ticket 1, read a second time: packed and unpacked by `struct`, finite by the
platform's floats; of each call every fault is gathered, and the lowest is the answer. A vector is made for an answer,
and what is gathered must say the same. Every answer is among them but the writer's 18, which needs a list of over
8,388,608 corners; the reader's 18 is there for counts that are not the record's, also over 8,388,608, and not for a
record that really has as many corners. The same seed gives the same bytes. After a first line of text, all numbers
big-endian, 4 bytes each; for each vector

    0 for a record that is read, 1 for a list that is written
    W and H that the writer is given, 0 and 0 for the reader
    the length of the lent list in numbers, or of the lent output in bytes
    the answer that is due, its count, W and H
    what is given, after its length in bytes: a record, or the patterns of a list
    what is due at the beginning of the lent buffer, after its length in bytes: the patterns of a list, or a record;
    nothing where the call is refused, and the rest of the buffer stays as it was
"""
import math
import random
import struct
import sys
from collections import Counter
from itertools import combinations

SEED = 5
READ, WRITE = 0, 1
REFUSALS = (16, 17, 18, 19, 20)
MOST = 8388608
NUMBERS, BYTES = 1024, 4096  # the lent list and the lent output of crates/replay_record
OLD = 0xA5A5A5A5  # what a number of the lent list is there before a call: none that is due

SIDES = (0, 1, 256, 258, 65535)
WRONG_VERSIONS = (0, 2, 255)
# zeros, ones, the least and the greatest subnormals, the least and the greatest numbers, and patterns whose bytes tell
ODD = [0x00000000, 0x80000000, 0x3F800000, 0xBF800000, 0x00000001, 0x80000001, 0x007FFFFF, 0x807FFFFF,
       0x00800000, 0x80800000, 0x7F7FFFFF, 0xFF7FFFFF, 0x01020304, 0x81020304, 0x04030201, 0x0000007F,
       0x00007F80, 0x0000807F, 0x000080FF, 0x7F7F7F7F, 0x0A0D0A00, 0x3F7FFFFF, 0x3F800001, 0x01000000]
# infinities, quiet NaNs, signalling NaNs
STRAY = [0x7F800000, 0xFF800000, 0x7FC00000, 0xFFC00000, 0x7FFFFFFF, 0xFFFFFFFF,
         0x7F800001, 0xFF800001, 0x7FBFFFFF, 0xFFBFFFFF]


def finite(bits):
    return math.isfinite(struct.unpack(">f", struct.pack(">I", bits))[0])


def packed(numbers):
    return struct.pack(f">{len(numbers)}I", *numbers)


def record(w, h, numbers, version=1, stated=None, count=None):
    """The record of a list, cut to whole corners. A version, a length or a count that is named stands there instead."""
    whole = len(numbers) // 3
    body = struct.pack(">HHI", w, h, whole if count is None else count) + packed(numbers[: 3 * whole])
    return struct.pack(">BI", version, len(body) if stated is None else stated) + body


# ---- what is due


def read_faults(file, room):
    """All that is wrong with a record, or with a list of that length for it."""
    if len(file) < 13:
        return {16} | {17 for version in file[:1] if version != 1}
    version, stated, _, _, count = struct.unpack(">BIHHI", file[:13])
    there = struct.unpack(f">{(len(file) - 13) // 4}I", file[13 : 13 + (len(file) - 13) // 4 * 4])
    wrong = {
        16: stated != len(file) - 5,
        17: version != 1,
        18: stated != 2 + 2 + 4 + 12 * count or count > MOST,
        19: not all(finite(x) for x in there[: 3 * count]),
        20: room < 3 * count,
    }
    return {fault for fault in wrong if wrong[fault]}


def write_faults(numbers, room):
    whole = numbers[: len(numbers) // 3 * 3]
    wrong = {
        18: len(whole) > 3 * MOST,
        19: not all(finite(x) for x in whole),
        20: room < len(record(0, 0, whole)),
    }
    return {fault for fault in wrong if wrong[fault]}


def read_due(file, faults):
    """The count and the sides of a record that is taken, and the numbers of its list."""
    if faults:
        return 0, 0, 0, b""
    w, h, count = struct.unpack(">HHI", file[5:13])
    numbers = struct.unpack(f">{3 * count}I", file[13:])
    assert OLD not in numbers
    return count, w, h, packed(numbers)


def write_due(w, h, numbers, faults):
    return (0, 0, 0, b"") if faults else (len(numbers) // 3, w, h, record(w, h, numbers))


# ---- what is given


def side(dice):
    return SIDES[dice.randrange(len(SIDES))] if dice.randrange(2) else dice.randrange(65536)


def number(dice):
    """An odd one, one of a corner on a frame, or any that is finite."""
    kind = dice.randrange(3)
    if kind == 0:
        return ODD[dice.randrange(len(ODD))]
    if kind == 1:
        return struct.unpack(">I", struct.pack(">f", dice.randrange(4096 * 64) / 64))[0]
    return dice.randrange(2) << 31 | dice.randrange(0x7F800000)


def numbers_of(dice, corners, left=0):
    return [number(dice) for _ in range(3 * corners + left)]


def with_stray(dice, corners, stray, place, corner=None):
    """A list with a number that is not finite: 0, 1 or 2 places into a corner."""
    numbers = numbers_of(dice, corners)
    numbers[3 * (dice.randrange(corners) if corner is None else corner) + place] = stray
    return numbers


def turned(n):
    return struct.unpack("<I", struct.pack(">I", n))[0]


def sound_reads(dice):
    for corners in range(25):
        for more in (0, 1, dice.randrange(2, 40)):
            yield record(side(dice), side(dice), numbers_of(dice, corners)), 3 * corners + more, 0
    for w in SIDES:
        for h in SIDES:
            yield record(w, h, numbers_of(dice, 1)), 3, 0
    for turn in range(3):  # each odd number in each place
        yield record(640, 480, ODD[turn:] + ODD[:turn]), len(ODD), 0
    for corners in (256, 300):  # counts of two bytes
        yield record(side(dice), side(dice), numbers_of(dice, corners)), 3 * corners, 0


def lengths_wrong(dice):
    two, none = record(258, 65535, numbers_of(dice, 2)), record(0, 0, [])
    for length in range(len(two)):
        yield two[:length], 6, 16
    for length in range(len(none)):
        yield none[:length], 0, 16
    for length in range(1, 13):  # a wrong version besides
        yield record(1, 1, [], version=WRONG_VERSIONS[length % 3])[:length], 3, 16
    for length in range(5, 13):  # the length that is there is stated, and is too short
        yield record(0, 0, [], stated=length - 5)[:length], 0, 16
    for corners in (0, 1, 4):
        for behind in (b"\0", b"\1", packed([0]), packed([0, 0, 0])):
            yield record(side(dice), side(dice), numbers_of(dice, corners)) + behind, NUMBERS, 16
    for corners in (0, 2, 24):
        right = 8 + 12 * corners
        for stated in (right + 1, right - 1, right + 5, right - 8, turned(right), corners, 2**32 - 1,
                       right + 2**8, right + 2**16, right + 2**24, right + 2**31):
            yield record(side(dice), side(dice), numbers_of(dice, corners), stated=stated), 3 * corners, 16


def versions_wrong(dice):
    for version in WRONG_VERSIONS + (16, ord("1"), 129):
        for corners in (0, 3):
            yield record(side(dice), side(dice), numbers_of(dice, corners), version=version), 3 * corners, 17


def counts_wrong(dice):
    for corners in (0, 1, 3, 24):
        wrapping = [corners + k * 2**30 for k in (1, 2, 3)]  # 12 times such a count is right in 32 bits
        assert all(12 * count % 2**32 == 12 * corners for count in wrapping)
        for count in wrapping + [corners + 1, (corners - 1) % 2**32, turned(corners), 3 * corners, 2**32 - 1, 2**32 - 2,
                                 corners + 2**8, corners + 2**16, corners + 2**24, MOST, MOST + 1]:
            if count != corners:
                numbers = numbers_of(dice, corners)
                yield record(side(dice), side(dice), numbers, count=count), dice.randrange(3 * corners, NUMBERS), 18
    for more in (1, 2, 3, 4, 8, 11, 12):  # bytes behind that the stated length counts
        yield record(9, 9, numbers_of(dice, 2), stated=32 + more) + bytes(more), 9, 18


def strays_read(dice):
    for stray in STRAY:
        for place in range(3):
            yield record(side(dice), side(dice), with_stray(dice, 3, stray, place)), 9, 19
    for place, corner in ((0, 0), (2, 23)):
        yield record(1, 2, with_stray(dice, 24, STRAY[0], place, corner)), 72, 19


def lists_short(dice):
    for corners in (1, 2, 3, 8, 24):
        for room in sorted({0, 1, 3 * corners - 3, 3 * corners - 2, 3 * corners - 1}):
            yield record(side(dice), side(dice), numbers_of(dice, corners)), room, 20
    yield record(side(dice), side(dice), numbers_of(dice, 256)), 767, 20


def faults_together(dice):
    """Two faults and more, in every choice: exactly these."""
    for many in range(2, 6):
        for faults in combinations(REFUSALS, many):
            for way in range(3):
                corners = dice.randrange(2, 9)
                numbers, count, version = numbers_of(dice, corners), corners, 1
                if 19 in faults:
                    numbers[way] = STRAY[dice.randrange(len(STRAY))]
                if 18 in faults:
                    count = (corners - 1, corners + 1, corners + 2**30 if 20 in faults else corners - 1)[way]
                if 17 in faults:
                    version = WRONG_VERSIONS[way]
                file = record(side(dice), side(dice), numbers, version=version, count=count)
                if 16 in faults:
                    file = (file + b"\0", file[:-1], file + packed([0, 0, 0]))[way]
                room = min(3 * count - 1, NUMBERS) if 20 in faults else 3 * count + way
                assert read_faults(file, room) == set(faults)
                yield file, room, faults[0]


def reads(dice):
    for some in (sound_reads, lengths_wrong, versions_wrong, counts_wrong, strays_read, lists_short, faults_together):
        yield from some(dice)


def sound_writes(dice):
    for corners in range(25):
        for left in range(3):
            numbers = numbers_of(dice, corners, left)
            if dice.randrange(2):  # what is left over is not finite
                numbers[3 * corners :] = [STRAY[dice.randrange(len(STRAY))] for _ in range(left)]
            more = (0, 1, dice.randrange(2, 40))[dice.randrange(3)]
            yield side(dice), side(dice), numbers, 13 + 12 * corners + more, 0
    for w, h in zip(SIDES, SIDES[::-1]):
        yield w, h, numbers_of(dice, 1), 25, 0
    for k, stray in enumerate(STRAY):  # left over from no corner, and from one
        yield side(dice), side(dice), numbers_of(dice, k % 2) + [stray, stray], 13 + 12 * (k % 2), 0
    for turn in range(3):
        yield 640, 480, ODD[turn:] + ODD[:turn], 13 + 4 * len(ODD), 0
    for corners, left in ((256, 2), (300, 0)):
        yield side(dice), side(dice), numbers_of(dice, corners, left), 13 + 12 * corners, 0


def strays_written(dice):
    for stray in STRAY:
        for place in range(3):
            yield side(dice), side(dice), with_stray(dice, 3, stray, place), 49, 19
        # and an output too short
        yield side(dice), side(dice), with_stray(dice, 3, stray, dice.randrange(3)), dice.randrange(49), 19
    for place, corner in ((0, 0), (2, 23)):
        yield 1, 2, with_stray(dice, 24, STRAY[2], place, corner), BYTES, 19


def outputs_short(dice):
    for corners in (0, 1, 2, 8, 24):
        exact = 13 + 12 * corners
        for room in sorted({0, 1, 12, exact - 12, exact - 4, exact - 1} & set(range(exact))):
            left = dice.randrange(3)
            yield side(dice), side(dice), numbers_of(dice, corners, left), room, 20
        yield side(dice), side(dice), numbers_of(dice, corners) + [STRAY[corners % 10]], exact - 1, 20
    yield side(dice), side(dice), numbers_of(dice, 256), 13 + 12 * 256 - 1, 20


def writes(dice):
    for some in (strays_written, outputs_short, sound_writes):
        yield from some(dice)


# ---- the list


def vector(kind, w, h, room, given, made_for, faults, due):
    count, due_w, due_h, filled = due
    answer = min(faults, default=0)
    assert answer == made_for, (kind, given.hex(), room, faults, made_for)
    assert room <= (NUMBERS, BYTES)[kind] and len(given if kind else filled) <= 4 * NUMBERS
    return (struct.pack(">8I", kind, w, h, room, answer, count, due_w, due_h)
            + struct.pack(">I", len(given)) + given + struct.pack(">I", len(filled)) + filled)


def told(name, answers):
    each = ", ".join(f"{answers[answer]} answered {answer}" for answer in sorted(answers))
    return f"{sum(answers.values())} {name}: {each}"


def main():
    dice = random.Random(SEED)
    vectors, answers, seen = [], (Counter(), Counter()), (set(), set())
    for file, room, answer in reads(dice):
        faults = read_faults(file, room)
        vectors.append(vector(READ, 0, 0, room, file, answer, faults, read_due(file, faults)))
        answers[READ][answer] += 1
        seen[READ].add(frozenset(faults))
    for w, h, numbers, room, answer in writes(dice):
        faults = write_faults(numbers, room)
        vectors.append(vector(WRITE, w, h, room, packed(numbers), answer, faults, write_due(w, h, numbers, faults)))
        answers[WRITE][answer] += 1
        seen[WRITE].add(frozenset(faults))
    assert set(answers[READ]) == {0, 16, 17, 18, 19, 20} and set(answers[WRITE]) == {0, 19, 20}
    assert seen[READ] >= set(map(frozenset, combinations(REFUSALS, 2))) and frozenset((19, 20)) in seen[WRITE]
    out = (b"Made by tools/record_vectors.py, seed %d: %d calls of the reader and the writer of corner records, "
           b"answered by document 02's text.\n" % (SEED, len(vectors))) + b"".join(vectors)
    assert len(out) < 300000
    sys.stdout.buffer.write(out)
    print(told("reads", answers[READ]), told("writes", answers[WRITE]), f"{len(out)} bytes", sep="\n", file=sys.stderr)


main()
