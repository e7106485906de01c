#!/usr/bin/env python3
"""arch_vectors.py: writes the vectors that crates/replay_arch reads to standard output.

usage: tools/arch_vectors.py > crates/replay_arch/stdin

Arches by the text of document 02, tickets 2 and 5, read a second time: where each camera's frame begins and ends is
told from the bytes alone, and so is the refusal of a frame by the documents'; what an accepted frame has found is left
to a single call. An arch is put together of frames made for an answer each, and what the bytes say must be the same.
Every answer is among them but 4, for which document 01 wants a frame of over two million pixels, and 10, which is not
given here. The same seed gives the same bytes. After a first line of text, all numbers big-endian, 4 bytes each; for
each arch

    the camera count
    the length of the lent list in numbers
    the frame files end to end, after their length in bytes
    the arch's own answer that is due
    how many numbers of the list a camera's share has, 0 where the arch is refused
    how many entries of each work buffer its accepted frames have written: the most working pixels of any, or 0
    for each of eight cameras where its frame begins and how many bytes it has, 0 and 0 if none lies whole there; and
    the answer that is due, which for an accepted frame is given as 0, with W and H; beyond the count that is 11
"""
import math
import random
import struct
import sys
from collections import Counter

SEED = 6
ENTRIES = 8
NUMBERS, SHARE = 1024, 128  # the lent list of crates/replay_arch, and the most numbers of a share there
ROOM = 2304  # entries of each lent work buffer
LIMIT = 2324  # bytes of the longest file that is also given to a single call
TAKEN = 0
DEFAULT = 0x3E8F5C29
WHOLE = (2, 3, 5, 6, 7, 8, 9, 11, 12, 14, 15)  # the refusals of a frame that lies whole in the slice

NOT_THRESHOLDS = (0x7FC00000, 0xFFC00000, 0x7F800001, 0x80000001, 0xBF800000, 0x3F800001, 0x7F800000, 0xFF800000)
THRESHOLDS = (DEFAULT, DEFAULT, 0x00000000, 0x80000000, 0x3F800000, 0x3C23D70A, 0x00000001, 0x3F000000)


def frame(w, h, pixels, ray=1, up=1, blur=0, mode=0, nms=1, least=2, threshold=DEFAULT, version=1, stated=None):
    """A frame file. A version or a length that is named stands there instead."""
    body = struct.pack(">HHBBBBBHI", w, h, ray, up, blur, mode, nms, least, threshold) + bytes(pixels)
    return struct.pack(">BI", version, len(body) if stated is None else stated) + body


# ---- what is due


def float_of(bits):
    return struct.unpack(">f", struct.pack(">I", bits))[0]


def border_of(ray, nms):
    return max(ray, 1) + nms + 1


def file_due(file):
    """What the documents answer to a file of its stated length, over the lent work buffers; W and H if it is taken."""
    if len(file) < 20:
        return 11, 0, 0
    version, _, w, h, ray, up, blur, mode, nms, _, threshold = struct.unpack(">BIHHBBBBBHI", file[:20])
    factor = min(max(up, 1), 2)
    fraction = float_of(threshold)
    working = factor * w * factor * h
    too_small = factor * min(w, h) <= 2 * border_of(ray, nms)
    of_the_file = ((12, version != 1), (14, mode > 1))
    of_the_call = ((2, max(w, h) > 4096), (3, len(file) - 20 != w * h), (4, working > 8388608), (5, ray > 7),
                   (6, blur > 3), (7, nms > 32), (8, math.isnan(fraction) or fraction < 0 or fraction > 1),
                   (15, too_small), (9, working > ROOM))
    for answer, given in of_the_file + of_the_call:
        if given:
            return answer, 0, 0
    return TAKEN, factor * w, factor * h


def cameras_due(cameras, data):
    """Where the frame of each camera begins and how long it is, and its answer, W and H: frame after frame."""
    begin, due = 0, []
    for _ in range(cameras):
        left = len(data) - begin
        stated = int.from_bytes(data[begin + 1 : begin + 5], "big")
        if left < 5:
            return due + [(0, 0, 11, 0, 0)] * (cameras - len(due))
        if 5 + stated > left:
            due.append((0, 0, 13, 0, 0))
            return due + [(0, 0, 11, 0, 0)] * (cameras - len(due))
        due.append((begin, 5 + stated) + file_due(data[begin : begin + 5 + stated]))
        begin += 5 + stated
    return due


def arch_due(cameras, numbers, data):
    """The arch's own answer, the numbers of a share, the work entries that are written, and eight cameras."""
    if not 2 <= cameras <= 8 or numbers < 3 * cameras:
        return 21, 0, 0, [(0, 0, 21, 0, 0)] * ENTRIES
    due = cameras_due(cameras, data)
    written = max(w * h for _, _, _, w, h in due)
    return 0, 3 * (numbers // 3 // cameras), written, due + [(0, 0, 11, 0, 0)] * (ENTRIES - cameras)


# ---- pictures


def crossing(w, h, cx, cy, low=0, high=200):
    """Document 01's frame is this one, 7 by 7, about (3, 3)."""
    sign = [(x - cx) * (y - cy) for y in range(h) for x in range(w)]
    return [high if s > 0 else low if s < 0 else (low + high) // 2 for s in sign]


def board(w, h, square, dx, dy, low=10, high=240):
    return [high if ((x + dx) // square + (y + dy) // square) % 2 else low for y in range(h) for x in range(w)]


def noise(dice, w, h):
    return [dice.randrange(256) for _ in range(w * h)]


def picture(dice, w, h):
    kind = dice.randrange(4)
    if kind == 0 and w and h:
        return crossing(w, h, dice.randrange(w), dice.randrange(h), dice.randrange(90), dice.randrange(110, 256))
    if kind == 3:
        return noise(dice, w, h)
    return board(w, h, dice.randrange(3, 7), dice.randrange(6), dice.randrange(6))


# ---- frames, each made for an answer


def first_frame():
    return frame(7, 7, crossing(7, 7, 3, 3))


def small_board(dice):
    """Several corners in few bytes: more than a short share has room for."""
    w, h = dice.randrange(11, 15), dice.randrange(11, 15)
    pixels = board(w, h, 3, dice.randrange(3), dice.randrange(3))
    return frame(w, h, pixels, ray=dice.randrange(1, 3), threshold=THRESHOLDS[5])


def least_side(ray, nms, up):
    """Input pixels that a side has at least."""
    return 2 * border_of(ray, nms) // min(max(up, 1), 2) + 1


def any_taken(dice, side=14):
    """A frame within the settings of document 01, of at most so many pixels a side, or a few more than it needs."""
    up = dice.choice((0, 1, 1, 1, 2, 2, 3, 255))
    ray, nms = dice.choice((0, 1, 1, 1, 2, 2, 3, 7)), dice.choice((0, 1, 1, 1, 2, 3, 6))
    least = least_side(ray, nms, up)
    most = min(max(side, least + 2), 24 if up > 1 else 48)
    w, h = (least if dice.randrange(6) == 0 else dice.randrange(least, most + 1) for _ in range(2))
    return frame(w, h, picture(dice, w, h), up=up, mode=dice.randrange(2), threshold=dice.choice(THRESHOLDS),
                 ray=ray, blur=dice.choice((0, 0, 1, 2, 3)), nms=nms, least=dice.choice((0, 1, 2, 2, 4, 9, 65535)))


def too_small(dice):
    """A side is at most twice the border: just so, by far, or 0; also with more pixels than there is room for."""
    up, ray, nms = dice.choice((0, 1, 2, 3)), dice.choice((0, 1, 2, 7)), dice.choice((0, 1, 1, 2, 32))
    small = min(least_side(ray, nms, up) - 1, 20)
    just, far = (small, small + dice.choice((0, 1, 5))), (dice.randrange(small + 1), small)
    w, h = dice.choice((just, just, far, (1, 60), (0, 0), (0, 9), (0, 4096), (1, 600)))
    if dice.randrange(2):
        w, h = h, w
    return frame(w, h, picture(dice, w, h), up=up, ray=ray, nms=nms, blur=dice.randrange(4), mode=dice.randrange(2))


def taken(dice):
    kind = dice.randrange(8)
    return first_frame() if kind == 0 else small_board(dice) if kind < 4 else any_taken(dice)


def large(dice):
    """As many working pixels as there is room for; at factor 1 the longest file that a single call takes."""
    up = dice.randrange(1, 3)
    side = 48 // up
    pixels = board(side, side, dice.randrange(3, 7), dice.randrange(4), dice.randrange(4))
    return frame(side, side, pixels, ray=up, up=up, blur=1, mode=dice.randrange(2))


def refused(dice, answer):
    """A frame that lies whole, with that answer; often with a fault of a higher number besides."""
    w, h = dice.randrange(7, 11), dice.randrange(7, 11)
    pixels = board(w, h, 3, dice.randrange(3), dice.randrange(3))
    faults = {5: {"ray": dice.choice((8, 255))}, 6: {"blur": dice.choice((4, 255))}, 7: {"nms": dice.choice((33, 255))},
              8: {"threshold": dice.choice(NOT_THRESHOLDS)}, 14: {"mode": dice.choice((2, 255))},
              12: {"version": dice.choice((0, 2, 255))}, 15: {"nms": dice.choice((4, 32))}}
    more = {}
    others = {2: (5, 8, 15), 3: (5, 6, 15), 5: (6, 7, 8), 6: (7, 8, 15), 7: (8,), 8: (15,), 12: (14, 5),
              14: (5, 7, 15)}
    for other in others.get(answer, ()):
        if dice.randrange(3) == 0:
            more.update(faults[other])
    more.update(faults.get(answer, {}))
    if answer == 2:
        sides = dice.choice(((4097, 0), (0, 4097), (65535, 65535), (4097, 1), (h, 65535)))
        return frame(*sides, pixels[: dice.randrange(30)], **more)
    if answer == 3:
        wrong = dice.choice((pixels[:-1], pixels + [0], [], pixels + pixels, pixels[:1]))
        return frame(w, h, wrong, **more)
    if answer == 9:
        sides = dice.choice(((25, 24), (145, 4), (4, 145)))
        return frame(*sides, [dice.randrange(256)] * (sides[0] * sides[1]), up=dice.choice((2, 3)))
    if answer == 15:
        return too_small(dice)
    if answer == 11:
        return short(dice, dice.randrange(15))
    if answer == 12 and dice.randrange(3) == 0:  # and no pixels
        return frame(w, h, [], **more)
    return frame(w, h, pixels, **more)


def short(dice, stated):
    """Whole, and under 20 bytes: a frame cut to that length, or any bytes of it, the version too."""
    file = frame(9, 9, [])[:5 + stated] if dice.randrange(2) else bytes(dice.randrange(256) for _ in range(5 + stated))
    return file[:1] + struct.pack(">I", stated) + file[5:]


def long_frames():
    """Whole, and longer than a single call takes: with each answer that there is for such."""
    line, plane = [7] * (LIMIT - 20 + 1), [9] * (49 * 48)
    return [
        (frame(5000, 1, line), 2), (frame(7, 7, crossing(7, 7, 3, 3) + line), 3), (frame(0, 0, line), 3),
        (frame(2305, 1, line, ray=8), 5), (frame(1, 2305, line, blur=4), 6), (frame(2305, 1, line, nms=33), 7),
        (frame(1, 2305, line, threshold=0x7FC00000), 8), (frame(2305, 1, line), 15), (frame(49, 48, plane), 9),
        (frame(48, 49, plane, up=2), 9), (frame(1, 2305, line, version=2), 12), (frame(2305, 1, line, mode=2), 14),
        (frame(49, 48, plane, nms=22), 15), (frame(48, 49, plane, nms=21), 9),
    ]


# ---- arches: the camera count, the list's length, frames with their answers, and what stands behind them


def some(dice, many):
    return [(taken(dice), TAKEN) for _ in range(many)]


def room_for(dice, cameras):
    """A list of any length that is enough."""
    most = min(NUMBERS, cameras * (SHARE // 3 * 3) + 2)
    return dice.randrange(3 * cameras, most + 1) if dice.randrange(3) else 3 * cameras * dice.randrange(1, 6)


def answers(cameras, frames, end=()):
    """The answers that an arch is made for: its frames', then those named, and 11 for all that are left."""
    made = [answer for _, answer in frames][:cameras] + list(end)
    return made + [11] * (cameras - len(made))


def arch(dice, cameras, frames, behind=b"", end=(), numbers=None):
    data = b"".join(file for file, _ in frames) + behind
    return cameras, room_for(dice, cameras) if numbers is None else numbers, data, answers(cameras, frames, end)


def every_remainder(dice):
    """Each camera count, each number left over from equal shares, with a share of one corner or some."""
    for cameras in range(2, 9):
        for left in range(3 * cameras):
            corners = (1, 1, 2, 3, 5)[left % 5]
            frames = [(small_board(dice) if i % 2 else first_frame(), TAKEN) for i in range(cameras)]
            yield arch(dice, cameras, frames, numbers=3 * cameras * corners + left)


def refused_among(dice):
    """Each refusal of a whole frame at the first camera, at one in the middle and at the last."""
    for k, answer in enumerate(WHOLE):
        for at in range(3):
            cameras = 3 + (k + 2 * at) % 6
            frames = some(dice, cameras)
            frames[(0, cameras // 2, cameras - 1)[at]] = (refused(dice, answer), answer)
            yield arch(dice, cameras, frames)
    for cameras in range(2, 9):  # all are refused
        kinds = [dice.choice(WHOLE) for _ in range(cameras)]
        yield arch(dice, cameras, [(refused(dice, answer), answer) for answer in kinds])


def about_the_border(dice):
    """Each factor, rays of 0 and more: at twice the border a side is too small, one pixel above it is not."""
    for k, (ray, nms, up) in enumerate(((1, 1, 1), (0, 1, 1), (1, 1, 2), (0, 0, 0), (0, 1, 3), (4, 4, 2), (7, 13, 2))):
        least = least_side(ray, nms, up)
        sides = [(w, h) for w in (least - 1, least) for h in (least - 1, least)]
        made = [frame(w, h, picture(dice, w, h), ray=ray, nms=nms, up=up) for w, h in sides]
        frames = list(zip(made, (15, 15, 15, TAKEN)))
        dice.shuffle(frames)
        yield arch(dice, 4, frames)
        frames = some(dice, 2 + k)  # one that is cropped, and others
        frames[dice.randrange(2 + k)] = (made[dice.randrange(3)], 15)
        yield arch(dice, 2 + k, frames)


def short_among(dice):
    """Whole frames under 20 bytes, of each length, with frames behind them."""
    for stated in range(15):
        cameras = 2 + stated % 7
        frames = some(dice, cameras)
        frames[stated % (cameras - 1)] = (short(dice, stated), 11)
        yield arch(dice, cameras, frames)
    yield arch(dice, 8, [(short(dice, 0), 11)] * 8)
    yield arch(dice, 5, [(short(dice, 14), 11), (short(dice, 0), 11)] + some(dice, 3))


def long_among(dice):
    """Frames that a single call is too short for; and the longest that it takes."""
    for k, (file, answer) in enumerate(long_frames()):
        cameras = 2 + k % 7
        frames = some(dice, cameras)
        frames[k % cameras] = (file, answer)
        yield arch(dice, cameras, frames)
    for cameras in (2, 3, 4):
        yield arch(dice, cameras, [(large(dice), TAKEN) for _ in range(cameras)])
        yield arch(dice, cameras, [(large(dice), TAKEN)] + some(dice, cameras - 1))


def past_the_end(dice):
    """Bytes whose stated length runs past the end, with another fault too."""
    file = taken(dice)
    cut = dice.randrange(1, len(file) - 4)
    return [
        file[:-1], file[: len(file) - cut], frame(7, 7, [], stated=2**32 - 1), frame(7, 7, [], stated=0xFFFFFFFB),
        frame(8, 8, board(8, 8, 3, 1, 1), stated=15 + 64 + 1), frame(7, 7, crossing(7, 7, 3, 3), version=2)[:-1],
        frame(7, 7, [], mode=9)[:19], frame(5000, 7, [1, 2, 3], stated=19), struct.pack(">BI", 1, 1),
        struct.pack(">BI", 0, 2**31), struct.pack(">BI", 1, 14) + bytes(13), struct.pack(">BI", 3, 10) + bytes(9),
        frame(9, 9, [], ray=8, stated=16), first_frame()[:5], frame(49, 48, [], stated=LIMIT),
    ]


def cut_among(dice):
    """Each camera count, each camera: its frame runs past the end. It answers 13 and those behind it 11."""
    k = 0
    for cameras in range(2, 9):
        for at in range(cameras):
            for _ in range(2):
                ends = past_the_end(dice)
                yield arch(dice, cameras, some(dice, at), ends[k % len(ends)], end=(13,))
                k += 1
    for behind in past_the_end(dice):  # behind a refused one; and the first of two
        refusal = dice.choice(WHOLE)
        yield arch(dice, 4, [(taken(dice), TAKEN), (refused(dice, refusal), refusal)], behind, end=(13,))
        yield arch(dice, 2, [], behind, end=(13,))


def too_little_left(dice):
    """Under five bytes left at each camera: it answers 11, and so do those behind it."""
    for cameras in (2, 3, 5, 8):
        for at in range(cameras):
            for left in range(5):
                yield arch(dice, cameras, some(dice, at), first_frame()[:left] if left % 2 else bytes(left), end=(11,))


def trailing(dice):
    """Bytes behind the last frame: some, a frame that is whole or not, and as many frames as one likes."""
    for cameras in range(2, 9):
        behinds = [bytes([1]), bytes(4), bytes([255]) * 9, first_frame(), first_frame()[:-3], taken(dice) + taken(dice),
                   frame(7, 7, [], stated=2**32 - 1)]
        for k in range(4):
            yield arch(dice, cameras, some(dice, cameras), behinds[(cameras + k) % 7])
    for cameras in range(2, 8):
        yield arch(dice, cameras, some(dice, 8))


def hidden(dice):
    """The next frame begins after the stated length, not after as many pixels as the sides say."""
    inner = first_frame()
    for cameras in (2, 4, 6):
        swallowing = frame(7, 7, bytes(crossing(7, 7, 3, 3)) + inner)  # a frame within a longer one
        short_of_it = frame(len(inner), 1, [])  # its sides reach over the next
        yield arch(dice, cameras, [(swallowing, 3)] + some(dice, cameras - 1))
        yield arch(dice, cameras, [(short_of_it, 3), (inner, TAKEN)] + some(dice, cameras - 2))
        yield arch(dice, cameras, some(dice, cameras - 1) + [(swallowing, 3)], inner)


def mixed(dice):
    """Anything after anything."""
    for _ in range(80):
        cameras = dice.randrange(2, 9)
        frames = []
        for _ in range(cameras):
            kind = dice.randrange(10)
            answer = dice.choice(WHOLE) if kind < 4 else TAKEN
            accepted = any_taken(dice, 18) if kind < 6 else taken(dice)
            frames.append((refused(dice, answer) if answer else accepted, answer))
        yield arch(dice, cameras, frames, bytes(dice.randrange(3)))


def arches_refused(dice):
    """21: the camera count, or a list too short for a corner a camera."""
    nine = some(dice, 9)
    data = b"".join(file for file, _ in nine)
    for cameras in (0, 1, 9, 10, 16, 255, 256, 258, 65535, 65538, 2**31, 2**32 - 1):
        for numbers in (NUMBERS, dice.randrange(60)):
            yield cameras, numbers, data if numbers == NUMBERS else b"", None
    for cameras in range(2, 9):
        for numbers in (0, 3 * cameras - 1, 3 * cameras - 2, dice.randrange(3 * cameras)):
            yield cameras, numbers, b"".join(file for file, _ in some(dice, cameras)), None


def nothing_there(dice):
    for cameras in range(2, 9):
        yield arch(dice, cameras, [], numbers=3 * cameras)


def arches(dice):
    for kind in (every_remainder, refused_among, about_the_border, short_among, long_among, cut_among, too_little_left,
                 trailing, hidden, mixed, arches_refused, nothing_there):
        yield from kind(dice)


# ---- the list


def vector(cameras, numbers, data, made_for):
    answer, share, written, due = arch_due(cameras, numbers, data)
    assert answer == (21 if made_for is None else 0)
    assert made_for is None or [entry[2] for entry in due[:cameras]] == made_for, (data.hex(), due, made_for)
    assert numbers <= NUMBERS and share <= SHARE and len(due) == ENTRIES and written <= ROOM
    given = struct.pack(">3I", cameras, numbers, len(data)) + data
    return given + struct.pack(">3I", answer, share, written) + b"".join(struct.pack(">5I", *entry) for entry in due)


def main():
    dice = random.Random(SEED)
    vectors, own, told = [], Counter(), Counter()
    for cameras, numbers, data, made_for in arches(dice):
        vectors.append(vector(cameras, numbers, data, made_for))
        own["21" if made_for is None else f"0 with {cameras} cameras"] += 1
        told.update(made_for or ())
    assert set(told) == {TAKEN, 13} | set(WHOLE)
    head = b"Made by tools/arch_vectors.py, seed %d: %d arches, answered by document 02's text.\n"
    out = head % (SEED, len(vectors)) + b"".join(vectors)
    assert len(out) < 500000
    sys.stdout.buffer.write(out)
    for name in sorted(own):
        print(f"arches answered {name}: {own[name]}", file=sys.stderr)
    for answer in sorted(told):
        print(f"cameras {f'answered {answer}' if answer else 'accepted'}: {told[answer]}", file=sys.stderr)
    print(f"{len(out)} bytes", file=sys.stderr)


main()
