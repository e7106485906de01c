"""Runs steyrbunk.py: document 01's frame, a board against the fitters' command, every refusal, other buffers, verdicts, arches,
records, drawings, a library that is too old.

usage: test_steyrbunk.py COMMAND FOLDER    the built command `steyrbunk`, and an empty folder
"""

import array
import copy
import json
import mmap
import os
import struct
import subprocess
import sys
import zlib

sys.path.insert(0, os.path.dirname(os.path.abspath(__file__)))
import steyrbunk

COMMAND, FOLDER = sys.argv[1:3]
FRAME = bytes(200 if (x - 3) * (y - 3) > 0 else 0 if (x - 3) * (y - 3) < 0 else 100 for y in range(7) for x in range(7))
SETTINGS = dict(ray_radius=1, image_upsample=1, response_blur_radius=0, peak_fit="parabolic", nms_radius=1)
CHECKS = 0


def check(was, expected):
    global CHECKS
    CHECKS += 1
    if was != expected:
        sys.exit(f"check {CHECKS}: {was!r} is not {expected!r}")


def refused(number, call, *arguments, **settings):
    try:
        given = call(*arguments, **settings)
    except steyrbunk.Refused as error:
        check((error.number, error.words, error.words in str(error)), (number, steyrbunk.WORDS[number], True))
        check((error.verdicts, sum(error.verdicts)), (steyrbunk.NO_VERDICTS, 0))
    else:
        check(given, f"refused {number}")


def wrong(kind, call, *arguments, **settings):
    try:
        given = call(*arguments, **settings)
    except kind as error:
        check(isinstance(error, steyrbunk.Refused), False)
    else:
        check(given, kind)


finder = steyrbunk.Finder()
corner = [steyrbunk.Corner(3.0, 3.0, 160000.0)]
found = finder.find(FRAME, 7, 7, **SETTINGS)
check(found, corner)
check((isinstance(found, list), found.width, found.height), (True, 7, 7))
check(found.verdicts, steyrbunk.Verdicts(not_above=0, beaten=0, too_few=0, too_flat=0, wrong_curvature=0, kept=1))
twice = finder.find(FRAME, 7, 7, **{**SETTINGS, "image_upsample": 2})
check((twice.width, twice.height, found.width, found.height), (14, 14, 7, 7))
check((copy.deepcopy(found), copy.copy(found).width, found + [], json.dumps(found)), (corner, 7, corner, "[[3.0, 3.0, 160000.0]]"))

# Everything with the buffer protocol, where it stands or copied.
mapped = mmap.mmap(-1, len(FRAME))
mapped.write(FRAME)
for image in (bytearray(FRAME), memoryview(FRAME), array.array("B", FRAME), mapped):
    check(finder.find(image, 7, 7, **SETTINGS), corner)
square = memoryview(FRAME).cast("B", (7, 7))
check(finder.find(square, **SETTINGS), corner)
check(finder.find(square, 7, 7, **SETTINGS), corner)
check(finder.find(bytes(49), 7, 7, **SETTINGS), [])
# Every second byte of a longer buffer: rows that do not lie end to end.
spread = bytearray(2 * len(FRAME))
spread[::2] = FRAME
check(finder.find(memoryview(spread)[::2], 7, 7, **SETTINGS), corner)
check(bytes(spread[::2]), FRAME)

# A board as the command finds it, to the last bit, before and after other frames, and in a list that grows; by both sets of
# settings that have a name.
width, height = 320, 200
board = bytes(190 if ((x + 3) // 16 + (y + 5) // 16) % 2 else 40 for y in range(height) for x in range(width))
path = os.path.join(FOLDER, "board.pgm")
with open(path, "wb") as file:
    file.write(b"P5 %d %d 255\n" % (width, height) + board)
check((steyrbunk.DEFAULTS["nms_radius"], steyrbunk.EXISTING_SITES), (6, {**steyrbunk.DEFAULTS, "nms_radius": 4}))
for words, chosen, border in (["existing-sites", steyrbunk.EXISTING_SITES, 9], ["default", steyrbunk.DEFAULTS, 11], [None, {}, 11]):
    call = [COMMAND, "--format", "json"] + (["--settings", words] if words else []) + [path]
    text = subprocess.run(call, capture_output=True, check=True).stdout
    expected = [tuple(struct.unpack("f", struct.pack("f", c[n]))[0] for n in ("x", "y", "strength")) for c in json.loads(text)["corners"]]
    check(len(expected) > 100, True)
    for room in (1024, 1):
        finder._room(room)
        given = finder.find(board, width, height, **chosen)
        check([tuple(corner) for corner in given], expected)
        check(given.verdicts._asdict(), json.loads(text)["verdicts"])
        candidates = (2 * width - 2 * border) * (2 * height - 2 * border)
        check((given.verdicts.kept, sum(given.verdicts)), (len(expected), candidates))
        check(finder.find(FRAME, 7, 7, **SETTINGS), corner)

# Each of the six, of document 01's one candidate: the saddle moved by a pixel, an edge, a speck.
def saddle(right):
    return bytes(200 if (x - 3 - right) * (y - 3) > 0 else 0 if (x - 3 - right) * (y - 3) < 0 else 100 for y in range(7) for x in range(7))


edge = bytes(200 if x > 2 else 0 for y in range(7) for x in range(7))
speck = bytes(101 if (x, y) == (4, 4) else 100 for y in range(7) for x in range(7))
for verdict, image, settings in (
    ("not_above", FRAME, {"threshold_rel": 1.0}),
    ("not_above", bytes(49), {}),
    ("beaten", saddle(1), {"threshold_rel": 0.0}),
    ("too_few", FRAME, {"min_cluster_size": 9}),
    ("too_flat", speck, {}),
    ("wrong_curvature", edge, {}),
    ("kept", FRAME, {"min_cluster_size": 8}),
):
    given = finder.find(image, 7, 7, **{**SETTINGS, **settings})
    check(given.verdicts, steyrbunk.NO_VERDICTS._replace(**{verdict: 1}))
    check(len(given), given.verdicts.kept)

# Every refusal that can come, by its number; after each the next call is as before.
for number, arguments, settings in (
    (2, (b"", 4097, 1), {}),
    (2, (b"", 1, 4097), {}),
    (3, (FRAME, 7, 6), {}),
    (4, (bytes(2048 * 2048), 2048, 2048), {}),
    (5, (FRAME, 7, 7), {"ray_radius": 8}),
    (6, (FRAME, 7, 7), {"response_blur_radius": 4}),
    (7, (FRAME, 7, 7), {"nms_radius": 33}),
    (8, (FRAME, 7, 7), {"threshold_rel": float("nan")}),
    (8, (FRAME, 7, 7), {"threshold_rel": -0.5}),
    (14, (FRAME, 7, 7), {"peak_fit": 2}),
    (15, (FRAME[:42], 6, 7), SETTINGS),
    (15, (FRAME[:42], 7, 6), SETTINGS),
    (15, (FRAME, 7, 7), {**SETTINGS, "nms_radius": 2}),
    (15, (bytes(132), 11, 12), {}),
    (15, (bytes(132), 12, 11), {}),
    (15, (bytes(90), 9, 10), steyrbunk.EXISTING_SITES),
    (15, (b"", 0, 0), {}),
    (15, (memoryview(b""), 0, 4096), SETTINGS),
):
    refused(number, finder.find, *arguments, **settings)
    check(finder.find(FRAME, 7, 7, **SETTINGS), corner)
# Empty, and large enough to be.
empty = finder.find(bytes(144), 12, 12)
check((empty, empty.width, empty.height), ([], 24, 24))
over = {**steyrbunk.EXISTING_SITES, "image_upsample": 1}
refused(15, finder.find, bytes(324), 18, 18, **over)
check(finder.find(bytes(361), 19, 19, **over).width, 19)
empty = finder.find(bytes(100), 10, 10, **steyrbunk.EXISTING_SITES)
check((empty, empty.width, empty.height), ([], 20, 20))

# What no call can be made of.
wrong(TypeError, finder.find, FRAME)
wrong(TypeError, finder.find, array.array("H", [1, 2, 3, 4]), 2, 2)
wrong(TypeError, finder.find, memoryview(bytes(27)).cast("B", (3, 3, 3)))
wrong(TypeError, finder.find, FRAME, 7, 7, thresh=1)
wrong(TypeError, finder.find, [1, 2, 3], 1, 3)
wrong(ValueError, finder.find, square, 7, 6)
wrong(ValueError, finder.find, FRAME, -7, -7)
wrong(ValueError, finder.find, FRAME, 7, 7, ray_radius=-1)
wrong(ValueError, finder.find, FRAME, 7, 7, ray_radius=1.5)
wrong(ValueError, finder.find, FRAME, 7, 7, peak_fit="cubic")

# Arches: every camera as a call of its own, in a list that grows; refusals stop nobody.
def frame_file(image, width, height, ray=1, upsample=1, blur=0, fit=0, nms=1, least=2, threshold=0.28):
    after = struct.pack(">HHBBBBBHf", width, height, ray, upsample, blur, fit, nms, least, threshold) + image
    return struct.pack(">BI", 1, len(after)) + after


def results(arch):
    for each in arch:
        if isinstance(each, steyrbunk.Refused):
            check(each.verdicts, steyrbunk.NO_VERDICTS)
    return [each.number if isinstance(each, steyrbunk.Refused) else (each, each.width, each.height, each.verdicts) for each in arch]


small, large = frame_file(FRAME, 7, 7), frame_file(board, width, height, 4, 2, 1, 1, 4)
board_found = finder.find(board, width, height, **steyrbunk.EXISTING_SITES)
one, all_of_it = (corner, 7, 7, found.verdicts), (board_found, 2 * width, 2 * height, board_found.verdicts)
check(results(finder.arch([small, small])), [one, one])
for count in range(2, 9):
    files = [large if i % 3 == 1 else small for i in range(count)]
    expected = [all_of_it if i % 3 == 1 else one for i in range(count)]
    for fresh in (True, False):
        if fresh:
            finder, steyrbunk._FIRST_ROOM = steyrbunk.Finder(), 1
            finder._room(1)
        check(results(finder.arch(files)), expected)
    steyrbunk._FIRST_ROOM = 1024
    joined = b"".join(files)
    for frames in (joined, bytearray(joined), memoryview(joined), array.array("B", joined), joined + b"left over"):
        check(results(finder.arch(frames, count)), expected)
    check(results(finder.arch(tuple(files), count)), expected)
    check(results(finder.arch(joined[:-1], count)), expected[:-1] + [13])
    check(results(finder.arch(joined[: len(joined) - len(files[-1]) + 4], count)), expected[:-1] + [11])
    check(results(finder.arch(b"", count)), count * [11])
    check(results(finder.arch(joined[:1] + 4 * b"\xff" + joined[5:], count)), [13] + (count - 1) * [11])
check(finder.find(FRAME, 7, 7, **SETTINGS), corner)
refusals = {
    2: frame_file(b"", 4097, 0),
    3: frame_file(FRAME, 7, 6),
    4: frame_file(bytes(2048 * 2048), 2048, 2048, upsample=2),
    5: frame_file(FRAME, 7, 7, ray=8),
    6: frame_file(FRAME, 7, 7, blur=4),
    7: frame_file(FRAME, 7, 7, nms=33),
    8: frame_file(FRAME, 7, 7, threshold=float("nan")),
    11: b"\1\0\0\0\x0e" + bytes(14),
    12: b"\2" + small[1:],
    14: frame_file(FRAME, 7, 7, fit=2),
    15: frame_file(FRAME[:42], 6, 7),
}
for number, file in refusals.items():
    check(results(finder.arch([small, file, small])), [one, number, one])
told = finder.arch([refusals[12], refusals[5]])
check([(each.number, each.words) for each in told], [(12, steyrbunk.WORDS[12]), (5, steyrbunk.WORDS[5])])
for count in (0, 1, 9, 2**64 + 2):
    refused(21, finder.arch, 2 * small, count)
refused(21, finder.arch, [])
refused(21, finder.arch, [small])
refused(21, finder.arch, 9 * [small])
wrong(TypeError, finder.arch, 2 * small)
wrong(TypeError, finder.arch, "text", 2)
wrong(TypeError, finder.arch, 2 * small, 2.5)
wrong(ValueError, finder.arch, [small, small], 3)
wrong(ValueError, finder.arch, 2 * small, -1)

# Records: one written out, every bit back, and the same bytes as the command's, both ways.
check(steyrbunk.write_record(found, found.width, found.height), bytes.fromhex("01 00000014 0007 0007 00000001 40400000 40400000 481C4000"))
check(steyrbunk.write_record([], 258, 7), bytes.fromhex("01 00000008 0102 0007 00000000"))
check(steyrbunk.read_record(bytes.fromhex("01 00000008 0102 0007 00000000")), ([], 258, 7))
edges = [0x00000000, 0x80000000, 0x00000001, 0x80000001, 0x007FFFFF, 0x00800000, 0x7F7FFFFF, 0xFF7FFFFF, 0x3F800000]
sound = struct.pack(">BIHHI9I", 1, 44, 0xFFFF, 1, 3, *edges)
corners, wide, high = steyrbunk.read_record(sound)
check((wide, high, len(corners)), (0xFFFF, 1, 3))
check(struct.pack(">9f", *(number for corner in corners for number in corner)), sound[13:])
check(steyrbunk.write_record(corners, wide, high), sound)
check(steyrbunk.write_record(iter(corners), wide, high), sound)
for given in (bytearray(sound), memoryview(sound), array.array("B", sound), memoryview(sound + sound)[: len(sound)]):
    check(steyrbunk.write_record(*steyrbunk.read_record(given)), sound)
kept = os.path.join(FOLDER, "board.record")
with open(kept, "wb") as file:
    file.write(subprocess.run([COMMAND, "--format", "record", path], capture_output=True, check=True).stdout)
with open(kept, "rb") as file:
    check(steyrbunk.write_record(board_found, board_found.width, board_found.height), file.read())
    file.seek(0)
    check(steyrbunk.read_record(file.read()), (board_found, 2 * width, 2 * height))
printed = [subprocess.run([COMMAND, *words], capture_output=True, check=True).stdout for words in ([path], ["read", kept])]
check(printed[0], printed[1])

# Every refusal of a record, and that no list comes of it. Every bit turned: what is taken is another list, sizes or both.
refused(16, steyrbunk.read_record, b"")
refused(16, steyrbunk.read_record, sound[:12])
refused(16, steyrbunk.read_record, sound[:-1])
refused(16, steyrbunk.read_record, sound + b"\0")
refused(17, steyrbunk.read_record, b"\2" + sound[1:])
refused(18, steyrbunk.read_record, sound[:12] + b"\4" + sound[13:])
refused(18, steyrbunk.read_record, sound[:9] + b"\x40\0\0\3" + sound[13:])
refused(18, steyrbunk.read_record, struct.pack(">BIHHI", 1, 8 + 12 * 8388609, 1, 1, 8388609) + bytes(12 * 8388609))
refused(19, steyrbunk.read_record, sound[:13] + b"\x7f\x80\0\0" + sound[17:])
for number in (float("nan"), float("inf"), float("-inf"), 1e300):
    refused(19, steyrbunk.write_record, [(1, 2, number)], 7, 7)
for at in range(8 * len(sound)):
    damaged = bytearray(sound)
    damaged[at // 8] ^= 1 << at % 8
    try:
        check(steyrbunk.write_record(*steyrbunk.read_record(damaged)), bytes(damaged))
    except steyrbunk.Refused as error:
        check(error.number in (16, 17, 18, 19), True)
wrong(ValueError, steyrbunk.write_record, [(1, 2)], 7, 7)
wrong(ValueError, steyrbunk.write_record, [(1, 2, 3, 4)], 7, 7)
wrong(ValueError, steyrbunk.write_record, [], 65536, 7)
wrong(ValueError, steyrbunk.write_record, [], 7, -1)
wrong(TypeError, steyrbunk.write_record, [], 7, 1.5)
wrong(TypeError, steyrbunk.write_record, [1, 2, 3], 7, 7)
wrong(TypeError, steyrbunk.write_record, [("1", "2", "3")], 7, 7)
wrong(TypeError, steyrbunk.read_record, "text")
wrong(TypeError, steyrbunk.read_record, 13)

# A drawing: the picture's sides, its pixels, a mark in the middle of the corner's pixel.
drawing = os.path.join(FOLDER, "frame.png")
steyrbunk.draw(drawing, FRAME, corner, 7, 7)
png = open(drawing, "rb").read()
wide, high = struct.unpack(">II", png[16:24])
check((png[:8], wide, high), (b"\x89PNG\r\n\x1a\n", 798, 798))
rows = zlib.decompress(png[41 : 41 + struct.unpack(">I", png[33:37])[0]])
at = lambda x, y: tuple(rows[y * (3 * wide + 1) + 1 + 3 * x :][:3])
check((at(0, 0), at(797, 0), at(399, 399)), ((200, 200, 200), (0, 0, 0), (230, 0, 30)))
check(os.path.exists(drawing + ".part"), False)

# A library of before: no call is made, and a sentence says which function it lacks.
with open(os.path.join(FOLDER, "old.c"), "w") as file:
    file.write("unsigned steyrbunk_find(void) { return 0; } unsigned steyrbunk_arch(void) { return 0; }\n")
old = os.path.join(FOLDER, "old.so")
subprocess.run(["cc", "-shared", "-fPIC", "-o", old, os.path.join(FOLDER, "old.c")], check=True)
for name, call in (("steyrbunk_corners", steyrbunk.Finder), ("steyrbunk_read_record", lambda library: steyrbunk.read_record(b"", library))):
    try:
        call(old)
    except OSError as error:
        check(f"{old} has no {name}: it is older than steyrbunk.py, {steyrbunk.__version__}; build it again" in str(error), True)
    else:
        check(name, "an error")
finder._library = old
try:
    finder.arch([small, small])
except OSError as error:
    check("has no steyrbunk_run_arch" in str(error), True)
else:
    check("steyrbunk_run_arch", "an error")
print(f"{CHECKS} checks pass")
