"""The proved corner finder from Python: one file, no package needed.

Build the shared library once, from the repository's root, after the static one (docs/USING.md):

    mkdir -p target
    cc -shared -o target/libsteyrbunk.so -Wl,--whole-archive crates/steyrbunk_c/out/libsteyrbunk_c.a -Wl,--no-whole-archive

Then

    import steyrbunk
    finder = steyrbunk.Finder()                      # keeps its buffers between calls
    corners = finder.find(image)                     # a 2-D grey image: numpy, OpenCV, a memoryview
    corners = finder.find(pixels, 1280, 960)         # bytes, row after row, with their sides
    corners = finder.find(image, threshold_rel=0.1)  # other settings than the defaults
    corners = finder.find(image, **steyrbunk.EXISTING_SITES)               # those of sites older than version 0.5.0
    steyrbunk.draw("dawn.png", image, corners)
    print(corners.verdicts)                          # why the other pixels are no corners: six counts
    kept = steyrbunk.write_record(corners, corners.width, corners.height)  # bytes, to be read back years later
    corners, width, height = steyrbunk.read_record(kept)                   # every number as it was
    for found in finder.arch(files):                 # all cameras of an arch in one call: their frame files
        print("refused" if isinstance(found, steyrbunk.Refused) else len(found))

A refusal raises `Refused`, with the documents' number and its words; there is no list then, and none from before. An image
that is too small to judge is one, 15: an empty list is only of an image that was searched. Its six counts are all 0.
What is proved is the library behind the call; this file is not, and is tested by running it.
"""

import array
import ctypes
import itertools
import os
import struct
import zlib
from collections import namedtuple

__all__ = ["Corner", "DEFAULTS", "EXISTING_SITES", "Finder", "Found", "Record", "Refused", "Verdicts", "WORDS", "draw", "read_record", "write_record"]
__version__ = "0.5.0"

Corner = namedtuple("Corner", "x y strength")
Corner.__doc__ = "A corner: its place in input pixels, the middle of a pixel being a whole number, and the map's value there."

Record = namedtuple("Record", "corners width height")
Record.__doc__ = "What a corner record holds: the corners, and the sides of the working image."

Verdicts = namedtuple("Verdicts", "not_above beaten too_few too_flat wrong_curvature kept")
Verdicts.__doc__ = """How many candidates, the working pixels that are not too near to an edge, fail which rule first, or are kept:
not above the floor, beaten by a neighbour, too few positive neighbours, too flat, wrong curvature; kept, which are the corners.
Together they are all candidates, at least one; six zeros where nothing was searched."""

NO_VERDICTS = Verdicts(0, 0, 0, 0, 0, 0)

WORDS = {
    0: "accepted, all corners are in the list",
    1: "accepted, more corners than the list has room for",
    2: "width or height is over 4,096 pixels",
    3: "the number of pixels is not width times height",
    4: "there are over 8,388,608 working pixels",
    5: "the ray radius is over 7",
    6: "the blur radius is over 3",
    7: "the suppression radius is over 32",
    8: "the threshold is not a number from 0 to 1",
    9: "a lent buffer is too short",
    11: "the frame file has under 20 bytes",
    12: "the frame file's version is not 1",
    13: "the frame file does not have the length that it states",
    14: "the mode is neither 0 (parabolic) nor 1 (Gaussian)",
    15: "the frame is too small to judge: its working width or height is at most twice (ray + suppression + 1); look at the crop, the camera mode and the radii, not at the panel",
    16: "the record has under 13 bytes or not the length that it states",
    17: "the record's version is not 1",
    18: "the record's count and length disagree, or there are over 8,388,608 corners",
    19: "a number of the list is not finite",
    20: "the output is too short",
    21: "the camera count is not 2 to 8, or the list has less than one corner a camera",
}

# The suppression radius, nms_radius, is 6 since version 0.5.0, and was 4.
DEFAULTS = {
    "ray_radius": 4,
    "image_upsample": 2,
    "response_blur_radius": 1,
    "peak_fit": "gaussian",
    "threshold_rel": 0.28,
    "nms_radius": 6,
    "min_cluster_size": 2,
}

# What sites older than version 0.5.0 start up with, by finder.find(image, **EXISTING_SITES); so does the published Rust.
EXISTING_SITES = {**DEFAULTS, "nms_radius": 4}

_FITS = {"parabolic": 0, "gaussian": 1}
_LARGEST_SIDE = 4096
_LARGEST_WORKING = 8388608
_LARGEST_RECORD = 8388608
_RECORD_HEAD, _RECORD_CORNER = 13, 12
_FRAME_LEAD, _FRAME_HEAD = 5, 20
_MOST_CAMERAS = 8
_FIRST_ROOM = 1024


class Refused(ValueError):
    """A call that was refused: `number` is the documents', `words` say why, and `verdicts` are six zeros."""

    def __init__(self, number, verdicts=NO_VERDICTS):
        self.number, self.verdicts = number, verdicts
        self.words = WORDS.get(number, "refused for a reason that this file does not know")
        super().__init__(f"refused {number}: {self.words}")


def _library(path=None):
    here = os.path.dirname(os.path.abspath(__file__))
    places = [path, os.environ.get("STEYRBUNK_SO"), os.path.join(here, "libsteyrbunk.so")]
    places.append(os.path.join(here, os.pardir, "target", "libsteyrbunk.so"))
    for place in places:
        if place and os.path.exists(place):
            return ctypes.CDLL(os.path.abspath(place))
    raise OSError("libsteyrbunk.so is not there: build it as steyrbunk.py says, or name it in STEYRBUNK_SO")


def _pixels(image, width, height):
    """The pixels of an image, row after row, and its sides."""
    view = memoryview(image)
    if view.itemsize != 1 or view.format not in ("B", "b", "c", "@B"):
        raise TypeError(f"8-bit grey pixels are taken, not entries of {view.itemsize} bytes ({view.format})")
    if view.ndim == 2:
        rows, columns = view.shape
        if (width, height) not in ((None, None), (columns, rows)):
            raise ValueError(f"the image is {columns} by {rows}, not {width} by {height}")
        width, height = columns, rows
    elif view.ndim != 1:
        raise TypeError(f"one grey value a pixel is taken, not {view.shape[-1]}: make the image grey first")
    elif width is None or height is None:
        raise TypeError("pixels without rows need their width and height")
    width, height = int(width), int(height)
    if width < 0 or height < 0:
        raise ValueError("a side is below 0")
    return _flat(view), width, height


def _flat(view):
    """The bytes of a view, end to end, where they stand if that can be."""
    return view.cast("B") if view.c_contiguous and view.nbytes else memoryview(view.tobytes())


def _lent(kind, view):
    """A view as an argument, where it stands if that can be."""
    if view.readonly:
        return (kind * len(view)).from_buffer_copy(view)
    return (kind * len(view)).from_buffer(view)


class Found(list):
    """The corners of an image, a list like any other; `width` and `height` are the working image's sides, `verdicts` say what became
    of its candidates."""

    def __init__(self, corners, width, height, verdicts=None):
        super().__init__(corners)
        self.width, self.height, self.verdicts = width, height, verdicts


def _corners(numbers):
    return [Corner(*numbers[at : at + 3]) for at in range(0, len(numbers), 3)]


class _Told:
    """The numbers that the library tells beside its answer, each by a pointer: count, width and height."""

    def __init__(self):
        self.numbers = [ctypes.c_size_t() for _ in range(3)]

    def arguments(self):
        return [ctypes.byref(number) for number in self.numbers]

    def values(self):
        return [number.value for number in self.numbers]


class Finder:
    """Finds corners in one image after another and keeps its buffers, 25 bytes a working pixel. Not for two threads at a time."""

    def __init__(self, library=None):
        self._library = library
        self._find = _entry(library, "steyrbunk_corners")
        self._entries = 0
        self._buffers = self._made(0)
        self._room(_FIRST_ROOM)

    @staticmethod
    def _made(entries):
        kinds = [ctypes.c_uint8] + 4 * [ctypes.c_uint32] + 2 * [ctypes.c_float]
        return [(kind * entries)() for kind in kinds]

    def _room(self, corners):
        self._list = (ctypes.c_float * (3 * corners))()

    def find(self, image, width=None, height=None, **settings):
        """All corners of an image in row order, as a Found. Settings by their names, as in DEFAULTS."""
        unknown = set(settings) - set(DEFAULTS)
        if unknown:
            raise TypeError(f"no setting is called {', '.join(sorted(unknown))}")
        chosen = {**DEFAULTS, **settings}
        fit = _FITS.get(chosen["peak_fit"], chosen["peak_fit"])
        if not isinstance(fit, int):
            raise ValueError(f"no peak fit is called {fit}")
        pixels, width, height = _pixels(image, width, height)
        self._prepare(len(pixels), width, height, int(chosen["image_upsample"]))
        numbers = [self._whole(chosen, name) for name in ("ray_radius", "image_upsample", "response_blur_radius")]
        numbers += [ctypes.c_uint32(fit), ctypes.c_float(chosen["threshold_rel"])]
        numbers += [self._whole(chosen, name) for name in ("nms_radius", "min_cluster_size")]
        lent = _lent(ctypes.c_uint8, pixels)
        while True:
            told, six = _Told(), (ctypes.c_size_t * len(NO_VERDICTS))()
            arguments = [lent, ctypes.c_size_t(len(pixels)), ctypes.c_size_t(width), ctypes.c_size_t(height), *numbers]
            answer = self._find(*arguments, *self._lend(), *told.arguments(), six)
            count, *sides = told.values()
            if answer == 1:
                self._room(count)
                continue
            if answer != 0:
                raise Refused(answer, Verdicts(*six))
            return Found(_corners(self._list[: 3 * count]), *sides, Verdicts(*six))

    def arch(self, frames, cameras=None):
        """All cameras of an arch in one call: for each a Found, or a Refused where its frame is refused, which stops no other.
        `frames` is a list of frame files, or bytes in which `cameras` of them stand end to end. Either way a frame begins after
        the length that the one before it states, so a file that is not as long as it states shifts those behind it."""
        if isinstance(frames, (list, tuple)):
            if cameras not in (None, len(frames)):
                raise ValueError(f"there are {len(frames)} files, not {cameras}")
            frames, cameras = b"".join(frames), len(frames)
        elif cameras is None:
            raise TypeError("frame files end to end need their number")
        if cameras < 0:
            raise ValueError("the camera count is below 0")
        frames, known = _flat(memoryview(frames)), min(cameras, _MOST_CAMERAS + 1)
        for file in itertools.islice(_whole_files(frames), _MOST_CAMERAS):
            if len(file) >= _FRAME_HEAD:
                self._prepare(len(file) - _FRAME_HEAD, *struct.unpack_from(">HH", file, 5), file[10])
        call, lent, room = _entry(self._library, "steyrbunk_run_arch"), _slice(ctypes.c_uint8, frames), _FIRST_ROOM
        while True:
            if len(self._list) < 3 * known * room:
                self._room(known * room)
            told = ((ctypes.c_size_t * (4 + len(NO_VERDICTS))) * _MOST_CAMERAS)()
            answer = call(ctypes.c_size_t(known), *lent, *self._lend(), told)
            if answer != 0:
                raise Refused(answer)
            full = [count for number, count, *_ in told if number == 1]
            if not full:
                return [self._camera(i, known, *told[i]) for i in range(known)]
            room = max(full)

    def _camera(self, i, cameras, answer, count, width, height, *six):
        """What camera i found in its share of the list, or why it was refused."""
        share, verdicts = i * (len(self._list) // 3 // cameras * 3), Verdicts(*six)
        if answer != 0:
            return Refused(answer, verdicts)
        return Found(_corners(self._list[share : share + 3 * count]), width, height, verdicts)

    def _lend(self):
        """The buffers and the list as arguments, each with its length."""
        return [part for buffer in self._buffers + [self._list] for part in (buffer, ctypes.c_size_t(len(buffer)))]

    @staticmethod
    def _whole(settings, name):
        value = settings[name]
        if not 0 <= int(value) < 2**32 or int(value) != value:
            raise ValueError(f"{name} is a whole number from 0 up, not {value}")
        return ctypes.c_uint32(int(value))

    def _prepare(self, pixels, width, height, upsample):
        """Longer buffers where they are needed; for sizes that the library refuses nothing is made."""
        factor = min(max(upsample, 1), 2)
        working = width * height * factor * factor
        if max(width, height) > _LARGEST_SIDE or pixels != width * height or working > _LARGEST_WORKING:
            return
        if working > self._entries:
            self._buffers, self._entries = self._made(0), 0
            self._buffers, self._entries = self._made(working), working


def _whole_files(frames):
    """The frame files at the beginning of a view that lie whole in it, each as long as it states."""
    while len(frames) >= _FRAME_LEAD:
        length = _FRAME_LEAD + int.from_bytes(frames[1:_FRAME_LEAD], "big")
        if length > len(frames):
            break
        yield frames[:length]
        frames = frames[length:]


def write_record(corners, width, height, library=None):
    """The record of corners as bytes, with the sides of their working image, as a Found has them. What the finder gave comes back
    bit for bit; other numbers are rounded to the nearest f32 first."""
    numbers = array.array("f")
    for corner in corners:
        x, y, strength = corner
        numbers.extend((x, y, strength))
    if not (0 <= width < 2**16 and 0 <= height < 2**16):
        raise ValueError(f"a side is a whole number from 0 to 65535, not {width} by {height}")
    write = _entry(library, "steyrbunk_write_record")
    record, told = bytearray(_RECORD_HEAD + _RECORD_CORNER * (len(numbers) // 3)), _Told()
    slices = _slice(ctypes.c_float, memoryview(numbers)) + _slice(ctypes.c_uint8, memoryview(record))
    answer = write(ctypes.c_uint16(width), ctypes.c_uint16(height), *slices, *told.arguments())
    if answer != 0:
        raise Refused(answer)
    return bytes(record)


def read_record(record, library=None):
    """The corners and sides in the bytes of a record, as a Record."""
    record = _flat(memoryview(record))
    # A record that is taken has as many corners as its length says, so the list is never too short.
    room = min(max(len(record) - _RECORD_HEAD, 0) // _RECORD_CORNER, _LARGEST_RECORD)
    numbers, told = array.array("f", bytes(4 * 3 * room)), _Told()
    read = _entry(library, "steyrbunk_read_record")
    slices = _slice(ctypes.c_uint8, record) + _slice(ctypes.c_float, memoryview(numbers))
    answer = read(*slices, *told.arguments())
    if answer != 0:
        raise Refused(answer)
    count, width, height = told.values()
    return Record(_corners(numbers[: 3 * count]), width, height)


def _entry(library, name):
    """A function of the library. One that tells more than it did has a new name, so that an old library is told and not called."""
    loaded = _library(library)
    try:
        entry = getattr(loaded, name)
    except AttributeError:
        raise OSError(f"{loaded._name} has no {name}: it is older than steyrbunk.py, {__version__}; build it again, as that file says") from None
    entry.restype = ctypes.c_uint32
    return entry


def _slice(kind, view):
    """A view and its length as two arguments."""
    return [_lent(kind, view), ctypes.c_size_t(len(view))]


def draw(path, image, corners, width=None, height=None):
    """Writes the image with a ring at each corner as a PNG picture, small images enlarged."""
    pixels, width, height = _pixels(image, width, height)
    if len(pixels) != width * height or not pixels:
        raise ValueError("there is no image to draw")
    scale = max(1, 800 // max(width, height))
    wide, high = width * scale, height * scale
    rows = []
    for y in range(height):
        row = bytearray()
        for value in pixels[y * width : (y + 1) * width]:
            row += bytes((value,)) * (3 * scale)
        rows += [bytearray(row) for _ in range(scale)]
    for corner in corners:
        _ring(rows, wide, high, (corner[0] + 0.5) * scale, (corner[1] + 0.5) * scale)
    _write_png(path, wide, high, rows)


def _ring(rows, wide, high, x, y, radius=6):
    for dy in range(-radius - 1, radius + 2):
        for dx in range(-radius - 1, radius + 2):
            on_ring = abs(dx * dx + dy * dy - radius * radius) <= radius
            if on_ring or (dx == 0 or dy == 0) and dx * dx + dy * dy <= 4:
                column, row = int(x) + dx, int(y) + dy
                if 0 <= column < wide and 0 <= row < high:
                    rows[row][3 * column : 3 * column + 3] = bytes((230, 0, 30))


def _write_png(path, wide, high, rows):
    def chunk(kind, content):
        return struct.pack(">I", len(content)) + kind + content + struct.pack(">I", zlib.crc32(kind + content))

    head = struct.pack(">IIBBBBB", wide, high, 8, 2, 0, 0, 0)
    body = zlib.compress(b"".join(b"\0" + bytes(row) for row in rows))
    passing = f"{os.fspath(path)}.part"
    with open(passing, "wb") as file:
        file.write(b"\x89PNG\r\n\x1a\n" + chunk(b"IHDR", head) + chunk(b"IDAT", body) + chunk(b"IEND", b""))
    os.replace(passing, path)
