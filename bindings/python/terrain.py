"""Height maps to wavelet coefficients and back, exactly: Python over the proved library (include/terrain.h), through the shared library and ctypes.

Areas are anything with a writable buffer of the right items: array.array, a numpy array, a ctypes array. A call that is turned away raises Refused, which has
the question's number; it has changed nothing that was lent to it, but for 14, which ends a reader or a loader.

    import numpy, terrain
    heights = numpy.zeros((257, 257), dtype=numpy.uint16)
    plane = terrain.map_forward(heights, terrain.Shape(257, 257, 5))
    file = terrain.pack(heights, terrain.Shape(257, 257, 5))  # the bytes of a ground file (docs/FORMAT.md)
    shape, heights = terrain.unpack(file)

TERRAIN_LIBRARY names the shared library; else libterrain.so.0 (terrain.dll, libterrain.dylib) is looked for as the system does.
"""
import array
import ctypes
import os
import sys

_SIZE = ctypes.c_size_t
_DEFAULT = {"win32": "terrain.dll", "darwin": "libterrain.dylib"}.get(sys.platform, "libterrain.so.0")
_library = ctypes.CDLL(os.environ.get("TERRAIN_LIBRARY", _DEFAULT))

FIVE_THREE, NINE_SEVEN = 0, 1
LL, HL, LH, HH = 0, 1, 2, 3
ROW, DRAW, DONE, ENDED = 0, 1, 2, 3
BYTES = 0  # what a loader wants where a reader wants a row
_STATE, _ROW, _WANT = ctypes.c_uint64 * 16, ctypes.c_uint64 * 4, ctypes.c_uint64 * 5
_FILE_STATE, _HEADER = ctypes.c_uint64 * 32, ctypes.c_uint64 * 7

# terrain_sentence of include/terrain.h
_SENTENCES = [
    "nothing is wrong",
    "the state is none that its calls made: a count is outside its range",
    "the width is not 1 to 2,049",
    "the height is not 1 to 4,294,967,295",
    "the number of levels is not 1 to 5, by the 9/7 1 to 4",
    "an area that was lent is too short",
    "there is no such band row, or no such cell",
    "a coefficient is outside its level's range",
    "it is not this call's turn: draw the rows that wait first, or none is wanted",
    "it is over: the writer is finished, or the reader ended after 14",
    "the map already has 4,294,967,295 rows",
    "the map has no row yet, or its last row is not complete",
    "the output area is too short for the row",
    "the run has not the length of the band row that is wanted",
    "no map has these coefficients",
    "the input is not in the form that the listing reads",
    "a sample exceeds the largest value that the picture's header names",
    "the level or the stop is not one of the map's levels",
    "there is no such filter",
    "the rectangle is empty or leaves the map",
    "the step is not 1 to 64",
    "the reader's number is not 0 to 15",
    "no file has this here",
]


class Refused(Exception):
    """The question that turned a call away: its number, and a sentence."""

    def __init__(self, question, sentence=None):
        super().__init__(f"{sentence or _SENTENCES[question]} ({question})")
        self.question = question


class Shape(ctypes.Structure):
    """Width, height and levels of a map, the coordinates of its first column and row, its filter."""

    _fields_ = [("width", _SIZE), ("height", _SIZE), ("levels", _SIZE), ("x", ctypes.c_uint16), ("y", ctypes.c_uint16), ("filter", ctypes.c_uint32)]


def _passed(answer):
    if answer:
        raise Refused(answer)


def _lent(area, item):
    """The address of an area and how many items it has; `item` is the size of one in bytes."""
    view = memoryview(area)
    if view.itemsize != item or not view.c_contiguous:
        raise TypeError(f"an area of {item}-byte items, one after the other, is wanted")
    if view.readonly:
        area = bytearray(view.cast("B"))
    if not view.nbytes:
        return ctypes.create_string_buffer(8), 0
    return (ctypes.c_char * view.nbytes).from_buffer(area), view.nbytes // item


def _call(name, *arguments, answers=ctypes.c_uint32):
    function = getattr(_library, "terrain_" + name)
    function.restype = answers
    return function(*[_SIZE(a) if isinstance(a, int) else a for a in arguments])


def _numbers(kind, n):
    return array.array(kind, bytes(array.array(kind).itemsize * n))


def store_length(shape):
    return _call("store_length", shape, answers=_SIZE)


def map_forward(heights, shape):
    """The plane of a map's coefficients, as an array of 32-bit numbers."""
    plane, work = _numbers("i", shape.width * shape.height), _numbers("i", shape.width * shape.height)
    _passed(_call("map_forward", *_lent(heights, 2), shape, *_lent(plane, 4), *_lent(work, 4)))
    return plane


def map_backward(plane, shape):
    """The one map that has this plane, as an array of 16-bit numbers."""
    heights, work = _numbers("H", shape.width * shape.height), _numbers("i", shape.width * shape.height)
    _passed(_call("map_backward", *_lent(plane, 4), shape, *_lent(heights, 2), *_lent(work, 4)))
    return heights


def band_row(plane_length, shape, level, band, row):
    """Where a band row stands in a plane: a slice."""
    start, length = _SIZE(), _SIZE()
    _passed(_call("band_row", plane_length, shape, level, band, row, ctypes.byref(start), ctypes.byref(length)))
    return slice(start.value, start.value + length.value)


def level_size(shape, level):
    """The columns and rows of a level's LL."""
    columns, rows = _SIZE(), _SIZE()
    _passed(_call("level_size", shape, level, ctypes.byref(columns), ctypes.byref(rows)))
    return columns.value, rows.value


def round_plane(plane, shape, step):
    """Rounds a plane of the 5/3, from the origin, by a step for a smaller download, where it stands."""
    _passed(_call("round", *_lent(plane, 4), shape.width, shape.height, shape.levels, step))


def error_bound(levels, step):
    """By how much a height can be off that a TolerantReader rebuilds from a plane rounded so."""
    bound = _SIZE()
    _passed(_call("error_bound", levels, step, ctypes.byref(bound)))
    return bound.value


def profile(row):
    """The smooth profile of a row of heights, as an array of 32-bit floats."""
    count = _lent(row, 2)[1]
    out = _numbers("f", count)
    _passed(_call("profile", *_lent(row, 2), *_lent(out, 4)))
    return out


class _Stream:
    def __init__(self, kind, shape, set_up, *arguments):
        self._kind, self._state = kind, _STATE()
        self._store = _numbers("i", store_length(shape))
        self._line = _numbers("i" if kind == "writer" else "H", max(shape.width, 1))
        self._columns = shape.width  # of a height row
        _passed(_call(set_up, self._state, *arguments, *_lent(self._store, 4)))

    def _call(self, name, *arguments):
        _passed(_call(self._kind + "_" + name, self._state, *arguments))


class Writer(_Stream):
    """Heights in, in runs cut anywhere; band rows out as soon as they are due."""

    def __init__(self, shape):
        super().__init__("writer", shape, "writer_set_up", shape)

    def offer(self, run):
        """How many heights of the run were taken: draw what waits and offer the others again."""
        taken = _SIZE()
        self._call("offer", *_lent(self._store, 4), *_lent(run, 2), ctypes.byref(taken))
        return taken.value

    def draw(self):
        """The band row that waits, as ((level, band, row), values), or None."""
        row = _ROW()
        self._call("draw", *_lent(self._store, 4), *_lent(self._line, 4), row)
        return (tuple(row[:3]), self._line[: row[3]]) if row[0] else None

    def run(self, heights, numbers=1 << 16, rows=1 << 10):
        """Many rows at once: how many heights were taken, and the rows that they made, as draw gives them, as far as there is room for."""
        out, names, counts = _numbers("i", numbers), _numbers("Q", 4 * rows), (ctypes.c_uint64 * 3)()
        self._call("run", *_lent(self._store, 4), *_lent(heights, 2), *_lent(out, 4), *_lent(names, 8), counts)
        made, at = [], 0
        for name in range(0, 4 * counts[1], 4):
            level, band, row, length = names[name : name + 4]
            made.append(((level, band, row), out[at : at + length]))
            at += length
        return counts[0], made

    def finish(self):
        self._call("finish", *_lent(self._store, 4))


class Reader(_Stream):
    """Band rows in, in the order that it wants them; height rows out. With a stop it hands out that level's LL as heights, without the finer rows."""

    def __init__(self, shape, stop=None):
        if stop is None:
            super().__init__("reader", shape, "reader_set_up", shape)
        else:
            super().__init__("reader", shape, "reader_set_up_at", shape, stop)
            self._columns = level_size(shape, stop)[0]

    def want(self):
        """ROW, DRAW, DONE or ENDED, and the (level, band, row) where a row is wanted."""
        want = _WANT()
        self._call("want", want)
        return want[0], tuple(want[1:4])

    def feed(self, run):
        self._call("feed", *_lent(self._store, 4), *_lent(run, 4))

    def draw(self):
        """The next height row, or an empty array where none can be drawn."""
        drawn = _SIZE()
        self._call("draw", *_lent(self._store, 4), *_lent(self._line, 2), ctypes.byref(drawn))
        return self._line[: drawn.value]

    def run(self, values, rows=64):
        """Many rows at once, of band rows in the order that it wants them: how many numbers were used, and the heights of at most so many rows."""
        out, counts = _numbers("H", rows * self._columns), (ctypes.c_uint64 * 2)()
        self._call("run", *_lent(self._store, 4), *_lent(values, 4), *_lent(out, 2), counts)
        return counts[0], out[: counts[1] * self._columns]


class TolerantReader(Reader):
    """One for a rounded plane, of the 5/3, from the origin: each value that it rebuilds is limited to its level's range, and nothing is refused by 14."""

    def __init__(self, width, height, levels):
        _Stream.__init__(self, "reader", Shape(width, height, levels), "tolerant_set_up", width, height, levels)


# ---- The ground file: a map as the bytes of one file, with its shape and a checksum in it.


def file_header(data):
    """The Shape and the step that the first 24 bytes of a file say."""
    header = _HEADER()
    data = memoryview(data).cast("B")[:24]
    _passed(_call("file_header", *_lent(data, 1), header))
    return Shape(*header[:6]), header[6]


class Saver:
    """The bytes of a plane's file, one area after the other; the same plane is lent to each call. The step is 1, or that of round_plane."""

    def __init__(self, shape, step=1):
        self._state = _FILE_STATE()
        _passed(_call("save_set_up", self._state, shape, step))

    def save(self, plane, length=1 << 16):
        """At most so many bytes more of the file; none where it is complete."""
        out, written = bytearray(length), _SIZE()
        _passed(_call("save", self._state, *_lent(plane, 4), *_lent(out, 1), ctypes.byref(written)))
        return bytes(out[: written.value])


class Loader:
    """A file's bytes in, from its first on, in runs cut anywhere; height rows out. Those drawn before DONE come from a file whose checksum is still to be read.

    loader = Loader(*file_header(first))
    for chunk in chunks:
        for row in loader.rows(chunk): ...
    loader.close()
    """

    def __init__(self, shape, step=1):
        self._state = _FILE_STATE()
        self._store = _numbers("i", _call("reader_store_length", shape, answers=_SIZE))
        _passed(_call("load_set_up", self._state, shape, step, *_lent(self._store, 4)))
        self._row, self._line = _numbers("i", shape.width // 2 + 1), _numbers("H", shape.width)

    def want(self):
        """BYTES, DRAW, DONE or ENDED."""
        want = ctypes.c_uint32()
        _passed(_call("load_want", self._state, ctypes.byref(want)))
        return want.value

    def take(self, run):
        """How many bytes of the run were taken: draw, where a row can be drawn, and offer the others again."""
        taken = _SIZE()
        _passed(_call("load_take", self._state, *_lent(self._store, 4), *_lent(self._row, 4), *_lent(run, 1), ctypes.byref(taken)))
        return taken.value

    def draw(self):
        """The next height row, or an empty array where none can be drawn."""
        drawn = _SIZE()
        _passed(_call("load_draw", self._state, *_lent(self._store, 4), *_lent(self._line, 2), ctypes.byref(drawn)))
        return self._line[: drawn.value]

    def rows(self, run):
        """Takes a whole run of bytes and yields the height rows that come of it."""
        run = memoryview(run).cast("B")
        if run.readonly:
            run = memoryview(bytearray(run))
        at = 0
        while True:
            want = self.want()
            if want == DRAW:
                yield self.draw()
            elif at == len(run):
                return
            elif want == DONE:
                raise Refused(22, "there are bytes after the file's end")
            else:
                at += self.take(run[at:])

    def close(self):
        """After the last byte: refused where the file is not over."""
        if self.want() != DONE:
            raise Refused(22, "the file ends early")


def pack(heights, shape, step=1):
    """A map as the bytes of its ground file; with a step above 1 (the 5/3, from the origin) a smaller one, rounded."""
    saver = Saver(shape, step)
    if _lent(heights, 2)[1] < shape.width * shape.height:
        raise Refused(5)
    plane = map_forward(heights, shape)
    if step > 1:
        round_plane(plane, shape, step)
    return b"".join(iter(lambda: saver.save(plane), b""))


def unpack(data):
    """The Shape and the heights, as an array of 16-bit numbers, of a whole ground file. 22: it is none, or damaged, or cut short, or something follows it."""
    shape, step = file_header(data)
    loader, heights = Loader(shape, step), array.array("H")
    for row in loader.rows(data):
        heights.extend(row)
    loader.close()
    return shape, heights
