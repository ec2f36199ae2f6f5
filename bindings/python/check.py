"""The check of bindings/check/check.c through terrain.py: it prints the same hash."""
import array

import terrain

_ALL = (1 << 64) - 1
_seed, _hash = 7, 0xCBF29CE484222325


def below(n):
    global _seed
    _seed = z = _seed + 0x9E3779B97F4A7C15 & _ALL
    z = (z ^ z >> 30) * 0xBF58476D1CE4E5B9 & _ALL
    z = (z ^ z >> 27) * 0x94D049BB133111EB & _ALL
    return ((z ^ z >> 31) >> 32) * n >> 32


def add(*values):
    global _hash
    for value in values:
        _hash = (_hash ^ (value & 0xFFFFFFFF if value < 0 else value)) * 0x100000001B3 & _ALL


def some_shape():
    width, height, filter = 1 + below(40), 1 + below(30), below(2)
    levels, x, y = 1 + below(5 - filter), below(65536), below(65536)
    return terrain.Shape(width, height, levels, x, y, filter)


def whole_map(shape):
    heights = array.array("H", [below(65536) for _ in range(shape.width * shape.height)])
    plane = terrain.map_forward(heights, shape)
    add(*plane)
    add(*terrain.map_backward(plane, shape))
    smooth = terrain.profile(heights[: shape.width])
    add(*array.array("I", smooth.tobytes()))
    return heights, plane


def drawn(writer):
    for row, values in iter(writer.draw, None):
        add(*row)
        add(*values)


def written(shape, heights):
    writer, at = terrain.Writer(shape), 0
    while at < len(heights):
        taken = writer.offer(heights[at : at + 1 + below(len(heights) - at)])
        add(taken)
        at += taken
        drawn(writer)
    writer.finish()
    drawn(writer)


def read_back(reader, shape, plane):
    """What it was fed, in that order."""
    fed = array.array("i")
    while True:
        want, row = reader.want()
        add(want)
        if want == terrain.ROW:
            values = plane[terrain.band_row(len(plane), shape, *row)]
            reader.feed(values)
            fed += values
        elif want == terrain.DRAW:
            add(*reader.draw())
        else:
            return fed


def run_on(writer, heights, at):
    rows = True
    while at < len(heights) or rows:
        run = 1 + below(len(heights) - at) if at < len(heights) else 0
        room = 1 + below(8)
        taken, rows = writer.run(heights[at : at + run], 64, room)
        at += taken
        add(taken, len(rows), sum(len(values) for _, values in rows))
        for name, values in rows:
            add(*name, len(values))
        for _, values in rows:
            add(*values)
    return at


def written_by_runs(shape, heights):
    writer = terrain.Writer(shape)
    at = run_on(writer, heights, 0)
    writer.finish()
    run_on(writer, heights, at)


def read_by_runs(shape, values):
    reader, at, drawn = terrain.Reader(shape), 0, 0
    while drawn < shape.height:
        used, heights = reader.run(values[at:], 1 + below(3))
        rows = len(heights) // shape.width
        at, drawn = at + used, drawn + rows
        add(used, rows, *heights)


def saved(shape, plane, step):
    saver, file, part = terrain.Saver(shape, step), b"", b"-"
    while part:
        part = saver.save(plane, 1 + below(40))
        add(*part)
        file += part
    return file


def load_on(file):
    shape, step = terrain.file_header(file)
    add(shape.width, shape.height, shape.levels, shape.x, shape.y, shape.filter, step)
    loader, at = terrain.Loader(shape, step), 0
    while True:
        want = loader.want()
        add(want)
        if want == terrain.DRAW:
            add(*loader.draw())
        elif want == terrain.BYTES and at < len(file):
            taken = loader.take(file[at : at + 1 + below(len(file) - at)])
            at += taken
            add(taken)
        else:
            return


def loaded(file):
    try:
        load_on(file)
    except terrain.Refused as refused:
        return refused.question
    return 0


def packed(shape, heights, step, file, loads):
    """pack and unpack say what the calls below them do."""
    assert terrain.pack(heights, shape, step) == file
    if loads and step == 1:
        assert terrain.unpack(file)[1] == heights
    for other in (file[:-1], file + b"-"):
        try:
            terrain.unpack(other)
            assert False
        except terrain.Refused as refused:
            assert refused.question == 22


def ground_file(shape, heights, plane, step):
    file = bytearray(saved(shape, plane, step))
    answer = loaded(file)
    add(answer)
    packed(shape, heights, step, file, not answer)
    place = 24 + below(len(file) - 24)
    file[place] ^= 1 + below(255)
    add(loaded(file))
    return file


def read_rounded(shape, heights, step):
    shape = terrain.Shape(shape.width, shape.height, shape.levels)
    plane = terrain.map_forward(heights, shape)
    terrain.round_plane(plane, shape, step)
    add(*plane, terrain.error_bound(shape.levels, step))
    read_back(terrain.TolerantReader(shape.width, shape.height, shape.levels), shape, plane)
    return ground_file(shape, heights, plane, step)


def main():
    for _ in range(60):
        shape = some_shape()
        heights, plane = whole_map(shape)
        written(shape, heights)
        fed = read_back(terrain.Reader(shape), shape, plane)
        written_by_runs(shape, heights)
        read_by_runs(shape, fed)
        ground_file(shape, heights, plane, 1)
        stop = 1 + below(shape.levels)
        add(*terrain.level_size(shape, stop))
        read_back(terrain.Reader(shape, stop), shape, plane)
        file = read_rounded(shape, heights, 1 + below(64))
    file[0] += 1
    add(loaded(file))
    try:
        terrain.map_forward(array.array("H", [0]), terrain.Shape(2050, 1, 1))
    except terrain.Refused as refused:
        add(refused.question)
    print(f"{_hash:016x}")


main()
