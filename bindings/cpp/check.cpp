// The check of bindings/check/check.c through terrain.hpp: it prints the same hash.
#include "terrain.hpp"

#include <cstdio>
#include <cstring>

namespace {
std::uint64_t seed = 7, hash = 0xcbf29ce484222325u;

std::uint32_t below(std::uint32_t n)
{
    std::uint64_t z = seed += 0x9e3779b97f4a7c15u;
    z = (z ^ (z >> 30)) * 0xbf58476d1ce4e5b9u;
    z = (z ^ (z >> 27)) * 0x94d049bb133111ebu;
    return static_cast<std::uint32_t>(((z ^ (z >> 31)) >> 32) * n >> 32);
}

void add(std::uint64_t value) { hash = (hash ^ value) * 0x100000001b3u; }

terrain::Shape some_shape()
{
    terrain::Shape s = {};
    s.width = 1 + below(40);
    s.height = 1 + below(30);
    s.filter = below(2);
    s.levels = 1 + below(5 - s.filter);
    s.x = static_cast<std::uint16_t>(below(65536));
    s.y = static_cast<std::uint16_t>(below(65536));
    return s;
}

void whole_map(terrain::Shape s, std::vector<std::uint16_t> &heights, std::vector<std::int32_t> &plane)
{
    for (auto &height : heights) height = static_cast<std::uint16_t>(below(65536));
    std::vector<std::int32_t> work(plane.size());
    terrain::map_forward(heights, s, plane, work);
    for (auto value : plane) add(static_cast<std::uint32_t>(value));
    std::vector<std::uint16_t> back(heights.size());
    terrain::map_backward(plane, s, back, work);
    for (auto height : back) add(height);
    std::vector<float> smooth(s.width);
    terrain::profile(terrain::Area<const std::uint16_t>(heights.data(), s.width), smooth);
    for (float value : smooth) {
        std::uint32_t bits;
        std::memcpy(&bits, &value, sizeof bits);
        add(bits);
    }
}

void drawn(terrain::Writer &writer)
{
    std::vector<std::int32_t> values(64);
    terrain::BandRow row;
    while (writer.draw(values, row)) {
        add(row.level), add(row.band), add(row.row);
        for (std::size_t i = 0; i < row.length; i++) add(static_cast<std::uint32_t>(values[i]));
    }
}

void written(terrain::Shape s, const std::vector<std::uint16_t> &heights)
{
    terrain::Writer writer(s);
    for (std::size_t at = 0; at < heights.size();) {
        std::size_t run = 1 + below(static_cast<std::uint32_t>(heights.size() - at));
        std::size_t taken = writer.offer(terrain::Area<const std::uint16_t>(heights.data() + at, run));
        add(taken);
        at += taken;
        drawn(writer);
    }
    writer.finish();
    drawn(writer);
}

std::vector<std::int32_t> in_order; // what the last reader was fed

void read_on(terrain::Reader reader, terrain::Shape s, const std::vector<std::int32_t> &plane)
{
    std::vector<std::uint16_t> out(64);
    in_order.clear();
    for (;;) {
        terrain::BandRow row;
        terrain::Want want = reader.want(row);
        add(static_cast<std::uint64_t>(want));
        if (want == terrain::Want::row) {
            terrain::Place place = terrain::band_row(plane.size(), s, row.level, row.band, row.row);
            reader.feed(terrain::Area<const std::int32_t>(plane.data() + place.start, place.length));
            in_order.insert(in_order.end(), plane.data() + place.start, plane.data() + place.start + place.length);
        } else if (want == terrain::Want::draw) {
            std::size_t length = reader.draw(out);
            for (std::size_t i = 0; i < length; i++) add(out[i]);
        } else {
            return;
        }
    }
}

void run_on(terrain::Writer &writer, const std::vector<std::uint16_t> &heights, std::size_t &at)
{
    std::vector<std::int32_t> values(64);
    std::vector<std::uint64_t> names(32);
    terrain::Writer::Run did = {0, 1, 0};
    while (at < heights.size() || did.rows) {
        std::size_t run = at < heights.size() ? 1 + below(static_cast<std::uint32_t>(heights.size() - at)) : 0, rows = 1 + below(8);
        did = writer.run(terrain::Area<const std::uint16_t>(heights.data() + at, run), values, terrain::Area<std::uint64_t>(names.data(), 4 * rows));
        at += did.taken;
        add(did.taken), add(did.rows), add(did.numbers);
        for (std::size_t i = 0; i < 4 * did.rows; i++) add(names[i]);
        for (std::size_t i = 0; i < did.numbers; i++) add(static_cast<std::uint32_t>(values[i]));
    }
}

void written_by_runs(terrain::Shape s, const std::vector<std::uint16_t> &heights)
{
    terrain::Writer writer(s);
    std::size_t at = 0;
    run_on(writer, heights, at);
    writer.finish();
    run_on(writer, heights, at);
}

void read_by_runs(terrain::Shape s)
{
    terrain::Reader reader(s);
    std::vector<std::uint16_t> out(3 * s.width);
    for (std::size_t at = 0, drawn = 0; drawn < s.height;) {
        terrain::Reader::Run did = {0, 0};
        std::size_t rows = 1 + below(3);
        terrain::Area<const std::int32_t> left(in_order.data() + at, in_order.size() - at);
        reader.run(left, terrain::Area<std::uint16_t>(out.data(), rows * s.width), did);
        at += did.used, drawn += did.rows;
        add(did.used), add(did.rows);
        for (std::size_t i = 0; i < did.rows * s.width; i++) add(out[i]);
    }
}

std::vector<std::uint8_t> saved(terrain::Shape s, const std::vector<std::int32_t> &plane, std::size_t step)
{
    terrain::Saver saver(s, step);
    std::vector<std::uint8_t> file, area(40);
    for (std::size_t written = 1; written;) {
        written = saver.save(plane, terrain::Area<std::uint8_t>(area.data(), 1 + below(40)));
        for (std::size_t i = 0; i < written; i++) add(area[i]);
        file.insert(file.end(), area.data(), area.data() + written);
    }
    return file;
}

void load_on(const std::vector<std::uint8_t> &file)
{
    terrain::FileHeader header = terrain::file_header(file);
    terrain::Shape s = header.shape;
    for (std::uint64_t number : {std::uint64_t(s.width), std::uint64_t(s.height), std::uint64_t(s.levels), std::uint64_t(s.x), std::uint64_t(s.y),
                                 std::uint64_t(s.filter), std::uint64_t(header.step)})
        add(number);
    terrain::Loader loader(header);
    std::vector<std::uint16_t> out(64);
    for (std::size_t at = 0;;) {
        terrain::LoaderWant want = loader.want();
        add(static_cast<std::uint64_t>(want));
        if (want == terrain::LoaderWant::draw) {
            std::size_t drawn = loader.draw(out);
            for (std::size_t i = 0; i < drawn; i++) add(out[i]);
        } else if (want == terrain::LoaderWant::bytes && at < file.size()) {
            std::size_t taken = loader.take(terrain::Area<const std::uint8_t>(file.data() + at, 1 + below(static_cast<std::uint32_t>(file.size() - at))));
            at += taken;
            add(taken);
        } else {
            return;
        }
    }
}

std::uint32_t loaded(const std::vector<std::uint8_t> &file)
{
    try {
        load_on(file);
    } catch (const terrain::Refused &refused) {
        return refused.question;
    }
    return 0;
}

// pack and unpack say what the calls below them do
void packed(terrain::Shape s, const std::vector<std::uint16_t> &heights, std::size_t step, const std::vector<std::uint8_t> &file, bool loads)
{
    if (terrain::pack(heights, s, step) != file) add(1);
    if (loads && step == 1 && terrain::unpack(file).heights != heights) add(2);
    for (std::size_t length : {file.size() - 1, file.size() + 1}) {
        std::vector<std::uint8_t> other = file;
        other.resize(length);
        try {
            terrain::unpack(other);
            add(3);
        } catch (const terrain::Refused &refused) {
            if (refused.question != 22) add(4);
        }
    }
}

std::vector<std::uint8_t> ground_file(terrain::Shape s, const std::vector<std::uint16_t> &heights, const std::vector<std::int32_t> &plane, std::size_t step)
{
    std::vector<std::uint8_t> file = saved(s, plane, step);
    std::uint32_t answer = loaded(file);
    add(answer);
    packed(s, heights, step, file, !answer);
    std::size_t place = 24 + below(static_cast<std::uint32_t>(file.size() - 24));
    file[place] ^= static_cast<std::uint8_t>(1 + below(255));
    add(loaded(file));
    return file;
}

void read_far(terrain::Shape s, const std::vector<std::int32_t> &plane, std::size_t stop)
{
    terrain::LevelSize size = terrain::level_size(s, stop);
    add(size.columns), add(size.rows);
    read_on(terrain::Reader(s, stop), s, plane);
}

std::vector<std::uint8_t> read_rounded(terrain::Shape s, const std::vector<std::uint16_t> &heights, std::size_t step)
{
    s = terrain_shape_of(s.width, s.height, s.levels);
    std::vector<std::int32_t> plane(heights.size()), work(heights.size());
    terrain::map_forward(heights, s, plane, work);
    terrain::round(plane, s.width, s.height, s.levels, step);
    for (auto value : plane) add(static_cast<std::uint32_t>(value));
    add(terrain::error_bound(s.levels, step));
    read_on(terrain::Reader::tolerant(s.width, s.height, s.levels), s, plane);
    return ground_file(s, heights, plane, step);
}
} // namespace

int main()
{
    std::vector<std::uint16_t> heights;
    std::vector<std::int32_t> plane;
    std::vector<std::uint8_t> file;
    for (int i = 0; i < 60; i++) {
        terrain::Shape s = some_shape();
        heights.assign(s.width * s.height, 0);
        plane.assign(s.width * s.height, 0);
        whole_map(s, heights, plane);
        written(s, heights);
        read_on(terrain::Reader(s), s, plane);
        written_by_runs(s, heights);
        read_by_runs(s);
        ground_file(s, heights, plane, 1);
        read_far(s, plane, 1 + below(static_cast<std::uint32_t>(s.levels)));
        file = read_rounded(s, heights, 1 + below(64));
    }
    file[0]++;
    add(loaded(file));
    try {
        std::vector<std::int32_t> work(plane.size());
        terrain::map_forward(heights, terrain_shape_of(2050, 1, 1), plane, work);
    } catch (const terrain::Refused &refused) {
        add(refused.question);
    }
    std::printf("%016llx\n", static_cast<unsigned long long>(hash));
}
