// Height maps to wavelet coefficients and back, exactly: C++ over the proved library (include/terrain.h). C++17; with C++20 every area may be a std::span.
// Writer, Reader and Loader own their state and their line store. A call that is turned away throws terrain::Refused, which has the question's number; it has
// changed nothing that was lent to it, but for 14, which ends a reader or a loader.
//
//     std::vector<std::uint8_t> file = terrain::pack(heights, terrain_shape_of(257, 257, 5));
//     terrain::Ground ground = terrain::unpack(file);
#ifndef TERRAIN_HPP
#define TERRAIN_HPP

#include "terrain.h"

#include <array>
#include <cstddef>
#include <cstdint>
#include <stdexcept>
#include <string>
#include <vector>
#if __cplusplus >= 202002L
#include <span>
#endif

namespace terrain {

#if __cplusplus >= 202002L
template <class T> using Area = std::span<T>;
#else
// A pointer and a length, made of a vector, an array or the two by themselves.
template <class T> class Area {
public:
    Area(T *first, std::size_t length) : first_(first), length_(length) {}
    template <class Container> Area(Container &&from) : first_(from.data()), length_(from.size()) {}
    T *data() const { return first_; }
    std::size_t size() const { return length_; }

private:
    T *first_;
    std::size_t length_;
};
#endif

// The question that turned a call away.
class Refused : public std::runtime_error {
public:
    explicit Refused(std::uint32_t question)
        : Refused(question, terrain_sentence(question))
    {
    }
    Refused(std::uint32_t question, const std::string &sentence)
        : std::runtime_error(sentence + " (" + std::to_string(question) + ")"), question(question)
    {
    }
    const std::uint32_t question;
};

namespace detail {
inline void passed(std::uint32_t answer)
{
    if (answer) throw Refused(answer);
}
// The library takes no null pointer, and an empty vector may have one.
template <class T> T *lent(const Area<T> &area)
{
    alignas(8) static T none[1] = {};
    return area.size() ? area.data() : none;
}
} // namespace detail

using Shape = terrain_shape;

// A band row: its level (1 the finest), band (TERRAIN_LL to TERRAIN_HH), number and length.
struct BandRow {
    std::size_t level, band, row, length;
};

inline void map_forward(Area<const std::uint16_t> heights, Shape shape, Area<std::int32_t> plane, Area<std::int32_t> work)
{
    detail::passed(terrain_map_forward(heights.data(), heights.size(), shape, plane.data(), plane.size(), work.data(), work.size()));
}

inline void map_backward(Area<const std::int32_t> plane, Shape shape, Area<std::uint16_t> heights, Area<std::int32_t> work)
{
    detail::passed(terrain_map_backward(plane.data(), plane.size(), shape, heights.data(), heights.size(), work.data(), work.size()));
}

// As the library names it: level, band, number, length.
inline BandRow band_row_of(const std::uint64_t named[4])
{
    return {static_cast<std::size_t>(named[0]), static_cast<std::size_t>(named[1]), static_cast<std::size_t>(named[2]), static_cast<std::size_t>(named[3])};
}

// Where a band row stands in a plane.
struct Place {
    std::size_t start, length;
};

inline Place band_row(std::size_t plane_length, Shape shape, std::size_t level, std::size_t band, std::size_t row)
{
    Place place = {0, 0};
    detail::passed(terrain_band_row(plane_length, shape, level, band, row, &place.start, &place.length));
    return place;
}

// The columns and rows of a level's LL.
struct LevelSize {
    std::size_t columns, rows;
};

inline LevelSize level_size(Shape shape, std::size_t level)
{
    LevelSize size = {0, 0};
    detail::passed(terrain_level_size(shape, level, &size.columns, &size.rows));
    return size;
}

// A plane of the 5/3, from the origin, rounded by a step for a smaller download; and by how much a height can be off that Reader::tolerant rebuilds from it.
inline void round(Area<std::int32_t> plane, std::size_t width, std::size_t height, std::size_t levels, std::size_t step)
{
    detail::passed(terrain_round(plane.data(), plane.size(), width, height, levels, step));
}

inline std::size_t error_bound(std::size_t levels, std::size_t step)
{
    std::size_t bound = 0;
    detail::passed(terrain_error_bound(levels, step, &bound));
    return bound;
}

inline void profile(Area<const std::uint16_t> row, Area<float> out) { detail::passed(terrain_profile(row.data(), row.size(), out.data(), out.size())); }

// What writer and reader share: sixteen numbers and a line store, both their own.
class Stream {
protected:
    // Room for a stream of that shape, which is set up by whoever derives from it.
    explicit Stream(Shape shape) : store_(terrain_store_length(shape) + 1) {}
    std::array<std::uint64_t, TERRAIN_STATE_LENGTH> state_ = {};
    std::vector<std::int32_t> store_;
};

// Heights in, in runs cut anywhere; band rows out as soon as they are due.
class Writer : Stream {
public:
    explicit Writer(Shape shape) : Stream(shape) { detail::passed(terrain_writer_set_up(state_.data(), shape, store_.data(), store_.size())); }

    // How many heights of the run were taken; draw what waits and offer the others again.
    std::size_t offer(Area<const std::uint16_t> run)
    {
        std::size_t taken = 0;
        std::uint16_t none = 0;
        const std::uint16_t *first = run.size() ? run.data() : &none;
        detail::passed(terrain_writer_offer(state_.data(), store_.data(), store_.size(), first, run.size(), &taken));
        return taken;
    }

    // Whether a row waited; it stands in `row`, its values at the front of `out`.
    bool draw(Area<std::int32_t> out, BandRow &row)
    {
        std::uint64_t named[TERRAIN_ROW_LENGTH] = {};
        detail::passed(terrain_writer_draw(state_.data(), store_.data(), store_.size(), detail::lent(out), out.size(), named));
        row = band_row_of(named);
        return named[0] != 0;
    }

    // Many rows at once: what the run did. The rows' values stand in `out` one after the other, and four numbers each in `names` (band_row_of reads them).
    struct Run {
        std::size_t taken, rows, numbers;
    };
    Run run(Area<const std::uint16_t> heights, Area<std::int32_t> out, Area<std::uint64_t> names)
    {
        std::uint64_t counts[3] = {};
        detail::passed(terrain_writer_run(state_.data(), store_.data(), store_.size(), detail::lent(heights), heights.size(), detail::lent(out), out.size(),
                                          detail::lent(names), names.size(), counts));
        return {static_cast<std::size_t>(counts[0]), static_cast<std::size_t>(counts[1]), static_cast<std::size_t>(counts[2])};
    }

    void finish() { detail::passed(terrain_writer_finish(state_.data(), store_.data(), store_.size())); }
};

enum class Want { row = TERRAIN_WANT_ROW, draw = TERRAIN_WANT_DRAW, done = TERRAIN_WANT_DONE, ended = TERRAIN_WANT_ENDED };

// Band rows in, in the order that it wants them; height rows out.
class Reader : Stream {
public:
    explicit Reader(Shape shape) : Stream(shape) { detail::passed(terrain_reader_set_up(state_.data(), shape, store_.data(), store_.size())); }

    // One that stops at a level and hands out its LL as heights, without the finer rows.
    Reader(Shape shape, std::size_t stop) : Stream(shape)
    {
        detail::passed(terrain_reader_set_up_at(state_.data(), shape, stop, store_.data(), store_.size()));
    }

    // One for a rounded plane, of the 5/3, from the origin: each value that it rebuilds is limited to its level's range, and nothing is refused by 14.
    static Reader tolerant(std::size_t width, std::size_t height, std::size_t levels)
    {
        Reader reader(Unset{terrain_shape_of(width, height, levels)});
        detail::passed(terrain_tolerant_set_up(reader.state_.data(), width, height, levels, reader.store_.data(), reader.store_.size()));
        return reader;
    }

    // What it wants; the band row, where that is what it wants.
    Want want(BandRow &row) const
    {
        std::uint64_t wanted[TERRAIN_WANT_LENGTH] = {};
        detail::passed(terrain_reader_want(state_.data(), wanted));
        row = band_row_of(wanted + 1);
        return static_cast<Want>(wanted[0]);
    }

    void feed(Area<const std::int32_t> row)
    {
        std::int32_t none = 0;
        detail::passed(terrain_reader_feed(state_.data(), store_.data(), store_.size(), row.size() ? row.data() : &none, row.size()));
    }

    // How many heights of the next row stand at the front of `out`; 0 where none can be drawn.
    std::size_t draw(Area<std::uint16_t> out)
    {
        std::size_t drawn = 0;
        detail::passed(terrain_reader_draw(state_.data(), store_.data(), store_.size(), detail::lent(out), out.size(), &drawn));
        return drawn;
    }

    // Many rows at once: how many numbers of `values`, band rows in the order that it wants them, were used, and how many height rows stand in `out`. They
    // are set too where 14 is thrown.
    struct Run {
        std::size_t used, rows;
    };
    void run(Area<const std::int32_t> values, Area<std::uint16_t> out, Run &did)
    {
        std::uint64_t counts[2] = {};
        std::uint32_t answer = terrain_reader_run(state_.data(), store_.data(), store_.size(), detail::lent(values), values.size(), detail::lent(out),
                                                  out.size(), counts);
        did = {static_cast<std::size_t>(counts[0]), static_cast<std::size_t>(counts[1])};
        detail::passed(answer);
    }

private:
    struct Unset {
        Shape shape;
    };
    explicit Reader(Unset room) : Stream(room.shape) {}
};

// ---- The ground file (docs/FORMAT.md): a map as the bytes of one file, with its shape and a checksum in it.

// What the first 24 bytes of a file say; those after them are not read.
struct FileHeader {
    Shape shape;
    std::size_t step;
};

inline FileHeader file_header(Area<const std::uint8_t> bytes)
{
    std::uint64_t header[7] = {};
    detail::passed(terrain_file_header(detail::lent(bytes), bytes.size(), header));
    return {terrain_header_shape(header), static_cast<std::size_t>(header[6])};
}

// The bytes of a plane's file, one area after the other; the same plane is lent to each call. The step is 1, or that of terrain::round.
class Saver {
public:
    explicit Saver(Shape shape, std::size_t step = 1) { detail::passed(terrain_save_set_up(state_.data(), shape, step)); }

    // How many bytes stand at the front of `out`; 0 of an area with room: the file is complete.
    std::size_t save(Area<const std::int32_t> plane, Area<std::uint8_t> out)
    {
        std::size_t written = 0;
        detail::passed(terrain_save(state_.data(), detail::lent(plane), plane.size(), detail::lent(out), out.size(), &written));
        return written;
    }

private:
    std::array<std::uint64_t, TERRAIN_SAVER_LENGTH> state_ = {};
};

enum class LoaderWant { bytes = TERRAIN_WANT_BYTES, draw = TERRAIN_WANT_DRAW, done = TERRAIN_WANT_DONE, ended = TERRAIN_WANT_ENDED };

// A file's bytes in, from its first on, in runs cut anywhere; height rows out. Those drawn before `done` come from a file whose checksum is still to be read.
class Loader {
public:
    explicit Loader(const FileHeader &header) : Loader(header.shape, header.step) {}
    explicit Loader(Shape shape, std::size_t step = 1) : store_(terrain_reader_store_length(shape) + 1), row_(room_of(shape))
    {
        detail::passed(terrain_load_set_up(state_.data(), shape, step, store_.data(), store_.size()));
    }

    LoaderWant want() const
    {
        std::uint32_t want = 0;
        detail::passed(terrain_load_want(state_.data(), &want));
        return static_cast<LoaderWant>(want);
    }

    // How many bytes of the run were taken: draw, where a row can be drawn, and offer the others again.
    std::size_t take(Area<const std::uint8_t> run)
    {
        std::size_t taken = 0;
        detail::passed(terrain_load_take(state_.data(), store_.data(), store_.size(), row_.data(), row_.size(), detail::lent(run), run.size(), &taken));
        return taken;
    }

    // How many heights of the next row stand at the front of `out`; 0 where none can be drawn.
    std::size_t draw(Area<std::uint16_t> out)
    {
        std::size_t drawn = 0;
        detail::passed(terrain_load_draw(state_.data(), store_.data(), store_.size(), detail::lent(out), out.size(), &drawn));
        return drawn;
    }

private:
    // of a width that the set-up refuses no room is needed
    static std::size_t room_of(Shape shape) { return shape.width <= TERRAIN_MAX_WIDTH ? shape.width / 2 + 1 : 1; }
    std::array<std::uint64_t, TERRAIN_LOADER_LENGTH> state_ = {};
    std::vector<std::int32_t> store_, row_;
};

// A map as a ground file; with a step above 1 (the 5/3, from the origin) a smaller one, rounded.
inline std::vector<std::uint8_t> pack(Area<const std::uint16_t> heights, Shape shape, std::size_t step = 1)
{
    Saver saver(shape, step);
    if (heights.size() / shape.width < shape.height) throw Refused(TERRAIN_AREA_SHORT);
    std::vector<std::int32_t> plane(shape.width * shape.height), work(plane.size());
    map_forward(heights, shape, plane, work);
    if (step > 1) round(plane, shape.width, shape.height, shape.levels, step);
    std::vector<std::uint8_t> file, area(65536);
    while (std::size_t written = saver.save(plane, area)) file.insert(file.end(), area.data(), area.data() + written);
    return file;
}

// A map, and the step by which its plane was rounded.
struct Ground {
    Shape shape;
    std::size_t step;
    std::vector<std::uint16_t> heights;
};

// The map of a whole ground file. 22: it is none, or damaged, or cut short, or something follows it.
inline Ground unpack(Area<const std::uint8_t> file)
{
    FileHeader header = file_header(file);
    Loader loader(header);
    Ground ground = {header.shape, header.step, {}};
    std::size_t at = 0;
    for (LoaderWant want = loader.want(); want != LoaderWant::done; want = loader.want()) {
        if (want == LoaderWant::bytes) {
            if (at == file.size()) throw Refused(TERRAIN_NO_FILE, "the file ends early");
            at += loader.take(Area<const std::uint8_t>(file.data() + at, file.size() - at));
        } else {
            std::size_t drawn = ground.heights.size();
            ground.heights.resize(drawn + header.shape.width);
            loader.draw(Area<std::uint16_t>(ground.heights.data() + drawn, header.shape.width));
        }
    }
    if (at < file.size()) throw Refused(TERRAIN_NO_FILE, "there are bytes after the file's end");
    return ground;
}

} // namespace terrain
#endif
