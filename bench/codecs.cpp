// The library beside what people use for ground today, by hand, in one run: ns a height to write and to read back, bits a height, and the memory that reading
// takes beside file and heights. One thread; every height is compared. The reads go in turn, so that they share the machine's noise: believe the ratios.
//     apt-get install libopenjp2-7-dev libopenjph-dev liblerc-dev libzstd-dev libpng-dev
//     From the top of the repository: bench/codecs [FILE.pgm [ROUNDS]]
#include <Lerc_c_api.h>
#include <openjpeg.h>
#include <malloc.h>
#include <png.h>
// in this order: they lean on each other
#include <openjph/ojph_mem.h>
#include <openjph/ojph_file.h>
#include <openjph/ojph_codestream.h>
#include <openjph/ojph_params.h>
#include <openjph/ojph_version.h>
#include <sys/resource.h>
#include <sys/wait.h>
#include <unistd.h>

#include <algorithm>
#include <chrono>
#include <functional>
#include <string>
#include <vector>

#include "../examples/compressed.h"
#include "../examples/pgm.h"

using Bytes = std::vector<uint8_t>;

static Pgm map;                      // what is written
static std::vector<uint16_t> again;  // what is read back
static const char *const packed_file = "target/bench/codecs.zst";

static size_t count() { return map.width * map.height; }

[[noreturn]] static void failed(const char *what)
{
    fprintf(stderr, "codecs: %s failed\n", what);
    exit(1);
}

// ---- the library: its coefficients as they are, in the reader's order, and packed as examples/compressed.h does

static int put_bytes(void *to, const int32_t *row, size_t length)
{
    const uint8_t *first = reinterpret_cast<const uint8_t *>(row);
    static_cast<Bytes *>(to)->insert(static_cast<Bytes *>(to)->end(), first, first + 4 * length);
    return 1;
}

static Bytes terrain_write()
{
    std::vector<int32_t> plane(count());
    Bytes bytes;
    bytes.reserve(4 * count() + 64);
    if (write_plane(map.heights, map.width, map.height, 5, plane.data())) failed("writing");
    if (save_plane(put_bytes, &bytes, plane.data(), map.width, map.height, 5, 1)) failed("saving");
    return bytes;
}

struct At {
    const uint8_t *next;
};

static int get_bytes(void *from, int32_t *row, size_t length)
{
    memcpy(row, static_cast<At *>(from)->next, 4 * length);
    static_cast<At *>(from)->next += 4 * length;
    return 1;
}

// The rows through a reader, straight to where the heights are wanted.
static void read_rows(GetRow *get, void *from)
{
    uint64_t state[TERRAIN_STATE_LENGTH];
    int32_t size[3];
    if (!get(from, size, 3)) failed("loading");
    terrain_shape shape = terrain_shape_of(static_cast<uint32_t>(size[0]), static_cast<uint32_t>(size[1]), static_cast<uint32_t>(size[2]));
    std::vector<int32_t> store(terrain_store_length(shape)), run(shape.width);
    if (terrain_reader_set_up(state, shape, store.data(), store.size())) failed("loading");
    if (load_rows(get, from, shape.width, state, store.data(), store.size(), run.data(), again.data())) failed("loading");
}

static void terrain_read(const Bytes &bytes)
{
    At from = {bytes.data()};
    read_rows(get_bytes, &from);
}

static Bytes packed_write(int effort)
{
    if (write_compressed(packed_file, map.heights, map.width, map.height, 5, 1, effort)) failed("packing");
    FILE *file = fopen(packed_file, "rb");
    if (!file || fseek(file, 0, SEEK_END) != 0) failed("packing");
    Bytes bytes(static_cast<size_t>(ftell(file))); // its length; it is read from the file
    fclose(file);
    return bytes;
}

static void packed_read(const Bytes &)
{
    Unpacker *from = static_cast<Unpacker *>(calloc(1, sizeof *from));
    from->zstd = ZSTD_createDCtx();
    from->file = fopen(packed_file, "rb");
    from->left = 1;
    if (!from->file) failed("loading");
    read_rows(get_packed, from);
    fclose(from->file);
    ZSTD_freeDCtx(from->zstd);
    free(from);
}

// ---- PNG, 16 bits, by libpng

static void png_put(png_structp png, png_bytep bytes, png_size_t length)
{
    Bytes *to = static_cast<Bytes *>(png_get_io_ptr(png));
    to->insert(to->end(), bytes, bytes + length);
}

static Bytes png_write_map()
{
    Bytes bytes;
    png_structp png = png_create_write_struct(PNG_LIBPNG_VER_STRING, nullptr, nullptr, nullptr);
    png_infop info = png_create_info_struct(png);
    png_set_write_fn(png, &bytes, png_put, [](png_structp) {});
    png_set_IHDR(png, info, static_cast<png_uint_32>(map.width), static_cast<png_uint_32>(map.height), 16, PNG_COLOR_TYPE_GRAY, 0, 0, 0);
    png_write_info(png, info);
    png_set_swap(png);
    for (size_t y = 0; y < map.height; y++) png_write_row(png, reinterpret_cast<png_bytep>(map.heights + y * map.width));
    png_write_end(png, info);
    png_destroy_write_struct(&png, &info);
    return bytes;
}

static void png_get(png_structp png, png_bytep to, png_size_t length)
{
    At *from = static_cast<At *>(png_get_io_ptr(png));
    memcpy(to, from->next, length);
    from->next += length;
}

static void png_read_map(const Bytes &bytes)
{
    At from = {bytes.data()};
    png_structp png = png_create_read_struct(PNG_LIBPNG_VER_STRING, nullptr, nullptr, nullptr);
    png_infop info = png_create_info_struct(png);
    png_set_read_fn(png, &from, png_get);
    png_read_info(png, info);
    png_set_swap(png);
    for (size_t y = 0; y < map.height; y++) png_read_row(png, reinterpret_cast<png_bytep>(&again[y * map.width]), nullptr);
    png_read_end(png, nullptr);
    png_destroy_read_struct(&png, &info, nullptr);
}

// ---- LERC, no error allowed

static Bytes lerc_write()
{
    Bytes bytes(4 * count() + 1024);
    unsigned length = 0;
    const int width = static_cast<int>(map.width), height = static_cast<int>(map.height);
    if (lerc_encode(map.heights, 3, 1, width, height, 1, 0, nullptr, 0.0, bytes.data(), static_cast<unsigned>(bytes.size()), &length)) failed("LERC");
    bytes.resize(length);
    return bytes;
}

static void lerc_read(const Bytes &bytes)
{
    const int width = static_cast<int>(map.width), height = static_cast<int>(map.height);
    if (lerc_decode(bytes.data(), static_cast<unsigned>(bytes.size()), 0, nullptr, 1, width, height, 1, 3, again.data())) failed("LERC");
}

// ---- OpenJPEG: JPEG 2000, reversible 5/3, 5 levels

struct Memory {
    Bytes *bytes;
    size_t at;
};

static OPJ_SIZE_T memory_read(void *to, OPJ_SIZE_T length, void *user)
{
    Memory *m = static_cast<Memory *>(user);
    if (m->at >= m->bytes->size()) return static_cast<OPJ_SIZE_T>(-1);
    length = std::min(length, m->bytes->size() - m->at);
    memcpy(to, m->bytes->data() + m->at, length);
    m->at += length;
    return length;
}

static OPJ_SIZE_T memory_write(void *from, OPJ_SIZE_T length, void *user)
{
    Memory *m = static_cast<Memory *>(user);
    if (m->at + length > m->bytes->size()) m->bytes->resize(m->at + length);
    memcpy(m->bytes->data() + m->at, from, length);
    m->at += length;
    return length;
}

static OPJ_OFF_T memory_skip(OPJ_OFF_T length, void *user)
{
    static_cast<Memory *>(user)->at += static_cast<size_t>(length);
    return length;
}

static OPJ_BOOL memory_seek(OPJ_OFF_T place, void *user)
{
    static_cast<Memory *>(user)->at = static_cast<size_t>(place);
    return OPJ_TRUE;
}

static opj_stream_t *stream_over(Memory *memory, bool reading)
{
    opj_stream_t *stream = opj_stream_create(1 << 20, reading);
    opj_stream_set_user_data(stream, memory, nullptr);
    opj_stream_set_user_data_length(stream, reading ? memory->bytes->size() : 0);
    opj_stream_set_read_function(stream, memory_read);
    opj_stream_set_write_function(stream, memory_write);
    opj_stream_set_skip_function(stream, memory_skip);
    opj_stream_set_seek_function(stream, memory_seek);
    return stream;
}

static opj_image_t *image_of_map()
{
    opj_image_cmptparm_t component = {};
    component.dx = component.dy = 1;
    component.w = static_cast<OPJ_UINT32>(map.width);
    component.h = static_cast<OPJ_UINT32>(map.height);
    component.prec = 16;
    opj_image_t *image = opj_image_create(1, &component, OPJ_CLRSPC_GRAY);
    image->x1 = component.w;
    image->y1 = component.h;
    std::copy(map.heights, map.heights + count(), image->comps[0].data);
    return image;
}

static Bytes openjpeg_write()
{
    Bytes bytes;
    Memory memory = {&bytes, 0};
    opj_cparameters_t how;
    opj_set_default_encoder_parameters(&how);
    how.numresolution = 6;
    how.tcp_numlayers = 1;
    how.cp_disto_alloc = 1;
    opj_image_t *image = image_of_map();
    opj_codec_t *codec = opj_create_compress(OPJ_CODEC_J2K);
    opj_stream_t *stream = stream_over(&memory, false);
    if (!opj_setup_encoder(codec, &how, image) || !opj_start_compress(codec, image, stream) || !opj_encode(codec, stream) || !opj_end_compress(codec, stream))
        failed("OpenJPEG");
    opj_stream_destroy(stream);
    opj_destroy_codec(codec);
    opj_image_destroy(image);
    return bytes;
}

static void openjpeg_read(const Bytes &bytes)
{
    Memory memory = {const_cast<Bytes *>(&bytes), 0};
    opj_dparameters_t how;
    opj_image_t *image = nullptr;
    opj_set_default_decoder_parameters(&how);
    opj_codec_t *codec = opj_create_decompress(OPJ_CODEC_J2K);
    opj_stream_t *stream = stream_over(&memory, true);
    if (!opj_setup_decoder(codec, &how) || !opj_read_header(stream, codec, &image) || !opj_decode(codec, stream, image)) failed("OpenJPEG");
    std::copy(image->comps[0].data, image->comps[0].data + count(), again.begin());
    opj_stream_destroy(stream);
    opj_destroy_codec(codec);
    opj_image_destroy(image);
}

// ---- OpenJPH: high-throughput JPEG 2000, reversible 5/3, 5 levels, row by row

static Bytes openjph_write()
{
    using namespace ojph;
    const ui32 width = static_cast<ui32>(map.width), height = static_cast<ui32>(map.height);
    codestream code;
    param_siz size = code.access_siz();
    size.set_image_extent(point(width, height));
    size.set_num_components(1);
    size.set_component(0, point(1, 1), 16, false);
    param_cod how = code.access_cod();
    how.set_num_decomposition(5);
    how.set_block_dims(64, 64);
    how.set_color_transform(false);
    how.set_reversible(true);
    code.set_planar(true);
    mem_outfile file;
    file.open(1 << 24);
    code.write_headers(&file);
    ui32 next;
    line_buf *line = code.exchange(nullptr, next);
    for (size_t y = 0; y < map.height; y++) {
        std::copy(map.heights + y * width, map.heights + (y + 1) * width, line->i32);
        line = code.exchange(line, next);
    }
    code.flush();
    Bytes bytes(file.get_data(), file.get_data() + file.tell());
    code.close();
    return bytes;
}

static void openjph_read(const Bytes &bytes)
{
    using namespace ojph;
    codestream code;
    mem_infile file;
    file.open(bytes.data(), bytes.size());
    code.read_headers(&file);
    code.set_planar(true);
    code.create();
    for (size_t y = 0; y < map.height; y++) {
        ui32 component;
        line_buf *line = code.pull(component);
        for (size_t x = 0; x < map.width; x++) again[y * map.width + x] = static_cast<uint16_t>(std::clamp(line->i32[x], 0, 65535));
    }
    code.close();
}

// ---- the run

struct Codec {
    const char *name;
    std::function<Bytes()> write;
    std::function<void(const Bytes &)> read;
    Bytes bytes = {};
    double write_time = 0;
    std::vector<double> read_times = {};
};

static double seconds()
{
    return std::chrono::duration<double>(std::chrono::steady_clock::now().time_since_epoch()).count();
}

// Thousands of bytes that reading takes beside file and heights: what a fresh process has at most in its memory, less what it had before.
static long memory_of(const Codec &codec)
{
    int ends[2];
    long kilobytes = -1;
    if (pipe(ends) != 0) failed("pipe");
    malloc_trim(0); // what earlier reads gave back is not the child's
    pid_t child = fork();
    if (child == 0) {
        rusage before, after;
        std::fill(again.begin(), again.end(), 1);
        getrusage(RUSAGE_SELF, &before);
        codec.read(codec.bytes);
        getrusage(RUSAGE_SELF, &after);
        kilobytes = after.ru_maxrss - before.ru_maxrss;
        _exit(write(ends[1], &kilobytes, sizeof kilobytes) == sizeof kilobytes ? 0 : 1);
    }
    if (read(ends[0], &kilobytes, sizeof kilobytes) != sizeof kilobytes) failed("a child");
    waitpid(child, nullptr, 0);
    close(ends[0]), close(ends[1]);
    return kilobytes;
}

static void read_once(Codec &codec)
{
    std::fill(again.begin(), again.end(), 0);
    double began = seconds();
    codec.read(codec.bytes);
    codec.read_times.push_back(seconds() - began);
    if (!std::equal(again.begin(), again.end(), map.heights)) failed(codec.name);
}

static void tell(Codec &codec)
{
    double n = static_cast<double>(count());
    std::sort(codec.read_times.begin(), codec.read_times.end());
    double bits = 8 * static_cast<double>(codec.bytes.size()) / n;
    printf("%-34s %9.2f %9.2f %9.2f %12ld\n", codec.name, 1e9 * codec.write_time / n, 1e9 * codec.read_times[0] / n, bits, memory_of(codec));
}

int main(int argc, char **argv)
{
    const char *path = argc > 1 ? argv[1] : "target/bench/mountains.pgm";
    int rounds = argc > 2 ? atoi(argv[2]) : 3;
    if (const char *wrong = pgm_read(path, &map)) {
        fprintf(stderr, "codecs: %s: %s\n", path, wrong);
        return 1;
    }
    again.resize(count());
    std::vector<Codec> codecs = {
        {"terrain, coefficients as they are", terrain_write, terrain_read},
        {"terrain and zstd -3", [] { return packed_write(3); }, packed_read},
        {"PNG, 16 bits", png_write_map, png_read_map},
        {"LERC, no error", lerc_write, lerc_read},
        {"OpenJPH, lossless", openjph_write, openjph_read},
        {"OpenJPEG, lossless", openjpeg_write, openjpeg_read},
    };
    printf("%s: %zu x %zu; libpng %s, openjpeg %s, openjph %d.%d.%d, zstd %s; %d rounds\n", path, map.width, map.height, PNG_LIBPNG_VER_STRING, opj_version(),
           OPENJPH_VERSION_MAJOR, OPENJPH_VERSION_MINOR, OPENJPH_VERSION_PATCH, ZSTD_versionString(), rounds);
    printf("%-34s %9s %9s %9s %12s\n", "every height the same again", "write ns", "read ns", "bits", "memory, KiB");
    for (Codec &codec : codecs) {
        double began = seconds();
        codec.bytes = codec.write();
        codec.write_time = seconds() - began;
    }
    for (int round = 0; round < rounds; round++)
        for (Codec &codec : codecs) read_once(codec);
    for (Codec &codec : codecs) tell(codec);
    return 0;
}
