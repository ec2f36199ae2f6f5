/* The built program `list` under a fuzzer. The first byte of the input says where the rest is cut in two; the rest goes to the program in
 * these two pieces and to a listing of its own (model.h), and the two outputs are compared. What guides the fuzzer is this second listing:
 * the program runs as it was built, in a process of its own. tests/fuzz/run builds and runs it. */
#define _GNU_SOURCE
#include "model.h"
#include <errno.h>
#include <fcntl.h>
#include <signal.h>
#include <spawn.h>
#include <stdio.h>
#include <sys/wait.h>
#include <unistd.h>

enum { CELLS = 1 << 14, WIDEST = 1025, HIGHEST = 65535, ROOM = 1 << 20 };

static char wanted[ROOM], found[ROOM];
static size_t wanted_len;

static void put(const char *text)
{
    size_t n = strlen(text);
    if (wanted_len + n > ROOM) abort();
    memcpy(wanted + wanted_len, text, n);
    wanted_len += n;
}

static void put_number(int64_t n)
{
    char text[24];
    snprintf(text, sizeof text, "%lld", (long long)n);
    put(text);
}

/* ---- the header: gaps (a whitespace byte, or a comment with the CR or LF that ends it) and a number after them */
static const uint8_t *at, *end;

static int gap(void)
{
    if (at < end && *at == '#')
        while (at < end && *at != '\r' && *at != '\n') at++;
    return at < end && (*at == ' ' || *at == '\t' || *at == '\r' || *at == '\n') ? at++, 1 : 0;
}

static int number_after_gaps(size_t *n)
{
    if (!gap()) return 0;
    while (gap()) continue;
    if (at == end || *at < '0' || *at > '9') return 0;
    for (*n = 0; at < end && *at >= '0' && *at <= '9'; at++)
        if ((*n = 10 * *n + (size_t)(*at - '0')) > 1000000) *n = 1000000;
    return 1;
}

static int head(size_t *levels, size_t *w, size_t *h, size_t *most)
{
    if (at == end || *at < '1' || *at > '5') return 0;
    *levels = (size_t)(*at++ - '0');
    if (end - at < 3 || memcmp(at, "\nP5", 3)) return 0;
    at += 3;
    return number_after_gaps(w) && number_after_gaps(h) && number_after_gaps(most) && gap() && *w >= 1 && *w <= WIDEST && *h >= 1 &&
           *h <= HIGHEST && *most >= 1 && *most <= 65535;
}

/* ---- the rows that wait, as lines */
static void put_rows(Order *o, const int32_t *plane, const Map *m)
{
    static const char *const bands[] = { "LL", "HL", "LH", "HH" };
    for (; order_waits(o); o->first++) {
        Row r = o->waiting[o->first];
        put_number((int64_t)r.level), put(" "), put(bands[r.band]), put(" "), put_number((int64_t)r.row);
        for (size_t i = 0; i < r.length; i++) put(" "), put_number(plane[place(m, r.level, r.band, r.row) + i]);
        put("\n");
    }
}

static void put_map(size_t levels, size_t w, size_t h, const uint16_t *heights, size_t taken, int whole)
{
    static int32_t plane[2 * CELLS + 64 * WIDEST];
    static Order o;
    Map m = { { 0, w }, { 0, whole ? h : taken / w + 64 }, levels, 0 };
    size_t left = taken;
    order_start(&o, &m);
    model_forward(heights, &m, plane);
    while (left) {
        size_t n;
        if (order_offer(&o, left, &n)) abort();
        left -= n;
        put_rows(&o, plane, &m);
    }
    if (whole) {
        if (order_finish(&o)) abort();
        put_rows(&o, plane, &m);
    }
}

/* 0: the map is larger than this harness likes */
static int list(const uint8_t *data, size_t size)
{
    static uint16_t heights[2 * CELLS + 64 * WIDEST];
    size_t levels, w, h, most, taken = 0, refused = 0;
    wanted_len = 0;
    at = data, end = data + size;
    if (!head(&levels, &w, &h, &most)) return put("refused 15\n"), 1;
    size_t bytes = (size_t)(end - at), each = most < 256 ? 1 : 2;
    if (bytes > 2 * CELLS) return 0;
    memset(heights, 0, sizeof heights);
    for (; taken < bytes / each && taken < w * h; taken++) {
        const uint8_t *s = at + each * taken;
        size_t v = each == 1 ? s[0] : (size_t)s[0] << 8 | s[1];
        if (v > most) {
            refused = 16;
            break;
        }
        heights[taken] = (uint16_t)v;
    }
    if (!refused && bytes != each * w * h) refused = 15;
    put_number((int64_t)w), put(" "), put_number((int64_t)h), put(" "), put_number((int64_t)levels), put("\n");
    put_map(levels, w, h, heights, taken, !refused);
    if (refused) put("refused "), put_number((int64_t)refused), put("\n");
    return 1;
}

/* ---- the program */
static void send(int fd, const uint8_t *data, size_t size)
{
    if (write(fd, data, size) != (ssize_t)size && errno != EPIPE) abort();
}

static size_t run(const uint8_t *data, size_t size, size_t cut)
{
    extern char **environ;
    static char *const argv[] = { (char *)"list", 0 };
    int in[2], out[2], status;
    pid_t child;
    posix_spawn_file_actions_t actions;
    if (pipe2(in, O_CLOEXEC) || pipe2(out, O_CLOEXEC)) abort();
    posix_spawn_file_actions_init(&actions);
    posix_spawn_file_actions_adddup2(&actions, in[0], 0);
    posix_spawn_file_actions_adddup2(&actions, out[1], 1);
    if (posix_spawn(&child, LIST, &actions, 0, argv, environ)) abort();
    posix_spawn_file_actions_destroy(&actions);
    close(in[0]), close(out[1]);
    /* a pipe holds 65,536 bytes, more than is written, so nothing blocks; after a refusal the program reads no more */
    signal(SIGPIPE, SIG_IGN);
    send(in[1], data, cut), send(in[1], data + cut, size - cut);
    close(in[1]);
    size_t n = 0;
    ssize_t got;
    /* the fuzzer's own alarm interrupts a read now and then */
    while (n < ROOM && ((got = read(out[0], found + n, ROOM - n)) > 0 || (got < 0 && errno == EINTR))) n += got > 0 ? (size_t)got : 0;
    close(out[0]);
    while (waitpid(child, &status, 0) < 0)
        if (errno != EINTR) abort();
    if (status) {
        int signalled = WIFSIGNALED(status);
        fprintf(stderr, "the program ended with %s %d\n", signalled ? "signal" : "status", signalled ? WTERMSIG(status) : WEXITSTATUS(status));
        abort();
    }
    return n;
}

int LLVMFuzzerTestOneInput(const uint8_t *data, size_t size)
{
    if (!size || size > 60000) return 0;
    size_t cut = data[0] % size;
    data++, size--;
    if (cut > size) cut = size;
    if (!list(data, size)) return 0;
    size_t n = run(data, size, cut);
    if (n != wanted_len || memcmp(found, wanted, n)) {
        fprintf(stderr, "the listings differ\nwanted: %.*s\nfound: %.*s\n", (int)wanted_len, wanted, (int)n, found);
        abort();
    }
    return 0;
}
