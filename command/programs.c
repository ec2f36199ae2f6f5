/* terrain list, terrain rewrite: the proved programs on a map. What they print is document 01's; a refusal's reason is found by looking on. */
#include <stdio.h>
#include <stdlib.h>
#include <terrain.h>

#include "child.h"
#include "commands.h"
#include "end.h"
#include "map.h"
#include "output.h"

/* 15's limits, to which both programs are held. */
enum { MOST_COLUMNS = 1025, MOST_ROWS = 65535 };

enum { TAIL = 16 }; /* room for the line of a refusal */

/* A run: the rules of the input beside it, and the first and the last bytes of what it wrote. */
typedef struct {
    PgmScan scan;
    const char *other; /* what the input is that is plainly no PGM, or NULL */
    Output *out;
    uint8_t head[64], tail[TAIL + 1];
    uint64_t written;
} Run;

static void look_at_input(void *to, const uint8_t *bytes, size_t count)
{
    Run *run = (Run *)to;
    size_t taken = 0;
    while (taken < count && !run->scan.wrong[0]) taken += pgm_scan(&run->scan, bytes + taken, count - taken);
}

static void look_at_output(void *to, const uint8_t *bytes, size_t count)
{
    Run *run = (Run *)to;
    size_t last = count < TAIL ? count : TAIL;
    for (size_t i = 0; i < count && run->written + i < sizeof run->head - 1; i++) run->head[run->written + i] = bytes[i];
    memmove(run->tail, run->tail + last, TAIL - last);
    memcpy(run->tail + TAIL - last, bytes + count - last, last);
    run->written += count;
    output_write(run->out, bytes, count);
    output_flush(run->out);
}

/* The number of the refusal that ends what was written, or 0. */
static unsigned refusal(const Run *run)
{
    static const char words[] = "refused ";
    for (size_t i = 0; i + sizeof words - 1 < TAIL; i++)
        if (memcmp(run->tail + i, words, sizeof words - 1) == 0) return (unsigned)strtoul((const char *)run->tail + i + sizeof words - 1, NULL, 10);
    return 0;
}

/* Why, in a sentence, with the question's number. */
__attribute__((noreturn)) static void refuse(Run *run, const char *name, unsigned number)
{
    pgm_scan_end(&run->scan);
    fail(STATUS_REFUSED, "%s: %s (question %u)", name, run->other ? run->other : run->scan.wrong[0] ? run->scan.wrong : terrain_sentence(number), number);
}

static Run run_program(const char *program, const char *first, Input *in, Output *out, const char *reader)
{
    PgmLimits limits = {MOST_COLUMNS, MOST_ROWS, reader};
    Run run = {pgm_scan_begin(limits), no_pgm(in), out, {0}, {0}, 0};
    Watch watch = {&run, look_at_input, look_at_output};
    child_run(program, first, in, &watch);
    return run;
}

int list(const Words *words)
{
    char first[] = {(char)('0' + levels_of(words->word[0])), '\n', 0};
    Input in = input_open(words->word[1]);
    Output out = output_open("-");
    Run run = run_program("list", first, &in, &out, "the listing reads");
    unsigned number = refusal(&run);
    if (number) refuse(&run, in.name, number);
    output_keep(&out);
    return STATUS_DONE;
}

/* Header and rows, and nothing after them: a refusal's line follows what it refuses, and its length is odd, so no refusal is as long as a picture. */
static int whole(const Run *run)
{
    unsigned long long width = 0, height = 0;
    int head = 0;
    if (sscanf((const char *)run->head, "P5\n%llu %llu\n65535%n", &width, &height, &head) != 2 || head == 0) return 0;
    return run->written == (uint64_t)head + 1 + 2 * width * height;
}

int rewrite(const Words *words)
{
    Input in = input_open(words->word[0]);
    Output out = output_open(words->word[1]);
    Run run = run_program("rewrite", "", &in, &out, "rewriting takes");
    if (!whole(&run)) {
        if (out.temporary) output_drop(&out);
        refuse(&run, in.name, refusal(&run));
    }
    output_keep(&out);
    if (run.scan.number[PGM_MOST] < 256)
        fprintf(stderr, "terrain: %s: its heights are of 8 bits, and they are not scaled: the largest is still at most %u\n", in.name,
                (unsigned)run.scan.number[PGM_MOST]);
    return STATUS_DONE;
}
