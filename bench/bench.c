/* Times the proved lister beside the plain one in C, and the stream reader beside the proved lister, on
 * the same captures in one process.
 *
 *     bench [ROUNDS]
 *
 * For each family and kind of capture: the bytes per second of both listers, the proved one's time
 * divided by the plain one's, how the time per byte grows from captures of 4,096 bytes to captures of
 * 65,536, and the stream reader's time divided by the proved lister's, in calls of 1, 16 and 4,096
 * bytes; beside that the times of a stream reader in plain C, made for speed (plain_stream.c), and of as
 * many calls that do next to nothing (least.c), divided by the same. The measures take turns, so that
 * whatever else the machine does falls on all of them, and the best turn of each with each capture counts:
 * anything else only makes one slower. The clock is that of the process, which stands while another
 * process has the processor.
 *
 * All of them have to find the same starts; the first difference ends it with status 1. */
#include "amp.h"
#include "captures.h"
#include "least.h"
#include "plain.h"
#include "plain_stream.h"
#include "sys.h"

#define LENGTH 65536u
#define SHORT 4096u
#define CAPTURES 4u

static unsigned char captures[CAPTURES][LENGTH];
static uint32_t starts[LENGTH], others[LENGTH];
static size_t frames_in[CAPTURES];

static double now(void)
{
    struct timespec t;

    clock_gettime(SYS_PROCESS_TIME, &t);
    return (double)t.tv_sec + (double)t.tv_nsec * 1e-9;
}

/* ---- What is measured ----------------------------------------------------------------------- */

typedef uint32_t lister(uint32_t family, const uint8_t *s, size_t n, uint32_t *starts, size_t places,
                        size_t *count);

/* Each takes one capture in pieces of a size and gives the number of frames, or for the least calls of bytes
 * taken. For a lister a piece is a capture of its own; for the stream it is what one call offers. */
static size_t by_lister(lister *list, unsigned family, const unsigned char *s, size_t piece)
{
    size_t at, count = 0, frames = 0;

    for (at = 0; at < LENGTH; at += piece) {
        list(family, s + at, piece, starts, LENGTH, &count);
        frames += count;
    }
    return frames;
}

static size_t by_proved(unsigned family, const unsigned char *s, size_t piece)
{
    return by_lister(amp_list, family, s, piece);
}

static size_t by_plain(unsigned family, const unsigned char *s, size_t piece)
{
    return by_lister(plain_list, family, s, piece);
}

typedef uint32_t feeder(amp_reader *reader, const uint8_t *offered, size_t offered_len, int64_t *row,
                        size_t row_len);

/* The reader and its row stand on boundaries of their own, so that no run is slow because of where they are. */
static _Alignas(64) amp_reader reader;
static _Alignas(64) int64_t row[AMP_ROW];

/* Offers n bytes until the reader wants others; notes the starts behind those that are there. */
static size_t offer(feeder *feed, const unsigned char *s, size_t n, size_t frames)
{
    for (;;) {
        if (feed(&reader, s, n, row, AMP_ROW) != 0)
            return frames;
        s += row[AMP_TAKEN];
        n -= (size_t)row[AMP_TAKEN];
        if (row[AMP_KIND] == AMP_MORE || row[AMP_KIND] == AMP_DONE)
            return frames;
        others[frames++] = (uint32_t)row[AMP_START];
    }
}

static size_t by_feeder(feeder *feed, unsigned family, const unsigned char *s, size_t piece)
{
    size_t at, frames = 0;

    amp_fresh(&reader, family);
    for (at = 0; at < LENGTH; at += piece)
        frames = offer(feed, s + at, piece, frames);
    amp_close(&reader);
    return offer(feed, s, 0, frames);
}

static size_t by_stream(unsigned family, const unsigned char *s, size_t piece)
{
    return by_feeder(amp_feed, family, s, piece);
}

static size_t by_plain_stream(unsigned family, const unsigned char *s, size_t piece)
{
    return by_feeder(plain_feed, family, s, piece);
}

/* As many calls as the stream makes: one for each piece, and one for each frame. */
static size_t by_least(unsigned family, const unsigned char *s, size_t piece)
{
    size_t i, taken = 0, calls = LENGTH / piece + frames_in[(size_t)(s - captures[0]) / LENGTH];

    amp_fresh(&reader, family);
    for (i = 0; i < calls; i++) {
        least_feed(&reader, s + i % LENGTH, 1, row, AMP_ROW);
        taken += (size_t)row[AMP_TAKEN];
    }
    return taken;
}

enum {
    PROVED, PLAIN, PROVED_SHORT, PLAIN_SHORT, STREAM_1, STREAM_16, STREAM_4096,
    PLAIN_1, PLAIN_16, PLAIN_4096, LEAST_1, LEAST_16, LEAST_4096, MEASURES
};

static const struct measure {
    size_t (*run)(unsigned family, const unsigned char *s, size_t piece);
    size_t piece;
} measures[MEASURES] = {
    {by_proved, LENGTH}, {by_plain, LENGTH}, {by_proved, SHORT}, {by_plain, SHORT},
    {by_stream, 1}, {by_stream, 16}, {by_stream, SHORT},
    {by_plain_stream, 1}, {by_plain_stream, 16}, {by_plain_stream, SHORT},
    {by_least, 1}, {by_least, 16}, {by_least, SHORT}
};

/* ---- Timing --------------------------------------------------------------------------------- */

static double best[MEASURES][CAPTURES];
static volatile size_t found;

static void one_turn(unsigned family, unsigned which)
{
    unsigned i;

    for (i = 0; i < CAPTURES; i++) {
        double begin = now(), took;

        found = measures[which].run(family, captures[i], measures[which].piece);
        took = now() - begin;
        if (took < best[which][i])
            best[which][i] = took;
    }
}

/* The streams take many times longer than the listers, and their turns come more seldom. */
static void time_all(unsigned family, unsigned rounds)
{
    unsigned i, which;

    for (which = 0; which < MEASURES; which++)
        for (i = 0; i < CAPTURES; i++)
            best[which][i] = 1e9;
    for (i = 0; i < rounds; i++)
        for (which = 0; which < MEASURES; which++)
            if (which < STREAM_1 || i % 20 == 0)
                one_turn(family, which);
}

/* The best time for all captures. */
static double time_of(unsigned which)
{
    double sum = 0;
    unsigned i;

    for (i = 0; i < CAPTURES; i++)
        sum += best[which][i];
    return sum;
}

/* ---- Agreement ------------------------------------------------------------------------------ */

static int same_starts(size_t count, size_t other)
{
    return count == other && memcmp(starts, others, count * sizeof *starts) == 0;
}

/* Whether both listers and both streams find the same starts in a capture; how many there are is noted. */
static int agree(unsigned family, unsigned i)
{
    const unsigned char *s = captures[i];
    size_t count = 77, plain = 78;
    unsigned which;

    if (amp_list(family, s, LENGTH, starts, LENGTH, &count) != 0)
        return 0;
    frames_in[i] = count;
    if (plain_list(family, s, LENGTH, others, LENGTH, &plain) != 0 || !same_starts(count, plain))
        return 0;
    for (which = STREAM_1; which <= PLAIN_4096; which++) {
        memset(others, 0xFF, sizeof others);
        if (!same_starts(count, measures[which].run(family, s, measures[which].piece)))
            return 0;
    }
    return 1;
}

/* ---- The table ------------------------------------------------------------------------------ */

#define AIM 4.0 /* the stream is to take at most so many times the lister's time */

static double worst, sum_proved, sum_plain;
/* Of the stream's measures: at most that; more, and so is the plain stream's; more, and that is not. */
static unsigned within, beyond, over;
/* And how many are at most that many times the time of the plain lister, which is what the proved one may take. */
static unsigned of_plain;

static void print_stream(double proved, double plain_lister)
{
    unsigned which;

    for (which = STREAM_1; which <= STREAM_4096; which++) {
        double stream = time_of(which) / proved, plain = time_of(which - STREAM_1 + PLAIN_1) / proved;
        double least = time_of(which - STREAM_1 + LEAST_1) / proved;

        printf(" %5.1f (%4.1f, %4.1f)", stream, plain, least);
        if (stream <= AIM)
            within++;
        else if (plain > AIM)
            beyond++;
        else
            over++;
        if (time_of(which) <= AIM * plain_lister)
            of_plain++;
    }
    printf("\n");
}

static void print_line(unsigned family, unsigned kind)
{
    double bytes = (double)CAPTURES * LENGTH / 1e6, proved = time_of(PROVED), plain = time_of(PLAIN);

    if (proved / plain > worst)
        worst = proved / plain;
    sum_proved += proved;
    sum_plain += plain;
    printf("%6u %-13s %8.0f %8.0f %6.2f   %6.2f %6.2f  ",
           family, kind_name(kind), bytes / proved, bytes / plain, proved / plain,
           proved / time_of(PROVED_SHORT), plain / time_of(PLAIN_SHORT));
    print_stream(proved, plain);
}

static int one_kind(unsigned family, unsigned kind, unsigned rounds)
{
    unsigned i;

    for (i = 0; i < CAPTURES; i++) {
        make_capture(family, kind, 1000 + i, captures[i], LENGTH);
        if (!agree(family, i)) {
            printf("family %u %s: not the same starts in capture %u\n", family, kind_name(kind), i);
            return 0;
        }
    }
    time_all(family, rounds);
    print_line(family, kind);
    return 1;
}

int main(int argc, char **argv)
{
    unsigned rounds = argc > 1 ? (unsigned)atoi(argv[1]) : 400;
    unsigned family, kind;

    printf("captures of %u bytes, best of %u rounds\n", LENGTH, rounds);
    printf("                     million bytes/s  time   growth 4,096 to  stream's time (the plain stream's, the least calls') / proved\n");
    printf("family kind            proved    plain  ratio   65,536: both      by 1                16                4,096\n");
    for (family = 1; family <= 4; family++)
        for (kind = 0; kind < KINDS; kind++)
            if (!one_kind(family, kind, rounds))
                return 1;
    printf("all find the same starts; time proved / plain: %.2f over all, %.2f at worst\n",
           sum_proved / sum_plain, worst);
    printf("stream within %.0f times the lister: %u; more, and the plain stream too: %u; more, and that not: %u\n",
           AIM, within, beyond, over);
    printf("stream within %.0f times the plain lister: %u of %u\n", AIM, of_plain, within + beyond + over);
    return 0;
}
