/* The bench side of the panel: speaks as an amplifier does, on standard output.
 *
 *     amplifier FAMILY [noise | over | answers]
 *
 * FAMILY 1 is a 2K-FA that is switched to operate, tuned, driven and overheated, and whose reports have a
 * comma before the line end; then a 1.3K-FA speaks, whose report has none. 2 is an Alpha. 4 is a KPA1500
 * that tells what it is, is tuned and driven; then each value is told at an end of its range.
 * With noise, bytes that are no frame stand between the frames: lone marks, a frame that breaks off, a
 * length that a click has spoiled. With over, FAMILY is 1 and the first report has more watts than its
 * field carries: the refusal is said on standard error, and the status is 1. With answers, FAMILY is 4:
 * questions are read on standard input and answered as they come, until its end. Other words are
 * status 2. */
#include "amp.h"
#include "sys.h"

/* A step of the scene: a frame, given by its kind, its code and its values. */
struct step {
    uint32_t kind;
    uint32_t code;
    int64_t values[AMP_STATUS_VALUES];
};

static const struct step spe[] = {
    {AMP_STATUS, 0, {20, 'S', 'R', 'x', 2, 3, 2, 't', 0, 'M',
                     0, 0, 0, 0, 0, 31, 29, 30, 'N', 'N', 1}},
    {AMP_ACK, 0x0D, {0}},
    {AMP_STATUS, 0, {20, 'O', 'R', 'x', 2, 3, 2, 't', 0, 'H',
                     0, 0, 0, 480, 0, 31, 29, 30, 'N', 'N', 1}},
    {AMP_ACK, 0x09, {0}},
    {AMP_STATUS, 0, {20, 'O', 'T', 'x', 2, 3, 2, 'a', 0, 'H',
                     1499, 107, 213, 478, 392, 54, 47, 49, 'N', 'N', 1}},
    {AMP_STATUS, 0, {20, 'O', 'T', 'x', 2, 3, 2, 'a', 0, 'H',
                     1873, 150, 1005, 471, 455, 88, 81, 79, 'O', 'N', 1}},
    {AMP_STATUS, 0, {20, 'S', 'R', 'x', 2, 3, 2, 'a', 0, 'H',
                     0, 0, 0, 480, 0, 102, 97, 99, 'M', 'H', 1}},
    {AMP_ACK, 0x0A, {0}},
    {AMP_STATUS, 0, {13, 'O', 'T', 'B', 1, 11, 4, 'b', 4, 'L',
                     9999, 9999, 9999, 999, 999, 999, 0, 0, 'K', 'S', 0}},
};

static const struct step alpha[] = {
    {AMP_SENTENCE, 2, {15017, 10, 2590, 3169, 768, 230, 96, 57, 1, 6, 1, 0, 15721}},
    {AMP_SENTENCE, 3, {499, 121, 240, 121, 389, 2370, 0, 5, 280}},
    {AMP_SENTENCE, 5, {1, 1, 1, 8, 1, 11, 3, 4, 0, 42, 1}},
    {AMP_SENTENCE, 2, {0, 0, 0, 0, 0, 0, 255, 0, 9, 0, 99, 1, 99999}},
    {AMP_SENTENCE, 3, {0, 0, 0, 0, 0, 0, 0, 1, -9999}},
};

static const struct step kpa[] = {
    {AMP_RESPONSE, AMP_RV, {1, 64}},
    {AMP_RESPONSE, AMP_SN, {22}},
    {AMP_RESPONSE, AMP_CC, {17, 7, 31, 13, 15, 0}},
    {AMP_RESPONSE, AMP_FR, {14050}},
    {AMP_RESPONSE, AMP_HS, {1}},
    {AMP_RESPONSE, AMP_FT, {0}},
    {AMP_RESPONSE, AMP_PWI, {41}},
    {AMP_RESPONSE, AMP_PWF, {1487}},
    {AMP_RESPONSE, AMP_PWR, {12}},
    {AMP_RESPONSE, AMP_PWD, {1106}},
    {AMP_RESPONSE, AMP_FQ, {14048}},
    {AMP_RESPONSE, AMP_FS, {3}},
    {AMP_QUESTION, AMP_PWF, {0}},
    {AMP_RESPONSE, AMP_PWF, {0}},
    {AMP_RESPONSE, AMP_PWI, {9999}},
    {AMP_RESPONSE, AMP_PWR, {9999}},
    {AMP_RESPONSE, AMP_PWD, {0}},
    {AMP_RESPONSE, AMP_FR, {0}},
    {AMP_RESPONSE, AMP_FQ, {99999}},
    {AMP_RESPONSE, AMP_FS, {5}},
    {AMP_RESPONSE, AMP_HS, {0}},
    {AMP_RESPONSE, AMP_SN, {99999}},
    {AMP_RESPONSE, AMP_RV, {99, 0}},
    {AMP_RESPONSE, AMP_CC, {96, 2, 29, 23, 59, 59}},
    {AMP_RESPONSE, AMP_CC, {0, 1, 1, 0, 0, 0}},
};

/* What a line may carry between frames, and no frame in it. The last one for the SPE begins a report
 * that never ends: the frames behind it are held back until 75 bytes have decided it, or 76 where a comma
 * stands behind what would be its check bytes. Those for the KPA1500 are an answer to the null command, a
 * digit too few, one that breaks off, a date that is none, and a byte that no message has. */
struct noise {
    const char *bytes;
    size_t length;
};

#define NOISE(text) {text, sizeof(text) - 1}
static const struct noise spe_noise[] = {
    NOISE("\xAA"), NOISE("\x0D\x0A"), NOISE("\xAA\xAA\xAA\x01\x0D"), NOISE("\xAA\xAA\xAA\x42"),
    NOISE("\xAA\xAA\xAA\x43")
};
static const struct noise alpha_noise[] = {
    NOISE("$"), NOISE("Invalid"), NOISE("$APA05,11*A844"), NOISE("$APA0"), NOISE("$APA99,")
};
static const struct noise kpa_noise[] = {
    NOISE(";"), NOISE("^PWF149;"), NOISE("^PWF1"), NOISE("^CC17-02-29T13:15:00;"), NOISE("^FR14\x80" "50;")
};

/* What the KPA1500 tells when it is asked, one of each. A host may set those at the front. */
#define SETTABLE 3
static struct step told[] = {
    {AMP_RESPONSE, AMP_FR, {14050}},
    {AMP_RESPONSE, AMP_HS, {1}},
    {AMP_RESPONSE, AMP_CC, {17, 7, 31, 13, 15, 0}},
    {AMP_RESPONSE, AMP_SN, {22}},
    {AMP_RESPONSE, AMP_RV, {1, 64}},
    {AMP_RESPONSE, AMP_PWF, {1487}},
    {AMP_RESPONSE, AMP_PWI, {41}},
    {AMP_RESPONSE, AMP_PWR, {12}},
    {AMP_RESPONSE, AMP_PWD, {1106}},
    {AMP_RESPONSE, AMP_FQ, {14048}},
    {AMP_RESPONSE, AMP_FS, {3}},
};
#define TOLD (sizeof told / sizeof *told)

/* ---- Scenes --------------------------------------------------------------------------------- */

static int put(const void *bytes, size_t n)
{
    const uint8_t *at = bytes;

    while (n > 0) {
        long wrote = write(1, at, n);

        if (wrote <= 0)
            return 0;
        at += wrote;
        n -= (size_t)wrote;
    }
    return 1;
}

static int say_refusal(uint32_t number)
{
    char line[32];
    int n = snprintf(line, sizeof line, "refused %u\n", (unsigned)number);

    return write(2, line, (size_t)n) == n;
}

/* One frame, written and sent; 0 where it is refused. */
static int send(const struct step *step)
{
    uint8_t out[134];
    size_t length;
    uint32_t number = amp_write(step->kind, step->code, step->values, AMP_STATUS_VALUES,
                                out, sizeof out, &length);

    if (number != 0) {
        say_refusal(number);
        return 0;
    }
    return put(out, length);
}

static int play(const struct step *steps, size_t many, const struct noise *noise, size_t kinds)
{
    size_t i;

    for (i = 0; i < many; i++) {
        if (kinds > 0 && !put(noise[i % kinds].bytes, noise[i % kinds].length))
            return 0;
        if (!send(&steps[i]))
            return 0;
    }
    return 1;
}

/* The plus signs with which a host enables the Alpha stand first, as on a line that echoes them. */
static int play_alpha(size_t kinds)
{
    uint8_t out[3];
    size_t length;
    uint32_t number = amp_write_enable(out, sizeof out, &length);

    if (number != 0) {
        say_refusal(number);
        return 0;
    }
    return put(out, length) && play(alpha, sizeof alpha / sizeof *alpha, alpha_noise, kinds);
}

static int play_over(void)
{
    struct step step = spe[0];

    step.values[AMP_STATUS_WATTS] = 10000;
    return send(&step);
}

/* ---- Answers -------------------------------------------------------------------------------- */

/* Which of the first many that are told has this code; many where none has. */
static size_t place_of(int64_t code, size_t many)
{
    size_t i = 0;

    while (i < many && told[i].code != code)
        i++;
    return i;
}

/* What a host has sent. A question is answered. A response from a host sets what may be set, and has no
 * answer, as the amplifier's reference says; FT alone is answered, when the tune has ended, which on the
 * bench is at once. Other letters have no answer: there is no writer for them. */
static int answer(const int64_t *row)
{
    static const struct step tuned = {AMP_RESPONSE, AMP_FT, {0}};
    size_t i;

    if (row[AMP_KIND] == AMP_QUESTION) {
        i = place_of(row[AMP_CODE], TOLD);
        return i == TOLD || send(&told[i]);
    }
    if (row[AMP_KIND] != AMP_RESPONSE)
        return 1;
    if (row[AMP_CODE] == AMP_FT)
        return send(&tuned);
    i = place_of(row[AMP_CODE], SETTABLE);
    if (i < SETTABLE)
        memcpy(told[i].values, row + AMP_VALUES, AMP_CC_VALUES * sizeof *row);
    return 1;
}

/* The null command is a semicolon with nothing before it, and the answer to it is another. It is in no
 * frame, so it is looked for in the bytes that a call took; those of a frame end in a semicolon that has
 * something before it. */
static int answer_nulls(const uint8_t *bytes, size_t n)
{
    static uint8_t last = ';';
    size_t i;

    for (i = 0; i < n; i++) {
        if (bytes[i] == ';' && last == ';' && !put(";", 1))
            return 0;
        last = bytes[i];
    }
    return 1;
}

/* Offers bytes until the reader wants others: a call stops at each frame, and what it did not take is
 * offered again. A message comes with its semicolon, so what stood before it in the bytes is answered
 * before it. */
static int offer(amp_reader *reader, const uint8_t *bytes, size_t n)
{
    int64_t row[AMP_ROW] = {0};

    for (;;) {
        uint32_t number = amp_feed(reader, bytes, n, row, AMP_ROW);

        if (number != 0) {
            say_refusal(number);
            return 0;
        }
        if (!answer_nulls(bytes, (size_t)row[AMP_TAKEN]))
            return 0;
        if (row[AMP_KIND] == AMP_MORE)
            return 1;
        if (!answer(row))
            return 0;
        bytes += row[AMP_TAKEN];
        n -= (size_t)row[AMP_TAKEN];
    }
}

/* As long as questions come. What is held at the end is no whole message, so nobody waits for an answer. */
static int play_answers(void)
{
    amp_reader reader;
    uint8_t bytes[64];
    long n;

    if (amp_fresh(&reader, 4) != 0)
        return 0;
    while ((n = read(0, bytes, sizeof bytes)) > 0)
        if (!offer(&reader, bytes, (size_t)n))
            return 0;
    return n == 0;
}

/* ---- Words ---------------------------------------------------------------------------------- */

/* Whether there is a word at this place, and it is that one. */
static int is_word(int argc, char **argv, int at, const char *word)
{
    return at < argc && strcmp(argv[at], word) == 0;
}

static int usage(void)
{
    static const char line[] =
        "usage: amplifier 1 | 2 | 4 [noise], or amplifier 1 over, or amplifier 4 answers\n";

    return write(2, line, sizeof line - 1) < 0 ? 1 : 2;
}

static int play_family(char family, size_t kinds)
{
    if (family == '2')
        return play_alpha(kinds);
    if (family == '4')
        return play(kpa, sizeof kpa / sizeof *kpa, kpa_noise, kinds);
    return play(spe, sizeof spe / sizeof *spe, spe_noise, kinds);
}

int main(int argc, char **argv)
{
    int is_spe = is_word(argc, argv, 1, "1"), is_kpa = is_word(argc, argv, 1, "4");
    int noisy = is_word(argc, argv, 2, "noise");
    int over = is_spe && is_word(argc, argv, 2, "over");
    int answers = is_kpa && is_word(argc, argv, 2, "answers");

    if (argc > 3 || !(is_spe || is_kpa || is_word(argc, argv, 1, "2"))
        || (argc == 3 && !noisy && !over && !answers))
        return usage();
    if (over)
        return play_over() ? 0 : 1;
    if (answers)
        return play_answers() ? 0 : 1;
    return play_family(argv[1][0], noisy ? 5 : 0) ? 0 : 1;
}
