/* The panel's loop, as an example: bytes from a serial line go to a stream reader as they arrive, and
 * each status report, and each response of a KPA1500, becomes a line of words when it is ready. Other frames
 * are passed over: what a host asks is not what an amplifier says.
 *
 *     panel FAMILY [PIECE] < BYTES
 *
 * PIECE is the most bytes that are read at once, from 1 to 64; 64 if it is not given. What is said does
 * not depend on it. At the end of the input the reader is closed and drained, and a last line counts
 * what was heard. Where the line cannot be read, or what was heard cannot be said, it ends with status 1:
 * a silent panel must not look like a quiet amplifier. */
#include "amp.h"
#include "sys.h"

#define PIECE 64

/* What the panel keeps from call to call: one reader, and counts for the last line. */
static amp_reader reader;
static unsigned long reports, others;
/* Set where the line could not be read, or a line of words could not be written. */
static int broken;

struct word {
    int64_t letter;
    const char *text;
};

static const struct word warnings[] = {
    {'M', "alarm amplifier"}, {'A', "no selected antenna"}, {'S', "SWR antenna"},
    {'B', "no valid band"}, {'P', "power limit exceeded"}, {'O', "overheating"},
    {'Y', "ATU not available"}, {'W', "tuning with no power"}, {'K', "ATU bypassed"},
    {'R', "power switch held by remote"}, {'T', "combiner overheating"}, {'C', "combiner fault"},
    {'N', "none"}, {0, "?"}
};

static const struct word alarms[] = {
    {'S', "SWR exceeding limits"}, {'A', "amplifier protection"}, {'D', "input overdriving"},
    {'H', "excess overheating"}, {'C', "combiner fault"}, {'N', "none"}, {0, "?"}
};

static const char *text_of(const struct word *words, int64_t letter)
{
    while (words->letter != 0 && words->letter != letter)
        words++;
    return words->text;
}

/* A line is written at once and whole: the listener must not wait for a buffer to fill. */
static void say(const char *line, int length)
{
    while (length > 0) {
        long n = write(1, line, (size_t)length);

        if (n <= 0) {
            broken = 1;
            return;
        }
        line += n;
        length -= (int)n;
    }
}

static void say_refusal(uint32_t number)
{
    char line[32];

    say(line, snprintf(line, sizeof line, "refused %u\n", (unsigned)number));
}

/* The SWR that matters to the operator is the antenna's. */
static void say_report(const int64_t *row)
{
    const int64_t *v = row + AMP_VALUES;
    char line[160];

    say(line, snprintf(line, sizeof line,
        "%lu: %s, %s, %lu W, SWR %lu.%02lu, warning %s, alarm %s\n",
        (unsigned long)row[AMP_START],
        v[AMP_STATUS_STATE] == 'O' ? "operate" : "standby",
        v[AMP_STATUS_DIRECTION] == 'T' ? "transmit" : "receive",
        (unsigned long)v[AMP_STATUS_WATTS],
        (unsigned long)v[AMP_STATUS_SWR_ANT] / 100, (unsigned long)v[AMP_STATUS_SWR_ANT] % 100,
        text_of(warnings, v[AMP_STATUS_WARNING]), text_of(alarms, v[AMP_STATUS_ALARM])));
}

/* The responses that tell one number: its name, how many digits are said at least, and its unit. Of a serial
 * number all five are, as it stands on the amplifier. */
struct telling {
    int64_t code;
    const char *name;
    int digits;
    const char *unit;
};

static const struct telling tellings[] = {
    {AMP_PWF, "forward power", 1, " W"}, {AMP_PWI, "input power", 1, " W"},
    {AMP_PWR, "reflected power", 1, " W"}, {AMP_PWD, "dissipated power", 1, " W"},
    {AMP_FR, "frequency", 1, " kHz"}, {AMP_FQ, "transmit counter", 1, " kHz"},
    {AMP_FS, "fan speed", 1, ""}, {AMP_SN, "serial number", 5, ""}, {0, "?", 1, ""}
};

static int told_number(char *text, size_t room, int64_t code, int64_t value)
{
    const struct telling *t = tellings;

    while (t->code != 0 && t->code != code)
        t++;
    return snprintf(text, room, "%s %0*lu%s", t->name, t->digits, (unsigned long)value, t->unit);
}

/* The clock's years are those of 2000 to 2099. */
static int told_clock(char *text, size_t room, const int64_t *v)
{
    return snprintf(text, room, "clock 20%02u-%02u-%02u %02u:%02u:%02u",
        (unsigned)v[AMP_CC_YEAR], (unsigned)v[AMP_CC_MONTH], (unsigned)v[AMP_CC_DAY],
        (unsigned)v[AMP_CC_HOUR], (unsigned)v[AMP_CC_MINUTE], (unsigned)v[AMP_CC_SECOND]);
}

/* What a response tells, in words. From an amplifier FT is the end of a tune; a host's would start one. */
static int told(char *text, size_t room, int64_t code, const int64_t *v)
{
    switch (code) {
    case AMP_FT: return snprintf(text, room, "tune ended");
    case AMP_HS: return snprintf(text, room, "high-SWR retune %s", v[0] == 1 ? "on" : "off");
    case AMP_RV: return snprintf(text, room, "firmware version %02u.%02u", (unsigned)v[0], (unsigned)v[1]);
    case AMP_CC: return told_clock(text, room, v);
    default: return told_number(text, room, code, v[0]);
    }
}

static void say_response(const int64_t *row)
{
    char line[80];
    int n = snprintf(line, sizeof line, "%lu: ", (unsigned long)row[AMP_START]);

    n += told(line + n, sizeof line - (size_t)n, row[AMP_CODE], row + AMP_VALUES);
    line[n] = '\n';
    say(line, n + 1);
}

static void heard(const int64_t *row)
{
    if (row[AMP_KIND] == AMP_STATUS) {
        reports++;
        say_report(row);
    } else if (row[AMP_KIND] == AMP_RESPONSE) {
        reports++;
        say_response(row);
    } else {
        others++;
    }
}

/* Offers bytes until the reader wants others, or is done: a call stops at each frame, and what it did
 * not take is offered again. Gives the refusal, after which the reader is as it was. */
static uint32_t offer(const uint8_t *bytes, size_t n)
{
    int64_t row[AMP_ROW];

    for (;;) {
        uint32_t number = amp_feed(&reader, bytes, n, row, AMP_ROW);

        if (number != 0)
            return number;
        bytes += row[AMP_TAKEN];
        n -= (size_t)row[AMP_TAKEN];
        if (row[AMP_KIND] == AMP_MORE || row[AMP_KIND] == AMP_DONE)
            return 0;
        heard(row);
    }
}

/* The whole evening: as long as bytes come, and then what is still held. */
static uint32_t listen(uint32_t family, size_t piece)
{
    uint8_t bytes[PIECE];
    uint32_t number = amp_fresh(&reader, family);
    long n = 0;

    while (number == 0 && !broken && (n = read(0, bytes, piece)) > 0)
        number = offer(bytes, (size_t)n);
    if (n < 0)
        broken = 1;
    if (number == 0)
        number = amp_close(&reader);
    if (number == 0)
        number = offer(bytes, 0);
    return number;
}

/* The number that a word is; 0, which is no family and no size, where it is none or has more than 32 bits. */
static uint32_t number_in(const char *word)
{
    unsigned long long number = strtoull(word, NULL, 10);

    if (*word == 0 || strspn(word, "0123456789") != strlen(word) || number > UINT32_MAX)
        return 0;
    return (uint32_t)number;
}

int main(int argc, char **argv)
{
    static const char complaint[] = "the panel cannot read its line, or cannot write\n";
    uint32_t family = argc > 1 ? number_in(argv[1]) : 1;
    size_t piece = argc > 2 ? number_in(argv[2]) : PIECE;
    char line[80];
    uint32_t number = listen(family, piece >= 1 && piece <= PIECE ? piece : PIECE);

    if (number != 0)
        say_refusal(number);
    else
        say(line, snprintf(line, sizeof line, "%lu reports, %lu other frames\n", reports, others));
    if (broken && write(2, complaint, sizeof complaint - 1) < 0)
        return 1;
    return number != 0 || broken;
}
