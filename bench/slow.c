/* A lister that is slow on purpose, to hold the fast one against: it takes
 * bytes as a whole, asks in the plainest words whether they are one good
 * frame, and tries every length at every place. */
#include "slow.h"
#include "sys.h"

static int one_of(int c, const char *allowed)
{
    return c != 0 && strchr(allowed, c) != NULL;
}

/* Whether a text is digits only, from 1 to longest of them. */
static int digits(const char *t, size_t longest)
{
    size_t n = strlen(t);

    return n >= 1 && n <= longest && strspn(t, "0123456789") == n;
}

/* Whether a text is spaces, perhaps none, and then digits, at least one. */
static int spaced_digits(const char *t)
{
    return digits(t + strspn(t, " "), 99);
}

/* The same with a point and some digits behind it. */
static int spaced_pointed(const char *t, size_t behind)
{
    char whole[8];
    const char *point = strchr(t, '.');

    if (point == NULL)
        return 0;
    memcpy(whole, t, (size_t)(point - t));
    whole[point - t] = '\0';
    return spaced_digits(whole) && digits(point + 1, behind)
        && strlen(point + 1) == behind;
}

/* Fields 1 to 9 of a report. */
static int slow_settings(char field[19][8])
{
    int big = strcmp(field[0], "20K") == 0, small = strcmp(field[0], "13K") == 0;
    const char *antenna = big ? "0123456" : "01234";

    return (big || small)
        && one_of(field[1][0], "SO") && one_of(field[2][0], "RT")
        && one_of(field[3][0], big ? "x" : "AB") && one_of(field[4][0], "12")
        && digits(field[5], 2) && atoi(field[5]) <= (big ? 10 : 11)
        && one_of(field[6][0], antenna) && one_of(field[6][1], "tba")
        && one_of(field[7][0], antenna) && field[7][1] == 'r'
        && one_of(field[8][0], "LMH");
}

/* Fields 10 to 19. */
static int slow_readings(char field[19][8])
{
    if (strcmp(field[0], "13K") == 0
        && (atoi(field[15]) != 0 || atoi(field[16]) != 0))
        return 0;
    return spaced_digits(field[9])
        && spaced_pointed(field[10], 2) && spaced_pointed(field[11], 2)
        && spaced_pointed(field[12], 1) && spaced_pointed(field[13], 1)
        && spaced_digits(field[14]) && spaced_digits(field[15])
        && spaced_digits(field[16])
        && one_of(field[17][0], "MASBPOYWKRTCN")
        && one_of(field[18][0], "SADHCN");
}

/* Whether what follows the two check bytes ends a report: 0D 0A, or a comma and
 * 0D 0A. */
static int slow_line_end(const unsigned char *b, size_t n)
{
    return (n == 2 && memcmp(b, "\x0D\x0A", 2) == 0)
        || (n == 3 && memcmp(b, ",\x0D\x0A", 3) == 0);
}

static int slow_report(const unsigned char *b, size_t n)
{
    static const size_t widths[19] =
        {3, 1, 1, 1, 1, 2, 2, 2, 1, 4, 5, 5, 4, 4, 3, 3, 3, 1, 1};
    char field[19][8];
    unsigned long sum = 0;
    size_t i, at = 5;

    if (n < 73 || memcmp(b, "\xAA\xAA\xAA\x43,", 5) != 0)
        return 0;
    if (!slow_line_end(b + 73, n - 73))
        return 0;
    for (i = 4; i < 71; i++)
        sum += b[i];
    if (b[71] != sum % 256 || b[72] != sum / 256)
        return 0;
    memset(field, 0, sizeof field);
    for (i = 0; i < 19; i++) {
        memcpy(field[i], b + at, widths[i]);
        at += widths[i];
        if (b[at++] != ',')
            return 0;
        if (memchr(field[i], 0, widths[i]) != NULL)
            return 0;
    }
    return slow_settings(field) && slow_readings(field);
}

static int slow_short(unsigned family, const unsigned char *b, size_t n)
{
    const char *marks = family == 1 ? "\xAA\xAA\xAA\x01" : "\x55\x55\x55\x01";

    if (n != 6 || memcmp(b, marks, 4) != 0 || b[4] != b[5])
        return 0;
    if (b[4] >= 1 && b[4] <= 0x11)
        return 1;
    return b[4] == 0x82 || b[4] == 0x83 || (b[4] == 0x90 && family == 3);
}

/* Cuts a text at its commas; gives how many parts (at most 40 are kept). */
static size_t parts_of(char *text, char *part[40])
{
    size_t many = 0;

    for (;;) {
        char *comma = strchr(text, ',');

        if (many < 40)
            part[many] = text;
        many++;
        if (comma == NULL)
            return many;
        *comma = '\0';
        text = comma + 1;
    }
}

/* Whether each of the parts is digits, at most as many as its width says. */
static int all_digits(char **p, const size_t *w, size_t many)
{
    size_t i;

    for (i = 0; i < many; i++)
        if (!digits(p[i], w[i]))
            return 0;
    return 1;
}

static int slow_02(char **p, size_t many)
{
    static const size_t w[13] = {5, 3, 4, 4, 4, 3, 3, 3, 1, 1, 2, 1, 5};

    if (many != 14 || !all_digits(p + 1, w, 13))
        return 0;
    return atoi(p[7]) <= 255 && atoi(p[9]) >= 1 && atoi(p[12]) <= 1;
}

static int slow_03(char **p, size_t many)
{
    static const size_t w[8] = {3, 3, 3, 3, 3, 4, 3, 1};
    char *point;

    if (many != 10 || !all_digits(p + 1, w, 8))
        return 0;
    if (atoi(p[8]) < 1 || atoi(p[8]) > 5 || !one_of(p[9][0], "+-"))
        return 0;
    point = strchr(p[9], '.');
    if (point == NULL)
        return 0;
    *point = '\0';
    return digits(p[9] + 1, 3) && digits(point + 1, 1);
}

static int slow_05(char **p, size_t many)
{
    size_t i;

    if (many != 8)
        return 0;
    for (i = 1; i < 8; i++)
        if (strlen(p[i]) != 2 || strspn(p[i], "0123456789ABCDEF") != 2)
            return 0;
    return 1;
}

/* The payload's own rules, from a copy of it as text. */
static int slow_payload(char *payload)
{
    char *part[40];
    size_t many = parts_of(payload, part);

    if (strlen(part[0]) != 5 || strncmp(part[0], "APA", 3) != 0)
        return 0;
    if (!digits(part[0] + 3, 2))
        return 0;
    if (strcmp(part[0], "APA02") == 0)
        return slow_02(part, many);
    if (strcmp(part[0], "APA03") == 0)
        return slow_03(part, many);
    if (strcmp(part[0], "APA05") == 0)
        return slow_05(part, many);
    return 1;
}

static int slow_sentence(const unsigned char *b, size_t n)
{
    char payload[129], sums[8];
    unsigned sum1 = 0, sum2 = 0;
    size_t i;

    if (n < 11 || n > 134 || b[0] != '$' || b[n - 5] != '*')
        return 0;
    for (i = 1; i < n - 5; i++) {
        if (b[i] < 0x20 || b[i] > 0x7E || b[i] == '$' || b[i] == '*')
            return 0;
        sum1 = (sum1 + b[i]) % 256;
        sum2 = (sum2 + sum1) % 256;
        payload[i - 1] = (char)b[i];
    }
    payload[n - 6] = '\0';
    sprintf(sums, "%02X%02X", sum2, sum1);
    return memcmp(b + n - 4, sums, 4) == 0 && slow_payload(payload);
}

/* Whether a text is laid out as the form says: a digit where the form has a
 * nought, else the very byte. */
static int formed(const char *t, const char *form)
{
    size_t i;

    if (strlen(t) != strlen(form))
        return 0;
    for (i = 0; form[i] != '\0'; i++)
        if (form[i] == '0' ? !one_of(t[i], "0123456789") : t[i] != form[i])
            return 0;
    return 1;
}

/* How many days a month has, by the rhyme; none for a month that is not. */
static int days_of(int month, int year)
{
    if (month == 4 || month == 6 || month == 9 || month == 11)
        return 30;
    if (month == 2)
        return year % 4 == 0 ? 29 : 28;
    return month >= 1 && month <= 12 ? 31 : 0;
}

/* Whether a text is a date of 2000 to 2099 and a time of day. */
static int slow_clock(const char *t)
{
    return formed(t, "00-00-00T00:00:00")
        && atoi(t + 6) >= 1 && atoi(t + 6) <= days_of(atoi(t + 3), atoi(t))
        && atoi(t + 9) <= 23 && atoi(t + 12) <= 59 && atoi(t + 15) <= 59;
}

/* Whether the letters, in capitals, may have this behind them, which is not
 * nothing. */
static int slow_reply(const char *letters, const char *behind)
{
    static const char *const forms[][2] = {
        {"SN", "00000"}, {"RV", "00.00"}, {"PWF", "0000"}, {"PWI", "0000"},
        {"PWR", "0000"}, {"PWD", "0000"}, {"FR", "00000"}, {"FQ", "00000"},
        {"FS", "0"}, {"HS", "0"}
    };
    size_t i;

    for (i = 0; i < sizeof forms / sizeof *forms; i++)
        if (strcmp(letters, forms[i][0]) == 0 && !formed(behind, forms[i][1]))
            return 0;
    if (strcmp(letters, "FS") == 0)
        return atoi(behind) <= 5;
    if (strcmp(letters, "HS") == 0)
        return atoi(behind) <= 1;
    if (strcmp(letters, "CC") == 0)
        return slow_clock(behind);
    return strcmp(letters, "FT") != 0;
}

static int slow_message(const unsigned char *b, size_t n)
{
    char text[39], letters[39];
    size_t i, run;

    if (n < 3 || n > 40 || b[0] != '^' || b[n - 1] != ';')
        return 0;
    for (i = 1; i < n - 1; i++) {
        if (b[i] < 0x20 || b[i] > 0x7E || b[i] == '^' || b[i] == ';')
            return 0;
        text[i - 1] = (char)b[i];
    }
    text[n - 2] = '\0';
    run = strspn(text, "ABCDEFGHIJKLMNOPQRSTUVWXYZabcdefghijklmnopqrstuvwxyz");
    for (i = 0; i < run; i++)
        letters[i] = (char)(text[i] >= 'a' ? text[i] - 'a' + 'A' : text[i]);
    letters[run] = '\0';
    return run > 0 && (text[run] == '\0' || slow_reply(letters, text + run));
}

int slow_frame(unsigned family, const unsigned char *b, size_t n)
{
    if (family == 2)
        return slow_sentence(b, n);
    if (family == 4)
        return slow_message(b, n);
    return slow_short(family, b, n) || (family == 1 && slow_report(b, n));
}

/* Lists into starts, which has to be large enough; adds up the bytes of the
 * frames in *framed. */
size_t slow_list(unsigned family, const unsigned char *s, size_t n,
                 uint32_t *starts, size_t *framed)
{
    size_t found = 0, p = 0, length;

    *framed = 0;
    while (p < n) {
        for (length = 1; length <= 134 && length <= n - p; length++)
            if (slow_frame(family, s + p, length))
                break;
        if (length > 134 || length > n - p) {
            p++;
            continue;
        }
        starts[found++] = (uint32_t)p;
        *framed += length;
        p += length;
    }
    return found;
}
