/* Messages of the KPA1500, in plain C: a walk that lists them, for the plain
 * lister, and reading one into a row, for the plain stream reader.  The same
 * rules serve both.
 *
 * A message is a caret, letters, what stands behind the letters, and a
 * semicolon.  Where its text ends is found first, with the blocks that the
 * other families use too.  All that follows is done byte by byte: it is meant
 * to be seen at a glance to be right, and is measured as it is. */
#include "amp.h"
#include "plain_blocks.h"
#include "plain_messages.h"

/* ---- Bytes -------------------------------------------------------------- */

enum { LETTER = 1, DIGIT = 2 };

static const uint8_t class_of[256] = {
    ['0' ... '9'] = DIGIT, ['A' ... 'Z'] = LETTER, ['a' ... 'z'] = LETTER
};

static inline int is_letter(uint8_t byte)
{
    return class_of[byte] == LETTER;
}

static inline int is_digit(uint8_t byte)
{
    return class_of[byte] == DIGIT;
}

static inline uint8_t capital(uint8_t letter)
{
    return letter >= 'a' ? letter - 'a' + 'A' : letter;
}

/* ---- What stands behind letters ----------------------------------------- */

/* Whether the first bytes at b, so many, are digits. */
static inline int digits(const uint8_t *b, size_t many)
{
    size_t i;

    for (i = 0; i < many; i++)
        if (!is_digit(b[i]))
            return 0;
    return 1;
}

static inline unsigned two_digits(const uint8_t *b)
{
    return (b[0] - '0') * 10u + (b[1] - '0');
}

/* From 2000 to 2099 every fourth year is a leap year. */
static int real_date(unsigned year, unsigned month, unsigned day)
{
    static const uint8_t days[13] = {0, 31, 28, 31, 30, 31, 30, 31, 31, 30, 31, 30, 31};

    if (month < 1 || month > 12 || day < 1)
        return 0;
    return day <= days[month] || (month == 2 && day == 29 && year % 4 == 0);
}

/* Whether the 17 bytes at b are YY-MM-DDThh:mm:ss, of a date and a time that
 * there are. */
static int date_and_time(const uint8_t *b)
{
    return digits(b, 2) && b[2] == '-' && digits(b + 3, 2) && b[5] == '-' && digits(b + 6, 2)
        && b[8] == 'T' && digits(b + 9, 2) && b[11] == ':' && digits(b + 12, 2)
        && b[14] == ':' && digits(b + 15, 2)
        && real_date(two_digits(b), two_digits(b + 3), two_digits(b + 6))
        && two_digits(b + 9) < 24 && two_digits(b + 12) < 60 && two_digits(b + 15) < 60;
}

/* ---- Messages ----------------------------------------------------------- */

struct message {
    uint32_t code;          /* its letters, four at most, as a row has them; 0 if none */
    const uint8_t *behind;  /* what stands behind them, */
    size_t length;          /* and how many bytes that is */
};

/* Takes the message at b apart, whose semicolon is b[end].  The letters end
 * there at the latest.  Listed ones are two or three, so that four are enough to
 * tell that these are others, however many there are. */
WITHIN struct message taken_apart(const uint8_t *b, size_t end)
{
    struct message m = {0, NULL, 0};
    size_t i;

    for (i = 1; is_letter(b[i]); i++)
        if (i <= 4)
            m.code = m.code << 8 | capital(b[i]);
    m.behind = b + i;
    m.length = end - i;
    return m;
}

/* The kind of a message, as a row has it, or 0 if it is not good.  Listed
 * letters with nothing behind them are a question, but for FT. */
WITHIN int kind_of(struct message m)
{
    const uint8_t *b = m.behind;
    int response;

    switch (m.code) {
    case 0:
        return 0;
    case AMP_SN: case AMP_FR: case AMP_FQ:
        response = m.length == 5 && digits(b, 5);
        break;
    case AMP_PWF: case AMP_PWI: case AMP_PWR: case AMP_PWD:
        response = m.length == 4 && digits(b, 4);
        break;
    case AMP_FS:
        response = m.length == 1 && b[0] >= '0' && b[0] <= '5';
        break;
    case AMP_HS:
        response = m.length == 1 && (b[0] == '0' || b[0] == '1');
        break;
    case AMP_RV:
        response = m.length == 5 && digits(b, 2) && b[2] == '.' && digits(b + 3, 2);
        break;
    case AMP_CC:
        response = m.length == 17 && date_and_time(b);
        break;
    case AMP_FT:
        response = m.length == 0;
        break;
    default:
        return AMP_OTHER;
    }
    if (response)
        return AMP_RESPONSE;
    return m.length == 0 ? AMP_QUESTION : 0;
}

/* ---- Listing ------------------------------------------------------------ */

/* No byte of a text is a caret, so that the walk goes over it even where it is
 * part of no good message. */
size_t list_messages(const uint8_t *s, size_t n, uint32_t *starts, size_t room)
{
    size_t found = 0, p = 0, left, most, end;

    while ((left = n - p) >= SHORTEST_MESSAGE) {
        if (s[p] != '^') {
            p++;
            continue;
        }
        most = left < LONGEST_MESSAGE ? left : LONGEST_MESSAGE;
        end = text_end(s + p, 1, most, of_message);
        if (end == most || s[p + end] != ';' || kind_of(taken_apart(s + p, end)) == 0) {
            p += end;
            continue;
        }
        if (found == room)
            return room + 1;
        starts[found++] = (uint32_t)p;
        p += end + 1;
    }
    return found;
}

/* ---- Rows --------------------------------------------------------------- */

/* The numbers of a response, which have one byte between them.  A question and
 * FT have none. */
static void lay_numbers(struct message m, int64_t *v)
{
    size_t i;

    if (m.length == 0)
        return;
    *v = 0;
    for (i = 0; i < m.length; i++) {
        if (is_digit(m.behind[i]))
            *v = *v * 10 + (m.behind[i] - '0');
        else
            *++v = 0;
    }
}

/* Other letters, from b on, four to a value. */
static void lay_letters(const uint8_t *b, int64_t *v)
{
    size_t i;

    for (i = 0; i < AMP_OTHER_VALUES; i++)
        v[i] = 0;
    for (i = 0; is_letter(b[i]); i++)
        v[i / 4] = v[i / 4] << 8 | capital(b[i]);
}

/* Nothing is laid before the message is known to be good: a row of another
 * answer has to be as it was behind its head. */
int read_message(const uint8_t *b, size_t end, int64_t *row)
{
    struct message m = taken_apart(b, end);
    int kind = kind_of(m);

    if (kind == 0)
        return 0;
    row[AMP_KIND] = kind;
    if (kind == AMP_OTHER) {
        row[AMP_CODE] = 0;
        lay_letters(b + 1, row + AMP_VALUES);
    } else {
        row[AMP_CODE] = m.code;
        lay_numbers(m, row + AMP_VALUES);
    }
    return 1;
}
