/* Makes captures for trying out and timing a lister.
 *
 * Four kinds: clean (good frames and nothing else), clicks (the same with a
 * byte changed, dropped or added about once in 200), hostile marks (bytes
 * chosen to make a lister work for nothing) and cut (each frame broken off and
 * the next begun). */
#include "captures.h"
#include "made.h"

/* ---- Pieces that look like frames --------------------------------------- */

/* A good frame spoiled where a lister looks last: in its last quarter. */
static void spoiled_frame(struct frame *f, unsigned family, uint64_t *state)
{
    size_t place;

    good_frame(f, family, state);
    place = f->length - 1 - below(state, (unsigned)(f->length / 4));
    f->bytes[place] = (unsigned char)(f->bytes[place] ^ 1u << below(state, 3));
}

/* Marks and allowed counts of family 1 or 3, at every place they can stand. */
static void hostile_packet(struct frame *f, unsigned family, uint64_t *state)
{
    unsigned mark = family == 1 ? 0xAA : 0x55, i, many;

    many = 1 + below(state, 16);
    switch (below(state, 5)) {
    case 0:                                     /* a run of marks */
        while (many-- > 0)
            put(f, mark);
        break;
    case 1:                                     /* nothing but begun packets */
        for (i = 0; i < many; i++)
            marks_and_count(f, mark, family == 1 ? 0x43 : 1);
        break;
    case 2:                                     /* packets one byte short */
        for (i = 0; i < many; i++) {
            marks_and_count(f, mark, 1);
            put(f, codes[below(state, 20)]);
        }
        break;
    case 3:                                     /* two marks and no third */
        for (i = 0; i < many; i++) {
            put(f, mark);
            put(f, mark);
            put(f, below(state, 2) == 0 ? 1 : 0x43);
        }
        break;
    default:                                    /* a check that fails late */
        spoiled_frame(f, family, state);
    }
}

/* Dollar signs, and what a sentence begins with, without a good end. */
static void hostile_sentence(struct frame *f, uint64_t *state)
{
    unsigned many = 1 + below(state, 16);

    switch (below(state, 5)) {
    case 0:                                     /* a run of dollar signs */
        while (many-- > 0)
            put(f, '$');
        break;
    case 1:                                     /* begun and begun again */
        while (many-- > 0)
            put_text(f, "$APA02,");
        break;
    case 2:                                     /* broken off in the number */
        while (many-- > 0)
            put_text(f, "$APA0");
        break;
    case 3:                                     /* a payload one byte too long */
        put_text(f, "$APA99,");
        put_digits(f, state, 123);
        put_sums(f);
        break;
    default:                                    /* a check that fails late */
        spoiled_frame(f, 2, state);
    }
}

/* Carets, and what a message begins with, without a good end. */
static void hostile_message(struct frame *f, uint64_t *state)
{
    static const char *const nearly[] = {
        "^;", "^1;", "^HS01;", "^FT1;", "^SN0022;", "^RV1.23;", "^FS6;", "^PWF 75;"
    };
    unsigned many = 1 + below(state, 16);

    switch (below(state, 5)) {
    case 0:                                     /* a run of carets */
        while (many-- > 0)
            put(f, '^');
        break;
    case 1:                                     /* begun and begun again */
        while (many-- > 0)
            put_text(f, "^PWF07");
        break;
    case 2:                                     /* one byte too many */
        for (many = 1 + many % 3; many > 0; many--) {
            put_text(f, "^AB");
            put_digits(f, state, 37);
        }
        put(f, ';');
        break;
    case 3:                                     /* whole, and not good */
        while (many-- > 0)
            put_text(f, nearly[below(state, sizeof nearly / sizeof *nearly)]);
        break;
    default:                                    /* a check that fails late */
        response(f, state, 0);
        f->bytes[f->length - 2] = below(state, 2) == 0 ? '/' : ':';
    }
}

/* A piece of a hostile capture.  One in 32 is a good frame, so that there is
 * something to miss. */
static void hostile_piece(struct frame *f, unsigned family, uint64_t *state)
{
    f->length = 0;
    if (below(state, 32) == 0)
        good_frame(f, family, state);
    else if (family == 2)
        hostile_sentence(f, state);
    else if (family == 4)
        hostile_message(f, state);
    else
        hostile_packet(f, family, state);
}

/* ---- Captures ----------------------------------------------------------- */

/* Copies a frame to s[at..n) as far as it goes, and gives the place behind.
 * With clicks, about one byte in 200 is changed, dropped, or has another put
 * before it. */
static size_t lay_down(const struct frame *f, unsigned char *s, size_t at,
                       size_t n, int clicks, uint64_t *state)
{
    size_t i;

    for (i = 0; i < f->length && at < n; i++) {
        unsigned click = clicks && below(state, 200) == 0
                       ? 1 + below(state, 3) : 0;

        if (click == 1)
            s[at++] = (unsigned char)(f->bytes[i] ^ (1 + below(state, 255)));
        else if (click != 2)
            s[at++] = f->bytes[i];
        if (click == 3 && at < n) {
            s[at] = s[at - 1];
            s[at++ - 1] = (unsigned char)below(state, 256);
        }
    }
    return at;
}

void make_capture(unsigned family, unsigned kind, uint64_t seed,
                  unsigned char *s, size_t n)
{
    uint64_t state = seed * 16 + family * 4 + kind;
    struct frame f;
    size_t at = 0;

    while (at < n) {
        if (kind == HOSTILE)
            hostile_piece(&f, family, &state);
        else
            good_frame(&f, family, &state);
        if (kind == CUT)
            f.length = 1 + below(&state, (unsigned)f.length - 1);
        at = lay_down(&f, s, at, n, kind == CLICKS, &state);
    }
}

const char *kind_name(unsigned kind)
{
    static const char *const names[KINDS] = {
        "clean", "clicks", "hostile marks", "cut"
    };

    return kind < KINDS ? names[kind] : "unknown";
}
