/* The calls of calls.c that make, feed and close readers. */
#include "calls.h"

static void does_not_feed(const char *what, amp_reader *reader, const uint8_t *bytes, size_t n,
                          size_t room, uint32_t number)
{
    amp_reader before = *reader;

    clear_row();
    check(amp_feed(reader, bytes, n, row, room) == number, what);
    check(row_untouched() && memcmp(&before, reader, sizeof before) == 0, what);
}

/* Feeds, and holds the row to what is expected. It has just the room that it needs; with a place less it
 * is refused, and nothing is fed. */
static void feeds(const char *what, amp_reader *reader, const uint8_t *bytes, size_t n,
                  const int64_t *head, const int64_t *values, size_t many)
{
    does_not_feed(what, reader, bytes, n, AMP_VALUES + many - 1, AMP_NO_ROOM);
    clear_row();
    check(amp_feed(reader, bytes, n, row, AMP_VALUES + many) == 0, what);
    check(row_is(head, values, many), what);
}

static const uint8_t zeros[75];

static void fresh(void)
{
    amp_reader reader, before;

    memset(&reader, 0x5A, sizeof reader);
    before = reader;
    check(amp_fresh(&reader, 0) == AMP_NO_FAMILY, "fresh of family 0");
    check(amp_fresh(&reader, 5) == AMP_NO_FAMILY, "fresh of family 5");
    check(amp_fresh(&reader, 260) == AMP_NO_FAMILY, "fresh of family 260");
    check(amp_fresh(&reader, 257) == AMP_NO_FAMILY, "fresh of family 257");
    check(memcmp(&before, &reader, sizeof before) == 0, "a refused reader is as it was");
    check(amp_fresh(&reader, 2) == 0, "fresh of family 2");
    check(reader.family == 2 && memcmp((uint8_t *)&reader + 1, zeros, 75) == 0, "fresh, front");
    check(memcmp((uint8_t *)&reader + 76, zeros, 68) == 0, "fresh, back");
}

/* Case 4: two acknowledgements behind the front of a report are held back until it is decided. */
static void held_back(void)
{
    amp_reader reader;

    check(amp_fresh(&reader, 1) == 0, "fresh");
    feeds("16 bytes", &reader, SLICE(CASE_4), HEAD(AMP_MORE, 0, 16, 0, 0, 0), NULL, 0);
    check(reader.count == 16 && reader.at == 0, "16 bytes held");
    feeds("byte 75", &reader, zeros, 60, HEAD(AMP_ACK, 0x0D, 59, 4, 4, 6), NULL, 0);
    feeds("the second", &reader, zeros, 1, HEAD(AMP_ACK, 0x09, 0, 10, 0, 6), NULL, 0);
    feeds("then more", &reader, zeros, 1, HEAD(AMP_MORE, 0, 1, 0, 0, 0), NULL, 0);
    check(reader.count == 0 && reader.at == 76 && reader.skipped == 60, "zeros skipped");
}

/* The same with a comma where a report may have one: 75 bytes do not decide it, and 76 do. */
static void held_back_longer(void)
{
    uint8_t line[78] = CASE_4;
    amp_reader reader;

    line[73] = ',';
    check(amp_fresh(&reader, 1) == 0, "fresh");
    feeds("75 bytes", &reader, line, 75, HEAD(AMP_MORE, 0, 75, 0, 0, 0), NULL, 0);
    check(reader.count == 75 && reader.at == 0, "75 bytes held");
    feeds("byte 76", &reader, line + 75, 3, HEAD(AMP_ACK, 0x0D, 1, 4, 4, 6), NULL, 0);
    feeds("the second", &reader, line + 76, 2, HEAD(AMP_ACK, 0x09, 0, 10, 0, 6), NULL, 0);
    feeds("then more", &reader, line + 76, 2, HEAD(AMP_MORE, 0, 2, 0, 0, 0), NULL, 0);
    check(reader.count == 0 && reader.at == 78 && reader.skipped == 62, "the rest skipped");
}

/* Case 4, closed behind the 16 bytes. */
static void drained(void)
{
    amp_reader reader;

    check(amp_fresh(&reader, 1) == 0, "fresh");
    feeds("16 bytes", &reader, SLICE(CASE_4), HEAD(AMP_MORE, 0, 16, 0, 0, 0), NULL, 0);
    check(amp_close(&reader) == 0 && reader.closed == 1 && reader.count == 16, "close");
    check(amp_close(&reader) == 0 && reader.closed == 1 && reader.count == 16, "close twice");
    does_not_feed("closed", &reader, zeros, 1, AMP_ROW, AMP_CLOSED);
    does_not_feed("closed before no row", &reader, zeros, 1, 0, AMP_CLOSED);
    feeds("drained", &reader, NOTHING, HEAD(AMP_ACK, 0x0D, 0, 4, 4, 6), NULL, 0);
    feeds("drained on", &reader, NOTHING, HEAD(AMP_ACK, 0x09, 0, 10, 0, 6), NULL, 0);
    feeds("done", &reader, NOTHING, HEAD(AMP_DONE, 0, 0, 0, 0, 0), NULL, 0);
    feeds("done again", &reader, NOTHING, HEAD(AMP_DONE, 0, 0, 0, 0, 0), NULL, 0);
    check(amp_fresh(&reader, 3) == 0 && amp_close(&reader) == 0, "case 11");
    feeds("case 11", &reader, NOTHING, HEAD(AMP_DONE, 0, 0, 0, 0, 0), NULL, 0);
}

/* A frame with values; a place that wraps; the rest that is offered again. */
static void handed_out(void)
{
    amp_reader reader;

    check(amp_fresh(&reader, 1) == 0, "fresh");
    reader.at = UINT32_MAX;
    feeds("case 5", &reader, SLICE("x" CASE_5 "yz"), HEAD(AMP_STATUS, 0, 76, 0, 1, 75),
          values_5, AMP_STATUS_VALUES);
    feeds("the rest", &reader, SLICE("yz"), HEAD(AMP_MORE, 0, 2, 0, 0, 0), NULL, 0);
    check(reader.at == 77 && reader.skipped == 2, "the place behind");
    check(amp_fresh(&reader, 2) == 0, "fresh");
    feeds("case 9", &reader, SLICE(CASE_9), HEAD(AMP_SENTENCE, 5, 37, 5, 5, 32),
          values_7, AMP_05_VALUES);
    check(amp_fresh(&reader, 3) == 0, "fresh");
    feeds("a command", &reader, SLICE("\x55\x55\x55\x01\x0D\x0D"),
          HEAD(AMP_COMMAND, 0x0D, 6, 0, 0, 6), NULL, 0);
}

/* A report with a comma behind a byte of noise, cut anywhere before its last byte: it comes with that one. */
static void cut_anywhere(void)
{
    static const uint8_t line[] = "x" COMMA_5 ACK_9;
    amp_reader reader;
    int64_t cut;

    for (cut = 0; cut < 77; cut++) {
        check(amp_fresh(&reader, 1) == 0, "fresh");
        feeds("up to a cut", &reader, line, (size_t)cut, HEAD(AMP_MORE, 0, cut, 0, 0, 0), NULL, 0);
        feeds("behind the cut", &reader, line + cut, (size_t)(83 - cut),
              HEAD(AMP_STATUS, 0, 77 - cut, 1, 1, 76), comma_5, AMP_STATUS_VALUES);
        check(reader.count == 0 && reader.at == 77 && reader.skipped == 0, "none held behind it");
        feeds("the next", &reader, line + 77, 6, HEAD(AMP_ACK, 0x09, 6, 77, 0, 6), NULL, 0);
    }
}

/* A whole report with a comma but for its last byte: another packet begins there, or the reader is closed. */
static void cut_short(void)
{
    amp_reader reader;

    check(amp_fresh(&reader, 1) == 0, "fresh");
    feeds("75 bytes", &reader, SLICE(FRONT_5 ",\x0D"), HEAD(AMP_MORE, 0, 75, 0, 0, 0), NULL, 0);
    feeds("a mark", &reader, SLICE("\xAA"), HEAD(AMP_MORE, 0, 1, 0, 0, 0), NULL, 0);
    check(reader.count == 1 && reader.at == 75 && reader.skipped == 75, "75 skipped");
    feeds("the packet", &reader, SLICE("\xAA\xAA\x01\x0D\x0D"), HEAD(AMP_ACK, 0x0D, 5, 75, 75, 6), NULL, 0);
    feeds("75 bytes", &reader, SLICE(FRONT_5 ",\x0D"), HEAD(AMP_MORE, 0, 75, 0, 0, 0), NULL, 0);
    check(amp_close(&reader) == 0 && reader.count == 75, "closed a byte short");
    feeds("no frame", &reader, NOTHING, HEAD(AMP_DONE, 0, 0, 0, 0, 0), NULL, 0);
    check(reader.count == 0 && reader.at == 156 && reader.skipped == 75, "75 dropped");
}

/* A comma behind a report of 75 bytes is not its own, and it is not waited for. */
static void comma_behind(void)
{
    amp_reader reader;

    check(amp_fresh(&reader, 1) == 0, "fresh");
    feeds("75 bytes and a comma", &reader, SLICE(CASE_5 ","), HEAD(AMP_STATUS, 0, 75, 0, 0, 75),
          values_5, AMP_STATUS_VALUES);
    feeds("the comma", &reader, SLICE("," COMMA_5), HEAD(AMP_STATUS, 0, 77, 76, 1, 76),
          comma_5, AMP_STATUS_VALUES);
}

/* Makes a reader that holds the most bytes that its family allows, of which none begins a frame: all are skipped. */
static void skips_most(amp_reader *reader, uint32_t family, uint8_t most)
{
    check(amp_fresh(reader, family) == 0, "fresh");
    memset(reader->held, 7, sizeof reader->held);
    reader->count = most;
    feeds("the most held", reader, NOTHING, HEAD(AMP_MORE, 0, 0, 0, 0, 0), NULL, 0);
    check(reader->count == 0 && reader->at == most && reader->skipped == most, "the most skipped");
}

/* The most bytes that a reader of family 1 may hold: any, a whole report, and one that wants its last byte. */
static void holds_most(void)
{
    amp_reader reader;

    skips_most(&reader, 1, 75);
    memcpy(reader.held, CASE_5, 75);
    reader.count = 75;
    feeds("a report held", &reader, zeros, 1, HEAD(AMP_STATUS, 0, 0, 75, 75, 75),
          values_5, AMP_STATUS_VALUES);
    memcpy(reader.held, COMMA_5, 75);
    reader.count = 75;
    feeds("its last byte wanted", &reader, NOTHING, HEAD(AMP_MORE, 0, 0, 0, 0, 0), NULL, 0);
    feeds("its last byte", &reader, SLICE("\x0A\x0A"), HEAD(AMP_STATUS, 0, 1, 150, 0, 76),
          comma_5, AMP_STATUS_VALUES);
    reader.count = 75;
    check(amp_close(&reader) == 0 && reader.count == 75, "75 bytes held, closed");
}

/* Messages of the KPA1500 as they come: each with its semicolon, and the rest offered again. */
static void messages(void)
{
    static const int64_t kilohertz[] = {14050};
    amp_reader reader;

    check(amp_fresh(&reader, 4) == 0 && reader.family == 4, "fresh of family 4");
    feeds("a front", &reader, SLICE(";^FR140"), HEAD(AMP_MORE, 0, 7, 0, 0, 0), NULL, 0);
    check(reader.count == 6 && reader.at == 1 && reader.skipped == 1, "6 held");
    feeds("its back", &reader, SLICE("50;^FR;"), HEAD(AMP_RESPONSE, AMP_FR, 3, 1, 1, 9), kilohertz, 1);
    feeds("a question", &reader, SLICE("^FR;;^ft;"), HEAD(AMP_QUESTION, AMP_FR, 4, 10, 0, 4), NULL, 0);
    feeds("a tune", &reader, SLICE(";^ft;"), HEAD(AMP_RESPONSE, AMP_FT, 5, 15, 1, 4), NULL, 0);
    feeds("a clock", &reader, SLICE(CLOCK), HEAD(AMP_RESPONSE, AMP_CC, 21, 19, 0, 21), clock_values, 6);
    feeds("an end", &reader, SLICE("^I"), HEAD(AMP_MORE, 0, 2, 0, 0, 0), NULL, 0);
    check(amp_close(&reader) == 0 && reader.count == 2, "closed");
    does_not_feed("closed", &reader, SLICE(";"), AMP_ROW, AMP_CLOSED);
    feeds("done", &reader, NOTHING, HEAD(AMP_DONE, 0, 0, 0, 0, 0), NULL, 0);
    check(reader.count == 0 && reader.at == 42 && reader.skipped == 2, "2 dropped");
}

/* What decides a start: a semicolon, a byte that no message has, or 39 bytes behind the caret. A first byte
 * that is no letter does not, so it waits with the others. */
static void decided(void)
{
    amp_reader reader;

    check(amp_fresh(&reader, 4) == 0, "fresh");
    feeds("no letter", &reader, SLICE("^1 ~"), HEAD(AMP_MORE, 0, 4, 0, 0, 0), NULL, 0);
    check(reader.count == 4 && reader.skipped == 0, "no letter waits");
    feeds("a semicolon", &reader, SLICE(";"), HEAD(AMP_MORE, 0, 1, 0, 0, 0), NULL, 0);
    check(reader.count == 0 && reader.at == 5 && reader.skipped == 5, "a semicolon decides");
    feeds("a line end", &reader, SLICE("^FR\x0A"), HEAD(AMP_MORE, 0, 4, 0, 0, 0), NULL, 0);
    check(reader.count == 0 && reader.skipped == 9, "a forbidden byte decides");
    feeds("a caret", &reader, SLICE("^FR^"), HEAD(AMP_MORE, 0, 4, 0, 0, 0), NULL, 0);
    check(reader.count == 1 && reader.at == 12 && reader.skipped == 12, "a caret decides, and begins");
    feeds("38 more", &reader, SLICE(LETTERS_38), HEAD(AMP_MORE, 0, 38, 0, 0, 0), NULL, 0);
    check(reader.count == 39 && reader.at == 12, "38 behind the caret do not");
    feeds("39", &reader, SLICE("^"), HEAD(AMP_MORE, 0, 1, 0, 0, 0), NULL, 0);
    check(reader.count == 1 && reader.at == 51 && reader.skipped == 51, "39 do: a caret");
    feeds("38 more", &reader, SLICE("1" LETTERS_38), HEAD(AMP_MORE, 0, 39, 0, 0, 0), NULL, 0);
    check(reader.count == 0 && reader.at == 91 && reader.skipped == 91, "39 do: a letter");
    feeds("the longest", &reader, SLICE(OTHER_38 ";"), HEAD(AMP_OTHER, 0, 40, 91, 91, 40),
          values_38, AMP_OTHER_VALUES);
}

/* The most bytes that a reader of family 4 may hold: any, and a message that wants its semicolon. */
static void holds_most_messages(void)
{
    amp_reader reader;

    skips_most(&reader, 4, 39);
    memcpy(reader.held, OTHER_38, 39);
    reader.count = 39;
    feeds("its semicolon wanted", &reader, NOTHING, HEAD(AMP_MORE, 0, 0, 0, 0, 0), NULL, 0);
    check(reader.count == 39, "39 held");
    feeds("its semicolon", &reader, SLICE(";;"), HEAD(AMP_OTHER, 0, 1, 39, 39, 40),
          values_38, AMP_OTHER_VALUES);
    memcpy(reader.held, "^FS5;^FT;", 9);
    reader.count = 9;
    feeds("two held", &reader, SLICE("x"), HEAD(AMP_RESPONSE, AMP_FS, 0, 79, 0, 5), (const int64_t[]){5}, 1);
    feeds("the second", &reader, SLICE("x"), HEAD(AMP_RESPONSE, AMP_FT, 0, 84, 0, 4), NULL, 0);
    reader.count = 39;
    check(amp_close(&reader) == 0 && reader.count == 39, "39 bytes held, closed");
}

/* Whether a reader that claims to hold count bytes is refused by both calls, and left alone. */
static void holds_too_much(uint8_t family, uint8_t count)
{
    amp_reader reader, before;

    memset(&reader, 7, sizeof reader);
    reader.family = family;
    reader.count = count;
    before = reader;
    check(amp_close(&reader) == AMP_HOLDS_TOO_MUCH, "close, too much held");
    check(memcmp(&before, &reader, sizeof before) == 0, "close, too much held: state");
    does_not_feed("feed, too much held", &reader, zeros, 1, AMP_ROW, AMP_HOLDS_TOO_MUCH);
    does_not_feed("too much held before no row", &reader, zeros, 1, 0, AMP_HOLDS_TOO_MUCH);
}

static void states_refused(void)
{
    amp_reader reader, before;

    holds_too_much(1, 76);
    holds_too_much(2, 134);
    holds_too_much(3, 6);
    holds_too_much(3, 255);
    holds_too_much(4, 40);
    holds_too_much(4, 133);
    memset(&reader, 255, sizeof reader);
    before = reader;
    check(amp_close(&reader) == AMP_NO_FAMILY, "close, no family before too much held");
    check(memcmp(&before, &reader, sizeof before) == 0, "close, no family: state");
    does_not_feed("no family before closed", &reader, zeros, 1, AMP_ROW, AMP_NO_FAMILY);
    does_not_feed("no family before no row", &reader, zeros, 1, 0, AMP_NO_FAMILY);
    memset(&reader, 7, sizeof reader);
    reader.family = 2;
    reader.count = 2;
    check(amp_close(&reader) == 0 && reader.held[1] == 7 && reader.held[2] == 0,
          "unused places become zero");
}

void stream_calls(void)
{
    fresh();
    held_back();
    held_back_longer();
    drained();
    handed_out();
    cut_anywhere();
    cut_short();
    comma_behind();
    holds_most();
    messages();
    decided();
    holds_most_messages();
    states_refused();
}
