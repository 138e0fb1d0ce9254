/* The calls of calls.c with lengths, places and numbers that would be others in fewer bits: a boundary that loses some
 * of them, on a processor whose lengths have fewer, is seen here. */
#include "calls.h"

#define MOST 131072u
#define ROOM 65536u

static uint8_t bytes[MOST + 160];
static int64_t numbers[ROOM];
static uint32_t starts[ROOM];

/* Memory that is as long as it says, for an answer that needs a few places of it. */
static void much_room(size_t room)
{
    size_t told = 77;

    check(amp_read(1, SLICE(CASE_5), numbers, room) == 0 && numbers[AMP_KIND] == AMP_STATUS, "much room for a row");
    memcpy(numbers, values_5, sizeof values_5);
    check(amp_write(AMP_STATUS, 0, numbers, room, bytes, room, &told) == 0 && told == 75, "many values, much room");
    check(memcmp(bytes, CASE_5, 75) == 0, "many values, the report");
    check(amp_write_enable(bytes, room, &told) == 0 && told == 3, "much room for plus signs");
    check(amp_list(1, SLICE(CASE_2), starts, room, &told) == 0 && told == 2 && starts[1] == 6, "many starts");
}

/* A call that takes all, however much it is, and has much room for its row. */
static void much_offered(size_t length, size_t room)
{
    amp_reader reader;

    memset(bytes, 0, sizeof bytes);
    check(amp_fresh(&reader, 3) == 0, "fresh");
    check(amp_feed(&reader, bytes, length, numbers, room) == 0, "much is offered");
    check(numbers[AMP_KIND] == AMP_MORE && numbers[AMP_TAKEN] == (int64_t)length, "all of it is taken");
    check(reader.at == length && reader.skipped == length, "all of it is counted");
}

/* A frame with so much behind it is no frame, and no capture where it is too long for one. */
static void much_behind(size_t more)
{
    size_t told = 77;

    memset(bytes, 0, sizeof bytes);
    memcpy(bytes, CASE_5, 75);
    numbers[0] = UNTOUCHED;
    check(amp_read(1, bytes, more + 75, numbers, ROOM) == AMP_NOT_GOOD && numbers[0] == UNTOUCHED, "much behind a report");
    if (more < 65536)
        return;
    check(amp_list(1, bytes, more + 75, starts, ROOM, &told) == AMP_TOO_LONG && told == 77, "much behind a capture");
    check(amp_next(1, bytes, more + 75, 0, 0, &told) == 0 && told == 77, "no next in what is too long");
}

/* From so far behind the end there is none. */
static void far_place(size_t place)
{
    no_next("far behind the end", 1, SLICE(CASE_5), place, 0);
}

/* Families, kinds and codes that are none, and would be in fewer bits. */
static void far_numbers(uint32_t more)
{
    does_not_read("a family", 1 + more, SLICE(CASE_5), AMP_ROW, AMP_NO_FAMILY);
    does_not_list("a family", 1 + more, SLICE(CASE_5), 3, AMP_NO_FAMILY);
    no_next("a family", 1 + more, SLICE(CASE_5), 0, 0);
    next_is("reports", 1, SLICE(CASE_2 CASE_5), 0, more, 75, 12);
    does_not_write("a kind", AMP_ACK + more, 0x0D, values_5, 0, 6, AMP_NO_RECORD);
    does_not_write("a code of an acknowledgement", AMP_ACK, 0x0D + more, values_5, 0, 6, AMP_NO_CODE);
    does_not_write("a number of a sentence", AMP_SENTENCE, 5 + more, values_7, AMP_05_VALUES, 160, AMP_NO_RECORD);
}

void length_calls(void)
{
    much_room(256);
    much_room(ROOM);
    much_offered(256, 256);
    much_offered(65536, ROOM);
    much_offered(MOST, ROOM);
    much_behind(256);
    much_behind(65536);
    much_behind(MOST);
    far_place(256);
    far_place(65536);
    far_place((size_t)1 << 31);
    far_numbers((uint32_t)1 << 8);
    far_numbers((uint32_t)1 << 16);
    far_numbers((uint32_t)1 << 24);
    far_numbers((uint32_t)1 << 31);
}
