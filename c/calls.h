/* What calls.c, calls_streams.c, calls_messages.c and calls_lengths.c share: known bytes and their values, a lent row, and the
 * checks. */
#ifndef CALLS_H
#define CALLS_H

#include "amp.h"
#include "sys.h"

void check(int right, const char *what);

#define DATA_5 ",20K,S,R,x,2,03,2t,0r,M,0000, 0.00, 0.00, 0.0, 0.0, 31, 29, 30,N,N,"
#define CASE_1 "\xAA\xAA\xAA\xAA\x01\x0D\x0D"
#define CASE_2 "\xAA\xAA\xAA\x01\x0D\x0D\xAA\xAA\xAA\x01\x09\x09"
#define CASE_3 "\xAA\xAA\xAA\x01\x0D\x0E\xAA\xAA\xAA\x01\x09\x09"
#define CASE_4 "\xAA\xAA\xAA\x43" CASE_2
#define FRONT_5 "\xAA\xAA\xAA\x43" DATA_5 "\x6A\x0D"
#define CASE_5 FRONT_5 "\x0D\x0A"
#define COMMA_5 FRONT_5 ",\x0D\x0A"
#define CASE_6 "\xAA\xAA\xAA\x43" DATA_5 "\x0D\x6A\x0D\x0A"
#define ACK_9 "\xAA\xAA\xAA\x01\x09\x09"
#define CASE_7 "$APA05,11,18,1B,34,00,2A,01*A844"
#define CASE_8 "$APA05,11,18,1B,34,00,2A,01*a844"
#define CASE_9 "$APA0" CASE_7
#define PRINTED_02 "$APA02,15017,010,2590,3169,0768,230,096,057,1,6,01,0,15721*D83F"
#define PRINTED_03 "$APA03,499,121,240,121,389,2370,000,5,+028.0*9D7D"
#define PRINTED_11 "$APA11,02,0000,00EA,0068,0068*72B4"

/* What a 1.3K-FA sent on 9 July 2024, as Hamlib 4.6 prints it in amplifiers/expert/expert.c; and the same
 * values as a writer pads them. */
#define RECORDED "\xAA\xAA\xAA\x43,13K,S,R,A,1,07,2a,0r,M,0000, 0.00, 0.00, 0.0, 0.0,077,000,000,N,N," \
                 "\x51\x0D,\x0D\x0A"
#define REWRITTEN "\xAA\xAA\xAA\x43,13K,S,R,A,1,07,2a,0r,M,0000, 0.00, 0.00, 0.0, 0.0, 77,  0,  0,N,N," \
                  "\x01\x0D,\x0D\x0A"

/* A message of the KPA1500 with the longest row, and the letters of it: 38, of which two stand in the last
 * value. */
#define LETTERS_38 "ABCDEFGHIJKLMNOPQRSTUVWXYZABCDEFGHIJKL"
#define OTHER_38 "^" LETTERS_38 ";"
extern const int64_t values_38[AMP_OTHER_VALUES];
/* The clock's example in the amplifier's reference. */
#define CLOCK "^CC17-07-31T13:15:00;"
extern const int64_t clock_values[AMP_CC_VALUES];

/* A text with a byte pointer and its length, as the two arguments of one lent slice. */
#define SLICE(text) (const uint8_t *)(text), sizeof(text) - 1
#define NOTHING SLICE("")

/* The first six numbers of a row. */
#define HEAD(kind, code, taken, start, skipped, length) \
    (const int64_t[]){kind, code, taken, start, skipped, length}

/* Those of COMMA_5 are those of case 5 but for the last. */
extern const int64_t values_5[AMP_STATUS_VALUES], comma_5[AMP_STATUS_VALUES];
extern const int64_t values_7[AMP_05_VALUES];

/* A row with two places behind it that nobody may touch. */
#define UNTOUCHED INT64_C(-77)
extern int64_t row[AMP_ROW + 2];

void clear_row(void);

/* Whether the row has these numbers in front, then these values, and is untouched behind them. */
int row_is(const int64_t *head, const int64_t *values, size_t many);
int row_untouched(void);

/* Each call with a row or an output that has just the room, and what is refused, with what is lent left alone:
 * calls.c says it of each. */
void reads(const char *what, uint32_t family, const uint8_t *bytes, size_t n,
           int64_t kind, int64_t code, const int64_t *values, size_t many);
void does_not_read(const char *what, uint32_t family, const uint8_t *bytes, size_t n,
                   size_t room, uint32_t number);
void lists(const char *what, uint32_t family, const uint8_t *bytes, size_t n,
           size_t many, uint32_t first, uint32_t second);
void does_not_list(const char *what, uint32_t family, const uint8_t *bytes, size_t n,
                   size_t room, uint32_t number);
void next_is(const char *what, uint32_t family, const uint8_t *bytes, size_t n,
             size_t place, uint32_t reports, size_t size, size_t start);
void no_next(const char *what, uint32_t family, const uint8_t *bytes, size_t n,
             size_t place, uint32_t reports);
void writes(const char *what, uint32_t kind, uint32_t code, const int64_t *values,
            size_t many, const uint8_t *bytes, size_t n);
void does_not_write(const char *what, uint32_t kind, uint32_t code, const int64_t *values,
                    size_t many, size_t room, uint32_t number);

/* The checks of streams, those of the KPA1500, and those of large lengths. */
void stream_calls(void);
void message_calls(void);
void length_calls(void);

#endif
