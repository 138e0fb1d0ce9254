/* What a C program needs of libamp.a: reading and writing the serial frames of SPE amplifiers, of the
 * Alpha 9500 and of the KPA1500. The functions are proved; crates/amp has the statements. What each gives
 * back and leaves stands in crates/amp/specs/Boundary.antt; of amp_feed in
 * crates/row_stream/specs/FedRows.antt, of the writers in crates/row_writer/specs/Given.antt. On a
 * processor whose pointers have 32 bits a file that is not proved stands before them; docs/TARGETS.md says what is
 * assumed there.
 *
 * Families: 1 SPE amplifier to host, 2 Alpha 9500, 3 host to SPE amplifier, 4 KPA1500 (both ways).
 *
 * A function that returns uint32_t returns 0 or, where it refuses, one of the numbers below, and has
 * then changed nothing that was lent to it; amp_stamp_order alone refuses nothing and has numbers of its
 * own. A pointer and a length that follow each other are one lent slice.
 *
 * What is asked of the caller is what C alone can know: every pointer is aligned and not null, also
 * where its length is 0; it points to as much memory as its type or its length says; and what a function
 * may write overlaps nothing else that is lent to it. Apart from that any numbers and any bytes are legal
 * arguments, also the bytes of a reader. */
#ifndef AMP_H
#define AMP_H

#include <stddef.h>
#include <stdint.h>

#ifdef __cplusplus
extern "C" {
#endif

/* The numbers for no. */
enum {
    AMP_NO_FAMILY = 1,      /* the family is not 1 to 4 */
    AMP_NO_CODE = 2,        /* a command or an acknowledgement cannot carry this code */
    AMP_NO_RECORD = 3,      /* a value does not fit its place, values are missing, or there is no writer */
    AMP_NO_ROOM = 4,        /* the lent output, list or row is shorter than the answer */
    AMP_CLOSED = 5,         /* bytes were offered to a closed reader */
    AMP_HOLDS_TOO_MUCH = 6, /* the reader's state claims more held bytes than its family can hold */
    AMP_TOO_LONG = 7,       /* the capture has more than 65,536 bytes */
    AMP_NOT_GOOD = 8        /* the bytes are not one good frame */
};

/* A row of numbers: what was read, or what a call on a stream answered. The values of a frame stand
 * from AMP_VALUES on; what is behind them is unchanged. A row needs AMP_VALUES places, and one more for
 * each value. With AMP_MORE and AMP_DONE there is no frame, and its start, skipped bytes and length are
 * 0: what a closed reader dropped at the end is counted in the reader's own skipped. */
enum {
    AMP_KIND,    /* one of the kinds below */
    AMP_CODE,    /* the code of an acknowledgement or a command, the number of a sentence, the letters of
                  * a question or a response, else 0 */
    AMP_TAKEN,   /* how many of the offered bytes the call took */
    AMP_START,   /* where the frame starts in the stream, modulo 2^32 */
    AMP_SKIPPED, /* how many bytes were skipped before it since the last frame, modulo 2^32 */
    AMP_LENGTH,  /* how many bytes the frame has */
    AMP_VALUES,
    AMP_ROW = 27 /* the longest row, that of a status report: every row has room in so many places */
};

enum {
    AMP_ACK = 1,
    AMP_STATUS = 2,
    AMP_COMMAND = 3,
    AMP_SENTENCE = 4,
    AMP_MORE = 5, /* more bytes are wanted: the call took all */
    AMP_DONE = 6, /* the reader is closed and holds nothing more */
    AMP_QUESTION = 7, /* of the KPA1500: letters with nothing behind them */
    AMP_RESPONSE = 8, /* letters with what they tell behind them; and FT, which is alone */
    AMP_OTHER = 9     /* other letters, with anything behind them */
};

/* The values of a status report, from AMP_VALUES on. Letters are their ASCII bytes. */
enum {
    AMP_STATUS_ID,        /* 20 or 13 */
    AMP_STATUS_STATE,     /* 'S' standby, 'O' operate */
    AMP_STATUS_DIRECTION, /* 'R' receive, 'T' transmit */
    AMP_STATUS_BANK,      /* 'x', 'A' or 'B' */
    AMP_STATUS_INPUT,
    AMP_STATUS_BAND,
    AMP_STATUS_TRANSMIT,  /* the transmit antenna */
    AMP_STATUS_TUNER,     /* 't', 'b' or 'a' */
    AMP_STATUS_RECEIVE,   /* the receive antenna */
    AMP_STATUS_LEVEL,     /* 'L', 'M' or 'H' */
    AMP_STATUS_WATTS,
    AMP_STATUS_SWR_ATU,   /* in hundredths */
    AMP_STATUS_SWR_ANT,   /* in hundredths */
    AMP_STATUS_VOLTS,     /* in tenths */
    AMP_STATUS_AMPERES,   /* in tenths */
    AMP_STATUS_UPPER,     /* three temperatures */
    AMP_STATUS_LOWER,
    AMP_STATUS_COMBINER,
    AMP_STATUS_WARNING,   /* a letter, 'N' for none */
    AMP_STATUS_ALARM,     /* a letter, 'N' for none */
    AMP_STATUS_COMMA,     /* 1 where a comma stands between the checksum and the line end, else 0 */
    AMP_STATUS_VALUES
};

/* Those of sentences 02, 03 and 05. */
enum {
    AMP_02_PFWD, AMP_02_SWR, AMP_02_PIN, AMP_02_VP, AMP_02_IP, AMP_02_GAIN, AMP_02_VG, AMP_02_IG,
    AMP_02_BAND, AMP_02_STATE, AMP_02_FAULT, AMP_02_KEY, AMP_02_PEP, AMP_02_VALUES
};

enum {
    AMP_03_V5, AMP_03_V12, AMP_03_V24, AMP_03_M12, AMP_03_V40, AMP_03_ACLINE, AMP_03_MBSTATUS,
    AMP_03_MBTAP, AMP_03_TEMP /* in tenths, with its sign */, AMP_03_VALUES
};

enum {
    AMP_05_BAND, AMP_05_SEGMENT, AMP_05_MEMORY, AMP_05_ANTENNA, AMP_05_METER, AMP_05_CONTROL,
    AMP_05_OPTIONS, AMP_05_STATE, AMP_05_WTIME, AMP_05_TCMD, AMP_05_LCMD, AMP_05_VALUES
};

/* The letters of a question or a response, as its code: their ASCII bytes, capitals, the first the
 * highest. The values of a response stand behind each. */
enum {
    AMP_SN = 0x534E,    /* serial number: one value, to 99999 */
    AMP_RV = 0x5256,    /* firmware version: two, of two digits each */
    AMP_PWF = 0x505746, /* forward power in watts: one, to 9999 */
    AMP_PWI = 0x505749, /* input power */
    AMP_PWR = 0x505752, /* reflected power */
    AMP_PWD = 0x505744, /* dissipated power */
    AMP_FR = 0x4652,    /* frequency in kHz: one, to 99999 */
    AMP_FQ = 0x4651,    /* the transmit frequency counter in kHz: one, to 99999 */
    AMP_FS = 0x4653,    /* fan speed: one, 0 to 5 */
    AMP_HS = 0x4853,    /* high-SWR retune: one, 0 or 1 */
    AMP_CC = 0x4343,    /* date and time: six, those below */
    AMP_FT = 0x4654     /* a tune that starts or has ended: none; it is always AMP_RESPONSE */
};

enum {
    AMP_CC_YEAR /* 0 to 99, of 2000 to 2099 */, AMP_CC_MONTH, AMP_CC_DAY, AMP_CC_HOUR, AMP_CC_MINUTE,
    AMP_CC_SECOND, AMP_CC_VALUES
};

/* The values of AMP_OTHER: its letters, up to 38 capitals, four to a value, as ASCII bytes, the first the
 * highest. A value with fewer than four is the last but zeros. */
enum { AMP_OTHER_VALUES = 10 };

/* A stream reader's state, 144 bytes. Where its family is none, amp_feed and amp_close refuse it with 1; where
 * its count is too large, with 6. Any other bytes they take for a state. */
typedef struct amp_reader {
    uint8_t family;
    uint8_t closed;    /* 0 is open, 1 to 255 closed; amp_feed leaves it as it is, amp_close makes it 1 */
    uint8_t count;     /* how many of the held places are used: up to 75, 133, 5 or 39 by family */
    uint8_t held[133]; /* what is in the unused ones has no effect; each call that gives 0 leaves zeros there */
    uint32_t at;       /* the place of the first held byte in the stream, modulo 2^32; where none is held, of the
                        * next byte to be taken, so how many were taken so far */
    uint32_t skipped;  /* the bytes skipped since the last frame, modulo 2^32 */
} amp_reader;

/* A compiler that lays it out otherwise does not take this: the proved code knows it so. */
typedef char amp_reader_is_laid_out_so[sizeof(amp_reader) == 144 && offsetof(amp_reader, family) == 0
                                       && offsetof(amp_reader, closed) == 1 && offsetof(amp_reader, count) == 2
                                       && offsetof(amp_reader, held) == 3
                                       && offsetof(amp_reader, at) == 136 && offsetof(amp_reader, skipped) == 140
                                       && sizeof(int64_t) == 8 && sizeof(uint32_t) == 4 ? 1 : -1];

/* Makes the lent reader a fresh one. Refusal 1. */
uint32_t amp_fresh(amp_reader *reader, uint32_t family);

/* Offers bytes to the reader, and lays the row of its answer: a frame, AMP_MORE or AMP_DONE. The call
 * stops at a frame and tells in AMP_TAKEN how many bytes it took; offer the others again. Refusal 1,
 * then 6, then 5, then 4 for a row that is too short: then too nothing was taken. */
uint32_t amp_feed(amp_reader *reader, const uint8_t *offered, size_t offered_len,
                  int64_t *row, size_t row_len);

/* Closes the reader: calls that offer nothing then hand out what it still holds. Refusal 1, then 6. */
uint32_t amp_close(amp_reader *reader);

/* Reads one frame, the whole of the bytes, and lays its row; AMP_TAKEN, AMP_START and AMP_SKIPPED are 0
 * in it. Refusal 1, then 8, then 4. */
uint32_t amp_read(uint32_t family, const uint8_t *bytes, size_t bytes_len,
                  int64_t *row, size_t row_len);

/* Lists the starts of all frames in a capture at the front of the list, whose rest is unchanged, and how many
 * there are. Refusal 1, then 7, then 4. */
uint32_t amp_list(uint32_t family, const uint8_t *capture, size_t capture_len,
                  uint32_t *starts, size_t starts_len, size_t *count);

/* The length of the next frame from a place on, and its start. The length is 0, and start is left as it was,
 * where there is none, the place is beyond the end, or amp_list would refuse the family or the length.
 * With reports other than 0 only a status report is one. */
size_t amp_next(uint32_t family, const uint8_t *capture, size_t capture_len,
                size_t place, uint32_t reports, size_t *start);

/* Writes the frame of a kind, a code and values to the front of the output, whose rest is unchanged, and its
 * length: kind, code and values as a row has them. Values behind those of the kind are not looked at, nor is
 * the code of a status report. Refusal 2 for the code of an acknowledgement or a command, 3 for a value that
 * does not fit, for too few values and for what has no writer, then 4. Without a writer are sentences other
 * than 02, 03 and 05, letters that are not listed, FT as a question, AMP_OTHER, AMP_MORE, AMP_DONE and a kind
 * that is none. A status report has 75 bytes, and 76 with the comma; a message of the KPA1500 has 4 to 21, with
 * capital letters. */
uint32_t amp_write(uint32_t kind, uint32_t code, const int64_t *values, size_t values_len,
                   uint8_t *out, size_t out_len, size_t *length);

/* Writes the bytes that enable the Alpha in the same way. Refusal 4. */
uint32_t amp_write_enable(uint8_t *out, size_t out_len, size_t *length);

/* How stamp a stands to stamp b. No refusal: one of these four. */
enum {
    AMP_EARLIER = 1,
    AMP_LATER = 2,
    AMP_EQUAL = 3,
    AMP_CANNOT_SAY = 4
};

uint32_t amp_stamp_order(uint32_t a, uint32_t b);

#ifdef __cplusplus
}
#endif

#endif
