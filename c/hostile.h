/* What hostile.c and its tries stand on: chances, lent memory with guards and fences around it, the rules that
 * a result is held to, arguments and readers. */
#ifndef HOSTILE_H
#define HOSTILE_H

#include "amp.h"
#include "captures.h"
#include "sys.h"

/* The functions that are called. */
enum { FRESH, FEED, CLOSE, READ, LIST, NEXT, WRITE, ENABLE, STAMPS, FUNCTIONS };

extern uint64_t seed, state;
extern unsigned long calls, wrong;

void expect(int right, const char *what);
#define EXPECT(what) expect(what, #what)

/* Chances. */
uint64_t chance(void);
size_t some_below(size_t limit);
int once_in(size_t many);
void fill(void *to, size_t n);

/* How often each number came up. */
void note(uint32_t number);
void print_numbers(void);

/* Lent memory: what is lent between begin and seal may be altered only where it is allowed. A part often ends or
 * begins where memory does; a touch beyond it there is told, and is the end of the program. */
int make_arena(void);
void begin(unsigned which);
void *lend(size_t n, size_t align);
void seal(void);
void allow(const void *part, size_t n);
void finish(void);

/* The rules that a result is held to. */
int is_family(uint32_t family);
int is_frame(const int64_t *row);
size_t limit_of(uint32_t family);
size_t least_of(uint32_t family);
int is_code(uint32_t kind, uint32_t code);
size_t values_of(uint32_t kind, uint32_t code);
size_t row_size(const int64_t *row);
size_t written_length(const int64_t *row);
int frame_of(uint32_t family, const int64_t *row);
int length_fits(const int64_t *row);

/* Arguments. */
void make_pool(void);
uint32_t some_family(void);
uint32_t near_family(uint32_t family);
size_t some_length(size_t most);
void spoil(uint8_t *bytes, size_t n);
void some_bytes(uint8_t *to, size_t n, uint32_t family);
const uint8_t *some_frame(uint32_t family, size_t *n);
int64_t some_value(void);
uint32_t some_code(void);
size_t some_row_room(void);

/* Readers. */
void keep(const amp_reader *reader);
void some_reader(amp_reader *reader);
int unused_are_zero(const amp_reader *reader);

#endif
