/* Reading whole frames into rows, for the plain stream reader. */
#ifndef PLAIN_FIELDS_H
#define PLAIN_FIELDS_H

#include <stddef.h>
#include <stdint.h>

/* Whether a good report stands at b: of 76 bytes where the byte behind its check
 * bytes is a comma, else of 75, which have to be there.  If so, its kind, its
 * code and its values are laid in the row, which has room; else nothing is. */
int read_report(const uint8_t *b, int64_t *row);

/* The same for the sentence whose star is the byte b[star], all before it but
 * the dollar sign b[0] being seen to be payload, with four bytes behind it. */
int read_sentence(const uint8_t *b, size_t star, int64_t *row);

/* The length of the shortest sentence 02, 03 or 05 that has the writer's widths. */
#define SHORTEST_WRITTEN 32u

/* The length of the good sentence 02, 03 or 05 at b that has the writer's
 * widths, laid in the row; 0 if the left bytes from b on begin with none, and
 * then nothing is laid.  That says nothing yet against a sentence of another
 * sort. */
size_t read_written(const uint8_t *b, size_t left, int64_t *row);

#endif
