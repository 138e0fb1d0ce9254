/* Messages of the KPA1500, for the plain lister and the plain stream reader. */
#ifndef PLAIN_MESSAGES_H
#define PLAIN_MESSAGES_H

#include <stddef.h>
#include <stdint.h>

#define SHORTEST_MESSAGE 3u           /* ^, a letter, ; */
#define LONGEST_MESSAGE 40u

/* Lists the good messages of the capture s of n bytes.  Gives how many there
 * are, or room + 1 if there are more than room. */
size_t list_messages(const uint8_t *s, size_t n, uint32_t *starts, size_t room);

/* Whether a good message stands at b, its caret b[0], its semicolon b[end] and
 * all between them seen to be text; nothing behind it is read.  If so, its
 * kind, its code and its values are laid in the row, which has room; else
 * nothing is. */
int read_message(const uint8_t *b, size_t end, int64_t *row);

#endif
