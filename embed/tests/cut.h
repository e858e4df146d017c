/* Tries how mdl_decode cuts a text to the buffer. */
#ifndef CUT_H
#define CUT_H

#include <string.h>

#include "mehdalung.h"

enum { MOST_TEXT = 65536 };

/* Returns 1 if mdl_decode cuts the text of an answer to each length of the buffer. It has to write
 * a prefix and a zero, and to change nothing after them. The text has `length` bytes, fewer than
 * MOST_TEXT - 4. */
static inline int is_cut(uint32_t kind, const uint8_t *data_in, size_t data_in_length,
                         const char *whole, size_t length)
{
    static char cut[MOST_TEXT], untouched[MOST_TEXT];
    size_t room;

    memset(untouched, '?', sizeof untouched);
    for (room = 0; room <= length + 2; room++) {
        size_t kept = room == 0 ? 0 : length < room - 1 ? length : room - 1;
        size_t end = kept + (room > 0);

        memset(cut, '?', length + 4);
        if (mdl_decode(kind, data_in, data_in_length, cut, room) != length)
            return 0;
        if (memcmp(cut, whole, kept) || (room > 0 && cut[kept]))
            return 0;
        if (memcmp(cut + end, untouched, length + 4 - end))
            return 0;
    }
    return 1;
}

#endif
