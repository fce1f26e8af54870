/* Memory that is lent to a call, and what shows that the call kept to it: guard bytes around what is lent, a page on either side that nobody may
 * touch, and a copy of what was lent. */
#ifndef ROOM_H
#define ROOM_H

#include <stddef.h>
#include <stdint.h>

struct room {
    uint8_t *body; /* between two pages that cannot be touched */
    size_t size;
    uint8_t *lent; /* within the body */
    size_t len;
    uint8_t *kept; /* a copy */
};

/* Makes a room for up to `most` bytes. */
void open_room(struct room *room, size_t most);

/* Lends `len` bytes, next to the page behind or to the one before. What they held before may be lost. */
void lend(struct room *room, size_t len, int next_to_end);

/* Keeps a copy of what is lent. */
void keep(struct room *room);

/* Whether the guard bytes are as they were. */
int is_intact(const struct room *room);

/* Whether what is lent is as it was kept, from byte `from` on. */
int is_kept(const struct room *room, size_t from);

#endif
