/* Rooms (room.h): a body of whole pages between two that are closed. */
#define _GNU_SOURCE
#include "room.h"
#include <stdio.h>
#include <stdlib.h>
#include <string.h>
#include <sys/mman.h>

enum { PAGE = 4096, GUARD = 0xa5 };

void open_room(struct room *room, size_t most)
{
    room->size = (most + PAGE - 1) / PAGE * PAGE;
    uint8_t *all = mmap(NULL, room->size + 2 * PAGE, PROT_NONE, MAP_PRIVATE | MAP_ANONYMOUS, -1, 0);
    room->body = all + PAGE;
    room->kept = malloc(room->size);
    if (all == MAP_FAILED || room->kept == NULL || mprotect(room->body, room->size, PROT_READ | PROT_WRITE) != 0) {
        perror("a room for what is lent");
        exit(1);
    }
    room->lent = NULL;
    lend(room, 0, 1);
}

void lend(struct room *room, size_t len, int next_to_end)
{
    uint8_t *place = next_to_end ? room->body + room->size - len : room->body;
    /* The same place as before has its guards already. */
    if (place != room->lent || len != room->len)
        memset(room->body, GUARD, room->size);
    room->lent = place;
    room->len = len;
}

void keep(struct room *room)
{
    memcpy(room->kept, room->lent, room->len);
}

static int is_guard(const uint8_t *bytes, size_t len)
{
    return len == 0 || (bytes[0] == GUARD && memcmp(bytes, bytes + 1, len - 1) == 0);
}

int is_intact(const struct room *room)
{
    size_t before = (size_t)(room->lent - room->body);
    return is_guard(room->body, before) && is_guard(room->lent + room->len, room->size - before - room->len);
}

int is_kept(const struct room *room, size_t from)
{
    return from >= room->len || memcmp(room->lent + from, room->kept + from, room->len - from) == 0;
}
