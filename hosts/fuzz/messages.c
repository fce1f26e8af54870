/* Messages (messages.h): what is built reads back to its kind and its fields, and a refused build leaves its buffer. */
#include "messages.h"
#include "room.h"
#include <kohlsilk.h>
#include <stdio.h>
#include <stdlib.h>
#include <string.h>

enum { MESSAGE_MOST = 506, LOCATION_BUILT = 135, PARSED = 0, REFUSALS = 15 };

static struct room buffer, datagram, fields[3];
static size_t made[1 + KOHLSILK_RESPONSE][REFUSALS];

static unsigned length_of(const uint8_t *record)
{
    return record[10] * 256u + record[11];
}

int is_record(const uint8_t *record)
{
    unsigned len = length_of(record);
    if (len > MESSAGE_MOST)
        return 0;
    for (size_t k = KOHLSILK_MESSAGE + len; k < KOHLSILK_RECORD; k++)
        if (record[k] != 0)
            return 0;
    return 1;
}

int is_readable(const uint8_t *record)
{
    return kohlsilk_parse(record + KOHLSILK_MESSAGE, length_of(record)).kind <= KOHLSILK_RESPONSE;
}

static void must(int holds, const char *what, unsigned kind, unsigned refusal)
{
    if (holds)
        return;
    fprintf(stderr, "message of kind %u, refusal %u: %s\n", kind, refusal, what);
    abort();
}

static void check_intact(unsigned kind, unsigned refusal)
{
    must(is_intact(&buffer) && is_intact(&datagram), "wrote beside what it was lent", kind, refusal);
    for (int k = 0; k < 3; k++)
        must(is_intact(&fields[k]) && is_kept(&fields[k], 0), "wrote to what it may only read", kind, refusal);
    must(is_kept(&datagram, 0), "wrote to the datagram", kind, refusal);
}

static int is_within(size_t start, size_t len, size_t whole)
{
    return start <= whole && len <= whole - start;
}

static void try_parse(struct input *input, int next_to_end)
{
    uint8_t bytes[DATAGRAM_MOST];
    size_t len = take_datagram(input, bytes);
    lend(&datagram, len, next_to_end);
    memcpy(datagram.lent, bytes, len);
    keep(&datagram);
    const struct kohlsilk_parsed read = kohlsilk_parse(datagram.lent, len);
    const int is_read = read.kind >= KOHLSILK_ALIVE && read.kind <= KOHLSILK_RESPONSE;
    must(is_read || read.kind == (len == 0 ? KOHLSILK_DATAGRAM_EMPTY : KOHLSILK_DATAGRAM_INVALID), "kind", read.kind, 0);
    must(is_within(read.first, read.first_len, len) && is_within(read.second, read.second_len, len) && is_within(read.third, read.third_len, len),
         "a field beyond the datagram", read.kind, 0);
    check_intact(read.kind, 0);
    made[PARSED][is_read ? 0 : read.kind]++;
}

#define TEXT(room) (room).lent, (room).len

static struct kohlsilk_written build(unsigned kind)
{
    switch (kind) {
    case KOHLSILK_SEARCH:
        return kohlsilk_build_search(TEXT(buffer), TEXT(fields[0]));
    case KOHLSILK_BYEBYE:
        return kohlsilk_build_byebye(TEXT(buffer), TEXT(fields[0]), TEXT(fields[1]));
    case KOHLSILK_ALIVE:
        return kohlsilk_build_notify(TEXT(buffer), TEXT(fields[0]), TEXT(fields[1]), TEXT(fields[2]));
    default:
        return kohlsilk_build_response(TEXT(buffer), TEXT(fields[0]), TEXT(fields[1]), TEXT(fields[2]));
    }
}

static int is_field(size_t start, size_t len, const struct room *field)
{
    return len == field->len && memcmp(buffer.lent + start, field->lent, len) == 0;
}

static void check_built(unsigned kind, size_t len)
{
    must(len <= buffer.len && len <= MESSAGE_MOST && is_kept(&buffer, len), "the length of a built message", kind, 0);
    const struct kohlsilk_parsed read = kohlsilk_parse(buffer.lent, len);
    must(read.kind == kind && is_field(read.first, read.first_len, &fields[0]), "the kind or the type of a built message", kind, 0);
    must(kind == KOHLSILK_SEARCH || is_field(read.second, read.second_len, &fields[1]), "the name of a built message", kind, 0);
    must(kind == KOHLSILK_SEARCH || kind == KOHLSILK_BYEBYE || is_field(read.third, read.third_len, &fields[2]), "the location of a built message",
         kind, 0);
}

static void try_build(struct input *input, unsigned kind, int next_to_end)
{
    const size_t limits[3] = {KOHLSILK_TYPE_SIZE, KOHLSILK_NAME_SIZE, LOCATION_BUILT};
    const int count = kind == KOHLSILK_SEARCH ? 1 : kind == KOHLSILK_BYEBYE ? 2 : 3;
    int is_over = 0;
    for (int k = 0; k < count; k++) {
        uint8_t bytes[TEXT_MOST];
        size_t len = take_text(input, bytes);
        lend(&fields[k], len, next_to_end);
        memcpy(fields[k].lent, bytes, len);
        keep(&fields[k]);
        is_over |= len > limits[k];
    }
    /* Every length up to that of the longest message, and beyond. */
    lend(&buffer, take_number(input, 2) % (MESSAGE_MOST + 64), next_to_end);
    keep(&buffer);
    const struct kohlsilk_written written = build(kind);
    must((written.refusal == KOHLSILK_TEXT_OVER_SIZE) == is_over, "a text over its size", kind, written.refusal);
    must(written.refusal == 0 || written.refusal == 3 || written.refusal == 4 || written.refusal == 6, "the number", kind, written.refusal);
    must(written.refusal == 0 || (written.len == 0 && is_kept(&buffer, 0)), "was refused and wrote something", kind, written.refusal);
    if (written.refusal == 0)
        check_built(kind, written.len);
    check_intact(kind, written.refusal);
    made[kind][written.refusal]++;
}

void try_message(struct input *input, uint8_t choice)
{
    if (buffer.body == NULL) {
        open_room(&buffer, 2 * MESSAGE_MOST);
        open_room(&datagram, DATAGRAM_MOST);
        for (int k = 0; k < 3; k++)
            open_room(&fields[k], TEXT_MOST);
    }
    const unsigned kind = choice % 5;
    if (kind == PARSED)
        try_parse(input, choice & 8);
    else
        try_build(input, kind, choice & 8);
}

void print_message_counts(void)
{
    static const char *const NAMES[] = {"parse", "build_notify", "build_byebye", "build_search", "build_response"};
    printf("%s\t0:%zu\t7:%zu\t8:%zu\n", NAMES[PARSED], made[PARSED][0], made[PARSED][7], made[PARSED][8]);
    for (int k = KOHLSILK_ALIVE; k <= KOHLSILK_RESPONSE; k++)
        printf("%s\t0:%zu\t3:%zu\t4:%zu\t6:%zu\n", NAMES[k], made[k][0], made[k][3], made[k][4], made[k][6]);
}
