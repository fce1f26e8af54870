/* Arguments out of bytes (input.h). */
#include "input.h"
#include <kohlsilk.h>
#include <stdio.h>
#include <string.h>

/* Types that match one another often; then names, more than are held; then texts of other kinds, some of which are turned away. */
static const char *const TEXTS[] = {
    "t:1", "t:2", "ssdp:all", "upnp:rootdevice", "u0", "u1", "u2", "u3", "u4", "u5", "u6", "u7", "u8", "http://h:80/d", "http://h", "https://[::1]/",
    "caf\xc3\xa9", "t:18446744073709551616", "t:", "", " t", "t\t", "t\n", "t\r", "\xff", "\xc0\x80",
};
enum { TYPES = 4, NAMES = 13 };

/* Lengths on both sides of the limits of a text. */
static const uint16_t LENGTHS[] = {0, 1, 79, 80, 81, 119, 120, 121, 127, 128, 129, 134, 135, 136, 255, TEXT_MOST};

#define COUNT(table) (sizeof(table) / sizeof((table)[0]))

uint8_t take(struct input *input)
{
    if (input->left == 0)
        return 0;
    input->left--;
    return *input->bytes++;
}

uint64_t take_number(struct input *input, int bytes)
{
    uint64_t number = 0;
    while (bytes-- > 0)
        number = number << 8 | take(input);
    return number;
}

static size_t take_bytes(struct input *input, uint8_t *to, size_t len)
{
    for (size_t k = 0; k < len; k++)
        to[k] = take(input);
    return len;
}

size_t take_text(struct input *input, uint8_t *to)
{
    uint8_t kind = take(input);
    if (kind < 16)
        return take_bytes(input, to, kind);
    if (kind < 48) {
        size_t len = LENGTHS[kind % COUNT(LENGTHS)];
        memset(to, 'a' + kind / 32, len);
        return len;
    }
    const char *text = TEXTS[kind % (kind < 96 ? COUNT(TEXTS) : kind < 160 ? NAMES : TYPES)];
    memcpy(to, text, strlen(text));
    return strlen(text);
}

size_t take_address(struct input *input, uint8_t *to)
{
    uint8_t kind = take(input);
    if (kind < 32)
        return take_bytes(input, to, kind % 20);
    if (kind < 48)
        return take_bytes(input, to, 16);
    const uint8_t address[4] = {10, 0, 0, kind % 8};
    memcpy(to, address, sizeof address);
    return sizeof address;
}

/* A message with a text of the input for its type. More than half are searches, since what they change is what the ledger counts. */
static size_t take_message(struct input *input, uint8_t kind, char *to)
{
    uint8_t text[TEXT_MOST];
    int len = (int)take_text(input, text);
    const char *type = (const char *)text, *name = TEXTS[kind % NAMES];
    unsigned number = take(input);
    /* Most searches have a small MX, and some 0 or one that does not fit in a byte. */
    unsigned mx = number < 8 ? 250 + number : number % 6;
    if (kind < 160)
        return (size_t)snprintf(to, DATAGRAM_MOST, "M-SEARCH * HTTP/1.1\r\nMAN: \"ssdp:discover\"\r\nST: %.*s\r\nMX: %u\r\n\r\n", len, type, mx);
    if (kind < 192)
        return (size_t)snprintf(to, DATAGRAM_MOST, "NOTIFY * HTTP/1.1\r\nNTS: ssdp:byebye\r\nNT: %.*s\r\nUSN: %s\r\n\r\n", len, type, name);
    if (kind < 224)
        return (size_t)snprintf(to, DATAGRAM_MOST, "HTTP/1.1 200 OK\r\nST: %.*s\r\nUSN: %s\r\nLOCATION: l\r\n\r\n", len, type, name);
    return (size_t)snprintf(to, DATAGRAM_MOST, "NOTIFY * HTTP/1.1\r\nNTS: ssdp:alive\r\nNT: %.*s\r\nUSN: %s\r\nLOCATION: l\r\n\r\n", len, type, name);
}

size_t take_datagram(struct input *input, uint8_t *to)
{
    uint8_t kind = take(input);
    if (kind < 24)
        return take_bytes(input, to, kind);
    size_t len = take_message(input, kind, (char *)to);
    uint8_t damage = take(input);
    if (damage < 16)
        to[take_number(input, 2) % len] = take(input);
    else if (damage < 24)
        len = take_number(input, 2) % len;
    return len;
}

size_t take_outbox_length(struct input *input, size_t need)
{
    const size_t lengths[] = {
        0, 1, need > 0 ? need - 1 : 0, need + 1, need + KOHLSILK_RECORD, KOHLSILK_OUTBOX - 1, KOHLSILK_OUTBOX, KOHLSILK_OUTBOX + KOHLSILK_RECORD,
    };
    uint8_t kind = take(input);
    if (kind < 16)
        return take_number(input, 2) % (need + 1);
    return kind < 176 ? lengths[kind % COUNT(lengths)] : need;
}

uint64_t take_time(struct input *input, uint64_t *now)
{
    uint8_t kind = take(input);
    switch (kind) {
    case 0:
        return take_number(input, 8);
    case 1:
        return KOHLSILK_TIME_MAX;
    case 2:
        return KOHLSILK_TIME_MAX + 1;
    case 3:
        return *now / 2;
    case 4:
        return *now += take_number(input, 3);
    default:
        return *now += kind % 32;
    }
}

void take_content(struct input *input, uint8_t *to, size_t len)
{
    uint8_t kind = take(input);
    uint64_t state = take_number(input, 4) * 2 + 1;
    memset(to, kind % 4 == 3 ? 0xff : 0, len);
    if (kind % 4 >= 2)
        return;
    /* Random bytes, or a small number in every eighth byte: as counts and lengths these are within the tables now and then. */
    for (size_t k = 0; k < len; k += kind % 4 == 1 ? 8 : 1) {
        state = state * UINT64_C(6364136223846793005) + UINT64_C(1442695040888963407);
        to[k] = (uint8_t)(kind % 4 == 1 ? (state >> 40) % 12 : state >> 40);
    }
}
