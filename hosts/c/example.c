/* Document 01's example through the C functions: a name is advertised, two searchers ask, and their reply goes to the group.
 * Prints each answer in a line (refusal, records, matched, joined, alone, group, dropped, waiting, poll), then what is sent last.
 *
 *   cc -I include hosts/c/example.c target/staticlib/libhost.a -o target/example && target/example */
#include <kohlsilk.h>
#include <stdio.h>
#include <string.h>

static struct kohlsilk_engine engine;
static uint8_t outbox[KOHLSILK_OUTBOX];

static size_t show(struct kohlsilk_answer a)
{
    printf("%u\t%zu\t%zu\t%zu\t%zu\t%zu\t%zu\t%zu\t%llu\n", a.refusal, a.records, a.matched, a.joined, a.alone, a.group, a.dropped,
           a.waiting, (unsigned long long)a.poll);
    return a.records;
}

/* A host would send the message from `source` to `destination` here. */
static void send_record(const uint8_t *record)
{
    const uint8_t *to = record, *from = record + 6;
    unsigned port = record[4] * 256u + record[5], length = record[10] * 256u + record[11];
    printf("%u.%u.%u.%u to %u.%u.%u.%u port %u, %u bytes:\n%.*s", from[0], from[1], from[2], from[3], to[0], to[1], to[2], to[3], port,
           length, (int)length, (const char *)record + KOHLSILK_MESSAGE);
}

static const uint8_t *bytes(const char *text)
{
    return (const uint8_t *)text;
}

int main(void)
{
    static const uint8_t address[4] = {10, 0, 0, 1};
    const uint32_t here = 0x0a000001, first = 0x0a000009, second = 0x0a000008;
    const char *search = "M-SEARCH * HTTP/1.1\r\nST: t:1\r\nMX: 1\r\n";
    const uint32_t flags = KOHLSILK_UP | KOHLSILK_RUNNING | KOHLSILK_MULTICAST;

    show(kohlsilk_new(&engine, 0, 0));
    show(kohlsilk_new_link(&engine, 1, flags, 0, outbox, sizeof outbox));
    show(kohlsilk_new_address(&engine, 1, address, sizeof address, outbox, sizeof outbox));
    show(kohlsilk_advertise(&engine, bytes("u1"), 2, bytes("t:2"), 3, bytes("http://h/d"), 10, outbox, sizeof outbox));
    show(kohlsilk_on_data(&engine, 100, first, 5000, here, bytes(search), strlen(search)));
    show(kohlsilk_on_data(&engine, 101, second, 5000, here, bytes(search), strlen(search)));
    /* A host with little memory lends no more than the call needs. */
    size_t need = kohlsilk_handle_timeout_need(&engine, 110);
    size_t records = show(kohlsilk_handle_timeout(&engine, 110, outbox, need));
    for (size_t k = 0; k < records; k++)
        send_record(outbox + KOHLSILK_RECORD * k);
    return 0;
}
