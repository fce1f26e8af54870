/* How much stack each call takes. Makes every call once, on an engine whose tables are full of the longest texts, on a stack of its own that was painted
 * before, and prints the call's name and the bytes from the caller's frame down to the lowest one that was written.
 *
 *   cc -O2 -Wl,-z,now -I include hosts/c/stack.c target/staticlib/libhost.a -o target/stack && target/stack */
#define _GNU_SOURCE
#include <kohlsilk.h>
#include <stdio.h>
#include <stdlib.h>
#include <string.h>
#include <ucontext.h>

enum { PAINT = 0xa5, UP = KOHLSILK_UP | KOHLSILK_RUNNING | KOHLSILK_MULTICAST, NOW = 1000, HERE = 0x0a000001, GROUP_WAITS = 2 };

static struct kohlsilk_engine engine;
static struct kohlsilk_answer answer;
static uint8_t outbox[KOHLSILK_OUTBOX], address[4] = {10, 0, 0, 1}, stack[1 << 16];
static uint8_t name[KOHLSILK_NAME_SIZE], type[KOHLSILK_TYPE_SIZE], location[KOHLSILK_LOCATION_SIZE];
static char search[256], notify[512];
static ucontext_t caller, callee;
static const uint8_t *top;

static void must(const char *what, int holds)
{
    if (!holds) {
        fprintf(stderr, "%s: refusal %u, %zu records\n", what, answer.refusal, answer.records);
        exit(1);
    }
}

/* A text of its greatest size, and the name of number k. */
static void fill(uint8_t *text, size_t size, const char *front)
{
    memset(text, 'x', size);
    memcpy(text, front, strlen(front));
}

static const uint8_t *named(unsigned k)
{
    name[sizeof name - 1] = (uint8_t)('0' + k);
    return name;
}

static void make_advertise(unsigned k)
{
    answer = kohlsilk_advertise(&engine, named(k), sizeof name, type, sizeof type, location, sizeof location, outbox, sizeof outbox);
}

static void make_search(uint32_t sender)
{
    answer = kohlsilk_on_data(&engine, NOW, sender, 5000, HERE, (const uint8_t *)search, strlen(search));
}

/* Full tables: every name waits to answer to the group. */
static void full(void)
{
    must("new", (answer = kohlsilk_new(&engine, 0, NOW)).refusal == 0);
    for (uint32_t k = 1; k <= KOHLSILK_LINKS; k++) {
        answer = kohlsilk_new_link(&engine, k, UP, 0, outbox, sizeof outbox);
        must("new_link", answer.refusal == 0);
        for (uint8_t a = 1; a <= KOHLSILK_ADDRESSES; a++) {
            const uint8_t each[4] = {10, 0, (uint8_t)k, a};
            must("new_address", (answer = kohlsilk_new_address(&engine, k, each, sizeof each, outbox, sizeof outbox)).refusal == 0);
        }
    }
    for (unsigned k = 0; k < KOHLSILK_SUBSCRIPTIONS; k++)
        must("subscribe", (answer = kohlsilk_subscribe(&engine, type, sizeof type, outbox, sizeof outbox)).refusal == 0);
    for (unsigned k = 0; k < KOHLSILK_NAMES; k++)
        make_advertise(k), must("advertise", answer.refusal == 0);
    for (uint32_t sender = 1; sender <= GROUP_WAITS; sender++)
        make_search(sender), must("on_data", answer.matched == KOHLSILK_NAMES);
}

/* The calls, each with what makes the engine ready for it and what it must answer. */
static void ready_nothing(void) {}
static void ready_down(void) { kohlsilk_new_link(&engine, 1, KOHLSILK_MULTICAST, 0, outbox, sizeof outbox); }
static void ready_room(void) { kohlsilk_deleted_address(&engine, 1, (const uint8_t[]){10, 0, 1, 1}, sizeof address); }
static void ready_unasked(void) { kohlsilk_handle_timeout(&engine, NOW, outbox, sizeof outbox); }
static void ready_gone(void) { kohlsilk_deadvertise(&engine, named(0), sizeof name, outbox, sizeof outbox); }

static void ready_fewer(void)
{
    kohlsilk_new(&engine, 0, NOW);
    kohlsilk_new_link(&engine, 1, UP, 0, outbox, sizeof outbox);
    kohlsilk_new_address(&engine, 1, address, sizeof address, outbox, sizeof outbox);
    for (unsigned k = 0; k < KOHLSILK_NAMES; k++)
        make_advertise(k);
    for (unsigned k = 1; k < KOHLSILK_SUBSCRIPTIONS; k++)
        kohlsilk_subscribe(&engine, type, sizeof type, outbox, sizeof outbox);
}

static void call_new(void) { answer = kohlsilk_new(&engine, 1, NOW); }
static void call_new_link(void) { answer = kohlsilk_new_link(&engine, 1, UP, 0, outbox, sizeof outbox); }
static void call_deleted_link(void) { answer = kohlsilk_deleted_link(&engine, 1, 0); }
static void call_new_address(void) { answer = kohlsilk_new_address(&engine, 1, address, sizeof address, outbox, sizeof outbox); }
static void call_deleted_address(void) { answer = kohlsilk_deleted_address(&engine, 1, address, sizeof address); }
static void call_subscribe(void) { answer = kohlsilk_subscribe(&engine, type, sizeof type, outbox, sizeof outbox); }
static void call_advertise(void) { make_advertise(0); }
static void call_deadvertise(void) { answer = kohlsilk_deadvertise(&engine, named(0), sizeof name, outbox, sizeof outbox); }
static void call_refresh(void) { answer = kohlsilk_refresh(&engine, outbox, sizeof outbox); }
static void call_search(void) { make_search(1); }
static void call_notify(void) { answer = kohlsilk_on_data(&engine, NOW, 1, 5000, HERE, (const uint8_t *)notify, strlen(notify)); }
static void call_handle_timeout(void) { answer = kohlsilk_handle_timeout(&engine, NOW, outbox, sizeof outbox); }
static void call_reset_refresh_timer(void) { answer = kohlsilk_reset_refresh_timer(&engine, NOW); }

/* What a call needs, as the records of that call. */
static void note_need(size_t bytes)
{
    memset(&answer, 0, sizeof answer);
    answer.records = bytes / KOHLSILK_RECORD;
}

static void call_announcement_need(void) { note_need(kohlsilk_advertise_need(&engine)); }
static void call_deadvertise_need(void) { note_need(kohlsilk_deadvertise_need(&engine, named(0), sizeof name)); }
static void call_refresh_need(void) { note_need(kohlsilk_refresh_need(&engine)); }
static void call_handle_timeout_need(void) { note_need(kohlsilk_handle_timeout_need(&engine, NOW)); }
static void call_new_link_need(void) { note_need(kohlsilk_new_link_need(&engine, 1, UP)); }
static void call_new_address_need(void) { note_need(kohlsilk_new_address_need(&engine, 1, address, sizeof address)); }

enum { SOURCES = KOHLSILK_LINKS * KOHLSILK_ADDRESSES, ALL = KOHLSILK_NAMES + KOHLSILK_SUBSCRIPTIONS };

static const struct {
    const char *name;
    void (*ready)(void), (*call)(void);
    size_t records;
} calls[] = {
    {"new", ready_nothing, call_new, 0},
    {"new_link", ready_down, call_new_link, KOHLSILK_ADDRESSES * ALL},
    {"deleted_link", ready_nothing, call_deleted_link, 0},
    {"new_address", ready_room, call_new_address, ALL},
    {"deleted_address", ready_nothing, call_deleted_address, 0},
    {"subscribe", ready_fewer, call_subscribe, 1},
    {"advertise, replacing", ready_nothing, call_advertise, SOURCES},
    {"advertise, new", ready_gone, call_advertise, SOURCES},
    {"deadvertise", ready_nothing, call_deadvertise, SOURCES},
    {"refresh", ready_nothing, call_refresh, SOURCES * ALL},
    {"on_data, a search", ready_unasked, call_search, 0},
    {"on_data, a notice", ready_nothing, call_notify, 0},
    {"handle_timeout", ready_nothing, call_handle_timeout, KOHLSILK_RECORDS},
    {"reset_refresh_timer", ready_nothing, call_reset_refresh_timer, 0},
    {"announcement_need", ready_nothing, call_announcement_need, SOURCES},
    {"deadvertise_need", ready_nothing, call_deadvertise_need, SOURCES},
    {"refresh_need", ready_nothing, call_refresh_need, SOURCES * ALL},
    {"handle_timeout_need", ready_nothing, call_handle_timeout_need, KOHLSILK_RECORDS},
    {"new_link_need", ready_down, call_new_link_need, KOHLSILK_ADDRESSES * ALL},
    {"new_address_need", ready_room, call_new_address_need, ALL},
};

static void (*made)(void);

static void on_small_stack(void)
{
    top = __builtin_frame_address(0);
    made();
}

static size_t stack_of(void (*call)(void))
{
    memset(stack, PAINT, sizeof stack);
    getcontext(&callee);
    callee.uc_stack.ss_sp = stack;
    callee.uc_stack.ss_size = sizeof stack;
    callee.uc_link = &caller;
    made = call;
    makecontext(&callee, on_small_stack, 0);
    swapcontext(&caller, &callee);
    const uint8_t *lowest = stack;
    while (*lowest == PAINT)
        lowest++;
    return (size_t)(top - lowest);
}

int main(void)
{
    fill(name, sizeof name, "uuid:");
    fill(type, sizeof type, "urn:");
    fill(location, sizeof location, "http://255.255.255.255:65535/");
    snprintf(search, sizeof search, "M-SEARCH * HTTP/1.1\r\nMX: 1\r\nST: %.*s\r\n", (int)sizeof type, (const char *)type);
    snprintf(notify, sizeof notify, "NOTIFY * HTTP/1.1\r\nNT: %.*s\r\nNTS: ssdp:alive\r\nUSN: u\r\nLOCATION: l\r\n", (int)sizeof type,
             (const char *)type);
    for (size_t k = 0; k < sizeof calls / sizeof calls[0]; k++) {
        full();
        calls[k].ready();
        size_t bytes = stack_of(calls[k].call);
        must(calls[k].name, answer.refusal == 0 && answer.records == calls[k].records);
        printf("%s\t%zu\n", calls[k].name, bytes);
    }
    return 0;
}
