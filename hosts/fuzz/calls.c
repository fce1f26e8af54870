/* Bytes to calls (calls.h). A list of calls goes by an engine that `new` makes of whatever the arrays hold, or by arrays of any content. Looked at
 * after each call: nothing beside what it was lent is touched (room.h); what it may only read, and all where it is refused, is as it was; it
 * is refused by no number but those that document 01 lists for it; records lie in the outbox as the header says, and fill what the call was said to need;
 * and from `new` on, matched = joined + alone + group + dropped + waiting. A call that is lent too short an outbox is made again with what it needs: it
 * was refused by 2 exactly if nothing refuses it then. */
#include "calls.h"
#include "input.h"
#include "messages.h"
#include "room.h"
#include <kohlsilk.h>
#include <stdio.h>
#include <stdlib.h>
#include <string.h>

/* What a call is lent: the five arrays, and its arguments. */
enum { HEAD, LINKS, SEARCHES, NUMBERS, TEXTS, ARRAYS, OUTBOX = ARRAYS, NAME, TYPE, LOCATION, ADDRESS, DATAGRAM, ROOMS, TIME, REFUSALS = 15 };

static struct room rooms[ROOMS];

static struct {
    uint64_t time;
    uint32_t seed, index, flags, outcome, sender, receiver;
    uint16_t port;
} with;

/* The sums of the list since its `new`, and of the whole run. */
static struct ledger {
    size_t matched, joined, alone, group, dropped, waiting;
} ledger, whole;
static int is_begun;

static uint64_t *words(int room)
{
    return (uint64_t *)(void *)rooms[room].lent;
}

#define BYTES(room) rooms[room].lent
#define TEXT(room) rooms[room].lent, rooms[room].len

static struct kohlsilk_answer make_new(void)
{
    return kohlsilk_lent_new(words(HEAD), words(NUMBERS), with.seed, with.time);
}

static struct kohlsilk_answer make_new_link(void)
{
    return kohlsilk_lent_new_link(words(HEAD), words(LINKS), BYTES(SEARCHES), words(NUMBERS), BYTES(TEXTS), with.index, with.flags, with.outcome,
                                  TEXT(OUTBOX));
}

static struct kohlsilk_answer make_deleted_link(void)
{
    return kohlsilk_lent_deleted_link(words(HEAD), words(LINKS), words(NUMBERS), with.index, with.outcome);
}

static struct kohlsilk_answer make_new_address(void)
{
    return kohlsilk_lent_new_address(words(HEAD), words(LINKS), BYTES(SEARCHES), words(NUMBERS), BYTES(TEXTS), with.index, TEXT(ADDRESS), TEXT(OUTBOX));
}

static struct kohlsilk_answer make_deleted_address(void)
{
    return kohlsilk_lent_deleted_address(words(HEAD), words(LINKS), words(NUMBERS), with.index, TEXT(ADDRESS));
}

static struct kohlsilk_answer make_subscribe(void)
{
    return kohlsilk_lent_subscribe(words(HEAD), words(LINKS), BYTES(SEARCHES), words(NUMBERS), TEXT(TYPE), TEXT(OUTBOX));
}

static struct kohlsilk_answer make_advertise(void)
{
    return kohlsilk_lent_advertise(words(HEAD), words(LINKS), words(NUMBERS), BYTES(TEXTS), TEXT(NAME), TEXT(TYPE), TEXT(LOCATION), TEXT(OUTBOX));
}

static struct kohlsilk_answer make_deadvertise(void)
{
    return kohlsilk_lent_deadvertise(words(HEAD), words(LINKS), words(NUMBERS), BYTES(TEXTS), TEXT(NAME), TEXT(OUTBOX));
}

static struct kohlsilk_answer make_refresh(void)
{
    return kohlsilk_lent_refresh(words(HEAD), words(LINKS), BYTES(SEARCHES), words(NUMBERS), BYTES(TEXTS), TEXT(OUTBOX));
}

static struct kohlsilk_answer make_on_data(void)
{
    return kohlsilk_lent_on_data(words(HEAD), BYTES(SEARCHES), words(NUMBERS), BYTES(TEXTS), with.time, with.sender, with.port, with.receiver,
                                 TEXT(DATAGRAM));
}

static struct kohlsilk_answer make_handle_timeout(void)
{
    return kohlsilk_lent_handle_timeout(words(HEAD), words(LINKS), BYTES(SEARCHES), words(NUMBERS), BYTES(TEXTS), with.time, TEXT(OUTBOX));
}

static struct kohlsilk_answer make_reset(void)
{
    return kohlsilk_lent_reset_refresh_timer(words(HEAD), words(NUMBERS), with.time);
}

static size_t need_nothing(void)
{
    return 0;
}

static size_t need_new_link(void)
{
    return kohlsilk_lent_new_link_need(words(HEAD), words(LINKS), BYTES(SEARCHES), with.index, with.flags);
}

static size_t need_new_address(void)
{
    return kohlsilk_lent_new_address_need(words(HEAD), words(LINKS), BYTES(SEARCHES), with.index, TEXT(ADDRESS));
}

static size_t need_announcement(void)
{
    return kohlsilk_lent_announcement_need(words(HEAD), words(LINKS));
}

static size_t need_deadvertise(void)
{
    return kohlsilk_lent_deadvertise_need(words(HEAD), words(LINKS), words(NUMBERS), BYTES(TEXTS), TEXT(NAME));
}

static size_t need_refresh(void)
{
    return kohlsilk_lent_refresh_need(words(HEAD), words(LINKS), BYTES(SEARCHES));
}

static size_t need_handle_timeout(void)
{
    return kohlsilk_lent_handle_timeout_need(words(HEAD), words(LINKS), BYTES(SEARCHES), words(NUMBERS), with.time);
}

#define BIT(k) (1u << (k))

/* The calls: what each needs of an outbox, what it takes beside the arrays, which of what it is lent it may change, and the numbers by which document 01
 * has it refused. */
static const struct call {
    const char *name;
    struct kohlsilk_answer (*make)(void);
    size_t (*need)(void);
    uint32_t takes, changes, refusals;
} calls[] = {
    {"new", make_new, need_nothing, BIT(TIME), BIT(HEAD), BIT(1)},
    {"new_link", make_new_link, need_new_link, BIT(OUTBOX), BIT(HEAD) | BIT(LINKS) | BIT(OUTBOX), BIT(2) | BIT(11) | BIT(13) | BIT(14)},
    {"deleted_link", make_deleted_link, need_nothing, 0, BIT(HEAD) | BIT(LINKS), BIT(11)},
    {"new_address", make_new_address, need_new_address, BIT(ADDRESS) | BIT(OUTBOX), BIT(HEAD) | BIT(LINKS) | BIT(OUTBOX),
     BIT(2) | BIT(11) | BIT(12) | BIT(13)},
    {"deleted_address", make_deleted_address, need_nothing, BIT(ADDRESS), BIT(HEAD) | BIT(LINKS), BIT(11) | BIT(12)},
    {"subscribe", make_subscribe, need_announcement, BIT(TYPE) | BIT(OUTBOX), BIT(HEAD) | BIT(SEARCHES) | BIT(OUTBOX),
     BIT(2) | BIT(3) | BIT(4) | BIT(5)},
    {"advertise", make_advertise, need_announcement, BIT(NAME) | BIT(TYPE) | BIT(LOCATION) | BIT(OUTBOX),
     BIT(HEAD) | BIT(NUMBERS) | BIT(TEXTS) | BIT(OUTBOX), BIT(2) | BIT(3) | BIT(4) | BIT(5)},
    {"deadvertise", make_deadvertise, need_deadvertise, BIT(NAME) | BIT(OUTBOX), BIT(HEAD) | BIT(NUMBERS) | BIT(TEXTS) | BIT(OUTBOX), BIT(2)},
    {"refresh", make_refresh, need_refresh, BIT(OUTBOX), BIT(OUTBOX), BIT(2)},
    {"on_data", make_on_data, need_nothing, BIT(TIME) | BIT(DATAGRAM), BIT(NUMBERS) | BIT(TEXTS), BIT(1) | BIT(7) | BIT(8) | BIT(9) | BIT(10)},
    {"handle_timeout", make_handle_timeout, need_handle_timeout, BIT(TIME) | BIT(OUTBOX), BIT(HEAD) | BIT(NUMBERS) | BIT(OUTBOX), BIT(1) | BIT(2)},
    {"reset_refresh_timer", make_reset, need_nothing, BIT(TIME), BIT(HEAD), BIT(1)},
};

enum { CALLS = sizeof calls / sizeof calls[0], NEW = 0, DATA = 9 };

/* How often each was accepted, or refused by each number; and accepted with an outbox of 0 bytes. */
static size_t made[CALLS][REFUSALS], lent_nothing[CALLS];

/* What came of a call, for libFuzzer, which cannot see into the library. */
__attribute__((section("__libfuzzer_extra_counters"))) static uint8_t outcomes[CALLS * REFUSALS * 8];

static void must(int holds, const struct call *call, const struct kohlsilk_answer *answer, const char *what)
{
    if (holds)
        return;
    fprintf(stderr, "%s, refusal %u, %zu records: %s\n", call->name, answer->refusal, answer->records, what);
    abort();
}

/* The number by which a call has to be refused for its arguments alone, in document 01's order; 0, if it may be accepted. */
static uint32_t due_refusal(const struct call *call)
{
    const size_t address = rooms[ADDRESS].len;
    const struct {
        uint32_t number;
        int is_due;
    } by[] = {
        {1, with.time > KOHLSILK_TIME_MAX},
        {3, rooms[NAME].len > KOHLSILK_NAME_SIZE || rooms[TYPE].len > KOHLSILK_TYPE_SIZE || rooms[LOCATION].len > KOHLSILK_LOCATION_SIZE},
        {7, rooms[DATAGRAM].len == 0},
        {11, with.index == 0},
        {12, address != 4 && address != 16},
    };
    for (size_t k = 0; k < sizeof by / sizeof by[0]; k++)
        if (by[k].is_due && call->refusals & BIT(by[k].number))
            return by[k].number;
    return 0;
}

static void check_refusal(const struct call *call, const struct kohlsilk_answer *answer, size_t need)
{
    const uint32_t by_arguments = BIT(1) | BIT(3) | BIT(7) | BIT(11) | BIT(12), due = due_refusal(call);
    const int is_short = rooms[OUTBOX].len < need;
    must(answer->refusal < REFUSALS, call, answer, "a number that is no refusal");
    if (due != 0)
        must(answer->refusal == due, call, answer, "another refusal was due");
    else if (answer->refusal != 0)
        must((BIT(answer->refusal) & call->refusals & ~by_arguments) != 0, call, answer, "not to be refused by this number");
    must(answer->refusal != KOHLSILK_OUTBOX_SHORT || is_short, call, answer, "refused for an outbox that is long enough");
    if (answer->refusal == 0) {
        must(!is_short, call, answer, "accepted with an outbox that is too short");
        must(answer->records * KOHLSILK_RECORD == need, call, answer, "other records than it was said to need room for");
        return;
    }
    const size_t sum = answer->records + answer->matched + answer->joined + answer->alone + answer->group + answer->dropped;
    must(sum == 0 && (answer->mask | answer->told | answer->leave) == 0, call, answer, "a refusal that counts something");
}

static void check_rooms(const struct call *call, const struct kohlsilk_answer *answer)
{
    /* A refused `new` makes an engine too. */
    const uint32_t changes = answer->refusal == 0 || call == &calls[NEW] ? call->changes : 0;
    for (int k = 0; k < ROOMS; k++) {
        must(is_intact(&rooms[k]), call, answer, "wrote beside what it was lent");
        must((changes & BIT(k)) != 0 || is_kept(&rooms[k], 0), call, answer, "changed what it may only read, or was refused and changed something");
    }
    must(is_kept(&rooms[OUTBOX], answer->records * KOHLSILK_RECORD), call, answer, "wrote behind the last record");
}

static void check_answer(const struct call *call, const struct kohlsilk_answer *answer)
{
    uint32_t ones = 0;
    for (uint32_t mask = answer->mask; mask != 0; mask &= mask - 1)
        ones++;
    must(answer->records == 0 || call->takes & BIT(OUTBOX), call, answer, "records without an outbox");
    must(answer->records <= KOHLSILK_RECORDS, call, answer, "too many records");
    must(answer->waiting <= KOHLSILK_NAMES, call, answer, "more wait than there are names");
    must(answer->mask < BIT(KOHLSILK_SUBSCRIPTIONS) && answer->told == ones, call, answer, "subscriptions told");
    for (size_t k = 0; k < answer->records; k++) {
        const uint8_t *record = rooms[OUTBOX].lent + KOHLSILK_RECORD * k;
        must(is_record(record), call, answer, "a record that is not as the header says");
        /* Of arrays with any content a text may be none that can be read back. */
        must(!is_begun || is_readable(record), call, answer, "a message that cannot be read back");
    }
}

static void check_ledger(const struct call *call, const struct kohlsilk_answer *answer)
{
    if (call == &calls[NEW]) {
        is_begun = 1;
        memset(&ledger, 0, sizeof ledger);
        must(answer->waiting == 0, call, answer, "waits in a new engine");
    }
    if (!is_begun)
        return;
    must(answer->refusal == 0 || answer->waiting == ledger.waiting, call, answer, "a refused call changed how many wait");
    ledger.matched += answer->matched, whole.matched += answer->matched;
    ledger.joined += answer->joined, whole.joined += answer->joined;
    ledger.alone += answer->alone, whole.alone += answer->alone;
    ledger.group += answer->group, whole.group += answer->group;
    ledger.dropped += answer->dropped, whole.dropped += answer->dropped;
    ledger.waiting = answer->waiting;
    must(ledger.matched == ledger.joined + ledger.alone + ledger.group + ledger.dropped + ledger.waiting, call, answer,
         "matched is not joined + alone + group + dropped + waiting");
}

static void keep_all(void)
{
    for (int k = 0; k < ROOMS; k++)
        keep(&rooms[k]);
}

/* Lends a room what the input has for it, or nothing where the call does not take it. */
static void lend_taken(const struct call *call, int room, struct input *input, size_t (*taken)(struct input *, uint8_t *), int next_to_end)
{
    uint8_t bytes[DATAGRAM_MOST];
    size_t len = call->takes & BIT(room) ? taken(input, bytes) : 0;
    lend(&rooms[room], len, next_to_end);
    memcpy(rooms[room].lent, bytes, len);
}

static void take_arguments(const struct call *call, struct input *input, uint64_t *now, uint8_t sides)
{
    const uint8_t choice = take(input);
    with.seed = (uint32_t)take_number(input, choice < 64 ? 4 : 1);
    /* Few links and few searchers, so that they are met again; now and then any. */
    with.index = choice < 4 ? (uint32_t)take_number(input, 4) : choice % 5;
    /* Most links are up; some turn down, to turn up again with their addresses. */
    with.flags = choice < 176 ? KOHLSILK_UP | KOHLSILK_RUNNING | KOHLSILK_MULTICAST : choice < 240 ? KOHLSILK_MULTICAST : (uint32_t)take_number(input, 2);
    with.outcome = choice % 16 == 1 ? take(input) : 0;
    with.sender = 0x0a000008 + choice % 2;
    with.port = choice < 8 ? (uint16_t)take_number(input, 2) : 5000;
    with.receiver = 0x0a000001;
    if (call->takes & BIT(TIME))
        with.time = take_time(input, now);
    for (int room = NAME; room <= LOCATION; room++)
        lend_taken(call, room, input, take_text, sides & 2);
    lend_taken(call, ADDRESS, input, take_address, sides & 4);
    lend_taken(call, DATAGRAM, input, take_datagram, sides & 8);
}

static struct kohlsilk_answer make_checked(const struct call *call, size_t need)
{
    keep_all();
    const struct kohlsilk_answer answer = call->make();
    check_refusal(call, &answer, need);
    check_rooms(call, &answer);
    check_ledger(call, &answer);
    check_answer(call, &answer);
    const size_t which = (size_t)(call - calls) * REFUSALS + answer.refusal;
    made[call - calls][answer.refusal]++;
    lent_nothing[call - calls] += answer.refusal == 0 && rooms[OUTBOX].len == 0;
    outcomes[8 * which + ((answer.records != 0) | (answer.waiting != 0) << 1 | (answer.joined + answer.group + answer.dropped != 0) << 2)] = 1;
    return answer;
}

/* What a call needs by the library's own word, which changes nothing. */
static size_t need_of(const struct call *call)
{
    static const struct kohlsilk_answer NONE;
    keep_all();
    const size_t need = call->need();
    must(need % KOHLSILK_RECORD == 0 && need <= KOHLSILK_OUTBOX, call, &NONE, "what it needs is no number of records, or more than any call does");
    for (int k = 0; k < ROOMS; k++)
        must(is_intact(&rooms[k]) && is_kept(&rooms[k], 0), call, &NONE, "what it needs was asked for, and something changed");
    return need;
}

static void make_call(const struct call *call, struct input *input, uint64_t *now)
{
    const uint8_t sides = take(input);
    take_arguments(call, input, now, sides);
    const size_t need = need_of(call);
    lend(&rooms[OUTBOX], call->takes & BIT(OUTBOX) ? take_outbox_length(input, need) : 0, sides & 1);
    const struct kohlsilk_answer answer = make_checked(call, need);
    if (rooms[OUTBOX].len >= need)
        return;
    lend(&rooms[OUTBOX], need, sides & 1);
    const struct kohlsilk_answer again = make_checked(call, need);
    must(answer.refusal == (again.refusal == 0 ? KOHLSILK_OUTBOX_SHORT : again.refusal), call, &answer, "with what it needs it answers otherwise");
}

/* Any content, next to one of the closed pages. */
static void fill_arrays(struct input *input)
{
    static const size_t SIZES[ARRAYS] = {
        sizeof((struct kohlsilk_engine *)0)->head,    sizeof((struct kohlsilk_engine *)0)->links, sizeof((struct kohlsilk_engine *)0)->searches,
        sizeof((struct kohlsilk_engine *)0)->numbers, sizeof((struct kohlsilk_engine *)0)->texts,
    };
    static const size_t MOST[ROOMS - ARRAYS] = {KOHLSILK_OUTBOX + KOHLSILK_RECORD, TEXT_MOST, TEXT_MOST, TEXT_MOST, 20, DATAGRAM_MOST};
    for (int k = 0; k < ROOMS && rooms[k].body == NULL; k++)
        open_room(&rooms[k], k < ARRAYS ? SIZES[k] : MOST[k - ARRAYS]);
    const uint8_t sides = take(input);
    for (int k = 0; k < ARRAYS; k++) {
        lend(&rooms[k], SIZES[k], sides >> k & 1);
        take_content(input, rooms[k].lent, SIZES[k]);
    }
}

/* One number or byte of an array becomes another. */
static void scribble(struct input *input)
{
    struct room *room = &rooms[take(input) % ARRAYS];
    room->lent[take_number(input, 2) % room->len] = take(input);
}

int LLVMFuzzerTestOneInput(const uint8_t *bytes, size_t size)
{
    struct input input = {bytes, size};
    uint64_t now = 0;
    const int begins_with_new = take(&input) % 4 != 0;
    fill_arrays(&input);
    is_begun = 0;
    if (begins_with_new)
        make_call(&calls[NEW], &input, &now);
    while (input.left > 0) {
        const uint8_t choice = take(&input);
        if (choice < 16)
            try_message(&input, choice);
        else if (choice == 16)
            make_call(&calls[NEW], &input, &now);
        else if (choice < 24 && !is_begun)
            scribble(&input);
        else /* A third of the calls are datagrams. */
            make_call(&calls[choice < 96 ? DATA : 1 + choice % (CALLS - 1)], &input, &now);
    }
    return 0;
}

void print_counts(void)
{
    for (int k = 0; k < CALLS; k++) {
        printf("%s", calls[k].name);
        for (int number = 0; number < REFUSALS; number++)
            if (number == 0 || calls[k].refusals & BIT(number))
                printf("\t%d:%zu", number, made[k][number]);
        if (calls[k].takes & BIT(OUTBOX))
            printf("\tlent nothing:%zu", lent_nothing[k]);
        printf("\n");
    }
    print_message_counts();
    printf("ledger\tmatched:%zu\tjoined:%zu\talone:%zu\tgroup:%zu\tdropped:%zu\n", whole.matched, whole.joined, whole.alone, whole.group, whole.dropped);
}
