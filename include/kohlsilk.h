/* Kohlsilk, an SSDP discovery engine without sockets, for a host in C: link target/staticlib/libhost.a (`tools/build lib host`).
 *
 * The host hands datagrams, times and news of the network in. It takes records, which it sends, and the instant of the
 * next timeout out. Every call takes any numbers and any bytes, answers, and comes back; what it cannot accept it refuses by
 * number (enum kohlsilk_refusal) and leaves the engine and the outbox as they were.
 *
 * What the host sees to: a pointer to an engine points to a whole one; `bytes, length` names that many readable bytes
 * (writable ones for an outbox or a buffer); neither is null, even where the length is 0; what a call writes (the engine, the
 * outbox, the buffer) overlaps nothing else that the call is given; and no two calls on one engine run at a time.
 *
 * Times are milliseconds, at most 2^63 - 1, from any start. Addresses are numbers with the first byte highest: 10.0.0.1 is 0x0a000001. */
#ifndef KOHLSILK_H
#define KOHLSILK_H

#include <stddef.h>
#include <stdint.h>

#ifdef __cplusplus
extern "C" {
#endif

/* How much an engine holds: names, subscriptions, links, addresses of a link; and the longest texts, in bytes. */
#define KOHLSILK_NAMES 8
#define KOHLSILK_SUBSCRIPTIONS 4
#define KOHLSILK_LINKS 3
#define KOHLSILK_ADDRESSES 2
#define KOHLSILK_NAME_SIZE 128
#define KOHLSILK_TYPE_SIZE 80
#define KOHLSILK_LOCATION_SIZE 120

/* The latest time, in milliseconds: a call with a later one is refused. */
#define KOHLSILK_TIME_MAX UINT64_C(0x7fffffffffffffff)

/* What a record takes of an outbox, the most records of a call, and the length of an outbox that no call refuses. Most calls need less:
 * kohlsilk_refresh_need and its like, below, tell how much. */
#define KOHLSILK_RECORD 524
#define KOHLSILK_RECORDS ((2 * KOHLSILK_NAMES + KOHLSILK_SUBSCRIPTIONS) * KOHLSILK_LINKS * KOHLSILK_ADDRESSES)
#define KOHLSILK_OUTBOX (KOHLSILK_RECORD * KOHLSILK_RECORDS)

/* A record lies in the outbox at byte KOHLSILK_RECORD * k: destination (4 bytes), port (2), source (4) and the message's length (2),
 * each with its highest byte first; then the message, from byte KOHLSILK_MESSAGE on. */
#define KOHLSILK_MESSAGE 12

/* The flags of a link, as SIOCGIFFLAGS and rtnetlink have them. */
#define KOHLSILK_UP 0x1u
#define KOHLSILK_RUNNING 0x40u
#define KOHLSILK_MULTICAST 0x1000u

enum kohlsilk_refusal {
    KOHLSILK_ACCEPTED = 0,
    KOHLSILK_TIME_LATE = 1,         /* a time above KOHLSILK_TIME_MAX */
    KOHLSILK_OUTBOX_SHORT = 2,      /* an outbox shorter than what this very call needs, where nothing else refuses the call */
    KOHLSILK_TEXT_OVER_SIZE = 3,    /* a type, a name or a location over its size (in a build a location may have 135 bytes) */
    KOHLSILK_TEXT_NOT_GOOD = 4,     /* a text not UTF-8, holding a line end, or starting or ending in white space */
    KOHLSILK_TABLE_FULL = 5,        /* a new name or a subscription where KOHLSILK_NAMES or KOHLSILK_SUBSCRIPTIONS are held */
    KOHLSILK_BUFFER_SHORT = 6,      /* a buffer shorter than the message to be built */
    KOHLSILK_DATAGRAM_EMPTY = 7,
    KOHLSILK_DATAGRAM_INVALID = 8,  /* no message that the engine reads */
    KOHLSILK_WAIT_ZERO = 9,         /* a search with MX 0 */
    KOHLSILK_TARGET_OVER_SIZE = 10, /* a search target over KOHLSILK_TYPE_SIZE bytes */
    KOHLSILK_INDEX_ZERO = 11,       /* news of a link with index 0 */
    KOHLSILK_ADDRESS_LENGTH = 12,   /* an address of neither 4 nor 16 bytes */
    KOHLSILK_LINKS_FULL = 13,       /* a new multicast link or an address where KOHLSILK_LINKS or KOHLSILK_ADDRESSES are held */
    KOHLSILK_JOIN_FAILED = 14       /* the host could not join the group on a new link */
};

/* The engine: five arrays of numbers, in which any content is an engine. Its fields are public so that its size is known; only the calls below read or
 * write them. */
struct kohlsilk_engine {
    uint64_t head[6];                                                   /* the timer, and how many of each are held */
    uint64_t links[(3 + KOHLSILK_ADDRESSES) * KOHLSILK_LINKS];          /* a row for each link */
    uint8_t searches[(1 + KOHLSILK_TYPE_SIZE) * KOHLSILK_SUBSCRIPTIONS]; /* for each subscription */
    uint64_t numbers[9 * KOHLSILK_NAMES];                               /* for each name: lengths, and the waiting reply */
    uint8_t texts[(KOHLSILK_NAME_SIZE + 2 * KOHLSILK_TYPE_SIZE + KOHLSILK_LOCATION_SIZE) * KOHLSILK_NAMES];
};

/* What a call on an engine answers. Of a refused call all but `refusal`, `waiting` and `poll` is 0. */
struct kohlsilk_answer {
    uint32_t refusal; /* 0, or why the call was refused */
    size_t records;   /* how many records the call wrote into the outbox, at most KOHLSILK_RECORDS */
    size_t matched;   /* names that the datagram's search matched */
    size_t joined;    /* those of them for which a reply waited already */
    size_t alone;     /* replies sent to their searcher */
    size_t group;     /* replies sent to the group */
    size_t dropped;   /* replies that went with their name */
    size_t waiting;   /* replies that wait after the call */
    uint64_t poll;    /* when kohlsilk_handle_timeout is to be called: at once, where that time has come already */
    uint32_t mask;    /* bit k: the datagram concerns subscription k */
    uint32_t told;    /* the number of those bits */
    uint32_t leave;   /* the outcome handed in with the deletion of a link that was held */
};

/* What the library exports: each call is lent the arrays that it needs. A host calls the functions behind these, which take the engine whole. */
struct kohlsilk_answer kohlsilk_lent_new(uint64_t *head, const uint64_t *numbers, uint32_t random_seed, uint64_t time);
struct kohlsilk_answer kohlsilk_lent_new_link(uint64_t *head, uint64_t *links, const uint8_t *searches, const uint64_t *numbers,
                                              const uint8_t *texts, uint32_t index, uint32_t flags, uint32_t outcome, uint8_t *outbox,
                                              size_t outbox_len);
struct kohlsilk_answer kohlsilk_lent_deleted_link(uint64_t *head, uint64_t *links, const uint64_t *numbers, uint32_t index,
                                                  uint32_t outcome);
struct kohlsilk_answer kohlsilk_lent_new_address(uint64_t *head, uint64_t *links, const uint8_t *searches, const uint64_t *numbers,
                                                 const uint8_t *texts, uint32_t index, const uint8_t *address, size_t address_len,
                                                 uint8_t *outbox, size_t outbox_len);
struct kohlsilk_answer kohlsilk_lent_deleted_address(uint64_t *head, uint64_t *links, const uint64_t *numbers, uint32_t index,
                                                     const uint8_t *address, size_t address_len);
struct kohlsilk_answer kohlsilk_lent_subscribe(uint64_t *head, const uint64_t *links, uint8_t *searches, const uint64_t *numbers,
                                               const uint8_t *service_type, size_t service_type_len, uint8_t *outbox, size_t outbox_len);
struct kohlsilk_answer kohlsilk_lent_advertise(uint64_t *head, const uint64_t *links, uint64_t *numbers, uint8_t *texts,
                                               const uint8_t *name, size_t name_len, const uint8_t *service_type, size_t service_type_len,
                                               const uint8_t *location, size_t location_len, uint8_t *outbox, size_t outbox_len);
struct kohlsilk_answer kohlsilk_lent_deadvertise(uint64_t *head, const uint64_t *links, uint64_t *numbers, uint8_t *texts,
                                                 const uint8_t *name, size_t name_len, uint8_t *outbox, size_t outbox_len);
struct kohlsilk_answer kohlsilk_lent_refresh(const uint64_t *head, const uint64_t *links, const uint8_t *searches,
                                             const uint64_t *numbers, const uint8_t *texts, uint8_t *outbox, size_t outbox_len);
struct kohlsilk_answer kohlsilk_lent_on_data(const uint64_t *head, const uint8_t *searches, uint64_t *numbers, uint8_t *texts,
                                             uint64_t time, uint32_t sender, uint16_t port, uint32_t receiver, const uint8_t *datagram,
                                             size_t datagram_len);
struct kohlsilk_answer kohlsilk_lent_handle_timeout(uint64_t *head, const uint64_t *links, const uint8_t *searches, uint64_t *numbers,
                                                    const uint8_t *texts, uint64_t time, uint8_t *outbox, size_t outbox_len);
struct kohlsilk_answer kohlsilk_lent_reset_refresh_timer(uint64_t *head, const uint64_t *numbers, uint64_t time);

/* What each of those that send needs of an outbox: these read the arrays and change nothing. */
size_t kohlsilk_lent_announcement_need(const uint64_t *head, const uint64_t *links); /* of subscribe and of advertise */
size_t kohlsilk_lent_deadvertise_need(const uint64_t *head, const uint64_t *links, const uint64_t *numbers, const uint8_t *texts,
                                      const uint8_t *name, size_t name_len);
size_t kohlsilk_lent_refresh_need(const uint64_t *head, const uint64_t *links, const uint8_t *searches);
size_t kohlsilk_lent_handle_timeout_need(const uint64_t *head, const uint64_t *links, const uint8_t *searches, const uint64_t *numbers,
                                         uint64_t time);
size_t kohlsilk_lent_new_link_need(const uint64_t *head, const uint64_t *links, const uint8_t *searches, uint32_t index, uint32_t flags);
size_t kohlsilk_lent_new_address_need(const uint64_t *head, const uint64_t *links, const uint8_t *searches, uint32_t index,
                                      const uint8_t *address, size_t address_len);

/* Makes an engine in memory that the host lends, whatever is in it. Its first salvo is due at `time`. The seed spreads the
 * delays of replies and refreshes: take a random one for each machine. A reply is due random_seed % min(1000 * MX, 5000)
 * milliseconds behind its search, inside the window of MX seconds in which the searcher listens. Windows are whole seconds: with a
 * seed whose remainder by 1000 is from 10 to 899, every reply waits at least 10 ms, in which searches of a flood share it, and has more
 * than 100 ms for its way. */
static inline struct kohlsilk_answer kohlsilk_new(struct kohlsilk_engine *engine, uint32_t random_seed, uint64_t time)
{
    return kohlsilk_lent_new(engine->head, engine->numbers, random_seed, time);
}

/* A link is there, or has turned up or down. For one that is new the host first joins the group, 239.255.255.250, on it and
 * hands in 0, or the error's number. A link without KOHLSILK_MULTICAST is passed over. */
static inline struct kohlsilk_answer kohlsilk_new_link(struct kohlsilk_engine *engine, uint32_t index, uint32_t flags, uint32_t outcome,
                                                       uint8_t *outbox, size_t outbox_len)
{
    return kohlsilk_lent_new_link(engine->head, engine->links, engine->searches, engine->numbers, engine->texts, index, flags, outcome,
                                  outbox, outbox_len);
}

/* A link has gone; `outcome` is that of leaving the group on it. */
static inline struct kohlsilk_answer kohlsilk_deleted_link(struct kohlsilk_engine *engine, uint32_t index, uint32_t outcome)
{
    return kohlsilk_lent_deleted_link(engine->head, engine->links, engine->numbers, index, outcome);
}

/* An address, of 4 or 16 bytes, is on a link or has gone from it. One of 16 is passed over. */
static inline struct kohlsilk_answer kohlsilk_new_address(struct kohlsilk_engine *engine, uint32_t index, const uint8_t *address,
                                                          size_t address_len, uint8_t *outbox, size_t outbox_len)
{
    return kohlsilk_lent_new_address(engine->head, engine->links, engine->searches, engine->numbers, engine->texts, index, address,
                                     address_len, outbox, outbox_len);
}

static inline struct kohlsilk_answer kohlsilk_deleted_address(struct kohlsilk_engine *engine, uint32_t index, const uint8_t *address,
                                                              size_t address_len)
{
    return kohlsilk_lent_deleted_address(engine->head, engine->links, engine->numbers, index, address, address_len);
}

/* Searches for a type, now and at each refresh. Subscriptions count from 0 in the order made. */
static inline struct kohlsilk_answer kohlsilk_subscribe(struct kohlsilk_engine *engine, const uint8_t *service_type, size_t service_type_len,
                                                        uint8_t *outbox, size_t outbox_len)
{
    return kohlsilk_lent_subscribe(engine->head, engine->links, engine->searches, engine->numbers, service_type, service_type_len, outbox, outbox_len);
}

/* Announces a service under a name (its USN), now and at each refresh; a name that is held is replaced. The host part of the
 * location becomes the address that a record is sent from. */
static inline struct kohlsilk_answer kohlsilk_advertise(struct kohlsilk_engine *engine, const uint8_t *name, size_t name_len,
                                                        const uint8_t *service_type, size_t service_type_len, const uint8_t *location,
                                                        size_t location_len, uint8_t *outbox, size_t outbox_len)
{
    return kohlsilk_lent_advertise(engine->head, engine->links, engine->numbers, engine->texts, name, name_len, service_type, service_type_len, location,
                                   location_len, outbox, outbox_len);
}

/* Says that the service of a name has gone. */
static inline struct kohlsilk_answer kohlsilk_deadvertise(struct kohlsilk_engine *engine, const uint8_t *name, size_t name_len,
                                                          uint8_t *outbox, size_t outbox_len)
{
    return kohlsilk_lent_deadvertise(engine->head, engine->links, engine->numbers, engine->texts, name, name_len, outbox, outbox_len);
}

/* Announces all, and searches for all, at once. */
static inline struct kohlsilk_answer kohlsilk_refresh(const struct kohlsilk_engine *engine, uint8_t *outbox, size_t outbox_len)
{
    return kohlsilk_lent_refresh(engine->head, engine->links, engine->searches, engine->numbers, engine->texts, outbox, outbox_len);
}

/* A datagram has come from `sender`, at the host's address `receiver`: for one sent to the group, the address of the link that it came by.
 * The reply to a search may be due at `time` itself: `poll` is then no later than `time`. */
static inline struct kohlsilk_answer kohlsilk_on_data(struct kohlsilk_engine *engine, uint64_t time, uint32_t sender, uint16_t port,
                                                      uint32_t receiver, const uint8_t *datagram, size_t datagram_len)
{
    return kohlsilk_lent_on_data(engine->head, engine->searches, engine->numbers, engine->texts, time, sender, port, receiver, datagram,
                                 datagram_len);
}

/* To be called once `poll` of the latest answer has come: sends the replies that are due, and the refresh salvo if that is. */
static inline struct kohlsilk_answer kohlsilk_handle_timeout(struct kohlsilk_engine *engine, uint64_t time, uint8_t *outbox,
                                                             size_t outbox_len)
{
    return kohlsilk_lent_handle_timeout(engine->head, engine->links, engine->searches, engine->numbers, engine->texts, time, outbox,
                                        outbox_len);
}

/* Begins the refresh salvos anew, as after the network was away. */
static inline struct kohlsilk_answer kohlsilk_reset_refresh_timer(struct kohlsilk_engine *engine, uint64_t time)
{
    return kohlsilk_lent_reset_refresh_timer(engine->head, engine->numbers, time);
}

/* How many bytes of outbox a call needs: KOHLSILK_RECORD for each record that this very call would write. A shorter outbox is refused by
 * KOHLSILK_OUTBOX_SHORT, a longer one is not written to behind the last record, and a call that writes none takes one of 0 bytes. With
 *
 *   names      how many names are held,
 *   searches   how many subscriptions are held, or 1 where one of them is `ssdp:all`,
 *   addresses  how many addresses there are on links that are up,
 *
 * a call's records are
 *
 *   subscribe, advertise  addresses
 *   deadvertise           addresses, for a name that is held; otherwise 0
 *   refresh               (names + searches) * addresses
 *   handle_timeout        those of refresh where the salvo is due, and for each reply that is due 1 to a lone searcher, or addresses to the group
 *   new_link              (names + searches) * the link's own addresses, for a link that is held and turns up; otherwise 0
 *   new_address           names + searches, for an address that is stored on a link that is up; otherwise 0
 *
 * which is never more than KOHLSILK_RECORDS: an outbox of KOHLSILK_OUTBOX bytes is long enough for every call on any engine. A host with little
 * memory asks right before the call, with the call's own arguments, and lends so many bytes; the answer is good until the next call on that engine. */
static inline size_t kohlsilk_subscribe_need(const struct kohlsilk_engine *engine)
{
    return kohlsilk_lent_announcement_need(engine->head, engine->links);
}

static inline size_t kohlsilk_advertise_need(const struct kohlsilk_engine *engine)
{
    return kohlsilk_lent_announcement_need(engine->head, engine->links);
}

static inline size_t kohlsilk_deadvertise_need(const struct kohlsilk_engine *engine, const uint8_t *name, size_t name_len)
{
    return kohlsilk_lent_deadvertise_need(engine->head, engine->links, engine->numbers, engine->texts, name, name_len);
}

static inline size_t kohlsilk_refresh_need(const struct kohlsilk_engine *engine)
{
    return kohlsilk_lent_refresh_need(engine->head, engine->links, engine->searches);
}

static inline size_t kohlsilk_handle_timeout_need(const struct kohlsilk_engine *engine, uint64_t time)
{
    return kohlsilk_lent_handle_timeout_need(engine->head, engine->links, engine->searches, engine->numbers, time);
}

static inline size_t kohlsilk_new_link_need(const struct kohlsilk_engine *engine, uint32_t index, uint32_t flags)
{
    return kohlsilk_lent_new_link_need(engine->head, engine->links, engine->searches, index, flags);
}

static inline size_t kohlsilk_new_address_need(const struct kohlsilk_engine *engine, uint32_t index, const uint8_t *address,
                                               size_t address_len)
{
    return kohlsilk_lent_new_address_need(engine->head, engine->links, engine->searches, index, address, address_len);
}

/* Messages by themselves. */
enum kohlsilk_kind {
    KOHLSILK_ALIVE = 1,   /* fields NT, USN, LOCATION */
    KOHLSILK_BYEBYE = 2,  /* NT, USN */
    KOHLSILK_SEARCH = 3,  /* ST */
    KOHLSILK_RESPONSE = 4 /* ST, USN, LOCATION */
};

/* `kind` is one of the above, or the refusal 7 or 8. The fields follow as places in the datagram, start and length. */
struct kohlsilk_parsed {
    uint32_t kind;
    uint32_t mx; /* of a search: the most seconds that it waits */
    size_t first;
    size_t first_len;
    size_t second;
    size_t second_len;
    size_t third;
    size_t third_len;
};

struct kohlsilk_parsed kohlsilk_parse(const uint8_t *datagram, size_t datagram_len);

/* Each builds a message at the start of the buffer and answers its length. No message is longer than 506 bytes. */
struct kohlsilk_written {
    uint32_t refusal;
    size_t len;
};

struct kohlsilk_written kohlsilk_build_search(uint8_t *buffer, size_t buffer_len, const uint8_t *st, size_t st_len);
struct kohlsilk_written kohlsilk_build_response(uint8_t *buffer, size_t buffer_len, const uint8_t *st, size_t st_len, const uint8_t *usn,
                                                size_t usn_len, const uint8_t *location, size_t location_len);
struct kohlsilk_written kohlsilk_build_notify(uint8_t *buffer, size_t buffer_len, const uint8_t *nt, size_t nt_len, const uint8_t *usn,
                                              size_t usn_len, const uint8_t *location, size_t location_len);
struct kohlsilk_written kohlsilk_build_byebye(uint8_t *buffer, size_t buffer_len, const uint8_t *nt, size_t nt_len, const uint8_t *usn,
                                              size_t usn_len);

#ifdef __cplusplus
}
#endif

#endif
