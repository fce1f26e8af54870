/* Arguments out of bytes: whatever the bytes are, they are arguments, with those at the limits among them. */
#ifndef INPUT_H
#define INPUT_H

#include <stddef.h>
#include <stdint.h>

struct input {
    const uint8_t *bytes;
    size_t left;
};

/* The longest text and the longest datagram that are made. */
enum { TEXT_MOST = 300, DATAGRAM_MOST = 1024 };

/* The next byte, or the next so many as a number; zeros once there are none left. */
uint8_t take(struct input *input);
uint64_t take_number(struct input *input, int bytes);

/* Each writes to `to`, which has room for the most, and answers the length. */
size_t take_text(struct input *input, uint8_t *to);
size_t take_address(struct input *input, uint8_t *to);
size_t take_datagram(struct input *input, uint8_t *to);

/* The length of an outbox for a call that needs so many bytes: 0, around what it needs, or around what any call may. */
size_t take_outbox_length(struct input *input, size_t need);

/* A time near `now`, which moves with it; or one at the limits, or any. */
uint64_t take_time(struct input *input, uint64_t *now);

/* What the arrays of an engine hold before a call: random bytes, small numbers, zeros, or ones. */
void take_content(struct input *input, uint8_t *to, size_t len);

#endif
