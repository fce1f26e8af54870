/* Messages by themselves, and the messages of records: what the header promises of them. */
#ifndef MESSAGES_H
#define MESSAGES_H

#include "input.h"

/* Whether a record lies in the outbox as the header says: no message is over its size, and zeros follow it. */
int is_record(const uint8_t *record);

/* Whether the message of a record can be read back. */
int is_readable(const uint8_t *record);

/* Reads a datagram of the input, or builds a message of its texts; ends the program by abort() where a promise is broken. */
void try_message(struct input *input, uint8_t choice);

void print_message_counts(void);

#endif
