/* Bytes to calls: any bytes are a list of calls of the library, and each call is looked at for what the header and document 01 promise of it. */
#ifndef CALLS_H
#define CALLS_H

#include <stddef.h>
#include <stdint.h>

/* Makes the calls that the bytes stand for, and ends the program by abort() where one breaks its promise. It is libFuzzer's entry. */
int LLVMFuzzerTestOneInput(const uint8_t *bytes, size_t size);

/* Prints for each call how often it was accepted and how often refused by each number, and the sums of the ledger. */
void print_counts(void);

#endif
