/* Feeds the calls (calls.h) with pseudo-random bytes: the same in every run, for so many lists as the first argument says. Prints what came of them.
 *
 *   (cd hosts/fuzz && cc -O2 -I ../../include random.c calls.c input.c messages.c room.c ../../target/staticlib/libhost.a -o ../../target/random)
 *   target/random 1000 */
#include "calls.h"
#include <stdio.h>
#include <stdlib.h>
#include <unistd.h>

/* A list that takes longer than this does not end. */
enum { LIST_MOST = 2048, SECONDS_MOST = 30 };

int main(int count, char **words)
{
    static uint8_t bytes[LIST_MOST];
    const long lists = count > 1 ? atol(words[1]) : 1000;
    uint64_t state = 1;
    for (long list = 0; list < lists; list++) {
        size_t len = 0;
        for (size_t most = 1 + (size_t)list * 977 % LIST_MOST; len < most; len++) {
            state = state * UINT64_C(6364136223846793005) + UINT64_C(1442695040888963407);
            bytes[len] = (uint8_t)(state >> 56);
        }
        alarm(SECONDS_MOST);
        LLVMFuzzerTestOneInput(bytes, len);
    }
    print_counts();
    return 0;
}
