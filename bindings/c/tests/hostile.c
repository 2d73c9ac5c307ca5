/* Peers against hostile datagrams. Twice three that serve, of RFC 8613, C.1 to C.3, and two of C.1 that ask, the first of each by tables and
   the second in constant time, are called side by side with datagrams that were sealed by the library, or by the test as the other end, and
   then cut, turned, spliced, spelled again; come again, late, or to the wrong end. Each answer, and every byte that is written or left, is
   compared with a reading of the test's own, which uses no layer of the library: hostile/ has it. Built with the sanitizers by .ci/run. */
#include "hostile/sides.h"
#include <stdio.h>
#include <stdlib.h>

int main(int count, char **words) {
    unsigned long long datagrams = count > 1 ? strtoull(words[1], NULL, 10) : 100000;
    unsigned long long seed = count > 2 ? strtoull(words[2], NULL, 10) : 8613;
    printf("hostile: seed %llu\n", seed);
    /* A call that reaches a guard page ends the program as it is. */
    fflush(stdout);
    begin_chance(seed);
    begin_sealing();
    begin_serving();
    begin_asking();
    for (; datagrams > 0; datagrams--) {
        count_step();
        if (one_in(2))
            step_serving();
        else
            step_asking();
    }
    return end_report();
}
