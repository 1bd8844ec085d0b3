/* Three desks judge G p1 over recordings, the last of them two; then a fourth desk is named, which has no tally. What is printed is what
 * each call answered, the tally of each desk, and the house's total.
 *
 *     cc -std=c11 -Wall -Wextra -Werror -Iinclude examples/desks.c crates/boundary/out/libboundary.a -o desks
 */
#include "showrule.h"

#include <inttypes.h>
#include <stdio.h>

enum { DESKS = 3 };

int main(void)
{
    const uint32_t always[] = {SHOWRULE_HEADER(0, 2), 0x30000001, 0xE0000001};
    const uint32_t recordings[][2] = {{1, 1}, {1, 0}, {1, 1}};
    const size_t named[] = {0, 1, 2, 2, DESKS};
    showrule_tally tallies[DESKS] = {{0, 0}}, total = {0, 0};
    uint64_t scratch[SHOWRULE_SCRATCH_WORDS(2, 2)];

    for (size_t i = 0; i < sizeof named / sizeof *named; i++) {
        bool holds;
        size_t moments, failing, place;
        uint32_t number = showrule_judge(always, 3, recordings[i % 3], 2, 0, 1, scratch, sizeof scratch / sizeof *scratch, tallies, DESKS,
                                         named[i], &holds, &moments, &failing, &place);

        if (number == SHOWRULE_ACCEPTED)
            printf("desk %zu: %s\n", named[i], holds ? "holds" : "fails");
        else
            printf("desk %zu: refused %" PRIu32 " at %zu\n", named[i], number, place);
    }
    for (size_t desk = 0; desk < DESKS; desk++) {
        printf("desk %zu: %" PRIu32 " judged, %" PRIu32 " held\n", desk, tallies[desk].judged, tallies[desk].held);
        total.judged += tallies[desk].judged;
        total.held += tallies[desk].held;
    }
    printf("house: %" PRIu32 " judged, %" PRIu32 " held\n", total.judged, total.held);
    return 0;
}
