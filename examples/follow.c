/* Follows a rule during a show: whenever the cue is given, the curtain moves sooner or later, until the show is over, which is
 * (p1 -> F p2) W p3 with letter 1 for the cue, 2 for the curtain and 3 for the end. Of two slices each step reads what remains in one, and
 * writes what remains after the sample to the other. What is printed is the rule's plain form, and then each sample and what remains after
 * it: header and words. Once that is the one word true or false, the rule is decided.
 *
 *     cc -std=c11 -Wall -Wextra -Werror -Iinclude examples/follow.c crates/boundary/out/libboundary.a -o follow
 */
#include "showrule.h"

#include <inttypes.h>
#include <stdio.h>
#include <string.h>

enum { CUE = 1, CURTAIN = 2, END = 4, DRIVEN = 3, ROOM = 40 };

static void print(const uint32_t *table, size_t length)
{
    for (size_t i = 0; i < length; i++)
        printf(" %08" PRIX32, table[i]);
    printf("\n");
}

int main(void)
{
    const char *text = "((p1 -> Fp2) W p3)";
    const uint32_t samples[] = {0, CUE, CUE, CURTAIN, CUE, END, 0, CURTAIN};
    const size_t written = SHOWRULE_DESK_WRITTEN, until_like = SHOWRULE_DESK_UNTIL_LIKE;
    uint32_t table[ROOM], slices[2][ROOM], *now = slices[0], *next = slices[1];
    size_t length, place;
    uint32_t number = showrule_text((const uint8_t *)text, strlen(text), written, until_like, table, ROOM, &length, &place);

    if (number == SHOWRULE_ACCEPTED)
        number = showrule_plain(table, length, written, until_like, now, ROOM, &length, &place);
    if (number == SHOWRULE_ACCEPTED) {
        printf("rule:");
        print(now, length);
    }
    for (size_t i = 0; i < sizeof samples / sizeof *samples && number == SHOWRULE_ACCEPTED; i++) {
        size_t remaining;

        number = showrule_after(now, length, samples[i], DRIVEN, next, ROOM, &remaining, &place);
        if (number == SHOWRULE_ACCEPTED) {
            uint32_t *read = now;

            now = next, next = read, length = remaining;
            printf("sample %" PRIu32 ":", samples[i]);
            print(now, length);
        }
    }
    if (number != SHOWRULE_ACCEPTED) {
        printf("refused %" PRIu32 " at %zu\n", number, place);
        return 1;
    }
    return 0;
}
