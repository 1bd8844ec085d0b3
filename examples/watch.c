/* Prints the automaton that watches a rule: whenever the cue is given, the curtain moves sooner or later, G(p1 -> F p2) with letter 1 for
 * the cue and 2 for the curtain. First comes the rule's plain form, header and words; then each state, its word first, with its class, the
 * table's word that it is of, and whether it is accepting; then the start, and each state's move by each sample of the two letters, as
 * tables without a header in which kind 3 is a state.
 *
 *     cc -std=c11 -Wall -Wextra -Werror -Iinclude examples/watch.c crates/boundary/out/libboundary.a -o watch
 */
#include "showrule.h"

#include <inttypes.h>
#include <stdio.h>
#include <string.h>

enum { DRIVEN = 2, ROOM = 40 };

static void print(const uint32_t *words, size_t length)
{
    for (size_t i = 0; i < length; i++)
        printf(" %08" PRIX32, words[i]);
    printf("\n");
}

static void print_state(size_t state, uint32_t word)
{
    static const char *const classes[] = {"", "Sigma-1", "Pi-1", "", "Sigma-2", "Pi-2"};

    printf("state %zu: %08" PRIX32 " word %" PRIu32 ", %s%s\n", state, word, word & 0x3FFF, classes[word >> 14 & 7],
           word >> 28 == 1 ? ", accepting" : "");
}

/* The move of a state, or the start where its number is 0. */
static uint32_t print_move(const uint32_t *table, size_t length, size_t state, uint32_t sample, size_t *place)
{
    uint32_t result[ROOM];
    size_t words;
    const uint32_t number = showrule_move(table, length, state, sample, DRIVEN, result, ROOM, &words, place);

    if (number == SHOWRULE_ACCEPTED) {
        if (state == 0)
            printf("start:");
        else
            printf("move of %zu by %" PRIu32 ":", state, sample);
        print(result, words);
    }
    return number;
}

int main(void)
{
    const char *text = "G(p1 -> Fp2)";
    const size_t written = SHOWRULE_DESK_WRITTEN, until_like = SHOWRULE_DESK_UNTIL_LIKE;
    uint32_t typed[ROOM], table[ROOM], result[ROOM];
    size_t length, states = 0, place;
    uint32_t number = showrule_text((const uint8_t *)text, strlen(text), written, until_like, typed, ROOM, &length, &place);

    if (number == SHOWRULE_ACCEPTED)
        number = showrule_plain(typed, length, written, until_like, table, ROOM, &length, &place);
    if (number == SHOWRULE_ACCEPTED) {
        printf("rule:");
        print(table, length);
        number = showrule_states(table, length, result, ROOM, &states, &place);
    }
    for (size_t i = 0; i < states; i++)
        print_state(i + 1, result[i]);
    if (number == SHOWRULE_ACCEPTED)
        number = print_move(table, length, 0, 0, &place);
    for (size_t state = 1; state <= states; state++)
        for (uint32_t sample = 0; sample < 1 << DRIVEN && number == SHOWRULE_ACCEPTED; sample++)
            number = print_move(table, length, state, sample, &place);
    if (number != SHOWRULE_ACCEPTED) {
        printf("refused %" PRIu32 " at %zu\n", number, place);
        return 1;
    }
    return 0;
}
