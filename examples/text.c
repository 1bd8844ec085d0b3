/* Prints the normal form of a rule that is typed as text, G p1 where none is named: the length, then the header and the words, one a
 * line. The form of a rule in Delta-2, as G p1, is its plain table; any other is rewritten, to the result.
 *
 *     cc -std=c11 -Wall -Wextra -Werror -Iinclude examples/text.c crates/boundary/out/libboundary.a -o text
 *     ./text '(p1 U p2)'
 */
#include "showrule.h"

#include <inttypes.h>
#include <stdio.h>
#include <string.h>

int main(int argc, char **argv)
{
    const char *text = argc > 1 ? argv[1] : "G p1";
    const size_t written = SHOWRULE_DESK_WRITTEN, until_like = SHOWRULE_DESK_UNTIL_LIKE;
    uint32_t table[SHOWRULE_WRITTEN_ROOM(SHOWRULE_DESK_WRITTEN)], plain[SHOWRULE_PLAIN_ROOM(SHOWRULE_DESK_WRITTEN)], result[4097];
    bool in_plain = false;
    size_t length, place;
    uint32_t number = showrule_text((const uint8_t *)text, strlen(text), written, until_like, table, sizeof table / sizeof *table,
                                    &length, &place);

    if (number == SHOWRULE_ACCEPTED)
        number = showrule_form(table, length, written, until_like, plain, sizeof plain / sizeof *plain, result,
                               sizeof result / sizeof *result, &in_plain, &length, &place);
    if (number != SHOWRULE_ACCEPTED) {
        printf("refused %" PRIu32 " at %zu\n", number, place);
        return 1;
    }

    const uint32_t *form = in_plain ? plain : result;
    printf("%zu\n", length);
    for (size_t i = 0; i < length; i++)
        printf("%08" PRIX32 "\n", form[i]);
    return 0;
}
