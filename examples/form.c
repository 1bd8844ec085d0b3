/* Prints the normal form of G p1, as document 02 has it: the length, then the header and the words, one a line. G p1 is in Delta-2, so that
 * its own plain table is its form; the form of a rule outside Delta-2 stands in the result.
 *
 *     cc -std=c11 -Wall -Wextra -Werror -Iinclude examples/form.c crates/boundary/out/libboundary.a -o form
 */
#include "showrule.h"

#include <inttypes.h>
#include <stdio.h>

int main(void)
{
    const uint32_t table[] = {SHOWRULE_HEADER(0, 2), 0x30000001, 0xE0000001};
    uint32_t plain[SHOWRULE_PLAIN_ROOM(SHOWRULE_DESK_WRITTEN)], result[4097];
    bool in_plain;
    size_t length, place;
    uint32_t number = showrule_form(table, sizeof table / sizeof *table, SHOWRULE_DESK_WRITTEN, SHOWRULE_DESK_UNTIL_LIKE, plain,
                                    sizeof plain / sizeof *plain, result, sizeof result / sizeof *result, &in_plain, &length, &place);
    const uint32_t *form = in_plain ? plain : result;

    if (number != SHOWRULE_ACCEPTED) {
        printf("refused %" PRIu32 " at %zu\n", number, place);
        return 1;
    }
    printf("%zu\n", length);
    for (size_t i = 0; i < length; i++)
        printf("%08" PRIX32 "\n", form[i]);
    return 0;
}
