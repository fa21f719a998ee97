/* Prints every number that the header names, with its word: names.out, which the Rust crate is held against too. It fails if a number without a
 * name has any other word than the largest one has. */
#include "lots.h"
#include <stdio.h>
#include <string.h>

typedef const char *words(uint8_t);

/* Prints the words of the numbers from first to last, and the one that all others have. */
static int print_words(const char *what, words *word, int first, int last)
{
    const char *other = word(UINT8_MAX);
    int n, wrong = 0;

    for (n = first; n <= last; n++)
        printf("%s %d %s\n", what, n, word((uint8_t)n));
    for (n = 0; n <= UINT8_MAX; n++)
        wrong += (n < first || n > last) != (strcmp(word((uint8_t)n), other) == 0);
    printf("%s else %s\n", what, other);
    return wrong;
}

int main(void)
{
    int wrong = 0;

    printf("layout %d\nsize %d\nseats %d\nlevels %d\nno seat %d\n", LOTS_LAYOUT_VERSION, LOTS_RECORD_SIZE, LOTS_SEATS, LOTS_LEVELS, LOTS_NO_SEAT);
    wrong += print_words("refusal", lots_refusal_text, 0, LOTS_SAME_LOT);
    wrong += print_words("kind", lots_kind_text, LOTS_KIND_MEET, LOTS_KIND_NONE);
    wrong += print_words("phase", lots_phase_text, LOTS_PHASE_OPEN, LOTS_PHASE_CLEARING);
    wrong += print_words("state", lots_state_text, LOTS_STATE_FREE, LOTS_STATE_RESERVED);
    wrong += print_words("side", lots_side_text, LOTS_SIDE_LEFT, LOTS_SIDE_RIGHT);
    return wrong != 0;
}
