#include "seen.h"
#include "fuzz.h"
#include <stdio.h>
#include <string.h>

enum { MOST_ENTRIES = 24, MOST_ANSWERS = 48 };

static unsigned long times[MOST_ENTRIES][MOST_ANSWERS];

void seen(const char *answer)
{
    const char *const *answers = entries[current].answers;
    size_t i = 0;
    while (answers[i] != NULL && strcmp(answers[i], answer) != 0)
        i++;
    if (answers[i] == NULL)
        fail("answers %s, which is none of its answers", answer);
    times[current][i]++;
}

/* One entry's answers. Gives how many of them were never given. */
static size_t report(size_t e)
{
    const char *const *answers = entries[e].answers;
    size_t i, never = 0;
    printf("%s:", entries[e].name);
    for (i = 0; answers[i] != NULL; i++) {
        printf("%s %s: %lu", i == 0 ? "" : ",", answers[i], times[e][i]);
        never += times[e][i] == 0;
    }
    printf("\n");
    return never;
}

bool seen_report(bool required)
{
    size_t e, never = 0;
    for (e = 0; e < entry_count; e++)
        never += report(e);
    if (required && never > 0)
        printf("FAILED answers that were never given: %zu\n", never);
    return !required || never == 0;
}
