#include "loader.h"

/* After a last step nothing is asked again: the image is on trial now, and the answer would be to return from it.
 * A record that is full doesn't count any more, and the update goes on. */
frondicare_answer carry_out_steps(frondicare_answer (*ask)(void), uint32_t most_steps, frondicare_step_counts *counts)
{
    static const frondicare_answer boot = { .kind = FRONDICARE_BOOT };
    frondicare_answer a = ask();
    while (most_steps > 0 && (a.kind == FRONDICARE_STEP || a.kind == FRONDICARE_LAST_STEP)) {
        carry_out(a);
        frondicare_add_step(counts, a.op);
        most_steps--;
        a = a.kind == FRONDICARE_LAST_STEP ? boot : ask();
    }
    return a;
}
