/* The first case of the sums by hand, tick by tick through the kernel's hook: two programs, six words.
 *
 *   (cd crates/nandoquip_c && rt lib)
 *   cp crates/nandoquip_c/out/libnandoquip_c.a libnandoquip.a
 *   gcc -Wall -Wextra -Werror -Iinclude examples/first_case.c libnandoquip.a -o first_case
 *   ./first_case
 *
 * It prints what `./nandoquip schedule examples/first-case.meter` prints. */
#include <stdio.h>

#include "nandoquip.h"

/* The kernel's table, and its one state. */
static const struct nandoquip_part parts[] = {{4, 1, 0}, {6, 2, 0}};
static const size_t count = sizeof parts / sizeof parts[0];
static struct nandoquip_state state;

static int refused(struct nandoquip_refusal refusal)
{
    if (refusal.number != 0)
        printf("refused %u at %zu\n", (unsigned)refusal.number, refusal.second);
    return refusal.number != 0;
}

/* One tick: the hook draws by the word and moves the state on. */
static int tick(unsigned number, uint32_t word)
{
    struct nandoquip_picked answer = nandoquip_tick(&state, parts, count, word);
    if (refused(answer.refusal))
        return 1;
    if (answer.pick == NANDOQUIP_IDLE)
        printf("%u idle\n", number);
    else
        printf("%u %u\n", number, (unsigned)answer.pick);
    return 0;
}

int main(void)
{
    static const uint32_t words[] = {20000, 40000, 60000, 5, 50000, 0};
    const unsigned ticks = sizeof words / sizeof words[0];
    struct nandoquip_after fresh = nandoquip_fresh(state, nandoquip_table_of(parts, count));
    if (refused(fresh.refusal))
        return 1;
    state = fresh.state;
    puts("tick pick");
    for (unsigned i = 0; i < ticks; i++)
        if (tick(i, words[i]))
            return 1;
    printf("end %u\n", ticks);
    return 0;
}
