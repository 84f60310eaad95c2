/*
 * How many bytes of stack a call takes: its arguments, its return address and all that is below them.
 */
#define _DEFAULT_SOURCE

#include "stack_calls.h"

static void row(const struct call *call, uint32_t set)
{
    uint8_t *low = lowest(call, set);

    printf("| %s", call->name);
    if (set > 0)
        printf(", set %lu", (unsigned long)set);
    printf(" | %ld |\n", (long)(frame - low));
}

int main(void)
{
    make_stack();
    printf("\n| call | bytes of stack |\n|--|--:|\n");
    visit(hash_calls, COUNT(hash_calls), 0, row);
    visit(set_calls, COUNT(set_calls), SETS, row);
    return 0;
}
