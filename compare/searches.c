/* Makes the searches that the program compare_searches asks for: see lent.h. */
enum { BUFFERS = 6, LARGEST_BUFFER = 44 * 65536 + 64 + 4096 };

#include "lent.h"

static void say_search(tishkolan_search_answer answer)
{
    refusal = answer.refusal;
    value[0] = answer.cells;
    value[1] = answer.cost;
    value[2] = answer.expansions;
    value[3] = answer.limit;
    value[4] = answer.start_high;
    value[5] = answer.start_low;
    value[6] = answer.goal_high;
    value[7] = answer.goal_low;
}

static void make_call(int call, uint8_t *buffer[BUFFERS])
{
    const size_t count = number[0];
    const uint32_t rule = (uint32_t)number[1];

    switch (call) {
    case 1:
        say_search(tishkolan_astar_with_limit(buffer[0], length[0], buffer[1], length[1], buffer[2], length[2], count,
                                              rule, number[2], number[3], number[4], buffer[3], length[3],
                                              buffer[4], length[4], buffer[5], length[5]));
        break;
    case 2:
        say_search(tishkolan_astar(buffer[0], length[0], buffer[1], length[1], buffer[2], length[2], count,
                                   rule, number[2], number[3], buffer[3], length[3],
                                   buffer[4], length[4], buffer[5], length[5]));
        break;
    default:
        fprintf(stderr, "searches: there is no call %d\n", call);
        exit(2);
    }
}
