/* Makes the calls on rings and lines that the program compare_paths asks for: see lent.h. */
enum { BUFFERS = 3, LARGEST_BUFFER = 44 * 65536 + 4096 };

#include "lent.h"

static void say_count(tishkolan_count_answer answer)
{
    refusal = answer.refusal;
    value[0] = answer.count;
}

static void make_call(int call, uint8_t *buffer[BUFFERS])
{
    switch (call) {
    case 1:
        say_count(tishkolan_k_ring(buffer[0], length[0], number[0], number[1], number[2], buffer[1], length[1],
                                   buffer[2], length[2]));
        break;
    case 2:
        say_count(tishkolan_k_shell(buffer[0], length[0], number[0], number[1], number[2], buffer[1], length[1],
                                    buffer[2], length[2]));
        break;
    case 3:
        say_count(tishkolan_trace_line(buffer[0], length[0], buffer[1], length[1], buffer[2], length[2]));
        break;
    default:
        fprintf(stderr, "paths: there is no call %d\n", call);
        exit(2);
    }
}
