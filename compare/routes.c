/* Makes the calls on routes that the program compare_routes asks for: see lent.h. */
enum { BUFFERS = 7, LARGEST_BUFFER = 1 << 20 };

#include "lent.h"

static void make_call(int call, uint8_t *buffer[BUFFERS])
{
    const uint32_t rule = (uint32_t)number[0];

    switch (call) {
    case 1:
        value[0] = tishkolan_route_verdict(buffer[0], length[0], buffer[1], length[1], buffer[2], length[2], number[2],
                                           buffer[3], length[3], number[1], rule);
        break;
    case 2:
        value[0] = tishkolan_route_choice(buffer[0], length[0], buffer[1], length[1], buffer[2], length[2], number[2],
                                          buffer[3], length[3], buffer[4], length[4], buffer[5], length[5], number[3],
                                          buffer[6], length[6], number[1], rule);
        break;
    default:
        fprintf(stderr, "routes: there is no call %d\n", call);
        exit(2);
    }
}
