// Copies and sums words over four pages, again and again.
#include "board.h"

static unsigned from[2048];
static unsigned to[2048];

int main(int hart)
{
    (void)hart;
    unsigned sum = 0;
    for (unsigned i = 0; i < 2048; i++)
        from[i] = i * 2654435761u;
    for (unsigned round = 0; round < 400; round++) {
        for (unsigned i = 0; i < 2048; i++)
            to[i] = from[i] + round;
        for (unsigned i = 0; i < 2048; i++)
            sum += to[2047 - i];
    }
    return sum;
}
