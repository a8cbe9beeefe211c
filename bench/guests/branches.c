// How long the Collatz sequences of the first numbers are: a branch every few moves, taken or not as the number has it.
#include "board.h"

int main(int hart)
{
    (void)hart;
    unsigned steps = 0;
    for (unsigned first = 1; first < 12000; first++)
        for (unsigned n = first; n != 1; steps++)
            n = n & 1 ? 3 * n + 1 : n >> 1;
    return steps;
}
