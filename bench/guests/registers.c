// Writes and reads a control register and makes an environment call, which its handler returns from, in each round.
#include "board.h"

__attribute__((naked, aligned(4))) static void on_call(void)
{
    asm volatile("csrrw t0, mscratch, t0\n"
                 "csrr t0, mepc\n"
                 "addi t0, t0, 4\n"
                 "csrw mepc, t0\n"
                 "csrrw t0, mscratch, t0\n"
                 "mret");
}

int main(int hart)
{
    (void)hart;
    unsigned sum = 0;
    asm volatile("csrw mtvec, %0" ::"r"(on_call));
    for (unsigned round = 0; round < 300000; round++) {
        unsigned was;
        asm volatile("csrrw %0, mscratch, %1\n"
                     "ecall"
                     : "=r"(was)
                     : "r"(round)
                     : "t0");
        sum += was;
    }
    return sum;
}
