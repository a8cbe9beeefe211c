/* Waits for five interrupts of the timer, a thousand microseconds apart, and tells of each. */
#include "board.h"

#define PERIOD 1000
#define TICKS 5

static volatile uint32_t ticks;

static __attribute__((interrupt)) void tick(void) {
    ticks++;
    timer_at(0, time_now() + PERIOD);
}

int main(void) {
    handle_traps(tick);
    timer_at(0, time_now() + PERIOD);
    interrupts_on(INTERRUPT_TIMER);
    for (uint32_t seen = 0; seen < TICKS;) {
        if (ticks != seen) {
            seen++;
            print("tick ");
            print_number(seen);
            print("\n");
        }
    }
    return TICKS;
}
