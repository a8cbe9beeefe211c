/* Two harts or more each add 1 to a number, a few times, with work of their own between. The addition is a load, an
   addition and a store, so where another hart's addition comes between the load and the store, one of both is lost. */
#include "board.h"

#define HARTS 2
#define ADDITIONS 4

static struct barrier start = {.harts = HARTS}, end = {.harts = HARTS};
static volatile uint32_t seed;

/* On a page of its own, so that nothing else has harts take it from each other. */
static volatile uint32_t number __attribute__((aligned(4096)));
static char rest_of_the_page[4092] __attribute__((aligned(4), used));

/* Moves that need nothing of other harts. */
static void work(uint32_t times) {
    for (volatile uint32_t left = times; left != 0; left--) {
    }
}

int main(uint32_t hart) {
    if (hart == 0) {
        seed = next_number();
    }
    wait_for_all(&start);
    uint32_t mine = seed * 2654435761u + hart + 1;
    for (uint32_t done = 0; done < ADDITIONS; done++) {
        work(random_from(&mine) % 32768);
        number = number + 1;
    }
    wait_for_all(&end);
    if (hart != 0) {
        for (;;) {
        }
    }
    print("counted ");
    print_number(number);
    print("\n");
    return number != HARTS * ADDITIONS;
}
