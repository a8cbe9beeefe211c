/* Four harts guard a piece of code with a lock that is looked at first and taken then. Two harts that look before
   either takes it are inside together. */
#include "board.h"

#define HARTS 4
#define VISITS 2

static struct barrier start = {.harts = HARTS}, end = {.harts = HARTS};
static volatile uint32_t seed, together;

struct guarded {
    volatile uint32_t taken, inside;
};
static struct guarded guarded __attribute__((aligned(4096)));
static char rest_of_the_page[4088] __attribute__((aligned(8), used));

static void work(uint32_t times) {
    for (volatile uint32_t left = times; left != 0; left--) {
    }
}

static void lock(void) {
    while (guarded.taken != 0) {
    }
    guarded.taken = 1;
}

static void unlock(void) {
    guarded.taken = 0;
}

int main(uint32_t hart) {
    if (hart == 0) {
        seed = next_number();
    }
    wait_for_all(&start);
    uint32_t mine = seed * 2654435761u + hart + 1;
    for (uint32_t done = 0; done < VISITS; done++) {
        work(random_from(&mine) % 65536);
        lock();
        guarded.inside = hart + 1;
        work(1024);
        if (guarded.inside != hart + 1) {
            together = hart + 1;
        }
        unlock();
    }
    wait_for_all(&end);
    if (hart != 0) {
        for (;;) {
        }
    }
    print(together == 0 ? "one at a time\n" : "two inside\n");
    return (int)together;
}
