/* One hart puts numbers into a queue, the other takes them out. The one that puts counts the number before the place is
   filled, so that the other may read a place that holds nothing yet. */
#include "board.h"

#define NUMBERS 8

struct queue {
    volatile uint32_t put;
    volatile uint32_t places[NUMBERS];
};
static struct queue queue __attribute__((aligned(4096)));
static char rest_of_the_page[4096 - sizeof queue] __attribute__((aligned(4), used));
static volatile uint32_t seed, started;

/* A square is the sum of the first odd numbers. */
static uint32_t square_of(uint32_t number) {
    uint32_t sum = 0;
    for (volatile uint32_t odd = 1; odd < 2 * number; odd += 2) {
        sum += odd;
    }
    return sum;
}

static void put(uint32_t number) {
    uint32_t place = queue.put;
    queue.put = place + 1;
    queue.places[place] = square_of(number);
}

static uint32_t take(uint32_t place) {
    while (queue.put <= place) {
    }
    return queue.places[place];
}

static void work(uint32_t times) {
    for (volatile uint32_t left = times; left != 0; left--) {
    }
}

int main(uint32_t hart) {
    if (hart == 0) {
        seed = next_number();
        started = 1;
        uint32_t mine = seed * 2654435761u + 1;
        for (uint32_t place = 0; place < NUMBERS; place++) {
            work(random_from(&mine) % 4096);
            put(random_from(&mine) % 64 + 1);
        }
        for (;;) {
        }
    }
    while (started == 0) {
    }
    uint32_t empty = 0;
    for (uint32_t place = 0; place < NUMBERS; place++) {
        if (take(place) == 0) {
            empty++;
        }
    }
    print("empty places read: ");
    print_number(empty);
    print("\n");
    return (int)empty;
}
