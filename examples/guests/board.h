/* The board's devices and interrupts, for guests in C.

   Each load or store of a device word is one access of the device, which a recording keeps. */
#ifndef BOARD_H
#define BOARD_H

#include <stdint.h>

#define WORD_AT(address) (*(volatile uint32_t *)(address))

#define MSIP(hart) WORD_AT(0x02000000u + 4u * (hart))
#define MTIMECMP_LOW(hart) WORD_AT(0x02004000u + 8u * (hart))
#define MTIMECMP_HIGH(hart) WORD_AT(0x02004004u + 8u * (hart))
#define MTIME_LOW WORD_AT(0x0200bff8u)
#define MTIME_HIGH WORD_AT(0x0200bffcu)
#define RX WORD_AT(0x10000000u)
#define TX WORD_AT(0x10000004u)
#define STOP WORD_AT(0x10000008u)

/* What RX gives where the console has no byte: none now, or none any more. */
#define RX_EMPTY 0xffffffffu

/* The bits of mie and mip. */
#define INTERRUPT_SOFTWARE (1u << 3)
#define INTERRUPT_TIMER (1u << 7)

/* What mcause holds in a handler of the interrupt. */
#define CAUSE_SOFTWARE 0x80000003u
#define CAUSE_TIMER 0x80000007u

#define CSR_READ(name)                                                                     \
    ({                                                                                     \
        uint32_t csr_value;                                                                \
        __asm__ volatile("csrr %0, " #name : "=r"(csr_value) : : "memory");                \
        csr_value;                                                                         \
    })
#define CSR_WRITE(name, value) __asm__ volatile("csrw " #name ", %0" : : "r"(value) : "memory")
#define CSR_SET(name, bits) __asm__ volatile("csrs " #name ", %0" : : "r"(bits) : "memory")
#define CSR_CLEAR(name, bits) __asm__ volatile("csrc " #name ", %0" : : "r"(bits) : "memory")

/* Sends a text to the console. */
static inline void print(const char *text) {
    for (; *text != 0; text++) {
        TX = (uint8_t)*text;
    }
}

/* Sends a number in decimal. */
static inline void print_number(uint32_t number) {
    char digits[11];
    char *first = digits + sizeof digits - 1;
    *first = 0;
    do {
        first--;
        *first = (char)('0' + number % 10);
        number /= 10;
    } while (number != 0);
    print(first);
}

/* Ends the run of the whole board; the report tells the word. */
static inline _Noreturn void stop(uint32_t word) {
    STOP = word;
    for (;;) {
    }
}

/* The time, in microseconds where the clock is the program's own. */
static inline uint64_t time_now(void) {
    uint32_t high, low;
    do {
        high = MTIME_HIGH;
        low = MTIME_LOW;
    } while (high != MTIME_HIGH);
    return (uint64_t)high << 32 | low;
}

/* Has the timer line of the hart up from this time on. On the way there it isn't up too early. */
static inline void timer_at(uint32_t hart, uint64_t time) {
    MTIMECMP_HIGH(hart) = 0xffffffffu;
    MTIMECMP_LOW(hart) = (uint32_t)time;
    MTIMECMP_HIGH(hart) = (uint32_t)(time >> 32);
}

/* Puts the software line of a hart up or down; another hart sees it at its next Poll. */
static inline void software_line(uint32_t hart, uint32_t up) {
    MSIP(hart) = up;
}

/* Has the hart's traps call the handler, which is written with __attribute__((interrupt)). */
static inline void handle_traps(void (*handler)(void)) {
    CSR_WRITE(mtvec, handler);
}

/* Puts a variable on pages that this hart alone writes (board.ld has a section for each). */
#define OF_HART(hart) __attribute__((section(".hart" #hart)))

/* All that was written before is seen before what comes after. The board runs moves one after another, so this only
   keeps the compiler from moving code across it. */
static inline void barrier_of_code(void) {
    __asm__ volatile("" : : : "memory");
}

/* Adds to a word by one AMO, and gives what it held. */
static inline uint32_t add_by_amo(volatile uint32_t *word, uint32_t more) {
    uint32_t held;
    __asm__ volatile("amoadd.w %0, %2, (%1)" : "=r"(held) : "r"(word), "r"(more) : "memory");
    return held;
}

/* Adds to a word by LR and SC, and gives what it held. */
static inline uint32_t add_by_reservation(volatile uint32_t *word, uint32_t more) {
    uint32_t held, sum, failed;
    do {
        __asm__ volatile("lr.w %0, (%3)\n\tadd %1, %0, %4\n\tsc.w %2, %1, (%3)"
                         : "=&r"(held), "=&r"(sum), "=&r"(failed)
                         : "r"(word), "r"(more)
                         : "memory");
    } while (failed != 0);
    return held;
}

/* Stores to a word by one AMO, and gives what it held. */
static inline uint32_t exchange(volatile uint32_t *word, uint32_t value) {
    uint32_t held;
    __asm__ volatile("amoswap.w %0, %2, (%1)" : "=r"(held) : "r"(word), "r"(value) : "memory");
    return held;
}

/* A lock that one hart holds, and for which others spin. It is free when it is 0. */
struct spin_lock {
    volatile uint32_t taken;
};

static inline void spin_lock(struct spin_lock *lock) {
    while (exchange(&lock->taken, 1) != 0) {
        while (lock->taken != 0) {
        }
    }
}

static inline void spin_unlock(struct spin_lock *lock) {
    barrier_of_code();
    lock->taken = 0;
}

/* A lock that harts get in the order in which they came. */
struct ticket_lock {
    volatile uint32_t next, served;
};

static inline void ticket_lock(struct ticket_lock *lock) {
    uint32_t mine = add_by_amo(&lock->next, 1);
    while (lock->served != mine) {
    }
    barrier_of_code();
}

static inline void ticket_unlock(struct ticket_lock *lock) {
    barrier_of_code();
    lock->served = lock->served + 1;
}

/* A barrier at which so many harts wait for each other, again and again. */
struct barrier {
    uint32_t harts;
    volatile uint32_t came, rounds;
};

static inline void wait_for_all(struct barrier *barrier) {
    uint32_t round = barrier->rounds;
    if (add_by_amo(&barrier->came, 1) + 1 == barrier->harts) {
        barrier->came = 0;
        barrier->rounds = round + 1;
    } else {
        while (barrier->rounds == round) {
        }
    }
    barrier_of_code();
}

/* Sends a hart a software interrupt. */
static inline void call_hart(uint32_t hart) {
    software_line(hart, 1);
}

/* Waits until this hart was called, and puts its line down. No handler is needed. */
static inline void wait_for_call(uint32_t hart) {
    while ((CSR_READ(mip) & INTERRUPT_SOFTWARE) == 0) {
    }
    software_line(hart, 0);
}

/* The next byte of the console, or RX_EMPTY where it has none any more. */
static inline uint32_t next_byte(void) {
    return RX;
}

/* A number that is sent in decimal, as a line or its end; RX_EMPTY where there is none. */
static inline uint32_t next_number(void) {
    uint32_t byte = next_byte();
    while (byte != RX_EMPTY && (byte < '0' || '9' < byte)) {
        byte = next_byte();
    }
    if (byte == RX_EMPTY) {
        return RX_EMPTY;
    }
    uint32_t number = 0;
    while ('0' <= byte && byte <= '9') {
        number = 10 * number + (byte - '0');
        byte = next_byte();
    }
    return number;
}

/* Random numbers of a seed that isn't 0: Marsaglia's generator xorshift32. */
static inline uint32_t random_from(uint32_t *seed) {
    *seed ^= *seed << 13;
    *seed ^= *seed >> 17;
    *seed ^= *seed << 5;
    return *seed;
}

/* Lets these interrupts come. */
static inline void interrupts_on(uint32_t bits) {
    CSR_SET(mie, bits);
    CSR_SET(mstatus, 1u << 3);
}

#endif
