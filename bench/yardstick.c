/* A plain interpreter of a board with one hart (docs/board.md), which records nothing: what the speed of a
   recording is measured by.

       yardstick IMAGE [PAGES [LIMIT]]

   The guest's console is standard input and output. At the end come the first lines of a recording's report, and
   the seconds that the moves took. */
#include <errno.h>
#include <stdbool.h>
#include <stdint.h>
#include <stdio.h>
#include <stdlib.h>
#include <string.h>
#include <time.h>

#define MEMORY_START 0x80000000u
#define PAGE_BYTES 4096u
#define MOST_PAGES 4096u
#define MOST_MOVES 1000000000000u
#define MOST_IMAGE_BYTES 67108864u
#define POLL_DISTANCE 4096u

enum { SOFTWARE_LINE = 1 << 3, TIMER_LINE = 1 << 7, EXTERNAL_LINE = 1 << 11 };
enum { MIE = 1 << 3, MPIE = 1 << 7, MPP = 3 << 11 };
enum {
    TRAP_TARGET = 0,
    TRAP_FETCH = 1,
    TRAP_ILLEGAL = 2,
    TRAP_BREAK = 3,
    TRAP_LOAD_ALIGNMENT = 4,
    TRAP_LOAD = 5,
    TRAP_STORE_ALIGNMENT = 6,
    TRAP_STORE = 7,
    TRAP_CALL = 11,
};

struct board {
    uint32_t x[32], pc;
    uint64_t moves;
    bool interrupt_is_due;
    uint8_t *memory;
    uint32_t memory_bytes;

    bool is_reserved;
    uint32_t reservation;
    uint32_t mstatus, mie, mip, mtvec, mscratch, mepc, mcause, mtval;
    uint64_t cycle_lead, retired_lead; /* mcycle and minstret, less the moves */

    bool is_stopped;
    uint32_t stop_word, msip;
    uint64_t mtime, mtimecmp;
    struct timespec began;
};

static _Noreturn void fail(const char *what, const char *name) {
    fprintf(stderr, "yardstick: %s: %s\n", name, what);
    exit(2);
}

/* Little-endian numbers. */

static uint32_t half_at(const uint8_t *bytes) {
    return bytes[0] | (uint32_t)bytes[1] << 8;
}

static uint32_t word_at(const uint8_t *bytes) {
    return bytes[0] | (uint32_t)bytes[1] << 8 | (uint32_t)bytes[2] << 16 | (uint32_t)bytes[3] << 24;
}

static void put_half(uint8_t *bytes, uint32_t value) {
    bytes[0] = (uint8_t)value;
    bytes[1] = (uint8_t)(value >> 8);
}

static void put_word(uint8_t *bytes, uint32_t value) {
    bytes[0] = (uint8_t)value;
    bytes[1] = (uint8_t)(value >> 8);
    bytes[2] = (uint8_t)(value >> 16);
    bytes[3] = (uint8_t)(value >> 24);
}

/* Traps and interrupts. */

static void look_for_interrupts(struct board *board) {
    board->interrupt_is_due = (board->mstatus & MIE) != 0 && (board->mie & board->mip) != 0;
}

static void enter(struct board *board, uint32_t cause, uint32_t value, uint32_t pc) {
    board->mepc = board->pc;
    board->mcause = cause;
    board->mtval = value;
    board->mstatus = MPP | (board->mstatus & MIE ? MPIE : 0);
    board->pc = pc;
    board->retired_lead--;
    board->interrupt_is_due = false;
}

static void trap(struct board *board, uint32_t cause, uint32_t value) {
    enter(board, cause, value, board->mtvec & ~3u);
}

static void interrupt(struct board *board) {
    uint32_t due = board->mie & board->mip;
    uint32_t number = due & EXTERNAL_LINE ? 11 : due & SOFTWARE_LINE ? 3 : 7;
    uint32_t vectored = board->mtvec & 1 ? 4 * number : 0;
    enter(board, 0x80000000u | number, 0, (board->mtvec & ~3u) + vectored);
}

static void return_from_trap(struct board *board) {
    board->mstatus = MPP | MPIE | (board->mstatus & MPIE ? MIE : 0);
    board->pc = board->mepc;
    look_for_interrupts(board);
}

/* Devices. */

static void ask_clock(struct board *board) {
    struct timespec now;
    clock_gettime(CLOCK_MONOTONIC, &now);
    int64_t nanoseconds = (now.tv_sec - board->began.tv_sec) * INT64_C(1000000000) + now.tv_nsec - board->began.tv_nsec;
    uint64_t microseconds = (uint64_t)nanoseconds / 1000;
    if (microseconds > board->mtime) {
        board->mtime = microseconds;
    }
}

static void take_lines(struct board *board) {
    board->mip = (board->msip ? SOFTWARE_LINE : 0) | (board->mtime >= board->mtimecmp ? TIMER_LINE : 0);
    look_for_interrupts(board);
}

static void poll(struct board *board) {
    ask_clock(board);
    take_lines(board);
}

static uint32_t ask_console(void) {
    fflush(stdout);
    int byte = getchar();
    if (byte == EOF && ferror(stdin)) {
        fail("cannot be read", "standard input");
    }
    return byte == EOF ? 0xffffffffu : (uint32_t)byte;
}

static void set_half_of(uint64_t *whole, bool is_high, uint32_t half) {
    *whole = is_high ? (uint32_t)*whole | (uint64_t)half << 32 : *whole >> 32 << 32 | half;
}

static bool device_load(struct board *board, uint32_t at, uint32_t *value) {
    switch (at) {
    case 0x02000000: *value = board->msip; break;
    case 0x02004000: *value = (uint32_t)board->mtimecmp; break;
    case 0x02004004: *value = (uint32_t)(board->mtimecmp >> 32); break;
    case 0x0200bff8: ask_clock(board); *value = (uint32_t)board->mtime; break;
    case 0x0200bffc: ask_clock(board); *value = (uint32_t)(board->mtime >> 32); break;
    case 0x10000000: *value = ask_console(); break;
    case 0x10000004: *value = 0; break;
    case 0x10000008: *value = 0; break;
    default: return false;
    }
    take_lines(board);
    return true;
}

static bool device_store(struct board *board, uint32_t at, uint32_t value) {
    switch (at) {
    case 0x02000000: board->msip = value & 1; break;
    case 0x02004000: set_half_of(&board->mtimecmp, false, value); break;
    case 0x02004004: set_half_of(&board->mtimecmp, true, value); break;
    case 0x0200bff8: break;
    case 0x0200bffc: break;
    case 0x10000000: break;
    case 0x10000004: putchar((int)(value & 255)); break;
    case 0x10000008: board->is_stopped = true; board->stop_word = value; break;
    default: return false;
    }
    take_lines(board);
    return true;
}

/* Control and status registers. */

static bool is_idle_counter(uint32_t number) {
    return (number >= 0xb03 && number <= 0xb1f) || (number >= 0xb83 && number <= 0xb9f) || (number >= 0x323 && number <= 0x33f);
}

static bool csr_read(const struct board *board, uint32_t number, uint32_t *value) {
    switch (number) {
    case 0x300: *value = board->mstatus; return true;
    case 0x301: *value = 0x40001101; return true;
    case 0x304: *value = board->mie; return true;
    case 0x305: *value = board->mtvec; return true;
    case 0x340: *value = board->mscratch; return true;
    case 0x341: *value = board->mepc; return true;
    case 0x342: *value = board->mcause; return true;
    case 0x343: *value = board->mtval; return true;
    case 0x344: *value = board->mip; return true;
    case 0xb00: *value = (uint32_t)(board->moves + board->cycle_lead); return true;
    case 0xb80: *value = (uint32_t)((board->moves + board->cycle_lead) >> 32); return true;
    case 0xb02: *value = (uint32_t)(board->moves + board->retired_lead); return true;
    case 0xb82: *value = (uint32_t)((board->moves + board->retired_lead) >> 32); return true;
    case 0x310: case 0xf11: case 0xf12: case 0xf13: case 0xf14: *value = 0; return true;
    default: *value = 0; return is_idle_counter(number);
    }
}

/* A written counter holds the value after this move. */
static void write_counter(struct board *board, uint64_t *lead, bool is_high, uint32_t value) {
    uint64_t counter = board->moves + *lead;
    set_half_of(&counter, is_high, value);
    *lead = counter - (board->moves + 1);
}

static void csr_write(struct board *board, uint32_t number, uint32_t value) {
    switch (number) {
    case 0x300: board->mstatus = MPP | (value & (MIE | MPIE)); break;
    case 0x304: board->mie = value & (SOFTWARE_LINE | TIMER_LINE | EXTERNAL_LINE); break;
    case 0x305: board->mtvec = value & ~2u; break;
    case 0x340: board->mscratch = value; break;
    case 0x341: board->mepc = value & ~3u; break;
    case 0x342: board->mcause = value; break;
    case 0x343: board->mtval = value; break;
    case 0xb00: write_counter(board, &board->cycle_lead, false, value); break;
    case 0xb80: write_counter(board, &board->cycle_lead, true, value); break;
    case 0xb02: write_counter(board, &board->retired_lead, false, value); break;
    case 0xb82: write_counter(board, &board->retired_lead, true, value); break;
    default: break;
    }
    look_for_interrupts(board);
}

/* Instructions. */

static uint32_t rd_of(uint32_t word) { return word >> 7 & 31; }
static uint32_t rs1_of(uint32_t word) { return word >> 15 & 31; }
static uint32_t rs2_of(uint32_t word) { return word >> 20 & 31; }
static uint32_t funct3_of(uint32_t word) { return word >> 12 & 7; }
static uint32_t funct7_of(uint32_t word) { return word >> 25; }

static uint32_t immediate_i(uint32_t word) { return (uint32_t)((int32_t)word >> 20); }
static uint32_t immediate_s(uint32_t word) { return (immediate_i(word) & ~31u) | rd_of(word); }
static uint32_t immediate_b(uint32_t word) {
    return (immediate_s(word) & ~0x801u) | (word << 4 & 0x800) | ((uint32_t)((int32_t)word >> 31) & ~0xfffu);
}
static uint32_t immediate_j(uint32_t word) {
    return ((uint32_t)((int32_t)word >> 31) & ~0xfffffu) | (word & 0xff000) | (word >> 9 & 0x800) | (word >> 20 & 0x7fe);
}

static void retire(struct board *board, uint32_t rd, uint32_t value) {
    board->x[rd] = value;
    board->x[0] = 0;
    board->pc += 4;
}

static void illegal(struct board *board, uint32_t word) {
    trap(board, TRAP_ILLEGAL, word);
}

static void jump(struct board *board, uint32_t rd, uint32_t target) {
    if (target & 3) {
        trap(board, TRAP_TARGET, target);
        return;
    }
    board->x[rd] = board->pc + 4;
    board->x[0] = 0;
    board->pc = target;
}

static void jump_to_register(struct board *board, uint32_t word) {
    if (funct3_of(word) == 0) {
        jump(board, rd_of(word), (board->x[rs1_of(word)] + immediate_i(word)) & ~1u);
    } else {
        illegal(board, word);
    }
}

static void branch(struct board *board, uint32_t word) {
    uint32_t a = board->x[rs1_of(word)], b = board->x[rs2_of(word)];
    bool is_taken;
    switch (funct3_of(word)) {
    case 0: is_taken = a == b; break;
    case 1: is_taken = a != b; break;
    case 4: is_taken = (int32_t)a < (int32_t)b; break;
    case 5: is_taken = (int32_t)a >= (int32_t)b; break;
    case 6: is_taken = a < b; break;
    case 7: is_taken = a >= b; break;
    default: illegal(board, word); return;
    }
    uint32_t target = board->pc + (is_taken ? immediate_b(word) : 4);
    if (target & 3) {
        trap(board, TRAP_TARGET, target);
    } else {
        board->pc = target;
    }
}

static void load(struct board *board, uint32_t word) {
    uint32_t funct3 = funct3_of(word), at = board->x[rs1_of(word)] + immediate_i(word), value;
    if (funct3 == 3 || funct3 > 5) {
        illegal(board, word);
        return;
    }
    uint32_t bytes = 1u << (funct3 & 3);
    if (at & (bytes - 1)) {
        trap(board, TRAP_LOAD_ALIGNMENT, at);
        return;
    }
    if (at - MEMORY_START >= board->memory_bytes) {
        if (bytes == 4 && device_load(board, at, &value)) {
            retire(board, rd_of(word), value);
        } else {
            trap(board, TRAP_LOAD, at);
        }
        return;
    }
    const uint8_t *place = board->memory + (at - MEMORY_START);
    switch (funct3) {
    case 0: value = (uint32_t)(int8_t)*place; break;
    case 1: value = (uint32_t)(int16_t)half_at(place); break;
    case 2: value = word_at(place); break;
    case 4: value = *place; break;
    default: value = half_at(place); break;
    }
    retire(board, rd_of(word), value);
}

static void store(struct board *board, uint32_t word) {
    uint32_t funct3 = funct3_of(word), at = board->x[rs1_of(word)] + immediate_s(word), value = board->x[rs2_of(word)];
    if (funct3 > 2) {
        illegal(board, word);
        return;
    }
    if (at & ((1u << funct3) - 1)) {
        trap(board, TRAP_STORE_ALIGNMENT, at);
        return;
    }
    if (at - MEMORY_START >= board->memory_bytes) {
        if (funct3 == 2 && device_store(board, at, value)) {
            board->pc += 4;
        } else {
            trap(board, TRAP_STORE, at);
        }
        return;
    }
    uint8_t *place = board->memory + (at - MEMORY_START);
    switch (funct3) {
    case 0: *place = (uint8_t)value; break;
    case 1: put_half(place, value); break;
    default: put_word(place, value); break;
    }
    board->pc += 4;
}

static void with_immediate(struct board *board, uint32_t word) {
    uint32_t a = board->x[rs1_of(word)], b = immediate_i(word), amount = b & 31, value;
    switch (funct3_of(word)) {
    case 0: value = a + b; break;
    case 2: value = (int32_t)a < (int32_t)b; break;
    case 3: value = a < b; break;
    case 4: value = a ^ b; break;
    case 6: value = a | b; break;
    case 7: value = a & b; break;
    case 1:
        if (funct7_of(word) != 0) {
            illegal(board, word);
            return;
        }
        value = a << amount;
        break;
    default:
        if ((funct7_of(word) & ~0x20u) != 0) {
            illegal(board, word);
            return;
        }
        value = funct7_of(word) ? (uint32_t)((int32_t)a >> amount) : a >> amount;
        break;
    }
    retire(board, rd_of(word), value);
}

static uint32_t divide(uint32_t a, uint32_t b) {
    if (b == 0) {
        return 0xffffffffu;
    }
    return b == 0xffffffffu ? 0 - a : (uint32_t)((int32_t)a / (int32_t)b);
}

static uint32_t remain(uint32_t a, uint32_t b) {
    if (b == 0) {
        return a;
    }
    return b == 0xffffffffu ? 0 : (uint32_t)((int32_t)a % (int32_t)b);
}

static uint32_t multiplied(uint32_t funct3, uint32_t a, uint32_t b) {
    switch (funct3) {
    case 0: return a * b;
    case 1: return (uint32_t)((uint64_t)((int64_t)(int32_t)a * (int32_t)b) >> 32);
    case 2: return (uint32_t)((uint64_t)((int64_t)(int32_t)a * b) >> 32);
    case 3: return (uint32_t)((uint64_t)a * b >> 32);
    case 4: return divide(a, b);
    case 5: return b == 0 ? 0xffffffffu : a / b;
    case 6: return remain(a, b);
    default: return b == 0 ? a : a % b;
    }
}

static uint32_t combined(uint32_t funct3, uint32_t a, uint32_t b) {
    switch (funct3) {
    case 0: return a + b;
    case 1: return a << (b & 31);
    case 2: return (int32_t)a < (int32_t)b;
    case 3: return a < b;
    case 4: return a ^ b;
    case 5: return a >> (b & 31);
    case 6: return a | b;
    default: return a & b;
    }
}

static void with_register(struct board *board, uint32_t word) {
    uint32_t a = board->x[rs1_of(word)], b = board->x[rs2_of(word)], funct3 = funct3_of(word), value;
    switch (funct7_of(word)) {
    case 0: value = combined(funct3, a, b); break;
    case 1: value = multiplied(funct3, a, b); break;
    case 0x20:
        if (funct3 != 0 && funct3 != 5) {
            illegal(board, word);
            return;
        }
        value = funct3 == 0 ? a - b : (uint32_t)((int32_t)a >> (b & 31));
        break;
    default: illegal(board, word); return;
    }
    retire(board, rd_of(word), value);
}

static void atomic_on(struct board *board, uint32_t word, uint8_t *place, uint32_t at) {
    uint32_t old = word_at(place), b = board->x[rs2_of(word)], result;
    switch (funct7_of(word) >> 2) {
    case 0x02:
        board->is_reserved = true;
        board->reservation = at;
        retire(board, rd_of(word), old);
        return;
    case 0x03: {
        bool holds = board->is_reserved && board->reservation == at;
        if (holds) {
            put_word(place, b);
        }
        board->is_reserved = false;
        retire(board, rd_of(word), !holds);
        return;
    }
    case 0x01: result = b; break;
    case 0x00: result = old + b; break;
    case 0x04: result = old ^ b; break;
    case 0x0c: result = old & b; break;
    case 0x08: result = old | b; break;
    case 0x10: result = (int32_t)old < (int32_t)b ? old : b; break;
    case 0x14: result = (int32_t)old > (int32_t)b ? old : b; break;
    case 0x18: result = old < b ? old : b; break;
    default: result = old > b ? old : b; break;
    }
    put_word(place, result);
    retire(board, rd_of(word), old);
}

static bool is_atomic(uint32_t word) {
    switch (funct7_of(word) >> 2) {
    case 0x02: return funct3_of(word) == 2 && rs2_of(word) == 0;
    case 0x00: case 0x01: case 0x03: case 0x04: case 0x08: case 0x0c: case 0x10: case 0x14: case 0x18: case 0x1c:
        return funct3_of(word) == 2;
    default: return false;
    }
}

static void atomic(struct board *board, uint32_t word) {
    uint32_t at = board->x[rs1_of(word)];
    bool is_load = funct7_of(word) >> 2 == 0x02;
    if (!is_atomic(word)) {
        illegal(board, word);
    } else if (at & 3) {
        trap(board, is_load ? TRAP_LOAD_ALIGNMENT : TRAP_STORE_ALIGNMENT, at);
    } else if (at - MEMORY_START >= board->memory_bytes) {
        trap(board, is_load ? TRAP_LOAD : TRAP_STORE, at);
    } else {
        atomic_on(board, word, board->memory + (at - MEMORY_START), at);
    }
}

static void with_csr(struct board *board, uint32_t word) {
    uint32_t funct3 = funct3_of(word), number = word >> 20, field = rs1_of(word), old;
    uint32_t operand = funct3 & 4 ? field : board->x[field];
    bool is_swap = (funct3 & 3) == 1;
    bool writes = is_swap || field != 0;
    if (!csr_read(board, number, &old) || (writes && (number & 0xc00) == 0xc00)) {
        illegal(board, word);
        return;
    }
    if (writes) {
        csr_write(board, number, is_swap ? operand : (funct3 & 3) == 2 ? old | operand : old & ~operand);
    }
    retire(board, rd_of(word), old);
}

static void system_word(struct board *board, uint32_t word) {
    switch (word) {
    case 0x00000073: trap(board, TRAP_CALL, 0); return;
    case 0x00100073: trap(board, TRAP_BREAK, board->pc); return;
    case 0x30200073: return_from_trap(board); return;
    case 0x10500073: board->pc += 4; return;
    default: break;
    }
    if ((funct3_of(word) & 3) != 0) {
        with_csr(board, word);
    } else {
        illegal(board, word);
    }
}

static void fence(struct board *board, uint32_t word) {
    if (funct3_of(word) < 2) {
        board->pc += 4;
    } else {
        illegal(board, word);
    }
}

static void execute(struct board *board, uint32_t word) {
    if ((word & 3) != 3) {
        illegal(board, word);
        return;
    }
    switch (word >> 2 & 31) {
    case 0x00: load(board, word); break;
    case 0x03: fence(board, word); break;
    case 0x04: with_immediate(board, word); break;
    case 0x05: retire(board, rd_of(word), board->pc + (word & ~0xfffu)); break;
    case 0x08: store(board, word); break;
    case 0x0b: atomic(board, word); break;
    case 0x0c: with_register(board, word); break;
    case 0x0d: retire(board, rd_of(word), word & ~0xfffu); break;
    case 0x18: branch(board, word); break;
    case 0x19: jump_to_register(board, word); break;
    case 0x1b: jump(board, rd_of(word), board->pc + immediate_j(word)); break;
    case 0x1c: system_word(board, word); break;
    default: illegal(board, word); break;
    }
}

/* The run. */

static void move(struct board *board) {
    uint32_t at = board->pc - MEMORY_START;
    if (board->interrupt_is_due) {
        interrupt(board);
    } else if (at >= board->memory_bytes) {
        trap(board, TRAP_FETCH, board->pc);
    } else {
        execute(board, word_at(board->memory + at));
    }
    board->moves++;
}

static void run_to(struct board *board, uint64_t pause) {
    while (board->moves < pause && !board->is_stopped) {
        move(board);
    }
}

static void run(struct board *board, uint64_t limit) {
    while (board->moves < limit && !board->is_stopped) {
        uint64_t rest = limit - board->moves;
        poll(board);
        run_to(board, board->moves + (rest < POLL_DISTANCE ? rest : POLL_DISTANCE));
    }
}

/* Images. */

static void place_segments(struct board *board, const uint8_t *file, uint64_t length, const char *name) {
    uint64_t table = word_at(file + 28), rows = half_at(file + 44);
    if (rows != 0 && (half_at(file + 42) != 32 || table + 32 * rows > length)) {
        fail("its program headers are cut", name);
    }
    for (uint64_t row = 0; row < rows; row++) {
        const uint8_t *header = file + table + 32 * row;
        uint64_t offset = word_at(header + 4), filled = word_at(header + 16), all = word_at(header + 20);
        uint32_t start = word_at(header + 12) - MEMORY_START;
        if (word_at(header) != 1 || all == 0) {
            continue;
        }
        if (filled > all || (filled > 0 && offset + filled > length) || start + all > board->memory_bytes) {
            fail("a segment is cut, or lies outside memory", name);
        }
        memcpy(board->memory + start, file + offset, filled);
        memset(board->memory + start + filled, 0, all - filled);
    }
}

static void place_elf(struct board *board, const uint8_t *file, uint64_t length, const char *name) {
    if (length < 52 || file[4] != 1 || file[5] != 1 || file[6] != 1 || half_at(file + 16) != 2 || half_at(file + 18) != 243) {
        fail("is no ELF32 executable for RISC-V", name);
    }
    if (word_at(file + 36) & 1) {
        fail("has compressed code", name);
    }
    board->pc = word_at(file + 24);
    if (board->pc % 4 != 0 || board->pc - MEMORY_START >= board->memory_bytes) {
        fail("its entry is no place in memory", name);
    }
    place_segments(board, file, length, name);
}

static uint8_t *read_file(const char *name, uint64_t *length) {
    FILE *from = fopen(name, "rb");
    uint8_t *bytes = malloc(MOST_IMAGE_BYTES + 1);
    if (from == NULL || bytes == NULL) {
        fail(strerror(errno), name);
    }
    *length = fread(bytes, 1, MOST_IMAGE_BYTES + 1, from);
    if (ferror(from) || *length > MOST_IMAGE_BYTES) {
        fail("cannot be read, or is too long", name);
    }
    fclose(from);
    return bytes;
}

static void place_image(struct board *board, const char *name) {
    uint64_t length;
    uint8_t *file = read_file(name, &length);
    board->pc = MEMORY_START;
    if (length >= 4 && memcmp(file, "\177ELF", 4) == 0) {
        place_elf(board, file, length, name);
    } else if (length > board->memory_bytes) {
        fail("is longer than the memory", name);
    } else {
        memcpy(board->memory, file, length);
    }
    free(file);
}

/* What is told. */

static void tell_registers(const struct board *board) {
    for (uint32_t i = 0; i < 32; i++) {
        if (i % 8 == 0) {
            printf("x%u", i);
        }
        printf(" %08x%s", board->x[i], i % 8 == 7 ? "\n" : "");
    }
}

static void tell(const struct board *board, double seconds) {
    if (board->is_stopped) {
        printf("cause stop %u\n", board->stop_word);
    } else {
        printf("cause limit\n");
    }
    printf("hart 0 count %llu pc %08x\n", (unsigned long long)board->moves, board->pc);
    tell_registers(board);
    printf("csr %08x %08x %08x %08x %08x %08x %08x %08x\n", board->mstatus, board->mie, board->mtvec, board->mscratch,
           board->mepc, board->mcause, board->mtval, board->mip);
    printf("counters %016llx %016llx\n", (unsigned long long)(board->moves + board->cycle_lead),
           (unsigned long long)(board->moves + board->retired_lead));
    printf("seconds %.6f\n", seconds);
}

static uint64_t number_in(const char *word, uint64_t least, uint64_t most) {
    char *end;
    errno = 0;
    unsigned long long number = strtoull(word, &end, 10);
    if (*word < '0' || *word > '9' || *end != 0 || errno != 0 || number < least || number > most) {
        fail("is no number in range", word);
    }
    return number;
}

int main(int count, char **words) {
    if (count < 2 || count > 4) {
        fprintf(stderr, "usage: yardstick IMAGE [PAGES [LIMIT]]\n");
        return 1;
    }
    uint64_t pages = count > 2 ? number_in(words[2], 1, MOST_PAGES) : MOST_PAGES;
    uint64_t limit = count > 3 ? number_in(words[3], 0, MOST_MOVES) : 10000000;
    struct board board = {.memory_bytes = (uint32_t)pages * PAGE_BYTES, .mstatus = MPP, .mtimecmp = UINT64_MAX};
    board.memory = calloc(pages, PAGE_BYTES);
    if (board.memory == NULL) {
        fail(strerror(errno), "memory");
    }
    place_image(&board, words[1]);
    struct timespec end;
    clock_gettime(CLOCK_MONOTONIC, &board.began);
    run(&board, limit);
    clock_gettime(CLOCK_MONOTONIC, &end);
    tell(&board, (double)(end.tv_sec - board.began.tv_sec) + 1e-9 * (double)(end.tv_nsec - board.began.tv_nsec));
    free(board.memory);
    return fflush(stdout) == 0 ? 0 : 2;
}
