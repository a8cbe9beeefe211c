/* Some tens of millions of moves of plain computing, to measure speed by: random words, a sort, checksums by a
   table, products of matrices, greatest common divisors, a tree that is built and walked, and decimal texts.
   It prints the checksum of all results and stops with it. */
#include "board.h"

#define ROUNDS 60
#define WORDS 1024
#define SIDE 24
#define TEXT_BYTES 4096

static uint32_t words[WORDS];
static uint32_t crc_table[256];
static uint16_t left[SIDE][SIDE], right[SIDE][SIDE];
static uint8_t text[TEXT_BYTES];

struct node {
    uint32_t key;
    struct node *lesser, *greater;
};
static struct node nodes[WORDS];

static uint32_t seed = 1;

/* Marsaglia's generator xorshift32. */
static uint32_t next_random(void) {
    seed ^= seed << 13;
    seed ^= seed >> 17;
    seed ^= seed << 5;
    return seed;
}

/* The table of the CRC-32 of IEEE 802.3, its polynomial written with the lowest power first. */
static void make_crc_table(void) {
    for (uint32_t byte = 0; byte < 256; byte++) {
        uint32_t remainder = byte;
        for (int bit = 0; bit < 8; bit++) {
            remainder = remainder & 1 ? remainder >> 1 ^ 0xedb88320u : remainder >> 1;
        }
        crc_table[byte] = remainder;
    }
}

static uint32_t crc_of(uint32_t crc, const uint8_t *bytes, uint32_t length) {
    crc = ~crc;
    for (uint32_t i = 0; i < length; i++) {
        crc = crc >> 8 ^ crc_table[(crc ^ bytes[i]) & 255];
    }
    return ~crc;
}

static void fill_words(void) {
    for (uint32_t i = 0; i < WORDS; i++) {
        words[i] = next_random();
    }
}

/* Shell's sort, by Knuth's gaps 1, 4, 13 and so on. */
static void sort_words(void) {
    uint32_t gap = 1;
    while (gap < WORDS / 3) {
        gap = 3 * gap + 1;
    }
    for (; gap > 0; gap /= 3) {
        for (uint32_t i = gap; i < WORDS; i++) {
            uint32_t word = words[i], at = i;
            for (; at >= gap && words[at - gap] > word; at -= gap) {
                words[at] = words[at - gap];
            }
            words[at] = word;
        }
    }
}

/* Puts the random words into a tree and gives the greatest depth. */
static uint32_t grow_tree(void) {
    struct node *root = 0;
    uint32_t deepest = 0;
    for (uint32_t i = 0; i < WORDS; i++) {
        struct node **place = &root;
        uint32_t depth = 0;
        for (; *place != 0; depth++) {
            place = words[i] < (*place)->key ? &(*place)->lesser : &(*place)->greater;
        }
        nodes[i] = (struct node){words[i], 0, 0};
        *place = &nodes[i];
        if (depth > deepest) {
            deepest = depth;
        }
    }
    return deepest;
}

/* Adds up the keys below a node, each times the depth at which it stands. */
static uint32_t weigh(const struct node *node, uint32_t depth) {
    if (node == 0) {
        return 0;
    }
    return weigh(node->lesser, depth + 1) + node->key * depth + weigh(node->greater, depth + 1);
}

static uint32_t multiply_matrices(void) {
    uint32_t trace = 0;
    for (uint32_t i = 0; i < SIDE * SIDE; i++) {
        left[i / SIDE][i % SIDE] = (uint16_t)words[i];
        right[i % SIDE][i / SIDE] = (uint16_t)(words[i] >> 16);
    }
    for (uint32_t row = 0; row < SIDE; row++) {
        for (uint32_t column = 0; column < SIDE; column++) {
            uint32_t sum = 0;
            for (uint32_t i = 0; i < SIDE; i++) {
                sum += (uint32_t)left[row][i] * right[i][column];
            }
            trace = trace << 1 ^ trace >> 31 ^ sum;
        }
    }
    return trace;
}

static uint32_t common_divisors(void) {
    uint32_t sum = 0;
    for (uint32_t i = 0; i + 1 < WORDS; i += 2) {
        uint32_t a = words[i], b = words[i + 1] | 1;
        while (b != 0) {
            uint32_t remainder = a % b;
            a = b;
            b = remainder;
        }
        sum += a;
    }
    return sum;
}

/* Writes words as signed decimals, each with a blank, as many as fit. */
static uint32_t write_decimals(void) {
    uint32_t used = 0;
    for (uint32_t i = 0; i < WORDS && used + 12 <= TEXT_BYTES; i++) {
        int32_t rest = (int32_t)words[i];
        uint8_t digits[10];
        uint32_t count = 0;
        if (rest < 0) {
            text[used++] = '-';
        }
        do {
            int32_t digit = rest % 10;
            digits[count++] = (uint8_t)('0' + (digit < 0 ? -digit : digit));
            rest /= 10;
        } while (rest != 0);
        while (count > 0) {
            text[used++] = digits[--count];
        }
        text[used++] = ' ';
    }
    return used;
}

static uint32_t one_round(void) {
    fill_words();
    uint32_t result = grow_tree() + weigh(nodes, 1);
    result ^= multiply_matrices();
    result += common_divisors();
    sort_words();
    return crc_of(result, text, write_decimals());
}

static void print_hexadecimal(uint32_t word) {
    for (int shift = 28; shift >= 0; shift -= 4) {
        TX = (uint8_t)"0123456789abcdef"[word >> shift & 15];
    }
}

int main(void) {
    uint32_t checksum = 0;
    make_crc_table();
    for (int round = 0; round < ROUNDS; round++) {
        uint32_t result = one_round();
        checksum = crc_of(checksum, (const uint8_t *)&result, sizeof result);
    }
    print_hexadecimal(checksum);
    print("\n");
    return (int)checksum;
}
