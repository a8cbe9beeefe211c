/* Sends back what comes in, until nothing does, and stops with the number of bytes. */
#include "board.h"

int main(void) {
    int bytes = 0;
    for (uint32_t byte = RX; byte != RX_EMPTY; byte = RX) {
        TX = byte;
        bytes++;
    }
    return bytes;
}
