/* Greets and stops. */
#include "board.h"

int main(void) {
    print("hello\n");
    return 0;
}
