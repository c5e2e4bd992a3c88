/* A list from its input: what its loads show, or the `ee` line of a refusal. */
#include <stdio.h>

#include "../mboxalind.h"

enum { BUFFER = MBOXALIND_TEXT, CELLS = MBOXALIND_CELLS };

static uint8_t list[BUFFER + 1], cells[2 * CELLS], out[BUFFER];

int main(void) {
    size_t length = fread(list, 1, sizeof list, stdin);
    if (length > BUFFER) {
        puts("ee110000");
        return 1;
    }
    uint64_t ran = run(list, length, cells, sizeof cells, out, sizeof out);
    if (mboxalind_number(ran) != 0) {
        printf("ee%02x%04x\n", mboxalind_number(ran), (unsigned)mboxalind_low(ran));
        return 1;
    }
    fwrite(out, 1, mboxalind_low(ran), stdout);
    return 0;
}
