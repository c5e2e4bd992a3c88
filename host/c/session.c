/* A script from its input: its list, then what the list prints; or the `ee` line of a refusal. */
#include <stdio.h>

#include "../mboxalind.h"

enum { BUFFER = MBOXALIND_TEXT, CELLS = MBOXALIND_CELLS };

static uint8_t script[BUFFER + 1], list[BUFFER], cells[2 * CELLS], out[BUFFER];

static int refused(uint64_t answer) {
    if (mboxalind_number(answer) == 0) return 0;
    printf("ee%02x%04x\n", mboxalind_number(answer), (unsigned)mboxalind_low(answer));
    return 1;
}

int main(void) {
    size_t length = fread(script, 1, sizeof script, stdin);
    if (length > BUFFER) {
        puts("ee110000");
        return 1;
    }
    uint64_t translated = translate(script, length, list, sizeof list);
    if (refused(translated)) return 1;
    fwrite(list, 1, mboxalind_low(translated), stdout);
    uint64_t ran = run(list, mboxalind_low(translated), cells, sizeof cells, out, sizeof out);
    if (refused(ran)) return 1;
    fwrite(out, 1, mboxalind_low(ran), stdout);
    return 0;
}
