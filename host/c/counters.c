/* A list from a file and a recording from its input, read in parts: what the list's loads show, and how many samples are left over; or the
 * `ee` line of a refusal. counters LIST < RECORDING */
#include <stdio.h>

#include "../mboxalind.h"

enum { BUFFER = MBOXALIND_TEXT, CELLS = MBOXALIND_CELLS, SAMPLES = MBOXALIND_SAMPLES, PART = 65536 };

static uint8_t list[BUFFER + 1], samples[2 * SAMPLES], part[PART], cells[2 * CELLS], out[BUFFER], left[4];

static int refused(uint64_t answer) {
    unsigned number = mboxalind_number(answer);
    if (number == 0) return 0;
    printf(number == 24 ? "ee%02x%08x\n" : "ee%02x%04x\n", number, (unsigned)mboxalind_low(answer));
    return 1;
}

int main(int count, char **words) {
    FILE *file = count == 2 ? fopen(words[1], "rb") : NULL;
    if (file == NULL) {
        fputs("counters LIST < RECORDING\n", stderr);
        return 2;
    }
    size_t length = fread(list, 1, sizeof list, file), bytes;
    fclose(file);
    if (length > BUFFER) {
        puts("ee110000");
        return 1;
    }
    uint64_t state = 0;
    while ((bytes = fread(part, 1, sizeof part, stdin)) > 0) state = read_recording(state, samples, sizeof samples, part, bytes);
    uint64_t ran = run_recorded(list, length, state, samples, sizeof samples, cells, sizeof cells, out, sizeof out, left, sizeof left);
    if (refused(ran)) return 1;
    fwrite(out, 1, mboxalind_low(ran), stdout);
    printf("a1%02x%02x%02x%02x\n", left[0], left[1], left[2], left[3]);
    return 0;
}
