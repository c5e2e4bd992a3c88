/* Whether a list from elsewhere agrees with a script: yes, no, or the `ee` line of a refusal. agrees SCRIPT LIST */
#include <stdio.h>

#include "../mboxalind.h"

enum { BUFFER = MBOXALIND_TEXT };

static uint8_t script[BUFFER + 1], list[BUFFER + 1];

static size_t text(const char *path, uint8_t *bytes) {
    FILE *file = fopen(path, "rb");
    if (file == NULL) return BUFFER + 2;
    size_t length = fread(bytes, 1, BUFFER + 1, file);
    fclose(file);
    return length;
}

int main(int count, char **words) {
    size_t script_len = count == 3 ? text(words[1], script) : BUFFER + 2;
    size_t list_len = count == 3 ? text(words[2], list) : BUFFER + 2;
    if (script_len > BUFFER + 1 || list_len > BUFFER + 1) {
        fputs("agrees SCRIPT LIST\n", stderr);
        return 2;
    }
    if (script_len > BUFFER || list_len > BUFFER) {
        puts("ee110000");
        return 1;
    }
    uint64_t answer = agrees(script, script_len, list, list_len);
    if (mboxalind_number(answer) != 0) {
        printf("ee%02x%04x\n", mboxalind_number(answer), (unsigned)mboxalind_low(answer));
        return 1;
    }
    puts(mboxalind_low(answer) == 1 ? "yes" : "no");
    return 0;
}
