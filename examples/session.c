/* Document 01's session from C: four lines on one block, each reply printed on a line. */
#include <stdio.h>
#include <string.h>

#include "junction.h"

static const char *const lines[] = {
    "010200010202000002000000000000000000010001000001000000000003000002",
    "04",
    "05000001000001000000000000000001000000000001000000000000",
    "060000000A",
};

/* A fresh block. */
static int64_t block[JUNCTION_BLOCK_NUMBERS];

/* Answers a line on the block and prints the reply. */
static int print_answer(const char *line)
{
    uint8_t reply[JUNCTION_REPLY_BYTES];
    size_t n = junction_answer((const uint8_t *)line, strlen(line), block, JUNCTION_BLOCK_NUMBERS, reply, sizeof reply);
    return fwrite(reply, 1, n, stdout) == n && putchar('\n') != EOF;
}

int main(void)
{
    for (size_t i = 0; i < sizeof lines / sizeof lines[0]; i++) {
        if (!print_answer(lines[i])) {
            return 1;
        }
    }
    return fflush(stdout) == 0 ? 0 : 1;
}
