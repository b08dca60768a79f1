/* Restores the lines on standard input into a version and prints it as the receiving program prints one: 16 digits an entry. If the text is refused, it prints the number and the faulty line's instead. */
#include <stdio.h>

#include "ksk.h"

#define N 2016u
#define WORDS KSK_BLOCK_WORDS(N)
#define VERSION 0u
#define EMPTY 1u

static uint32_t block[WORDS];
static uint32_t entries[N * KSK_ENTRY_WORDS];
static uint8_t text[(N + 1) * KSK_TEXT_BYTES]; /* a text that does not fit has more lines than there are nodes, and is refused for that */

int main(void)
{
    uint32_t number, written, total;
    uint64_t line;
    size_t bytes = fread(text, 1, sizeof text, stdin);

    if (ksk_fresh(block, WORDS, N) != KSK_DONE)
        return 1;
    number = ksk_restore(block, WORDS, VERSION, text, bytes, &line);
    if (number != KSK_DONE) {
        printf("%u, line %llu\n", number, (unsigned long long)line);
        return 0;
    }
    if (ksk_list(block, WORDS, VERSION, EMPTY, 0, entries, N * KSK_ENTRY_WORDS, &written, &total) != KSK_DONE)
        return 1;
    for (uint32_t i = 0; i < written; i += KSK_ENTRY_WORDS)
        printf("%08x%08x\n", entries[i], entries[i + 1]);
    return 0;
}
