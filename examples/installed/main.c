/* A host that knows only the installed library: cc main.c $(pkg-config --cflags --libs ksk) */
#include <stdio.h>

#include <ksk.h>

#define N     2016u
#define WORDS KSK_BLOCK_WORDS(N)

static uint32_t block[WORDS];

int main(void)
{
    uint32_t had, released;
    uint64_t before, after;

    if (ksk_fresh(block, WORDS, N) != KSK_DONE
        || ksk_insert(block, WORDS, 0, 0, 42, 10, &had, &released) != KSK_DONE
        || ksk_remove(block, WORDS, 1, 0, 42, &had, &released) != KSK_DONE
        || ksk_held(block, WORDS, 0, &before) != KSK_DONE
        || ksk_held(block, WORDS, 1, &after) != KSK_DONE)
        return 1;
    printf("call 42 has dropped: %u minutes released, version 0 holds %llu, version 1 holds %llu\n", released, (unsigned long long)before, (unsigned long long)after);
    return 0;
}
