/* Times ksk_parse on 256 lines in turn, good ones and ones with a bad digit at a place, and prints nanoseconds a line.
   With -DWITHOUT_PLACE it links an archive from before #102, whose parse does not tell the place. */
#include <inttypes.h>
#include <stddef.h>
#include <stdint.h>
#include <stdio.h>
#include <time.h>

#ifdef WITHOUT_PLACE
uint32_t ksk_parse(const uint8_t *, size_t, uint32_t *, uint32_t *, uint32_t *, uint32_t *, uint32_t *, uint32_t *);
#define PARSE(line, f) ksk_parse(line, 35, f, f + 1, f + 2, f + 3, f + 4, f + 5)
#else
uint32_t ksk_parse(const uint8_t *, size_t, uint32_t *, uint32_t *, uint32_t *, uint32_t *, uint32_t *, uint32_t *, uint32_t *);
#define PARSE(line, f) ksk_parse(line, 35, f, f + 1, f + 2, f + 3, f + 4, f + 5, f + 6)
#endif

enum { LINES = 256, ROUNDS = 20000 };

static char lines[LINES][36];

static uint64_t nanoseconds(void) {
    struct timespec t;
    clock_gettime(CLOCK_MONOTONIC, &t);
    return (uint64_t)t.tv_sec * 1000000000u + (uint64_t)t.tv_nsec;
}

static uint32_t next(void) {
    static uint64_t x = 88172645463325252u;
    x ^= x << 13;
    x ^= x >> 7;
    x ^= x << 17;
    return (uint32_t)(x >> 20);
}

/* Lines of one batch. A place of 34 leaves them good, -1 takes any place of the 34 in turn. */
static void write_lines(int place) {
    for (unsigned i = 0; i < LINES; i++) {
        snprintf(lines[i], 36, "%08x%04x%04x%02x%08" PRIx32 "%08" PRIx32 "\n", 7u, i, (unsigned)LINES, 1u, next(), next());
        int at = place < 0 ? (int)(next() % 34) : place;
        if (at < 34)
            lines[i][at] = 'g';
    }
}

int main(void) {
    static const int places[] = {34, 0, 9, 20, 33, -1};
    static const char *const names[] = {"good", "bad at 0", "at 9", "at 20", "at 33", "anywhere"};
    uint32_t f[7];
    for (int p = 0; p < 6; p++) {
        uint64_t best = UINT64_MAX;
        write_lines(places[p]);
        for (int r = 0; r < ROUNDS; r++) {
            uint64_t start = nanoseconds();
            for (int i = 0; i < LINES; i++)
                if ((PARSE((const uint8_t *)lines[i], f) == 0) != (p == 0))
                    return 1;
            uint64_t took = nanoseconds() - start;
            if (took < best)
                best = took;
        }
        printf("%s %.1f%s", names[p], (double)best / LINES, p < 5 ? ", " : "\n");
    }
    return 0;
}
