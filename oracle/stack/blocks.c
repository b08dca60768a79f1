/* Nodes are numbered so that a child's number is above its parent's: sizes, sums and counts are then filled in from the last node up. */
#include <string.h>

#include "blocks.h"

enum word { KEY, VALUE, LEFT, RIGHT, SIZE, COUNT, SUM_LOW, SUM_HIGH, WIDTH };

#define MIDDLE 1000000u /* far from both ends of the keys, and below the first account's last call number */

static uint32_t *at(uint32_t *block, uint32_t node, enum word w)
{
    return block + 17 + ROOM / 32 + WIDTH * (node - 1) + w;
}

static void put(uint32_t *block, uint32_t node, uint32_t key, uint32_t left, uint32_t right)
{
    *at(block, node, KEY) = key;
    *at(block, node, VALUE) = key;
    *at(block, node, LEFT) = left;
    *at(block, node, RIGHT) = right;
}

/* Fills in what follows from roots and links. */
static void seal(uint32_t *block, uint32_t nodes)
{
    for (uint32_t version = 0; version < KSK_VERSIONS; version++)
        if (block[1 + version] != 0)
            ++*at(block, block[1 + version], COUNT);
    for (uint32_t node = nodes; node > 0; node--) {
        uint64_t sum = *at(block, node, VALUE);
        *at(block, node, SIZE) = 1;
        for (enum word side = LEFT; side <= RIGHT; side++) {
            uint32_t child = *at(block, node, side);
            if (child == 0)
                continue;
            ++*at(block, child, COUNT);
            *at(block, node, SIZE) += *at(block, child, SIZE);
            sum += *at(block, child, SUM_LOW) + ((uint64_t)*at(block, child, SUM_HIGH) << 32);
        }
        *at(block, node, SUM_LOW) = (uint32_t)sum;
        *at(block, node, SUM_HIGH) = (uint32_t)(sum >> 32);
        block[17 + (node - 1) / 32] |= 1u << (node - 1) % 32;
    }
}

/* Which way the spine goes on below its node i. */
static int goes_right(uint32_t kind, uint32_t i)
{
    switch (kind) {
    case 0: return 1;
    case 1: return 0;
    case 2: return i % 2 == 0;
    case 3: return i == 0;
    default: return i != 0;
    }
}

/* A spine from node `node` on; with `leaf` its root has a leaf on the other side. Gives the deepest key. */
static uint32_t spine(uint32_t *block, uint32_t node, uint32_t kind, uint32_t nodes, int leaf)
{
    uint32_t low = MIDDLE - 2 * ROOM, high = MIDDLE + 2 * ROOM, last = node + nodes - 1, key = 0;
    if (leaf) {
        put(block, last, goes_right(kind, 0) ? 0 : 2 * MIDDLE, 0, 0);
        nodes--;
    }
    for (uint32_t i = 0; i < nodes; i++) {
        int right = goes_right(kind, i);
        uint32_t child = i + 1 < nodes ? node + i + 1 : 0, other = leaf && i == 0 ? last : 0;
        key = right ? low : high;
        low += right ? 2 : 0;
        high -= right ? 0 : 2;
        put(block, node + i, key, right ? other : child, right ? child : other);
    }
    return key;
}

/* A balanced tree of the keys from `first` on, its root at node `node`. */
static void balanced(uint32_t *block, uint32_t node, uint32_t first, uint32_t nodes)
{
    uint32_t below = nodes / 2, above = nodes - 1 - below;
    put(block, node, MIDDLE + 2 * (first + below), below ? node + 1 : 0, above ? node + 1 + below : 0);
    if (below)
        balanced(block, node + 1, first, below);
    if (above)
        balanced(block, node + 1 + below, first + below + 1, above);
}

struct shape build(uint32_t *block, uint32_t kind, uint32_t nodes)
{
    static const char *const names[SHAPES] = { "right chain", "left chain", "zigzag", "root over a left chain", "root over a right chain", "balanced" };
    uint32_t others = nodes + 2 <= ROOM ? 2 : 0, root = 1 + others, deepest = MIDDLE;

    memset(block, 0, WORDS * sizeof *block);
    block[0] = ROOM;
    block[1] = root;
    if (kind < 5)
        deepest = spine(block, root, kind, nodes, kind >= 3);
    else
        balanced(block, root, 0, nodes);
    uint32_t key = *at(block, root, KEY);
    if (others) {
        put(block, 1, key, 0, 0);
        put(block, 2, key + 1, *at(block, root, LEFT), *at(block, root, RIGHT));
        block[2] = 1;
        block[3] = 2;
    }
    seal(block, nodes + others);
    return (struct shape){ names[kind], nodes, { key, deepest, deepest - 1, deepest + 1 } };
}
