/* Hand-made sound blocks that make recursion deep. */
#ifndef BLOCKS_H
#define BLOCKS_H

#include "ksk.h"

#define ROOM  4096u
#define WORDS KSK_BLOCK_WORDS(ROOM)

/* What the calls are tried on: the tree in version 0, and the keys at which it is edited. */
struct shape {
    const char *name;
    uint32_t nodes;
    uint32_t keys[4]; /* the root's, the deepest node's, and the absent ones beside it */
};

#define SHAPES 6u

/* Version 0 becomes the shape of number `kind` with so many nodes; version 1 a lone node with its root's key, version 2 another root over its
 * root's children, where two nodes are left for them. Other versions are empty. */
struct shape build(uint32_t *block, uint32_t kind, uint32_t nodes);

#endif
