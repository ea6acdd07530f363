/*
 * The C face of the lineage library: three calls on lent memory.
 * Usable from C99 and from C++. Link target/staticlib/liblineage_c.a, which `tools/build archive` makes.
 *
 * Words of the trade. A word has m bits; bit i is in byte i/8 and has weight 2^(i mod 8) there; 1 opens a
 * parenthesis and 0 closes it. A balanced word encodes an ordered forest of n = m/2 nodes; a node is named by the place
 * of its opening bit and numbered in preorder from 0. A boundary p, from 0 to m, stands before bit p.
 *
 * What no call ever does: allocate, keep a pointer once it has returned, read or write past what was lent, change
 * anything but the one slice that it is lent for writing, or hold any state between calls. Each call judges its own
 * arguments: whatever m and the lent numbers are, it comes back with a code. Calls may run at the same time in
 * several threads.
 *
 * What the caller owes, since no call can see it: a pointer is not null, not even beside a length of 0, is aligned
 * for its type, and leads to as many elements as the length beside it says (lengths count elements, not bytes). The
 * slice lent for writing overlaps no other slice of the same call, and nobody writes to lent memory before the call
 * has returned.
 */
#ifndef LINEAGE_H
#define LINEAGE_H

#include <stddef.h>
#include <stdint.h>

#ifdef __cplusplus
extern "C" {
#endif

/* The most bits that a word may have. */
#define LINEAGE_MAX_BITS UINT32_C(2097152)

/* The bits of a block, for which the index has one leaf. */
#define LINEAGE_BLOCK_BITS UINT32_C(256)

/* The codes. Those up to 7 refuse a whole call; those from 11 refuse one question. */
enum lineage_code {
    LINEAGE_ACCEPTED = 0,
    LINEAGE_TOO_MANY_BITS = 1,     /* m > 2,097,152 */
    LINEAGE_BYTES_MISSING = 2,     /* fewer than ceil(m/8) bytes lent */
    LINEAGE_INDEX_TOO_SHORT = 3,   /* fewer than 8L index numbers lent */
    LINEAGE_QUESTION_CUT = 4,      /* question slice not a multiple of three long */
    LINEAGE_ANSWERS_TOO_SHORT = 5, /* answer slice shorter than the question slice */
    LINEAGE_NOT_BALANCED = 6,      /* word not balanced */
    LINEAGE_INDEX_DIFFERS = 7,     /* one of the 8L index numbers differs from what a build writes */
    LINEAGE_UNKNOWN_KIND = 11,     /* kind not 1 to 14 */
    LINEAGE_PLACE_OUTSIDE = 12,    /* place not below m; for kind 13, a boundary above m */
    LINEAGE_NOT_AN_OPENING = 13,   /* a node is asked about, and the place isn't an opening */
    LINEAGE_NOT_A_CLOSING = 14,    /* kind 5, and the place isn't a closing */
    LINEAGE_BOUNDS_REVERSED = 15,  /* kind 13 with a > b */
    LINEAGE_NO_SUCH_NODE = 16      /* no such node */
};

/* The kinds of question, with the result that an accepted one gives. b is ignored where it isn't named. */
enum lineage_kind {
    LINEAGE_DEPTH = 1,            /* depth of node a; a root has 0 */
    LINEAGE_NUMBER = 2,           /* number of node a */
    LINEAGE_NODE_NUMBERED = 3,    /* node with number a */
    LINEAGE_CLOSING = 4,          /* closing place of node a */
    LINEAGE_OPENING = 5,          /* opening place of the closing at a */
    LINEAGE_PARENT = 6,           /* parent of a */
    LINEAGE_ANCESTOR = 7,         /* ancestor b levels above a; a itself for 0 */
    LINEAGE_BRANCH_SIZE = 8,      /* nodes in a's branch, a included */
    LINEAGE_CHILDREN = 9,         /* number of a's children */
    LINEAGE_FIRST_CHILD = 10,     /* first child of a */
    LINEAGE_NEXT_SIBLING = 11,    /* next sibling of a; roots are siblings of each other */
    LINEAGE_COMMON = 12,          /* deepest node whose branch holds both a and b */
    LINEAGE_LOWEST_BOUNDARY = 13, /* leftmost boundary from a to b with the least depth */
    LINEAGE_IN_BRANCH = 14        /* 1 if b is in a's branch (a included), else 0 */
};

/* A code, and the number beside it: 0 beside every refusal. */
struct lineage_outcome {
    uint32_t code;
    size_t value;
};

/*
 * 8L, the index numbers that a word of m bits needs. L is the least power of two that is at least 1 and at least
 * ceil(m/256).
 */
static inline size_t lineage_index_numbers(uint32_t m)
{
    size_t blocks = (size_t)(m / LINEAGE_BLOCK_BITS) + (m % LINEAGE_BLOCK_BITS != 0);
    size_t leaves = 1;
    while (leaves < blocks) {
        leaves *= 2;
    }
    return 8 * leaves;
}

/*
 * Judges a word: code 0 if it is accepted, with 0 beside it.
 * Refusals, the first that holds: 1, 2, 6. Bits of the last byte past m, and bytes past ceil(m/8), don't count.
 */
struct lineage_outcome lineage_judge(const uint8_t *bytes, size_t bytes_len, uint32_t m);

/*
 * Builds the index of a word: writes its 8L numbers to the beginning of `index`, and gives n, the number of nodes.
 * Later numbers of `index` keep what they held.
 * Refusals, the first that holds: 1, 2, 3, 6. A refused build writes nothing.
 */
struct lineage_outcome lineage_build(const uint8_t *bytes, size_t bytes_len, uint32_t m,
                                     int32_t *index, size_t index_len);

/*
 * Answers questions about a word, and gives how many they are. Each question is three numbers: kind, a, b. Each
 * answer is three numbers at the same places: code, result, index entries read. Answer numbers past the answers keep
 * what they held, and index numbers past 8L aren't read.
 * Refusals, the first that holds: 1, 2, 3, 4, 5, 6, 7. A refused batch writes nothing.
 * One question that is refused (11 to 16) takes its own answer alone: its result is 0, and its reads are 0 except
 * beside 16, which tells what was read in vain. The first of 11 to 16 that holds is given, with a looked at wholly
 * before b.
 */
struct lineage_outcome lineage_batch(const uint8_t *bytes, size_t bytes_len, uint32_t m,
                                     const int32_t *index, size_t index_len,
                                     const uint32_t *questions, size_t questions_len,
                                     uint32_t *answers, size_t answers_len);

#ifdef __cplusplus
}
#endif

#endif
