/*
 * Builds the index of W, `(()(()()))()`, and asks document 01's questions about it. Prints each answer, and ends with
 * status 1 at the first that isn't document 01's.
 *
 *     cc -std=c99 -I include include/example.c target/staticlib/liblineage_c.a -o target/example && target/example
 */
#include <stdio.h>
#include <string.h>

#include "lineage.h"

#define W_BITS 12
#define INDEX_NUMBERS 8
#define COUNT(list) (sizeof(list) / sizeof((list)[0]))

static const uint8_t W[] = {0x5B, 0x04};

static const int32_t W_INDEX[INDEX_NUMBERS] = {0, 0, 0, 0, 0, 0, 3, 2};

/* Kind, a, b. */
static const uint32_t QUESTIONS[][3] = {
    {LINEAGE_DEPTH, 4, 0},
    {LINEAGE_NUMBER, 6, 0},
    {LINEAGE_NODE_NUMBERED, 3, 0},
    {LINEAGE_NODE_NUMBERED, 6, 0},
    {LINEAGE_CLOSING, 3, 0},
    {LINEAGE_PARENT, 10, 0},
    {LINEAGE_ANCESTOR, 6, 2},
    {LINEAGE_ANCESTOR, 6, 3},
    {LINEAGE_BRANCH_SIZE, 3, 0},
    {LINEAGE_CHILDREN, 0, 0},
    {LINEAGE_FIRST_CHILD, 1, 0},
    {LINEAGE_NEXT_SIBLING, 1, 0},
    {LINEAGE_NEXT_SIBLING, 3, 0},
    {LINEAGE_NEXT_SIBLING, 0, 0},
    {LINEAGE_COMMON, 3, 6},
    {LINEAGE_COMMON, 0, 10},
    {LINEAGE_LOWEST_BOUNDARY, 2, 8},
    {LINEAGE_LOWEST_BOUNDARY, 5, 7},
    {LINEAGE_LOWEST_BOUNDARY, 0, 12},
    {LINEAGE_IN_BRANCH, 3, 6},
    {LINEAGE_IN_BRANCH, 6, 3},
    {LINEAGE_DEPTH, 2, 0},
    {LINEAGE_DEPTH, 12, 0},
};

/* Code, result, reads. */
static const uint32_t ANSWERS[COUNT(QUESTIONS)][3] = {
    {0, 2, 0},  {0, 4, 0},  {0, 4, 0},  {16, 0, 0}, {0, 8, 0}, {16, 0, 0}, {0, 0, 0},  {16, 0, 0},
    {0, 3, 0},  {0, 2, 0},  {16, 0, 0}, {0, 3, 0},  {16, 0, 0}, {0, 10, 0}, {0, 3, 0},  {16, 0, 0},
    {0, 3, 0},  {0, 6, 0},  {0, 0, 0},  {0, 1, 0},  {0, 0, 0}, {13, 0, 0}, {12, 0, 0},
};

static int refused(const char *call, struct lineage_outcome outcome)
{
    fprintf(stderr, "%s: code %u beside %zu\n", call, (unsigned)outcome.code, outcome.value);
    return 1;
}

/* One answer printed; 0 if it is document 01's. */
static int show(const uint32_t question[3], const uint32_t answer[3], const uint32_t wanted[3])
{
    printf("kind %2u of %2u, %2u: code %2u, result %2u, reads %u\n", (unsigned)question[0], (unsigned)question[1],
           (unsigned)question[2], (unsigned)answer[0], (unsigned)answer[1], (unsigned)answer[2]);
    if (memcmp(answer, wanted, 3 * sizeof answer[0]) == 0) {
        return 0;
    }
    fprintf(stderr, "document 01 says code %u, result %u, reads %u\n", (unsigned)wanted[0], (unsigned)wanted[1],
            (unsigned)wanted[2]);
    return 1;
}

int main(void)
{
    int32_t index[INDEX_NUMBERS];
    uint32_t answers[COUNT(QUESTIONS)][3];
    struct lineage_outcome outcome;
    size_t i;

    outcome = lineage_judge(W, sizeof W, W_BITS);
    if (outcome.code != LINEAGE_ACCEPTED || outcome.value != 0) {
        return refused("judge", outcome);
    }
    outcome = lineage_build(W, sizeof W, W_BITS, index, lineage_index_numbers(W_BITS));
    if (outcome.code != LINEAGE_ACCEPTED || outcome.value != W_BITS / 2) {
        return refused("build", outcome);
    }
    if (memcmp(index, W_INDEX, sizeof index) != 0) {
        fprintf(stderr, "the index of W isn't document 01's\n");
        return 1;
    }
    outcome = lineage_batch(W, sizeof W, W_BITS, index, INDEX_NUMBERS, &QUESTIONS[0][0], 3 * COUNT(QUESTIONS),
                            &answers[0][0], 3 * COUNT(answers));
    if (outcome.code != LINEAGE_ACCEPTED || outcome.value != COUNT(QUESTIONS)) {
        return refused("batch", outcome);
    }
    for (i = 0; i < COUNT(QUESTIONS); i++) {
        if (show(QUESTIONS[i], answers[i], ANSWERS[i]) != 0) {
            return 1;
        }
    }
    return 0;
}
