/* Puts the same questions about block memories to the proved library and to plain C written from docs/blocks.md, and
   compares the answers. It stops at the first difference and prints it. */

#include "c_exports.h"

#include <inttypes.h>
#include <stdbool.h>
#include <stdint.h>
#include <stdio.h>
#include <stdlib.h>

#define MAX_CELLS 65536
#define BLOCK_BYTES 512
#define CELLS_IN_BLOCK 21
#define UNFIT 12
#define BAD_CHECK 13

/* ---- plain C ---- */

/* The bytes that a block memory of so many cells takes, if there may be so many. */
static size_t bytes_for(size_t cells)
{
    return BLOCK_BYTES * (1 + (cells + CELLS_IN_BLOCK - 1) / CELLS_IN_BLOCK);
}

static struct verdict fits(size_t size, size_t cells)
{
    bool fit = 1 <= cells && cells <= MAX_CELLS && size == bytes_for(cells);
    return (struct verdict){fit ? 0 : UNFIT, 0};
}

static uint64_t word(const uint8_t *at)
{
    uint64_t w = 0;
    for (int i = 7; i >= 0; i--)
        w = w << 8 | at[i];
    return w;
}

static void put(uint8_t *at, uint64_t w)
{
    for (int i = 0; i < 8; i++)
        at[i] = (uint8_t)(w >> 8 * i);
}

/* What the last word of block b has to be. */
static uint64_t check_of(const uint8_t *memory, size_t b)
{
    uint64_t sum = b + 1;
    for (int j = 0; j < 63; j++)
        sum += word(memory + BLOCK_BYTES * b + 8 * j);
    return sum;
}

static struct verdict inspect(const uint8_t *memory, size_t size, size_t cells)
{
    struct verdict unfit = fits(size, cells);
    if (unfit.number != 0)
        return unfit;
    for (size_t b = 0; b < size / BLOCK_BYTES; b++)
        if (word(memory + BLOCK_BYTES * b + 504) != check_of(memory, b))
            return (struct verdict){BAD_CHECK, b};
    return (struct verdict){0, 0};
}

/* ---- the comparison ---- */

static uint64_t seed = 1, answers[3];

/* xorshift: the same numbers in each run */
static uint64_t draw(uint64_t below)
{
    seed ^= seed << 13;
    seed ^= seed >> 7;
    seed ^= seed << 17;
    return seed % below;
}

static void compare(const char *question, size_t size, size_t cells, struct verdict ours, struct verdict other)
{
    if (ours.number != other.number || ours.place != other.place) {
        printf("%s differs, %zu bytes, %zu cells: library %" PRIu64 " %" PRIu64 ", plain C %" PRIu64 " %" PRIu64 "\n",
               question, size, cells, ours.number, ours.place, other.number, other.place);
        exit(EXIT_FAILURE);
    }
    answers[ours.number == 0 ? 0 : ours.number - UNFIT + 1]++;
}

static void compare_fit(size_t size, size_t cells)
{
    compare("fit", size, cells, block_memory_fits(size, cells), fits(size, cells));
}

/* The answers that docs/blocks.md gives as numbers. */
static void compare_known(void)
{
    static const struct { size_t size, cells; uint64_t number; } known[] = {
        {1024, 21, 0}, {1536, 22, 0}, {1024, 22, UNFIT}, {1598464, 65536, 0}, {1598464, 65537, UNFIT},
    };
    for (size_t i = 0; i < sizeof known / sizeof *known; i++)
        compare("known fit", known[i].size, known[i].cells, block_memory_fits(known[i].size, known[i].cells),
                (struct verdict){known[i].number, 0});
}

static void compare_fits(void)
{
    static const size_t far[] = {0, 1, 512, 1024, 1536, SIZE_MAX};
    for (size_t cells = 0; cells <= MAX_CELLS + 50; cells++) {
        size_t near = bytes_for(cells);
        for (size_t size = near - 2; size <= near + 2; size++)
            compare_fit(size, cells);
        compare_fit(near - BLOCK_BYTES, cells);
        compare_fit(near + BLOCK_BYTES, cells);
        for (size_t i = 0; i < sizeof far / sizeof *far; i++)
            compare_fit(far[i], cells);
    }
    compare_fit(bytes_for(MAX_CELLS), SIZE_MAX);
}

/* Random bytes, each block with its check, and then perhaps one or two bytes damaged. */
static void compare_inspection(uint8_t *memory, size_t cells)
{
    size_t size = bytes_for(cells);
    for (size_t i = 0; i < size; i += 8)
        put(memory + i, draw(4) == 0 ? UINT64_MAX - draw(3) : draw(UINT64_MAX));
    for (size_t b = 0; b < size / BLOCK_BYTES; b++)
        put(memory + BLOCK_BYTES * b + 504, check_of(memory, b));
    for (uint64_t damages = draw(3); damages > 0; damages--)
        memory[draw(size)] ^= (uint8_t)(1 + draw(255));
    compare("inspection", size, cells, block_memory_inspect(memory, size, cells), inspect(memory, size, cells));
    size_t other = draw(2) == 0 ? size - draw(9) : size;
    size_t claimed = draw(4) == 0 ? draw(MAX_CELLS + 2) : cells;
    compare("inspection", other, claimed, block_memory_inspect(memory, other, claimed), inspect(memory, other, claimed));
}

static void report(const char *question)
{
    printf("%s: %" PRIu64 " answered alike: %" PRIu64 " fit, %" PRIu64 " refused as unfit, %" PRIu64 " for a check\n",
           question, answers[0] + answers[1] + answers[2], answers[0], answers[1], answers[2]);
    answers[0] = answers[1] = answers[2] = 0;
}

int main(void)
{
    compare_known();
    compare_fits();
    report("fit questions");
    uint8_t *memory = malloc(bytes_for(MAX_CELLS));
    if (memory == NULL)
        return EXIT_FAILURE;
    for (int i = 0; i < 100000; i++)
        compare_inspection(memory, 1 + draw(100));
    for (int i = 0; i < 20; i++)
        compare_inspection(memory, MAX_CELLS - draw(2) * draw(100));
    report("inspections");
    free(memory);
    return EXIT_SUCCESS;
}
