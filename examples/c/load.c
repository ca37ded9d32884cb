/* The acceptance run: sheets from seeds, loaded and mended, with numbers that are the same wherever it is made. And loads of single
 * sheets with results that are known, and each refusal of one.
 * Build and run, from the root of the repository, after `tools/build staticlib`:
 *
 *     cc -Iinclude examples/c/load.c target/staticlib/libpugdrel.a -o target/load && target/load
 *
 * The exit status is 0 if everything is as it should be. */
#include "check.h"
#include "pugdrel.h"

#include <stdio.h>
#include <string.h>

/* ---- The degrees, and room for what the longest lines need. */

#define N PUGDREL_N7
#define K PUGDREL_K7
#define ITERATIONS 4

static uint8_t message[K * K + 1], sent[N * N], received[N * N + 1], cells[N * N];

struct code {
    uint64_t degree;
    size_t n, k;
};

static const struct code codes[] = {
    {4, PUGDREL_N4, PUGDREL_K4},
    {6, PUGDREL_N6, PUGDREL_K6},
    {7, PUGDREL_N7, PUGDREL_K7},
};

/* ---- The acceptance run: for each degree twenty sheets, of the seeds 1 to 20. */

/* The sums of each received cell times its place, counted from 1, of the counts, and of the cells left unsure; and how many sheets
 * are closed. */
struct numbers {
    uint64_t places, counts, unsure, closed;
};

static const struct numbers expected[] = {
    {422905, 5210, 0, 20},
    {89216655, 20667, 0, 20},
    {1382416801, 41616, 0, 20},
};

/* Loads one sheet, decodes it and adds what is to be known of it. */
static void add_sheet(const struct code *code, uint64_t seed, struct numbers *sums)
{
    static const uint64_t filling[PUGDREL_FILLING_NUMBERS(ITERATIONS, N)]; /* zeros */
    const size_t all = code->n * code->n;
    const uint64_t wrong = seed * code->n / 16;
    uint64_t report[PUGDREL_DECODE_REPORT];
    size_t i;
    check(pugdrel_load(code->degree, seed, wrong, 2 * wrong, message, code->k * code->k, received, all) == PUGDREL_OK,
          "a sheet of the acceptance run is loaded");
    check(pugdrel_decode(code->degree, ITERATIONS, received, all, filling, PUGDREL_FILLING_NUMBERS(ITERATIONS, code->n), cells,
                         all, report, PUGDREL_DECODE_REPORT) == PUGDREL_OK, "and decoded");
    for (i = 0; i < all; i++) sums->places += (i + 1) * received[i];
    sums->counts += report[PUGDREL_COUNT];
    sums->unsure += report[PUGDREL_UNSURE];
    sums->closed += report[PUGDREL_CLOSED];
}

static void acceptance_run(const struct code *code, const struct numbers *of_code)
{
    struct numbers sums = {0, 0, 0, 0};
    uint64_t seed;
    size_t i;
    for (i = 0; i < code->k * code->k; i++) message[i] = i / 3 % 2;
    for (seed = 1; seed <= 20; seed++) add_sheet(code, seed, &sums);
    check(sums.places == of_code->places, "the received cells by their places");
    check(sums.counts == of_code->counts, "the decodings counted");
    check(sums.unsure == of_code->unsure, "the cells left unsure");
    check(sums.closed == of_code->closed, "the sheets that are closed");
    printf("degree %d: %lu %lu %lu %lu\n", (int)code->degree, (unsigned long)sums.places, (unsigned long)sums.counts,
           (unsigned long)sums.unsure, (unsigned long)sums.closed);
}

/* ---- Single sheets: which cells are hit, and how many. */

/* The first places in the order of a seed. */
#define FIRST 5

static const struct order {
    const struct code *code;
    uint64_t seed;
    size_t first[FIRST];
} orders[] = {
    {&codes[0], 1, {227, 105, 232, 37, 109}},
    {&codes[0], 20, {74, 230, 80, 46, 76}},
    {&codes[0], UINT64_MAX, {139, 48, 113, 98, 75}},
    {&codes[1], 1, {1083, 281, 48, 476, 3136}},
    {&codes[1], 20, {4082, 636, 1247, 1157, 809}},
    {&codes[1], UINT64_MAX, {2426, 2404, 196, 2515, 1297}},
    {&codes[2], 1, {16219, 11365, 7238, 7210, 1381}},
    {&codes[2], 20, {15754, 13740, 671, 11913, 1878}},
    {&codes[2], UINT64_MAX, {970, 7635, 14740, 11967, 8780}},
};

/* In a sheet of zeros, so many of the first places are inverted and the others of them unsure. */
static void hits_first(const struct order *order, size_t wrong)
{
    const struct code *code = order->code;
    const size_t all = code->n * code->n, bits = code->k * code->k;
    size_t i;
    memset(message, 0, bits);
    memset(sent, 0, all);
    for (i = 0; i < FIRST; i++) sent[order->first[i]] = i < wrong ? 1 : 2;
    memset(received, 9, sizeof received);
    check(pugdrel_load(code->degree, order->seed, wrong, FIRST - wrong, message, bits, received, all) == PUGDREL_OK,
          "a sheet of zeros is loaded");
    check(memcmp(received, sent, all) == 0 && received[all] == 9, "the first places of its seed are hit, in their order");
}

static void known_places(void)
{
    size_t i, wrong;
    for (i = 0; i < sizeof orders / sizeof *orders; i++)
        for (wrong = 0; wrong <= FIRST; wrong++) hits_first(&orders[i], wrong);
}

/* A load hits exactly so many cells, and the others are those of the array that encoding gives. */
static void hits(const struct code *code, uint64_t wrong, uint64_t unsure, const char *what)
{
    const size_t all = code->n * code->n, bits = code->k * code->k;
    size_t i, inverted = 0, made_unsure = 0, same = 0;
    check(pugdrel_load(code->degree, 77, wrong, unsure, message, bits, received, all) == PUGDREL_OK, what);
    for (i = 0; i < all; i++) {
        inverted += received[i] == 1 - sent[i];
        made_unsure += received[i] == 2;
        same += received[i] == sent[i];
    }
    check(inverted == wrong && made_unsure == unsure && same == all - wrong - unsure, what);
}

static void how_many(const struct code *code)
{
    const uint64_t all = code->n * code->n;
    size_t i;
    for (i = 0; i < code->k * code->k; i++) message[i] = i % 5 % 2;
    check(pugdrel_encode(code->degree, message, code->k * code->k, sent, all) == PUGDREL_OK, "a message is encoded");
    hits(code, 0, 0, "no cell is hit");
    hits(code, 1, 0, "one is wrong");
    hits(code, 0, 1, "one is unsure");
    hits(code, code->n, 2 * code->n, "so many in a line");
    hits(code, all, 0, "all are wrong");
    hits(code, 0, all, "all are unsure");
    hits(code, all / 3, all - all / 3, "all are wrong or unsure");
    hits(code, all - 1, 1, "all are wrong but one, which is unsure");
}

/* ---- Refusals: the first test that fails, and nothing changed. */

/* What a call at degree 4 is made with. */
#define BITS (PUGDREL_K4 * PUGDREL_K4)
#define ALL (PUGDREL_N4 * PUGDREL_N4)

/* A load is refused as `number`, and every cell is left. */
static void refused(uint64_t number, uint64_t degree, uint64_t seed, uint64_t wrong, uint64_t unsure, size_t message_len,
                    size_t cells_len, const char *what)
{
    size_t i;
    memset(received, 9, sizeof received);
    check(pugdrel_load(degree, seed, wrong, unsure, message, message_len, received, cells_len) == number, what);
    for (i = 0; i < sizeof received; i++)
        if (received[i] != 9) break;
    check(i == sizeof received, what);
}

static void single_refusals(void)
{
    memset(message, 1, sizeof message);
    refused(PUGDREL_BAD_DEGREE, 5, 1, 1, 1, BITS, ALL, "degree 5");
    refused(PUGDREL_BAD_DEGREE, 0, 1, 1, 1, BITS, ALL, "degree 0");
    refused(PUGDREL_BAD_DEGREE, UINT64_MAX, 1, 1, 1, BITS, ALL, "degree 2^64 - 1");
    refused(PUGDREL_BAD_LENGTH, 4, 1, 1, 1, BITS - 1, ALL, "a message cell too few");
    refused(PUGDREL_BAD_LENGTH, 4, 1, 1, 1, BITS + 1, ALL, "a message cell too many");
    refused(PUGDREL_BAD_LENGTH, 4, 1, 1, 1, BITS, ALL - 1, "a cell too few");
    refused(PUGDREL_BAD_LENGTH, 4, 1, 1, 1, BITS, ALL + 1, "a cell too many");
    refused(PUGDREL_BAD_LENGTH, 4, 1, 1, 1, 0, 0, "nothing lent");
    refused(PUGDREL_BAD_LENGTH, 7, 1, 1, 1, BITS, ALL, "degree 7, and the lengths of degree 4");
    message[BITS - 1] = 2;
    refused(PUGDREL_BAD_CELL, 4, 1, 1, 1, BITS, ALL, "an unsure cell in a message");
    message[BITS - 1] = 255;
    refused(PUGDREL_BAD_CELL, 4, 1, 1, 1, BITS, ALL, "a cell of 255 in a message");
    message[BITS - 1] = 1;
    refused(PUGDREL_BAD_SEED, 4, 0, 1, 1, BITS, ALL, "seed 0");
    refused(PUGDREL_BAD_SEED, 4, 0, 0, 0, BITS, ALL, "seed 0, and no cell to hit");
    refused(PUGDREL_TOO_MANY, 4, 1, ALL + 1, 0, BITS, ALL, "one more wrong than there are");
    refused(PUGDREL_TOO_MANY, 4, 1, 0, ALL + 1, BITS, ALL, "one more unsure than there are");
    refused(PUGDREL_TOO_MANY, 4, 1, 100, ALL - 99, BITS, ALL, "one more together than there are");
    refused(PUGDREL_TOO_MANY, 4, 1, ALL, ALL, BITS, ALL, "all wrong and all unsure");
}

/* Sums that are small where they wrap past 64 bits. */
static void great_numbers(void)
{
    const uint64_t half = (uint64_t)1 << 63;
    refused(PUGDREL_TOO_MANY, 4, 1, UINT64_MAX, 1, BITS, ALL, "2^64 - 1 wrong and one unsure");
    refused(PUGDREL_TOO_MANY, 4, 1, 1, UINT64_MAX, BITS, ALL, "one wrong and 2^64 - 1 unsure");
    refused(PUGDREL_TOO_MANY, 4, 1, UINT64_MAX - 9, 20, BITS, ALL, "a sum that wraps to 10");
    refused(PUGDREL_TOO_MANY, 4, 1, half, half, BITS, ALL, "2^63 of each");
    refused(PUGDREL_TOO_MANY, 4, 1, UINT64_MAX, UINT64_MAX, BITS, ALL, "2^64 - 1 of each");
    refused(PUGDREL_TOO_MANY, 4, 1, UINT64_MAX, 0, BITS, ALL, "2^64 - 1 wrong");
    refused(PUGDREL_TOO_MANY, 4, 1, (uint64_t)1 << 32, 0, BITS, ALL, "2^32 wrong");
}

/* Several at once: the first in the order 1, 3, 4, 8, 9 is told. */
static void several_refusals(void)
{
    message[0] = 2;
    refused(PUGDREL_BAD_DEGREE, 8, 0, ALL, 1, BITS - 1, ALL + 1, "degree 8, and all else wrong");
    refused(PUGDREL_BAD_LENGTH, 4, 0, ALL, 1, BITS - 1, ALL, "a message cell too few, and all that comes after");
    refused(PUGDREL_BAD_LENGTH, 4, 0, ALL, 1, BITS, ALL + 1, "a cell too many, and all that comes after");
    refused(PUGDREL_BAD_CELL, 4, 0, ALL, 1, BITS, ALL, "a cell of 2, and seed 0, and too many");
    refused(PUGDREL_BAD_CELL, 4, 1, UINT64_MAX, 1, BITS, ALL, "a cell of 2, and too many");
    message[0] = 1;
    refused(PUGDREL_BAD_SEED, 4, 0, ALL, 1, BITS, ALL, "seed 0, and too many");
    refused(PUGDREL_BAD_SEED, 4, 0, UINT64_MAX, 1, BITS, ALL, "seed 0, and a sum that wraps");
}

int main(void)
{
    size_t i;
    for (i = 0; i < sizeof codes / sizeof *codes; i++) {
        acceptance_run(&codes[i], &expected[i]);
        how_many(&codes[i]);
    }
    known_places();
    single_refusals();
    great_numbers();
    several_refusals();
    return verdict();
}
