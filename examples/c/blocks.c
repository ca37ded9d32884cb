/* Reads the recording of a damaged sheet, mends it and writes it again, and calls the reader and the writer of the recorder's files
 * with results that are known. Build and run, from the root of the repository, after `tools/build staticlib`:
 *
 *     cc -Iinclude examples/c/blocks.c target/staticlib/libpugdrel.a -o target/blocks && target/blocks
 *
 * The exit status is 0 if everything is as it should be. */
#include "check.h"
#include "pugdrel.h"

#include <stdio.h>
#include <string.h>

#define N PUGDREL_N6
#define CELLS (N * N)
#define BLOCK 512
#define SUMS 510 /* where the two sums of a block are */

static uint8_t recording[PUGDREL_BLOCKS_FILE], file[PUGDREL_BLOCKS_FILE];
static uint8_t received[CELLS], mended[CELLS], sent[CELLS], cells[CELLS + 1];

static int all_are(const uint8_t *bytes, size_t length, uint8_t byte)
{
    size_t i;
    for (i = 0; i < length; i++)
        if (bytes[i] != byte) return 0;
    return 1;
}

/* ---- The samples. */

/* Reads a stored file; it must have this length. Says what is wrong where it can't. */
static int load(const char *path, uint8_t *bytes, size_t length)
{
    FILE *stored = fopen(path, "rb");
    int whole;
    if (!stored) {
        printf("%s can't be opened: this is to be run from the root of the repository\n", path);
        return 0;
    }
    whole = fread(bytes, 1, length, stored) == length && fgetc(stored) == EOF;
    fclose(stored);
    if (!whole) printf("%s is not a file of %d bytes\n", path, (int)length);
    return whole;
}

/* Reads the cells of a text of degree 6: its first line is the degree. */
static int load_text(const char *path, uint8_t *into)
{
    static uint8_t text[2 + N * (N + 1)];
    size_t i;
    if (!load(path, text, sizeof text)) return 0;
    for (i = 0; i < CELLS; i++) {
        uint8_t character = text[2 + i / N * (N + 1) + i % N];
        into[i] = character == '?' ? 2 : (uint8_t)(character - '0');
    }
    return 1;
}

/* ---- A recording, read, mended and written. */

/* The file holds this sheet. */
static void holds(const uint8_t *sheet, uint64_t number, const char *what)
{
    uint64_t report[PUGDREL_READ_REPORT] = {7};
    memset(cells, 9, sizeof cells);
    check(pugdrel_read_blocks(file, sizeof file, cells, CELLS, report, PUGDREL_READ_REPORT) == PUGDREL_OK, what);
    check(report[PUGDREL_SHEET_NUMBER] == number && memcmp(cells, sheet, CELLS) == 0 && cells[CELLS] == 9, what);
}

static void mend(void)
{
    static const uint64_t filling[PUGDREL_FILLING_NUMBERS(1, N)]; /* zeros */
    uint64_t read[PUGDREL_READ_REPORT] = {7}, decoded[PUGDREL_DECODE_REPORT];
    uint16_t number;
    size_t i, damaged = 0, left = 0;
    int recorded = load("samples/degree6.blocks", recording, sizeof recording);
    int texts = load_text("samples/degree6.txt", cells) && load_text("samples/degree6-sent.txt", sent);
    check(recorded, "there is a recording");
    check(texts, "there are the sheet's texts");
    if (!recorded || !texts) return; /* nothing to mend */
    check(pugdrel_read_blocks(recording, sizeof recording, received, sizeof received, read, PUGDREL_READ_REPORT) == PUGDREL_OK,
          "the recording is read");
    check(memcmp(received, cells, CELLS) == 0 && read[PUGDREL_SHEET_NUMBER] == 0x1234, "it is the damaged sheet, of its number");
    check(pugdrel_decode(6, 1, received, sizeof received, filling, PUGDREL_FILLING_NUMBERS(1, N), mended, sizeof mended, decoded,
                         PUGDREL_DECODE_REPORT) == PUGDREL_OK, "it is decoded");
    check(decoded[PUGDREL_CLOSED] == 1 && memcmp(mended, sent, CELLS) == 0, "the cells are those that were sent");
    number = (uint16_t)read[PUGDREL_SHEET_NUMBER];
    check(pugdrel_write_blocks(number, mended, sizeof mended, file, sizeof file) == PUGDREL_OK, "the mended sheet is written");
    holds(sent, number, "it is read as it was written");
    check(pugdrel_write_blocks(number, received, sizeof received, file, sizeof file) == PUGDREL_OK, "what was read is written");
    check(memcmp(file, recording, sizeof file) == 0, "as the recording's own bytes");
    for (i = 0; i < CELLS; i++) {
        damaged += received[i] != sent[i];
        left += mended[i] != sent[i];
    }
    printf("sheet %d: %d of %d cells wrong or unsure, ", (int)number, (int)damaged, CELLS);
    if (left == 0)
        printf("all of them mended\n");
    else
        printf("%d after mending\n", (int)left);
}

/* ---- Bytes that are known. */

/* Makes the file of a sheet of zeros. Every byte of it but those of the head and the sums is zero. */
static void empty_sheet(uint16_t number)
{
    memset(cells, 0, sizeof cells);
    memset(file, 9, sizeof file);
    check(pugdrel_write_blocks(number, cells, CELLS, file, sizeof file) == PUGDREL_OK, "a sheet of zeros is written");
}

static void heads_and_sums(void)
{
    static const uint8_t sums[3][2] = {{9, 241}, {10, 241}, {11, 241}}; /* B: 6, 13, 22, and 506 times 9 */
    int b;
    empty_sheet(0x0102);
    for (b = 0; b < 3; b++) {
        const uint8_t *block = file + b * BLOCK;
        check(block[0] == b && block[1] == 6 && block[2] == 1 && block[3] == 2, "the head of a block");
        check(all_are(block + 4, SUMS - 4, 0), "no cell and no filler");
        check(memcmp(block + SUMS, sums[b], 2) == 0, "the sums of a block");
    }
    memset(received, 0, sizeof received);
    holds(received, 0x0102, "a sheet of zeros is read");
}

/* Where a cell is in the file, and its byte if all other cells are zero. */
static const struct {
    size_t row, column;
    uint8_t cell;
    size_t at;
    uint8_t byte;
} places[] = {
    {0, 0, 1, 4, 1},
    {0, 1, 2, 4, 8},
    {0, 63, 2, 19, 128},
    {1, 0, 2, 20, 2},
    {30, 63, 1, 499, 64},
    {31, 0, 1, 512 + 4, 1},
    {40, 7, 2, 512 + 149, 128},
    {61, 63, 2, 512 + 499, 128},
    {62, 0, 2, 1024 + 4, 2},
    {63, 63, 1, 1024 + 35, 64},
};

static void places_of_cells(void)
{
    size_t i, b, others;
    for (i = 0; i < sizeof places / sizeof *places; i++) {
        memset(received, 0, sizeof received);
        received[places[i].row * N + places[i].column] = places[i].cell;
        check(pugdrel_write_blocks(65535, received, CELLS, file, sizeof file) == PUGDREL_OK, "a sheet with one cell is written");
        check(file[places[i].at] == places[i].byte, "the cell is at its place");
        holds(received, 65535, "and is read from there");
        file[places[i].at] = 0;
        for (b = others = 0; b < 3; b++) others += !all_are(file + b * BLOCK + 4, SUMS - 4, 0);
        check(others == 0, "and nowhere else");
    }
}

/* ---- Refused files. */

/* Is the file refused as `number`, with every cell left and the sheet number reported as 0? */
static int refused(size_t length, uint64_t number)
{
    uint64_t report[PUGDREL_READ_REPORT + 1] = {7, 7};
    memset(cells, 9, sizeof cells);
    return pugdrel_read_blocks(file, length, cells, CELLS, report, PUGDREL_READ_REPORT) == number
           && report[PUGDREL_SHEET_NUMBER] == 0 && report[1] == 7 && all_are(cells, sizeof cells, 9);
}

static void make_sums_right(uint8_t *block)
{
    unsigned a = 0, b = 0, i;
    for (i = 0; i < SUMS; i++) {
        a = (a + block[i]) % 255;
        b = (b + a) % 255;
    }
    block[SUMS] = (uint8_t)a;
    block[SUMS + 1] = (uint8_t)b;
}

/* A byte of a block takes another value, and the block's sums are then made right, or stay. */
struct change {
    size_t block, byte;
    uint8_t value;
    int right;
};

static void change(const struct change *by)
{
    uint8_t *block = file + by->block * BLOCK;
    block[by->byte] = by->value;
    if (by->right) make_sums_right(block);
}

/* One or two changes to a sheet of zeros with the number 0xf900, whose block 0 has the sums 0 and 6, and the refusal. Where a
 * second is not given it is all zeros, and puts the 0 that is there at byte 0 of block 0. */
static const struct {
    struct change changes[2];
    uint64_t number;
    const char *what;
} faults[] = {
    {{{0, 0, 1, 1}, {1, 0, 0, 1}}, PUGDREL_BAD_FILE, "blocks 0 and 1 in each other's place"},
    {{{1, 0, 2, 1}}, PUGDREL_BAD_FILE, "block 2 in place of block 1"},
    {{{0, 1, 4, 1}}, PUGDREL_BAD_FILE, "degree 4"},
    {{{2, 1, 7, 1}}, PUGDREL_BAD_FILE, "degree 7"},
    {{{1, 2, 0, 1}}, PUGDREL_BAD_FILE, "another sheet's block 1"},
    {{{0, 3, 255, 0}}, PUGDREL_BAD_FILE, "255 in place of 0 in one block's sheet number"},
    {{{0, SUMS, 255, 0}}, PUGDREL_BAD_SUM, "255 in place of a sum 0"},
    {{{1, 77, 1, 0}, {1, 78, 254, 0}}, PUGDREL_BAD_SUM, "two other bytes that add nothing to A"},
    {{{1, 499, 192, 1}}, PUGDREL_BAD_CONTENT, "a cell of 3 in row 61, the last of its byte"},
    {{{2, 35, 12, 1}}, PUGDREL_BAD_CONTENT, "a cell of 3 in row 63, the second of its byte"},
    {{{0, 100, 255, 0}}, PUGDREL_BAD_CONTENT, "255 in place of 0, which the sums do not see, in the rows"},
    {{{0, 505, 255, 0}}, PUGDREL_BAD_CONTENT, "255 in place of 0, which the sums do not see, in the filler"},
    {{{1, 509, 128, 1}}, PUGDREL_BAD_CONTENT, "the highest bit of filler"},
    {{{2, 36, 1, 1}}, PUGDREL_BAD_CONTENT, "a cell after row 63"},
    {{{0, SUMS, 1, 0}, {2, 1, 4, 1}}, PUGDREL_BAD_FILE, "a sum of block 0, and the degree of block 2"},
    {{{0, 4, 3, 1}, {2, 0, 1, 1}}, PUGDREL_BAD_FILE, "a cell of block 0, and the number of block 2"},
    {{{0, 500, 1, 1}, {1, 2, 0, 1}}, PUGDREL_BAD_FILE, "filler of block 0, and the sheet number of block 1"},
    {{{0, 4, 3, 1}, {2, SUMS, 0, 0}}, PUGDREL_BAD_SUM, "a cell of 3 in block 0, and a sum of block 2"},
    {{{0, 509, 9, 1}, {1, SUMS + 1, 0, 0}}, PUGDREL_BAD_SUM, "filler of block 0, and a sum of block 1"},
    {{{0, 500, 1, 1}, {2, 4, 3, 1}}, PUGDREL_BAD_CONTENT, "filler of block 0, and a cell of 3 in block 2"},
};

static void refused_files(void)
{
    size_t i;
    for (i = 0; i < sizeof faults / sizeof *faults; i++) {
        empty_sheet(0xf900);
        check(file[SUMS] == 0 && file[SUMS + 1] == 6, "the sums of block 0 are 0 and 6");
        change(&faults[i].changes[0]);
        change(&faults[i].changes[1]);
        check(refused(sizeof file, faults[i].number), faults[i].what);
    }
}

/* Each byte of a sheet of zeros in turn with its two lowest bits the other way: a head is wrong, a sum fails, or, where the sums
 * are made right after it, there is a cell of 3 or filler. */
static void refused_bytes(int right, const char *what)
{
    static uint8_t zeros[PUGDREL_BLOCKS_FILE];
    size_t i, others = 0;
    empty_sheet(0x1234);
    memcpy(zeros, file, sizeof zeros);
    for (i = 0; i < sizeof file; i++) {
        struct change by = {i / BLOCK, i % BLOCK, zeros[i] ^ 3, right && i % BLOCK < SUMS};
        memcpy(file, zeros, sizeof file);
        change(&by);
        others += !refused(sizeof file, by.byte < 4 ? PUGDREL_BAD_FILE : by.right ? PUGDREL_BAD_CONTENT : PUGDREL_BAD_SUM);
    }
    check(others == 0, what);
}

/* Other lengths of a file, some of which end with a block. What is in it does not count then. */
static void refused_lengths(void)
{
    static const size_t lengths[] = {0, 1, BLOCK, 2 * BLOCK, PUGDREL_BLOCKS_FILE - 1};
    static uint8_t longer[4 * BLOCK];
    uint64_t report[1] = {7};
    size_t i;
    empty_sheet(3);
    for (i = 0; i < sizeof lengths / sizeof *lengths; i++) check(refused(lengths[i], PUGDREL_BAD_FILE), "a shorter file");
    memcpy(longer, file, sizeof file);
    check(pugdrel_read_blocks(longer, sizeof file + 1, cells, CELLS, report, 1) == PUGDREL_BAD_FILE && report[0] == 0,
          "a byte too many");
    check(pugdrel_read_blocks(longer, sizeof longer, cells, CELLS, report, 1) == PUGDREL_BAD_FILE && report[0] == 0,
          "a block too many");
    check(all_are(cells, sizeof cells, 9), "no cell is written then");
    file[4] = 3;
    check(refused(sizeof file - 1, PUGDREL_BAD_FILE), "a cell of 3 and the old sums, and a byte too few");
}

/* Every block of one sheet has 255 where the low byte of its number was 0: the sums are the same, and it is another sheet. */
static void another_number(void)
{
    int b;
    empty_sheet(0xf900);
    for (b = 0; b < 3; b++) file[b * BLOCK + 3] = 255;
    memset(received, 0, sizeof received);
    holds(received, 0xf9ff, "the sums do not see 255 in place of 0");
}

/* ---- Refused lengths and cells. */

static void refused_slices(void)
{
    static const size_t wrong_cells[] = {0, N, CELLS - 1, CELLS + 1};
    uint64_t report[2];
    size_t i;
    empty_sheet(3);
    file[1] = 5; /* comes after */
    memset(cells, 9, sizeof cells);
    for (i = 0; i < sizeof wrong_cells / sizeof *wrong_cells; i++) {
        report[0] = 7;
        check(pugdrel_read_blocks(file, sizeof file, cells, wrong_cells[i], report, 1) == PUGDREL_BAD_LENGTH, "other cells");
        check(report[0] == 0, "the number of a refused read is 0");
    }
    report[0] = report[1] = 7;
    check(pugdrel_read_blocks(file, sizeof file, cells, CELLS, report, 0) == PUGDREL_BAD_LENGTH, "no report");
    check(pugdrel_read_blocks(file, sizeof file, cells, CELLS, report, 2) == PUGDREL_BAD_LENGTH, "a report of 2");
    check(pugdrel_read_blocks(file, 0, cells, CELLS, report, 2) == PUGDREL_BAD_LENGTH, "a report of 2, and a file of nothing");
    check(report[0] == 7 && report[1] == 7, "is not written");
    check(all_are(cells, sizeof cells, 9), "no cell is");
}

/* A call of the writer that is refused as `number`: every byte is left. */
static void not_written(size_t cells_length, size_t file_length, uint64_t number, const char *what)
{
    static uint8_t room[PUGDREL_BLOCKS_FILE + 1];
    memset(room, 9, sizeof room);
    check(pugdrel_write_blocks(1, cells, cells_length, room, file_length) == number, what);
    check(all_are(room, sizeof room, 9), what);
}

static void refused_sheets(void)
{
    static const size_t spoiled[] = {0, 1983, 1984, CELLS - 1};
    size_t i;
    memset(cells, 2, sizeof cells);
    not_written(CELLS - 1, PUGDREL_BLOCKS_FILE, PUGDREL_BAD_LENGTH, "a cell too few");
    not_written(CELLS + 1, PUGDREL_BLOCKS_FILE, PUGDREL_BAD_LENGTH, "a cell too many");
    not_written(0, PUGDREL_BLOCKS_FILE, PUGDREL_BAD_LENGTH, "no cells");
    not_written(CELLS, PUGDREL_BLOCKS_FILE - 1, PUGDREL_BAD_LENGTH, "a byte too few to write to");
    not_written(CELLS, PUGDREL_BLOCKS_FILE + 1, PUGDREL_BAD_LENGTH, "a byte too many");
    for (i = 0; i < sizeof spoiled / sizeof *spoiled; i++) {
        memset(cells, 2, sizeof cells);
        cells[spoiled[i]] = 3;
        not_written(CELLS, PUGDREL_BLOCKS_FILE, PUGDREL_BAD_CELL, "a cell of 3");
        cells[spoiled[i]] = 255;
        not_written(CELLS, PUGDREL_BLOCKS_FILE, PUGDREL_BAD_CELL, "a cell of 255");
        not_written(CELLS, BLOCK, PUGDREL_BAD_LENGTH, "a cell of 255, and one block to write to");
    }
}

int main(void)
{
    mend();
    heads_and_sums();
    places_of_cells();
    refused_files();
    refused_bytes(0, "another byte, and the old sums");
    refused_bytes(1, "another byte, and its sums");
    refused_lengths();
    another_number();
    refused_slices();
    refused_sheets();
    return verdict();
}
