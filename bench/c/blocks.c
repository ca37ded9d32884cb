/* The recorder's files in plain C, of the shape that the library's reader and writer have: what they are timed beside. The lengths,
 * the places and the refusal numbers are those of change request W-201. */
#include <stddef.h>
#include <stdint.h>
#include <string.h>

#define BLOCKS 3
#define BLOCK 512
#define HEAD 4   /* bytes before the rows */
#define SUMS 510 /* where the two sums are */
#define CELLS 4096

/* Bytes of rows in a block: 31 rows of 16 bytes, or the last two. */
static size_t row_bytes(size_t block)
{
    return block < 2 ? 31 * 16 : 2 * 16;
}

static void sum_up(const uint8_t *block, uint8_t sums[2])
{
    uint32_t a = 0, b = 0; /* 510 bytes take neither to 2^32, so that the remainder is taken once */
    size_t i;
    for (i = 0; i < SUMS; i++) {
        a += block[i];
        b += a;
    }
    sums[0] = (uint8_t)(a % 255);
    sums[1] = (uint8_t)(b % 255);
}

static int has_head(const uint8_t *file, size_t block)
{
    const uint8_t *bytes = file + block * BLOCK;
    return bytes[0] == block && bytes[1] == 6 && bytes[2] == file[2] && bytes[3] == file[3];
}

static int has_sums(const uint8_t *block)
{
    uint8_t sums[2];
    sum_up(block, sums);
    return block[SUMS] == sums[0] && block[SUMS + 1] == sums[1];
}

/* No cell is 3, and the rest is zero. */
static int has_content(const uint8_t *block, size_t rows)
{
    uint8_t bad = 0;
    size_t i;
    for (i = HEAD; i < HEAD + rows; i++) bad |= block[i] & block[i] >> 1 & 0x55;
    for (i = HEAD + rows; i < SUMS; i++) bad |= block[i];
    return bad == 0;
}

static uint64_t file_refusal(const uint8_t *file, size_t file_len)
{
    size_t b;
    if (file_len != BLOCKS * BLOCK) return 5;
    for (b = 0; b < BLOCKS; b++)
        if (!has_head(file, b)) return 5;
    for (b = 0; b < BLOCKS; b++)
        if (!has_sums(file + b * BLOCK)) return 6;
    for (b = 0; b < BLOCKS; b++)
        if (!has_content(file + b * BLOCK, row_bytes(b))) return 7;
    return 0;
}

/* Four cells to a byte. With `restrict`, as below, gcc 12 makes slower code of this one. */
static uint8_t *unpack(const uint8_t *bytes, size_t count, uint8_t *cells)
{
    size_t i;
    for (i = 0; i < count; i++) {
        cells[4 * i] = bytes[i] & 3;
        cells[4 * i + 1] = bytes[i] >> 2 & 3;
        cells[4 * i + 2] = bytes[i] >> 4 & 3;
        cells[4 * i + 3] = bytes[i] >> 6;
    }
    return cells + 4 * count;
}

static const uint8_t *pack(const uint8_t *restrict cells, size_t count, uint8_t *restrict bytes)
{
    size_t i;
    for (i = 0; i < count; i++)
        bytes[i] = (uint8_t)(cells[4 * i] | cells[4 * i + 1] << 2 | cells[4 * i + 2] << 4 | cells[4 * i + 3] << 6);
    return cells + 4 * count;
}

uint64_t in_c_read_blocks(const uint8_t *file, size_t file_len, uint8_t *cells, size_t cells_len, uint64_t *report,
                          size_t report_len)
{
    uint64_t refusal;
    size_t b;
    if (report_len != 1) return 3;
    report[0] = 0;
    if (cells_len != CELLS) return 3;
    refusal = file_refusal(file, file_len);
    if (refusal) return refusal;
    for (b = 0; b < BLOCKS; b++) cells = unpack(file + b * BLOCK + HEAD, row_bytes(b), cells);
    report[0] = (uint64_t)file[2] << 8 | file[3];
    return 0;
}

uint64_t in_c_write_blocks(uint16_t number, const uint8_t *cells, size_t cells_len, uint8_t *file, size_t file_len)
{
    int bad = 0;
    size_t b, i;
    if (cells_len != CELLS || file_len != BLOCKS * BLOCK) return 3;
    for (i = 0; i < CELLS; i++) bad |= cells[i] > 2;
    if (bad) return 4;
    for (b = 0; b < BLOCKS; b++) {
        uint8_t *block = file + b * BLOCK;
        size_t rows = row_bytes(b);
        block[0] = (uint8_t)b;
        block[1] = 6;
        block[2] = (uint8_t)(number >> 8);
        block[3] = (uint8_t)number;
        cells = pack(cells, rows, block + HEAD);
        memset(block + HEAD + rows, 0, SUMS - HEAD - rows);
        sum_up(block, block + SUMS);
    }
    return 0;
}
