/* pugdrel.h: a proved iterative decoder for product codes.
 *
 * An array of n by n bits, each row and column of which is a codeword of a t = 2 extended BCH code, arrives with some bits wrong
 * and some marked unsure. pugdrel_decode mends it. The other functions encode a message, take it out again, look up a row, make a
 * damaged array from a seed, work on one line, make the text that the program `sheet` prints, and read and write the files in
 * which a recorder keeps a sheet.
 * The library is written in Rattle: the source of every function below is proved to return, to touch no memory but what it is
 * lent, and to give exactly what its contract says, for every input. The contract of a function stands at its source in
 * crates/pugdrel_c/src/lib.rt; the promise that it names is in crates/pugdrel/specs, or, of pugdrel_encode, pugdrel_extract,
 * pugdrel_write_blocks and pugdrel_load, in the crate of the entry: array, blocks or load. Not proved are the compiler's back end and
 * this header, which repeats the types of the source by hand; examples/c checks every call.
 *
 * Build and link, from the root of the repository, on x86-64 Linux:
 *
 *     tools/build staticlib
 *     cc -Iinclude examples/c/decode.c target/staticlib/libpugdrel.a -o target/decode && target/decode
 *     cc -Iinclude examples/c/blocks.c target/staticlib/libpugdrel.a -o target/blocks && target/blocks
 *     cc -Iinclude examples/c/load.c target/staticlib/libpugdrel.a -o target/load && target/load
 *
 * Sizes. The degree is 4, 6 or 7. At degree 4 a line has n = 16 cells, k = 7 of them message; at degree 6 n = 64 and k = 51; at
 * degree 7 n = 128 and k = 113. An array is n * n cells, row after row; a message is k * k cells. The length of every slice is
 * tested, and must be exact.
 *
 * Cells. 0, 1, or 2 for unsure. A message to encode and a word for bounded-distance decoding hold only 0 and 1.
 *
 * Filling words. The decoder tries each line twice, with the unsure cells filled by given bits and by their opposites. A filling
 * word is two numbers at every degree, the low word first. Bit i of the low one is for cell i, bit i of the high one for cell
 * 64 + i; bits from n up are not read, so that at degrees 4 and 6 the high one may be anything. Any words are taken: zeros, or
 * drawn at random as in the published algorithm.
 *
 * Refusals. Each function but pugdrel_version returns 0, or the number of the first test that applies, in this order. None ever
 * aborts. A refused call changes nothing that it was lent, but for the report. A compiler that knows how warns where the number is
 * not looked at; pugdrel_refusal_text says it in words.
 *
 * Reports. Where a function has more to say than the number, it writes it to `report`, whose length is part of the contract as
 * that of any slice: another length is PUGDREL_BAD_LENGTH, and then the report is not written. A report of the right length is
 * always written, with zeros where the call is refused.
 *
 * Memory. The caller owns everything. Nothing is allocated, nothing is kept after the return. Slices must not overlap, and
 * uint64_t slices are aligned as uint64_t. No pointer may be null, not even with length 0; nothing is read or written through
 * it then. The library has no data of its own that is written, so that calls from several threads need no lock as long as what
 * they write is lent to one alone. The stack need, as measured and at every degree, is 26 KiB for pugdrel_decode, 78 KiB for
 * pugdrel_sheet, 37 KiB for pugdrel_load, of which 32 KiB are the places, 10 KiB for a line, 5 KiB for pugdrel_encode and for
 * pugdrel_read_blocks, and less than 1 KiB for pugdrel_write_blocks; a dynamic linker that binds memcpy and memset at their first
 * call took 3 KiB more then. Of the C library these two are used. */
#ifndef PUGDREL_H
#define PUGDREL_H

#include <stddef.h>
#include <stdint.h>

/* Put before a function whose result must be looked at. */
#if defined(__cplusplus) && __cplusplus >= 201703L
#define PUGDREL_NODISCARD [[nodiscard]]
#elif defined(__GNUC__)
#define PUGDREL_NODISCARD __attribute__((warn_unused_result))
#else
#define PUGDREL_NODISCARD
#endif

#ifdef __cplusplus
extern "C" {
#endif

/* The version of this header: 1000000 times the first number, 1000 times the second, and the third. It is 3.2.0. The first grows
 * where a call changes, the second where one is added: a program is to compare it with pugdrel_version() where header and library
 * may come apart. */
#define PUGDREL_VERSION 3002000

/* The version of the library. It takes nothing and refuses nothing. */
PUGDREL_NODISCARD
uint64_t pugdrel_version(void);

/* The cells of a line, and the message cells of a line. An array has the square of the first, a message of the second. */
#define PUGDREL_N4 16
#define PUGDREL_K4 7
#define PUGDREL_N6 64
#define PUGDREL_K6 51
#define PUGDREL_N7 128
#define PUGDREL_K7 113

/* Iterations that are taken, and the numbers of the filling words for them: a word of two numbers for each line of each half, two
 * halves an iteration. */
#define PUGDREL_MAX_ITERATIONS 20
#define PUGDREL_FILLING_NUMBERS(iterations, n) (4 * (iterations) * (n))

/* The number that every function returns but pugdrel_version. */
enum pugdrel_refusal {
    PUGDREL_OK = 0,
    PUGDREL_BAD_DEGREE = 1,     /* not 4, 6 or 7 */
    PUGDREL_BAD_ITERATIONS = 2, /* 0, or above 20 */
    PUGDREL_BAD_LENGTH = 3,     /* a slice that is not of the exact length; a row number of n or more */
    PUGDREL_BAD_CELL = 4,       /* a cell above 2, or above 1 in a message or a word */
    PUGDREL_BAD_FILE = 5,       /* a file to read not of the exact length; a wrong byte 0 or 1; sheet numbers that differ */
    PUGDREL_BAD_SUM = 6,        /* a sum of a block that fails */
    PUGDREL_BAD_CONTENT = 7,    /* a cell of 3 in a block, or a filler byte that is not zero */
    PUGDREL_BAD_SEED = 8,       /* a seed of 0 */
    PUGDREL_TOO_MANY = 9        /* more wrong and unsure cells together than the array has */
};

/* A refusal number in words, for a log. The text is constant: nothing is to be freed. */
static inline const char *pugdrel_refusal_text(uint64_t number)
{
    switch (number) {
    case PUGDREL_OK: return "taken";
    case PUGDREL_BAD_DEGREE: return "degree not 4, 6 or 7";
    case PUGDREL_BAD_ITERATIONS: return "iterations 0 or above 20";
    case PUGDREL_BAD_LENGTH: return "a slice not of the exact length, or a row number of n or more";
    case PUGDREL_BAD_CELL: return "a cell above 2, or above 1 in a message or a word";
    case PUGDREL_BAD_FILE: return "a file not of 1536 bytes, a block's number or degree wrong, or sheet numbers that differ";
    case PUGDREL_BAD_SUM: return "a sum of a block that fails";
    case PUGDREL_BAD_CONTENT: return "a cell of 3 in a block, or a filler byte that is not zero";
    case PUGDREL_BAD_SEED: return "a seed of 0";
    case PUGDREL_TOO_MANY: return "more wrong and unsure cells together than the array has";
    default: return "no refusal number of this library";
    }
}

/* ---- Arrays. */

/* The report of pugdrel_decode. */
enum pugdrel_decode_report {
    PUGDREL_COUNT = 0,  /* bounded-distance decodings counted over all lines */
    PUGDREL_UNSURE = 1, /* cells still unsure */
    PUGDREL_CLOSED = 2, /* 1 where no cell is unsure and each row and each column is a codeword, else 0 */
    PUGDREL_DECODE_REPORT = 3
};

/* Decodes `received` into `cells`, in `iterations` iterations of all rows and then all columns. Declare the received array const:
 * both are bytes of one length, and a call that has them in each other's place compiles where neither is const.
 * received: n * n cells. filling: PUGDREL_FILLING_NUMBERS(iterations, n) numbers, those of the words in order of halves and then
 * of lines: those of line i in half h, both counted from 0, are filling[2 * (h * n + i)], low, and the one after it, high.
 * cells: n * n, written only; what they held is not tested. report: 3 numbers.
 * Where in every received row twice the wrong cells plus the unsure ones is below 6, against an array that was sent, the cells
 * are that array's and closed is 1. Closed alone does not tell that: it says that the cells are one of the code's arrays, which
 * pugdrel_encode gives for some message, and not that they are the one that was sent. Where closed is 0, no message has them.
 * Refusals: 1, 2, 3, 4. */
PUGDREL_NODISCARD
uint64_t pugdrel_decode(uint64_t degree, uint64_t iterations, const uint8_t *received, size_t received_len,
                        const uint64_t *filling, size_t filling_len, uint8_t *cells, size_t cells_len, uint64_t *report,
                        size_t report_len);

/* Encodes a message of k * k bits into the n * n cells of its array. Refusals: 1, 3, 4. */
PUGDREL_NODISCARD
uint64_t pugdrel_encode(uint64_t degree, const uint8_t *message, size_t message_len, uint8_t *cells, size_t cells_len);

/* Copies the k * k message cells out of an array of n * n cells, as they are, unsure ones too. Refusals: 1, 3, 4. */
PUGDREL_NODISCARD
uint64_t pugdrel_extract(uint64_t degree, const uint8_t *cells, size_t cells_len, uint8_t *message, size_t message_len);

/* The report of pugdrel_row. */
enum pugdrel_row_report {
    PUGDREL_ROW_START = 0,  /* where the row starts in `cells`: index * n */
    PUGDREL_ROW_LENGTH = 1, /* n */
    PUGDREL_ROW_REPORT = 2
};

/* Looks up row `index` of an array of n * n cells: its cells are cells[start] to cells[start + length - 1].
 * report: 2 numbers. Refusals: 1, 3 (also for an index of n or more), 4. */
PUGDREL_NODISCARD
uint64_t pugdrel_row(uint64_t degree, const uint8_t *cells, size_t cells_len, size_t index, uint64_t *report,
                     size_t report_len);

/* ---- A repeatable load. */

/* Encodes a message and damages the array: `wrong` cells are inverted and `unsure` others made unsure, at places that the degree
 * and the seed choose. The same call gives the same array everywhere.
 * message: k * k bits, read only. cells: n * n, written only; what they held is not tested.
 *
 * Draws. They have no call of their own. There are two numbers of 64 bits, s, which starts as the seed, and w, which starts as 0.
 * A draw does s ^= s << 13, s ^= s >> 7 and s ^= s << 17, then adds hexadecimal 9E3779B97F4A7C15 to w, and is s plus w; both sums
 * wrap.
 * Places. The places 0 to n * n - 1 are shuffled from the last one down to place 1: place i changes with the place numbered by
 * the next draw modulo i + 1. The first `wrong` places in the shuffled order are inverted, the next `unsure` made unsure. Each
 * place is there a single time, so that exactly so many cells are hit.
 *
 * Where 2 * wrong + unsure is below 6, pugdrel_decode gives the array that was encoded, closed, as it does wherever that holds in
 * every row. wrong and unsure may be any numbers: their sum is tested without wrapping.
 * Refusals: 1, 3, 4, 8, 9. */
PUGDREL_NODISCARD
uint64_t pugdrel_load(uint64_t degree, uint64_t seed, uint64_t wrong, uint64_t unsure, const uint8_t *message,
                      size_t message_len, uint8_t *cells, size_t cells_len);

/* ---- One word or line of n cells. */

/* The report of pugdrel_bounded_distance. */
enum pugdrel_word_report {
    PUGDREL_FOUND = 0,   /* 1 where there is a codeword within 2, else 0 */
    PUGDREL_CHANGED = 1, /* how many cells were changed: 0, 1 or 2, and 0 where none was found */
    PUGDREL_WORD_REPORT = 2
};

/* Bounded-distance decoding, in place: the one codeword within 2 of a full word; where there is none the word stays as it is.
 * report: 2 numbers, found and changed. Refusals: 1, 3, 4. */
PUGDREL_NODISCARD
uint64_t pugdrel_bounded_distance(uint64_t degree, uint8_t *word, size_t word_len, uint64_t *report, size_t report_len);

/* Decoding of a line with unsure cells, in place. report: 1 number, which is 1 where it succeeds; else it is 0 and the line stays
 * as it is. Refusals: 1, 3, 4. */
PUGDREL_NODISCARD
uint64_t pugdrel_decode_line(uint64_t degree, uint8_t *cells, size_t cells_len, uint64_t filling_low, uint64_t filling_high,
                             uint64_t *report, size_t report_len);

/* The extrinsic messages of a line: what the other cells say about each cell of the incoming line, given the channel's line.
 * incoming, channel: n cells. messages: n cells, written only. report[0] is the count of decodings. Refusals: 1, 3, 4. */
PUGDREL_NODISCARD
uint64_t pugdrel_messages(uint64_t degree, const uint8_t *incoming, size_t incoming_len, const uint8_t *channel,
                          size_t channel_len, uint64_t filling_low, uint64_t filling_high, uint8_t *messages,
                          size_t messages_len, uint64_t *report, size_t report_len);

/* ---- The text form. */

/* The length that `output` must have; no text is longer. */
#define PUGDREL_SHEET_OUTPUT 16596

/* What the program `sheet` prints for `input`: a line with the degree, then n lines of n characters 0, 1 or ?. It runs one
 * iteration with filling words of zero. The text is written to the front of `output` (the bytes behind it stay), and report[0] is
 * its length. Its first line is the refusal number of the input, the count, the unsure cells and closed; the decoded lines follow
 * unless the input is refused. The call itself returns 0, or 3 where `output` or `report` is not of its length. */
PUGDREL_NODISCARD
uint64_t pugdrel_sheet(const uint8_t *input, size_t input_len, uint8_t *output, size_t output_len, uint64_t *report,
                       size_t report_len);

/* ---- The recorder's files. */

/* A sheet of degree 6, that is an array of 64 by 64 cells, with its number, in three blocks of 512 bytes one after the other. In
 * each block:
 *
 *     byte 0            the block's number, 0 to 2
 *     byte 1            6, the degree
 *     bytes 2 and 3     the sheet number, high byte first, the same in all three
 *     bytes 4 to 499    31 rows of 16 bytes, two bits a cell, cell 0 lowest: cell i of a row is bits 2 * (i % 4) and the next of
 *                       byte i / 4; block b has the rows from 31 * b, so that block 2 has 62 and 63, in bytes 4 to 35, then zeros
 *     bytes 500 to 509  zeros
 *     bytes 510, 511    the sums A and B of bytes 0 to 509 modulo 255: both start at 0, each byte is added to A, then A to B
 *
 * The zeros are filler, and are tested. A sum is 0 to 254: 255 in place of 0 fails. In the bytes that are summed, though, the sums
 * do not tell 0 and 255 apart. Writing what was read gives the file's own bytes, and reading what was written gives the sheet. */

/* The bytes of a file. */
#define PUGDREL_BLOCKS_FILE 1536

/* The report of pugdrel_read_blocks. */
enum pugdrel_read_report {
    PUGDREL_SHEET_NUMBER = 0, /* 0 to 65535 */
    PUGDREL_READ_REPORT = 1
};

/* Reads a sheet from a file into `cells`.
 * file: any bytes, read only; its length is part of the file, and another than PUGDREL_BLOCKS_FILE is refused as 5 and never as 3.
 * cells: 64 * 64, written only; what they held is not tested. report: 1 number.
 * Refusals: 3 (cells or report), 5, 6, 7, each tested over all three blocks before the next. A refused read leaves every cell, and
 * the sheet number that it reports is 0. */
PUGDREL_NODISCARD
uint64_t pugdrel_read_blocks(const uint8_t *file, size_t file_len, uint8_t *cells, size_t cells_len, uint64_t *report,
                             size_t report_len);

/* Writes a sheet, with a number that may be any, as the bytes of a file.
 * cells: 64 * 64, read only. file: PUGDREL_BLOCKS_FILE bytes, written only; what they held is not tested.
 * Refusals: 3, 4. A refused write leaves every byte. */
PUGDREL_NODISCARD
uint64_t pugdrel_write_blocks(uint16_t number, const uint8_t *cells, size_t cells_len, uint8_t *file, size_t file_len);

#ifdef __cplusplus
}
#endif

#endif
