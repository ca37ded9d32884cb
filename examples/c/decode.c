/* Sends messages through a bad channel and back, and calls every function of the library with a result that is known, but for the
 * reader and the writer of the recorder's files, which blocks.c has. load.c has more of the loads that the channel here is made of.
 * Build and run, from the root of the repository, after `tools/build staticlib`:
 *
 *     cc -Iinclude examples/c/decode.c target/staticlib/libpugdrel.a -o target/decode && target/decode
 *
 * The exit status is 0 if everything is as it should be. */
#include "check.h"
#include "pugdrel.h"

#include <stdio.h>
#include <string.h>

/* ---- The degrees, and room for what the longest lines need. */

#define N PUGDREL_N7
#define K PUGDREL_K7
#define ITERATIONS 4
#define NUMBERS PUGDREL_FILLING_NUMBERS(ITERATIONS, N)

static uint8_t message[K * K], sent[N * N], received[N * N], cells[N * N], taken_out[K * K];
static uint64_t filling[NUMBERS];

/* A degree with its sizes, and a codeword by the cells of its six ones. */
struct code {
    uint64_t degree;
    size_t n, k, ones[6];
};

static const struct code codes[] = {
    {4, PUGDREL_N4, PUGDREL_K4, {0, 4, 6, 7, 8, 15}},
    {6, PUGDREL_N6, PUGDREL_K6, {0, 57, 3, 22, 1, 63}},
    {7, PUGDREL_N7, PUGDREL_K7, {0, 80, 2, 69, 1, 127}},
};

/* ---- A message, sent and received. */

/* What the channel does at a degree, and what decoding reports then. */
static const struct channel {
    const struct code *code;
    uint64_t seed, wrong, unsure, report[PUGDREL_DECODE_REPORT];
} channels[] = {
    {&codes[0], 1, 1, 3, {256, 0, 1}}, /* 2 * 1 + 3 is below 6, so that decoding must succeed: so it is at each degree */
    {&codes[0], 2, 24, 48, {279, 0, 1}},
    {&codes[0], 3, 48, 96, {267, 52, 0}}, /* more than can be mended, and so it is at each degree */
    {&codes[1], 1, 1, 3, {1024, 0, 1}},
    {&codes[1], 2, 96, 192, {1153, 0, 1}},
    {&codes[1], 3, 192, 384, {986, 273, 0}},
    {&codes[2], 1, 1, 3, {2048, 0, 1}},
    {&codes[2], 2, 192, 384, {2340, 0, 1}},
    {&codes[2], 3, 384, 768, {2346, 536, 0}},
};

/* A message, and filling words of any bits. */
static void write_message(size_t k)
{
    size_t i;
    for (i = 0; i < k * k; i++) message[i] = (uint8_t)(i * i / 5 % 2);
    for (i = 0; i < NUMBERS; i++) filling[i] = (i + 1) * UINT64_C(0x9E3779B97F4A7C15);
}

static void round_trip(const struct channel *by)
{
    const uint64_t degree = by->code->degree;
    const size_t n = by->code->n, k = by->code->k;
    const int closed = (int)by->report[PUGDREL_CLOSED];
    uint64_t report[PUGDREL_DECODE_REPORT];
    write_message(k);
    check(pugdrel_encode(degree, message, k * k, sent, n * n) == PUGDREL_OK, "a message is encoded");
    check(pugdrel_load(degree, by->seed, by->wrong, by->unsure, message, k * k, received, n * n) == PUGDREL_OK,
          "it goes through the channel");
    check(pugdrel_decode(degree, ITERATIONS, received, n * n, filling, PUGDREL_FILLING_NUMBERS(ITERATIONS, n), cells, n * n,
                         report, PUGDREL_DECODE_REPORT) == PUGDREL_OK, "an array is decoded");
    check(memcmp(report, by->report, sizeof report) == 0, "the count, the unsure cells and closed are known");
    check((memcmp(cells, sent, n * n) == 0) == closed, "the cells are those that were sent where the array is closed");
    check(pugdrel_extract(degree, cells, n * n, taken_out, k * k) == PUGDREL_OK, "the message is taken out");
    check((memcmp(taken_out, message, k * k) == 0) == closed, "and is then the message that was sent");
    printf("degree %d: %d of %d cells wrong, %d unsure, %d decodings counted, the message of %d bits %s\n", (int)degree,
           (int)by->wrong, (int)(n * n), (int)by->unsure, (int)report[PUGDREL_COUNT], (int)(k * k),
           closed ? "came through" : "was lost");
}

/* ---- Closed: arrays of degree 4 that decoding leaves as they are. */

/* The cells in the rows of one mask and the columns of another, bit i for line i, are `cell`, all others 0. */
static void stays(unsigned rows, unsigned columns, uint8_t cell, uint64_t unsure, uint64_t closed, const char *what)
{
    const size_t n = PUGDREL_N4;
    uint64_t report[PUGDREL_DECODE_REPORT] = {7, 7, 7};
    size_t i;
    for (i = 0; i < n * n; i++) received[i] = (rows >> i / n & columns >> i % n & 1) ? cell : 0;
    check(pugdrel_decode(4, 1, received, n * n, filling, PUGDREL_FILLING_NUMBERS(1, n), cells, n * n, report,
                         PUGDREL_DECODE_REPORT) == PUGDREL_OK, what);
    check(memcmp(cells, received, n * n) == 0, what);
    /* 2 decodings a line, and none for the 12 lines with 6 unsure cells */
    check(report[PUGDREL_COUNT] == (unsure ? 40 : 64) && report[PUGDREL_UNSURE] == unsure && report[PUGDREL_CLOSED] == closed, what);
}

static void closing(void)
{
    const unsigned codeword = 0x81d1, off = 0x000f; /* no codeword is nearer than 4 to the second */
    stays(codeword, codeword, 1, 0, 1, "codewords in rows and columns: closed");
    stays(codeword, off, 1, 0, 0, "good columns and six rows off: not closed");
    stays(off, codeword, 1, 0, 0, "good rows and six columns off: not closed");
    stays(codeword, codeword, 2, 36, 0, "zeros in rows and columns but for unsure cells: not closed");
}

/* ---- Filling words: a line halfway between all zeros and a codeword of six ones. */

/* Two of the ones are there, two are unsure and two are missing. Both filled words decode, with as many differences, and word
 * one's codeword is taken: the filling bits of the two unsure cells choose. */
static void halfway(const struct code *code, uint8_t *line)
{
    memset(line, 0, code->n);
    line[code->ones[0]] = line[code->ones[1]] = 1;
    line[code->ones[2]] = line[code->ones[3]] = 2;
}

/* A filling word of these two numbers gives the six ones, or else all zeros: in a line, in its messages where the channel says
 * the same, and in an array that has the line in six rows. */
static void filling_gives(const struct code *code, uint64_t low, uint64_t high, int ones, const char *what)
{
    const size_t n = code->n;
    uint8_t line[N], given[N], after[N] = {0};
    uint64_t report[PUGDREL_DECODE_REPORT] = {7, 7, 7};
    size_t i;
    halfway(code, line);
    for (i = 0; i < 6; i++) after[code->ones[i]] = (uint8_t)ones;
    memcpy(given, line, n);
    check(pugdrel_decode_line(code->degree, given, n, low, high, report, 1) == PUGDREL_OK, what);
    check(report[0] == 1 && memcmp(given, after, n) == 0, what);
    check(pugdrel_messages(code->degree, line, n, line, n, low, high, given, n, report, 1) == PUGDREL_OK, what);
    check(report[0] == 2 && memcmp(given, after, n) == 0, what);
    memset(received, 0, n * n);
    memset(sent, 0, n * n);
    for (i = 0; i < 6; i++) {
        memcpy(received + code->ones[i] * n, line, n);
        memcpy(sent + code->ones[i] * n, after, n);
    }
    for (i = 0; i < 2 * n; i++) {
        filling[2 * i] = low;
        filling[2 * i + 1] = high;
    }
    check(pugdrel_decode(code->degree, 1, received, n * n, filling, PUGDREL_FILLING_NUMBERS(1, n), cells, n * n, report,
                         PUGDREL_DECODE_REPORT) == PUGDREL_OK, what);
    check(report[PUGDREL_CLOSED] == 1 && memcmp(cells, sent, n * n) == 0, what);
}

/* With a filling word of these two numbers the line fails. */
static void filling_fails(const struct code *code, uint64_t low, uint64_t high, const char *what)
{
    uint8_t line[N], given[N];
    uint64_t report[1] = {7};
    halfway(code, line);
    memcpy(given, line, code->n);
    check(pugdrel_decode_line(code->degree, given, code->n, low, high, report, 1) == PUGDREL_OK, what);
    check(report[0] == 0 && memcmp(given, line, code->n) == 0, what);
}

static void fillings(const struct code *code)
{
    uint64_t bits[2] = {0, 0}; /* ones at the two unsure cells */
    size_t i;
    for (i = 2; i < 4; i++) bits[code->ones[i] / 64] |= (uint64_t)1 << code->ones[i] % 64;
    filling_gives(code, 0, 0, 0, "filling bits of zero");
    filling_gives(code, bits[0], bits[1], 1, "filling bits of one at the unsure cells");
    filling_gives(code, ~bits[0], ~bits[1], 0, "at all others");
    filling_gives(code, bits[1], bits[0], 0, "the two numbers of the word in each other's place");
    if (code->n <= 64) {
        filling_gives(code, bits[0], UINT64_MAX, 1, "a high number that is not read");
        filling_gives(code, 0, UINT64_MAX, 0, "a high number that is not read, with zeros");
    } else {
        filling_fails(code, bits[0], 0, "the bit of the low number alone");
        filling_fails(code, 0, bits[1], "the bit of the high number alone");
    }
}

/* ---- Refusals: the first test that fails, zeros in the report, and nothing else changed. */

/* A call of decode at degree 4 with one thing wrong; it is refused as `number`. */
static void refused(uint64_t number, uint64_t degree, uint64_t iterations, size_t received_len, size_t filling_len,
                    size_t cells_len, size_t report_len, const char *what)
{
    uint64_t report[4] = {7, 7, 7, 7};
    uint64_t told = report_len == PUGDREL_DECODE_REPORT ? 0 : 7; /* a report of another length is not written */
    size_t i;
    memset(cells, 9, sizeof cells);
    check(pugdrel_decode(degree, iterations, received, received_len, filling, filling_len, cells, cells_len, report, report_len)
              == number, what);
    for (i = 0; i < 3; i++) check(report[i] == told, what);
    check(report[3] == 7, what);
    for (i = 0; i < sizeof cells; i++)
        if (cells[i] != 9) break;
    check(i == sizeof cells, what);
}

static void refusals(void)
{
    const size_t array = PUGDREL_N4 * PUGDREL_N4, numbers = PUGDREL_FILLING_NUMBERS(1, PUGDREL_N4);
    memset(received, 0, sizeof received);
    refused(PUGDREL_BAD_DEGREE, 5, 0, 1, 1, 1, 3, "degree 5, and all else wrong");
    refused(PUGDREL_BAD_DEGREE, 5, 1, array, numbers, array, 2, "degree 5, and a report of 2");
    refused(PUGDREL_BAD_DEGREE, 8, 1, array, numbers, array, 3, "degree 8");
    refused(PUGDREL_BAD_LENGTH, 7, 1, array, numbers, array, 3, "degree 7, and the lengths of degree 4");
    refused(PUGDREL_BAD_ITERATIONS, 4, 0, array, numbers, array, 3, "no iterations");
    refused(PUGDREL_BAD_ITERATIONS, 4, PUGDREL_MAX_ITERATIONS + 1, array, numbers, array, 4, "21 iterations, and a report of 4");
    refused(PUGDREL_BAD_LENGTH, 4, 1, array - 1, numbers, array, 3, "a received cell too few");
    refused(PUGDREL_BAD_LENGTH, 4, 1, array, numbers + 1, array, 3, "a filling number too many");
    refused(PUGDREL_BAD_LENGTH, 4, 1, array, numbers / 2, array, 3, "one number a filling word");
    refused(PUGDREL_BAD_LENGTH, 4, 1, array, numbers, array + 1, 3, "a cell too many");
    refused(PUGDREL_BAD_LENGTH, 4, 1, array, numbers, array, 0, "no report");
    received[17] = 3;
    refused(PUGDREL_BAD_CELL, 4, 1, array, numbers, array, 3, "a cell 3");
    refused(PUGDREL_BAD_LENGTH, 4, 1, array, numbers, array, 4, "a cell 3, and a report of 4");
    received[17] = 0;
    message[0] = 2;
    check(pugdrel_encode(4, message, PUGDREL_K4 * PUGDREL_K4, cells, array) == PUGDREL_BAD_CELL, "an unsure cell in a message");
    check(pugdrel_encode(4, message, PUGDREL_K4, cells, array) == PUGDREL_BAD_LENGTH, "a message of one row");
    check(pugdrel_encode(3, message, PUGDREL_K4, cells, array) == PUGDREL_BAD_DEGREE, "degree 3");
    check(pugdrel_extract(4, received, array, taken_out, 50) == PUGDREL_BAD_LENGTH, "a message of 50 cells");
}

/* Every number has words of its own. */
static void words_of_refusals(void)
{
    uint64_t a, b;
    for (a = 0; a <= PUGDREL_TOO_MANY + 1; a++)
        for (b = 0; b < a; b++)
            check(strcmp(pugdrel_refusal_text(a), pugdrel_refusal_text(b)) != 0, "two refusals have different words");
}

/* ---- Rows. */

static void rows(const struct code *code)
{
    const size_t n = code->n;
    uint64_t report[PUGDREL_ROW_REPORT] = {7, 7};
    memset(received, 0, sizeof received);
    check(pugdrel_row(code->degree, received, n * n, n - 1, report, 2) == PUGDREL_OK, "the last row");
    check(report[PUGDREL_ROW_START] == (n - 1) * n && report[PUGDREL_ROW_LENGTH] == n, "its place");
    check(pugdrel_row(code->degree, received, n * n, 5, report, 1) == PUGDREL_BAD_LENGTH, "a report of 1");
    check(report[PUGDREL_ROW_START] == (n - 1) * n && report[PUGDREL_ROW_LENGTH] == n, "is not written");
    check(pugdrel_row(code->degree, received, n * n, n, report, 2) == PUGDREL_BAD_LENGTH, "row n of n");
    check(report[PUGDREL_ROW_START] == 0 && report[PUGDREL_ROW_LENGTH] == 0, "is empty");
}

/* ---- Lines of degree 4: cell i is character i; ? is unsure. Filling words are zero but where their low number is given. */

#define ZERO "0000000000000000"
#define G "1000101110000001" /* a codeword */

static void line_of(const char *text, uint8_t *line)
{
    size_t i;
    for (i = 0; i < PUGDREL_N4; i++) line[i] = text[i] == '?' ? 2 : (uint8_t)(text[i] - '0');
}

static int is_line(const uint8_t *line, const char *text)
{
    uint8_t other[PUGDREL_N4];
    line_of(text, other);
    return memcmp(line, other, sizeof other) == 0;
}

static void word_gives(const char *word, uint64_t found, uint64_t changed, const char *after)
{
    uint8_t line[PUGDREL_N4];
    uint64_t report[PUGDREL_WORD_REPORT] = {7, 7};
    line_of(word, line);
    check(pugdrel_bounded_distance(4, line, sizeof line, report, PUGDREL_WORD_REPORT) == PUGDREL_OK, word);
    check(report[PUGDREL_FOUND] == found && report[PUGDREL_CHANGED] == changed && is_line(line, after), word);
}

static void line_gives(const char *text, uint64_t word, uint64_t found, const char *after)
{
    uint8_t line[PUGDREL_N4];
    uint64_t report[1] = {7};
    line_of(text, line);
    check(pugdrel_decode_line(4, line, sizeof line, word, 0, report, 1) == PUGDREL_OK, text);
    check(report[0] == found && is_line(line, after), text);
}

static void messages_give(const char *in, const char *channel, const char *after, uint64_t count)
{
    uint8_t incoming[PUGDREL_N4], other[PUGDREL_N4], messages[PUGDREL_N4] = {9};
    uint64_t report[1] = {7};
    line_of(in, incoming);
    line_of(channel, other);
    check(pugdrel_messages(4, incoming, sizeof incoming, other, sizeof other, 0, 0, messages, sizeof messages, report, 1)
              == PUGDREL_OK, in);
    check(report[0] == count && is_line(messages, after), in);
}

static void lines(void)
{
    uint8_t word[PUGDREL_N4], channel[PUGDREL_N4];
    uint64_t report[2] = {7, 7};
    word_gives("1000100000000000", 1, 2, ZERO);
    word_gives("1000000000000000", 1, 1, ZERO);
    word_gives("0000000000000001", 1, 1, ZERO); /* the last cell alone */
    word_gives("1000000000000001", 1, 2, ZERO); /* one cell, and the last */
    word_gives("1000101000000000", 0, 0, "1000101000000000");
    word_gives(G, 1, 0, G);
    line_gives("?000?0???0000000", 0, 1, ZERO);
    line_gives("?000?0???0000001", 0, 1, G);
    line_gives("100010??00000000", 0xc0, 1, G);
    line_gives("100010??00000000", UINT64_MAX << 16, 1, ZERO); /* bits from n up are not read */
    line_gives("?000?0???000000?", 0, 0, "?000?0???000000?");
    messages_give("1000100000000000", "1000101000000000", "0000001000000000", 2);
    messages_give("1000101000000000", "100010?000000000", "1000100000000000", 3);
    line_of("1000100000000000", word);
    check(pugdrel_bounded_distance(4, word, sizeof word, report, 1) == PUGDREL_BAD_LENGTH && report[0] == 7, "a report of 1");
    check(is_line(word, "1000100000000000"), "a refused word stays");
    word[3] = 2;
    check(pugdrel_bounded_distance(4, word, sizeof word, report, 2) == PUGDREL_BAD_CELL, "an unsure cell in a word");
    check(report[0] == 0 && report[1] == 0, "is told as not found and not changed");
    check(pugdrel_decode_line(6, word, sizeof word, 0, 0, report, 1) == PUGDREL_BAD_LENGTH, "a line of another degree");
    line_of(ZERO, channel);
    check(pugdrel_messages(7, word, sizeof word, channel, sizeof channel, 0, 0, cells, 16, report, 1) == PUGDREL_BAD_LENGTH,
          "lines of another degree");
    check(pugdrel_messages(8, word, sizeof word, channel, sizeof channel, 0, 0, cells, 16, report, 1) == PUGDREL_BAD_DEGREE,
          "degree 8");
}

/* ---- The text form. */

/* A text of a degree, with two bits wrong in its first row, and what is printed for it. */
static void sheet(const struct code *code)
{
    static char input[2 + N * (N + 1) + 1], expected[PUGDREL_SHEET_OUTPUT + 1];
    static uint8_t output[PUGDREL_SHEET_OUTPUT];
    char zeros[N + 2] = "";
    uint64_t report[1] = {7};
    size_t i;
    memset(zeros, '0', code->n);
    zeros[code->n] = '\n';
    sprintf(input, "%d\n", (int)code->degree);
    sprintf(expected, "0 %d 0 1\n", (int)(4 * code->n)); /* 2 decodings for each row and each column */
    for (i = 0; i < code->n; i++) {
        strcat(input, zeros);
        strcat(expected, zeros);
    }
    input[2 + code->ones[0]] = input[2 + code->ones[1]] = '1';
    check(pugdrel_sheet((const uint8_t *)input, strlen(input), output, sizeof output, report, 1) == PUGDREL_OK,
          "a text is taken");
    check(report[0] == strlen(expected) && memcmp(output, expected, strlen(expected)) == 0, "and decoded");
}

static void refused_sheets(void)
{
    static uint8_t output[PUGDREL_SHEET_OUTPUT];
    uint64_t report[1] = {7};
    check(pugdrel_sheet((const uint8_t *)"5\n", 2, output, sizeof output, report, 1) == PUGDREL_OK, "a text of degree 5 too");
    check(report[0] == 8 && memcmp(output, "1 0 0 0\n", 8) == 0, "whose refusal is in the text");
    check(pugdrel_sheet((const uint8_t *)"7\n", 2, output, sizeof output, report, 1) == PUGDREL_OK, "degree 7 without lines too");
    check(report[0] == 8 && memcmp(output, "3 0 0 0\n", 8) == 0, "whose refusal is another");
    check(pugdrel_sheet((const uint8_t *)"5\n", 2, output, 100, report, 1) == PUGDREL_BAD_LENGTH, "an output of 100 bytes");
    check(report[0] == 0, "to which nothing is written");
}

int main(void)
{
    const struct channel *channel;
    const struct code *code;
    check(pugdrel_version() == PUGDREL_VERSION, "the library is of the header's version");
    for (channel = channels; channel < channels + sizeof channels / sizeof *channels; channel++) round_trip(channel);
    for (code = codes; code < codes + sizeof codes / sizeof *codes; code++) {
        fillings(code);
        rows(code);
        sheet(code);
    }
    closing();
    refusals();
    words_of_refusals();
    lines();
    refused_sheets();
    return verdict();
}
