/* A repeatable load in plain C, the part of it that comes after encoding: what the library's is timed beside. The draws, the shuffle
 * and the refusal numbers are those of change request W-204. */
#include <stddef.h>
#include <stdint.h>

#define MOST_CELLS 16384 /* of an array of degree 7 */
#define UNSURE 2

/* Fills in the places of an array's cells, for which 16 bits are enough, in the order that the seed gives. */
static void shuffle(uint64_t seed, uint16_t *places, size_t cells)
{
    uint64_t s = seed, w = 0;
    size_t i;
    for (i = 0; i < cells; i++) places[i] = (uint16_t)i;
    for (i = cells; i-- > 1;) {
        uint16_t place = places[i];
        size_t other;
        s ^= s << 13;
        s ^= s >> 7;
        s ^= s << 17;
        w += UINT64_C(0x9E3779B97F4A7C15);
        other = (size_t)((s + w) % (i + 1));
        places[i] = places[other];
        places[other] = place;
    }
}

/* Inverts `wrong` cells of an array that was encoded, and makes `unsure` others unsure. */
uint64_t in_c_damage(uint64_t seed, uint64_t wrong, uint64_t unsure, uint8_t *cells, size_t cells_len)
{
    uint16_t places[MOST_CELLS];
    size_t i;
    if (cells_len > MOST_CELLS) return 3;
    if (seed == 0) return 8;
    if (wrong > cells_len || unsure > cells_len - wrong) return 9;
    shuffle(seed, places, cells_len);
    for (i = 0; i < wrong; i++) cells[places[i]] ^= 1;
    for (i = 0; i < unsure; i++) cells[places[wrong + i]] = UNSURE;
    return 0;
}
