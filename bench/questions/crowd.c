// Writes a record of a legal game whose positions lie side by side in a map that is hashed as a history's first keys
// are: of the packs' hashes the bits from 6 on, BITS of them, are 0 where a play with that is found.
//
//     crowd LINES MOVES BITS SEED
//
// With no bits it is a game of random plays, in records of the same length.
#include <stdint.h>
#include <stdio.h>
#include <stdlib.h>
#include <string.h>

enum { PACK = 157 };
static int lines, points, stones[625], seen_at[625], mark;
static uint8_t pack[PACK];
static uint64_t *seen, mask, state;
static size_t room, noted;

static uint64_t drawn(void) {
    state ^= state << 13;
    state ^= state >> 7;
    return state ^= state << 17;
}

static uint64_t word(const uint8_t *bytes) {
    uint64_t number;
    memcpy(&number, bytes, 8);
    return number;
}

static uint64_t folded(uint64_t a, uint64_t b) {
    unsigned __int128 product = (unsigned __int128)a * b;
    return (uint64_t)product ^ (uint64_t)(product >> 64);
}

// The hash of a pack, as the kit's FoldHasher gives it.
static uint64_t hash(void) {
    const uint64_t by = 0x9e3779b97f4a7c15u;
    uint64_t sum = 0x243f6a8885a308d3u + PACK;
    size_t at = 0;
    for (; PACK - at > 16; at += 16) sum = folded(word(pack + at) ^ sum, word(pack + at + 8) ^ by);
    return folded(word(pack + PACK - 16) ^ sum, word(pack + PACK - 8) ^ by);
}

static int is_crowded(uint64_t sum) { return ((uint32_t)(sum ^ (sum >> 32)) & mask) == 0; }

static void put(int point, int colour) {
    stones[point] = colour;
    pack[point / 4] = (uint8_t)((pack[point / 4] & ~(3 << 2 * (point % 4))) | colour << 2 * (point % 4));
}

static int beside(int point, int way) {
    int col = point % lines, row = point / lines;
    switch (way) {
    case 0: return col > 0 ? point - 1 : -1;
    case 1: return col < lines - 1 ? point + 1 : -1;
    case 2: return row > 0 ? point - lines : -1;
    default: return row < lines - 1 ? point + lines : -1;
    }
}

// The chain of a stone, and how long it is; 0 where it has a liberty.
static int dead(int from, int *chain) {
    int count = 1;
    mark++;
    chain[0] = from;
    seen_at[from] = mark;
    for (int i = 0; i < count; i++)
        for (int way = 0; way < 4; way++) {
            int near = beside(chain[i], way);
            if (near < 0 || seen_at[near] == mark) continue;
            if (!stones[near]) return 0;
            if (stones[near] != stones[from]) continue;
            seen_at[near] = mark;
            chain[count++] = near;
        }
    return count;
}

// Notes a position by its hash; 0 where it stood.
static int note(uint64_t sum) {
    size_t at = sum & (room - 1);
    for (; seen[at]; at = (at + 1) & (room - 1))
        if (seen[at] == sum) return 0;
    seen[at] = sum;
    noted++;
    return 1;
}

// Plays a stone where that is legal and is wanted so; else all is as before, and it is 0.
static int play(int point, int colour, int wants_crowd) {
    static int taken[625], chain[625];
    int count = 0, took = 0;
    if (stones[point]) return 0;
    put(point, colour);
    if (wants_crowd && !is_crowded(hash())) {
        put(point, 0);
        return 0;
    }
    for (int way = 0; way < 4; way++) {
        int near = beside(point, way);
        if (near < 0 || stones[near] != 3 - colour) continue;
        count = dead(near, chain);
        for (int i = 0; i < count; i++) {
            put(chain[i], 0);
            taken[took++] = chain[i];
        }
    }
    count = dead(point, chain);
    for (int i = 0; i < count; i++) put(chain[i], 0);
    if ((!wants_crowd || is_crowded(hash())) && note(hash())) return 1;
    for (int i = 0; i < count; i++) put(chain[i], colour);
    for (int i = 0; i < took; i++) put(taken[i], 3 - colour);
    put(point, 0);
    return 0;
}

static int stones_of(int colour) {
    int count = 0;
    for (int point = 0; point < points; point++) count += stones[point] == colour;
    return count;
}

int main(int count, char **words) {
    if (count != 5) return 2;
    lines = atoi(words[1]);
    points = lines * lines;
    long moves = atol(words[2]);
    int bits = atoi(words[3]);
    state = strtoull(words[4], 0, 10) * 2654435769u + 1;
    mask = bits ? ((1u << bits) - 1) << 6 : 0;
    for (room = 1; room < 4 * (size_t)moves; room *= 2) {}
    seen = calloc(room, sizeof *seen);
    note(hash());
    printf("(;SZ[%d]", lines);
    for (long move = 0; move < moves; move++) {
        int point = 0, colour = 0, found = 0;
        for (int crowd = bits > 0; crowd >= 0 && !found; crowd--) {
            int from = (int)(drawn() % points), fewer = stones_of(1) > stones_of(2) ? 2 : 1;
            for (int tried = 0; tried < 2 * points && !found; tried++) {
                point = (from + tried) % points;
                colour = tried < points ? fewer : 3 - fewer;
                found = play(point, colour, crowd);
            }
        }
        if (!found) return 1;
        printf(";%c[%c%c]", "?BW"[colour], 'a' + point % lines, 'a' + lines - 1 - point / lines);
    }
    printf(")");
}
