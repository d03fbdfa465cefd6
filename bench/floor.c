/* Weighing in C with the arrays of the proved call, where every array has contents from the start: each is as long and cleared where
 * it is there, sums have 64 bits, and nothing is copied. Against the peer it shows what these arrays alone cost. */
#include <string.h>
#include "floor.h"

struct fault {
    unsigned number;
    size_t place;
};

/* Keeps the compiler from leaving the clearing, or a store, out. */
static inline void needed(const void *array) {
    __asm__ volatile("" : : "r"(array) : "memory");
}

#define FAULT(n, p) return (struct fault){(n), (p)}
#define FIELD(value, end, number) do { if (at >= length) FAULT(1, length); value = file[at]; if (value >= (end)) FAULT(number, at); at++; } while (0)

/* The counts, each machine's states and first row. */
struct shape {
    unsigned machines, types;
    uint8_t states[16];
    uint16_t first[17];
};

/* Whether an earlier row of the machine has this key; the keys are gone through only where one of these rows leaves the state. A new key is kept. */
static int is_twin(uint32_t *keys, size_t before, uint64_t *left, unsigned from, uint32_t key) {
    if (*left >> from & 1)
        for (size_t i = 0; i < before; i++)
            if (keys[i] == key) return 1;
    keys[before] = key;
    *left |= (uint64_t)1 << from;
    return 0;
}

static void put_row(uint8_t *row, unsigned m, unsigned from, unsigned to, unsigned up, unsigned down, unsigned progress) {
    row[0] = (uint8_t)m;
    row[1] = (uint8_t)from;
    row[2] = (uint8_t)to;
    row[3] = (uint8_t)up;
    row[4] = (uint8_t)down;
    row[5] = (uint8_t)progress;
}

/* Row k stands in the eight bytes of the table from 8 * k on. */
static struct fault decode(const uint8_t *file, size_t length, struct shape *c, uint8_t *table) {
    size_t at = 0, rows = 0;
    uint32_t keys[255];
    unsigned value, map;
    FIELD(value, 17, 2);
    if (value == 0) FAULT(2, 0);
    c->machines = value;
    FIELD(value, 65, 2);
    c->types = value;
    for (unsigned m = 0; m < c->machines; m++) {
        FIELD(value, 65, 3);
        if (value == 0) FAULT(3, at - 1);
        c->states[m] = (uint8_t)value;
        FIELD(value, 1025 - rows, 7);
        c->first[m] = (uint16_t)rows;
        unsigned from = 0;
        uint64_t left = 0;
        memset(keys, 0, 4 * (value <= 32 ? 32 : 255)), needed(keys);
        for (size_t first = rows, end = rows + value; rows < end; rows++) {
            unsigned to, up = 64, down = 64;
            size_t start = at;
            FIELD(map, 32, 4);
            if (map & 1) FIELD(from, c->states[m], 5);
            to = from;
            if (map & 2) FIELD(to, c->states[m], 5);
            if (map & 4) FIELD(up, c->types, 6);
            if (map & 8) FIELD(down, c->types, 6);
            if (is_twin(keys, rows - first, &left, from, from | to << 6 | up << 12 | down << 19 | (map >> 4) << 26)) FAULT(26, start);
            put_row(table + 8 * rows, m, from, to, up, down, map >> 4);
        }
    }
    c->first[c->machines] = (uint16_t)rows;
    if (at < length) FAULT(8, at);
    FAULT(0, 0);
}

/* Edge i stands in the four numbers from 4 * i on: the states left and entered, the weight and the row. One pass in place; the
 * last edge that raised a height, or the count. */
static size_t relax(const int16_t *edges, size_t count, int64_t n, int64_t *heights) {
    size_t last = count;
    for (size_t i = 0; i < count; i++) {
        const int16_t *e = edges + 4 * i;
        int64_t along = heights[e[1]] + 1 + n * e[2];
        if (along > heights[e[0]]) {
            heights[e[0]] = along;
            last = i;
        }
    }
    return last;
}

static int decide_from(const int16_t *edges, size_t count, unsigned states, int64_t n, int64_t *heights) {
    needed(heights);
    for (unsigned k = 0; k < states; k++)
        if (relax(edges, count, n, heights) == count) return 1;
    return 0;
}

static int decide(const int16_t *edges, size_t count, unsigned states, int64_t n) {
    if (states <= 8) {
        int64_t heights[8] = {0};
        return decide_from(edges, count, states, n, heights);
    }
    int64_t heights[64] = {0};
    return decide_from(edges, count, states, n, heights);
}

#define ORIGIN ((int64_t)1 << 40)

static unsigned least_from(const int16_t *edges, size_t count, unsigned states, unsigned start, unsigned limit, uint8_t *noted, size_t each, int64_t *walks) {
    int64_t *old = walks, *new = walks + 64;
    for (unsigned s = 0; s < states; s++) old[s] = 0;
    old[start] = ORIGIN;
    for (unsigned k = 0; k < limit; k++) {
        for (unsigned s = 0; s < states; s++) new[s] = 0;
        for (size_t i = 0; i < count; i++) {
            const int16_t *e = edges + 4 * i;
            int64_t along = old[e[1]] + e[2];
            if (along > new[e[0]]) {
                new[e[0]] = along;
                noted[k * each + (size_t)e[0]] = (uint8_t)i;
            }
        }
        if (new[start] >= ORIGIN) return k + 1;
        int64_t *swapped = old;
        old = new;
        new = swapped;
    }
    return limit + 1;
}

static unsigned show_noted(const int16_t *edges, size_t count, unsigned states, unsigned limit, uint16_t *rows, uint8_t *noted, size_t each) {
    unsigned start = 0, length = limit + 1;
    int64_t walks[128] = {0};
    needed(noted), needed(walks);
    for (unsigned s = 0; s < states; s++) {
        unsigned k = least_from(edges, count, states, s, length - 1, noted, each, walks);
        if (k < length) start = s;
        length = k;
    }
    if (length > limit) return limit + 1;
    least_from(edges, count, states, start, length, noted, each, walks);
    for (unsigned i = 0, s = start; i < length; i++) {
        const int16_t *e = edges + 4 * noted[(length - i - 1) * each + s];
        rows[i] = (uint16_t)e[3];
        s = (unsigned)e[1];
    }
    return length;
}

static unsigned show(const int16_t *edges, size_t count, unsigned states, unsigned limit, uint16_t *rows) {
    if (states <= 8) {
        uint8_t noted[512] = {0};
        return show_noted(edges, count, states, limit, rows, noted, 64);
    }
    uint8_t noted[4096] = {0};
    return show_noted(edges, count, states, limit, rows, noted, 64);
}

/* Lists the quiet rows of one machine after the other, from machine m up to the first with a cycle that weighs zero or more. */
static unsigned first_failing(const struct shape *c, const uint8_t *table, unsigned m, const uint16_t *weights, size_t count, int64_t n, int16_t *edges, size_t *listed) {
    for (; m < c->machines; m++) {
        *listed = 0;
        for (unsigned r = c->first[m]; r < c->first[m + 1]; r++) {
            const uint8_t *row = table + 8 * r;
            int16_t *e = edges + 4 * *listed;
            e[0] = row[1];
            e[1] = row[2];
            e[2] = (int16_t)((row[3] < count ? weights[row[3]] : 0) - (row[4] < count ? weights[row[4]] : 0));
            e[3] = (int16_t)r;
            *listed += !row[5];
        }
        if (!decide(edges, *listed, c->states[m], n)) return m;
    }
    return m;
}

static hemtaluq_weigh_answer weigh_in(const uint8_t *file, size_t length, const uint16_t *weights, size_t count, uint16_t *cycle, size_t room,
                                      uint8_t *table, int16_t *edges) {
    struct shape c = {0};
    hemtaluq_weigh_answer a = {0};
    needed(table), needed(edges), needed(cycle), needed(&c);
    struct fault fault = decode(file, length, &c, table);
    needed(table);
    if (!fault.number && count != c.types) fault.number = 9;
    for (size_t i = 0; i < count && !fault.number; i++)
        if (weights[i] > 1000) fault = (struct fault){10, i};
    if (!fault.number && room < 64) fault.number = 11;
    a.number = (uint8_t)fault.number;
    a.place = fault.place;
    if (fault.number) return a;
    uint64_t n = 0, less = 0, w = 0;
    for (unsigned m = 0; m < c.machines; m++) {
        n = c.states[m] > n ? c.states[m] : n;
        less += c.states[m] - 1u;
    }
    for (size_t i = 0; i < count; i++) w = weights[i] > w ? weights[i] : w;
    size_t listed;
    unsigned m = first_failing(&c, table, 0, weights, count, (int64_t)n, edges, &listed);
    if (m < c.machines) {
        uint16_t rows[64] = {0};
        needed(rows);
        unsigned least = show(edges, listed, c.states[m], c.states[m], rows);
        for (m++; m < c.machines; m++) {
            m = first_failing(&c, table, m, weights, count, (int64_t)n, edges, &listed);
            if (m == c.machines) break;
            unsigned limit = c.states[m] < least - 1 ? c.states[m] : least - 1, k = show(edges, listed, c.states[m], limit, rows);
            if (k <= limit) least = k;
        }
        for (unsigned i = 0; i < least; i++) cycle[i] = rows[i];
        a.kind = HEMTALUQ_CYCLE;
        a.rows = least;
        return a;
    }
    a.kind = HEMTALUQ_PASSED;
    a.base = less + n * w * less;
    a.most_states = n;
    a.per_progress = n - 1 + n * n * w;
    a.per_doubling = n * w;
    return a;
}

/* A file of at most 64 bytes has fewer than 64 rows. */
hemtaluq_weigh_answer floor_weigh(const uint8_t *file, size_t length, const uint16_t *weights, size_t count, uint16_t *cycle, size_t room) {
    if (length <= 64) {
        uint8_t table[512] = {0};
        int16_t edges[256] = {0};
        return weigh_in(file, length, weights, count, cycle, room, table, edges);
    }
    uint8_t table[8192] = {0};
    int16_t edges[1024] = {0};
    return weigh_in(file, length, weights, count, cycle, room, table, edges);
}
