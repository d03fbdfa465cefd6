/* The calls in plain C, with the best algorithms we know: what the proved calls are measured against.
 *
 * Nothing here is proved. Tables are filled in place and never copied, and but for the numbers of rows between states never
 * cleared; heights are relaxed in place in 32 bits; states that were left are bits of a word; the price class is a count of
 * leading zeros; a watcher's event looks at one row of the table that opening made.
 *
 * With ANY_BYTES the calls on a watcher also judge what only a struct that no call handed back can have, and no sum wraps, as the
 * library's do; the benchmarks leave it out. */
#include <string.h>
#include "peer.h"

#define INLINE static inline __attribute__((always_inline))

struct table {
    unsigned machines, types, rows;
    uint8_t states[16];
    uint16_t first[17];
    uint8_t left[1024], entered[1024], sent[1024], taken[1024], progress[1024];
};

struct fault {
    unsigned number;
    size_t place;
};

#define NO_TYPE 64
#define FAULT(n, p) return (struct fault){(n), (p)}
#define NEED(i) if ((i) >= length) FAULT(1, length)

/* A row as one word: two rows of a machine have the same key exactly if they are equal. */
INLINE uint32_t key_of(unsigned left, unsigned entered, unsigned sent, unsigned taken, unsigned progress) {
    return left | entered << 6 | sent << 12 | taken << 19 | progress << 26;
}

typedef uint32_t four __attribute__((vector_size(16)));

/* Whether one of n keys is this one, eight at a time. */
INLINE int is_in(const uint32_t *keys, unsigned n, uint32_t key) {
    four wanted = {key, key, key, key}, a, b, any = {0, 0, 0, 0};
    unsigned i = 0;
    for (; i + 8 <= n; i += 8) {
        memcpy(&a, keys + i, 16);
        memcpy(&b, keys + i + 4, 16);
        any |= (four)(a == wanted) | (four)(b == wanted);
    }
    uint32_t seen = any[0] | any[1] | any[2] | any[3];
    for (; i < n; i++) seen |= keys[i] == key;
    return seen != 0;
}

/* Whether one of n rows of a machine has this key; `states` has the bits of the states that they leave. Its key is kept if not. */
INLINE int is_twin(uint32_t *keys, unsigned n, uint64_t *states, unsigned left, uint32_t key) {
    if (*states >> left & 1 && is_in(keys, n, key)) return 1;
    keys[n] = key;
    *states |= (uint64_t)1 << left;
    return 0;
}

/* Reads a plant file. With keep 0 the rows are judged and not kept. */
INLINE struct fault decode(const uint8_t *f, size_t length, struct table *t, int keep) {
    NEED(0);
    if (f[0] < 1 || f[0] > 16) FAULT(2, 0);
    NEED(1);
    if (f[1] > 64) FAULT(2, 1);
    unsigned machines = f[0], types = f[1], rows = 0;
    uint32_t keys[255];
    size_t at = 2;
    for (unsigned m = 0; m < machines; m++) {
        NEED(at);
        unsigned states = f[at];
        if (states < 1 || states > 64) FAULT(3, at);
        at++;
        NEED(at);
        unsigned end = rows + f[at];
        if (end > 1024) FAULT(7, at);
        at++;
        if (keep) {
            t->states[m] = (uint8_t)states;
            t->first[m] = (uint16_t)rows;
        }
        unsigned left = 0, first = rows;
        uint64_t states_left = 0;
        for (; rows < end; rows++) {
            size_t start = at;
            NEED(at);
            unsigned map = f[at], entered, sent = NO_TYPE, taken = NO_TYPE;
            if (map >= 32) FAULT(4, at);
            at++;
            if (map & 1) {
                NEED(at);
                left = f[at];
                if (left >= states) FAULT(5, at);
                at++;
            }
            entered = left;
            if (map & 2) {
                NEED(at);
                entered = f[at];
                if (entered >= states) FAULT(5, at);
                at++;
            }
            if (map & 4) {
                NEED(at);
                sent = f[at];
                if (sent >= types) FAULT(6, at);
                at++;
            }
            if (map & 8) {
                NEED(at);
                taken = f[at];
                if (taken >= types) FAULT(6, at);
                at++;
            }
            if (is_twin(keys, rows - first, &states_left, left, key_of(left, entered, sent, taken, map >> 4))) FAULT(26, start);
            if (keep) {
                t->left[rows] = (uint8_t)left;
                t->entered[rows] = (uint8_t)entered;
                t->sent[rows] = (uint8_t)sent;
                t->taken[rows] = (uint8_t)taken;
                t->progress[rows] = map >> 4;
            }
        }
    }
    if (at < length) FAULT(8, at);
    t->machines = machines;
    t->types = types;
    t->rows = rows;
    if (keep) t->first[machines] = (uint16_t)rows;
    return (struct fault){0, 0};
}

static __attribute__((noinline)) struct fault decode_table(const uint8_t *f, size_t length, struct table *t) {
    return decode(f, length, t, 1);
}

INLINE hemtaluq_read_answer counts(struct fault fault, const struct table *t) {
    hemtaluq_read_answer a = {0};
    if (fault.number) {
        a.number = (uint8_t)fault.number;
        a.place = fault.place;
        return a;
    }
    a.kind = HEMTALUQ_COUNTS;
    a.types = (uint8_t)t->types;
    a.machines = t->machines;
    a.rows = t->rows;
    return a;
}

hemtaluq_read_answer peer_read(const uint8_t *file, size_t length) {
    struct table t;
    struct fault fault = decode(file, length, &t, 0);
    return counts(fault, &t);
}

hemtaluq_read_answer peer_decode(const uint8_t *file, size_t length) {
    struct table t;
    struct fault fault = decode_table(file, length, &t);
    return counts(fault, &t);
}

/* ---- weighing */

struct edge {
    uint8_t from, to;
    uint16_t row;
    int32_t weight;
};

static unsigned edges_of(const struct table *t, unsigned m, const int32_t *weights, struct edge *e) {
    unsigned count = 0;
    for (unsigned k = t->first[m]; k < t->first[m + 1]; k++) {
        e[count] = (struct edge){t->left[k], t->entered[k], (uint16_t)k, weights[t->sent[k]] - weights[t->taken[k]]};
        count += !t->progress[k];
    }
    return count;
}

/* Whether every cycle weighs below zero: relaxation in place, with lengths 1 + n * weight. */
static int decide(const struct edge *e, unsigned count, unsigned states, int32_t n) {
    struct { int32_t from, to, length; } r[255];
    int32_t h[64] = {0};
    for (unsigned i = 0; i < count; i++) {
        r[i].from = e[i].from;
        r[i].to = e[i].to;
        r[i].length = 1 + n * e[i].weight;
    }
    for (unsigned k = 0; k < states; k++) {
        int changed = 0;
        for (unsigned i = 0; i < count; i++) {
            int32_t along = h[r[i].to] + r[i].length;
            if (along > h[r[i].from]) {
                h[r[i].from] = along;
                changed = 1;
            }
        }
        if (!changed) return 1;
    }
    return 0;
}

#define NO_WALK (-1000000000)

/* The closed walk with the fewest rows, at most `limit`, that weighs zero or more: exact lengths from each start, then back through the
 * tables. Its rows go to `best`; one more than the limit, and nothing written, if there is none. */
static unsigned show(const struct edge *e, unsigned count, unsigned states, unsigned limit, uint16_t *best) {
    int32_t walk[65][64];
    unsigned length = limit + 1;
    for (unsigned start = 0; start < states && length > 1; start++) {
        for (unsigned s = 0; s < states; s++) walk[0][s] = NO_WALK;
        walk[0][start] = 0;
        for (unsigned k = 1; k < length; k++) {
            int32_t *now = walk[k], *old = walk[k - 1];
            for (unsigned s = 0; s < states; s++) now[s] = NO_WALK;
            for (unsigned i = 0; i < count; i++) {
                int32_t along = old[e[i].to] + e[i].weight;
                if (along > now[e[i].from]) now[e[i].from] = along;
            }
            if (now[start] < 0) continue;
            length = k;
            unsigned s = start;
            for (unsigned i = 0; i < k; i++) {
                unsigned j = 0;
                while (e[j].from != s || walk[k - i - 1][e[j].to] + e[j].weight != walk[k - i][s]) j++;
                best[i] = e[j].row;
                s = e[j].to;
            }
            break;
        }
    }
    return length;
}

/* Checks 9 and 10, with the weights laid out for the rows: entry 64 belongs to no type. */
static struct fault lay_out(const struct table *t, const uint16_t *weights, size_t count, int32_t *laid) {
    if (count != t->types) FAULT(9, 0);
    for (size_t i = 0; i < count; i++) {
        if (weights[i] > 1000) FAULT(10, i);
        laid[i] = weights[i];
    }
    laid[NO_TYPE] = 0;
    return (struct fault){0, 0};
}

static void figures(const struct table *t, const int32_t *laid, hemtaluq_weigh_answer *a) {
    uint64_t n = 0, less = 0, w = 0;
    for (unsigned m = 0; m < t->machines; m++) {
        if (t->states[m] > n) n = t->states[m];
        less += t->states[m] - 1u;
    }
    for (unsigned i = 0; i < t->types; i++)
        if ((uint64_t)laid[i] > w) w = (uint64_t)laid[i];
    a->base = less + n * w * less;
    a->most_states = n;
    a->per_progress = n - 1 + n * n * w;
    a->per_doubling = n * w;
}

/* F, n, G and n * w for weights that pass; otherwise the rows of a shortest cycle of all machines, if they are wanted. */
INLINE hemtaluq_weigh_answer weigh_table(const struct table *t, const int32_t *laid, uint16_t *cycle, int shown) {
    hemtaluq_weigh_answer a = {0};
    struct edge e[256];
    uint16_t best[64];
    unsigned least = 65;
    figures(t, laid, &a);
    a.kind = HEMTALUQ_PASSED;
    for (unsigned m = 0; m < t->machines; m++) {
        unsigned count = edges_of(t, m, laid, e), states = t->states[m];
        if (decide(e, count, states, (int32_t)a.most_states)) continue;
        a.kind = HEMTALUQ_CYCLE;
        if (!shown) break;
        unsigned limit = states < least - 1 ? states : least - 1, k = show(e, count, states, limit, best);
        if (k <= limit) least = k;
    }
    if (a.kind == HEMTALUQ_PASSED) return a;
    a.base = a.most_states = a.per_progress = a.per_doubling = 0;
    if (!shown) return a;
    a.rows = least;
    for (unsigned i = 0; i < least; i++) cycle[i] = best[i];
    return a;
}

hemtaluq_weigh_answer peer_weigh(const uint8_t *file, size_t length, const uint16_t *weights, size_t weight_count,
                                 uint16_t *cycle, size_t cycle_length) {
    struct table t;
    int32_t laid[NO_TYPE + 1];
    hemtaluq_weigh_answer a = {0};
    struct fault fault = decode_table(file, length, &t);
    if (!fault.number) fault = lay_out(&t, weights, weight_count, laid);
    if (!fault.number && cycle_length < 64) fault.number = 11;
    if (!fault.number) return weigh_table(&t, laid, cycle, 1);
    a.number = (uint8_t)fault.number;
    a.place = fault.place;
    return a;
}

/* ---- quoting */

static struct fault amounts(const struct table *t, const uint32_t *contents, size_t count, uint32_t g, uint32_t d) {
    if (count != t->types) FAULT(20, 0);
    for (size_t i = 0; i < count; i++)
        if (contents[i] > 1000000) FAULT(21, i);
    if (g > 1000000) FAULT(21, count);
    if (d > 1000000) FAULT(21, count + 1);
    return (struct fault){0, 0};
}

hemtaluq_quote_answer peer_quote(const uint8_t *file, size_t length, const uint16_t *weights, size_t weight_count,
                                 const uint32_t *contents, size_t content_count, uint32_t g, uint32_t d) {
    struct table t;
    int32_t laid[NO_TYPE + 1];
    hemtaluq_quote_answer a = {0};
    struct fault fault = decode_table(file, length, &t);
    if (!fault.number) fault = lay_out(&t, weights, weight_count, laid);
    if (!fault.number) fault = amounts(&t, contents, content_count, g, d);
    if (!fault.number) {
        hemtaluq_weigh_answer w = weigh_table(&t, laid, 0, 0);
        if (w.kind == HEMTALUQ_PASSED) {
            uint64_t sum = 0;
            for (size_t i = 0; i < weight_count; i++) sum += (uint64_t)weights[i] * contents[i];
            a.kind = HEMTALUQ_CEILING;
            a.ceiling = w.base + w.most_states * sum + w.per_progress * g + w.per_doubling * d;
            a.price_class = a.ceiling ? (uint32_t)(64 - __builtin_clzll(a.ceiling)) : 0;
            return a;
        }
        fault.number = 22;
    }
    a.number = (uint8_t)fault.number;
    a.place = fault.place;
    return a;
}

/* ---- listing */

/* The rows of a machine by the state they leave, in order; a row's state entered and its number stand together. */
struct listing {
    uint8_t begin[25], entered[48], number[48];
    uint32_t into[24]; /* for each state the states with a row to it */
    uint8_t between[24][24]; /* how many rows lead from one state to another */
    unsigned start;
    unsigned path[24];
    unsigned first;
    size_t used, limit;
    uint16_t *out;
};

/* The marks with those states that do not lead back to the start over states not marked. */
static uint32_t without_dead_ends(const struct listing *l, uint32_t marks) {
    uint32_t unmarked = ~marks & 0xffffff, live = l->into[l->start] & unmarked, todo = live;
    while (todo) {
        uint32_t more = l->into[__builtin_ctz(todo)] & unmarked & ~live;
        todo = (todo & (todo - 1)) | more;
        live |= more;
    }
    return marks | (~live & 0xffffff);
}

/* The marks once a state is left: new dead ends only where a state not marked has a row to it. */
INLINE uint32_t after_leaving(const struct listing *l, unsigned state, uint32_t marks) {
    marks |= 1u << state;
    return l->into[state] & ~marks ? without_dead_ends(l, marks) : marks;
}

/* Where all states are marked only rows to the start go on, and their number is known. */
static void count_from(struct listing *l, unsigned state, uint32_t marks, unsigned depth) {
    for (unsigned i = l->begin[state]; i < l->begin[state + 1]; i++) {
        unsigned entered = l->entered[i];
        if (entered == l->start) {
            l->used += depth + 2;
            if (l->used > l->limit) return;
        } else if (!(marks >> entered & 1)) {
            uint32_t after = after_leaving(l, entered, marks);
            if (after == 0xffffff) l->used += l->between[entered][l->start] * (depth + 3);
            else count_from(l, entered, after, depth + 1);
            if (l->used > l->limit) return;
        }
    }
}

static void fill_from(struct listing *l, unsigned state, uint32_t marks, unsigned depth) {
    for (unsigned i = l->begin[state]; i < l->begin[state + 1]; i++) {
        unsigned entered = l->entered[i];
        l->path[depth] = l->first + l->number[i];
        if (entered == l->start) {
            uint16_t *to = l->out + l->used;
            *to++ = (uint16_t)(depth + 1);
            for (unsigned j = 0; j <= depth; j++) *to++ = (uint16_t)l->path[j];
            l->used += depth + 2;
        } else if (!(marks >> entered & 1)) {
            fill_from(l, entered, after_leaving(l, entered, marks), depth + 1);
        }
    }
}

/* Goes through the cycles by the row they begin with. */
INLINE void all_cycles(struct listing *l, const struct table *t, unsigned last, int fill) {
    l->used = 0;
    for (unsigned k = l->first; k < last && l->used <= l->limit; k++) {
        unsigned entered = t->entered[k];
        l->start = t->left[k];
        l->path[0] = k;
        if (entered == l->start) {
            if (fill) {
                l->out[l->used] = 1;
                l->out[l->used + 1] = (uint16_t)k;
            }
            l->used += 2;
        } else if (entered > l->start) {
            uint32_t marks = without_dead_ends(l, (2u << l->start) - 1);
            if (marks >> entered & 1) continue;
            marks = after_leaving(l, entered, marks);
            if (fill) fill_from(l, entered, marks, 1);
            else count_from(l, entered, marks, 1);
        }
    }
}

hemtaluq_list_answer peer_list(const uint8_t *file, size_t length, uint32_t machine, uint16_t *out, size_t out_length) {
    struct table t;
    hemtaluq_list_answer a = {0};
    struct listing l;
    struct fault fault = decode_table(file, length, &t);
    a.number = (uint8_t)fault.number;
    a.place = fault.place;
    if (fault.number) return a;
    if (machine >= t.machines) {
        a.number = 12;
        return a;
    }
    unsigned first = t.first[machine], last = t.first[machine + 1], states = t.states[machine], i = 0;
    if (states > 24 || last - first > 48) {
        a.number = 13;
        return a;
    }
    for (unsigned s = 0; s < states; s++) {
        l.begin[s] = (uint8_t)i;
        l.into[s] = 0;
        memset(l.between[s], 0, states);
        for (unsigned k = first; k < last; k++)
            if (t.entered[k] == s) l.into[s] |= 1u << t.left[k];
        for (unsigned k = first; k < last; k++)
            if (t.left[k] == s) {
                l.between[s][t.entered[k]]++;
                l.entered[i] = t.entered[k];
                l.number[i++] = (uint8_t)(k - first);
            }
    }
    l.begin[states] = (uint8_t)i;
    l.first = first;
    l.limit = out_length;
    l.out = out;
    all_cycles(&l, &t, last, 0);
    if (l.used > out_length) {
        a.number = 14;
        return a;
    }
    all_cycles(&l, &t, last, 1);
    a.kind = HEMTALUQ_LISTED;
    a.entries = l.used;
    return a;
}

/* ---- cycle sets */

#define NUMBER(i) if ((i) >= length) FAULT(15, length)

static struct fault add_set(const struct table *t, const uint32_t *set, size_t length, int64_t *sums) {
    size_t at = 0;
    unsigned before = 0;
    do {
        if (at >= length || before == 256) FAULT(18, at);
        NUMBER(at);
        if (set[at] >= t->machines) FAULT(16, at);
        NUMBER(at + 1);
        if (set[at + 1] < 1 || set[at + 1] > 1000000) FAULT(16, at + 1);
        NUMBER(at + 2);
        if (set[at + 2] < 1 || set[at + 2] > 64) FAULT(16, at + 2);
        unsigned low = t->first[set[at]], high = t->first[set[at] + 1];
        int64_t repeats = set[at + 1];
        size_t end = at + 3 + set[at + 2];
        uint64_t seen = 0;
        int wrong = 0;
        unsigned start = 0, state = 0;
        for (size_t i = at + 3; i < end; i++) {
            NUMBER(i);
            unsigned k = set[i];
            if (k >= t->rows) FAULT(16, i);
            if (i == at + 3) start = state = t->left[k];
            wrong |= k < low || k >= high || t->progress[k] || t->left[k] != state || (seen >> state & 1);
            seen |= UINT64_C(1) << state;
            state = t->entered[k];
            if (t->sent[k] != NO_TYPE) sums[t->sent[k]] += repeats;
            if (t->taken[k] != NO_TYPE) sums[t->taken[k]] -= repeats;
        }
        if (wrong || state != start) FAULT(17, at);
        at = end;
        before++;
    } while (at < length);
    return (struct fault){0, 0};
}

hemtaluq_confirm_answer peer_confirm(const uint8_t *file, size_t length, const uint32_t *set, size_t set_length) {
    struct table t;
    int64_t sums[NO_TYPE] = {0};
    hemtaluq_confirm_answer a = {0};
    struct fault fault = decode_table(file, length, &t);
    if (!fault.number) fault = add_set(&t, set, set_length, sums);
    if (fault.number) {
        a.number = (uint8_t)fault.number;
        a.place = fault.place;
        return a;
    }
    a.kind = HEMTALUQ_CONFIRMED;
    for (unsigned i = 0; i < t.types; i++)
        if (sums[i] < 0) {
            a.kind = HEMTALUQ_NEGATIVE;
            a.message_type = i;
            a.sum = sums[i];
            break;
        }
    return a;
}

/* ---- writing */

#define JUDGED(low, end)                                                         \
    if (at >= count) FAULT(23, at);                                              \
    if (numbers[at] - (unsigned)(low) >= (unsigned)(end) - (low)) FAULT(24, at); \
    at++
#define LISTED(x, low, end) \
    JUDGED(low, end);       \
    unsigned x = numbers[at - 1]

/* The ends of the fourth and of the sixth number of a row of this kind. */
INLINE unsigned type_end(unsigned kind, unsigned types) {
    return kind ? types : 1u;
}

INLINE unsigned sent_end(unsigned kind, unsigned types) {
    return kind == 3 ? types : 1u;
}

/* The first fault of a row of which a number is missing or wrong. */
static __attribute__((noinline)) struct fault row_fault(const uint16_t *numbers, size_t count, size_t at, unsigned states, unsigned types) {
    JUDGED(0, states);
    JUDGED(0, states);
    JUDGED(0, 4);
    JUDGED(0, type_end(numbers[at - 1], types));
    JUDGED(0, 2);
    FAULT(at < count ? 24 : 23, at);
}

/* Judges a list, the six numbers of a row together, and lays the file's bytes in a buffer of its own, which has room for every file. */
static struct fault lay(const uint16_t *numbers, size_t count, uint8_t *file, size_t *end) {
    size_t at = 0, rows = 0;
    uint32_t keys[255];
    uint8_t *put = file;
    LISTED(machines, 1, 17);
    LISTED(types, 0, 65);
    *put++ = (uint8_t)machines;
    *put++ = (uint8_t)types;
    for (unsigned m = 0; m < machines; m++) {
        LISTED(states, 1, 65);
        LISTED(own, 0, 256);
        rows += own;
        if (rows > 1024) FAULT(24, at - 1);
        *put++ = (uint8_t)states;
        *put++ = (uint8_t)own;
        unsigned implied = 0;
        uint64_t states_left = 0;
        for (unsigned i = 0; i < own; i++) {
            if (count - at < 6) return row_fault(numbers, count, at, states, types);
            unsigned left = numbers[at], entered = numbers[at + 1], kind = numbers[at + 2], type = numbers[at + 3], progress = numbers[at + 4], sent = numbers[at + 5];
            if (left >= states || states <= entered || kind >= 4 || type >= type_end(kind, types) || progress >= 2 || sent >= sent_end(kind, types))
                return row_fault(numbers, count, at, states, types);
            if (is_twin(keys, i, &states_left, left, key_of(left, entered, type, sent, progress | kind << 1))) FAULT(26, at);
            at += 6;
            uint8_t *map = put++;
            *map = (uint8_t)((left != implied) | (entered != left) << 1 | kind << 2 | progress << 4);
            *put = (uint8_t)left;
            put += left != implied;
            *put = (uint8_t)entered;
            put += entered != left;
            *put = (uint8_t)(kind == 3 ? sent : type);
            put += kind & 1;
            *put = (uint8_t)type;
            put += kind >> 1;
            implied = left;
        }
    }
    if (at < count) FAULT(23, at);
    *end = (size_t)(put - file);
    return (struct fault){0, 0};
}

hemtaluq_write_answer peer_write(const uint16_t *numbers, size_t count, uint8_t *out, size_t out_length) {
    uint8_t file[HEMTALUQ_LONGEST_FILE];
    hemtaluq_write_answer a = {0};
    size_t length = 0;
    struct fault fault = lay(numbers, count, file, &length);
    if (!fault.number && length > out_length) fault.number = 25;
    if (fault.number) {
        a.number = (uint8_t)fault.number;
        a.place = fault.place;
        return a;
    }
    memcpy(out, file, length);
    a.kind = HEMTALUQ_WROTE;
    a.length = length;
    return a;
}

/* ---- watching */

#ifdef ANY_BYTES
#define ALSO(condition) (condition)
INLINE uint64_t sum(uint64_t x, uint64_t y) { return x + y < x ? UINT64_MAX : x + y; }
INLINE uint64_t one_less(uint64_t x) { return x - (x > 0); }
INLINE int is_type(unsigned type) { return type < NO_TYPE; }
#else
#define ALSO(condition) 0
INLINE uint64_t sum(uint64_t x, uint64_t y) { return x + y; }
INLINE uint64_t one_less(uint64_t x) { return x - 1; }
INLINE int is_type(unsigned type) { return type != NO_TYPE; }
#endif

INLINE hemtaluq_watch_answer watch_refused(struct fault fault) {
    return (hemtaluq_watch_answer){HEMTALUQ_REFUSED, (uint8_t)fault.number, fault.place, 0};
}

INLINE hemtaluq_watch_answer refused_event(unsigned number) {
    return watch_refused((struct fault){number, 0});
}

INLINE hemtaluq_watch_answer remaining(uint64_t left) {
    return (hemtaluq_watch_answer){HEMTALUQ_REMAINING, 0, 0, left};
}

/* The rows, eight bytes each, and zeros behind them. */
static void fill_rows(const struct table *t, uint8_t table[8192]) {
    for (unsigned m = 0; m < t->machines; m++)
        for (unsigned k = t->first[m]; k < t->first[m + 1]; k++) {
            const uint8_t row[8] = {(uint8_t)m, t->left[k], t->entered[k], t->sent[k], t->taken[k], t->progress[k], 0, 0};
            memcpy(table + 8 * k, row, 8);
        }
    memset(table + 8 * t->rows, 0, 8192 - 8 * t->rows);
}

hemtaluq_watch_answer peer_watch_open(uint8_t copy[8192], uint8_t table[8192], uint64_t sizes[5], uint8_t states[16], uint64_t contents[64],
                                      uint64_t counts[3], const uint8_t *file, size_t length, const uint16_t *weights, size_t weight_count,
                                      const uint32_t *opening, size_t opening_count) {
    struct table t;
    int32_t laid[NO_TYPE + 1];
    hemtaluq_weigh_answer w = {0};
    struct fault fault = decode_table(file, length, &t);
    if (!fault.number) fault = lay_out(&t, weights, weight_count, laid);
    if (!fault.number) fault = amounts(&t, opening, opening_count, 0, 0);
    if (!fault.number) {
        w = weigh_table(&t, laid, 0, 0);
        if (w.kind != HEMTALUQ_PASSED) fault.number = 22;
    }
    memset(states, 0, 16);
    memset(contents, 0, 64 * sizeof *contents);
    memset(counts, 0, 3 * sizeof *counts);
    if (fault.number) {
        memset(copy, 0, 8192);
        memset(table, 0, 8192);
        memset(sizes, 0, 5 * sizeof *sizes);
        return watch_refused(fault);
    }
    memcpy(copy, file, length);
    memset(copy + length, 0, 8192 - length);
    fill_rows(&t, table);
    const uint64_t kept[5] = {length, t.rows, t.types, w.per_progress, w.per_doubling};
    memcpy(sizes, kept, sizeof kept);
    uint64_t opening_weight = 0;
    for (unsigned i = 0; i < t.types; i++) {
        contents[i] = opening[i];
        opening_weight += (uint64_t)weights[i] * opening[i];
    }
    counts[0] = w.base + w.most_states * opening_weight;
    return remaining(counts[0]);
}

/* The lists do not overlap, so what was read of one stays as it is when another is written. */
hemtaluq_watch_answer peer_watch_row(const uint8_t table[restrict 8192], const uint64_t sizes[restrict 5], uint8_t states[restrict 16],
                                     uint64_t contents[restrict 64], uint64_t counts[restrict 3], uint32_t row) {
    if (row >= sizes[1] || ALSO(row >= 1024)) return refused_event(27);
    const uint8_t *r = table + 8 * row;
    unsigned machine = r[0], sent = r[3], taken = r[4];
    if (ALSO(machine >= 16) || states[machine] != r[1]) return refused_event(27);
    if (is_type(taken) && !contents[taken]) return refused_event(27);
    if (r[5]) {
        if (counts[1] >= 1000000) return refused_event(29);
        counts[0] = sum(counts[0], sizes[3]);
        counts[1]++;
    } else {
        counts[0] = one_less(counts[0]);
    }
    states[machine] = r[2];
    if (is_type(taken)) contents[taken]--;
    if (is_type(sent)) contents[sent] = sum(contents[sent], 1);
    return remaining(counts[0]);
}

/* Whether a message of this type is there. */
INLINE int is_present(const uint64_t sizes[5], const uint64_t contents[64], uint32_t type) {
    return type < sizes[2] && !ALSO(type >= 64) && contents[type];
}

hemtaluq_watch_answer peer_watch_loss(const uint64_t sizes[restrict 5], uint64_t contents[restrict 64], const uint64_t counts[restrict 3],
                                      uint32_t type) {
    if (!is_present(sizes, contents, type)) return refused_event(28);
    contents[type]--;
    return remaining(counts[0]);
}

hemtaluq_watch_answer peer_watch_doubling(const uint64_t sizes[restrict 5], uint64_t contents[restrict 64], uint64_t counts[restrict 3],
                                          uint32_t type) {
    if (!is_present(sizes, contents, type)) return refused_event(28);
    if (counts[2] >= 1000000) return refused_event(29);
    contents[type] = sum(contents[type], 1);
    counts[0] = sum(counts[0], sizes[4]);
    counts[2]++;
    return remaining(counts[0]);
}
