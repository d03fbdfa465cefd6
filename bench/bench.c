/* Measures a proved call and its peer side by side, in one process and in turn, and prints one line of JSON.
 *
 *     bench check CASES SEED                    random inputs: the answers and the lent lists must be the same, those of floor.c too
 *     bench read REPS FILE                      the peer judges the rows and keeps none
 *     bench decode REPS FILE                    the peer keeps the rows in a table
 *     bench weigh REPS FILE WEIGHTS
 *     bench floor REPS FILE WEIGHTS             weighing in C with arrays cleared as in Rattle, against the peer
 *     bench quote REPS FILE WEIGHTS             contents, g and d are 1,000
 *     bench list REPS FILE MACHINE ROOM         above 50,000,000 entries the list is only reserved, not held in memory
 *     bench confirm REPS FILE SET
 *     bench write REPS LIST                     16-bit numbers; the buffer has room for every file
 *     bench watch_open REPS FILE WEIGHTS        contents are 1,000
 *     bench watch_row REPS FILE WEIGHTS EVENTS  a run of rows, 32-bit numbers, from an opening as above; watch_loss and watch_doubling: of types
 *     bench glpk REPS FILE WEIGHTS CYCLES       the inequalities (1) to (4) of CYCLES, solved by the library of GLPK
 *     bench process REPS FILE WEIGHTS COMMAND.. weighing against a process
 *     bench growth REPS WEIGHTS FILE..          weighing each file, against the first
 *     bench stack CALL FILE [..]                how deep a call goes, on a painted stack
 */
#define _GNU_SOURCE
#include <dlfcn.h>
#include <fcntl.h>
#include <pthread.h>
#include <stddef.h>
#include <stdio.h>
#include <stdlib.h>
#include <string.h>
#include <sys/mman.h>
#include <sys/wait.h>
#include <time.h>
#include <unistd.h>
#include "floor.h"
#include "hemtaluq.h"
#include "peer.h"

static void die(const char *what) {
    fprintf(stderr, "bench: %s\n", what);
    exit(1);
}

static double now(void) {
    struct timespec t;
    clock_gettime(CLOCK_MONOTONIC, &t);
    return (double)t.tv_sec * 1e9 + (double)t.tv_nsec;
}

static void *load(const char *name, size_t *length) {
    FILE *f = fopen(name, "rb");
    if (!f) die(name);
    uint8_t *data = malloc(1 << 20);
    *length = fread(data, 1, 1 << 20, f);
    fclose(f);
    return data;
}

/* ---- the peer's weighing and quoting; with FORMER, those of a library before doublings, which has no such figure and gets no d */

#ifdef FORMER
typedef struct { uint8_t kind, number; size_t place; uint64_t base, most_states, per_progress; size_t rows; } peers_weigh_answer;
peers_weigh_answer former_weigh(const uint8_t *f, size_t n, const uint16_t *w, size_t count, uint16_t *cycle, size_t room);
hemtaluq_quote_answer former_quote(const uint8_t *f, size_t n, const uint16_t *w, size_t count, const uint32_t *c, size_t contents, uint32_t g);
static uint32_t d = 0;
#define PEERS_WEIGH former_weigh
#define PEERS_QUOTE(...) former_quote(__VA_ARGS__)
#define SAME_DOUBLING 1
#else
typedef hemtaluq_weigh_answer peers_weigh_answer;
static uint32_t d = 1000;
#define PEERS_WEIGH peer_weigh
#define PEERS_QUOTE(...) peer_quote(__VA_ARGS__, d)
#define SAME_DOUBLING (a.w.per_doubling == b.p.per_doubling)
#endif

/* ---- what the calls are given */

static const uint8_t *file;
static size_t file_length, weight_count, set_length, number_count, room, bytes_room = HEMTALUQ_LONGEST_FILE;
static const uint16_t *weights, *numbers;
static const uint32_t *set;
static uint32_t contents[64], machine, g = 1000;
static uint16_t cycle_ours[64], cycle_peer[64], *out_ours, *out_peer;
static uint8_t bytes_ours[HEMTALUQ_LONGEST_FILE + 8], bytes_peer[HEMTALUQ_LONGEST_FILE + 8];

static union { hemtaluq_read_answer r; hemtaluq_weigh_answer w; peers_weigh_answer p; hemtaluq_quote_answer q; hemtaluq_list_answer l; hemtaluq_confirm_answer c; hemtaluq_write_answer f; hemtaluq_watch_answer e; } a, b;

static void ours_read(void) { a.r = hemtaluq_read(file, file_length); }
static void peers_read(void) { b.r = peer_read(file, file_length); }
static void peers_decode(void) { b.r = peer_decode(file, file_length); }
static void ours_weigh(void) { a.w = hemtaluq_weigh(file, file_length, weights, weight_count, cycle_ours, 64); }
static void peers_weigh(void) { b.p = PEERS_WEIGH(file, file_length, weights, weight_count, cycle_peer, 64); }
static void floors_weigh(void) { a.w = floor_weigh(file, file_length, weights, weight_count, cycle_ours, 64); }
static void ours_quote(void) { a.q = hemtaluq_quote(file, file_length, weights, weight_count, contents, weight_count, g, d); }
static void peers_quote(void) { b.q = PEERS_QUOTE(file, file_length, weights, weight_count, contents, weight_count, g); }
static void ours_list(void) { a.l = hemtaluq_list(file, file_length, machine, out_ours, room); }
static void peers_list(void) { b.l = peer_list(file, file_length, machine, out_peer, room); }
static void ours_confirm(void) { a.c = hemtaluq_confirm(file, file_length, set, set_length); }
static void peers_confirm(void) { b.c = peer_confirm(file, file_length, set, set_length); }
static void ours_write(void) { a.f = hemtaluq_write(numbers, number_count, bytes_ours, bytes_room); }
static void peers_write(void) { b.f = peer_write(numbers, number_count, bytes_peer, bytes_room); }

static int same_read(void) { return a.r.kind == b.r.kind && a.r.number == b.r.number && a.r.types == b.r.types && a.r.place == b.r.place && a.r.machines == b.r.machines && a.r.rows == b.r.rows; }
static int same_weigh(void) { return a.w.kind == b.p.kind && a.w.number == b.p.number && a.w.place == b.p.place && a.w.base == b.p.base && a.w.most_states == b.p.most_states && a.w.per_progress == b.p.per_progress && SAME_DOUBLING && a.w.rows == b.p.rows && !memcmp(cycle_ours, cycle_peer, sizeof cycle_ours); }
static int same_quote(void) { return a.q.kind == b.q.kind && a.q.number == b.q.number && a.q.place == b.q.place && a.q.price_class == b.q.price_class && a.q.ceiling == b.q.ceiling; }
static int same_list(void) { return a.l.kind == b.l.kind && a.l.number == b.l.number && a.l.place == b.l.place && a.l.entries == b.l.entries && (a.l.kind != HEMTALUQ_LISTED || !memcmp(out_ours, out_peer, 2 * room)); }
static int same_confirm(void) { return a.c.kind == b.c.kind && a.c.number == b.c.number && a.c.place == b.c.place && a.c.message_type == b.c.message_type && a.c.sum == b.c.sum; }
static int same_write(void) { return a.f.kind == b.f.kind && a.f.number == b.f.number && a.f.place == b.f.place && a.f.length == b.f.length && !memcmp(bytes_ours, bytes_peer, sizeof bytes_ours); }

/* ---- watching: the lists of the struct; a run of events begins anew where the watcher was opened */

static hemtaluq_watcher opened, watch_ours, watch_peer;
static const uint32_t *events;
static size_t event_count = 1;

#define PEERS_LISTS watch_peer.states, watch_peer.contents, watch_peer.counts

static void ours_watch_open(void) { a.e = hemtaluq_watch_open(&watch_ours, file, file_length, weights, weight_count, contents, weight_count); }
static void peers_watch_open(void) {
    b.e = peer_watch_open(watch_peer.copy, watch_peer.table, watch_peer.sizes, PEERS_LISTS, file, file_length, weights, weight_count, contents, weight_count);
}

static void our_row(uint32_t k) { a.e = hemtaluq_watch_row(&watch_ours, k); }
static void our_loss(uint32_t t) { a.e = hemtaluq_watch_loss(&watch_ours, t); }
static void our_doubling(uint32_t t) { a.e = hemtaluq_watch_doubling(&watch_ours, t); }
static void peers_row(uint32_t k) { b.e = peer_watch_row(watch_peer.table, watch_peer.sizes, PEERS_LISTS, k); }
static void peers_loss(uint32_t t) { b.e = peer_watch_loss(watch_peer.sizes, watch_peer.contents, watch_peer.counts, t); }
static void peers_doubling(uint32_t t) { b.e = peer_watch_doubling(watch_peer.sizes, watch_peer.contents, watch_peer.counts, t); }

/* The states, contents and counts as they were at opening; events change nothing else. */
static void begin(hemtaluq_watcher *w) {
    size_t at = offsetof(hemtaluq_watcher, states);
    memcpy((uint8_t *)w + at, (const uint8_t *)&opened + at, sizeof opened - at);
}

/* A run of events; what is left and the kind of each answer are looked at, as a caller does, and their sum is that of the last answer then. */
#define RUN(name, watcher, answer, call)                      \
    static void name(void) {                                  \
        uint64_t sum = 0;                                     \
        begin(&watcher);                                      \
        for (size_t i = 0; i < event_count; i++) {            \
            hemtaluq_watch_answer e = call;                   \
            sum += e.kind == HEMTALUQ_REMAINING ? e.left : 0; \
        }                                                     \
        answer.left = sum;                                    \
    }

RUN(ours_watch_row, watch_ours, a.e, hemtaluq_watch_row(&watch_ours, events[i]))
RUN(ours_watch_loss, watch_ours, a.e, hemtaluq_watch_loss(&watch_ours, events[i]))
RUN(ours_watch_doubling, watch_ours, a.e, hemtaluq_watch_doubling(&watch_ours, events[i]))
RUN(peers_watch_row, watch_peer, b.e, peer_watch_row(watch_peer.table, watch_peer.sizes, PEERS_LISTS, events[i]))
RUN(peers_watch_loss, watch_peer, b.e, peer_watch_loss(watch_peer.sizes, watch_peer.contents, watch_peer.counts, events[i]))
RUN(peers_watch_doubling, watch_peer, b.e, peer_watch_doubling(watch_peer.sizes, watch_peer.contents, watch_peer.counts, events[i]))

static int same_watch(void) {
    return a.e.kind == b.e.kind && a.e.number == b.e.number && a.e.place == b.e.place && a.e.left == b.e.left
        && !memcmp(&watch_ours, &watch_peer, sizeof watch_ours);
}

/* ---- measuring */

static int by_size(const void *x, const void *y) {
    double p = *(const double *)x, q = *(const double *)y;
    return (p > q) - (p < q);
}

static double median(double *v, int n) {
    qsort(v, (size_t)n, sizeof *v, by_size);
    return n % 2 ? v[n / 2] : (v[n / 2 - 1] + v[n / 2]) / 2;
}

static double timed(void (*f)(void), long calls) {
    double t = now();
    for (long i = 0; i < calls; i++) f();
    return (now() - t) / (double)calls;
}

/* How many calls take at least 200 microseconds. */
static long batch(void (*f)(void)) {
    long calls = 1;
    while (timed(f, calls) * (double)calls < 200000 && calls < 1000000) calls *= 2;
    return calls;
}

/* In each repetition the one, then the other; the order changes from one repetition to the next. */
static void compare(int reps, void (*ours)(void), void (*theirs)(void), double (*their_time)(void)) {
    double *o = malloc(sizeof *o * (size_t)reps), *p = malloc(sizeof *p * (size_t)reps), *r = malloc(sizeof *r * (size_t)reps);
    long calls = batch(ours), others = theirs ? batch(theirs) : 0;
    for (int i = 0; i < reps; i++) {
        if (i % 2) o[i] = timed(ours, calls);
        p[i] = theirs ? timed(theirs, others) : their_time();
        if (!(i % 2)) o[i] = timed(ours, calls);
        r[i] = o[i] / p[i];
    }
    printf("\"ours_ns\": %.1f, \"peer_ns\": %.1f, \"ratio\": %.6g, \"ratios\": [", median(o, reps), median(p, reps), median(r, reps));
    for (int i = 0; i < reps; i++) printf("%s%.6g", i ? ", " : "", r[i]);
    printf("]}\n");
}

static void checked(int reps, void (*ours)(void), void (*theirs)(void), int (*same)(void)) {
    ours();
    theirs();
    if (!same()) die("the peer's answer differs");
    printf("{\"kind\": %d, \"number\": %d, \"events\": %zu, ", a.r.kind, a.r.number, event_count);
    compare(reps, ours, theirs, 0);
}

/* ---- random inputs */

static uint64_t seed;

static unsigned below(unsigned n) {
    seed ^= seed << 13;
    seed ^= seed >> 7;
    seed ^= seed << 17;
    return (unsigned)(seed >> 11) % n;
}

#define PICK(...) ((const unsigned[]){__VA_ARGS__}[below(sizeof((const unsigned[]){__VA_ARGS__}) / sizeof(unsigned))])

/* The six numbers of a row, as a list of numbers has them. */
struct row { uint16_t left, entered, kind, type, progress, sent; };

#define ROW_NUMBERS (sizeof(struct row) / sizeof(uint16_t))

/* Whether a row was drawn since this was cleared that takes and sends: kind 3. */
static int takes_and_sends;

static struct row random_row(unsigned implied, unsigned states, unsigned types) {
    struct row r = {0};
    r.left = (uint16_t)(below(3) ? below(states) : implied);
    r.entered = (uint16_t)(below(3) ? below(states) : r.left);
    r.kind = (uint16_t)(types ? PICK(0, 1, 2, 2, 3, 3) : 0);
    r.type = (uint16_t)(r.kind ? below(types) : 0);
    r.progress = (uint16_t)!below(4);
    r.sent = (uint16_t)(r.kind < 3 ? 0 : below(3) ? below(types) : r.type);
    takes_and_sends |= r.kind == 3;
    return r;
}

static int stands_in(const struct row *rows, unsigned count, const struct row *r) {
    for (unsigned i = 0; i < count; i++)
        if (!memcmp(rows + i, r, sizeof *r)) return 1;
    return 0;
}

/* At most so many rows of a machine; how many. Where they have twins, each eighth is one that stands there already; otherwise no two are equal, and
 * where no other is drawn there are fewer. */
static unsigned random_rows(struct row *rows, unsigned most, unsigned states, unsigned types, int twins) {
    for (unsigned k = 0; k < most; k++) {
        unsigned implied = k ? rows[k - 1].left : 0, tries = 0;
        if (k && twins && !below(8)) {
            rows[k] = rows[below(k)];
            continue;
        }
        do rows[k] = random_row(implied, states, types);
        while (stands_in(rows, k, rows + k) && ++tries < 20);
        if (tries == 20) return k;
    }
    return most;
}

/* The bytes of rows, a state that can be left out now and then with its byte; how many. */
static size_t put_rows(uint8_t *f, const struct row *rows, unsigned count) {
    size_t at = 0;
    for (unsigned k = 0; k < count; k++) {
        const struct row *r = rows + k;
        unsigned implied = k ? r[-1].left : 0, map = (r->left != implied || below(2)) | (r->entered != r->left || below(2)) << 1;
        f[at++] = (uint8_t)(map | r->kind << 2 | r->progress << 4);
        if (map & 1) f[at++] = (uint8_t)r->left;
        if (map & 2) f[at++] = (uint8_t)r->entered;
        if (r->kind & 1) f[at++] = (uint8_t)(r->kind == 3 ? r->sent : r->type);
        if (r->kind & 2) f[at++] = (uint8_t)r->type;
    }
    return at;
}

/* A plant file, now and then with twin rows, a wrong byte, cut or with a byte more. */
static size_t random_plant(uint8_t *f) {
    unsigned machines = PICK(1, 1, 2, 3, 5), types = PICK(0, 1, 2, 3, 8);
    int twins = !below(10);
    struct row rows[30];
    size_t at = 0;
    f[at++] = (uint8_t)machines;
    f[at++] = (uint8_t)types;
    for (unsigned m = 0; m < machines; m++) {
        unsigned states = PICK(1, 2, 3, 4, 9, 24, 25, 64), count = random_rows(rows, PICK(0, 1, 2, 4, 8, 14, 30), states, types, twins);
        f[at++] = (uint8_t)states;
        f[at++] = (uint8_t)count;
        at += put_rows(f + at, rows, count);
    }
    if (!below(12)) f[below((unsigned)at)] = (uint8_t)below(256);
    if (!below(30)) at -= 1;
    if (!below(30)) f[at++] = 0;
    return at;
}

/* A set of cycles that were listed, now and then with a wrong number. */
static size_t random_set(uint32_t *s, unsigned machines) {
    size_t at = 0;
    for (unsigned entries = PICK(0, 1, 2, 3, 5, 257); entries > 0; entries--) {
        hemtaluq_list_answer l = peer_list(file, file_length, machine = below(machines), out_peer, 200000);
        if (l.kind != HEMTALUQ_LISTED || l.entries == 0) continue;
        size_t i = 0;
        for (unsigned skip = below(6); skip > 0 && i + out_peer[i] + 1 < l.entries; skip--) i += out_peer[i] + 1u;
        unsigned rows = out_peer[i], turn = below(rows);
        s[at++] = machine;
        s[at++] = PICK(1, 1, 2, 1000000);
        s[at++] = rows;
        for (unsigned k = 0; k < rows; k++) s[at++] = out_peer[i + 1 + (k + turn) % rows];
    }
    if (at && !below(6)) s[below((unsigned)at)] = PICK(0, 1, 2, 65, 1000001, 70000);
    if (at && !below(12)) at--;
    return at;
}

/* A list that says a plant, now and then with twin rows, a wrong number, cut or with a number more, and with 1,024 rows or more. */
static size_t random_list(uint16_t *n) {
    unsigned machines = PICK(1, 1, 2, 3, 5, 16), types = PICK(0, 1, 2, 8, 64), most = below(50) ? 20 : 255, total = 0;
    int twins = !below(10);
    struct row rows[256];
    size_t at = 0;
    n[at++] = (uint16_t)machines;
    n[at++] = (uint16_t)types;
    for (unsigned m = 0; m < machines; m++) {
        unsigned states = most == 255 ? 64 : PICK(1, 2, 3, 9, 64), count = below(most + 1);
        if (total <= 1024 && total + most > 1024) count = 1024 - total + below(2);
        count = random_rows(rows, count, states, types, twins);
        total += count;
        n[at++] = (uint16_t)states;
        n[at++] = (uint16_t)count;
        memcpy(n + at, rows, count * sizeof *rows);
        at += ROW_NUMBERS * count;
    }
    if (!below(4)) n[below((unsigned)at)] = (uint16_t)PICK(0, 1, 2, 3, 4, 16, 17, 63, 64, 65, 255, 256, 65535);
    if (!below(20)) at = below((unsigned)at + 1);
    if (!below(20)) n[at++] = 0;
    return at;
}

/* Writes to a buffer of about the file's length, or of any. */
static void lend_bytes(void) {
    bytes_room = HEMTALUQ_LONGEST_FILE;
    hemtaluq_write_answer w = peer_write(numbers, number_count, bytes_peer, bytes_room);
    bytes_room = w.kind == HEMTALUQ_WROTE && below(8) ? w.length - !below(4) + below(3) : below(HEMTALUQ_LONGEST_FILE + 1);
    for (size_t i = 0; i < sizeof bytes_ours; i++) bytes_ours[i] = bytes_peer[i] = (uint8_t)(i * 31 + w.length);
}

static void differ(const char *call) {
    fprintf(stderr, "bench: %s differs on ", call);
    for (size_t i = 0; i < file_length; i++) fprintf(stderr, "%02x", file[i]);
    fprintf(stderr, "\n");
    exit(1);
}

static void differ_on_list(void) {
    fprintf(stderr, "bench: write, lent %zu, differs on", bytes_room);
    for (size_t i = 0; i < number_count; i++) fprintf(stderr, " %u", numbers[i]);
    fprintf(stderr, "\n");
    exit(1);
}

/* A number of progress rows or doublings, now and then above its limit. */
static uint32_t amount(void) { return below(40) ? below(PICK(5, 1000001)) : PICK(1000000, 1000001, 4294967295u); }

/* How often an answer of each kind was met, and with a row that takes and sends in what was given. */
static long kinds[10], with_both[10];

static void count(unsigned kind) {
    kinds[kind]++;
    with_both[kind] += takes_and_sends;
}

/* A watcher of the plant that was drawn, and events of which half cannot happen; how often each number was met. */
static void check_watcher(long *refusals) {
    void (*const ours[3])(uint32_t) = {our_row, our_loss, our_doubling}, (*const theirs[3])(uint32_t) = {peers_row, peers_loss, peers_doubling};
    memset(&watch_ours, 0x5A, sizeof watch_ours);
    memset(&watch_peer, 0xA5, sizeof watch_peer);
    ours_watch_open(), peers_watch_open();
    if (!same_watch()) differ("opening a watcher");
    count(a.e.kind);
    if (!below(8)) watch_ours.counts[1] = watch_peer.counts[1] = watch_ours.counts[2] = watch_peer.counts[2] = 999999;
    for (int i = 0; i < 40; i++) {
        unsigned kind = PICK(0, 0, 0, 1, 2), number = below((unsigned)watch_ours.sizes[kind ? 2 : 1] + 1);
        ours[kind](number), theirs[kind](number);
        if (!same_watch()) differ("an event of a watcher");
        refusals[a.e.number]++;
    }
}

static void check(long cases) {
    static uint8_t plant[8192];
    static uint16_t w[65], before[64];
    static uint32_t s[300 * 70];
    static uint16_t n[2 + 16 * (2 + ROW_NUMBERS * 256) + 1];
    long read_with[27] = {0}, refusals[27] = {0}, above_limit[2] = {0}, event_refusals[30] = {0};
    file = plant;
    numbers = n;
    weights = w;
    set = s;
    out_ours = malloc(400000);
    out_peer = malloc(400000);
    for (long i = 0; i < cases; i++) {
        takes_and_sends = 0;
        file_length = random_plant(plant);
        hemtaluq_read_answer r = peer_read(file, file_length);
        unsigned largest = PICK(2, 4, 1001, 1002);
        weight_count = r.types + !below(40);
        for (size_t t = 0; t < weight_count; t++) w[t] = (uint16_t)below(largest);
        for (size_t t = 0; t < 64; t++) contents[t] = below(PICK(5, 1000001, 1000002));
        g = amount();
        d = amount();
        for (int t = 0; t < 64; t++) before[t] = cycle_ours[t] = cycle_peer[t] = (uint16_t)below(65536);
        ours_read(), peers_read();
        if (!same_read()) differ("read");
        peers_decode();
        if (!same_read()) differ("decode");
        count(a.r.kind);
        read_with[a.r.number]++;
        ours_weigh(), peers_weigh();
        if (!same_weigh()) differ("weigh");
        count(a.w.kind);
        memcpy(cycle_ours, before, sizeof before);
        floors_weigh();
        if (!same_weigh()) differ("weighing with cleared arrays");
        ours_quote(), peers_quote();
        if (!same_quote()) differ("quote");
        count(a.q.kind);
        for (size_t k = 0; k < 2; k++) above_limit[k] += a.q.number == HEMTALUQ_AMOUNT_LIMIT && a.q.place == weight_count + k;
        check_watcher(event_refusals);
        set_length = random_set(s, r.kind == HEMTALUQ_COUNTS ? (unsigned)r.machines : 1);
        ours_confirm(), peers_confirm();
        if (!same_confirm()) differ("confirm");
        count(a.c.kind);
        machine = below(4);
        room = PICK(0, 2, 3, 10, 100, 200000);
        memset(out_ours, 0xA5, 2 * room);
        memset(out_peer, 0xA5, 2 * room);
        ours_list(), peers_list();
        if (!same_list() || memcmp(out_ours, out_peer, 2 * room)) differ("list");
        count(a.l.kind);
        takes_and_sends = 0;
        number_count = random_list(n);
        lend_bytes();
        ours_write(), peers_write();
        if (!same_write()) differ_on_list();
        count(a.f.kind);
        refusals[a.f.number]++;
    }
    for (int k = HEMTALUQ_ROW_IMPOSSIBLE; k <= HEMTALUQ_EVENT_LIMIT; k++)
        if (event_refusals[k] < cases / 100) die("a refusal of an event was met too seldom");
    for (int k = 0; k < 10; k++)
        if (with_both[k] < cases / 100) die("an answer was met too seldom with rows that take and send");
    if (read_with[0] < cases / 2 || read_with[HEMTALUQ_TWIN_ROW] < cases / 100) die("files that read, or twin rows in files, were met too seldom");
    if (above_limit[0] < cases / 200 || above_limit[1] < cases / 200) die("g or d above its limit was met too seldom");
    for (int k = HEMTALUQ_LIST_LENGTH; k <= HEMTALUQ_TWIN_ROW; k++)
        if (refusals[k] < cases / 100) die("a refusal of write was met too seldom");
    printf("{\"cases\": %ld, \"refused\": %ld, \"counts\": %ld, \"passed\": %ld, \"cycle\": %ld, \"ceiling\": %ld, \"listed\": %ld, \"confirmed\": %ld, \"negative\": %ld, \"wrote\": %ld, \"remaining\": %ld}\n", cases, kinds[0], kinds[1], kinds[2], kinds[3], kinds[4], kinds[5], kinds[6], kinds[7], kinds[8], kinds[9]);
}

/* ---- GLPK, by its shared library; no header is needed */

static struct {
    void *(*create)(void);
    void (*delete)(void *);
    int (*add_rows)(void *, int), (*add_cols)(void *, int);
    void (*set_row)(void *, int, int, double, double), (*set_col)(void *, int, int, double, double);
    void (*matrix)(void *, int, const int *, const int *, const double *);
    void (*basis)(void *);
    int (*simplex)(void *, const void *), (*status)(void *), (*term)(int);
} lp;

static int lp_rows, lp_cols, lp_entries, lp_i[4096], lp_j[4096];
static double lp_v[4096];
static void *problem;

#define SYMBOL(field, name) if (!(*(void **)&lp.field = dlsym(library, name))) die(name)

static void open_glpk(void) {
    void *library = dlopen("libglpk.so.40", RTLD_NOW);
    if (!library) die("libglpk.so.40 is missing");
    SYMBOL(create, "glp_create_prob");
    SYMBOL(delete, "glp_delete_prob");
    SYMBOL(add_rows, "glp_add_rows");
    SYMBOL(add_cols, "glp_add_cols");
    SYMBOL(set_row, "glp_set_row_bnds");
    SYMBOL(set_col, "glp_set_col_bnds");
    SYMBOL(matrix, "glp_load_matrix");
    SYMBOL(basis, "glp_std_basis");
    SYMBOL(simplex, "glp_simplex");
    SYMBOL(status, "glp_get_status");
    SYMBOL(term, "glp_term_out");
    lp.term(0);
}

/* CYCLES: types, count of cycles, then for each whether it has progress and its effect for each type. */
static int *cycles;

static void make_problem(void) {
    int types = cycles[0], count = cycles[1], *c = cycles + 2;
    lp_rows = types + 1;
    lp_cols = count;
    lp_entries = 0;
    problem = lp.create();
    lp.add_rows(problem, lp_rows);
    lp.add_cols(problem, lp_cols);
    for (int t = 1; t <= types; t++) lp.set_row(problem, t, 2, 0, 0);
    lp.set_row(problem, types + 1, 2, 1, 0);
    for (int j = 1; j <= count; j++, c += types + 1) {
        lp.set_col(problem, j, c[0] ? 5 : 2, 0, 0);
        for (int t = 1; t <= types; t++)
            if (c[t]) lp_entries++, lp_i[lp_entries] = t, lp_j[lp_entries] = j, lp_v[lp_entries] = c[t];
        lp_entries++, lp_i[lp_entries] = types + 1, lp_j[lp_entries] = j, lp_v[lp_entries] = 1;
    }
    lp.matrix(problem, lp_entries, lp_i, lp_j, lp_v);
}

static void solve(void) {
    lp.basis(problem);
    if (lp.simplex(problem, 0)) die("glp_simplex failed");
}

static void build_and_solve(void) {
    make_problem();
    if (lp.simplex(problem, 0)) die("glp_simplex failed");
    lp.delete(problem);
}

static void read_cycles(const char *name) {
    FILE *f = fopen(name, "r");
    int n = 0;
    if (!f) die(name);
    cycles = malloc(65536 * sizeof *cycles);
    while (n < 65536 && fscanf(f, "%d", &cycles[n]) == 1) n++;
    fclose(f);
}

static void glpk(int reps) {
    open_glpk();
    make_problem();
    solve();
    if (lp.status(problem) != 4) die("GLPK finds a balanced set");
    printf("{");
    compare(reps, ours_weigh, solve, 0);
    printf("{");
    compare(reps, ours_weigh, build_and_solve, 0);
}

/* ---- processes */

static char **command;

static double process_time(void) {
    double t = now();
    pid_t pid = fork();
    if (pid == 0) {
        int null = open("/dev/null", O_WRONLY);
        dup2(null, 1);
        dup2(null, 2);
        execvp(command[0], command);
        _exit(127);
    }
    int status;
    waitpid(pid, &status, 0);
    if (!WIFEXITED(status) || WEXITSTATUS(status) == 127) die("the process failed");
    return now() - t;
}

/* ---- growth */

#define SIZES 8

static void growth(int reps, int count, char **names) {
    const uint8_t *files[SIZES];
    size_t lengths[SIZES];
    long calls[SIZES], others[SIZES];
    double *ratio[2][SIZES], base[2] = {0, 0};
    for (int i = 0; i < count; i++) {
        file = files[i] = load(names[i], &lengths[i]);
        file_length = lengths[i];
        ours_weigh(), peers_weigh();
        if (!same_weigh()) die("the peer's answer differs");
        calls[i] = batch(ours_weigh);
        others[i] = batch(peers_weigh);
        for (int j = 0; j < 2; j++) ratio[j][i] = malloc(sizeof(double) * (size_t)reps);
    }
    for (int r = 0; r < reps; r++)
        for (int i = 0; i < count; i++) {
            file = files[i];
            file_length = lengths[i];
            double t[2] = {timed(ours_weigh, calls[i]), timed(peers_weigh, others[i])};
            for (int j = 0; j < 2; j++) {
                if (i == 0) base[j] = t[j];
                ratio[j][i][r] = t[j] / base[j];
            }
        }
    for (int j = 0; j < 2; j++) {
        printf(j ? ", \"peer\": [" : "{\"ours\": [");
        for (int i = 0; i < count; i++) printf("%s%.4g", i ? ", " : "", median(ratio[j][i], reps));
        printf("]");
    }
    printf("}\n");
}

/* ---- stack */

#define STACK (1 << 20)

static void (*deep)(void);
static void nothing(void) {}
static void *on_thread(void *unused) { (void)unused; deep(); return 0; }

static long depth_of(void (*f)(void)) {
    uint8_t *stack = mmap(0, STACK, PROT_READ | PROT_WRITE, MAP_PRIVATE | MAP_ANONYMOUS, -1, 0);
    pthread_attr_t attr;
    pthread_t thread;
    memset(stack, 0xA5, STACK);
    pthread_attr_init(&attr);
    pthread_attr_setstack(&attr, stack, STACK);
    deep = f;
    if (pthread_create(&thread, &attr, on_thread, 0)) die("no thread");
    pthread_join(thread, 0);
    long i = 0;
    while (i < STACK && stack[i] == 0xA5) i++;
    munmap(stack, STACK);
    return STACK - i;
}

static void stack_use(void (*ours)(void), void (*theirs)(void)) {
    long base = depth_of(nothing);
    printf("{\"ours\": %ld, \"peer\": %ld}\n", depth_of(ours) - base, depth_of(theirs) - base);
}

static void lend(void) {
    size_t bytes = 2 * room + 2;
    int kept = room <= 50000000;
    out_ours = mmap(0, bytes, PROT_READ | PROT_WRITE, MAP_PRIVATE | MAP_ANONYMOUS | MAP_NORESERVE, -1, 0);
    out_peer = mmap(0, bytes, PROT_READ | PROT_WRITE, MAP_PRIVATE | MAP_ANONYMOUS | MAP_NORESERVE, -1, 0);
    if (out_ours == MAP_FAILED || out_peer == MAP_FAILED) die("no room for the list");
    if (kept) {
        memset(out_ours, 0, bytes);
        memset(out_peer, 0, bytes);
    }
}

/* Opens a watcher on both sides and goes through the events once: all are accepted, with the same answers. */
static void follow(const char *list, void (*ours)(uint32_t), void (*theirs)(uint32_t)) {
    events = load(list, &event_count);
    event_count /= 4;
    ours_watch_open(), peers_watch_open();
    if (a.e.kind != HEMTALUQ_REMAINING || !same_watch()) die("the watcher does not open, or the peer's answer differs");
    opened = watch_ours;
    for (size_t i = 0; i < event_count; i++) {
        ours(events[i]), theirs(events[i]);
        if (a.e.kind != HEMTALUQ_REMAINING || !same_watch()) die("an event is refused, or the peer's answer differs");
    }
}

int main(int argc, char **argv) {
    if (argc < 3) die("too few arguments");
    const char *mode = argv[1];
    if (!strcmp(mode, "check")) {
        seed = strtoull(argv[3], 0, 10) * 2 + 1;
        check(atol(argv[2]));
        return 0;
    }
    int stack = !strcmp(mode, "stack"), reps = stack ? 0 : atoi(argv[2]);
    const char *call = stack ? argv[2] : mode;
    if (!strcmp(mode, "growth")) {
        weights = load(argv[3], &weight_count);
        weight_count /= 2;
        if (argc - 4 > SIZES) die("too many sizes");
        growth(reps, argc - 4, argv + 4);
        return 0;
    }
    file = load(argv[3], &file_length);
    for (int i = 0; i < 64; i++) contents[i] = 1000;
    if (argc > 4 && strcmp(call, "list") && strcmp(call, "confirm")) {
        weights = load(argv[4], &weight_count);
        weight_count /= 2;
    }
    void (*ours)(void) = 0, (*theirs)(void) = 0;
    int (*same)(void) = 0;
    if (!strcmp(call, "read")) ours = ours_read, theirs = peers_read, same = same_read;
    if (!strcmp(call, "decode")) ours = ours_read, theirs = peers_decode, same = same_read;
    if (!strcmp(call, "weigh")) ours = ours_weigh, theirs = peers_weigh, same = same_weigh;
    if (!strcmp(call, "floor")) ours = floors_weigh, theirs = peers_weigh, same = same_weigh;
    if (!strcmp(call, "quote")) ours = ours_quote, theirs = peers_quote, same = same_quote;
    if (!strcmp(call, "list")) {
        machine = (uint32_t)atol(argv[4]);
        room = strtoull(argv[5], 0, 10);
        lend();
        ours = ours_list, theirs = peers_list, same = same_list;
    }
    if (!strcmp(call, "confirm")) {
        set = load(argv[4], &set_length);
        set_length /= 4;
        ours = ours_confirm, theirs = peers_confirm, same = same_confirm;
    }
    if (!strcmp(call, "write")) {
        numbers = (const uint16_t *)file;
        number_count = file_length / 2;
        ours = ours_write, theirs = peers_write, same = same_write;
    }
    if (!strncmp(call, "watch_", 6)) {
        ours = ours_watch_open, theirs = peers_watch_open, same = same_watch;
        if (!strcmp(call, "watch_row")) follow(argv[5], our_row, peers_row), ours = ours_watch_row, theirs = peers_watch_row;
        if (!strcmp(call, "watch_loss")) follow(argv[5], our_loss, peers_loss), ours = ours_watch_loss, theirs = peers_watch_loss;
        if (!strcmp(call, "watch_doubling")) follow(argv[5], our_doubling, peers_doubling), ours = ours_watch_doubling, theirs = peers_watch_doubling;
    }
    if (!strcmp(call, "glpk")) {
        read_cycles(argv[5]);
        glpk(reps);
        return 0;
    }
    if (!strcmp(call, "process")) {
        command = argv + 5;
        printf("{");
        fflush(stdout);
        compare(reps, ours_weigh, 0, process_time);
        return 0;
    }
    if (!ours) die("unknown call");
    if (stack) stack_use(ours, theirs);
    else checked(reps, ours, theirs, same);
    return 0;
}
