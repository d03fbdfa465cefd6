"""Compare the calls on a watcher with a second implementation, watching_model.py, event by event, on the lists of watching_cases.py.

The C program lends the struct, or its six lists apart, with bytes before and behind each. It tells the answer to each call and every word of the
struct that the call changed, so that no byte is left out after any event; at the end it asks `quote` for the ceiling. Where the struct has bytes
that no call handed back, only what the header promises of them is held. `tests/compiled.py` runs it.
"""
import itertools
import random
import shutil
import subprocess
import sys

import figures
import watching_cases as lists
from watching_model import DOUBLING, LOSS, MET, ROW

SHORT, LONG, LONG_EVENTS, ANY_BYTES, UNDER_VALGRIND = 1200, 90, 10000, 600, 30
NEEDED = [(ROW, 0), (ROW, 27), (ROW, 29), (LOSS, 0), (LOSS, 28), (DOUBLING, 0), (DOUBLING, 28), (DOUBLING, 29)]
NEEDED += [('opening', number) for number in (*range(11), 20, 21, 22, 26)]


# ---- the compiled calls

DRIVER = r'''#include <stdio.h>
#include <stdlib.h>
#include <string.h>
#include "hemtaluq.h"
enum { ROW, LOSS, DOUBLING, SET_WORD, FILL, MOVE };
enum { APART = 1, DIRTY = 2, ANY = 4, EXACT = 8 };
typedef struct { uint32_t kind, number; uint64_t value; } event;
static const size_t offsets[7] = {0, 8192, 16384, 16424, 16440, 16952, 16976};
static size_t guard;
static int apart;
static uint8_t *lists[6];
static hemtaluq_watcher held;
static uint64_t seed, old[2122];
static uint16_t changed[2122];
static void broken(const char *rule) { fflush(stdout); fprintf(stderr, "watching: %s\n", rule); exit(2); }
static uint64_t drawn(void) { seed = seed * 6364136223846793005u + 1442695040888963407u; return seed ^ seed >> 29; }
static void fill(void *to, size_t bytes) { for (size_t i = 0; i < bytes; i++) ((uint8_t *)to)[i] = (uint8_t)(drawn() >> 33); }
static size_t length_of(int i) { return apart ? offsets[i + 1] - offsets[i] : offsets[6]; }
/* Lends memory for the struct, or for each of its lists, with bytes before and behind, and puts what the struct is to hold there. */
static void lend(void) {
    for (int i = 0; i < (apart ? 6 : 1); i++) {
        uint8_t *block = malloc(length_of(i) + 2 * guard);
        memset(block, 0x5A, length_of(i) + 2 * guard);
        lists[i] = memcpy(block + guard, (uint8_t *)&held + offsets[i], length_of(i));
    }
    for (int i = 1; i < 6 && !apart; i++) lists[i] = lists[0] + offsets[i];
}
static void put_back(void) {
    for (int i = 0; i < (apart ? 6 : 1); i++) { memset(lists[i], 0xA5, length_of(i)); free(lists[i] - guard); }
}
/* Which words are other than those held; these are held then. Nothing around the lists has changed. */
static unsigned look(void) {
    unsigned count = 0;
    for (int i = 0; i < (apart ? 6 : 1); i++)
        for (size_t k = 0; k < guard; k++)
            if (lists[i][-1 - (long)k] != 0x5A || lists[i][length_of(i) + k] != 0x5A) broken("memory around a list changed");
    for (int i = 0; i < 6; i++) {
        uint8_t *was = (uint8_t *)&held + offsets[i], *is = lists[i];
        size_t bytes = offsets[i + 1] - offsets[i];
        if (!memcmp(was, is, bytes)) continue;
        for (size_t k = 0; k < bytes; k += 8) {
            if (!memcmp(was + k, is + k, 8)) continue;
            memcpy(&old[count], was + k, 8);
            changed[count++] = (uint16_t)((offsets[i] + k) / 8);
            memcpy(was + k, is + k, 8);
        }
    }
    return count;
}
static void *take(size_t bytes) {
    void *list = malloc(bytes + 1);
    if (fread(list, 1, bytes, stdin) != bytes) exit(1);
    return list;
}
static void tell(unsigned kind, unsigned number, unsigned more, uint64_t place, uint64_t figure) {
    uint8_t head[4] = {(uint8_t)kind, (uint8_t)number, (uint8_t)more, (uint8_t)(more >> 8)};
    fwrite(head, 1, 4, stdout); fwrite(&place, 8, 1, stdout); fwrite(&figure, 8, 1, stdout);
}
static void open_it(const uint8_t *file, const uint16_t *weights, const uint32_t *contents, const uint32_t *h) {
    hemtaluq_watcher *w = (hemtaluq_watcher *)lists[0];
    const uint8_t *f = h[0] ? file : 0;
    const uint16_t *v = h[1] ? weights : 0;
    const uint32_t *c = h[2] ? contents : 0;
    hemtaluq_watch_answer a = !apart ? hemtaluq_watch_open(w, f, h[0], v, h[1], c, h[2])
        : hemtaluq_watch_open_v1(lists[0], lists[1], (uint64_t *)lists[2], lists[3], (uint64_t *)lists[4], (uint64_t *)lists[5], f, h[0], v, h[1], c, h[2]);
    look();
    if (h[3] & ANY) return;
    tell(a.kind, a.number, 0, a.place, a.left);
    fwrite(&held, 1, sizeof held, stdout);
}
static hemtaluq_watch_answer happen(const event *e) {
    hemtaluq_watcher *w = (hemtaluq_watcher *)lists[0];
    uint64_t *sizes = (uint64_t *)lists[2], *contents = (uint64_t *)lists[4], *counts = (uint64_t *)lists[5];
    if (e->kind == ROW) return apart ? hemtaluq_watch_row_v1(lists[1], sizes, lists[3], contents, counts, e->number) : hemtaluq_watch_row(w, e->number);
    if (e->kind == LOSS) return apart ? hemtaluq_watch_loss_v1(sizes, contents, counts, e->number) : hemtaluq_watch_loss(w, e->number);
    return apart ? hemtaluq_watch_doubling_v1(sizes, contents, counts, e->number) : hemtaluq_watch_doubling(w, e->number);
}
/* The answer and the words that changed. */
static void tell_event(hemtaluq_watch_answer a, unsigned count) {
    tell(a.kind, a.number, count, a.place, a.left);
    for (unsigned i = 0; i < count; i++) { fwrite(&changed[i], 2, 1, stdout); fwrite((uint64_t *)&held + changed[i], 8, 1, stdout); }
}
/* What is promised of a struct of any bytes. */
static void hold_rules(const event *e, hemtaluq_watch_answer a, unsigned count) {
    uint64_t most = e->kind == ROW ? held.sizes[3] : held.sizes[4];
    if (a.kind == HEMTALUQ_REFUSED ? a.left || a.place : a.kind != HEMTALUQ_REMAINING || a.number) broken("an answer is neither refused nor remaining");
    if (a.kind == HEMTALUQ_REFUSED && count) broken("a refused event changed something");
    if (e->number >= (e->kind == ROW ? 1024u : 64u) && a.number != (e->kind == ROW ? 27 : 28)) broken("a number above all limits was let by");
    if (e->kind == ROW && e->number < 1024 && held.table[8 * e->number] >= 16 && a.number != 27) broken("a machine above all limits was let by");
    for (unsigned i = 0; i < count; i++) {
        uint64_t new = ((uint64_t *)&held)[changed[i]];
        if (changed[i] < offsets[3] / 8) broken("an event changed the copy, the table or the sizes");
        if (changed[i] < offsets[4] / 8) continue;
        if (new < old[i] ? old[i] - new > 1 : new - old[i] > (changed[i] == offsets[5] / 8 ? most : 1)) broken("a content or what is left has wrapped");
    }
}
static void follow(const event *e, uint32_t count, uint32_t flags) {
    for (uint32_t i = 0; i < count; i++, e++) {
        if (e->kind <= DOUBLING) {
            hemtaluq_watch_answer a = happen(e);
            unsigned words = look();
            if (flags & ANY) hold_rules(e, a, words);
            else tell_event(a, words);
            continue;
        }
        seed = e->value;
        if (e->kind == FILL) fill(&held, sizeof held);
        if (e->kind == SET_WORD) memcpy((uint8_t *)&held + 8 * e->number, &e->value, 8);
        put_back();
        lend();
    }
}
int main(void) {
    uint32_t h[6];
    while (fread(h, 4, 6, stdin) == 6) {
        uint8_t *file = take(h[0]), *given = malloc(h[0] + 1);
        uint16_t *weights = take(2 * (size_t)h[1]);
        uint32_t *contents = take(4 * (size_t)h[2]);
        event *events = take(sizeof *events * h[4]);
        apart = h[3] & APART;
        guard = h[3] & EXACT ? 0 : 64;
        seed = h[5];
        memset(&held, 0, sizeof held);
        if (h[3] & DIRTY) fill(&held, sizeof held);
        lend();
        memcpy(given, file, h[0]);
        open_it(given, weights, contents, h);
        if (memcmp(given, file, h[0])) broken("opening changed the file");
        memset(given, 0xA5, h[0]);
        free(given);
        int opened = held.sizes[0] > 0;
        follow(events, h[4], h[3]);
        if (h[3] & ANY) {
            fwrite(&h[4], 4, 1, stdout);
        } else if (opened) {
            hemtaluq_quote_answer q = hemtaluq_quote(file, h[0], weights, h[1], contents, h[2], (uint32_t)held.counts[1], (uint32_t)held.counts[2]);
            tell(q.kind, q.number, q.price_class, q.place, q.ceiling);
        }
        put_back();
        free(file); free(weights); free(contents); free(events);
    }
    return 0;
}
'''


def difference(command, cases):
    """What the program tells otherwise than is owed, in words, or None."""
    done = subprocess.run(command, input=b''.join(given for given, _ in cases), capture_output=True)
    told, said, at = done.stdout, done.stderr.decode(errors='replace').strip()[-300:], 0
    for number, (given, owed) in enumerate(cases):
        if told[at:at + len(owed)] != owed:
            here = next(i for i in range(len(owed)) if told[at + i:at + i + 1] != owed[i:i + 1])
            return 'case %d, given %s..., byte %d of the answers: %s, but owed is %s; %s' % (
                number, given[:80].hex(' '), here, told[at + here:at + here + 40].hex(' '), owed[here:here + 40].hex(' '), said)
        at += len(owed)
    return 'status %d, %d bytes more: %s' % (done.returncode, len(told) - at, said) if done.returncode or at < len(told) else None


def hold(name, command, cases):
    """How many cases there are, of which none differs."""
    wrong = difference(command, cases)
    if wrong:
        sys.exit('watching.py: %s: %s' % (name, wrong))
    return len(cases)


def under_valgrind(driver, rng):
    """How many cases valgrind finds nothing in, the lists in memory of exactly their lengths; None where it is not installed."""
    if not shutil.which('valgrind'):
        return None
    cases = [*lists.any_bytes_cases(rng, UNDER_VALGRIND, lists.EXACT), *lists.short_cases(rng, UNDER_VALGRIND, lists.EXACT)]
    return hold('under valgrind', ['valgrind', '-q', '--error-exitcode=3', driver], cases)


def compare(driver, seed):
    rng = random.Random(seed)
    MET.clear()
    count = hold('short lists', [driver], list(lists.short_cases(rng, SHORT)))
    for one in itertools.chain(lists.long_cases(rng, LONG, LONG_EVENTS), lists.limit_cases()):
        count += hold('long lists', [driver], [one])
    count += hold('any bytes', [driver], list(lists.any_bytes_cases(rng, ANY_BYTES)))
    for kind in NEEDED:
        if MET[kind] < 3:
            sys.exit('watching.py: %s was met %d times only' % (kind, MET[kind]))
    events, happened = sum(n for (kind, _), n in MET.items() if kind != 'opening'), sum(MET[kind, 0] for kind in (ROW, LOSS, DOUBLING))
    last, refused = MET[ROW, 29] + MET[DOUBLING, 29], sum(n for (kind, number), n in MET.items() if kind == 'opening' and number)
    clean = under_valgrind(driver, rng)
    print('watching.py: seed %d: %d lists with %d events, of which %d happen and %d are refused with 29; %d openings are refused; %s'
          % (seed, count, events, happened, last, refused, 'valgrind is not installed' if clean is None else 'valgrind finds nothing in %d lists' % clean))
    if seed == figures.SEED:
        figures.hold(watched_events=events, watched_happened=happened)
    return count
