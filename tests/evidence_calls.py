"""The proved calls through the static library of dist/: a C program that reads requests and prints one line of answers to each.

A request has a plant file, what five calls need besides, and the list of numbers and the length of the buffer for the call that writes.
The program fills the lent lists and the buffer from a generator, calls, and prints what was written, then `kept`, or `touched` where
another entry, or a place before or behind the list, changed. It says so too when a field that an answer does not use is not 0, or when
a list that is only read changed.
"""
import os
import struct
import subprocess
import sys
from collections import namedtuple

import building

ROOT = os.path.dirname(os.path.dirname(os.path.abspath(__file__)))
FILE_CALLS = ('read', 'weigh', 'quote', 'list', 'confirm')
CALLS = FILE_CALLS + ('write',)

# A request: `calls` says which of the six are made; `cycle_room` and `list_room` are the lengths of the lent lists, `write_room` that of the buffer.
Request = namedtuple('Request', 'file weights cycle_room contents g d machine list_room set numbers write_room calls')

DRIVER = r'''#include <stdio.h>
#include <stdlib.h>
#include <string.h>
#include "hemtaluq.h"
#define GUARD 8
static uint32_t seed = 2006;
/* A list of entries of one or two bytes, with entries before and behind it. */
static void *lend(size_t size, size_t room, uint8_t **copy) {
    size_t bytes = (room + 2 * GUARD) * size;
    uint8_t *list = malloc(bytes);
    for (size_t i = 0; i < bytes; i++) { seed = seed * 1664525u + 1013904223u; list[i] = (uint8_t)(seed >> 24); }
    *copy = malloc(bytes);
    memcpy(*copy, list, bytes);
    return list + GUARD * size;
}
static void lent(void *given, uint8_t *copy, size_t size, size_t room, size_t used) {
    uint8_t *bytes = given, *list = bytes - GUARD * size;
    uint16_t *numbers = given;
    for (size_t i = 0; i < used && i < room; i++) printf(" %d", size == 1 ? bytes[i] : numbers[i]);
    if (used <= room) memcpy(copy + GUARD * size, bytes, size * used);
    printf(used <= room && memcmp(list, copy, (room + 2 * GUARD) * size) == 0 ? " kept" : " touched");
    free(list); free(copy);
}
static void zero(uint64_t unused) { if (unused) printf(" an unused field is not 0"); }
static void *take(size_t size, uint32_t count, void **copy) {
    void *list = malloc(size * count + size);
    if (fread(list, size, count, stdin) != count) exit(1);
    *copy = malloc(size * count + size);
    memcpy(*copy, list, size * count);
    return list;
}
static void put_back(void *list, void *copy, size_t bytes) {
    if (memcmp(list, copy, bytes)) printf("; a list that is only read changed");
    free(list); free(copy);
}
static void put_read(const uint8_t *f, uint32_t n) {
    hemtaluq_read_answer a = hemtaluq_read(f, n);
    if (a.kind == HEMTALUQ_COUNTS) { printf("counts %zu %d %zu", a.machines, a.types, a.rows); zero(a.number | a.place); }
    else if (a.kind == HEMTALUQ_REFUSED) { printf("refused %d %zu", a.number, a.place); zero(a.types | a.machines | a.rows); }
    else printf("kind %d", a.kind);
}
static void put_weigh(const uint8_t *f, uint32_t n, const uint16_t *w, uint32_t count, uint32_t room) {
    uint8_t *copy;
    uint16_t *list = lend(2, room, &copy);
    hemtaluq_weigh_answer a = hemtaluq_weigh(f, n, w, count, list, room);
    unsigned long long base = a.base, most_states = a.most_states, per_progress = a.per_progress, per_doubling = a.per_doubling;
    uint64_t figures = a.base | a.most_states | a.per_progress | a.per_doubling;
    if (a.kind == HEMTALUQ_PASSED) { printf("passed %llu %llu %llu %llu", base, most_states, per_progress, per_doubling); zero(a.number | a.place | a.rows); }
    else if (a.kind == HEMTALUQ_CYCLE) { printf("cycle"); zero(a.number | a.place | figures); }
    else if (a.kind == HEMTALUQ_REFUSED) { printf("refused %d %zu", a.number, a.place); zero(figures | a.rows); }
    else printf("kind %d", a.kind);
    lent(list, copy, 2, room, a.kind == HEMTALUQ_CYCLE ? a.rows : 0);
}
static void put_quote(const uint8_t *f, uint32_t n, const uint16_t *w, uint32_t count, const uint32_t *c, uint32_t contents, uint32_t g, uint32_t d) {
    hemtaluq_quote_answer a = hemtaluq_quote(f, n, w, count, c, contents, g, d);
    if (a.kind == HEMTALUQ_CEILING) { printf("ceiling %llu %u", (unsigned long long)a.ceiling, (unsigned)a.price_class); zero(a.number | a.place); }
    else if (a.kind == HEMTALUQ_REFUSED) { printf("refused %d %zu", a.number, a.place); zero(a.ceiling | a.price_class); }
    else printf("kind %d", a.kind);
}
static void put_list(const uint8_t *f, uint32_t n, uint32_t machine, uint32_t room) {
    uint8_t *copy;
    uint16_t *list = lend(2, room, &copy);
    hemtaluq_list_answer a = hemtaluq_list(f, n, machine, list, room);
    if (a.kind == HEMTALUQ_LISTED) { printf("listed"); zero(a.number | a.place); }
    else if (a.kind == HEMTALUQ_REFUSED) { printf("refused %d %zu", a.number, a.place); zero(a.entries); }
    else printf("kind %d", a.kind);
    lent(list, copy, 2, room, a.kind == HEMTALUQ_LISTED ? a.entries : 0);
}
static void put_confirm(const uint8_t *f, uint32_t n, const uint32_t *s, uint32_t count) {
    hemtaluq_confirm_answer a = hemtaluq_confirm(f, n, s, count);
    if (a.kind == HEMTALUQ_CONFIRMED) { printf("confirmed"); zero(a.number | a.place | a.message_type | (uint64_t)a.sum); }
    else if (a.kind == HEMTALUQ_NEGATIVE) { printf("negative %zu %lld", a.message_type, (long long)a.sum); zero(a.number | a.place); }
    else if (a.kind == HEMTALUQ_REFUSED) { printf("refused %d %zu", a.number, a.place); zero(a.message_type | (uint64_t)a.sum); }
    else printf("kind %d", a.kind);
}
static void put_write(const uint16_t *numbers, uint32_t count, uint32_t room) {
    uint8_t *copy, *out = lend(1, room, &copy);
    hemtaluq_write_answer a = hemtaluq_write(numbers, count, out, room);
    if (a.kind == HEMTALUQ_WROTE) { printf("wrote"); zero(a.number | a.place); }
    else if (a.kind == HEMTALUQ_REFUSED) { printf("refused %d %zu", a.number, a.place); zero(a.length); }
    else printf("kind %d", a.kind);
    lent(out, copy, 1, room, a.kind == HEMTALUQ_WROTE ? a.length : 0);
}
int main(void) {
    uint32_t h[12];
    while (fread(h, 4, 12, stdin) == 12) {
        void *copies[5];
        uint8_t *file = take(1, h[0], &copies[0]);
        uint16_t *weights = take(2, h[1], &copies[1]);
        uint32_t *contents = take(4, h[3], &copies[2]), *set = take(4, h[8], &copies[3]);
        uint16_t *numbers = take(2, h[9], &copies[4]);
        if (h[11] & 1) put_read(file, h[0]);
        printf(";");
        if (h[11] & 2) put_weigh(file, h[0], weights, h[1], h[2]);
        printf(";");
        if (h[11] & 4) put_quote(file, h[0], weights, h[1], contents, h[3], h[4], h[5]);
        printf(";");
        if (h[11] & 8) put_list(file, h[0], h[6], h[7]);
        printf(";");
        if (h[11] & 16) put_confirm(file, h[0], set, h[8]);
        printf(";");
        if (h[11] & 32) put_write(numbers, h[9], h[10]);
        put_back(file, copies[0], h[0]); put_back(weights, copies[1], 2 * h[1]);
        put_back(contents, copies[2], 4 * h[3]); put_back(set, copies[3], 4 * h[8]); put_back(numbers, copies[4], 2 * h[9]);
        printf("\n");
    }
    return 0;
}
'''


def run(command, **more):
    done = subprocess.run(command, cwd=ROOT, capture_output=True, **more)
    if done.returncode != 0:
        sys.exit('evidence: %s failed:\n%s' % (' '.join(command), (done.stdout + done.stderr).decode(errors='replace')[-3000:]))
    return done.stdout


def compiled(folder, name, source, library=True):
    """The path of a C program, built in a folder of its own; with the static library where it is asked for."""
    path = os.path.join(folder, name)
    with open(path + '.c', 'w', encoding='utf-8') as out:
        out.write(source)
    run(['gcc', '-O2', '-Wall', '-Wextra', '-Werror', '-Idist', path + '.c'] + (['dist/libhemtaluq.a'] if library else []) + ['-o', path])
    return path


def build(folder):
    building.dist()
    return compiled(folder, 'calls', DRIVER)


def packed(q):
    head = (len(q.file), len(q.weights), q.cycle_room, len(q.contents), q.g, q.d, q.machine, q.list_room, len(q.set), len(q.numbers), q.write_room,
            sum(1 << CALLS.index(c) for c in q.calls))
    return (struct.pack('<12I', *head) + q.file + struct.pack('<%dH' % len(q.weights), *q.weights) + struct.pack('<%dI' % len(q.contents), *q.contents)
            + struct.pack('<%dI' % len(q.set), *q.set) + struct.pack('<%dH' % len(q.numbers), *q.numbers))


def stream(requests):
    return b''.join(packed(q) for q in requests)


def answers(program, requests, given=None):
    """For each request a dictionary from calls to answers. What is given to several programs may be made once, by `stream`."""
    lines = run([program], input=stream(requests) if given is None else given).decode().split('\n')[:-1]
    if len(lines) != len(requests):
        sys.exit('evidence: %d answers to %d requests' % (len(lines), len(requests)))
    result = []
    for line in lines:
        parts = line.split(';')
        result.append({c: a + ''.join(parts[len(CALLS):]) for c, a in zip(CALLS, parts) if a})
    return result


def request(file=b'', weights=(), cycle_room=64, contents=(), g=0, d=0, machine=0, list_room=0, set=(), numbers=(), write_room=0, calls=FILE_CALLS):
    return Request(bytes(file), list(weights), cycle_room, list(contents), g, d, machine, list_room, list(set), list(numbers), write_room, calls)
