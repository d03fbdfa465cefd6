"""Planted errors in the watcher: its calls in C of bench/peer.c in place of the library's, with a place or two of the text changed, and the
comparison of watching.py must find each. Unchanged they answer as the library does, which is compared here once more, so what is found is the error.
"""
import os
import random
import sys
from concurrent.futures import ThreadPoolExecutor

import evidence_calls as calls
import evidence_product as product
import watching
import watching_cases as lists

PLANTS, ANY_BYTES = 120, 150
ABSENT_ROW = 'if (row >= sizes[1] || ALSO(row >= 1024)) return refused_event(27);'
IN_STATE = 'if (ALSO(machine >= 16) || states[machine] != r[1]) return refused_event(27);'
TAKES = 'if (is_type(taken) && !contents[taken]) return refused_event(27);'
ROWS_LIMIT = 'if (counts[1] >= 1000000) return refused_event(29);'
PER_PROGRESS = 'counts[0] = sum(counts[0], sizes[3]);'
QUIET = 'counts[0] = one_less(counts[0]);'
MOVES = 'states[machine] = r[2];'
SENDS = 'if (is_type(sent)) contents[sent] = sum(contents[sent], 1);'
LOST = 'if (!is_present(sizes, contents, type)) return refused_event(28);\n    contents[type]--;'
DOUBLED = 'if (!is_present(sizes, contents, type)) return refused_event(28);\n    if (counts[2] >= 1000000) return refused_event(29);'
ADDED = 'contents[type] = sum(contents[type], 1);'
PER_DOUBLING = 'counts[0] = sum(counts[0], sizes[4]);'
OPENED = 'counts[0] = w.base + w.most_states * opening_weight;'
CHECKS = ('if (!fault.number) fault = lay_out(&t, weights, weight_count, laid);\n    if (!fault.number) fault = amounts(&t, opening, opening_count, 0, 0);')
NOT_PASSING = 'if (w.kind != HEMTALUQ_PASSED) fault.number = 22;\n    }\n    memset(states'

# What is wrong, and the text changed.
ROWS = [
    ('a quiet row takes two away', QUIET, 'counts[0] = one_less(one_less(counts[0]));'),
    ('a quiet row takes nothing away', QUIET, ''),
    ('a progress row takes one away as well', PER_PROGRESS, 'counts[0] = one_less(sum(counts[0], sizes[3]));'),
    ('a progress row adds the count of progress rows', PER_PROGRESS, 'counts[0] = sum(counts[0], counts[1]);'),
    ('a progress row adds n * w', PER_PROGRESS, 'counts[0] = sum(counts[0], sizes[4]);'),
    ('a progress row that stays in its state is quiet', 'if (r[5]) {', 'if (r[5] && r[1] != r[2]) {'),
    ('progress rows are not counted', 'counts[1]++;', ''),
    ('one progress row too many', 'counts[1] >= 1000000', 'counts[1] > 1000000'),
    ('one progress row too few', 'counts[1] >= 1000000', 'counts[1] >= 999999'),
    ('doublings count as progress rows at the limit', 'counts[1] >= 1000000', 'counts[1] + counts[2] >= 1000000'),
    ('27 for a progress row after the last', ROWS_LIMIT, 'if (counts[1] >= 1000000) return refused_event(27);'),
    ('a quiet row is refused after the last progress row', 'if (r[5]) {\n        ' + ROWS_LIMIT, ROWS_LIMIT + '\n    if (r[5]) {'),
    ('29 comes before 27', IN_STATE, 'if (r[5] && counts[1] >= 1000000) return refused_event(29);\n    ' + IN_STATE),
    ('29 comes before a message that is absent', TAKES, 'if (r[5] && counts[1] >= 1000000) return refused_event(29);\n    ' + TAKES),
    ('a row that is refused with 29 moves its machine', ROWS_LIMIT, 'if (counts[1] >= 1000000) { states[machine] = r[2]; return refused_event(29); }'),
    ('a row without its message moves its machine', TAKES, 'if (is_type(taken) && !contents[taken]) { states[machine] = r[2]; return refused_event(27); }'),
    ('the state entered is asked for', 'states[machine] != r[1]', 'states[machine] != r[2]'),
    ('a row happens in any state', '|| states[machine] != r[1]', ''),
    ('the state of machine 0 is asked for', 'states[machine] != r[1]', 'states[0] != r[1]'),
    ('the last message is not present', '!contents[taken]) return', 'contents[taken] < 2) return'),
    ('a message is taken that is absent', TAKES, ''),
    ('presence is judged in 32 bits', '!contents[taken]) return', '!(uint32_t)contents[taken]) return'),
    ('a row sends before it takes', '!contents[taken]) return', '!contents[taken] && taken != sent) return'),
    ('a row that takes and sends one type needs two', '!contents[taken]) return', 'contents[taken] < 1u + (taken == sent)) return'),
    ('the type taken is added', 'contents[taken]--', 'contents[taken]++'),
    ('the type taken stays', 'if (is_type(taken)) contents[taken]--;', ''),
    ('the type sent is not added', SENDS, ''),
    ('a row that takes does not send', 'if (is_type(sent))', 'if (is_type(sent) && !is_type(taken))'),
    ('contents have 32 bits', SENDS, 'if (is_type(sent)) contents[sent] = (uint32_t)(contents[sent] + 1);'),
    ('what is left has 32 bits', PER_PROGRESS, 'counts[0] = (uint32_t)(counts[0] + sizes[3]);'),
    ('what is left is told and not kept', SENDS, SENDS + '\n    if (!r[5]) return remaining(counts[0]++);'),
    ('the machine stays', MOVES, ''),
    ('machine 0 moves', MOVES, 'states[0] = r[2];'),
    ('the row behind the last one exists', 'row >= sizes[1]', 'row > sizes[1]'),
    ('28 for a row that the plant lacks', ABSENT_ROW, 'if (row >= sizes[1] || ALSO(row >= 1024)) return refused_event(28);'),
    ('a row number counts by its low ten bits', ABSENT_ROW, 'row &= 1023;\n    ' + ABSENT_ROW),
    ('a row number counts by its low 31 bits', ABSENT_ROW, 'row &= INT32_MAX;\n    ' + ABSENT_ROW),
    ('a refused event has a place', '(struct fault){number, 0}', '(struct fault){number, number}'),
]
MESSAGES = [
    ('a loss of an absent message is accepted', LOST, 'contents[type] -= is_present(sizes, contents, type);'),
    ('a loss of an unknown type is accepted', LOST, 'if (type >= sizes[2]) return remaining(counts[0]);\n    ' + LOST),
    ('a loss takes the type by its low six bits', LOST, 'type &= 63;\n    ' + LOST),
    ('27 for a loss', LOST, LOST.replace('28', '27')),
    ('all messages of the type are lost', LOST, LOST.replace('contents[type]--', 'contents[type] = 0')),
    ('the last message is not lost', LOST, LOST.replace('contents[type]--', 'contents[type] -= contents[type] > 1')),
    ('a loss is counted as a doubling', LOST, LOST + '\n    ((uint64_t *)counts)[2]++;'),
    ('a loss takes one away', LOST, LOST + '\n    --*(uint64_t *)counts;'),
    ('the weight of what is lost goes from what is left', LOST, LOST + '\n    *(uint64_t *)counts -= sizes[4];'),
    ('a doubling of an absent message is accepted', DOUBLED, DOUBLED.replace('!is_present(sizes, contents, type)', 'type >= sizes[2]')),
    ('a doubling of an unknown type is accepted', DOUBLED, 'if (type >= sizes[2]) return remaining(counts[0]);\n    ' + DOUBLED),
    ('27 for a doubling', DOUBLED, DOUBLED.replace('28', '27')),
    ('29 comes before 28', DOUBLED, 'if (counts[2] >= 1000000) return refused_event(29);\n    ' + DOUBLED),
    ('28 for a doubling after the last', DOUBLED, DOUBLED.replace('29', '28')),
    ('one doubling too many', 'counts[2] >= 1000000', 'counts[2] > 1000000'),
    ('one doubling too few', 'counts[2] >= 1000000', 'counts[2] >= 999999'),
    ('progress rows count as doublings at the limit', 'counts[2] >= 1000000', 'counts[1] + counts[2] >= 1000000'),
    ('doublings are not counted', 'counts[2]++;', ''),
    ('a doubling is counted as a progress row', 'counts[2]++;', 'counts[1]++;'),
    ('a doubling adds no message', ADDED, ''),
    ('a doubling adds two messages', ADDED, 'contents[type] = sum(contents[type], 2);'),
    ('a doubling adds G', PER_DOUBLING, 'counts[0] = sum(counts[0], sizes[3]);'),
    ('a doubling adds nothing to what is left', PER_DOUBLING, ''),
]
OPENINGS = [
    ('opening has g 1', OPENED, 'counts[0] = w.base + w.most_states * opening_weight + w.per_progress;'),
    ('opening has d 1', OPENED, 'counts[0] = w.base + w.most_states * opening_weight + w.per_doubling;'),
    ('the weight of the contents counts once', OPENED, 'counts[0] = w.base + opening_weight;'),
    ('the contents count by the largest weight', OPENED,
     'counts[0] = w.base;\n    for (unsigned i = 0; i < t.types; i++) counts[0] += w.per_doubling * opening[i];'),
    ('a progress row is counted at opening', OPENED, OPENED + '\n    counts[1] = 1;'),
    ('weights that do not pass open', NOT_PASSING, '}\n    memset(states'),
    ('contents are judged before weights', CHECKS, '\n    '.join(reversed(CHECKS.split('\n    ')))),
    ('weights that do not pass come before contents', CHECKS, CHECKS.replace(
        'fault = amounts', '{\n        fault = amounts').replace(
            '0, 0);', '0, 0);\n        if (fault.number && weigh_table(&t, laid, 0, 0).kind != HEMTALUQ_PASSED) fault = (struct fault){22, 0};\n    }')),
    ('a content above the limit opens', 'fault = amounts(&t, opening, opening_count, 0, 0);', 'fault = amounts(&t, opening, opening_count, 0, 0);\n'
     '    if (fault.number == 21) fault.number = 0;'),
    ('a refused opening has place 0', 'return watch_refused(fault);', 'return refused_event(fault.number);'),
    ('a refused opening keeps a byte of the copy', 'memset(copy, 0, 8192);', 'memset(copy, 0, 8191);'),
    ('a refused opening keeps the table', 'memset(table, 0, 8192);', ''),
    ('a refused opening keeps the sizes', 'memset(sizes, 0, 5 * sizeof *sizes);', ''),
    ('a refused opening keeps the copy of the file', 'memset(copy, 0, 8192);', 'memcpy(copy, file, length < 8192 ? length : 8192);'),
    ('a refused opening keeps all', 'memset(states, 0, 16);', 'if (fault.number) return watch_refused(fault);\n    memset(states, 0, 16);'),
    ('opening keeps the last state', 'memset(states, 0, 16);', 'memset(states, 0, 15);'),
    ('opening keeps contents behind the types', 'memset(contents, 0, 64 * sizeof *contents);', ''),
    ('opening keeps the counts', 'memset(counts, 0, 3 * sizeof *counts);', ''),
    ('no copy is kept', 'memcpy(copy, file, length);', ''),
    ('bytes behind the copy are kept', 'memset(copy + length, 0, 8192 - length);', ''),
    ('bytes behind the rows are kept', 'memset(table + 8 * t->rows, 0, 8192 - 8 * t->rows);', ''),
    ('types sent and taken are exchanged', 't->sent[k], t->taken[k], t->progress[k], 0, 0}', 't->taken[k], t->sent[k], t->progress[k], 0, 0}'),
    ('a row that sends nothing has type 0', 't->sent[k], t->taken[k], t->progress[k], 0, 0}', 't->sent[k] % 64, t->taken[k], t->progress[k], 0, 0}'),
    ('every row is machine 0\'s', 'row[8] = {(uint8_t)m,', 'row[8] = {0,'),
    ('rows and types are exchanged', '{length, t.rows, t.types,', '{length, t.types, t.rows,'),
    ('G and n * w are exchanged', 'w.per_progress, w.per_doubling};', 'w.per_doubling, w.per_progress};'),
]
STRUCTS = [
    ('sums wrap', 'x + y < x ? UINT64_MAX : x + y', 'x + y'),
    ('what is left falls below zero', 'x - (x > 0)', 'x - 1'),
    ('a machine that no plant has is let by', 'ALSO(machine >= 16)', 'ALSO(machine >= 64)'),
    ('a type of a row that no plant has is let by', 'type < NO_TYPE', 'type != NO_TYPE'),
    ('a type that no plant has is let by', '!ALSO(type >= 64) && contents[type]', 'contents[type % 64]'),
]
# Of the present contents, not of the opening ones: each message that comes or goes changes what is left by n times its weight.
PRESENT = [
    ('hemtaluq_watch_answer peer_watch_open(', 'static uint64_t n, by_type[64];\nhemtaluq_watch_answer peer_watch_open('),
    (OPENED, OPENED + '\n    n = w.most_states;\n    for (unsigned i = 0; i < t.types; i++) by_type[i] = weights[i];'),
    (SENDS, SENDS + '\n    if (is_type(sent)) counts[0] += n * by_type[sent];\n    if (is_type(taken)) counts[0] -= n * by_type[taken];'),
]
ERRORS = [(name, [(old, new)]) for name, old, new in ROWS + MESSAGES + OPENINGS + STRUCTS] + [('W is of the present contents', PRESENT)]


def built(folder, name, driver, *changes):
    """The C program of watching.py over the calls in C, with these changes."""
    path = os.path.join(folder, name)
    with open(path + '.c', 'w', encoding='utf-8') as out:
        out.write(product.peer_source(*changes))
    calls.run(['gcc', '-w', '-DANY_BYTES', '-Idist', path + '.c', driver, '-o', path])
    return path


def main(folder, seed, long):
    rng = random.Random(seed + 7)
    cases = [*lists.short_cases(rng, PLANTS * (10 if long else 1)), *lists.any_bytes_cases(rng, ANY_BYTES)]
    driver = os.path.join(folder, 'watching.o')
    calls.run(['gcc', '-O2', '-Idist', '-c', calls.compiled(folder, 'watching', watching.DRIVER) + '.c', '-o', driver])
    for name, program in (('the library', os.path.join(folder, 'watching')), ('the calls in C', built(folder, 'watching_peer', driver))):
        wrong = watching.difference([program], cases)
        if wrong:
            sys.exit('evidence: watching: %s: %s' % (name, wrong))
    with ThreadPoolExecutor(2) as pool:
        programs = pool.map(lambda one: built(folder, 'watcher%d' % one[0], driver, *one[1][1]), enumerate(ERRORS))
        for (name, _), program in zip(ERRORS, programs):
            if watching.difference([program], cases) is None:
                sys.exit('evidence: watching: the planted error "%s" is not found' % name)
    print('evidence: watching: %d lists of events agree with the second implementation; %d errors planted in the calls are found' % (len(cases), len(ERRORS)))
    return dict(planted_in_the_product=len(ERRORS), watched_lists=len(cases)), []
