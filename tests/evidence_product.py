"""Planted errors in the product: programs that are wrong in one place stand in for the library, and the comparison must find each.

- EDITS: the six calls in C of bench/peer.c in place of the library, with one piece of text changed. Unchanged they answer as
  the library does, so what is found is the edit. Those of a watcher's calls stand in evidence_watching.py.
- SHIMS: the library itself; a statement in C changes one field of its answer, or one entry of a list, after the call.

An error belongs to the calls that must show it, each by itself; only these are made.
"""
import os
import re
from collections import namedtuple
from concurrent.futures import ThreadPoolExecutor

import evidence_calls as calls

PEER = os.path.join(calls.ROOT, 'bench', 'peer.c')

# An error: what is wrong, the calls that must show it, and the text changed or the statement added.
Edit = namedtuple('Edit', 'name calls old new')
Shim = namedtuple('Shim', 'name calls statement')

TABLE = ('weigh', 'list', 'confirm')



def kept_types(sent, taken):
    """How bench/peer.c keeps the types of a row."""
    return 't->sent[rows] = (uint8_t)%s;\n                t->taken[rows] = (uint8_t)%s;' % (sent, taken)


KEPT_TYPES = kept_types('sent', 'taken')
READING = [
    Edit('a plant without machines is read', ('read',), 'f[0] < 1 || ', ''),
    Edit('64 types are too many', ('read',), 'f[1] > 64', 'f[1] > 63'),
    Edit('a wrong count of types has place 0', ('read',), 'FAULT(2, 1)', 'FAULT(2, 0)'),
    Edit('65 states are let by', ('read',), 'states > 64) FAULT(3', 'states > 65) FAULT(3'),
    Edit('1,024 rows are too many', calls.FILE_CALLS, 'end > 1024', 'end > 1023'),
    Edit('bit 5 of a map byte is let by', ('read', 'weigh'), 'map >= 32', 'map >= 64'),
    Edit('bits 2 and 3 may not stand together', calls.FILE_CALLS, 'map >= 32', 'map >= 32 || (map & 12) == 12'),
    Edit('bits 5 to 7 are let by beside bits 2 and 3', ('read',), 'map >= 32', 'map >= 32 && (map & 12) < 12'),
    Edit('the state entered may be the count of states', ('read',), 'entered >= states', 'entered > states'),
    Edit('a row without bit 0 leaves the state entered before', TABLE, 't->progress[rows] = map >> 4;', 't->progress[rows] = map >> 4; left = entered;'),
    Edit('a row without bit 1 enters state 0', TABLE, 'entered = left;', 'entered = 0;'),
    Edit('the place of a wrong type sent is one too far', calls.FILE_CALLS, 'if (sent >= types) FAULT(6, at)', 'if (sent >= types) FAULT(6, at + 1)'),
    Edit('the place of a wrong type taken is one too far', calls.FILE_CALLS, 'if (taken >= types) FAULT(6, at)', 'if (taken >= types) FAULT(6, at + 1)'),
    Edit('the type sent is not judged where one is taken', ('read',), 'if (sent >= types)', 'if (sent >= types && !(map & 8))'),
    Edit('the type taken is not judged where one is sent', ('read',), 'if (taken >= types)', 'if (taken >= types && !(map & 4))'),
    Edit('the place of bytes that remain is the file\'s end', calls.FILE_CALLS, 'FAULT(8, at)', 'FAULT(8, length)'),
    Edit('a type that is sent is taken', ('weigh', 'confirm'), KEPT_TYPES, kept_types('taken', 'sent')),
    Edit('the type taken comes before the type sent', ('weigh', 'confirm'), KEPT_TYPES,
         kept_types('((map & 12) == 12 ? taken : sent)', '((map & 12) == 12 ? sent : taken)')),
    Edit('a row that takes does not send', ('weigh', 'confirm'), KEPT_TYPES, kept_types('(map & 8 ? NO_TYPE : sent)', 'taken')),
    Edit('a row that sends does not take', ('weigh', 'confirm'), KEPT_TYPES, kept_types('sent', '(map & 4 ? NO_TYPE : taken)')),
]
WEIGHING = [
    Edit('a weight may be 1,001', ('weigh', 'quote'), 'weights[i] > 1000', 'weights[i] > 1001'),
    Edit('the place of a weight is one too far', ('weigh', 'quote'), 'FAULT(10, i)', 'FAULT(10, i + 1)'),
    Edit('a weight more than types is let by', ('weigh', 'quote'), 'if (count != t->types) FAULT(9', 'if (count < t->types) FAULT(9'),
    Edit('63 lent entries are enough', ('weigh',), 'cycle_length < 64', 'cycle_length < 63'),
    Edit('weight zero is good', ('weigh', 'quote'), '1 + n * e[i].weight', 'n * e[i].weight'),
    Edit('progress rows are taken as quiet', ('weigh', 'quote'), 'count += !t->progress[k]', 'count += 1'),
    Edit('a type taken weighs nothing', ('weigh', 'quote'), 'weights[t->sent[k]] - weights[t->taken[k]]', 'weights[t->sent[k]]'),
    Edit('a row that takes and sends one type weighs as what it sends', ('weigh', 'quote'), 'weights[t->sent[k]] - weights[t->taken[k]]',
         'weights[t->sent[k]] - (t->sent[k] == t->taken[k] ? 0 : weights[t->taken[k]])'),
    Edit('a row that takes and sends one type weighs as what it takes', ('weigh', 'quote'), 'weights[t->sent[k]] - weights[t->taken[k]]',
         '(t->sent[k] == t->taken[k] ? 0 : weights[t->sent[k]]) - weights[t->taken[k]]'),
    Edit('the first machine alone is judged', ('weigh', 'quote'), 'm < t->machines; m++) {\n        unsigned count', 'm < 1; m++) {\n        unsigned count'),
    Edit('n is taken from the first machine', ('weigh',), 'if (t->states[m] > n)', 'if (m == 0)'),
    Edit('w is the sum of the weights', ('weigh', 'quote'), 'if ((uint64_t)laid[i] > w) w = ', 'w += '),
    Edit('G lacks n - 1', ('weigh',), 'n - 1 + n * n * w', 'n * n * w'),
    Edit('w stands for n * w', ('weigh', 'quote'), 'per_doubling = n * w', 'per_doubling = w'),
    Edit('n stands for n * w', ('weigh', 'quote'), 'per_doubling = n * w', 'per_doubling = n'),
    Edit('n * n * w stands for n * w', ('weigh', 'quote'), 'per_doubling = n * w', 'per_doubling = n * n * w'),
    Edit('0 stands for n * w', ('weigh', 'quote'), 'per_doubling = n * w', 'per_doubling = 0'),
    Edit('n * w is that of the last machine', ('weigh', 'quote'), 'per_doubling = n * w', 'per_doubling = t->states[t->machines - 1] * w'),
    Edit('n * w is that of the last type', ('weigh', 'quote'), 'per_doubling = n * w', 'per_doubling = n * (t->types ? (uint64_t)laid[t->types - 1] : 0)'),
    Edit('n * w stands in the answer that shows a cycle', ('weigh',), 'a.per_progress = a.per_doubling = 0;', 'a.per_progress = 0;'),
    Edit('rows are shown by their place in the machine', ('weigh',), 'best[i] = e[j].row', 'best[i] = (uint16_t)j'),
    Edit('the shortest cycle of the first machine that fails is shown', ('weigh',), 'if (k <= limit) least = k;', 'if (k <= limit) least = k;\n        break;'),
    Edit('the shortest cycle of the last machine that fails is shown', ('weigh',), 'states < least - 1 ? states : least - 1', 'states'),
    Edit('the first cycle found is shown', ('weigh',), 'length > 1; start++', 'length > limit; start++'),
    Edit('of the machines\' shortest cycles the lightest is shown', ('weigh',),
         'unsigned limit = states < least - 1 ? states : least - 1, k = show(e, count, states, limit, best);\n        if (k <= limit) least = k;',
         'uint16_t own[64];\n        unsigned k = show(e, count, states, states, own);\n        int32_t mine = 0, lightest = 0;\n'
         '        for (unsigned i = 0; i < k; i++) mine += laid[t->sent[own[i]]] - laid[t->taken[own[i]]];\n'
         '        for (unsigned i = 0; least < 65 && i < least; i++) lightest += laid[t->sent[best[i]]] - laid[t->taken[best[i]]];\n'
         '        if (least == 65 || mine < lightest) memcpy(best, own, sizeof own), least = k;'),
    Edit('a longer cycle leaves its rest behind a shorter one', ('weigh',), 'uint16_t best[64];\n    unsigned least', 'uint16_t *best = cycle;\n    unsigned least'),
    Edit('a cycle as long as the machine has states is passed over', ('weigh',), 'states < least - 1 ? states :', 'states < least - 1 ? states - 1 :'),
    Shim('the list is changed where weights pass', ('weigh',), 'if (a.kind == HEMTALUQ_PASSED) cycle[63] ^= 1;'),
    Shim('the list is changed with a refusal', ('weigh',), 'if (a.kind == HEMTALUQ_REFUSED && cycle_length) cycle[0] ^= 1;'),
    Shim('the entry behind the cycle is changed', ('weigh',), 'if (a.kind == HEMTALUQ_CYCLE && a.rows < cycle_length) cycle[a.rows] ^= 1;'),
    Shim('a cycle has a row too few', ('weigh',), 'if (a.kind == HEMTALUQ_CYCLE) a.rows--;'),
    Shim('F stands in the answer that shows a cycle', ('weigh',), 'if (a.kind == HEMTALUQ_CYCLE) a.base = 1;'),
    Shim('n * w stands in the answer that refuses', ('weigh',), 'if (a.kind == HEMTALUQ_REFUSED) a.per_doubling = 1;'),
    Shim('G and n * w are exchanged', ('weigh',), 'uint64_t g = a.per_progress;\n    a.per_progress = a.per_doubling;\n    a.per_doubling = g;'),
    Shim('n * w is one too high', ('weigh',), 'if (a.kind == HEMTALUQ_PASSED) a.per_doubling++;'),
]
# How bench/peer.c judges g and d.
JUDGED_G, JUDGED_D = 'if (g > 1000000) FAULT(21, count);\n    ', 'if (d > 1000000) FAULT(21, count + 1);\n    '
QUOTING = [
    Edit('a content may be 1,000,001', ('quote',), 'contents[i] > 1000000', 'contents[i] > 1000001'),
    Edit('the place of g is 0', ('quote',), 'FAULT(21, count)', 'FAULT(21, 0)'),
    Edit('g may be 1,000,001', ('quote',), 'if (g > 1000000)', 'if (g > 1000001)'),
    Edit('d may be 1,000,001', ('quote',), 'if (d > 1000000)', 'if (d > 1000001)'),
    Edit('d may be 999,999 at most', ('quote',), 'if (d > 1000000)', 'if (d >= 1000000)'),
    Edit('d is not judged', ('quote',), JUDGED_D, ''),
    Edit('d is judged before g', ('quote',), JUDGED_G + JUDGED_D, JUDGED_D + JUDGED_G),
    Edit('d is judged before the contents', ('quote',), 'if (count != t->types) FAULT(20, 0);\n', 'if (count != t->types) FAULT(20, 0);\n' + JUDGED_D),
    Edit('d is judged before the count of contents', ('quote',), 'if (count != t->types) FAULT(20, 0);\n', JUDGED_D + 'if (count != t->types) FAULT(20, 0);\n'),
    Edit('the place of d is that of g', ('quote',), 'FAULT(21, count + 1)', 'FAULT(21, count)'),
    Edit('the place of d is one too far', ('quote',), 'FAULT(21, count + 1)', 'FAULT(21, count + 2)'),
    Edit('the places of g and d are exchanged', ('quote',), JUDGED_G + JUDGED_D,
         JUDGED_G.replace('count', 'count + 1') + JUDGED_D.replace('count + 1', 'count')),
    Edit('d is left out', ('quote',), ' + w.per_doubling * d', ''),
    Edit('g stands for d', ('quote',), 'w.per_doubling * d', 'w.per_doubling * g'),
    Edit('d stands for g', ('quote',), 'w.per_progress * g', 'w.per_progress * d'),
    Edit('a doubling counts as a progress row', ('quote',), 'w.per_doubling * d', 'w.per_progress * d'),
    Edit('w stands for n * w in the ceiling', ('quote',), 'w.per_doubling * d', 'w.per_doubling / w.most_states * d'),
    Edit('n stands for n * w in the ceiling', ('quote',), 'w.per_doubling * d', 'w.most_states * d'),
    Edit('d is cut to 16 bits', ('quote',), 'w.per_doubling * d', 'w.per_doubling * (uint16_t)d'),
    Edit('n * w * d wraps at 2^32', ('quote',), 'w.per_doubling * d', '(uint32_t)(w.per_doubling * d)'),
    Edit('the larger of g and d counts for both', ('quote',), 'w.per_progress * g + w.per_doubling * d', '(w.per_progress + w.per_doubling) * (g > d ? g : d)'),
    Edit('W is left out', ('quote',), '* sum +', '* 0 +'),
    Edit('the first content counts for all types', ('quote',), '* contents[i];', '* contents[0];'),
    Edit('an edge equal to the ceiling does not count', ('quote',), '__builtin_clzll(a.ceiling))', '__builtin_clzll(a.ceiling - (a.ceiling > 1)))'),
    Edit('a ceiling one below an edge has the class of the edge', ('quote',), '__builtin_clzll(a.ceiling))', '__builtin_clzll(a.ceiling + 1))'),
    Edit('a ceiling of 0 has class 1', ('quote',), 'a.ceiling ? (uint32_t)(64 - __builtin_clzll(a.ceiling)) : 0', '(uint32_t)(64 - __builtin_clzll(a.ceiling | 1))'),
    Shim('42 edges', ('quote',), 'if (a.price_class > 42) a.price_class = 42;'),
    Shim('a ceiling wraps at 2^32', ('quote',), 'a.ceiling = (uint32_t)a.ceiling;'),
    Shim('21 stands for 20', ('quote',), 'if (a.number == 20) a.number = 21;'),
    Shim('the weights are judged before d', ('quote',), 'if (a.number == 21 && a.place == content_count + 1 && hemtaluq_quote('
         'file, file_length, weights, weight_count, contents, content_count, g, 0).number == 22) a.number = 22, a.place = 0;'),
    Shim('the figure stands in the answer that refuses d', ('quote',), 'if (a.number == 21 && a.place > content_count) a.ceiling = 1;'),
]
LISTING = [
    Edit('a list that is just long enough is refused', ('list',), 'l.used > out_length', 'l.used >= out_length'),
    Edit('an empty list is refused with 14 before anything is counted', ('list',), 'if (states > 24 || last - first > 48) {\n        a.number = 13;',
         'if (!out_length || states > 24 || last - first > 48) {\n        a.number = out_length ? 13 : 14;'),
    Edit('48 rows are too many', ('list',), 'last - first > 48', 'last - first > 47'),
    Edit('no such machine is refused with 13', ('list',), 'a.number = 12', 'a.number = 13'),
    Edit('a row parallel to the one before it is dropped', ('list',), 'if (t.left[k] == s) {',
         'if (t.left[k] == s && (i == l.begin[s] || l.entered[i - 1] != t.entered[k])) {'),
    Edit('self loops are dropped', ('list',), 'if (entered == l->start) {\n            if (fill) {',
         'if (entered == l->start) {\n            continue;\n            if (fill) {'),
    Edit('rows are numbered from the machine\'s first', ('list',), 'l->first + l->number[i]', 'l->number[i]'),
    Edit('a state without a row to the start is a dead end', ('list',), 'todo = live;', 'todo = 0;'),
    Edit('cycles come again from their other states', ('list',), '(2u << l->start) - 1', '1u << l->start'),
    Edit('the list is changed before it is refused with 14', ('list',), 'all_cycles(&l, &t, last, 0);',
         'if (out_length) out[0] ^= 1;\n    all_cycles(&l, &t, last, 0);'),
    Shim('the last row of a listing is another', ('list',), 'if (a.entries) out[a.entries - 1]++;'),
    Shim('the entry behind the listing is changed', ('list',), 'if (a.kind == HEMTALUQ_LISTED && a.entries < out_length) out[a.entries] ^= 1;'),
    Shim('an entry before the lent list is changed', ('list',), 'out[-1] ^= 1;'),
]
CONFIRMING = [
    Edit('repeats may be 0', ('confirm',), 'set[at + 1] < 1 || ', ''),
    Edit('repeats may be 1,000,001', ('confirm',), 'set[at + 1] > 1000000', 'set[at + 1] > 1000001'),
    Edit('the place of wrong repeats is that of the entry', ('confirm',), 'FAULT(16, at + 1)', 'FAULT(16, at)'),
    Edit('the place of a list that ends is that of the entry', ('confirm',), 'FAULT(15, length)', 'FAULT(15, at)'),
    Edit('257 entries are let by', ('confirm',), 'before == 256', 'before == 257'),
    Edit('rows of another machine are let by', ('confirm',), 'k < low || k >= high || ', ''),
    Edit('progress cycles are added', ('confirm',), ' || t->progress[k] ||', ' ||'),
    Edit('a state may be left twice', ('confirm',), ' || (seen >> state & 1)', ''),
    Edit('a walk that does not come back is a cycle', ('confirm',), 'wrong || state != start', 'wrong'),
    Edit('types taken are counted once', ('confirm',), '-= repeats', '-= 1'),
    Edit('what a row takes is not counted where it sends', ('confirm',), 'if (t->taken[k] != NO_TYPE)', 'if (t->sent[k] == NO_TYPE && t->taken[k] != NO_TYPE)'),
    Edit('what a row sends is not counted where it takes', ('confirm',), 'if (t->sent[k] != NO_TYPE)', 'if (t->taken[k] == NO_TYPE && t->sent[k] != NO_TYPE)'),
    Edit('the sum is that of type 0', ('confirm',), 'a.sum = sums[i]', 'a.sum = sums[0]'),
    Edit('a sum of zero is negative', ('confirm',), 'sums[i] < 0', 'sums[i] <= 0'),
    Shim('the type is counted from 1', ('confirm',), 'if (a.kind == HEMTALUQ_NEGATIVE) a.message_type++;'),
    Shim('the set is written to', ('confirm',), 'if (set_length) ((uint32_t *)set)[0] ^= 1;'),
]
WRITING = [
    Edit('a plant without machines is written', ('write',), 'LISTED(machines, 1, 17)', 'LISTED(machines, 0, 17)'),
    Edit('64 types are too many', ('write',), 'LISTED(types, 0, 65)', 'LISTED(types, 0, 64)'),
    Edit('65 states are let by', ('write',), 'LISTED(states, 1, 65)', 'LISTED(states, 1, 66)'),
    Edit('256 rows of a machine are let by', ('write',), 'LISTED(own, 0, 256)', 'LISTED(own, 0, 257)'),
    Edit('1,025 rows are let by', ('write',), 'rows > 1024) FAULT(24', 'rows > 1025) FAULT(24'),
    Edit('the place of too many rows is that of the states', ('write',), 'FAULT(24, at - 1)', 'FAULT(24, at - 2)'),
    Edit('the state entered may be the count of states', ('write',), 'states <= entered', 'states < entered'),
    Edit('kind 3 is refused', ('write',), 'kind >= 4', 'kind >= 3'),
    Edit('kind 4 is let by', ('write',), 'kind >= 4', 'kind >= 5'),
    Edit('a row that neither sends nor takes may have any type', ('write',), 'kind ? types : 1u', 'kind || types ? types : 1u'),
    Edit('a row that neither sends nor takes needs a type', ('write',), 'kind ? types : 1u', 'types'),
    Edit('the fourth number of kind 3 is not judged', ('write',), 'kind ? types : 1u', 'kind == 3 ? 65536 : kind ? types : 1u'),
    Edit('kind 3 needs no types', ('write',), 'kind ? types : 1u', 'kind == 3 && !types ? 1u : kind ? types : 1u'),
    Edit('progress may be 2', ('write',), 'progress >= 2', 'progress >= 3'),
    Edit('the sixth number is not judged', ('write',), 'kind == 3 ? types : 1u', '65536'),
    Edit('the sixth number of kind 3 may be the count of types', ('write',), 'kind == 3 ? types : 1u', 'kind == 3 ? types + 1 : 1u'),
    Edit('the sixth number may be a type for kind 1', ('write',), 'kind == 3 ? types : 1u', 'kind & 1 ? types : 1u'),
    Edit('the sixth number may be a type for kind 2', ('write',), 'kind == 3 ? types : 1u', 'kind & 2 ? types : 1u'),
    Edit('the sixth number of kind 3 must be 0', ('write',), 'kind == 3 ? types : 1u', '1u'),
    Edit('the sixth number is judged before the fifth', ('write',), 'JUDGED(0, 2);',
         'if (at + 1 < count && numbers[at + 1] >= sent_end(numbers[at - 2], types)) FAULT(24, at + 1);\n    JUDGED(0, 2);'),
    Edit('the fifth number is judged before the fourth', ('write',), 'JUDGED(0, type_end(numbers[at - 1], types));',
         'if (at + 1 < count && numbers[at + 1] >= 2) FAULT(24, at + 1);\n    JUDGED(0, type_end(numbers[at - 1], types));'),
    Edit('a missing sixth number gets 24', ('write',), 'at < count ? 24 : 23', '24'),
    Edit('a wrong sixth number gets 23', ('write',), 'at < count ? 24 : 23', '23'),
    Edit('the state left is judged by its low byte', ('write',), 'unsigned left = numbers[at], entered', 'unsigned left = (uint8_t)numbers[at], entered'),
    Edit('a missing number has place 0', ('write',), 'if (at >= count) FAULT(23, at);', 'if (at >= count) FAULT(23, 0);'),
    Edit('a list that goes on is let by', ('write',), 'if (at < count) FAULT(23, at);', ''),
    Edit('the place of a list that goes on is its end', ('write',), 'if (at < count) FAULT(23, at);', 'if (at < count) FAULT(23, count);'),
    Edit('the state left is compared with the state entered before', ('write',), 'implied = left;', 'implied = entered;'),
    Edit('the state that the last row of another machine leaves is taken over', ('write',), 'unsigned implied = 0;',
         'static unsigned implied;\n        if (m == 0) implied = 0;'),
    Edit('the state left is always written', ('write',), '(left != implied) | (entered != left) << 1 | kind << 2 | progress << 4);\n'
         '            *put = (uint8_t)left;\n            put += left != implied;',
         '1 | (entered != left) << 1 | kind << 2 | progress << 4);\n            *put = (uint8_t)left;\n            put++;'),
    Edit('the state entered is always written', ('write',), '(entered != left) << 1 | kind << 2 | progress << 4);\n            *put = (uint8_t)left;\n'
         '            put += left != implied;\n            *put = (uint8_t)entered;\n            put += entered != left;',
         '2 | kind << 2 | progress << 4);\n            *put = (uint8_t)left;\n            put += left != implied;\n'
         '            *put = (uint8_t)entered;\n            put++;'),
    Edit('a type that is sent is taken', ('write',), 'kind << 2 | progress', '(kind % 3 ? 3 - kind : kind) << 2 | progress'),
    Edit('the types of kind 3 are exchanged', ('write',), '(kind == 3 ? sent : type);\n            put += kind & 1;\n            *put = (uint8_t)type;',
         'type;\n            put += kind & 1;\n            *put = (uint8_t)(kind == 3 ? sent : type);'),
    Edit('kind 3 writes the type taken twice', ('write',), 'kind == 3 ? sent : type', 'type'),
    Edit('the map byte of kind 3 lacks bit 2', ('write',), 'kind << 2 | progress', '(kind == 3 ? 2 : kind) << 2 | progress'),
    Edit('kind 3 is written as kind 1', ('write',), 'at += 6;', 'at += 6;\n            if (kind == 3) kind = 1, type = sent;'),
    Edit('kind 3 is written as kind 2', ('write',), 'at += 6;', 'at += 6;\n            if (kind == 3) kind = 2;'),
    Edit('kind 3 with one type is written as kind 0', ('write',), 'at += 6;', 'at += 6;\n            if (kind == 3 && type == sent) kind = 0;'),
    Edit('progress is not written', ('write',), ' | progress << 4', ''),
    Edit('a buffer that is one byte too short is let by', ('write',), 'length > out_length', 'length > out_length + 1'),
    Edit('a buffer that is just long enough is refused', ('write',), '!fault.number && length > out_length', '!fault.number && length >= out_length'),
    Edit('the place of a short buffer is its length', ('write',), 'fault.number = 25;', 'fault.number = 25, fault.place = out_length;'),
    Edit('a short buffer gets the first bytes of the file', ('write',), 'fault.number = 25;', 'fault.number = 25, memcpy(out, file, out_length);'),
    Edit('the length is one less', ('write',), 'a.length = length;', 'a.length = length - 1;'),
    Shim('a short buffer is refused before a list that goes on', ('write',), 'uint8_t other[HEMTALUQ_LONGEST_FILE];\n'
         '    size_t room = out_length < sizeof other ? out_length : sizeof other;\n'
         '    if (a.number == 23 && a.place < number_count && hemtaluq_write(numbers, a.place, other, room).number == 25) a.number = 25, a.place = 0;'),
    Shim('a missing number is refused before the wrong one that stands last', ('write',),
         'if (a.number == 24 && a.place + 1 == number_count) a.number = 23, a.place = number_count;'),
    Shim('the byte behind the file is changed', ('write',), 'if (a.kind == HEMTALUQ_WROTE && a.length < out_length) out[a.length] ^= 1;'),
    Shim('a byte before the buffer is changed', ('write',), 'out[-1] ^= 1;'),
    Shim('the buffer is changed with a refusal', ('write',), 'if (a.kind == HEMTALUQ_REFUSED && out_length) out[0] ^= 1;'),
    Shim('the length stands in the answer that refuses', ('write',), 'if (a.number == 25) a.length = 1;'),
    Shim('the list of numbers is written to', ('write',), 'if (number_count) ((uint16_t *)numbers)[0] ^= 1;'),
]
SHARED = [
    Shim('the place of a fault is one too low', ('read',), 'if (a.place) a.place--;'),
    Shim('the count of rows stands in the answer that refuses', ('read',), 'if (a.kind == HEMTALUQ_REFUSED) a.rows = 1;'),
]
# How bench/peer.c compares a row with the earlier ones of its machine, in a file and in a list.
FILE_KEY, LIST_KEY = 'key_of(left, entered, sent, taken, map >> 4)', 'key_of(left, entered, type, sent, progress | kind << 1)'
FILE_TWIN, LIST_TWIN = 'is_twin(keys, rows - first, &states_left, left, %s)' % FILE_KEY, 'is_twin(keys, i, &states_left, left, %s)' % LIST_KEY


def in_file(name, new, made=calls.FILE_CALLS):
    return Edit(name, made, 'if (%s) FAULT(26, start);' % FILE_TWIN, new.replace('IS_TWIN', FILE_TWIN))


def in_list(name, new):
    return Edit(name, ('write',), 'if (%s) FAULT(26, at);' % LIST_TWIN, new.replace('IS_TWIN', LIST_TWIN))


def keyed(what, file_key, list_key):
    """Two errors: the rows of a file are compared by another key, and those of a list."""
    return [Edit(what, calls.FILE_CALLS, FILE_KEY, 'key_of(%s)' % file_key), Edit(what + ', in a list', ('write',), LIST_KEY, 'key_of(%s)' % list_key)]


TWINS = [
    Edit('a row is compared with the row before it only', calls.CALLS, 'is_in(keys, n, key)) return', 'n && keys[n - 1] == key) return'),
    Edit('a row is compared with the first row only', calls.CALLS, 'is_in(keys, n, key)) return', 'n && keys[0] == key) return'),
    Edit('the first row of a machine is not compared', calls.CALLS, 'unsigned i = 0;\n    for (; i + 8', 'unsigned i = 1;\n    for (; i + 8'),
    Edit('of the rows before only 8, 16, ... are compared', calls.CALLS, 'for (; i < n; i++) seen |= keys[i] == key;', ''),
    Edit('of eight rows four are compared', calls.CALLS, ' | (four)(b == wanted)', ''),
    Edit('the 255th row of a machine is not compared', calls.CALLS, 'if (*states >> left & 1 &&', 'if (n < 254 && *states >> left & 1 &&'),
    Edit('rows that leave states from 32 on are let by', calls.CALLS, '*states >> left & 1', '(*states & 0xffffffff) >> left & 1'),
    Edit('only the state that the row before leaves is marked', calls.CALLS, '*states |= (uint64_t)1 << left;', '*states = (uint64_t)1 << left;'),
    Edit('a row is not compared with progress rows', calls.CALLS, 'keys[n] = key;', 'keys[n] = key >> 26 & 1 ? UINT32_MAX : key;'),
    *keyed('the state left is not compared', '0, entered, sent, taken, map >> 4', '0, entered, type, sent, progress | kind << 1'),
    *keyed('the state entered is not compared', 'left, 0, sent, taken, map >> 4', 'left, 0, type, sent, progress | kind << 1'),
    *keyed('progress is not compared', 'left, entered, sent, taken, 0', 'left, entered, type, sent, kind << 1'),
    *keyed('a type that is sent equals the same type taken', 'left, entered, sent < taken ? sent : taken, 0, map >> 4',
           'left, entered, type, sent, progress | (kind > 0) << 1'),
    *keyed('type 0 equals no type', 'left, entered, sent % 64, taken % 64, map >> 4', 'left, entered, type, sent, progress | (type ? kind : 0) << 1'),
    *keyed('a row that takes and sends equals one with these types exchanged',
           'left, entered, (map & 12) == 12 && taken < sent ? taken : sent, (map & 12) == 12 && taken < sent ? sent : taken, map >> 4',
           'left, entered, type < sent ? type : sent, type < sent ? sent : type, progress | kind << 1'),
    *keyed('a row that takes and sends one type equals one that does neither',
           'left, entered, sent == taken ? 0 : sent, sent == taken ? 0 : taken, map >> 4 | (sent == taken) << 1',
           'left, entered, kind == 3 && type == sent ? 0 : type, kind == 3 && type == sent ? 0 : sent, '
           'progress | (kind == 3 && type == sent ? 0 : kind) << 1'),
    *keyed('a row that takes and sends type 0 equals one that only takes', 'left, entered, map & 8 && !sent ? NO_TYPE : sent, taken, map >> 4',
           'left, entered, type, sent, progress | (kind == 3 && !sent ? 2 : kind) << 1'),
    Edit('the type sent is not compared', calls.FILE_CALLS, FILE_KEY, 'key_of(left, entered, 0, taken, map >> 4)'),
    Edit('the type taken is not compared', calls.FILE_CALLS, FILE_KEY, 'key_of(left, entered, sent, 0, map >> 4)'),
    Edit('types 32 and more equal those from 0 on', calls.FILE_CALLS, FILE_KEY, 'key_of(left, entered, sent & 95, taken & 95, map >> 4)'),
    Edit('the type is not compared, in a list', ('write',), LIST_KEY, 'key_of(left, entered, 0, sent, progress | kind << 1)'),
    Edit('the sixth number is not compared', ('write',), LIST_KEY, 'key_of(left, entered, type, 0, progress | kind << 1)'),
    Edit('only rows with the same map byte are compared', calls.FILE_CALLS, FILE_KEY, 'key_of(left, entered, sent, taken, map)'),
    in_file('rows that equal an earlier one are let by where the file is only read', 'if (keep && IS_TWIN) FAULT(26, start);', ('read',)),
    in_file('they are let by where the rows are kept', 'if (!keep && IS_TWIN) FAULT(26, start);', calls.FILE_CALLS[1:]),
    in_file('they are let by in the last machine', 'if (IS_TWIN && m + 1 < machines) FAULT(26, start);'),
    in_file('rows of earlier machines are compared as well', 'static uint32_t all[1024];\n            static uint64_t any;\n            any = rows ? any : 0;\n'
            '            if (is_twin(all, rows, &any, left, %s)) FAULT(26, start);' % FILE_KEY),
    in_file('the place is behind the row', 'if (IS_TWIN) FAULT(26, at);'),
    in_file('the place is that of the row\'s last byte', 'if (IS_TWIN) FAULT(26, at - 1);'),
    in_file('the place is that of the earlier row', 'static size_t begins[1024];\n            begins[rows] = start;\n            if (IS_TWIN) {\n'
            '                unsigned k = 0;\n                while (keys[k] != %s) k++;\n                FAULT(26, begins[first + k]);\n            }' % FILE_KEY),
    in_file('a byte that is missing behind the row comes first', 'if (IS_TWIN) {\n                if (rows + 1 < end) NEED(at);\n'
            '                FAULT(26, start);\n            }'),
    in_file('the map byte behind the row comes first', 'if (IS_TWIN) {\n                if (rows + 1 < end && at < length && f[at] >= 32) FAULT(4, at);\n'
            '                FAULT(26, start);\n            }'),
    in_file('bytes that remain come first', 'if (IS_TWIN) {\n                if (rows + 1 == end && m + 1 == machines && at < length) FAULT(8, at);\n'
            '                FAULT(26, start);\n            }'),
    Edit('a row is compared before its state entered is judged', calls.FILE_CALLS, 'if (entered >= states) FAULT(5, at);',
         'if (!(map & 12) && is_in(keys, rows - first, key_of(left, entered % 64, NO_TYPE, NO_TYPE, map >> 4))) FAULT(26, start);\n'
         '                if (entered >= states) FAULT(5, at);'),
    Edit('a row is compared before the type sent is judged', calls.FILE_CALLS, 'if (sent >= types) FAULT(6, at);',
         'if (!(map & 8) && is_in(keys, rows - first, key_of(left, entered, sent % 64, NO_TYPE, map >> 4))) FAULT(26, start);\n'
         '                if (sent >= types) FAULT(6, at);'),
    Edit('a row is compared before the type taken is judged', calls.FILE_CALLS, 'if (taken >= types) FAULT(6, at);',
         'if (is_in(keys, rows - first, key_of(left, entered, sent, taken % 64, map >> 4))) FAULT(26, start);\n'
         '                if (taken >= types) FAULT(6, at);'),
    Edit('a row is compared before the type taken is there', calls.FILE_CALLS, 'NEED(at);\n                taken',
         'if (at >= length && is_in(keys, rows - first, key_of(left, entered, sent, NO_TYPE, map >> 4))) FAULT(26, start);\n'
         '                NEED(at);\n                taken'),
    in_list('rows that equal an earlier one are written', 'if (0 && IS_TWIN) FAULT(26, at);'),
    in_list('rows of earlier machines are compared as well, in a list', 'static uint32_t all[1024];\n            static uint64_t any;\n'
            '            any = rows - own + i ? any : 0;\n            if (is_twin(all, rows - own + i, &any, left, %s)) FAULT(26, at);' % LIST_KEY),
    in_list('the place is that of the row\'s last number', 'if (IS_TWIN) FAULT(26, at + 5);'),
    in_list('the place is that of the number behind the row', 'if (IS_TWIN) FAULT(26, at + 6);'),
    in_list('the place is that of the earlier row, in a list', 'if (IS_TWIN) {\n                unsigned k = 0;\n                while (keys[k] != %s) k++;\n'
            '                FAULT(26, at - 6 * (i - k));\n            }' % LIST_KEY),
    in_list('a number that is missing behind the row comes first', 'if (IS_TWIN) {\n                if (at + 6 == count && i + 1 < own) FAULT(23, count);\n'
            '                FAULT(26, at);\n            }'),
    in_list('a list that goes on comes first', 'if (IS_TWIN) {\n                if (at + 6 < count && i + 1 == own && m + 1 == machines) FAULT(23, at + 6);\n'
            '                FAULT(26, at);\n            }'),
    *(Edit('a row is compared before its %s is judged' % what, ('write',), 'if (left >= states || states <= entered',
           'if (left < states && entered < states && kind < 4 && type < type_end(kind, types) && %s) FAULT(26, at);\n'
           '            if (left >= states || states <= entered' % early)
      for what, early in (
          ('progress', 'sent < sent_end(kind, types) && is_in(keys, i, key_of(left, entered, type, sent, (progress & 1) | kind << 1))'),
          ('sixth number', 'progress < 2 && is_in(keys, i, key_of(left, entered, type, kind == 3 ? sent % 64 : 0, progress | kind << 1))'))),
    Edit('an empty buffer comes first', ('write',), 'if (!fault.number && length > out_length)',
         'if (fault.number == 26 ? !out_length : !fault.number && length > out_length)'),
    Shim('a short list comes first', ('weigh',), 'if (a.number == 26 && cycle_length < 64) a.number = 11, a.place = 0;'),
    Shim('a wrong count of contents comes first', ('quote',), 'if (a.number == 26 && content_count != file[1]) a.number = 20, a.place = 0;'),
    Shim('that there is no such machine comes first', ('list',), 'if (a.number == 26 && machine >= file[0]) a.number = 12, a.place = 0;'),
    Shim('an empty set comes first', ('confirm',), 'if (a.number == 26 && !set_length) a.number = 18, a.place = 0;'),
    Shim('another number stands for 26', ('read',), 'if (a.number == 26) a.number = 19;'),
    Shim('the place of 26 is 0', ('confirm',), 'if (a.number == 26) a.place = 0;'),
    Shim('the lent list is changed with 26', ('weigh',), 'if (a.number == 26 && cycle_length) cycle[0] ^= 1;'),
    Shim('the lent listing is changed with 26', ('list',), 'if (a.number == 26 && out_length) out[0] ^= 1;'),
    Shim('the buffer is changed with 26', ('write',), 'if (a.number == 26 && out_length) out[0] ^= 1;'),
]
ERRORS = READING + WEIGHING + QUOTING + LISTING + CONFIRMING + WRITING + SHARED + TWINS

# The arguments of the calls, for the shims.
ARGUMENTS = {
    'read': 'const uint8_t *file, size_t file_length',
    'weigh': 'const uint8_t *file, size_t file_length, const uint16_t *weights, size_t weight_count, uint16_t *cycle, size_t cycle_length',
    'quote': 'const uint8_t *file, size_t file_length, const uint16_t *weights, size_t weight_count, '
             'const uint32_t *contents, size_t content_count, uint32_t g, uint32_t d',
    'list': 'const uint8_t *file, size_t file_length, uint32_t machine, uint16_t *out, size_t out_length',
    'confirm': 'const uint8_t *file, size_t file_length, const uint32_t *set, size_t set_length',
    'write': 'const uint16_t *numbers, size_t number_count, uint8_t *out, size_t out_length',
}
# Before the driver: the call is another one there.
SHIM = '''#include "hemtaluq.h"
static hemtaluq_{call}_answer wrong_{call}({arguments}) {{
    hemtaluq_{call}_answer a = hemtaluq_{call}({names});
    {statement}
    return a;
}}
#undef hemtaluq_{call}
#define hemtaluq_{call} wrong_{call}
'''


def changed(text, old, new):
    """A text with one place changed, which must be one place."""
    if text.count(old) != 1:
        raise SystemExit('evidence: bench/peer.c has %r %d times' % (old, text.count(old)))
    return text.replace(old, new)


def peer_source(*changes):
    """The calls in C under the names of the library, with pieces of text changed. The header has a watcher's calls over exports with a revision."""
    with open(PEER, encoding='utf-8') as source:
        text = source.read()
    for old, new in changes:
        text = changed(text, old, new)
    text = re.sub(r'peer_(watch_[a-z]+)', r'hemtaluq_\1_v1', text)
    return text.replace('peer_', 'hemtaluq_').replace('#include "peer.h"', '#include "hemtaluq.h"')


def shim_source(call, statement):
    """The driver with a statement after each call of one kind."""
    names = ', '.join(a.split()[-1].lstrip('*') for a in ARGUMENTS[call].split(','))
    return SHIM.format(call=call, arguments=ARGUMENTS[call], names=names, statement=statement) + calls.DRIVER


def linked(folder, name, source, *last):
    """A program from a source and what is linked with it. An error may leave something unused, so there are no warnings."""
    path = os.path.join(folder, name)
    with open(path + '.c', 'w', encoding='utf-8') as out:
        out.write(source)
    calls.run(['gcc', '-w', '-Idist', path + '.c', *last, '-o', path])
    return path


def build_one(folder, number, error):
    name = 'wrong%d' % number
    if isinstance(error, Edit):
        return linked(folder, name, peer_source((error.old, error.new)), os.path.join(folder, 'driver.o'))
    return linked(folder, name, shim_source(error.calls[0], error.statement), 'dist/libhemtaluq.a')


def build(folder):
    """The program with the unchanged calls in C, and a wrong program for each error."""
    driver = os.path.join(folder, 'driver')
    with open(driver + '.c', 'w', encoding='utf-8') as out:
        out.write(calls.DRIVER)
    calls.run(['gcc', '-O2', '-Idist', '-c', driver + '.c', '-o', driver + '.o'])
    with ThreadPoolExecutor(2) as pool:
        programs = list(pool.map(lambda pair: build_one(folder, *pair), enumerate(ERRORS)))
    return linked(folder, 'peer', peer_source(), driver + '.o'), list(zip(ERRORS, programs))
