"""Part A: the six calls held against the independent implementation of evidence_independent.py, through the static library.

- plants of many shapes (evidence_plants.py), each put to all six calls, but to no listing where cycles are too many to go through;
- every truncation of a set of files, every other value of each of their bytes, every byte taken out, and bytes put in;
- files and lists of numbers with a row that equals an earlier one of its machine, and with rows that nearly do (evidence_twins.py);
- the edges of the older tests: the longest file, 1,024 and 1,025 rows, 256 and 257 entries, the largest ceiling;
- the ceilings one below, at and one above each edge of the price classes;
- for a set of plants every length of each list: weights, contents, the two lent lists, the cycle set cut off anywhere;
- lists of numbers, cut off and damaged, and buffers of many lengths (evidence_lists.py).

For every file that reads as a plant, but for those of limits and lengths, the plant's list is written: what was written reads as the same
rows, is no longer than the file, and gets the same answers. The other parts have the lists of their plants written by `write_anew`.

Errors are planted in the independent implementation, and wrong programs stand in for the library (evidence_product.py): the
comparison must find each.
"""
import itertools
import random
import sys

import cycle_sets
import evidence_calls as calls
import evidence_independent
import evidence_lists
import evidence_plants as plants
import evidence_product
import evidence_twins
import listing
import quoting
import reading
from evidence_independent import Refused, TooMany

PLANTS = 20500
# The planted errors, and the calls that must show them.
ERRORS = [
    (calls.FILE_CALLS, evidence_independent.READING_ERRORS),
    (('weigh',), evidence_independent.WEIGHING_ERRORS + evidence_independent.BOTH_ERRORS),
    (('quote',), evidence_independent.QUOTING_ERRORS),
    (('list',), evidence_independent.LISTING_ERRORS),
    (('confirm',), evidence_independent.CONFIRMING_ERRORS + evidence_independent.BOTH_ERRORS),
    (('write',), evidence_independent.WRITING_ERRORS),
]
TWIN_ERRORS = [(calls.FILE_CALLS, evidence_independent.TWIN_ERRORS), (('write',), evidence_independent.LISTED_TWIN_ERRORS)]
INDEPENDENT = evidence_independent.Independent()


# ---- the comparison

def owed(other, call, plant, q, got):
    """The answer that is owed; of the cycles that may be shown, the one that was, if it may."""
    if call == 'read':
        return other.read(plant)
    if call == 'quote':
        return other.quote(plant, q.weights, q.contents, q.g, q.d)
    if call == 'confirm':
        return other.confirm(plant, q.set)
    if call == 'list':
        return other.list(plant, q.machine, q.list_room) + ' kept'
    if call == 'write':
        return other.write(q.numbers, q.write_room) + ' kept'
    answer = other.weigh(plant, q.weights, q.cycle_room)
    if answer is not None:
        return answer + ' kept'
    first, *rows, last = got.split()
    shown = first == 'cycle' and last == 'kept' and all(x.isdigit() for x in rows) and other.shows(plant, q.weights, [int(x) for x in rows])
    return got if shown else 'a shortest quiet simple cycle of weight zero or more, the rest kept'


def disagreement(other, q, got):
    """The first call whose answer is not the one owed, or None."""
    plant = fault = None
    try:
        plant = other.plant(q.file) if set(q.calls) & set(calls.FILE_CALLS) else None
    except Refused as refused:
        fault = refused
    for call in q.calls:
        try:
            if fault and call != 'write':
                raise fault
            expected = owed(other, call, plant, q, got[call])
        except Refused as refused:
            expected = str(refused) + (' kept' if call in ('weigh', 'list', 'write') else '')
        except TooMany:
            if other is INDEPENDENT:
                raise
            continue
        if got[call] != expected:
            return '%s: %s, but owed is %s' % (call, got[call][:300], expected[:300])
    return None


def compare(part, program, requests):
    got = calls.answers(program, requests)
    for q, answer in zip(requests, got):
        wrong = disagreement(INDEPENDENT, q, answer)
        if wrong:
            sys.exit('evidence: %s: file %s, weights %s, contents %s, g %d, d %d, machine %d, rooms %d, %d and %d, set %s, list %s: %s'
                     % (part, q.file.hex(' '), q.weights, q.contents, q.g, q.d, q.machine, q.cycle_room, q.list_room, q.write_room, q.set, q.numbers, wrong))
    return list(zip(requests, got))


# ---- requests

def room_for(rng, plant, machine):
    """A room about the entries needed, and which calls are made: no listing where cycles are too many to go through."""
    try:
        return max(0, len(INDEPENDENT.entries(plant, machine)) + rng.choice([-1, 0, 0, 1, 5])), calls.CALLS
    except Refused:
        return rng.choice([0, 3]), calls.CALLS
    except TooMany:
        return 0, tuple(c for c in calls.CALLS if c != 'list')


def set_for(rng, plant):
    """Entries of cycles, most of them quiet, each turned to begin anywhere; at times spoilt."""
    found = []
    for m in rng.sample(range(len(plant.states)), min(3, len(plant.states))):
        try:
            found += [(m, c) for c in (INDEPENDENT.quiet_cycles(plant, m) if rng.random() < 0.9 else INDEPENDENT.cycles(plant, m)) if len(c) <= 64]
        except TooMany:
            continue
    numbers = []
    for _ in range(rng.choice([1, 1, 2, 3, 6])):
        if found:
            m, c = rng.choice(found)
            turn = rng.randrange(len(c))
            numbers += [m, rng.choice([1, 1, 2, 3, 1000000]), len(c)] + list(c[turn:] + c[:turn])
    return cycle_sets.spoilt(rng, numbers) if rng.random() < 0.3 else numbers


def request_for(rng, data):
    """All calls on a file that reads as a plant."""
    plant = INDEPENDENT.plant(data)
    machine = rng.choice([rng.randrange(len(plant.states))] * 30 + [len(plant.states), 16, 4294967295])
    room, made = room_for(rng, plant, machine)
    g, d = (rng.choice([0, 1, 2, rng.randrange(1000), 1000000] * 10 + [1000001, 4294967295]) for _ in range(2))
    return calls.request(data, plants.weights_for(rng, plant.types), rng.choice([64] * 40 + [63, 65, 70, 0]),
                         plants.contents_for(rng, plant.types), g, d, machine, room, set_for(rng, plant), INDEPENDENT.numbers(plant), len(data), made)


def shaped(rng, count):
    """Plants of many shapes, no file twice."""
    makers = [maker for maker, share in plants.SHAPES for _ in range(share)]
    seen, found = set(), []
    for i in itertools.count():
        data = plants.plant_file(rng, *makers[i * 7919 % len(makers)](rng))
        if data not in seen:
            seen.add(data)
            found.append(request_for(rng, data))
        if len(found) == count:
            return found


def edges():
    """Files, sets and figures at the limits, most of them from the older tests."""
    for data in itertools.chain(reading.edges(), reading.shapes()):
        yield calls.request(data, calls=('read', 'weigh', 'quote', 'confirm'))
    for data, numbers in itertools.islice(cycle_sets.cases(random.Random(0)), 13):
        yield calls.request(data, set=numbers, calls=('confirm',))
    for data, weights, contents, g, d in quoting.limits():
        yield calls.request(data, weights, contents=contents, g=g, d=d, calls=('weigh', 'quote'))
    for data, machine, before in itertools.islice(listing.cases(random.Random(0)), 30):
        yield calls.request(data, machine=machine, list_room=len(before), calls=('list',))
    for data, weights, contents, g, d in map(quoting.input_with_ceiling, quoting.edge_ceilings()):
        yield calls.request(data, weights, contents=contents, g=g, d=d, calls=('quote',))
    for last in (3, 4, 5, 6, 254, 255):
        yield calls.request(reading.counted(255, 255, 255, 255, last))
    for machines in plants.detours():
        yield calls.request(plants.plant_file(random.Random(0), 2, machines), [1, 2], calls=('weigh',))
    for weight in (999, 1000, 1001):
        yield calls.request(plants.PLANT_A, [weight, 1], contents=[0, 0], calls=('weigh', 'quote'))


def damaged_files(long):
    """Files for damage, each with weights that pass or fail and a set, so that the calls that get a file have something to do."""
    rng = random.Random(11)
    yield plants.PLANT_A, [2, 1]
    yield plants.PLANT_B, [2, 1]
    yield bytes([1, 0, 1, 1, 0]), []
    yield bytes([1, 64, 3, 3, 3, 0, 1, 2, 2, 8, 63]), [1] * 64
    yield bytes([1, 2, 2, 3, 15, 0, 1, 0, 1, 15, 1, 0, 0, 0, 28, 1, 1]), [1, 2]
    for maker, count in ((plants.small, 3), (plants.passing, 4), (plants.rings, 2), (plants.first_not_largest, 2), (plants.many_machines, 1)):
        while count:
            data = plants.plant_file(rng, *maker(rng))
            if 15 <= len(data) <= (150 if long else 50):
                count -= 1
                yield data, [t + 1 for t in range(data[1])]


def variants(data):
    """Every truncation, every other value of each byte, every byte taken out; some bytes put in."""
    for i in range(len(data)):
        yield data[:i]
        yield data[:i] + data[i + 1:]
        for b in range(256):
            if b != data[i]:
                yield data[:i] + bytes([b]) + data[i + 1:]
    for i in range(len(data) + 1):
        for b in (0, 1, 3, 16, 64, 255):
            yield data[:i] + bytes([b]) + data[i:]


def damaged(long):
    rng = random.Random(12)
    for data, weights in damaged_files(long):
        plant = INDEPENDENT.plant(data)
        numbers = set_for(rng, plant)
        contents = [rng.randrange(5) for _ in range(plant.types)]
        for i, variant in enumerate(variants(data)):
            machine = i % len(plant.states)
            listed, made = [], calls.FILE_CALLS
            try:
                other = INDEPENDENT.plant(variant)
                listed, made = INDEPENDENT.numbers(other), calls.CALLS
                machine_room = len(INDEPENDENT.entries(other, machine)) - (i % 3 == 0)
            except Refused:
                machine_room = i % 8
            except TooMany:
                machine_room, made = 0, ('read', 'weigh', 'quote', 'confirm', 'write')
            yield calls.request(variant, weights, 64, contents, i % 4, i % 3, machine, max(0, machine_room), numbers, listed, len(variant), made)


def twins(rng):
    """Files with twins and near twins: all calls where the file reads as a plant, else those that get a file. What these get besides is then wrong
    at times, which must not show: a fault of the file comes first."""
    for data in dict.fromkeys(evidence_twins.files(rng)):
        try:
            yield request_for(rng, data)
        except Refused:
            types, more = data[1], rng.choice([0, 0, 1])
            yield calls.request(data, [1] * types, 64 - more, [1] * (types + more), 1, 1, 16 * more, 4, [0, 1, 1, 0][4 * more:])


def longest_truncations():
    """Every truncation of a longest file: 16 machines, 64 states each, 1,024 rows with all their fields."""
    data = bytes([16, 64] + [x for m in range(16) for x in [64, 64] + [x for k in range(64) for x in (15, k, (k + 1) % 64, 5 * k % 64, (k + m) % 64)]])
    for i in range(len(data) + 1):
        yield calls.request(data[:i], [1] * 64, contents=[1] * 64, set=[0, 1, 64] + list(range(64)))


def lengths(rng, count):
    """Every length of each list that a call gets, for some plants."""
    for _ in range(count):
        data = plants.plant_file(rng, *rng.choice([plants.small, plants.passing, plants.rings])(rng))
        q = request_for(rng, data)._replace(cycle_room=64)
        types = data[1]
        q = q._replace(weights=[t + 1 for t in range(types)], contents=[1] * types, g=1, d=1)
        for room in range(71):
            yield q._replace(cycle_room=room, calls=('weigh',))
        for k in range(types + 3):
            yield q._replace(weights=[1] * k, calls=('weigh', 'quote'))
            yield q._replace(contents=[1] * k, calls=('quote',))
        for k in range(len(q.set)):
            yield q._replace(set=q.set[:k], calls=('confirm',))
        if 'list' in q.calls and q.machine < data[0]:
            for room in range(min(q.list_room + 8, 400)):
                yield q._replace(list_room=room, calls=('list',))


# ---- what was written

def determined(got):
    """What of answers is the same for all files of a plant: of a cycle that is shown the count of its rows."""
    return {c: len(answer.split()) if answer.startswith('cycle') else answer for c, answer in got.items() if c != 'write'}


def read_again(program, pairs):
    """The list of each plant was written; that file is no longer, reads as the same rows and gets the same answers. How many files are shorter."""
    requests = []
    for q, got in pairs:
        first, *numbers, last = got['write'].split()
        data = bytes(int(x) for x in numbers) if (first, last) == ('wrote', 'kept') else None
        if data is None or len(data) > len(q.file) or INDEPENDENT.plant(data) != INDEPENDENT.plant(q.file):
            sys.exit('evidence: written: file %s, its list %s: %s' % (q.file.hex(' '), q.numbers, got['write'][:300]))
        requests.append(q._replace(file=data, calls=[c for c in q.calls if c != 'write']))
    for new, got, (q, before) in zip(requests, calls.answers(program, requests), pairs):
        if determined(got) != determined(before):
            sys.exit('evidence: written: file %s, written anew %s: %s, but before %s' % (q.file.hex(' '), new.file.hex(' '), got, before))
    return sum(len(new.file) < len(q.file) for new, (q, _) in zip(requests, pairs))


def write_anew(part, program, files):
    """The list of the plant of each file, written and read again: how many there are, and how many of them in fewer bytes."""
    requests = [calls.request(data, numbers=INDEPENDENT.numbers(INDEPENDENT.plant(data)), write_room=len(data), calls=('read', 'write'))
                for data in dict.fromkeys(files)]
    pairs = compare(part, program, requests)
    return dict(written_anew=len(pairs), written_shorter=read_again(program, pairs))


# ---- the part

def catches(all_errors, pairs):
    """How many planted errors the comparison finds, each by the calls that it is planted for; all of them must be found."""
    found = 0
    for made, errors in all_errors:
        mine = [(q._replace(calls=[c for c in q.calls if c in made]), got) for q, got in pairs if set(q.calls) & set(made)]
        for name, other in errors:
            if not any(disagreement(other, q, got) for q, got in mine):
                sys.exit('evidence: answers: the planted error "%s" is not found' % name)
            found += 1
    return found


def asked(pairs, made):
    """The requests with the calls that are made, the library's answers to these, and what a program is given for them."""
    kept = [(q._replace(calls=[c for c in q.calls if c in made]), got) for q, got in pairs if set(q.calls) & set(made)]
    requests = [q for q, _ in kept]
    return requests, [{c: got[c] for c in q.calls} for q, got in kept], calls.stream(requests)


def finds(program, requests, known, given):
    """What the comparison finds in a program that stands in for the library, or None. The library's own answers are judged already."""
    for q, right, got in zip(requests, known, calls.answers(program, requests, given)):
        wrong = disagreement(INDEPENDENT, q, got) if got != right else None
        if wrong:
            return wrong
    return None


def product_catches(folder, pairs, twin_pairs):
    """How many wrong programs the comparison finds, each by every call that must show it; in the unchanged calls in C it finds nothing. Errors
    about twins must be found by the pairs that have them."""
    peer, wrong = evidence_product.build(folder)
    found = finds(peer, *asked(pairs + twin_pairs, calls.CALLS))
    if found:
        sys.exit('evidence: answers: bench/peer.c, unchanged: %s' % found)
    by_call = {about_twins: {call: asked(some, [call]) for call in calls.CALLS} for about_twins, some in ((False, pairs), (True, twin_pairs))}
    for error, program in wrong:
        for call in error.calls:
            if not finds(program, *by_call[error in evidence_product.TWINS][call]):
                sys.exit('evidence: answers: the error "%s", planted in the product, is not found by %s' % (error.name, call))
    return len(wrong)


def kind_of(q, call, answer):
    """What an answer is; of 21 also whether it is that of a content, of g or of d."""
    words = answer.split()
    kind = ' '.join([call, words[0]] + words[1:2] * (words[0] == 'refused'))
    if kind != 'quote refused 21':
        return kind
    return '%s for %s' % (kind, {len(q.contents): 'g', len(q.contents) + 1: 'd'}.get(int(words[2]), 'a content'))


def kinds(pairs):
    """How often each answer was met."""
    count = {}
    for q, got in pairs:
        for call, answer in got.items():
            kind = kind_of(q, call, answer)
            count[kind] = count.get(kind, 0) + 1
    return count


NEEDED = (['read counts', 'weigh passed', 'weigh cycle', 'quote ceiling', 'list listed', 'confirm confirmed', 'confirm negative', 'write wrote']
          + ['%s refused %d' % (call, k) for call in calls.FILE_CALLS for k in [*range(1, 9), 26]]
          + ['weigh refused %d' % k for k in (9, 10, 11)] + ['quote refused %s' % k for k in (9, 10, 20, '21 for a content', '21 for g', '21 for d', 22)]
          + ['list refused %d' % k for k in (12, 13, 14)] + ['confirm refused %d' % k for k in (15, 16, 17, 18)]
          + ['write refused %d' % k for k in (23, 24, 25, 26)])


def hold_met(met):
    for kind in NEEDED:
        if met.get(kind, 0) < 3:
            sys.exit('evidence: answers: %s was met %d times only' % (kind, met.get(kind, 0)))


def main(program, folder, seed, long):
    rng = random.Random(seed)
    limits = compare('limits', program, list(edges()) + list(evidence_lists.limits(INDEPENDENT)))
    whole = compare('plants', program, shaped(rng, PLANTS * (10 if long else 1)))
    harmed = compare('damage', program, list(damaged(long)) + list(longest_truncations()))
    twin = compare('twins', program, list(twins(random.Random(seed + 6))))
    lent = compare('lengths', program, list(lengths(rng, 400 if long else 90)))
    lists = compare('lists', program, list(evidence_lists.damaged([data for data, _ in damaged_files(long)], INDEPENDENT)))
    twin_lists = compare('lists with twins', program, [evidence_lists.request(*given) for given in evidence_twins.lists(random.Random(seed + 7))])
    buffers = compare('buffers', program, list(evidence_lists.lengths(random.Random(seed + 5), INDEPENDENT, 1000 if long else 200)))
    written = [pair for pair in whole + harmed + twin if 'write' in pair[0].calls]
    shorter = read_again(program, written)
    met = kinds(limits + whole + harmed + twin + lent + lists + twin_lists + buffers)
    hold_met(met)
    by_mean, some = INDEPENDENT.by_mean, limits + whole[:3000] + harmed[:5000] + lent[:500] + lists[:2000] + buffers[:500]
    found = catches(ERRORS, some) + catches(TWIN_ERRORS, twin + twin_lists)
    in_product = product_catches(folder, some, twin + twin_lists)
    counted = dict(shaped_plants=len(whole), damaged_files=len({q.file for q, _ in harmed}), twin_files=len(twin), other_lengths=len(lent),
                   damaged_lists=len({tuple(q.numbers) for q, _ in lists}), twin_lists=len({tuple(q.numbers) for q, _ in twin_lists}),
                   buffer_lengths=len(buffers), written_anew=len(written), written_shorter=shorter, judged_by_mean=by_mean,
                   planted_in_the_product=in_product, planted_in_implementations=found)
    unlisted = sum('list' not in q.calls for q, _ in whole + harmed)
    print('evidence: answers: %d plants, %d damaged files, %d files with twins or near twins (%d refused with 26), %d lists of other lengths and %d limits '
          'agree with the independent implementation (%d pass, %d show a cycle, %d machines of them judged by means; %d listings, %d left out for too '
          'many cycles); %d damaged lists of numbers, %d with twins or near twins, and %d lengths of buffers agree too; %d plants are written anew, %d of '
          'them in fewer bytes; %d errors planted there are found, and %d in the product'
          % (len(whole), counted['damaged_files'], len(twin), kinds(twin)['read refused 26'], len(lent), len(limits), met['weigh passed'], met['weigh cycle'],
             by_mean, met['list listed'], unlisted, counted['damaged_lists'], counted['twin_lists'], len(buffers), len(written), shorter, found, in_product))
    return counted, []
