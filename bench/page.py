"""The page docs/benchmarks.md, from what bench/run measured. A cause is printed only where its goal is missed."""
import textwrap

# How far whole runs lie apart. Look again when the crates have changed.
RUNS = (
    'One full run, on another machine than that of version 6, on which reading plant A alone missed its goal (1.21), and weighing had 1.32 for plant A and 1.05 for the 16 machines. The code of the six calls is that of version 6: '
    'their object has 15,419 bytes, as then, and only the version that it answers is another. With the benchmark of version 6 as it was, without the watcher, this machine had in one quick run 1.35 for reading plant A, 1.40 for weighing it, '
    'for the 16 machines 1.21 where weights pass and 1.31 for quoting, 1.27 for confirming and 1.22 for writing ten machines: so nearly all that is missed here is the machine\'s. '
    'Where 16 machines fail and none has a cycle of fewer than 64 rows, all are searched, which takes 15 times as long as to search the first.')

# Why a goal is missed: for keys of bench/run that begin with the first word. The evidence is from `perf` and from the machine
# code (`objdump -d dist/libhemtaluq.a`) of the library at the time of writing; look again when the crates have changed.
DECIDING = (
    'The decision works out the length 1 + n × weight of a row in each pass, the peer has a list of lengths: its loop has 12 instructions, 44 bytes. Where these '
    'bytes lie across a line of 64, the loop takes a third longer. With a list of lengths the proved code was no faster at the limits, and slower in small plants, for the list has to be cleared.')
CAUSES = [
    ('read', 'Reading',
     'The keys of a machine\'s rows stand in an array that is cleared at each call, 255 words, or 32 for a file of at most 32 bytes, and the machines are read by a call of their own, whichever array it is '
     'lent; the peer has one array, which it leaves as it is, and no call. Counted in instructions (valgrind), plant A takes 434 and the peer 355, ten machines 6,808 and 6,657, the largest file 109,744 and 104,560.'),
    ('weigh-a', 'Weighing small plants',
     'A table of 512 bytes, a list of edges of 512 bytes, the heights of 8 states and for each machine the keys of 32 rows are cleared at each call, and the rows are stored before they are weighed; the peer '
     'leaves its arrays as they are. Where a cycle is shown, 1 KB of walks and 512 bytes of first edges are cleared, too, and the rounds from the start that was found are made once more (DECISIONS.md, 23). '
     'C with the same arrays: see the next table.'),
    ('weigh-worst', 'Searching every machine',
     'Four runs noted on an AMD EPYC have 1.12 to 1.43 for the row of 16 machines, and 1.02 to 1.45 for C with the same arrays (next table); on an Intel Xeon both were below 0.8. '
     'What moves them on the one was not found.'),
    ('weigh', 'Weighing', DECIDING),
    ('quote-fails', 'Quoting weights that do not pass', 'All the work is deciding. ' + DECIDING),
    ('quote-a', 'Quoting for small plants',
     'As for weighing: the same arrays are cleared, and the rows are stored before they are weighed.'),
    ('quote', 'Quoting', 'Quoting is deciding and a few sums; what deciding loses, quoting loses.'),
    ('list', 'Listing',
     'Each row of a path is a call with 9 arguments, 7 where entries are only counted; the peer keeps what does not change in one struct.'),
    ('confirm', 'Confirming',
     'The rows of an entry are gone through three times (number by number, as a cycle, and for the sums), by the peer once; the third loop branches at each row, and its time depends on the address it is linked at.'),
    ('watch', 'Events',
     'The peer leaves out what only a struct of other bytes would need: whether the row number is below 1,024, the machine below 16, a type below 64, '
     'and whether a sum passes the largest number.'),
    ('write', 'Writing',
     'The buffer in which the file is made is cleared at each call, 128 bytes for a short list and 5,154 for others, and so are the keys of a machine\'s rows; the peer leaves its own as they are.'),
]


def causes(rows, met):
    """The causes of the goals that are missed by these rows; what to say where none is."""
    lines, said = [], set()
    for key, _, _, _, goal, m in rows:
        if goal is None:
            continue
        for start, title, text in CAUSES:
            if key.startswith(start):
                if m['ratio'] > goal and title not in said:
                    said.add(title)
                    lines.append('- **%s.** %s' % (title, text))
                break
    return '\n'.join(lines) if lines else met


def tool_goals(found):
    """What to say of the goal of 100 against SPIN and GLPK."""
    least = lambda key: min(1 / r[key] for r in found['tools'])
    said = ['Weighing is at least %s times faster than SPIN\'s search from state 0 and empty channels with its tables cut, and %s times than that from any states and contents, which is the question that weighing answers (goal: 100; %s and %s).'
            % (faster(1 / least('empty')), faster(1 / least('anywhere')), 'met' if least('empty') >= 100 else 'missed', 'met' if least('anywhere') >= 100 else 'missed')]
    said.append('The command `glpsol` takes at least %s times as long as weighing (%s). In one process, with the problem made beforehand, GLPK\'s simplex takes %s to %s times as long: the goal of 100 is %s.'
                % (faster(1 / least('glpsol')), 'met' if least('glpsol') >= 100 else 'missed', faster(max(r['solve'] for r in found['tools'])), faster(min(r['solve'] for r in found['tools'])), 'met' if least('solve') >= 100 else 'missed'))
    if least('solve') < 100:
        said.append('It cannot be met on plants this small: the problems have %d to %d columns, GLPK solves them in a few microseconds, and the peer in C, which is %s to %s times faster than the proved call here, does not reach it either.'
                    % (min(r['cycles'] for r in found['tools']), max(r['cycles'] for r in found['tools']), times(min(r['c'] for r in found['tools'])), times(max(r['c'] for r in found['tools']))))
    said.append('The questions differ, too: GLPK finds out whether any weights exist, from cycles that someone has listed; weighing reads the file, judges given weights and hands back the figures. '
                'The count of cycles, and with it the linear program, can grow exponentially (a machine of 16 states and 48 rows has 43,046,721 cycles), while weights that pass are found to pass in at most states times rows steps.')
    return '\n\n'.join(said)


def times(ratio):
    """A ratio, with as many digits as it bears."""
    return '%.2f' % ratio if ratio < 10 else '%.0f' % ratio


def faster(ratio):
    """How many times faster, from our time over theirs."""
    x = 1 / ratio
    if x >= 1000:
        digits = 10 ** (len(str(int(x))) - 2)
        return '{:,}'.format(round(x / digits) * digits)
    return '%.1f' % x if x < 10 else '%.0f' % x


def verdict(ratio, goal):
    return 'met' if ratio <= goal else 'missed'


def calls_table(found):
    lines = ['| Call | Input | Lent list | Time against C | By layout | Goal | |', '|---|---|---|---|---|---|---|']
    for _, call, given, lent, goal, m in found['calls']:
        lines.append('| %s | %s | %s | %s | %s to %s | %s | %s |' % (call, given, lent, times(m['ratio']), times(m['low']), times(m['high']), goal, verdict(m['ratio'], goal)))
    return '\n'.join(lines)


EVENT_NS = 10000    # the goal of an event at the limits, 10 µs


def nanoseconds(ns):
    return '%.1f ns' % ns if ns < 100 else '%.0f ns' % ns if ns < 1000 else '%.1f µs' % (ns / 1000)


def event_goal(key, goal, m):
    """The goal of a watcher's call, and whether it is met: against C, and for an event the time of one as well."""
    if goal is None:
        return 'none', ''
    return '%s, and 10 µs' % goal, 'met' if m['ratio'] <= goal and m['ns'] <= EVENT_NS else 'missed'


def events_table(found):
    lines = ['| Call | Plant | Time of one | Time against C | By layout | Goal | |', '|---|---|---|---|---|---|---|']
    for key, call, given, _, goal, m in found['events']:
        lines.append('| %s | %s | %s | %s | %s to %s | %s | %s |' % (
            call, given, nanoseconds(m['ns']), times(m['ratio']), times(m['low']), times(m['high']), *event_goal(key, goal, m)))
    return '\n'.join(lines)


def tools_table(found):
    lines = ['| Plant | SPIN: search, from state 0 and empty channels | SPIN: search, from any states and contents | SPIN: the command `pan -l` | SPIN: generate, compile and search | GLPK: solve | GLPK: make and solve | GLPK: the command `glpsol` |',
             '|---|---|---|---|---|---|---|---|']
    for r in found['tools']:
        lines.append('| %s | %s (%s states) | %s (%s states) | %s | %s | %s | %s | %s |' % (
            r['name'], faster(r['empty']), '{:,}'.format(r['empty_states']), faster(r['anywhere']), '{:,}'.format(r['anywhere_states']),
            faster(r['pan']), faster(r['model']), faster(r['solve']), faster(r['build']), faster(r['glpsol'])))
    return '\n'.join(lines)


def growth_table(found):
    lines = ['| Doubled four times | Time of `weigh`, against the first size | Exponent | The same in C | Exponent |', '|---|---|---|---|---|']
    for name, ours, theirs, e_ours, e_theirs in found['growth']:
        lines.append('| %s | %s | %.2f | %s | %.2f |' % (name, ', '.join(times(x) for x in ours), e_ours, ', '.join(times(x) for x in theirs), e_theirs))
    return '\n'.join(lines)


def floors_table(found):
    lines = ['| Weighing in C with the arrays of the proved call | Time against the peer | By layout |', '|---|---|---|']
    for name, m in found['floors']:
        lines.append('| %s | %s | %s to %s |' % (name, times(m['ratio']), times(m['low']), times(m['high'])))
    return '\n'.join(lines)


def stack_table(found):
    lines = ['| Call | Stack, bytes | In C |', '|---|---|---|']
    for name, m in found['stack']:
        lines.append('| %s | %s | %s |' % (name, '{:,}'.format(m['ours']), '{:,}'.format(m['peer'])))
    return '\n'.join(lines)


def sizes_table(found):
    s = found['sizes']
    lines = ['| What | Code and data, bytes |', '|---|---|']
    for name, key in (('libhemtaluq.a, all calls', 'library'), ('the same calls in C, bench/peer.c', 'peer'),
                      ('examples/cabinet/cabinet.c, linked with the library', 'cabinet'), ('a program that does nothing', 'empty')):
        lines.append('| %s | %s |' % (name, '{:,}'.format(s[key])))
    return '\n'.join(lines)


def table(found):
    return '\n\n'.join([calls_table(found), events_table(found), floors_table(found), tools_table(found), growth_table(found), stack_table(found), sizes_table(found)])


PAGE = """# Benchmarks

The proved calls against the same calls in plain C, against SPIN and against GLPK. This page is written by

    bench/run

which builds everything, measures, prints the tables and writes this page; `bench/run --quick` has fewer inputs and does not write it, and `bench/run --against OTHER.a` measures against another build of the library, such as the one before a change, and does not write it either.
It needs gcc, binutils, spin and glpk-utils, all from Debian, and the kit's `rt`, which builds dist/ anew where the source changed. The gate does not run it.

Every figure of time, that of a watcher's calls apart, is a ratio of two things that were measured in turn, in one program (generating and compiling for SPIN: by processes, in turn).
Against C and GLPK the order changed from one repetition to the next. A ratio is the median of {fast} repetitions, or of {slow} for the longest listing, for SPIN's search from
anywhere and for whole commands. A loop can take a third longer where its address is unlucky, the peer's too; against C, therefore, the whole program is linked four times, moved by
16 bytes each time, with a quarter of the repetitions for each, and the least and the greatest of the four medians stand beside the median of all. Machine: 2 cores ({cpu}), shared with other
work: a ratio moves by a tenth from run to run, on plant A and the ring of 16 by a quarter, so one near its goal is met in one run and missed in the next. {gcc}, -O2; {spin}; {glpsol}.

## Against C

`bench/peer.c` has the calls in plain C, with the best algorithms we know: tables filled in place and, but for the numbers of rows between states, never cleared, Bellman–Ford
relaxation in place in 32 bits, the same search for a cycle by exact lengths, depth-first listing over adjacency lists with bits for the states left and for dead ends, price classes by leading
zeros, twin rows found by a key of one word for each row (bits for the states left say whether an earlier row of the machine leaves the state, and only then the keys of the machine are gone through,
eight at a time in the compiler's vectors), a list judged with one test for the six numbers of a row, and its file made in the same pass, without a branch for a field that may be left out, in a buffer of its own that is copied at the end. Before measuring, both gave the same answers and left the same in the lent lists and buffers on {cases} random inputs, whole, with rows that take and send, with twin rows and damaged, and on
every input below. The files are in the cache; no buffer is cleared between two calls. Below 1 the proved call is faster. The goal is 1.2; 1.4 on plant A where weights pass and for writing it, 2 where a cycle is shown, and 2 for listing.
Both show a cycle with the fewest rows of all machines, by the same search with the same falling limit: at worst every machine fails and has no shorter cycle than the first, and the search makes 64 rounds
from each of 64 states over 1,024 rows, less a round from each state for every machine behind the first. A program that may show any cycle could take it from the predecessors of the last round, without a search, and this was not measured.

{calls}

{causes}

{runs}

In Rattle every array has contents from the start, so a call clears its tables where C leaves them as they are. `bench/floor.c` is weighing in C with
the arrays and the algorithms of the proved call, each array cleared by `memset` as there.

{floors}

## A watcher's events

The peer keeps the same lists of the struct: an event looks at one row of the table, moves a state and counts, whatever the size of the plant; it has
no test that only a struct which no call handed back would need, and its sums may wrap, where the library's stop at the largest number. A run of {run}
events is measured as a whole and begins anew where the watcher was opened, with 1,000 messages of each type: on plant A its four rows in turn, of
which one has progress; on 16 rings of 64 rows, the longest file, rows of machines in no regular order; losses and doublings of types in no regular
order. All events are accepted, with the same answers and the same struct on both sides, which was compared before measuring. The time of one is that of
the proved call on this machine, and no ratio; the goal of an event is 1.5 against C, and 10 µs at most. Opening happens once and has no goal: the peer weighs
once and fills the struct in place; the proved opening knows weighing and quoting by their contracts alone, so it weighs twice, for the ceiling and for G and
n × w, decodes the file a third time for the table, and hands the struct of 16,976 bytes over by value.

{events}

{event_causes}

## Against SPIN and GLPK

How many times faster `weigh` is, on small plants whose weights pass. SPIN proves that a Promela model of the plant, with a bounded channel for
each type, has no non-progress cycle (`pan -l`, partial order reduction on, compiled with -O2 and -DNP); a row that takes and sends is an atomic step. The first column is from state 0 and empty channels, a weaker statement
than that of weighing, which holds from any states and contents; the second has any states and any contents up to the channels'
capacity ({capacities}). Both searches ran in a forked process without being loaded anew, with SPIN's table and depth cut to what the model needs; they include SPIN's own set-up and report, and the page faults of a new process. The command `pan -l` has SPIN's own sizes.
GLPK solves the inequalities (1) to (4) of the published test as a linear program, "above 0" written as "at least 1"; it must find that there is no solution. Solve: the simplex method in one process, start-up and making the problem not counted. Make and solve: with the problem made anew.

{tools}

{tool_goals}

## How the cost grows

Weighing that passes, in the order of rows that needs as many rounds as there are states: states times rows doubled four times. The exponent is the slope of the
logarithm of the time over that of the size. It is below 1 where reading and the edge lists, which do not grow with the states, have a share; reading takes even less time the more states there are,
for a row is compared with the earlier rows of its machine only where one of them leaves the same state.

{growth}

## Stack and size

The stack was painted, the call was run on it, and the deepest byte that changed was looked for; the loader has bound all symbols before. No call allocates.

{stack}

The table of a plant has 8 KB, its edges 2 KB, for a file of at most 64 bytes 512 bytes each, and the keys of a machine's rows 1 KB; to show a cycle takes 5 KB more. `list` has the table and the graph of a machine's rows, 2 KB, and a frame for each row of a path; `confirm` has the table and the sums. `write` has the file, 5 KB, and the keys of a machine's rows, 1 KB, for a list of at most 128 numbers 128 bytes each.

{sizes}
"""


def folded(text):
    """Paragraphs and items in lines of at most 120 characters; headings, tables and commands as they are."""
    lines = []
    for part in text.split('\n\n'):
        first = part.lstrip('\n')
        if first.startswith(('|', '#', '    ')):
            lines.append(part)
        elif first.startswith('- '):
            lines.append('\n'.join(textwrap.fill(item, 120, subsequent_indent='  ', break_long_words=False, break_on_hyphens=False) for item in first.split('\n')))
        else:
            lines.append(textwrap.fill(' '.join(part.split()), 120, break_long_words=False, break_on_hyphens=False))
    return '\n\n'.join(lines).rstrip('\n') + '\n'


def page(found):
    return folded(PAGE.format(
        fast=found['reps'][0], slow=found['reps'][1], gcc=found['gcc'], cpu=found['cpu'], spin=found['spin'], glpsol=found['glpsol'].split(',')[0],
        cases='{:,}'.format(found['cases']), calls=calls_table(found), causes=causes(found['calls'], 'Every goal against C is met.'), runs=RUNS,
        run='{:,}'.format(found['run']), events=events_table(found), event_causes=causes(found['events'], 'Every goal of a watcher is met.'),
        floors=floors_table(found), tools=tools_table(found), tool_goals=tool_goals(found),
        capacities=', '.join('%s: %d' % (r['name'], r['capacity']) for r in found['tools']),
        growth=growth_table(found), stack=stack_table(found), sizes=sizes_table(found)))
