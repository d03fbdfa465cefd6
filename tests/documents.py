"""Hold the documents to the source.

- The antt blocks of docs/ceiling.md are whole definitions of crate livelock, and all that its theorem rests on is shown.
- Each block of docs/map.md has its three lines. Each name in them is declared in the file behind it, each must-fail edit
  that is named exists, and each must-fail edit is named.
- The lines of these two, of README.md and of docs/DECISIONS.md have at most 160 characters, tables apart.
- The plant files in examples/ have the bytes that the worked examples are proved of and run with.
- Each row of a table in README.md and docs/ has as many cells as the table's head.
- The names in README's table of promises are declared in the files that it names.
- README's section Architecture names every crate, and docs/gate.md has a row for each, with a time or a dash, and the number of its must-fail edits.
- The crates whose specs README leads a reader through are those that the contracts of the calls, of the exports and of the program's line rest on.
- The numbers of README's section Tests are figures that a test holds (figures.py).
- The header of the C interface names every fault number of the table, and each once; its kinds are those of the computed examples of crate answer_structs.
  The longest file and the longest list are those of the definitions, in the header and in the Rust wrappers.
- The version is one number in the header, in the definition and in the Rust wrappers; every export of crate cabinet but that of the version has a
  revision, and the header's macros, or its declarations where an inline function makes the call, and the wrappers' link names are these symbols. Their
  arguments and structs, and the numbers of a row of the writer's list, are those that tests/data/revisions.txt has for the revision, so that a change
  needs the next one, and the structs are the same in the crate, in the header and in the wrappers. So are the lists of a watcher, and the header's
  inline functions lend to each export those that it takes.
- The static libraries `cabinet_c` and `panel_c` have the exports of crates `cabinet` and `panel`, each with the same arguments, answer and clauses,
  and each is the call of that function.

    python3 tests/documents.py
"""
import functools
import glob
import math
import os
import re
import sys

import figures

ROOT = os.path.dirname(os.path.dirname(os.path.abspath(__file__)))
faults = []


def read(path):
    with open(os.path.join(ROOT, path), encoding='utf-8') as source:
        return source.read()


def read_all(paths):
    return '\n'.join(read(path) for path in paths)


def files(pattern):
    return sorted(os.path.relpath(p, ROOT) for p in glob.glob(os.path.join(ROOT, pattern), recursive=True))


def crates_listed():
    """The crates in the order of crates.txt; a static library's line has that word behind its name."""
    return re.findall(r'(?m)^(\w+)(?: staticlib)?:', read('crates.txt'))


def fault(path, number, text):
    faults.append('%s:%d: %s' % (path, number, text))


def paragraphs(text):
    """What stands between blank lines: the number of the first line, and the lines."""
    for found in re.finditer(r'(?m)(?:^.*\S.*\n?)+', text):
        yield text.count('\n', 0, found.start()) + 1, found.group().rstrip('\n').split('\n')


def names_declared(lines):
    """The names that lines of antt declare: definitions, theorems, types, constructors and fields."""
    found = [re.match(r'\s*(?:(?:unfoldable|abbrev|pub|record|data) )*([^\s(){}.;,]+)(?: \(.*\))?(?: \{[^}]*\})? :', line) for line in lines]
    return {match.group(1) for match in found if match}


@functools.lru_cache(maxsize=None)
def declared(path):
    """The names that a file declares; in Rattle those of functions, types and constants."""
    if path.endswith('.rt'):
        return set(re.findall(r'(?m)^(?:    )?(?:pub )?(?:extern "C" )?(?:fn|struct|enum|const) ([A-Za-z0-9_]+)', read(path)))
    return names_declared(read(path).split('\n'))


def hold_width(path):
    """A line that is not a table's has at most 160 characters."""
    for number, line in enumerate(read(path).split('\n'), 1):
        if len(line) > 160 and not line.startswith('|'):
            fault(path, number, 'a line of %d characters: %s…' % (len(line), line[:60]))


# ---- docs/ceiling.md

ANTT_BLOCK = r'(?ms)^```antt\n(.*?)^```$'


def is_comment(line):
    return line.lstrip().startswith('--')


@functools.lru_cache(maxsize=None)
def definitions(path):
    """The definitions of an antt file, each with all its clauses: what stands between blank lines, without comments."""
    parts = [[line for line in lines if not is_comment(line)] for _, lines in paragraphs(read(path))]
    return [part for part in parts if part]


def whole_definitions(path, lines):
    """The definitions of a file that the lines are, one behind the other and each whole; none where they are something else."""
    parts = definitions(path)
    for first in range(len(parts)):
        held, last = [], first
        while last < len(parts) and len(held) < len(lines):
            held, last = held + parts[last], last + 1
        if held == lines:
            return parts[first:last]
    return []


def source_of(path, number, lines, sources):
    """The one file in which the lines are whole definitions that follow one another, and these definitions."""
    for source in sources:
        parts = whole_definitions(source, lines)
        if parts:
            return source, parts
    standing = {line for source in sources for part in definitions(source) for line in part}
    strange = [line for line in lines if line not in standing]
    fault(path, number, 'stands in no file of crate livelock: ' + strange[0] if strange
          else 'not whole definitions as they follow one another in one file: ' + ' … '.join(lines[:1] + lines[-1:]))
    return None, []


def shown_definitions(path, sources):
    """Each excerpt's file and definitions. Its comments stand in that file too."""
    for found in re.finditer(ANTT_BLOCK, read(path)):
        number, block = read(path).count('\n', 0, found.start()) + 2, found.group(1).split('\n')
        source, parts = source_of(path, number, [line for line in block if line.strip() and not is_comment(line)], sources)
        if source:
            comments = {line.strip() for line in block if is_comment(line)}
            for line in sorted(comments - {line.strip() for line in read(source).split('\n')}):
                fault(path, number, 'no comment of %s: %s' % (source, line))
            yield source, parts


def words(lines):
    return set(re.findall(r'[^\s(){}.;,]+', '\n'.join(lines)))


def kit_words(path):
    """The words that a file takes from the kit's library; of an operator the sign alone."""
    lists = re.findall(r'(?m)^use (?!Rattle\.livelock\.)\S+\.\{([^}]*)\}', read(path))
    return {word.strip().strip('◌') for names in lists for word in names.split(',')}


def specs_used(source, lines):
    """The files of the crate's specs that a definition can speak of: its own, and those from which its file takes one of its words."""
    for module, names in re.findall(r'(?m)^use Rattle\.livelock\.specs\.(\w+)\.\{([^}]*)\}', read(source)):
        if {name.strip().strip('◌') for name in names.split(',')} & words(lines):
            yield 'crates/livelock/specs/%s.antt' % module
    if '/specs/' in source:
        yield source


def hold_closed(path, shown):
    """What the shown definitions use of the crate's specs is shown, and the text names what they use of the kit's library."""
    there = {name for _, lines in shown for name in names_declared(lines)}
    used = {word for _, lines in shown for word in words(lines)}
    for source in sorted({file for shown_in, lines in shown for file in specs_used(shown_in, lines)}):
        faults.extend('%s: %s of %s is used and not shown' % (path, name, source) for name in sorted((declared(source) & used) - there))
    named = words(re.findall(r'`([^`]+)`', re.sub(ANTT_BLOCK, '', read(path))))
    missing = {word for source, lines in shown for word in kit_words(source) & words(lines)} - named
    faults.extend('%s: the text does not name %s of the kit\'s library' % (path, word) for word in sorted(missing))


def hold_proof_names(path, proofs):
    """The proof in words names theorems and definitions of the crate's proofs."""
    known = {name for source in proofs for name in declared(source)}
    for name in re.findall(r'`([^`]+)`', read(path).split('## The proof in words')[1]):
        if name not in known:
            faults.append('%s: no proof of crate livelock declares %s' % (path, name))


def hold_excerpts(path, theorem):
    """The page shows the theorem and all that its statement rests on, each definition whole."""
    specs, proofs = files('crates/livelock/specs/*.antt'), files('crates/livelock/proofs/*.antt')
    before = len(faults)
    shown = [(source, lines) for source, parts in shown_definitions(path, specs + proofs) for lines in parts]
    hold_proof_names(path, proofs)
    if len(faults) > before:
        return
    if not any(theorem in names_declared(lines) for source, lines in shown if source in proofs):
        faults.append('%s: the theorem %s is not shown' % (path, theorem))
    hold_closed(path, shown)


# ---- docs/map.md

MAP_BLOCK = r'\*\*[^*]+\*\*\n- Definition: (.+)\n- Promise: (.+)\n- Edits: (.+)'
MAP_FILE = r'\(([a-z_]+/(?:specs|proofs|src)/[A-Za-z_/]+)\)'
# How a part begins that names nothing.
MAP_WORDS = r'none\b|by the language$|the (?:\w+ )?stored runs?\b|elsewhere\b|at least\b|those of the section\b'


def map_blocks(path):
    """Each block's first line and its three items. A text may stand between a heading and the first block; all else is a fault."""
    inside = False
    for number, lines in paragraphs(read(path)):
        block = re.fullmatch(MAP_BLOCK, re.sub(r'\n  (?=\S)', ' ', '\n'.join(lines)))
        heading = len(lines) == 1 and re.match('##? ', lines[0])
        text = not inside and not any(re.match(r'\*\*|\s*- |\||#', line) for line in lines)
        if block:
            yield number, block.groups()
        elif not heading and not text:
            fault(path, number, 'not a sentence with one line each of Definition, Promise and Edits: ' + ' / '.join(line[:40] for line in lines))
        inside = bool(block) or inside and not heading


def hold_declared(path, number, names, place):
    source = 'crates/%s.%s' % (place, 'rt' if '/src/' in place else 'antt')
    if not os.path.exists(os.path.join(ROOT, source)):
        fault(path, number, 'there is no ' + source)
        return
    for name in names:
        if name not in declared(source):
            fault(path, number, '%s does not declare %s' % (source, name))


def hold_words(path, number, part):
    """Beside names and files stand words only, and a part that names nothing begins with known ones."""
    rest = re.sub(r'`[^`]+`|' + MAP_FILE, '', part)
    if re.search('[`/]', rest) or rest == part and not re.match(MAP_WORDS, part):
        fault(path, number, 'neither names with their file nor known words: ' + part)


def hold_names(path, number, item):
    """Each name is declared in the file behind it."""
    for part in item.split('; '):
        waiting = []
        for name, place in re.findall(r'`([^`]+)`|' + MAP_FILE, part):
            if name:
                waiting.append(name)
                continue
            if not waiting:
                fault(path, number, 'no name stands before the file ' + place)
            hold_declared(path, number, waiting, place)
            waiting = []
        if waiting:
            fault(path, number, 'no file is named for ' + ', '.join(waiting))
        hold_words(path, number, part)


def hold_map(path):
    edits = {p.split('/')[1] + '/' + os.path.splitext(os.path.basename(p))[0] for p in files('crates/*/must-fail/*.edit')}
    named = set()
    for number, (definition, promise, tried) in map_blocks(path):
        hold_names(path, number, definition)
        hold_names(path, number, promise)
        for part in tried.split('; '):
            hold_words(path, number, part)
        names = set(re.findall(r'`([^`]+)`', tried))
        for name in sorted(names - edits):
            fault(path, number, 'there is no must-fail edit ' + name)
        named |= names
    faults.extend('%s: no block names the must-fail edit %s' % (path, name) for name in sorted(edits - named))


def proved_bytes(path, name, argument=None):
    """The bytes of a plant in a file of definitions: hexadecimal numbers, an argument, and other lists by their names."""
    text = re.search(r'\n%s(?: map)? =(.*?)\n\n' % name, read(path) + '\n\n', re.S).group(1)
    applied = re.fullmatch(r'\s*(\w+) 0x([0-9A-F]{2})\s*', text)
    if applied:
        return proved_bytes(path, applied.group(1), int(applied.group(2), 16))
    held = []
    for word in re.findall(r'\w+', text):
        held += [int(word, 16)] if word.startswith('0x') else [argument] if word == 'map' else list(proved_bytes(path, word))
    return bytes(held)


def hold_examples():
    run, proved = 'crates/example_plants/src/lib.rt', 'crates/worked_examples/specs/Files.antt'
    for folder, const, name in (('plant_a', 'PLANT_A', 'file_a'), ('plant_b', 'PLANT_B', 'file_b'), ('two_clients', 'TWO_CLIENTS', 'two_clients_file'),
                                ('two_clients_in_turn', 'TWO_CLIENTS_IN_TURN', 'two_clients_in_turn_file'), ('detour', 'DETOUR', 'detour')):
        with open(os.path.join(ROOT, 'examples', folder, 'plant.bin'), 'rb') as source:
            held = source.read()
        literal = re.search(const + r': \[u8; \d+\] =\s+\*b"([^"]*)"', read(run)).group(1)
        if bytes(int(x, 16) for x in re.findall(r'\\x([0-9A-F]{2})', literal)) != held:
            faults.append('examples/%s/plant.bin differs from %s in %s' % (folder, const, run))
        if proved_bytes(proved, name) != held:
            faults.append('examples/%s/plant.bin differs from %s in %s' % (folder, name, proved))


def hold_header(path):
    numbers = [int(x) for x in re.findall(r'(?m)^    HEMTALUQ_[A-Z_]+ = (\d+)', read(path).split('enum hemtaluq_fault')[1].split('};')[0])]
    if sorted(numbers) != [n for n in range(1, 30) if n != 19]:
        faults.append('%s: the fault numbers are %s' % (path, numbers))


def hold_kinds(path, examples):
    """The kinds of the header are those that the computed examples state: the comments name them, and the statements have the numbers in that order."""
    kinds = re.findall(r'(HEMTALUQ_[A-Z_]+) = (\d+)', read(path).split('enum hemtaluq_kind')[1].split('};')[0])
    named, stated = [], []
    for text in map(read, examples):
        named += [one for one in re.findall(r'(HEMTALUQ_[A-Z]+)(?: is)? (\d+)', text) if one not in named]
        stated += [x for x in re.findall(r'\.kind ≡ (\d+)', text[text.index('\nkinds :'):text.index('\nkinds =')]) if x != '0']
    if kinds != named:
        faults.append('%s: the kinds %s are not those of %s' % (examples, named, path))
    if stated != [number for name, number in kinds[1:]]:
        faults.append('%s: `kinds` states %s' % (examples, stated))


def product_sum(text):
    """The value of a sum of products of numbers."""
    return sum(math.prod(int(x) for x in product.split('*')) for product in text.split('+'))


def hold_lengths(header, wrappers):
    """The longest file and the longest list of the header and of the wrappers are those of the definitions."""
    limits, lists = read('crates/plant/specs/Limits.antt'), read('crates/plant_lists/specs/Lists.antt')
    most = re.search(r'(?m)^most_row_bytes = (\d+)$', limits).group(1)
    for name, text, rule in (('LONGEST_FILE', limits, 'longest_file'), ('LONGEST_LIST', lists, 'longest_list')):
        owed = product_sum(re.search(r'(?m)^%s = (.*)$' % rule, text).group(1).replace('most_row_bytes', most))
        found = re.findall(r'(?m)^#define HEMTALUQ_%s (\d+)' % name, read(header)) + re.findall(r'(?m)^pub const %s: usize = ([\d_]+);$' % name, read(wrappers))
        if [int(x.replace('_', '')) for x in found] != [owed, owed]:
            faults.append('%s and %s: %s is %s, where %s is %d' % (header, wrappers, name, found, rule, owed))


def hold_versions(header, definition, wrappers):
    found = [re.findall(pattern, read(path)) for path, pattern in (
        (header, r'(?m)^#define HEMTALUQ_VERSION (\d+)$'), (definition, r'(?m)^interface_version = (\d+)$'), (wrappers, r'(?m)^pub const VERSION: u32 = (\d+);$'))]
    if len(found[0]) != 1 or found != 3 * found[:1]:
        faults.append('%s, %s and %s: the versions are %s' % (header, definition, wrappers, found))


def hold_revisions(header, source, wrappers):
    exports = re.findall(r'(?m)^pub extern "C" fn (\w+)', read_all(source))
    revised = {re.sub(r'_v[1-9]\d*$', '', name): name for name in exports if name != 'hemtaluq_version'}
    if any(name == symbol for name, symbol in revised.items()) or len(revised) != len(exports) - 1:
        faults.append('%s: not every call has one revision: %s' % (source, exports))
    macros = re.findall(r'(?m)^#define (hemtaluq_\w+) (\w+)$', read(header))
    inline = re.findall(r'(?m)^static inline \w+ (hemtaluq_\w+)\([^{]*\{\n    return (\w+)\(', read(header))
    if sorted(macros + inline) != sorted(revised.items()):
        faults.append('%s: the macros %s and inline functions %s are not the exports %s of %s' % (header, macros, inline, exports, source))
    linked = re.findall(r'#\[link_name = "(\w+)"\]\n    fn (\w+)\(', read(wrappers))
    if sorted((name, symbol) for symbol, name in linked) != sorted(revised.items()):
        faults.append('%s: the link names %s are not the exports %s of %s' % (wrappers, linked, exports, source))
    in_header = [symbol if name in dict(inline) else name for name, symbol in revised.items()]
    for path, pattern, owed in ((header, r'(?m)^\w+ (hemtaluq_\w+)\(', in_header), (wrappers, r'(?m)^    fn (hemtaluq_\w+)\(', list(revised))):
        declared_there = re.findall(pattern, read(path))
        if sorted(declared_there) != sorted(owed + ['hemtaluq_version']):
            faults.append('%s: declares %s' % (path, declared_there))


def fields_in(text, struct, field):
    """The structs of a source: by name, the pairs of field and type, in order. The patterns have the groups name and body, field and type."""
    found = {}
    for one in re.finditer(struct, text):
        name = one.group('name').lower().replace('hemtaluq_', '').replace('_', '')
        found[name] = [(f.group('field'), f.group('type')) for f in re.finditer(field, one.group('body'))]
    return found


C_TYPES = {'u8': 'uint8_t', 'u32': 'uint32_t', 'u64': 'uint64_t', 'i64': 'int64_t', 'usize': 'size_t'}


def hold_structs(header, source, wrappers):
    rust = r'(?m)^ +(?:pub )?(?P<field>\w+): (?P<type>\w+),'
    ours = fields_in(read_all(source), r'pub struct (?P<name>\w+Answer) \{(?P<body>[^}]*)\}', rust)
    theirs = fields_in(read(wrappers), r'\nstruct (?P<name>\w+Answer) \{(?P<body>[^}]*)\}', rust)
    in_c = fields_in(read(header), r'typedef struct \{(?P<body>[^}]*)\} (?P<name>hemtaluq_\w+_answer);', r'(?m)^ +(?P<type>\w+) (?P<field>\w+);')
    if not ours or ours != theirs or {name: [(field, C_TYPES[kind]) for field, kind in fields] for name, fields in ours.items()} != in_c:
        faults.append('%s, %s and %s: the structs differ' % (header, source, wrappers))
    return ours


# An export: its name, all that stands before its body, and its body.
EXPORT = r'(?ms)^#\[unsafe\(no_mangle\)\]\npub extern "C" fn (\w+)(\(.*?)\n\{\n(.*?)\n\}$'


def hold_exports(crates):
    """Each export of a static library has the arguments, the answer and the clauses of the function of its name, and is the call of that function."""
    for crate in crates:
        ours, theirs = [re.findall(EXPORT, read('crates/%s/src/lib.rt' % name)) for name in (crate + '_c', crate)]
        if not ours or [one[:2] for one in ours] != [one[:2] for one in theirs]:
            faults.append('crates %s_c and %s: the exports differ' % (crate, crate))
        for name, head, body in ours:
            owed = '%s::%s(%s)' % (crate, name, ', '.join(re.findall(r'(\w+): ', head.split(' -> ')[0])))
            if re.sub(r'(?<=\() | (?=\))|,(?= ?\))', '', ' '.join(body.split())) != owed:
                faults.append('crate %s_c: %s is not %s' % (crate, name, owed))


# A list of fixed length, as C and as Rust have it: its name, the type of its numbers, and how many there are.
C_LIST = r'(?P<type>\w+) (?P<name>\w+)\[(?P<length>\d+)\]'
RUST_LIST = r'(?P<name>\w+): (?:&(?:mut )?)?\[(?P<type>\w+); (?P<length>\d+)\]'


def lists_in(text, form):
    return [(C_TYPES.get(one.group('type'), one.group('type')), one.group('name'), one.group('length')) for one in re.finditer(form, text)]


def written(arguments):
    """The lists of fixed length that a call may write to, by their names, in C or in Rust."""
    return re.findall(r'(\w+): &mut \[\w+;', arguments) + re.findall(r'(?<!const )\b\w+ (\w+)\[', arguments)


def hold_watcher(header, source, wrappers):
    """The lists of a watcher are the same in the header's struct and in the wrappers', and each export takes lists of these, in the header as in the
    crate; the inline function that makes the call lends those."""
    body = re.search(r'typedef struct \{([^}]*)\} hemtaluq_watcher;', read(header)).group(1)
    lists, theirs = lists_in(body, C_LIST), lists_in(re.search(r'\nstruct WatcherLists \{([^}]*)\}', read(wrappers)).group(1), RUST_LIST)
    if lists != theirs or len(lists) != body.count(';'):
        faults.append('%s and %s: the lists of a watcher are %s and %s' % (header, wrappers, lists, theirs))
    for name, arguments in re.findall(r'pub extern "C" fn (hemtaluq_watch_\w+)\((.*?)\) ->', read_all(source), re.S):
        owed, lent = lists_in(arguments, RUST_LIST), re.search(r'return %s\(([^)]*)\);' % name, read(header))
        declared_there = re.search(r'(?m)^\w+ %s\(([^)]*)\);' % name, read(header))
        in_c = declared_there.group(1) if declared_there else ''
        if not set(owed) <= set(lists) or owed != lists_in(in_c, C_LIST) or written(arguments) != written(in_c) \
                or not lent or re.findall(r'watcher->(\w+)', lent.group(1)) != [one for _, one, _ in owed]:
            faults.append('%s and %s: %s does not take, or not to write to, or is not lent, the lists %s' % (header, source, name, owed))


def row_form(lists):
    """The numbers of a row of the writer's list in the order in which the definition judges them, with the end of their values where it is a number."""
    judged = re.search(r'(?m)^listed_row .*=\n((?:    .*\n)+)', read(lists)).group(1)
    found = re.findall(r'and_then \((.*) s \w+\) \(λ (\w+) \w+\.', judged)
    return ', '.join(name + ''.join(' < ' + end for end in re.findall(r'^number_in 0 (\d+)$', values)) for values, name in found)


def hold_stored_revisions(source, structs, lists, stored):
    """A revision stands for its arguments, its struct and the form of its list: whoever changes them adds a line with the next one."""
    known = read(stored).split('\n')
    for name, arguments, answer in re.findall(r'pub extern "C" fn (hemtaluq_\w+_v\d+)\((.*?)\) -> (\w+)', read_all(source), re.S):
        fields = ', '.join('%s: %s' % field for field in structs.get(answer.lower(), []))
        line = '%s(%s) -> %s' % (name, ' '.join(arguments.split()).rstrip(','), fields)
        line += '; a row of numbers: ' + row_form(lists) if 'numbers:' in arguments else ''
        if line not in known or sum(k.startswith(name + '(') for k in known) != 1:
            faults.append('%s has not, or not alone for this revision: %s' % (stored, line))


def cells(line):
    return len(re.split(r'(?<!\\)\|', line.strip().removeprefix('|').removesuffix('|')))


def hold_tables(path):
    """No row of a table has more or fewer cells than its head: what reads a table by its columns would pass it over."""
    width, inside = 0, False
    for number, line in enumerate(read(path).split('\n'), 1):
        inside ^= line.startswith('```')
        if inside or not line.startswith('|'):
            width = 0
            continue
        width = width or cells(line)
        if cells(line) != width:
            faults.append('%s:%d: %d cells in a table of %d' % (path, number, cells(line), width))


def hold_promises(path):
    """In the table of promises each name stands before the file that declares it."""
    table = read(path).split('\n## What is proved, and where\n')[1].split('\n## ')[0]
    for row in re.findall(r'(?m)^\| .* \| (.*) \|$', table)[1:]:
        found = re.findall(r'`([^`]+)`|\b([a-z_]+/(?:specs|proofs|src)/[A-Za-z_/]+\.(?:antt|rt))', row)
        waiting = []
        for name, source in found:
            if name:
                waiting.append(name)
                continue
            known = declared('crates/' + source) if os.path.exists(os.path.join(ROOT, 'crates', source)) else set()
            missing = set(waiting) - known
            faults.extend('%s: %s does not declare %s' % (path, source, name) for name in sorted(missing))
            waiting = []
        faults.extend('%s: no file is named for %s' % (path, name) for name in waiting)


def hold_crates(readme, gate):
    crates = crates_listed()
    named = re.findall(r'`(\w+)(…?)`', read(readme).split('\n## Architecture\n')[1].split('\n## ')[0])
    faults.extend('%s: the architecture does not name %s' % (readme, crate) for crate in crates
                  if not any(crate == name or (rest and crate.startswith(name)) for name, rest in named))
    edits = {crate: len(files('crates/%s/must-fail/*.edit' % crate)) for crate in crates}
    rows = re.findall(r'(?m)^\| `(\w+)` \| (?:[\d.]+|–) \| (\d+) \|', read(gate))
    if rows != [(crate, str(edits[crate])) for crate in crates]:
        faults.append('%s: the rows are not the crates with their must-fail edits, in the order of crates.txt' % gate)
    if not re.search(r'(?m)^\| together \| \d+ \| %d \|' % sum(edits.values()), read(gate)):
        faults.append('%s: there are %d must-fail edits together' % (gate, sum(edits.values())))


# The crates of which a static library, NAME_c, has the exports of the C interface; the static libraries; and the crates with the structs.
EXPORTED = ('cabinet', 'panel')
EXPORTS = ['crates/%s_c/src/lib.rt' % crate for crate in EXPORTED]
STRUCTS = ['crates/%s/src/lib.rt' % crate for crate in ('answer_structs', 'panel')]
# The crates with a call, an export or the program's line.
DOORS = ('reading', 'weighing', 'quoting', 'listing', 'cycle_sets', 'exclusion', 'watchers', 'watching', 'answer_line', *EXPORTED,
         *('%s_c' % crate for crate in EXPORTED))
# An import of specs: the crate, the module and the names; no names where the module is taken under another name.
SPECS_IMPORT = r'(?m)^(?:ghost )?use Rattle\.(\w+)\.specs\.([\w.]+?)(?:\.\{([^}]*)\}| as \w+);?$'
# The clauses of a public function.
CONTRACT = r'(?m)^pub (?:extern "C" )?fn [^{]*?\n((?:    (?:requires|ensures) .*\n)+)'


@functools.lru_cache(maxsize=None)
def specs_imported(path):
    """The names that a file takes from specs, each with the file that declares it; of a module under another name all of its names."""
    found = {}
    for crate, module, names in re.findall(SPECS_IMPORT, read(path)):
        source = 'crates/%s/specs/%s.antt' % (crate, module.replace('.', '/'))
        if os.path.exists(os.path.join(ROOT, source)):
            found.update({name.strip().strip('◌'): source for name in (names.split(',') if names else declared(source))})
    return found


def rests_on(path, lines):
    """The definitions of specs that lines of a file cite: pairs of file and name."""
    own = declared(path) if path.endswith('.antt') else set()
    for word in words(lines):
        if word in own or word in specs_imported(path):
            yield specs_imported(path).get(word, path), word


def hold_reading_order(readme, doors):
    """What a reader of the contracts must believe stands in the specs of the crates that the page names, and in no others."""
    waiting = [cited for path in doors for contract in re.findall(CONTRACT, read(path)) for cited in rests_on(path, contract.split('\n'))]
    known = set()
    while waiting:
        source, name = waiting.pop()
        if (source, name) not in known:
            known.add((source, name))
            waiting += [cited for part in definitions(source) if name in names_declared(part) for cited in rests_on(source, part)]
    crates = crates_listed()
    order = re.sub(r'\([^)]*\)', '', read(readme).split('in this\norder: ')[1].split('. [')[0])
    needed, named = {source.split('/')[1] for source, _ in known}, set(re.findall(r'\w+', order))
    faults.extend('%s: the order of reading names %s, which no contract rests on' % (readme, crate) for crate in sorted(named - needed))
    faults.extend('%s: the order of reading does not name %s' % (readme, crate) for crate in crates if crate in needed - named)


def hold_figures():
    """The section Tests has the figures alone. Two are counted here: every check of interface.c stands on a line and is made once."""
    faults.extend(figures.faults([read(path) for path in files('tests/*.py')]))
    checks = re.findall(r'(?m)^    (?:check|[a-z]+_(?:is|refused))\("', read('tests/interface.c'))
    figures.hold(interface_checks=len(checks), example_lines=read('crates/worked_examples_run/stdout').count('\n'))


def main():
    for path in ['README.md'] + files('docs/*.md') + files('examples/*.md'):
        hold_tables(path)
    hold_promises('README.md')
    hold_crates('README.md', 'docs/gate.md')
    hold_reading_order('README.md', ['crates/%s/src/lib.rt' % crate for crate in DOORS])
    hold_figures()
    hold_examples()
    hold_header('include/hemtaluq.h')
    hold_kinds('include/hemtaluq.h', ['crates/%s/proofs/StructsDiffer.antt' % crate for crate in ('answer_structs', 'panel')])
    hold_lengths('include/hemtaluq.h', 'examples/cabinet/hemtaluq.rs')
    hold_exports(EXPORTED)
    hold_versions('include/hemtaluq.h', 'crates/cabinet/specs/Versions.antt', 'examples/cabinet/hemtaluq.rs')
    hold_revisions('include/hemtaluq.h', EXPORTS, 'examples/cabinet/hemtaluq.rs')
    structs = hold_structs('include/hemtaluq.h', STRUCTS, 'examples/cabinet/hemtaluq.rs')
    hold_watcher('include/hemtaluq.h', EXPORTS, 'examples/cabinet/hemtaluq.rs')
    hold_stored_revisions(EXPORTS, structs, 'crates/plant_lists/specs/Lists.antt', 'tests/data/revisions.txt')
    hold_excerpts('docs/ceiling.md', 'ceiling')
    hold_map('docs/map.md')
    for path in ('README.md', 'docs/DECISIONS.md', 'docs/ceiling.md', 'docs/map.md'):
        hold_width(path)
    if faults:
        sys.exit('\n'.join(['documents.py:'] + faults))
    print('documents.py: the excerpts, the map, the crates, the tables and the figures agree with the source and the tests')


if __name__ == '__main__':
    main()
