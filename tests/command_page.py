"""`report`: the page is whole, has nothing from outside, and says the figures of the independent implementation; a browser prints it on A4.

The page is read by a parser of the standard library: every element is closed, and what each table says is compared cell by cell. Where Debian's
chromium is installed, the pages are printed to PDF by it.
"""
import hashlib
import os
import re
import shutil
import subprocess
import sys
from html.parser import HTMLParser

import building
import command_texts  # noqa: F401  (finds the package)
from evidence_independent import Independent
from evidence_plants import PLANT_A

from hemtaluq import binding

OUTSIDE = ('script', 'link', 'img', 'iframe', 'object', 'embed', 'base', 'form', 'image', 'use', 'a')
PROGRESS_ROWS = (0, 1, 10, 100, 1000, 10000)
CEILINGS = ('progress rows g', 'doublings d', 'ceiling', 'price class')
TITLE = 'Kiln <2> & "co"'


class Page(HTMLParser):
    """The elements, the tables' cells by row with the class of the row, and the text of a page."""

    def __init__(self, text):
        super().__init__()
        self.open, self.names, self.attributes, self.tables, self.text = [], [], [], [], ''
        self.feed(text)
        self.close()

    def handle_starttag(self, tag, attrs):
        self.names.append(tag)
        self.attributes += attrs
        if tag == 'table':
            self.tables.append([])
        elif tag == 'tr':
            self.tables[-1].append((dict(attrs).get('class', ''), []))
        elif tag in ('td', 'th'):
            self.tables[-1][-1][1].append('')
        if tag not in ('meta', 'polygon', 'ellipse', 'path'):
            self.open.append(tag)

    def handle_startendtag(self, tag, attrs):
        self.names.append(tag)
        self.attributes += attrs

    def handle_endtag(self, tag):
        if not self.open or self.open.pop() != tag:
            sys.exit('command.py: report: </%s> closes nothing' % tag)

    def handle_data(self, data):
        self.text += data
        if self.open and self.open[-1] in ('td', 'th'):
            self.tables[-1][-1][1][-1] += data


def command(folder, *words, path=None):
    environment = dict(os.environ, PATH=os.environ['PATH'] if path is None else path)
    return subprocess.run([sys.executable, os.path.join(building.ROOT, 'tools', 'hemtaluq'), *words], cwd=folder, env=environment,
                          capture_output=True, text=True, check=False)


def made(folder, name, plant, *words, status=0, path=None):
    """The page that `report` writes, which is held to be whole and without anything from outside."""
    place = os.path.join(folder, name)
    done = command(folder, 'report', os.path.join(building.ROOT, 'examples', plant), '-o', place, *words, path=path)
    if done.returncode != status or done.stderr or not done.stdout.startswith('%s: wrote %s' % ('cycle' if status else 'passed', place)):
        sys.exit('command.py: report: %s' % (done,))
    with open(place, encoding='utf-8') as source:
        text = source.read()
    page = Page(text)
    outside = [name for name in page.names if name in OUTSIDE] + [one for one in page.attributes if one[0].split(':')[-1] in ('src', 'href', 'srcset', 'data')]
    if page.open or outside or re.search(r'url\(|@import', text) or not text.startswith('<!DOCTYPE html>\n<html lang="en">'):
        sys.exit('command.py: report: %s is not whole, or has something from outside: %s' % (name, page.open or outside))
    return text, page


def contents(path):
    with open(os.path.join(building.ROOT, path), 'rb') as source:
        return source.read()


def cells(page, head):
    """The rows of the one table with this head."""
    found = [table[1:] for table in page.tables if table[0][1] == list(head)]
    if len(found) != 1:
        sys.exit('command.py: report: %d tables have the head %s' % (len(found), head))
    return found[0]


def grouped(numbers):
    return ['{:,}'.format(number) for number in numbers]


def ceilings(contents, progress_rows, doublings):
    """The lines of the table of ceilings for plant A with the weights 2 and 1."""
    independent, pairs = Independent(), [(g, d) for g in progress_rows for d in doublings]
    plant = independent.plant(PLANT_A)
    return [('', grouped([g, d, *map(int, independent.quote(plant, [2, 1], contents, g, d).split()[1:])])) for g, d in pairs]


def hold_ceilings(page, owed):
    if cells(page, CEILINGS) != owed:
        sys.exit('command.py: report: the ceilings are %s' % cells(page, CEILINGS))


def hold_passed(folder):
    text, page = made(folder, 'passed.html', 'plant_a/plant.txt', '-w', 'request=2', 'answer=1', '-c', '3', '4', '--title', TITLE, '--date', '16 November')
    data, text_bytes = [contents('examples/plant_a/' + name) for name in ('plant.bin', 'plant.txt')]
    independent, plant = Independent(), Independent().plant(data)
    hold_ceilings(page, ceilings([3, 4], PROGRESS_ROWS, [0]))
    meanings = ('with empty buffers', 'for each unit of W', 'for each progress row', 'for each doubling')
    owed = [('', list(row)) for row in zip(('F', 'n', 'G', 'n × w'), independent.weigh(plant, [2, 1], 64).split()[1:], meanings)]
    if cells(page, ('figure', 'value', 'meaning')) != owed:
        sys.exit('command.py: report: the figures are otherwise')
    if cells(page, ('message type', 'weight', 'opening content')) != [('', ['request', '2', '3']), ('', ['answer', '1', '4'])]:
        sys.exit('command.py: report: the weights are otherwise')
    for part in (TITLE, '16 November', 'Passed', '10 + 2 × W + 9 × g + 4 × d', 'From any states and any contents of the buffers', 'the bound holds',
                 'Not proved:', 'at most g progress rows and at most d doublings', 'In a doubling the bus delivers one message twice', 'w the largest weight',
                 'plant file of 20 bytes', 'how many of the numbers 1, 2, 4, 8 and so on are not above', '2 machines, 2 types, 4 rows',
                 '2 × request + 1 × answer', 'version %d,' % binding.load().limits['VERSION'],
                 *(hashlib.sha256(one).hexdigest() for one in (data, text_bytes))):
        if part not in page.text:
            sys.exit('command.py: report: the page does not say %s' % part)
    if 'size: A4' not in text or any(name == 'red' for name, _ in cells(page, ('row', 'machine', 'leaves', 'enters', 'sends', 'takes', 'progress'))):
        sys.exit('command.py: report: the page is not for A4, or red without a cycle')


def hold_cycle(folder):
    text, page = made(folder, 'cycle.html', 'detour/plant.txt', '-w', '2', '1', status=1)
    tables = [table[1:] for table in page.tables if table[0][1][0] == 'row']
    red = [[row[0] for name, row in table if name == 'red'] for table in tables]
    if red != [['9', '13'], ['9', '13']] or [len(table) for table in tables] != [2, 14] or 'Not passed' not in page.text \
            or 'machine feeder' not in page.text or 'bound' in page.text:
        sys.exit('command.py: report: the cycle is told otherwise: %s' % red)
    if tables[1][:2] != [('', ['0', 'panel', 'waiting', 'asked', 'request', '', '']), ('', ['1', 'panel', 'asked', 'waiting', '', 'answer', '★'])]:
        sys.exit('command.py: report: the first rows are told as %s' % tables[1][:2])
    if cells(page, ('message type', 'weight')) != [('', ['request', '2']), ('', ['answer', '1'])]:
        sys.exit('command.py: report: the weights of the cycle are otherwise')
    for part in ('<title>plant</title>', 'of machine feeder, of 2 rows, weighs zero or more', 'of any machine, has fewer rows',
                 'every other such cycle has at least as many rows'):
        if part not in text:
            sys.exit('command.py: report: the page with the cycle does not say %s' % part)


def hold_both(folder):
    """A row that takes and sends has both types in the tables, and in the drawing the type that it takes first."""
    _, page = made(folder, 'both.html', 'feeder/plant.txt', '-w', '1', '1', status=1)
    owed = [('red', ['3', 'feeder', 'closed', 'open', 'receipt', 'order', '']), ('red', ['5', 'feeder', 'open', 'closed', '', '', ''])]
    tables = [table[1:] for table in page.tables if table[0][1][0] == 'row']
    if [len(table) for table in tables] != [2, 6] or tables[0] != owed or [tables[1][k] for k in (3, 5)] != owed:
        sys.exit('command.py: report: a row that takes and sends is told as %s' % tables)
    if shutil.which('dot') and ('3 ?order !receipt' not in page.text or 'it takes one, before it sends' not in page.text):
        sys.exit('command.py: report: a row that takes and sends is drawn otherwise')


def hold_arguments(folder):
    """The numbers of progress rows and doublings that are asked for; names that are no HTML; and all numbers are judged where the weights do not pass."""
    odd = os.path.join(folder, 'a<b>&.txt')
    with open(odd, 'wb') as out:
        out.write(contents('examples/plant_a/plant.txt'))
    text, page = made(folder, 'odd.html', odd, '-w', '2', '1', '-g', '5', '-g', '7', '6', '-d', '3', '0', '-d', '1000000')
    hold_ceilings(page, ceilings([0, 0], [5, 7, 6], [3, 0, 1000000]))
    if text.count('a&lt;b&gt;&amp;') != 3 or '<b>&' in text:
        sys.exit('command.py: report: the arguments are taken otherwise')
    for place, words in enumerate((('-c', '1000001', '0'), ('-c', '0', '1000001'), ('-g', '0', '1000001'), ('-d', '0', '1000001'))):
        done = command(folder, 'report', odd, '-w', '1', '1', *words, '-o', 'none.html')
        if done.returncode != 2 or 'refused 21 %d' % place not in done.stderr or os.path.exists(os.path.join(folder, 'none.html')):
            sys.exit('command.py: report: a number above the limit: %s' % (done,))


def hold_drawing(folder):
    """With Graphviz the page has its drawing, without it a line."""
    _, page = made(folder, 'bare.html', 'plant_a/plant.txt', '-w', '2', '1', path='')
    if 'svg' in page.names or 'No drawing: a picture needs Graphviz' not in page.text:
        sys.exit('command.py: report: without Graphviz')
    if shutil.which('dot'):
        _, page = made(folder, 'drawn.html', 'plant_a/plant.txt', '-w', '2', '1')
        if page.names.count('svg') != 1 or page.names.count('ellipse') != 4 or '1 ?answer ★' not in page.text or ('stroke', 'red') in page.attributes:
            sys.exit('command.py: report: the drawing is otherwise')
        _, page = made(folder, 'red.html', 'detour/plant.txt', '-w', '2', '1', status=1)
        if page.attributes.count(('stroke', 'red')) != 4:
            sys.exit('command.py: report: the cycle is not red in the drawing')


def hold_print(folder):
    """Chromium prints the pages on A4: 210 by 297 mm are 595 by 842 points."""
    browser = shutil.which('chromium')
    for name in ('passed', 'cycle') if browser else ():
        place = os.path.join(folder, name)
        subprocess.run([browser, '--headless', '--no-sandbox', '--disable-gpu', '--user-data-dir=' + os.path.join(folder, 'browser'),
                        '--print-to-pdf=%s.pdf' % place, place + '.html'], capture_output=True, timeout=120, check=True)
        with open(place + '.pdf', 'rb') as source:
            boxes = re.findall(rb'/MediaBox ?\[\s*0 0 ([\d.]+) ([\d.]+)\s*\]', source.read())
        if not boxes or len(boxes) > 3 or any(round(float(width)) != 595 or round(float(height)) != 842 for width, height in boxes):
            sys.exit('command.py: report: chromium prints %s.html on %s' % (name, boxes))
    return bool(browser)


def hold(folder):
    """Whether a browser was there."""
    hold_passed(folder)
    hold_cycle(folder)
    hold_both(folder)
    hold_arguments(folder)
    hold_drawing(folder)
    return hold_print(folder)
