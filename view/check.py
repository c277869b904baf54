#!/usr/bin/env python3
"""Checks the page view/index.html in a headless Chromium and a headless Firefox: view/check.py [--browser chromium | firefox] [--program PATH]
                                                                                  [--only NAME] [--pictures]

Journals of examples/, and of both families of journals/, are dropped on the page, and what it shows is read from its elements: how many rows each
link of the picture has, behind each line, and the rows of a link, at each line of a `show` or an `ask`. It is compared with what the
program printed there, and with a walk over the journal's lines by this script. Also: files that are no journal or break a
rule, with the line that `replay check` names; a file that is too large; windows from 390 to 2560 pixels with visible scroll bars, and letters of
200 %; what keys and the filter do; and in Chromium journals of 100,000 lines, with timings.

Status 0 where all is as expected, 1 where something differs, 2 where nothing was compared: no browser is installed, or NAME is none.
"""
import argparse
import collections
import glob
import ipaddress
import json
import os
import random
import re
import statistics
import subprocess
import sys
import tempfile

sys.dont_write_bytecode = True
HERE = os.path.dirname(os.path.abspath(__file__))
TOP = os.path.join(HERE, '..')
sys.path.insert(0, HERE)
sys.path.insert(0, os.path.join(TOP, 'python'))
import browser  # noqa: E402
import firefox  # noqa: E402
import large  # noqa: E402
from bgp import wire  # noqa: E402

BROWSERS = {'chromium': (browser.find, browser.Browser), 'firefox': (firefox.find, firefox.Firefox)}
# width, height and scale of windows: a telephone, a tablet, letters of 200 %, screens
WINDOWS = ((390, 844, 2), (768, 1024, 1), (640, 400, 2), (1280, 800, 1), (1920, 1080, 1), (2560, 1440, 1))
STORIES = ('two_peers', 'loss', 'comes_in_the_middle', 'lost_under_redistribution', 'sixteen_losses')
BOTH = ('both_families', 'second_losses')  # journals of two networks
JOURNALS = (*glob.glob(os.path.join(TOP, 'examples', '*')), os.path.join(HERE, 'journals'))  # a story stands in the folder of its topic

# What the page shows, read from its elements; put into the page, so that many questions cost one call.
PROBE = '''var probe = {
  counts: () => Object.fromEntries(Array.from(document.querySelectorAll('#picture [data-link]:not(.dead)'),
    drawn => [drawn.dataset.link, Number(drawn.querySelector('.rows').textContent)])),
  line: number => {
    const box = document.querySelector('#line');
    box.value = number;
    box.dispatchEvent(new Event('change'));
    return Number(document.querySelector('.line.present:not([hidden]) .number').textContent);
  },
  key: key => { document.body.dispatchEvent(new KeyboardEvent('keydown', {key, bubbles: true})); },
  rows: async () => {
    const list = document.querySelector('#rows .list');
    const found = new Map();
    for (list.scrollTop = 0; ; list.scrollTop += list.clientHeight / 2) {
      list.dispatchEvent(new Event('scroll'));
      const rows = Array.from(list.querySelectorAll('.row:not([hidden])'), row => [row.getBoundingClientRect().top, row]);
      for (const [, row] of rows.sort((one, other) => one[0] - other[0])) {
        found.set(row.children[0].textContent, row.children[1].textContent);
      }
      if (list.scrollTop + list.clientHeight >= list.scrollHeight - 1) return Array.from(found);
    }
  },
  table: async link => {
    const drawn = document.querySelector(`#picture [data-link="${link}"]:not(.dead)`);
    if (!drawn) return null;
    drawn.dispatchEvent(new MouseEvent('click', {bubbles: true}));
    const form = document.querySelector('#form');
    if (form.textContent === 'as printed') form.click();
    return probe.rows();
  },
  filled: prefix => {
    const box = document.querySelector('#filter');
    const filter = text => { box.value = text; box.dispatchEvent(new Event('input')); };
    filter(prefix);
    const found = Array.from(document.querySelectorAll('#picture .has'), drawn => drawn.dataset.link).sort();
    filter('');
    return found;
  },
  candidates: async prefix => {
    const box = document.querySelector('#filter');
    const filter = text => { box.value = text; box.dispatchEvent(new Event('input')); };
    filter(prefix);
    document.querySelector('#beside').click();
    const form = document.querySelector('#form');
    if (form.textContent === 'as printed') form.click();
    const found = await probe.rows();
    filter('');
    return found;
  },
  // where a scroll bar came or went, the picture follows in a frame that a busy machine may be late to draw
  layout: async () => {
    const end = performance.now() + 2000;
    while (probe.places().apart && performance.now() < end) await new Promise(done => requestAnimationFrame(done));
    return probe.places();
  },
  places: () => {
    const networks = Array.from(document.querySelectorAll('.network:not([hidden])'),
      network => ['.heads', '.lanes svg', '.core'].map(name => network.querySelector(name).getBoundingClientRect()));
    const page = document.documentElement;
    const out = Array.from(document.querySelectorAll('button, select, input, #says'), part => part.getBoundingClientRect())
      .filter(box => box.width && (box.left < 0 || box.right > page.clientWidth + 0.5));
    const says = document.querySelector('#says');
    return {
      wider: page.scrollWidth - page.clientWidth,
      apart: Math.max(...networks.flatMap(boxes => boxes.map(
        box => Math.abs(box.left - boxes[0].left) + Math.abs(box.right - boxes[0].right)))) > 0.6,
      out: out.length, cut: says.scrollHeight > says.clientHeight + 1 || says.scrollWidth > says.clientWidth + 1,
    };
  },
  all: async questions => {
    const answers = [];
    for (const [name, ...words] of questions) answers.push(await probe[name](...words));
    return answers;
  },
};'''
COMPLAINT = '''(box => box.hidden ? '' : box.textContent)(document.querySelector('#complaint'))'''
STEPS = '''(() => { const spent = []; for (const told of %s) { const begun = performance.now();
  if (typeof told === 'number') view.go(told); else view.step(...told);
  document.body.getBoundingClientRect(); spent.push(performance.now() - begun); } return spent; })()'''
REVEALED = '''(row => row !== null && row.children[0].textContent === "%s" &&
  row.getBoundingClientRect().bottom <= document.querySelector('#rows').getBoundingClientRect().bottom + 1
)(document.querySelector('#rows .row.found:not([hidden])'))'''
SHOWN_NETWORKS = '''Array.from(document.querySelectorAll('.network:not([hidden])'), network => network.id)'''
# the link that is marked as that of the present line, and whether its name and rows are within the picture
IN_VIEW = '''(() => { const [drawn] = document.querySelectorAll('#picture .link.now:not(.legend .link)');
  if (!drawn) return null;
  const [outer, inner] = [drawn.closest('.lanes') || document.querySelector('#picture'), drawn.querySelector('.touch')].map(part => part.getBoundingClientRect());
  const whole = document.querySelector('#picture').getBoundingClientRect();
  return [drawn.dataset.link, inner.top >= whole.top - 20 && inner.bottom <= whole.bottom + 20 && inner.bottom > outer.top && inner.top < outer.bottom];
})()'''
FRAMES = '''(async () => { view.go(1); document.querySelector('#speed').value = 4096; view.play(); let frames = 0;
  const begun = performance.now();
  while (performance.now() - begun < 2000) { await new Promise(requestAnimationFrame); frames++; }
  view.stop(); return [frames / 2, (view.line - 1) / 2]; })()'''

compared = collections.Counter()
faults = []


def expect(what, wanted, found):
    """Counts a comparison, and tells a difference."""
    if wanted == found:
        return
    faults.append(what)
    if isinstance(wanted, list) and isinstance(found, list):
        wanted, found = ([row for row in one if row not in other] or '%d in order' % len(one)
                         for one, other in ((wanted, found), (found, wanted)))
    if len(faults) <= 20:
        print('%s:\n  wanted %s\n  found  %s' % (what, str(wanted)[:300], str(found)[:300]))


class Walk:
    """The rows of each live link, line by line, by the journal's own words."""

    def __init__(self, lines):
        self.lines, self.line, self.links = lines, 0, {}

    def go(self, line):
        """Goes on to a line, the first of which is 1."""
        if line < self.line:
            self.line, self.links = 0, {}
        for text in self.lines[self.line:line]:
            word, *words = text.split(' ')
            if word == 'b':
                self.links[words[0]] = {}
            elif word == 'i':
                self.links[words[0]] = dict(self.links[words[1]])
            elif word in ('e', 'w'):
                del self.links[words[0]]
            elif word in ('+', '='):
                self.links[words[0]][words[1]] = words[-1]
            elif word == '-':
                del self.links[words[0]][words[1]]
        self.line = line

    def counts(self):
        """How many rows each link has."""
        return {name: len(rows) for name, rows in self.links.items()}

    def rows(self, name):
        """The rows of a link by address, then length."""
        return [list(row) for row in sorted(self.links[name].items(), key=lambda row: ipaddress.ip_network(row[0]))]


def lines_of(path):
    with open(path, encoding='latin-1', newline='') as file:
        text = file.read()
    return [line.rstrip('\r') for line in text.removesuffix('\n').split('\n')]


def example(name):
    return next(path for path in (os.path.join(folder, name) for folder in JOURNALS) if os.path.exists(path))


def examples(ending):
    """The files of that ending, in the order of their names."""
    found = [path for folder in JOURNALS for path in glob.glob(os.path.join(folder, '*' + ending))]
    return sorted(found, key=os.path.basename)


def open_page(page):
    page.open(os.path.join(HERE, 'index.html'))
    page.ask(PROBE)


def asked(page, *questions):
    """The answers of the page to questions of PROBE, in their order."""
    return page.ask('probe.all(%s)' % json.dumps(questions))


def open_file(page, path, drop=True):
    """Opens a file, in the page as it is; the complaint, or nothing."""
    page.failures.clear()
    if page.at is None:
        open_page(page)
    before = page.ask('view.opened')
    (page.drop if drop else page.choose)(path)
    page.wait('view.opened > %d' % before)
    return page.ask(COMPLAINT)


def check_answers(page, name, lines):
    """What `show` and `ask` printed, beside what the page shows at those lines."""
    told, wanted, questions = [], [], []
    for number, line in enumerate(lines, 1):
        words = line.split(' ')
        if words[0] == 'row':
            told.append(words[2:4])
        elif words[0] in ('rows', '?'):
            questions += [['line', number], ['table', words[1]]]
            wanted.append((number, line, words, told))
            told = []
    answers = asked(page, *questions)
    for place, (number, line, words, told) in enumerate(wanted):
        expect('%s:%d line' % (name, number), number, answers[2 * place])
        rows = answers[2 * place + 1]
        if words[0] == 'rows':
            expect('%s:%d %s' % (name, number, line), told, rows)
            compared['tables of show'] += 1
            compared['rows of them'] += len(told)
        else:
            expect('%s:%d %s' % (name, number, line), words[3], dict(map(tuple, rows or [])).get(words[2], '-'))
            compared['answers of ask'] += 1


def check_each_line(page, name, lines):
    """How many rows each link has, behind each line: forward by key, then back; and some lines at random."""
    walk = Walk(lines)
    for key, numbers in (('ArrowRight', range(2, len(lines) + 1)), ('ArrowLeft', range(len(lines) - 1, 0, -1))):
        page.ask('probe.line(%d)' % (numbers[0] - (1 if key == 'ArrowRight' else -1)))
        answers = asked(page, *(question for _ in numbers for question in (['key', key], ['counts'])))[1::2]
        for number, found in sorted(zip(numbers, answers)):
            walk.go(number)
            expect('%s:%d rows of all links, %s' % (name, number, key), walk.counts(), found)
            compared['lines, all counts'] += 1
    page.ask('probe.line(1)')
    for key in ('ArrowRight', 'ArrowDown', 'PageDown', 'ArrowLeft', 'Home', 'End'):
        page.press(key)
    expect('%s: the line that keys come to' % name, len(lines), page.ask('view.line'))
    for _ in range(6):
        check_any_line(page, name, walk, random.randint(1, len(lines)))
    if len(lines) < 300 or name in BOTH:
        for link in ('6.best', '6.fib', '6.adv.2.1') if name in BOTH else ('best', 'fib', 'adv.2.1'):
            check_kept_table(page, name, walk, link)


def check_kept_table(page, name, walk, link):
    """The rows of a link that stays the chosen one: forward by key and back."""
    begin = next((number for number, text in enumerate(walk.lines, 1) if text.split(' ')[1:2] == [link]), None)
    if begin is None:
        return
    asked(page, ['line', begin], ['table', link])
    for key, numbers in (('ArrowRight', range(begin + 1, len(walk.lines) + 1)),
                         ('ArrowLeft', range(len(walk.lines) - 1, begin - 1, -1))):
        answers = asked(page, *(question for _ in numbers for question in (['key', key], ['rows'])))[1::2]
        for number, found in sorted(zip(numbers, answers)):
            walk.go(number)
            expect('%s:%d %s, kept' % (name, number, link), walk.rows(link) if link in walk.links else [], found)
            compared['tables of the walk'] += 1


def check_any_line(page, name, walk, number, most=40):
    """All counts behind a line, the rows of links that are live there, and the links that have a row at a prefix."""
    walk.go(number)
    links = random.sample(sorted(walk.links), min(len(walk.links), most))
    prefixes = sorted({prefix for rows in walk.links.values() for prefix in rows})
    prefixes = random.sample(prefixes, min(len(prefixes), 3))
    counts, *answers = asked(page, ['line', number], ['counts'], *(['table', link] for link in links),
                             *(['filled', prefix] for prefix in prefixes))[1:]
    expect('%s:%d rows of all links' % (name, number), walk.counts(), counts)
    compared['lines, all counts'] += 1
    for link, found in zip(links, answers):
        expect('%s:%d %s' % (name, number, link), walk.rows(link), found)
        compared['tables of the walk'] += 1
    for prefix, found in zip(prefixes, answers[len(links):]):
        filled = sorted(link for link, rows in walk.links.items() if prefix in rows)
        expect('%s:%d filled at %s' % (name, number, prefix), filled, found)
        compared['links with a row at a prefix'] += 1


def check_stories(page, only):
    """The journals that have a `show` or an `ask`."""
    for path in examples('.events'):
        name = os.path.basename(path)[:-len('.events')]
        path = example(name + '.out')
        lines = lines_of(path)
        if only not in (None, name) or not any(line.startswith('b ') for line in lines):
            continue
        if not any(line.startswith(('rows ', '? ')) for line in lines) and name not in STORIES + BOTH:
            continue
        expect('%s opens' % name, '', open_file(page, path))
        check_answers(page, name, lines)
        if name in STORIES + BOTH:
            check_each_line(page, name, lines)
        compared['journals of stories'] += 1
        expect('%s: errors of the page' % name, [], page.failures)


def check_verdicts(page):
    """The journals that `replay check` judges: the page names the same line and rule."""
    for path in examples('.journal'):
        name = os.path.basename(path)
        verdict = lines_of(path[:-len('.journal')] + '.out')[0].split(' ')
        said = open_file(page, path)
        if verdict[0] == 'lawful':
            expect(name, '', said)
        elif verdict[0] == 'broken':
            expect(name, 'Line %s breaks rule %s' % tuple(verdict[1:]), said[:len('Line  breaks rule ') + len(''.join(verdict[1:]))])
        elif os.path.getsize(path):
            expect(name, '%s is no journal: line %s ' % (name, verdict[1]), said[:len(name) + 22 + len(verdict[1])])
        else:
            expect(name, '%s is empty.' % name, said)
        compared['verdicts of check'] += 1
        expect('%s: errors of the page' % name, [], page.failures)


def check_no_journals(page, folder):
    """Files that aren't journals, and one that is too large."""
    binary = os.path.join(folder, 'binary')
    with open(binary, 'wb') as file:
        file.write(random.Random(7).randbytes(20000000).replace(b'\n', b'x'))
    huge = os.path.join(folder, 'huge')
    with open(huge, 'wb') as file:
        file.truncate(1 << 30)
    cases = [(os.path.join(TOP, 'README.md'), 'README.md is no journal: line 1 begins with no word of a journal (“# replay”).'),
             (example('loss.events'), 'loss.events is an event file, not a journal. Run it, replay run < loss.events > journal, and drop the file'),
             (example('four_octets.events'), 'four_octets.events is an event file, not a journal. Run it, '),
             (binary, 'binary is no journal: line 1 has '),
             (huge, 'huge has 1,024 MiB; this page takes at most 64 MiB')]
    for path, wanted in cases:
        for drop in (True, False):
            begun = page.now()
            said = open_file(page, path, drop)
            expect(path, wanted, said[:len(wanted)])
            if page.now() - begun > 5:
                expect('seconds to say so of %s' % path, 'at most 5', page.now() - begun)
            compared['files that are no journal'] += 1
    quiet = os.path.join(folder, 'quiet')
    with open(quiet, 'w', encoding='ascii') as file:
        file.write('idle 3\nrows best 0\n')
    expect('quiet', 'quiet has no line of a journal', open_file(page, quiet)[:30])
    compared['files that are no journal'] += 1


class Timings:
    """What takes how long on the page, by the clock and by the CPU time of the browser."""

    def __init__(self, page):
        self.page, self.told = page, []

    def steps(self, what, moves, count):
        """Some moves, one by one: lines to jump to, or units and directions of steps."""
        before = self.page.seconds()
        found = self.page.ask(STEPS % moves)
        spent = (self.page.seconds() - before) / count * 1000
        self.told.append('%s %.1f ms (worst %.1f; CPU %.1f)' % (what, statistics.median(found), max(found), spent))


def check_large(page, name, path):
    """A large journal: some lines by the walk, and timings."""
    lines = lines_of(path)
    open_page(page)
    before = page.seconds()
    page.choose(path)
    page.wait('view.opened > 0')
    expect('%s opens' % name, '', page.ask(COMPLAINT))
    timings = Timings(page)
    timings.told.append('loaded in %.2f s (CPU %.2f)' % (page.ask('view.seconds'), page.seconds() - before))
    walk = Walk(lines)
    for number in sorted(random.sample(range(1, len(lines) + 1), 12)) + [len(lines) // 3]:
        check_any_line(page, name, walk, number, most=2)
    page.ask('view.choose("best"); view.go(%d)' % (len(lines) // 2))
    for what, unit, direction in (('a line on', 'line', 1), ('a line back', 'line', -1), ('a fall on', 'fall', 1),
                                  ('an event back', 'event', -1)):
        timings.steps(what, 'Array(200).fill(["%s", %d])' % (unit, direction), 200)
    timings.steps('a jump', [random.randint(1, len(lines)) for _ in range(100)], 100)
    begun = page.ask('performance.now()')
    page.ask('view.setFilter("adv.2")')
    timings.told.append('a filter %.0f ms' % (page.ask('performance.now()') - begun))
    page.ask('view.setFilter("")')
    timings.told.append('in play %d frames and %d lines a second' % tuple(page.ask(FRAMES)))
    print('%s, %d lines, %.1f MiB: %s' % (name, len(lines), os.path.getsize(path) / 2 ** 20, '; '.join(timings.told)))
    expect('%s: errors of the page' % name, [], page.failures)


def check_large_ones(page, folder, program):
    """A large journal by large.py, and one by the program where it is built."""
    path = os.path.join(folder, 'table')
    with open(path, 'w', encoding='ascii') as file:
        large.write(file, 100000)
    check_large(page, 'by large.py', path)
    if not os.path.exists(program):
        print('%s is not there: no journal of `replay gen` was opened' % os.path.relpath(program))
        return
    path = os.path.join(folder, 'gen')
    with open(path, 'wb') as file:
        subprocess.run([program, 'gen', '7', '9000'], stdout=file, check=True)
    check_large(page, 'by replay gen 7 9000', path)


def check_layout(made, program):
    """In each window: nothing is wider than it, the parts of the picture are one below the other, all buttons are in it, no sentence is cut."""
    whole = {'wider': 0, 'apart': False, 'out': 0, 'cut': False}
    for width, height, scale in WINDOWS:
        with made(program, width, height, scale=scale) as page:
            for name, count in (('loss', 60), ('sixty_four_peers', 8), ('cluster_list_of_1000', 8), ('both_families', 40)):
                expect('opens', '', open_file(page, example(name + '.out')))
                expect('width of the window', width, page.ask('innerWidth'))
                last = page.ask('view.journal.last')
                for line in sorted(random.sample(range(1, last + 1), min(count, last))):
                    expect('%s at %d: line %d' % (name, width, line), whole, page.ask('view.go(%d); probe.layout()' % line))
                    compared['windows, lines'] += 1


# ---- keys, the filter and what lines say

def check_actions(page, folder):
    """Tab, Enter, the filter by prefix and by AS, the candidates at a prefix, and messages in words."""
    open_page(page)
    page.press('Tab')
    expect('Tab comes to', 'open', page.focused())
    for name in STORIES + BOTH + ('each_step', 'four_octets', 'never_sent', 'faults_in_messages'):
        lines = lines_of(example(name + '.out'))
        expect('%s opens' % name, '', open_file(page, example(name + '.out')))
        check_candidates(page, name, lines)
        check_numbers(page, name, lines)
        check_messages(page, name, lines)
        check_addresses(page, name, lines)
    check_networks(page)
    check_keys(page)
    check_revealed(page, folder)
    expect('errors of the page', [], page.failures)


def check_candidates(page, name, lines):
    """All routes that the decision compares at a prefix, side by side."""
    walk = Walk(lines)
    for number in sorted(random.sample(range(1, len(lines) + 1), min(len(lines), 30))):
        walk.go(number)
        best = [(tag, prefix) for tag in ('', '6.') for prefix in sorted(walk.links.get(tag + 'best', {}))]
        for tag, prefix in random.sample(best, min(2, len(best))):
            links = [link for link in walk.links if link == tag + 'red' or link.startswith(tag + 'res.')]
            links.sort(key=lambda link: int(link.rpartition('res.')[2]) if 'res.' in link else 0)
            wanted = [[link, walk.links[link][prefix]] for link in links if prefix in walk.links[link]]
            found = asked(page, ['line', number], ['candidates', prefix])[1]
            expect('%s:%d candidates at %s' % (name, number, prefix), wanted, found)
            compared['candidates'] += 1


def numbers_of(line):
    """The AS numbers in the paths of a line's values."""
    words = line.split(' ')
    values = words[3:] if words[0] in ('+', '-', '=', '?') else []
    paths = [path for value in values for path in re.findall(r'(?:^|[:,])p((?:[({][0-9.]*[)}])+)(?:,|$)', value)]
    return {asn for path in paths for asn in re.findall('[0-9]+', path)}


def check_numbers(page, name, lines):
    """The filter by an AS number: the lines of which a value has it in its path."""
    for asn in sorted(set().union(*map(numbers_of, lines)))[:3]:
        wanted = [number for number, line in enumerate(lines, 1) if asn in numbers_of(line)]
        found = page.ask('view.setFilter("AS%s"); Array.from(view.matches)' % asn)
        expect('%s: lines of AS %s' % (name, asn), wanted, found)
        compared['filters by AS'] += 1
    page.ask('view.setFilter("")')


def check_addresses(page, name, lines):
    """The filter by an address: the lines of which the prefix holds it; and by a prefix of IPv6 that is written shorter than it is printed."""
    prefixes = {number: ipaddress.ip_network(line.split(' ')[2]) for number, line in enumerate(lines, 1) if line[0] in '+-=?'}
    for network in random.sample(sorted(set(prefixes.values()), key=str), min(4, len(set(prefixes.values())))):
        address = network[random.randrange(min(network.num_addresses, 1000))]
        wanted = [number for number, one in prefixes.items() if one.version == address.version and address in one]
        found = page.ask('view.setFilter("%s"); Array.from(view.matches)' % address)
        expect('%s: lines of %s' % (name, address), wanted, found)
        wanted = [number for number, one in prefixes.items() if one == network]
        found = page.ask('view.setFilter("%s"); Array.from(view.matches)' % network)
        expect('%s: lines of %s' % (name, network), wanted, found)
        compared['filters by address'] += 2
    page.ask('view.setFilter("")')


def check_networks(page):
    """A journal of one family has one picture, as before; one of both has two, and the link of the present line is in view."""
    for name in STORIES[:1] + BOTH:
        expect('%s opens' % name, '', open_file(page, example(name + '.out')))
        expect('%s: networks' % name, ['first', 'second'][:1 + (name in BOTH)], page.ask(SHOWN_NETWORKS))
        lines = lines_of(example(name + '.out'))
        for number, line in enumerate(lines, 1):
            words = line.split(' ')
            if words[0] not in '+-=?' or number % 3:
                continue
            wanted = [words[1], True]
            expect('%s:%d in view' % (name, number), wanted, page.ask('view.go(%d); view.keepInView(); %s' % (number, IN_VIEW)))
            compared['links in view'] += 1
    expect('errors of the page', [], page.failures)


def check_messages(page, name, lines):
    """UPDATEs and NOTIFICATIONs in words, beside what python/bgp/wire.py reads out of their octets."""
    with open(example(name + '.events'), encoding='latin-1') as file:
        width = 4 if 'as4' in file.read().split('\n') else 2
    for number, line in enumerate(lines, 1):
        words = line.split(' ')
        if words[0] not in ('out', 'note'):
            continue
        said = page.ask('lineInWords(view.journal, %d).join(" ")' % number)
        wanted = list(in_words(words[0], bytes.fromhex(words[2])[19:], width))
        expect('%s:%d %s' % (name, number, said), [], [one for one in wanted if one not in said])
        compared['messages in words'] += 1


def in_words(kind, body, width):
    """What has to be said of a message."""
    if kind == 'note':
        yield '%d/%d, ' % (body[0], body[1])
        return
    found = wire.update(body)
    if found.withdrawn:
        yield 'withdraws ' + ', '.join(found.withdrawn)
    if found.announced:
        yield 'announces ' + ', '.join(found.announced)
        said = wire.of_family(found.attributes, wire.family(found.announced[0]))
        yield 'next hop ' + wire.address(said[wire.NEXT_HOP][1])
        yield 'AS path ' + (re.sub('[().]+', ' ', wire.path(found.attributes[wire.AS_PATH][1], width)).strip() or 'empty')


def check_keys(page):
    """Enter leaves the filter, Escape takes it away, c shows the candidates."""
    page.press('/', '/')
    expect('/ comes to', 'filter', page.focused())
    page.ask('document.querySelector("#filter").value = "10.0.0.0/8"; view.setFilter("10.0.0.0/8")')
    page.press('Enter')
    expect('Enter leaves the filter', ['', '10.0.0.0/8'], [page.focused(), page.ask('document.querySelector("#filter").value')])
    page.press('/', '/')
    page.press('Escape')
    expect('Escape takes the filter away', ['', ''], [page.focused(), page.ask('document.querySelector("#filter").value')])
    compared['keys'] += 3


def check_revealed(page, folder):
    """A prefix as filter moves the table to its row."""
    path = os.path.join(folder, 'rows')
    with open(path, 'w', encoding='ascii') as file:
        large.write(file, 8000)
    expect('opens', '', open_file(page, path))
    page.ask('view.go(view.journal.last); view.choose("best"); 0')
    prefixes = page.ask('view.table.ranks.map((_, place) => view.table.nameOf(place))')
    for prefix in (prefixes[-1], prefixes[0], prefixes[len(prefixes) // 2]):
        page.ask('view.setFilter("%s"); 0' % prefix)
        page.wait(REVEALED % prefix, 5)
        compared['rows of a filter'] += 1
    page.ask('view.setFilter(""); 0')


def check(name, program, words):
    """All parts that are asked for, in one browser."""
    made = BROWSERS[name][1]
    with tempfile.TemporaryDirectory() as folder, made(program) as page:
        parts = {'stories': lambda: check_stories(page, None), 'verdicts': lambda: check_verdicts(page),
                 'refusals': lambda: check_no_journals(page, folder), 'actions': lambda: check_actions(page, folder),
                 'layout': lambda: check_layout(made, program)}
        if name == 'chromium':
            parts['large'] = lambda: check_large_ones(page, folder, words.program)
        if words.only not in (None, *parts):
            check_stories(page, words.only)
        for part, run in parts.items():
            if words.only in (None, part):
                run()


def main():
    parser = argparse.ArgumentParser(description=__doc__.split('\n')[0])
    parser.add_argument('--program', default=os.path.join(TOP, 'crates/replay_main/out/replay_main'),
                        help='the built program, for a large journal of its own (gen); without it that one is left out')
    parser.add_argument('--only', metavar='NAME', help='a story alone, or stories, verdicts, refusals, actions, layout, large')
    parser.add_argument('--browser', choices=sorted(BROWSERS), help='one of the two alone')
    parser.add_argument('--pictures', action='store_true', help='write the pictures of docs/pictures/ and check nothing')
    words = parser.parse_args()
    there = {name: find() for name, (find, _) in BROWSERS.items() if words.browser in (None, name) and find()}
    if not there:
        print('No browser is installed (Debian: apt-get install chromium firefox-esr), so nothing was checked.')
        sys.exit(2)
    if words.pictures:
        import pictures
        pictures.write(browser.find())
        return
    for name, program in there.items():
        random.seed(1)
        check(name, program, words)
        print('%s: compared: %s' % (name, ', '.join('%s %d' % (key, compared[key]) for key in compared)))
        if not compared:
            print('there is no %s' % words.only)
            sys.exit(2)
        compared.clear()
    print('%d differences' % len(faults))
    sys.exit(1 if faults else 0)


if __name__ == '__main__':
    main()
