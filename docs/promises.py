#!/usr/bin/env python3
"""What each public function promises, by name: docs/promises.py [NAME | --write]

From the sources of each library, in the order of crates.txt: what its root file says first, and of each public function the names
of its clauses and the first sentence of its `///`. Public is what the root file has or gives to others: the words of its `pub use`,
all of a `pub mod`, the public functions of these types, and the functions of these traits, with the types that meet them, and what
these have clauses of their own for. A clause is one `ensures`; one without a name is shown itself, and what comments between
clauses say stands with those behind it. What a function asks for is the names of its `requires`.

Without a word it prints docs/PROMISES.md, which --write writes; docs/check.py compares. With a NAME it prints the functions of that
name, with their contracts as they stand in the source.
"""
import glob
import os
import re
import sys
import textwrap

TOP = os.path.join(os.path.dirname(os.path.abspath(__file__)), '..')
PAGE = 'docs/PROMISES.md'
WIDTH = 100
HEAD = """# The promises, by name

Each public function of each library, with the names of the clauses of its contract and the first
sentence of what its source says; from the sources, by docs/promises.py, which writes this page
whole. docs/PROOFS.md says what all of them come to, and what a reader has to believe.

The crates stand in reading order (crates.txt), those that others stand on first; the top call is
`replay`, near the end. `name: clauses; asks premises. Words`: a clause without a name is shown
itself, in the language of contracts (docs/READING.md), and so is a premise. The contract stands
in `crates/NAME/src`, and `docs/promises.py name` prints it. %d functions have %d clauses; a type
that meets a trait has those of the trait's functions.
"""
FUNCTION = re.compile(r'(\s*)(pub )?(?:const )?fn (\w+)')
TYPE = re.compile(r'pub (?:struct|enum) (\w+)')
TRAIT = re.compile(r'pub trait (\w+)')
IMPL = re.compile(r'impl(?:<.*?>)? (?:(\w+)(?:<.*?>)? for )?(?:&(?:\'\w+ )?)?(\w+)')
CLAUSE = re.compile(r'\s*(ensures|requires)\*?(?: (\w+))? \{(.*)$')
SENTENCE = re.compile(r'(.*?[.?!])(?=\s+[A-Z`(\[]|$)')


def read(path):
    with open(os.path.join(TOP, path), encoding='utf-8') as file:
        return file.read()


def sentence(text):
    """The first sentence of a comment, without the targets of its links."""
    text = re.sub(r'\[`(?:crate::)?([^`]*)`\](?:\([^)]*\))?', r'`\1`', ' '.join(text.split()))
    found = SENTENCE.match(text)
    return found[1] if found else text and text + '.'


def crates():
    """The crates, in the order of crates.txt."""
    return [line.split(':')[0] for line in read('crates.txt').split('\n') if ':' in line and not line.startswith('#')]


class Function:
    """One function: its name, its doc, its clauses with the comments before them, and the lines of its contract."""

    def __init__(self, path, owner, met, name, doc):
        self.path, self.owner, self.met, self.name, self.doc = path, owner, met, name, doc
        self.promises, self.asks, self.lines, self.remark = [], [], [], ''

    def take(self, line):
        """Takes a line of the head, and says whether it is the last one."""
        self.lines.append(line)
        found = CLAUSE.match(line)
        if line.strip().startswith('//'):
            self.remark += ' ' + line.strip()[2:].strip()
        elif found:
            self.open = [found[2], found[3]]
            (self.promises if found[1] == 'ensures' else self.asks).append((self.open, self.remark.strip()))
            self.remark = ''
        elif self.promises or self.asks:
            self.open[1] += ' ' + line.strip()
        # the head ends where its body begins, which stands in a line of its own behind clauses, or with a semicolon
        none = not self.promises and not self.asks
        return line.rstrip().endswith((';', '{}')) or line.strip() == '{' or none and line.rstrip().endswith('{')


def shown(clauses):
    """Pairs of a clause, by name or else itself, and the remark before it."""
    for (name, text), remark in clauses:
        text = ' '.join(re.sub(r'\}[;\s]*(\{\s*\}?\s*)?$', '', text.strip()).split())
        yield '`%s`' % (name or text), remark


class Crate:
    """What a crate's sources have: functions by owner (a type, a trait, or none), docs of types, and what meets which trait."""

    def __init__(self, name):
        self.name, self.functions, self.docs, self.traits, self.meets, self.given = name, [], {}, [], [], set()
        self.homes = {}
        for path in sorted(glob.glob(os.path.join(TOP, 'crates', name, 'src', '**', '*.rt'), recursive=True)):
            self.read(os.path.relpath(path, TOP))
        root = read('crates/%s/src/lib.rt' % name).split('\n')
        doc = [line[3:].strip() for line in root if line.startswith('//!')]
        self.doc = sentence(' '.join(doc[:doc.index('')] if '' in doc else doc))
        flat = re.sub(r'//.*', '', '\n'.join(root)).replace('\n', ' ')
        self.given |= {word.strip().split(' as ')[0] for use in re.findall(r'(?<!ghost )pub use (?:\w+::)+(\w+|\{[^}]*\})', flat)
                      for word in use.strip('{}').split(',') if word.strip()}
        self.whole = ['crates/%s/src/%s.rt' % (name, it) for it in ['lib'] + re.findall(r'pub mod (\w+);', flat)]

    def read(self, path):
        owner, met, doc, function = None, None, [], None
        for line in read(path).split('\n'):
            if function:
                if function.take(line):
                    function = None
                continue
            found = FUNCTION.match(line)
            if line.strip().startswith('///'):
                doc.append(line.strip()[3:].strip())
            elif line.startswith('}'):
                owner, met, doc = None, None, []
            elif line.startswith('impl'):
                met, owner = IMPL.match(line).groups()
                doc = []
                if met:
                    self.meets.append((met, owner))
            elif TYPE.match(line) or TRAIT.match(line):
                trait = TRAIT.match(line)
                name = (trait or TYPE.match(line))[1]
                self.docs[name] = sentence(self.paragraph(doc))
                self.homes[name] = path
                self.given |= {name} if path.endswith('/src/lib.rt') else set()
                owner, met, doc = name if trait else None, None, []
                if trait:
                    self.traits.append(name)
            elif found:
                if (found[2] or owner in self.traits or met) and len(found[1]) == (4 if owner else 0):
                    function = Function(path, owner, met, found[3], sentence(self.paragraph(doc)))
                    self.functions.append(function)
                    if function.take(line):
                        function = None
                doc = []
            elif line.strip() and not line.strip().startswith(('#', '//')):
                doc = []

    @staticmethod
    def paragraph(doc):
        return ' '.join(doc[:doc.index('')] if '' in doc else doc)

    def public(self):
        """The public functions, by owner: those of no type first, then those of types in the order of the files; of a type first those
        that stand in its own file."""
        owners = {None: []}
        for it in self.functions:
            if ((it.owner or it.name) in self.given or it.path in self.whole) and (it.promises or not it.met):
                owners.setdefault(it.owner, []).append(it)
        for owner, found in owners.items():
            found.sort(key=lambda it: it.path != self.homes.get(owner))
        return {owner: found for owner, found in owners.items() if found}


def filled(text, indent, first):
    """A paragraph in lines; none of them begins as another kind of paragraph does."""
    text = re.sub(r' (?=(?:[-+*>#=|]+|\d+[.)])(?:\s|$))', '\0', text)
    whole = {'break_on_hyphens': False, 'break_long_words': False}
    lines = textwrap.wrap(text, WIDTH, initial_indent=first, subsequent_indent=indent, **whole)
    return [line.replace('\0', ' ') for line in lines]


def told(function):
    """The lines of one function."""
    promises, asks = list(shown(function.promises)), [it for it, _ in shown(function.asks)]
    flat = [it for it, _ in promises] if not any(remark for _, remark in promises) else []
    head = '`%s`' % function.name + (', of `%s`' % function.met if function.met else '')
    head += ': ' + ', '.join(flat) if flat else ''
    head += ('; ' if flat else ', ') + 'asks ' + ', '.join(asks) if asks else ''
    lines = filled(head.rstrip('.') + '. ' + function.doc, '  ', '- ')
    groups = []
    for clause, remark in promises if not flat else []:
        if remark or not groups:
            groups.append(([], remark))
        groups[-1][0].append(clause)
    for clauses, remark in groups:
        lines += filled(', '.join(clauses) + (': ' + remark if remark else ''), '    ', '  - ')
    return lines


def page():
    """The lines of docs/PROMISES.md."""
    libraries = [Crate(it) for it in crates() if os.path.isfile(os.path.join(TOP, 'crates', it, 'src', 'lib.rt'))]
    libraries = [it for it in libraries if not it.name.endswith(('_tests', '_rows'))]
    meets = {}
    for crate in libraries:
        for trait, name in crate.meets:
            meets.setdefault(trait, {}).setdefault(name, crate.name)
    out, functions, clauses = [], 0, 0
    for crate in libraries:
        public = crate.public()
        if not public:
            continue
        out += ['', '## `%s`' % crate.name, ''] + filled(crate.doc, '', '')
        for owner, found in public.items():
            functions, clauses = functions + len(found), clauses + sum(len(it.promises) for it in found)
            out.append('')
            if owner:
                kind = 'the trait ' if owner in crate.traits else ''
                out += filled('Of %s`%s`. %s' % (kind, owner, crate.docs.get(owner, '')), '', '')
                if owner in crate.traits and owner in meets:
                    out += filled('It is met by ' + ', '.join('`%s`' % it for it in sorted(meets[owner])) + '.', '', '')
                out.append('')
            for it in found:
                out += told(it)
    return (HEAD % (functions, clauses)).rstrip('\n').split('\n') + out + ['']


def faults():
    """Pairs of line number in docs/PROMISES.md and complaint."""
    said = read(PAGE).split('\n') if os.path.isfile(os.path.join(TOP, PAGE)) else []
    wanted = page()
    if said != wanted:
        at = next((n for n, pair in enumerate(zip(said, wanted)) if pair[0] != pair[1]), min(len(said), len(wanted)))
        yield at + 1, 'not what docs/promises.py writes: docs/promises.py --write mends it'


def main(words):
    if words == ['--write']:
        with open(os.path.join(TOP, PAGE), 'w', encoding='utf-8') as file:
            file.write('\n'.join(page()))
    elif words:
        for crate in map(Crate, [it for it in crates() if os.path.isfile(os.path.join(TOP, 'crates', it, 'src', 'lib.rt'))]):
            for it in crate.functions:
                if words[0] in (it.name, '%s::%s' % (it.owner, it.name), '%s::%s' % (crate.name, it.name)):
                    print('\n'.join([it.path + (': ' + it.owner if it.owner else '')] + it.lines))
    else:
        print('\n'.join(page()), end='')


if __name__ == '__main__':
    main(sys.argv[1:])
