#!/usr/bin/env python3
"""Compares the names in the documents with what there is: docs/names.py (docs/check.py asks for the same).

Outside of fences, in README.md, CONTRIBUTING.md, docs/*.md and bench/README.md:

- a path under crates/, docs/, bench/, examples/, wrong-bodies/ or a folder of scripts exists (those with NAME or `*` in them, and built
  ones aside)
- `CRATE/specs/Name.antt`, `CRATE/src/name.rt` and the like exist in that crate; without a crate in front, in one of them
- the words behind a file, as in `replay/specs/Heard.antt (`AreHeard`)` and `(`AreHeard`, crates/replay/specs/Heard.antt)`, stand
  in it
- `crate::function` is a function of that crate, `Type::function` one of a crate that declares the type, `Type::Variant` a word there
- another word in backticks that has a `_`, or capitals and small letters, stands somewhere in the sources
- `docs/PAGE.md, "Title"` names a heading of that page
- words in backticks behind `story` or `stories` are stories, that is, files in the folders of examples/
"""
import glob
import os
import re
import sys

TOP = os.path.join(os.path.dirname(os.path.abspath(__file__)), '..')
PATH = re.compile(r'(?<![\w/.])((?:crates|docs|bench|beside|captures|examples|live|python|reasons|view|wrong-bodies)/[\w*./-]*[\w*/])')
PART = re.compile(r'(?<![\w/.-])(?:(\w+)/)?(specs|src|proofs)/(\w+)(\.antt|\.rt)?(?![\w/])')
OF_FILE = re.compile(r'(\w+)/specs/(\w+)(?:\.antt)? \((`\w+`(?:,\s+`\w+`)*)\)')
IN_FILE = re.compile(r'\((`\w+`(?:,\s+`\w+`)*),\s+(?:crates/)?(\w+)/specs/(\w+)\.antt\)')
STORY = re.compile(r'\bstor(?:y|ies)\s+((?:`\w+`(?:,\s+)?)+)')
SECTION = re.compile(r'docs/(\w+)\.md,\s+"([^"]+)"')
WORD = re.compile(r'`([A-Za-z]\w*(?:::[A-Za-z]\w*)*)(?:\(\))?`')
MIXED = re.compile(r'.*_|[A-Z].*[a-z]')


def pages():
    """The documents, by their paths."""
    found = ['README.md', 'CONTRIBUTING.md', 'bench/README.md']
    found += sorted(os.path.relpath(it, TOP) for it in glob.glob(os.path.join(TOP, 'docs', '*.md')))
    return [it for it in found if os.path.isfile(os.path.join(TOP, it))]


def read(path):
    with open(os.path.join(TOP, path), encoding='utf-8') as file:
        return file.read()


def unfenced(text):
    """The text with its fences, and with their lines empty."""
    lines, fence = text.split('\n'), False
    for number, line in enumerate(lines):
        if line.strip().startswith('```'):
            fence, lines[number] = not fence, ''
        elif fence:
            lines[number] = ''
    return '\n'.join(lines)


class Sources:
    """The words of all sources, and the functions and types of each crate."""

    def __init__(self):
        self.words, self.functions, self.types, self.code, self.proofs, self.lemmas = set(), {}, {}, {}, [], None
        rooms = ('src', 'specs', 'proofs', 'must-fail', 'data')
        for path in [it for room in rooms for it in glob.glob(os.path.join(TOP, 'crates', '*', room, '**', '*.*'), recursive=True)]:
            crate, room = os.path.relpath(path, TOP).split('/')[1:3]
            self.words.update((crate, os.path.basename(path).split('.')[0]))
            if room == 'proofs' and path.endswith('.antt'):
                self.proofs.append(path)
            elif room in ('src', 'specs') and path.endswith(('.rt', '.antt')):
                with open(path, encoding='utf-8') as file:
                    text = file.read()
                words = re.findall(r'[A-Za-z]\w*', text)
                self.words.update(words)
                if room == 'src':
                    self.code.setdefault(crate, set()).update(words)
                    self.functions.setdefault(crate, set()).update(re.findall(r'\bfn (\w+)', text))
                    self.types.setdefault(crate, set()).update(re.findall(r'\b(?:struct|enum|trait|type) (\w+)', text))
        scripts = [it for depth in ('*', '*/*') for it in glob.glob(os.path.join(TOP, depth, '*.py'))]
        for path in scripts + glob.glob(os.path.join(TOP, 'wrong-bodies', '*', '*.edit')):
            self.words.add(os.path.basename(path).split('.')[0])
            if path.endswith('.py'):
                with open(path, encoding='utf-8') as file:
                    self.words.update(re.findall(r'[A-Za-z]\w*', file.read()))

    def has_lemma(self, name):
        """Whether a proof has this word: few words that documents name stand in proofs alone, so these aren't parted into words."""
        if self.lemmas is None:
            self.lemmas = ' ' + ' '.join(read(os.path.relpath(path, TOP)) for path in self.proofs)
        # (a pattern that begins with letters is looked for fast)
        return any(not (self.lemmas[it.start() - 1].isalnum() or self.lemmas[it.start() - 1] == '_')
                   for it in re.finditer(name + r'\b', self.lemmas))

    def has(self, name):
        """Whether there is such a word, or function of a crate or a type."""
        parts = name.split('::')
        if len(parts) == 1:
            return name in self.words or self.has_lemma(name)
        crates = [parts[0]] if parts[0] in self.functions else [it for it in self.types if parts[0] in self.types[it]]
        known = self.code if parts[-1][0].isupper() else self.functions
        return any(parts[-1] in known[it] for it in crates)


def exists(*pieces):
    return bool(glob.glob(os.path.join(TOP, *pieces)))


def missing_files(flat):
    """Pairs of place and complaint: paths, and words that don't stand in the file beside them."""
    for found in PATH.finditer(flat):
        path = found[1].rstrip('.')
        if not re.search(r'NAME|/out(/|$)|\*', path) and not exists(path):
            yield found.start(), 'there is no %s' % path
    for found in PART.finditer(flat):
        crate, room, name, ending = found.groups()
        ending = ending or ('.rt' if room == 'src' else '.antt')
        if crate in ('NAME', 'crates') or name == 'NAME':
            continue
        if not exists('crates', crate or '*', room, name + ending) and not exists('crates', crate or '*', room, name):
            yield found.start(), 'there is no %s' % found[0]
    for pattern, crate, name, words in (OF_FILE, 1, 2, 3), (IN_FILE, 2, 3, 1):
        for found in pattern.finditer(flat):
            path = 'crates/%s/specs/%s.antt' % (found[crate], found[name])
            text = set(re.findall(r'\w+', read(path))) if exists(path) else set()
            yield from ((found.start(), '%s has no %s' % (path, word))
                        for word in re.findall(r'\w+', found[words]) if word not in text)


def missing_sections(flat):
    for found in SECTION.finditer(flat):
        path = 'docs/%s.md' % found[1]
        title = ' '.join(found[2].split())
        if exists(path) and title not in re.findall(r'(?m)^#+ (.*)$', read(path)):
            yield found.start(), '%s has no section "%s"' % (path, title)


def missing_stories(flat):
    for found in STORY.finditer(flat):
        yield from ((found.start(), 'there is no story %s' % it) for it in re.findall(r'\w+', found[1])
                    if not exists('examples', '*', it + '.out'))


def faults():
    """Triples of document, line number and complaint."""
    sources = Sources()
    for page in pages():
        text = unfenced(read(page))
        flat = text.replace('\n', ' ')
        found = list(missing_files(flat)) + list(missing_sections(flat)) + list(missing_stories(flat))
        for word in WORD.finditer(text):
            if MIXED.match(word[1]) or '::' in word[1]:
                if not sources.has(word[1]):
                    found.append((word.start(), 'nothing in the sources has the name %s' % word[1]))
        for at, complaint in found:
            yield page, text.count('\n', 0, at) + 1, complaint


if __name__ == '__main__':
    complaints = list(faults())
    for page, number, fault in complaints:
        print('%s:%d: %s' % (page, number, fault))
    sys.exit(1 if complaints else 0)
