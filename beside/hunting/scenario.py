"""What was found, as files: scenarios that `beside/run.py` takes, each with its sentence, and the groups that a folder has already."""
import os
import re
import textwrap

GROUP = '# group: '
WIDTH = 98


def known(folder):
    """The groups of the scenarios in a folder."""
    found = set()
    for name in sorted(os.listdir(folder)):
        if name.endswith('.events'):
            with open(os.path.join(folder, name), encoding='ascii') as file:
                found.update(line[len(GROUP):].strip() for line in file if line.startswith(GROUP))
    return found


def text(said, group, lines):
    """A scenario: its sentences, its group, and its events."""
    head = ['# ' + line for sentence in said for line in textwrap.wrap(sentence, WIDTH)]
    return '\n'.join(head + [GROUP + group] + lines) + '\n'


def name(daemon, group):
    """A name for the file of a group: the kind and what differs."""
    kind, peer, shape, fields, _ = group.split('; ')
    return re.sub('[^a-z0-9]+', '_', ' '.join(word for word in (daemon, kind, peer, shape, fields) if word != '-').lower())[:70].strip('_')


def write(folder, stem, content):
    """Writes a scenario under a name that isn't taken; the name."""
    os.makedirs(folder, exist_ok=True)
    for place in range(1, 10000):
        found = '%s%s.events' % (stem, '' if place == 1 else '_%d' % place)
        path = os.path.join(folder, found)
        if not os.path.exists(path):
            with open(path + '.part', 'w', encoding='ascii') as file:
                file.write(content)
            os.rename(path + '.part', path)
            return found
    raise OSError('more than 10,000 scenarios %s' % stem)
