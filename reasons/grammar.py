"""The grammar of the event file, read out of docs/LANGUAGE.md: which forms a line has, what each of their words may be, and at which word a line
departs from them. What a word may be is said there in prose; here is the same as a test, and the sentence that says it.
"""
import collections
import difflib
import os
import re
import socket

PAGE = os.path.join(os.path.dirname(os.path.abspath(__file__)), '..', 'docs', 'LANGUAGE.md')
PROTOCOLS = ('connected', 'static', 'ospf', 'rip')
ENDS = ('accept', 'reject', 'next')
ACTIONS = {'pref': 1, 'med': 1, 'prepend': 1, 'nomed': 0}

# where a line departs from the grammar: the place of the word, from 0 (that of the end of the line is their number), what is wanted
# there, and the form that goes furthest
Fault = collections.namedtuple('Fault', 'place wanted form')


def page():
    with open(PAGE, encoding='utf-8') as file:
        return file.read()


def bullets(text):
    """The items of the lists before the first heading, each in one line, with its indent."""
    found = []
    for line in text.split('\n## ')[0].split('\n'):
        if re.match(' *- ', line):
            found.append(line)
        elif line.startswith('  ') and found:
            found[-1] += ' ' + line.strip()
    return found


def forms(text):
    """The forms of events by their first words."""
    found = collections.defaultdict(list)
    for bullet in bullets(text):
        if bullet.startswith('- `'):
            for form in re.findall('`([^`]*)`', bullet.split(': ')[0]):
                found[form.split(' ')[0]].append(form)
    return dict(found)


def codes(text):
    """Each code in words ("Refusals")."""
    section = text.split('\n## Refusals')[1].split('\n## ')[0]
    return {bullet[2:4]: bullet[6:] for bullet in bullets(section) if re.match('- E[0-9]: ', bullet)}


def sentence(text, name):
    """The sentence that says what a word of a form may be."""
    if name in ('N', 'K'):
        return 'A number is `0`, or digits without a leading zero, below 2^32' + ('; K is one from 1' if name == 'K' else '')
    if name == 'RULES':
        return section_of_rules(text)
    if name == 'LINK':
        names = [found for bullet in bullets(text) if bullet.startswith('  - ') for found in re.findall('`([^`]*)`', bullet.split(': ')[0])]
        return 'LINK is one of ' + ', '.join('`%s`' % found for found in names) + ', or one of these with `6.` in front'
    for bullet in bullets(text):
        for one in re.split(r'(?<=\.) (?=[A-Z])', bullet[2:].strip()):
            subject = re.match(r'[A-Z, a-z`0-9]*?(?: is| are)\b', one)
            if subject and re.search(r'\b%s\b' % name, subject[0]) and not one.startswith('`'):
                return one.rstrip('.')
    return 'HEX has at least one octet in hex, either case'


def section_of_rules(text):
    """The grammar of a filter's rules, in one line."""
    lines = re.findall(r'^    ([A-Z]+ .*)$', text.split('\n## Rules of a filter')[1].split('\n## ')[0], re.M)
    parts = [re.split('  +', re.sub(r' \|', ' |', line)) for line in lines]
    return '; '.join('%s is %s' % (name, ', '.join(rest)) for name, *rest in (part if len(part) > 1 else part[0].split(' ', 1) for part in parts))


# ---- words

def is_number(word, most=1 << 32):
    return re.fullmatch('0|[1-9][0-9]{0,19}', word) is not None and int(word) < most


def is_address(word):
    parts = word.split('.')
    return len(parts) == 4 and all(re.fullmatch('0|[1-9][0-9]{0,2}', part) and int(part) < 256 for part in parts)


def is_address6(word):
    front, double, back = word.partition('::')
    groups = [group for side in (front, back) if side for group in side.split(':')]
    return all(re.fullmatch('[0-9a-fA-F]{1,4}', group) for group in groups) and (len(groups) < 8 if double else len(groups) == 8)


def is_any_address(word):
    return is_address(word) or is_address6(word)


def is_prefix(word):
    address, slash, length = word.partition('/')
    return bool(slash) and is_address(address) and is_number(length, 33)


def is_prefix6(word):
    address, slash, length = word.partition('/')
    return bool(slash) and is_address6(address) and is_number(length, 129)


def is_any_prefix(word):
    return is_prefix(word) or is_prefix6(word)


def is_host6(word):
    if not is_address6(word):
        return False
    number = int.from_bytes(socket.inet_pton(socket.AF_INET6, word), 'big')
    return 1 < number < 0xff << 120


def is_of_ipv6(word):
    """Whether a word of an event is of IPv6: an address, a prefix, or a name with a mark."""
    return word.startswith('6.') or ':' in word


def is_speaker(word):
    return is_address(word) and 0 < int(word.split('.')[0]) < 224 and int(word.split('.')[0]) != 127


def is_numbered(word, *parts):
    """Whether a name has these parts with dots between them; None stands for a number from 1."""
    words = word.split('.')
    return len(words) == len(parts) and all(
        is_number(one) and one != '0' if part is None else one in part for one, part in zip(words, parts))


def is_link(word):
    word = word.removeprefix('6.')
    return (is_numbered(word, ('in', 'filt', 'res'), None) or is_numbered(word, ('peer', 'read', 'outf', 'adv'), None, None)
            or is_numbered(word, ('org',), PROTOCOLS) or is_numbered(word, ('org',), PROTOCOLS, None)
            or word in ('red', 'best', 'read.rib', 'low', 'dyn', 'int', 'ebgp', 'ibgp', 'ext', 'fib'))


def is_task(word):
    word = word.removeprefix('6.')
    return (is_numbered(word, ('del',), None, None) or is_numbered(word, ('fin', 'nh', 'out', 'ref'), None)
            or is_numbered(word, ('rdel',), PROTOCOLS, None) or word in ('rd.rib', 'red', 'ext'))


def word_tests(is_wide):
    """What each kind of word of a form has to be."""
    return {
        'AS': lambda word: is_number(word, 1 << 32 if is_wide else 1 << 16) and word != '0',
        'ID': lambda word: is_address(word) and word != '0.0.0.0', 'ADDR': is_speaker, 'ADDR6': is_host6, 'GATEWAY': is_any_address,
        'K': lambda word: is_number(word) and word != '0', 'N': is_number, 'METRIC': is_number,
        'HEX': lambda word: re.fullmatch('([0-9a-fA-F]{2})+', word) is not None,
        'PROTO': lambda word: word in PROTOCOLS, 'PREFIX': is_any_prefix, 'IF': lambda word: re.fullmatch('[a-z0-9._-]{1,15}', word) is not None,
        'LINK': is_link, 'TASK': is_task,
    }


# ---- lines

def rule_fault(words, at, tests, is_ipv6):
    """The place of the first word that is none of a rule of a family, and what is wanted there; or the place behind the rule."""
    forms_of = {'any': (), 'path': (('a number of an AS', lambda word: is_number(word) and (word == '0' or tests['AS'](word))),),
                'origin': (('a number', is_number),)}
    if words[at] in forms_of:
        wanted = forms_of[words[at]]
    elif (is_prefix6 if is_ipv6 else is_prefix)(words[at]):
        bits = 128 if is_ipv6 else 32
        bound = ('a number from 0 to %d' % bits, lambda word: is_number(word, bits + 1))
        wanted = (('`ge`', 'ge'.__eq__), bound, ('`le`', 'le'.__eq__), bound)
    else:
        return Fault(at, 'a condition: `any`, a PREFIX, `path` or `origin`', None), at
    at += 1
    for told, test in wanted:
        if at == len(words) or not test(words[at]):
            return Fault(at, told, None), at
        at += 1
    while at < len(words) and words[at] in ACTIONS:
        most = 17 if words[at] == 'prepend' else 1 << 32
        if ACTIONS[words[at]] and (at + 1 == len(words) or not is_number(words[at + 1], most)):
            return Fault(at + 1, 'a number' + (' from 0 to 16' if most == 17 else ''), None), at
        at += 1 + ACTIONS[words[at]]
    if at == len(words) or words[at] not in ENDS:
        return Fault(at, 'an action (`pref`, `med`, `nomed`, `prepend`) or a verdict (`accept`, `reject`, `next`)', None), at
    return None, at + 1


def form_fault(form, words, tests):
    """The first word that departs from a form; None where all fit."""
    parts = form.split(' ')
    families = set()
    for place, part in enumerate(parts):
        if part == 'RULES':
            at = place
            while at < len(words):
                fault, at = rule_fault(words, at, tests, words[0] == 'filter6')
                if fault:
                    return fault._replace(form=form)
            return None
        # ADDR of `cover` is any address
        test = tests['GATEWAY'] if form.startswith('cover') and part == 'ADDR' else tests.get(part, part.__eq__)
        if place == len(words) or not test(words[place]):
            return Fault(place, part if part in tests else '`%s`' % part, form)
        if part in ('LINK', 'PREFIX', 'GATEWAY'):
            families.add(is_of_ipv6(words[place]))
        if len(families) == 2:
            return Fault(place, part, form)
    return Fault(len(parts), 'the end of the line', form) if len(words) > len(parts) else None


def fault(words, known, is_wide):
    """Where a line departs from the grammar; None where it doesn't. `known` are the forms."""
    tests = word_tests(is_wide)
    if words[0] not in known:
        return Fault(0, 'the first word of an event', None)
    found = [form_fault(form, words, tests) for form in known[words[0]]]
    return None if None in found else max(found, key=lambda one: one.place)


def nearest(word, known):
    """The first word of an event that is most like this one."""
    return next(iter(difflib.get_close_matches(word, known, 1, .5)), None)
