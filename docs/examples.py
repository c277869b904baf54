#!/usr/bin/env python3
"""Writes docs/EXAMPLES.md, the index of examples/ by topic: docs/examples.py [--write]

A story stands in the folder of its topic. What it shows is said by the first sentence of the comment that its event file begins with; where there
is none (a capture, a journal, a file whose first line has to be another), by TOLD below. Without --write it prints what is wrong: a folder that is
no topic, or a topic without a folder, a file that stands anywhere else, two stories of one name, a name that is no story, a story of which nothing
is told, and whether docs/EXAMPLES.md is what it would write. docs/check.py asks for the same.
"""
import glob
import os
import re
import sys
import textwrap

TOP = os.path.join(os.path.dirname(os.path.abspath(__file__)), '..')
STORIES = 'crates/story_tests/data/stories'
PAGE = 'docs/EXAMPLES.md'
WIDTH = 100
KINDS = ('events', 'mrt', 'journal', 'commands', 'out')
# of each topic its folder, its title, and what the page says of it first
TOPICS = [
    ('to_begin_with', 'To begin with', 'small, one thing each.'),
    ('sessions', 'Sessions that come and go', 'docs/LANGUAGE.md, "Sessions and losses".'),
    ('import_policy', 'Import policy: the incoming filter', 'docs/LANGUAGE.md, "Rules of a filter".'),
    ('next_hops', 'Next hops', 'docs/LANGUAGE.md, "Next hops".'),
    ('decision', 'The decision', 'docs/BGP.md, "The decision".'),
    ('many_senders', 'Many senders of one prefix', 'docs/BGP.md, "The decision"; docs/LANGUAGE.md, "What peers are sent".'),
    ('what_peers_are_sent', 'What peers are sent', 'docs/BGP.md, "What is sent".'),
    ('sent_again', 'Routes that are sent again', 'RFC 2918; docs/BGP.md, "Route refresh".'),
    ('route_reflection', 'Route reflection', 'RFC 4456; docs/BGP.md, "Route reflection".'),
    ('interior_routes', 'Interior routes', 'docs/LANGUAGE.md.'),
    ('this_speakers_own', 'Routes of this speaker\'s own', 'docs/LANGUAGE.md, "Redistribution".'),
    ('forwarding_table', 'The forwarding table', 'docs/LANGUAGE.md, "The forwarding table".'),
    ('is_it_settled', 'Is it settled?', 'docs/LANGUAGE.md, "Settled prefixes".'),
    ('as_numbers', 'AS numbers of four octets', 'RFC 6793; docs/BGP.md, "AS numbers of four octets".'),
    ('messages', 'Messages and their faults', 'RFC 4271, section 6; docs/BGP.md, "Faults".'),
    ('revised_errors', 'Revised errors', 'in the manner of RFC 7606; docs/BGP.md, "Revised errors".'),
    ('ipv6_networks', 'IPv6: two networks', 'docs/LANGUAGE.md, "IPv6".'),
    ('ipv6_messages', 'IPv6 in messages', 'RFC 4760; docs/BGP.md, "IPv6".'),
    ('ipv6_words', 'Words of IPv6', 'docs/LANGUAGE.md, "IPv6" and "Refusals".'),
    ('captures', 'Captures', 'MRT files, RFC 6396; docs/CAPTURES.md.'),
    ('lines_and_refusals', 'Lines and refusals', 'docs/LANGUAGE.md, "Refusals".'),
    ('mistakes', 'Mistakes in event files', 'what `reasons/refused.py` says of each is told by reasons/test.py; docs/REASONS.md.'),
    ('reasons', 'Reasons', 'what scripts say of a table is worked by hand in reasons/test.py; docs/REASONS.md.'),
    ('journals', 'Journals that `check` judges', 'docs/OUTPUT.md.'),
    ('command_lines', 'Command lines', 'docs/LANGUAGE.md.'),
]
# the stories that stand first in a topic, where their order is not that of their names
FIRST = {
    'to_begin_with': 'first two_peers never_sent filter interior loss settled to_the_forwarding_table four_octets ipv6 captured_by_bird',
}
TOLD = {
    'added_twice': 'A row is added where one stands: rule 1.',
    'answer_without_a_row': 'A lookup finds a row that nobody added: rule 2.',
    'as4_twice': 'The line may stand once.',
    'begun_twice': 'A link begins that is live: rule 3.',
    'both_line_ends': 'LF, CR LF, and no end after the last line.',
    'captured_among_others': 'One peer\'s session among records of other types and families, which are skipped.',
    'captured_and_packed': 'A capture that is still packed is none.',
    'captured_beside': 'Records of no use: AS 0, addresses that no speaker has, other families and messages too long.',
    'captured_by_bird': 'What BIRD wrote: two peers, one of them lost by a closed connection and by a NOTIFICATION.',
    'captured_by_frr': 'What FRR wrote (`dump bgp all`), of sessions that end and come back.',
    'captured_by_openbgpd': 'What OpenBGPD wrote (`dump updates in`), with microseconds and no change of state.',
    'captured_header_in_part': 'The input ends within a record\'s header.',
    'captured_in_part': 'The input ends within a record\'s body.',
    'captured_nothing': 'An empty capture gives an empty event file.',
    'captured_peers': 'Sixty-four peers are told, and no 65th.',
    'captured_session': 'Two peers in records of two octets, one of them lost and back.',
    'captured_too_long': 'A change of state has octets left.',
    'captured_too_short': 'A record\'s fields run beyond its length.',
    'captured_with_as4': 'Records with AS numbers of four octets.',
    'captured_with_microseconds': 'Records with microseconds (type 17).',
    'dropped_line': 'A journal of the program of which one line was dropped: rule 1.',
    'dumped_by_bird': 'A table dump of BIRD and the updates behind it, as captures/prepare.py makes one capture of them.',
    'dumped_by_frr': 'A table dump of FRR and the updates behind it, as captures/prepare.py makes one capture of them.',
    'dumped_by_openbgpd': 'A table dump of OpenBGPD and the updates behind it, as captures/prepare.py makes one capture of them.',
    'eight_peers_of_bird': 'What captures/prepare.py makes of BIRD\'s capture of eight peers, each of which says its routes in another way.',
    'eight_peers_of_frr': 'The same of FRR\'s capture: a second connection, path identifiers, both widths, long UPDATEs, IPv6.',
    'eight_peers_of_openbgpd': 'The same of OpenBGPD\'s capture, whose changes of state have their ends exchanged.',
    'empty_line': 'A line without words is none of a journal.',
    'generated': 'Events of a seed, and totals.',
    'host_bits': 'A prefix with bits beyond its length is none of a journal.',
    'joined_stages': 'A stage is taken out where the links above and below it have the same rows.',
    'journal_line_too_long': 'A line of more than 65,536 bytes.',
    'line_too_long_at_the_end': 'A comment longer than a line may be, without an end.',
    'local_4294967296': 'A number that no four octets hold.',
    'mistake_byte_order_mark': 'An editor wrote three bytes in front of the first line.',
    'no_event': 'A number with a zero in front is no word of an event.',
    'seventeenth_loss': 'Sixteen lost tables of a peer stand; one loss more ends the oldest, with all that it sends.',
    'seventeenth_protocol_loss': 'Sixteen lost tables of a protocol stand; one loss more ends the oldest.',
    'longest_journal_line': 'A line of 65,536 bytes.',
    'no_journal': 'No line of a journal at all.',
    'no_journal_first': 'The first line is none of a journal; what comes after it isn\'t looked at.',
    'no_lines': 'An empty event file prints nothing.',
    'no_value': 'An added row needs a value.',
    'peer_70000': 'An AS number of four octets, and no `as4`.',
    'redist_before_local': 'An event stands before `local`.',
    'return_at_the_end': 'A CR with no LF after it.',
    'revised_after_local': 'How errors are handled is said before `local`.',
    'settled_before_local': 'A question stands before `local`.',
    'skipped_lines': 'Lines that are none of the journal\'s own are skipped, whatever follows the first word.',
    'two_spaces': 'Words are parted by one space.',
    'unequal_weld': 'A stage is taken out that still has a row: rule 3.',
    'unprintable_byte': 'A tab is no byte of an event file.',
    'unprintable_byte_in_a_comment': 'Nor in a comment are bytes beyond those that can be printed.',
    'journal_of_both': 'Entries of two networks, whose links have the same names but for the mark, between each other.',
    'broken_in_ipv6': "What IPv4's network says is lawful, and IPv6's adds a row where one stands: rule 1.",
    'wrong_answer_of_ipv6': "A lookup of IPv6 answers what its link of the same name in IPv4's network has: rule 2.",
    'link_of_ipv6_not_begun': "A link of IPv6's network is live only where it began itself: rule 1.",
    'link_of_ipv6_begun_twice': "A link of IPv6's network begins that is live: rule 3.",
    'unequal_weld_of_ipv6': "A stage of IPv6's network is taken out that still has a row: rule 3.",
    'link_of_ipv6_ended_twice': 'A link ends in one network, and once more: rule 3.',
    'inherited_across': "A link of IPv6's network begins with the rows of one of IPv4's: no line of a journal is of both.",
    'inherited_across_back': "A link of IPv4's network begins with the rows of one of IPv6's, live or not: no line of a journal is of both.",
    'welded_across': "A stage of IPv6's network is welded into a link of IPv4's: no line of a journal is of both.",
    'ipv4_on_a_link_of_ipv6': "A prefix of IPv4 on a link of IPv6's network.",
    'ipv6_on_a_link_of_ipv4': "A prefix of IPv6 on a link of IPv4's network.",
    'ipv6_not_as_printed': 'A prefix of IPv6 stands as it is printed, with all its groups.',
    'ipv6_in_capitals': 'A prefix of IPv6 stands as it is printed, in small letters.',
    'ipv6_with_zeros_in_front': 'A prefix of IPv6 stands as it is printed, without zeros in front.',
    'ipv6_with_host_bits': 'A prefix of IPv6 stands as it is printed, with no bits beyond its length.',
    'ipv6_of_129_bits': 'A prefix of IPv6 has 128 bits at most, in a journal, too.',
    'journal_link_marked_twice': 'A link of a journal has one mark in front.',
    'journal_link_of_a_number_too_large': "Numbers in names of links are below 2^32 in IPv6's network, too.",
    'skipped_lines_of_ipv6': "Lines of IPv6's network that are none of the journal's own are skipped, too.",
    'words': 'Words that are commands, and words that are none.',
    'wrong_answer': 'A lookup finds no row where one stands: rule 2.',
}
HEAD = """# Examples

Each is a *story* of `examples/` (a link to %s), in the folder of its
topic:

- `NAME.events` is an event file, for `run`, and `NAME.out` exactly what that prints
- `NAME.mrt` is a capture, for `mrt`, which prints `NAME.events`, or `NAME.out` where it is refused
- `NAME.journal` is a journal, for `check`, and `NAME.out` the verdict
- `NAME.commands` has command lines, with nothing to read

The gate runs all of them (crates/story_tests): each event file at once and byte by byte, with the
journal and with `--quiet`, and gives its journal to `check`. The outputs come from a program of
another hand. With the built program (README.md, "What it takes"):

```sh
crates/replay_main/out/replay_main run < examples/to_begin_with/two_peers.events
crates/replay_main/out/replay_main run --quiet < examples/to_begin_with/never_sent.events
```

This page is written by docs/examples.py: %d stories, by topic.
"""



def stories(folder='*'):
    """The names of the stories in the folder of a topic, or of all."""
    found = glob.glob(os.path.join(TOP, STORIES, folder, '*.out'))
    return sorted(os.path.basename(path)[:-len('.out')] for path in found)


def in_order(folder):
    """The names of a topic's stories as they stand on the page."""
    first = FIRST.get(folder, '').split()
    return first + [name for name in stories(folder) if name not in first]


def without_output():
    """The files of stories that have no output beside them: captures have an event file, or an output."""
    for path in sorted(glob.glob(os.path.join(TOP, STORIES, '*', '*.*'))):
        name, ending = path.rsplit('.', 1)
        wanted = {'mrt': ('.events', '.out')}.get(ending, ('.out',))
        if ending != 'out' and not any(os.path.isfile(name + it) for it in wanted):
            yield os.path.relpath(path, TOP)


def comment(folder, name):
    """The first sentence of the comment that an event file begins with; an empty text where there is none."""
    path = os.path.join(TOP, STORIES, folder, name + '.events')
    if not os.path.isfile(path):
        return ''
    said = []
    with open(path, encoding='utf-8', errors='replace', newline='') as file:
        for line in file:
            if not line.startswith('# '):
                break
            said.append(line[2:].strip())
    whole = ' '.join(said)
    first = re.match(r'.*?[.](?= [A-Z]|$)', whole)
    return first[0] if first else whole


def kinds(folder, name):
    """The endings of a story's files, but for its output."""
    found = glob.glob(os.path.join(TOP, STORIES, folder, name + '.*'))
    return sorted(path.rsplit('.', 1)[1] for path in found if not path.endswith('.out'))


def wrapped(text, **how):
    return textwrap.wrap(text, WIDTH, break_on_hyphens=False, **how)


def listed(folder, name):
    ending = kinds(folder, name)
    more = '' if ending == ['events'] else ' (%s)' % ', '.join('`.%s`' % it for it in ending)
    said = TOLD.get(name) or comment(folder, name)
    return wrapped('- `%s`%s: %s' % (name, more, said), subsequent_indent='  ')


def page():
    """The lines of the page."""
    lines = (HEAD % (STORIES, len(stories()))).split('\n')
    for folder, title, about in TOPICS:
        lines += ['## ' + title, '', *wrapped('`examples/%s/`: %s' % (folder, about)), '']
        for name in in_order(folder):
            lines += listed(folder, name)
        lines.append('')
    return lines


def misplaced():
    """What is wrong with the folders and their files: complaints."""
    folders = [folder for folder, _, _ in TOPICS]
    for name in sorted({*os.listdir(os.path.join(TOP, STORIES)), *folders}):
        if name not in folders:
            yield 'docs/examples.py: %s/%s is the folder of no topic' % (STORIES, name)
        elif not stories(name):
            yield 'docs/examples.py: the topic %s has no story' % name
    for path in sorted(glob.glob(os.path.join(TOP, STORIES, '*', '*'))):
        if not os.path.isfile(path) or path.rsplit('.', 1)[-1] not in KINDS:
            yield '%s is no file of a story' % os.path.relpath(path, TOP)
    for folder, names in FIRST.items():
        yield from ('docs/examples.py: %s is no story of %s' % (name, folder) for name in names.split() if name not in stories(folder))


def faults():
    """What is wrong with the topics and the page: complaints."""
    yield from misplaced()
    have = [(name, folder) for folder, _, _ in TOPICS for name in stories(folder)]
    names = [name for name, _ in have]
    yield from ('docs/examples.py: %s is no story' % name for name in sorted(set(TOLD) - set(names)))
    for name, folder in have:
        if names.count(name) > 1:
            yield 'docs/examples.py: the story of %s has the name of another: %s' % (folder, name)
        if not (TOLD.get(name) or comment(folder, name)):
            yield 'docs/examples.py: nothing is told of the story %s' % name
    with open(os.path.join(TOP, PAGE), encoding='utf-8') as file:
        if file.read().split('\n') != page():
            yield '%s: not what docs/examples.py writes: docs/examples.py --write mends it' % PAGE


def main(words):
    if words == ['--write']:
        with open(os.path.join(TOP, PAGE), 'w', encoding='utf-8') as file:
            file.write('\n'.join(page()))
    found = list(faults())
    print('\n'.join(found), end='\n' if found else '')
    return 1 if found else 0


if __name__ == '__main__':
    sys.exit(main(sys.argv[1:]))
