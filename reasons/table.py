#!/usr/bin/env python3
"""Rows of `show` as a table: replay run --quiet < FILE | table.py [--csv | --json | --count] [--link LINK] [--for ADDR] [--names FILE] [OUTPUT..]

Takes each line `row` of an output (of OUTPUT, or of standard input): its link, its prefix, and the fields of its value by name
(docs/OUTPUT.md, "Values"). Without an option as columns, with --csv as comma-separated values with a head, with --json an object a line.

  --count        how many rows each link has, by peer where rows name one
  --link LINK    of this link alone, or of all of a kind (in, 6.adv), or of IPv6's network (6)
  --for ADDR     of each link the row of the longest prefix that holds the address
  --names FILE   peers by name: FILE has lines `K NAME`, or is an event file, whose peers have their addresses for names
  --last         of each link the rows of its last `show` alone

Statuses: 0; 1 where there is no such row; 2 where the words are wrong; 3 where the output ends with a line `refused`.
"""
import argparse
import collections
import csv
import json
import os
import re
import sys

sys.dont_write_bytecode = True
import values

FIRST = ('link', 'prefix', 'peer', 'name', 'preference', 'med_that_counts', 'prepends', 'interior_metric', 'as_path', 'next_hop', 'origin', 'med',
         'local_pref', 'aggregator', 'atomic_aggregate', 'originator_id', 'cluster_list', 'unrecognized', 'protocol', 'kind', 'gateway', 'interface',
         'metric')

NUMBERS = ('peer', 'preference', 'med_that_counts', 'prepends', 'interior_metric', 'med', 'local_pref', 'metric')


class Shown:
    """The tables that were shown, one after the other: pairs of link and rows."""

    def __init__(self):
        self.tables, self.rows, self.refusal = [], [], None

    def take(self, line):
        words = line.rstrip('\r\n').split(' ')
        if words[0] == 'row' and len(words) == 4:
            self.rows.append((words[2], words[3]))
        elif words[0] == 'rows' and len(words) == 3:
            self.tables.append((words[1], self.rows))
            self.rows = []
        elif words[0] == 'refused':
            self.refusal = ' '.join(words)

    def chosen(self, asked):
        """The tables that are asked for."""
        found = [(link, rows) for link, rows in self.tables if not asked.link or link == asked.link or link.startswith(asked.link + '.')]
        if asked.last:
            last = {link: place for place, (link, _) in enumerate(found)}
            found = [found[place] for place in sorted(last.values())]
        if asked.address is not None:
            found = [(link, longest(rows, asked.address)) for link, rows in found]
        return found


def longest(rows, address):
    """Of rows that one of the longest prefix that holds an address, if there is one."""
    holding = [row for row in rows if values.holds(row[0], address)]
    return [max(holding, key=lambda row: values.prefix_key(row[0]).length)] if holding else []


def names_of(path):
    """Names of peers by their numbers, as texts."""
    found = {}
    with open(path, encoding='utf-8', errors='replace') as file:
        for words in map(str.split, file):
            if words[:1] == ['peer'] and len(words) >= 5:
                found[words[1]] = words[4]
            elif len(words) >= 2 and re.fullmatch('[1-9][0-9]*', words[0]):
                found[words[0]] = ' '.join(words[1:])
    return found


def fields(link, prefix, value, names):
    """A row by names."""
    row = {'link': link, 'prefix': prefix, **values.named(link, value)}
    parts = values.words_of_link(link)
    peer = row.get('peer') or (parts[1] if len(parts) > 1 and parts[1].isdigit() else None)
    if names and peer in names:
        row['name'] = names[peer]
    return row


def counts(tables, names):
    """A line for each table, with how many rows it has, and of which peers."""
    for link, rows in tables:
        peers = collections.Counter(values.named(link, value).get('peer') for _, value in rows)
        peers.pop(None, None)
        told = ', '.join('%d of %s' % (count, 'own routes' if peer == '0' else names.get(peer, 'peer ' + peer)) for peer, count in sorted(
            peers.items(), key=lambda pair: int(pair[0])))
        yield '%s: %d row%s%s' % (link, len(rows), '' if len(rows) == 1 else 's', ' (%s)' % told if told else '')


def columns(rows):
    """The rows below each other, a column for each field that some row has."""
    heads = [name for name in FIRST if any(name in row for row in rows)]
    cells = [heads] + [[row.get(name, '') for name in heads] for row in rows]
    widths = [max(len(line[place]) for line in cells) for place in range(len(heads))]
    for line in cells:
        yield '  '.join(cell.ljust(width) for cell, width in zip(line, widths)).rstrip()


def write(asked, tables, out):
    names = names_of(asked.names) if asked.names else {}
    if asked.count:
        out.writelines(line + '\n' for line in counts(tables, names))
        return
    rows = [fields(link, prefix, value, names) for link, found in tables for prefix, value in found]
    if asked.json:
        out.writelines(json.dumps({name: int(text) if name in NUMBERS else text for name, text in row.items()}) + '\n' for row in rows)
    elif asked.csv:
        made = csv.DictWriter(out, [name for name in FIRST if any(name in row for row in rows)], lineterminator='\n')
        made.writeheader()
        made.writerows(rows)
    elif rows:
        out.writelines(line + '\n' for line in columns(rows))


def main():
    words = argparse.ArgumentParser(description=__doc__, formatter_class=argparse.RawDescriptionHelpFormatter)
    words.add_argument('outputs', metavar='OUTPUT', nargs='*', default=['-'])
    form = words.add_mutually_exclusive_group()
    for name in ('csv', 'json', 'count'):
        form.add_argument('--' + name, action='store_true')
    words.add_argument('--link')
    words.add_argument('--for', dest='address', metavar='ADDR')
    words.add_argument('--names', metavar='FILE')
    words.add_argument('--last', action='store_true')
    asked = words.parse_args()
    shown = Shown()
    try:
        asked.address = values.address(asked.address) if asked.address else None
        for path in asked.outputs:
            with open(0 if path == '-' else path, encoding='ascii', errors='replace') as file:
                for line in file:
                    shown.take(line)
        tables = shown.chosen(asked)
        write(asked, tables, sys.stdout)
        sys.stdout.flush()
    except ValueError as error:
        words.error(str(error))
    except BrokenPipeError:
        os.dup2(os.open(os.devnull, os.O_WRONLY), 1)
        return 2
    except OSError as error:
        print('table.py: %s: %s' % (error.filename, error.strerror), file=sys.stderr)
        return 2
    if shown.refusal:
        print('table.py: %s: refused.py says more' % shown.refusal, file=sys.stderr)
        return 3
    return 0 if any(rows for _, rows in tables) else 1


if __name__ == '__main__':
    sys.exit(main())
