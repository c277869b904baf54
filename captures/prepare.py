#!/usr/bin/env python3
"""Makes of any MRT files one that `replay mrt --as4` reads whole: prepare.py [OPTIONS] FILE.. | replay mrt --as4 > bgp.events

Files come in order of time, also packed by gzip, bzip2 or xz; `-` is standard input. A file may be a stream of BMP, too (RFC 7854). What stands
in them (RFC 6396, RFC 8050):

  table dumps            of TABLE_DUMP_V2 and TABLE_DUMP: the peer's session begins, and an UPDATE says each route; updates go behind them,
                         and a later dump stands in the place of an earlier one
  AS numbers             of two octets get four; AS4_PATH and AS4_AGGREGATOR are merged (RFC 6793, section 4.2.3)
  path identifiers       are taken out: the first route of a prefix is the peer's, each further one that of a stand-in
  addresses              of IPv6, of 127.0.0.0/8 and others that no host has, of peers and next hops: a stand-in
  IPv4 in types 14, 15   goes to the UPDATE's own fields (RFC 4760, RFC 8950)
  confederations         a path is what they tell outside: their segments are taken out (RFC 5065)
  long UPDATEs           above 4,096 octets (RFC 8654) become several
  changes of state       of which neither end is Established are those of another connection, and are left out; so are NOTIFICATIONs where
                         changes of state tell the ends; where none does, a NOTIFICATION and an OPEN end the session before
  exchanged ends         of changes of state, as OpenBGPD writes them, are put right
  other families         UPDATEs of them alone are left out; with --ipv6 those of IPv6 stay, and so do such routes of dumps

On standard error: how many records were taken, changed and skipped, a line a reason; which address stands for which; how many peers. With
--what nothing is written but what is in the files, and the command that fits (docs/CAPTURES.md).

Statuses: 0; 1 where a file is neither MRT nor BMP, or ends within a record (what stands before it was written), or standard output was closed; 2 where
a word is wrong or a file isn't there.
"""
import argparse
import datetime
import os
import socket
import sys

sys.dont_write_bytecode = True
sys.path.insert(0, os.path.join(os.path.dirname(os.path.abspath(__file__)), '..', 'python'))
import preparation
import speakers
import what
from bgp import mrt


def moment(text):
    """A time in UTC, as seconds: 2026-11-30T04:05:06, or 2026-11-30."""
    when = datetime.datetime.fromisoformat(text.replace('Z', '+00:00'))
    return when.replace(tzinfo=when.tzinfo or datetime.timezone.utc).timestamp()


def prepare(asked, write):
    """Prepares files: what became of them, and what was wrong with them."""
    made, wrong = preparation.Preparation(asked, write), []
    for path in asked.files:
        try:
            made.take_file(path)
        except mrt.Wrong as error:
            wrong.append('%s: %s' % (path, error))
        made.flush()
    return list(made.lines()), wrong


def parser():
    """The command line."""
    made = argparse.ArgumentParser(description=__doc__, formatter_class=argparse.RawDescriptionHelpFormatter)
    made.add_argument('files', nargs='+', metavar='FILE')
    made.add_argument('--what', action='store_true', help='only say what is in the files, and the command that fits')
    made.add_argument('--peers', type=speakers.Choice, default=speakers.Choice('1-%d' % speakers.PEERS), metavar='LIST',
                      help='the peers with these numbers, in order of their first records, or addresses: 65-128, 192.0.2.1')
    made.add_argument('--from', type=moment, default=0, dest='begin', metavar='TIME', help='no records before this time (UTC)')
    made.add_argument('--until', type=moment, default=1 << 32, metavar='TIME', help='no records after this time (UTC)')
    made.add_argument('--router', type=socket.inet_aton, metavar='ADDR', help='changes of state whose peer has this address have their ends exchanged')
    made.add_argument('--local', nargs=2, metavar=('AS', 'ADDR'), help='the router, where a table dump alone doesn\'t tell its AS')
    made.add_argument('--ipv6', action='store_true', help='keep IPv6 routes, in types 14 and 15')
    made.add_argument('--quiet', action='store_true', help='say nothing on standard error but what is wrong')
    return made


def words(arguments=None):
    """What the command line asks for."""
    made = parser()
    asked = made.parse_args(arguments)
    missing = [path for path in asked.files if path != '-' and not os.path.isfile(path)]
    if missing:
        made.error('there is no file %s' % missing[0])
    try:
        asked.local = (int(asked.local[0]), socket.inet_aton(asked.local[1])) if asked.local else None
    except (ValueError, OSError):
        made.error('--local: an AS number and an IPv4 address')
    if not asked.local and '-' not in asked.files:
        asked.local = preparation.local_side(asked.files)
    return asked


def main():
    asked = words()
    if asked.what:
        return what.tell(asked)
    try:
        told, wrong = prepare(asked, sys.stdout.buffer.write)
        sys.stdout.buffer.flush()
    except BrokenPipeError:
        os.dup2(os.open(os.devnull, os.O_WRONLY), 1)
        return 1
    for line in ([] if asked.quiet else told) + wrong:
        print('prepare.py: ' + line, file=sys.stderr)
    return 1 if wrong else 0


if __name__ == '__main__':
    sys.exit(main())
