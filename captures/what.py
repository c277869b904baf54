"""What is in MRT files, and the command that fits: prepare.py --what (docs/CAPTURES.md)."""
import collections
import datetime

from bgp import files, mrt
import preparation
import report
import speakers

PREPARED = 'python3 captures/prepare.py%s %s | replay mrt --as4 > bgp.events'
AS_IT_IS = 'replay mrt --as4 < %s > bgp.events'
SHOWN = 8  # peers and stand-ins that are told
# reasons to skip for which the capture has to be prepared: `mrt` would take what they are about
WRONG_AS_IT_IS = ('state', 'nameless', 'note', 'refresh', 'type', 'fields')


class Look(preparation.Preparation):
    """Takes records for what they are, and writes nothing."""

    def __init__(self, asked):
        super().__init__(asked, lambda octets: None)
        self.kinds, self.first, self.last = collections.Counter(), None, None
        self.said, self.sessions, self.packing, self.form = collections.Counter(), collections.Counter(), None, 'MRT'

    is_plain = staticmethod(lambda body: False)

    def take(self, when, kind, subtype, body):
        self.kinds[kind, subtype] += 1
        if when:  # a message of BMP may have no time
            self.first = when if self.first is None else min(self.first, when)
            self.last = when if self.last is None else max(self.last, when)
        super().take(when, kind, subtype, body)

    def state(self, when, peer, new):
        self.sessions[peer.address] += new == mrt.ESTABLISHED
        super().state(when, peer, new)

    def say(self, when, peer, place, octets):
        self.said[peer.address] += 1
        super().say(when, peer, place, octets)

    def has_use(self):
        """Whether anything would be written."""
        return bool(self.said or self.sessions)

    def is_dump(self):
        return any(kind in (mrt.TABLE_DUMP, mrt.TABLE_DUMP_V2) for kind, _ in self.kinds)

    def is_fit(self):
        """Whether `mrt --as4` makes the same of the file as it stands."""
        is_narrow = any(kind in (mrt.BGP4MP, mrt.BGP4MP_ET) and subtype in (mrt.MESSAGE, mrt.STATE_CHANGE) for kind, subtype in self.kinds)
        return not (is_narrow or self.packing or self.form != 'MRT' or self.report.changed or self.addresses.instead or len(self.numbers) > speakers.PEERS
                    or any(self.report.skipped[reason] for reason in WRONG_AS_IT_IS))

    def told(self):
        """What is in the file."""
        yield '%s%s' % (report.counted(self.report.records, 'record'), '' if self.first is None else ' of %s to %s UTC' % (clock(self.first), clock(self.last)))
        for (kind, subtype), count in sorted(self.kinds.items()):
            yield '%8d %s' % (count, mrt.type_name(kind, subtype))
        yield from self.told_of_peers()
        yield from self.report.reasons('put right', 'left out')
        if self.said and not self.is_dump() and not self.has_states():
            yield preparation.NO_STATES + ' (docs/CAPTURES.md, "Who writes what")'

    def told_of_peers(self):
        peers = [peer for peer in self.peers.values() if self.said[peer.address] or self.sessions[peer.address]]
        for peer in peers[:SHOWN]:
            stand_ins = sum(address == peer.address and place > 0 for address, place in self.addresses.instead)
            yield 'peer %s AS %d: %s, %s%s' % (
                mrt.shown(peer.address), peer.asn, report.counted(self.said[peer.address], 'message'),
                report.counted(max(1, self.sessions[peer.address]), 'session'), ', %s' % report.counted(stand_ins, 'further path') if stand_ins else '')
        if len(peers) > SHOWN:
            yield 'and %s more' % report.counted(len(peers) - SHOWN, 'peer')


def clock(when):
    return datetime.datetime.fromtimestamp(when, datetime.timezone.utc).strftime('%Y-%m-%d %H:%M:%S')


def cause(look):
    """Why nothing comes of a file that can be read."""
    if not look.report.records:
        return 'it is empty'
    if set(look.kinds) == {(mrt.TABLE_DUMP_V2, mrt.PEER_INDEX_TABLE)}:
        return 'it has the index of a table dump and no routes'
    reasons = [(count, reason) for reason, count in look.report.skipped.items()]
    if reasons:
        count, reason = max(reasons)
        return 'nothing of it is of use: of %d, %s' % (count, report.SKIPPED[reason])
    return 'nothing of it is of use'


def look_at(asked, path):
    """A look at one file, and what is wrong with it, if anything."""
    look, wrong = Look(asked), None
    try:
        if path != '-':
            with files.opened(path) as (_, look.packing, look.form):
                pass
        look.take_file(path)
    except mrt.Wrong as error:
        wrong = str(error)
    return look, wrong or (None if look.has_use() else cause(look))


def options(looks):
    """What prepare.py has to be told besides."""
    return ' --peers 65-128 (and so on)' if any(len(look.numbers) > speakers.PEERS for look in looks) else ''


def tell(asked):
    """Prints what is in the files, and the command; 1 where a file is wrong."""
    looks, faults = [], 0
    for path in asked.files:
        look, wrong = look_at(asked, path)
        print('%s: %s%s' % (path, 'packed by %s, ' % look.packing if look.packing else '', 'a stream of BMP, as ' if look.form == 'BMP' else '') + '\n  '.join(
            ([] if wrong and not look.report.records else list(look.told())) + (['wrong: ' + wrong] if wrong else [])))
        faults += wrong is not None
        if look.has_use():
            looks.append((path, look))
    if looks:
        is_one = len(looks) == 1 and looks[0][1].is_fit() and not looks[0][1].is_dump()
        print(AS_IT_IS % looks[0][0] if is_one else PREPARED % (options([look for _, look in looks]), ' '.join(path for path, _ in looks)))
    return 1 if faults else 0
