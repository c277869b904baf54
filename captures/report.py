"""What became of the records of a capture: how many were taken, changed and skipped, a line a reason."""
import collections

CHANGED = {
    'two': 'UPDATEs with AS numbers of two octets, which have four now',
    'dump': 'routes of table dumps, each of which an UPDATE says now',
    'paths': 'UPDATEs with path identifiers: further routes of a prefix are those of stand-ins now',
    'own': 'UPDATEs with IPv4 routes in types 14 and 15, which stand in their own fields now',
    'hop': 'UPDATEs with a NEXT_HOP that no host has, for which another one stands now',
    'no hop': 'UPDATEs with a NEXT_HOP and no prefix of their own, without it now',
    'confederation': 'paths with segments of a confederation (RFC 5065), without them now',
    'long': 'UPDATEs of more than 4,096 octets, which are several now',
    'ends': 'changes of state whose two ends were exchanged',
    'nameless': 'ends of sessions that name no address, of the one peer with that AS that was up',
    'again': 'changes of state to Established of sessions that had begun by one, which end before it',
    'ended': 'NOTIFICATIONs and OPENs that end a session, where no change of state tells ends',
}
SKIPPED = {
    'state': 'changes of state apart from Established',
    'nameless': 'ends of sessions that name no address, of none or several peers with that AS that were up',
    'nothing': 'ends of sessions that weren\'t up',
    'open': 'OPENs, which say nothing of routes',
    'note': 'NOTIFICATIONs, whose ends changes of state tell',
    'keepalive': 'KEEPALIVEs of sessions that weren\'t up',
    'refresh': 'ROUTE-REFRESHes with filters or marks (RFC 5291, RFC 7313)',
    'type': 'messages of other types, or shorter than a header',
    'local': 'messages that the router sent (MESSAGE_LOCAL)',
    'family': 'UPDATEs of other families than IPv4 unicast',
    'dump6': 'prefixes of IPv6 in table dumps (--ipv6 keeps them)',
    'bmp': 'messages of BMP that tell no session of the global table and no route before policy',
    'kind': 'records of other types, subtypes and families',
    'own': 'routes of table dumps that are the router\'s own',
    'index': 'routes of table dumps whose peer no index names',
    'attributes': 'UPDATEs whose attributes leave no room for a prefix in 4,096 octets',
    'time': 'records before --from or after --until',
    'peers': 'messages and changes of state of peers that --peers leaves out',
    'fields': 'records whose fields can\'t be read',
    'as': 'records of AS 0 or of no address',
}


def counted(count, noun):
    return '%d %s%s' % (count, noun, '' if count == 1 else 's')


class Report:
    def __init__(self):
        self.changed, self.skipped = collections.Counter(), collections.Counter()
        self.files = self.records = self.changed_records = self.skipped_records = 0
        self.is_changed = False  # the present record

    def change(self, reason):
        self.changed[reason] += 1
        self.is_changed = True

    def skip(self, reason):
        self.skipped[reason] += 1

    def end_of_record(self, is_taken):
        """Counts a record: skipped where nothing came of it."""
        if not is_taken:
            self.skipped_records += 1
        elif self.is_changed:
            self.changed_records += 1
        self.is_changed = False

    def lines(self):
        yield '%s of %s: %d taken, of these %d changed; %d skipped' % (
            counted(self.records, 'record'), counted(self.files, 'file'), self.records - self.skipped_records, self.changed_records,
            self.skipped_records)
        yield from self.reasons('changed', 'skipped')

    def reasons(self, changed, skipped):
        """A line a reason, which begins with one of these words."""
        for word, counts, names in ((changed, self.changed, CHANGED), (skipped, self.skipped, SKIPPED)):
            yield from ('%s %d: %s' % (word, counts[reason], names[reason]) for reason in names if counts[reason])
