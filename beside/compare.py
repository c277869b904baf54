"""Two tables beside one another: what differs, and how much was compared. A table has the rows of both families."""
import collections
import ipaddress

# kind is `adv`, `again`, `best`, `session` or `notification`; ours is what the program says, theirs what the daemon does
Difference = collections.namedtuple('Difference', 'kind peer prefix ours theirs')
Counts = collections.Counter


def same(ours, theirs):
    """Whether two rows are alike; what a daemon doesn't tell is None, and no difference."""
    if ours is None or theirs is None or isinstance(ours, str):
        return ours == theirs
    return all(one == other for one, other in zip(ours, theirs) if one is not None and other is not None)


def rows_apart(kind, peer, ours, theirs, counts):
    keys = sorted(set(ours) | set(theirs), key=in_order)
    counts[kind] += len(keys)
    return [Difference(kind, peer, key, ours.get(key), theirs.get(key)) for key in keys if not same(ours.get(key), theirs.get(key))]


def in_order(prefix):
    """IPv4 first, then by address and length."""
    network = ipaddress.ip_network(prefix)
    return network.version, network


def notes_apart(peer, ours, theirs, counts):
    counts['notifications'] += max(len(ours), len(theirs))
    size = max(len(ours), len(theirs))
    pairs = zip(ours + [None] * (size - len(ours)), theirs + [None] * (size - len(theirs)))
    return [Difference('notification', peer, None, *pair) for pair in pairs if pair[0] != pair[1]]
