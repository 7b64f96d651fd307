"""What the scripts of this folder share: recordings, replies and calls, read and told in words.

docs/COMMANDS.md has the layout of a recording, and docs/PROTOCOL.md that of calls by RPCSEC_GSS. The rest is RFC 5531,
RFC 4506, RFC 8881 and RFC 7862. Nothing is checked beyond the layout, and no signature. Whatever a peer may have
chosen, as a name or an owner, is told in printable characters alone: see `shown`.
"""
import collections
import struct

MAGIC = b'LNFSTRC1'
MOST_RECORD = 131072  # bytes
MOST_SECONDS = 2**63 - 1
MOST_WORDS = 8  # of a bitmap
MOST_OPERATIONS = 32  # of a COMPOUND with more the server reads the first one alone
NFS_PROGRAM = 100003
MOST_NUMBER = 2**32 - 1  # of whatever has one, but a context
ALL_LENGTH = 2**64 - 1  # of a lock: up to the last offset
AUTH_NONE, AUTH_SYS, RPCSEC_GSS = 0, 1, 6
GSS_DATA, GSS_DESTROY, GSS_CREATE = 0, 3, 5

OPERATIONS = {
    3: 'ACCESS', 4: 'CLOSE', 5: 'COMMIT', 6: 'CREATE', 9: 'GETATTR', 10: 'GETFH', 11: 'LINK', 12: 'LOCK',
    13: 'LOCKT', 14: 'LOCKU', 15: 'LOOKUP', 16: 'LOOKUPP', 17: 'NVERIFY', 18: 'OPEN', 22: 'PUTFH', 24: 'PUTROOTFH',
    25: 'READ', 26: 'READDIR', 27: 'READLINK', 28: 'REMOVE', 29: 'RENAME', 31: 'RESTOREFH', 32: 'SAVEFH',
    34: 'SETATTR', 37: 'VERIFY', 38: 'WRITE', 42: 'EXCHANGE_ID', 43: 'CREATE_SESSION', 44: 'DESTROY_SESSION',
    53: 'SEQUENCE', 57: 'DESTROY_CLIENTID', 58: 'RECLAIM_COMPLETE', 59: 'ALLOCATE', 62: 'DEALLOCATE', 69: 'SEEK',
    71: 'CLONE',
}
DENIED = 10010  # by a lock, which is told
STATUSES = {
    2: 'NOENT', 6: 'NXIO', 13: 'ACCESS', 17: 'EXIST', 20: 'NOTDIR', 21: 'ISDIR', 22: 'INVAL', 27: 'FBIG', 28: 'NOSPC',
    31: 'MLINK', 63: 'NAMETOOLONG', 66: 'NOTEMPTY', 69: 'DQUOT', 70: 'STALE', 10001: 'BADHANDLE', 10004: 'NOTSUPP',
    10005: 'TOOSMALL', 10007: 'BADTYPE', 10009: 'SAME', 10010: 'DENIED', 10012: 'LOCKED', 10015: 'SHARE_DENIED',
    10020: 'NOFILEHANDLE', 10021: 'MINOR_VERS_MISMATCH', 10022: 'STALE_CLIENTID', 10024: 'OLD_STATEID',
    10025: 'BAD_STATEID', 10027: 'NOT_SAME', 10029: 'SYMLINK', 10032: 'ATTRNOTSUPP', 10033: 'NO_GRACE',
    10036: 'BADXDR', 10038: 'OPENMODE', 10040: 'BADCHAR', 10041: 'BADNAME', 10044: 'OP_ILLEGAL', 10052: 'BADSESSION',
    10053: 'BADSLOT', 10054: 'COMPLETE_ALREADY',
    10063: 'SEQ_MISORDERED', 10064: 'SEQUENCE_POS', 10065: 'REQ_TOO_BIG', 10066: 'REP_TOO_BIG', 10070: 'TOO_MANY_OPS',
    10071: 'OP_NOT_IN_SESSION', 10074: 'CLIENTID_BUSY', 10076: 'SEQ_FALSE_RETRY', 10081: 'NOT_ONLY_OP',
    10083: 'WRONG_TYPE', 10090: 'UNION_NOTSUPP', 10092: 'WRONG_LFS', 10093: 'BADLABEL',
}
AUTH_STATS = {
    1: 'AUTH_BADCRED', 5: 'AUTH_TOOWEAK', 13: 'RPCSEC_GSS_CREDPROBLEM', 14: 'RPCSEC_GSS_CTXPROBLEM',
    16: 'RPCSEC_GSS_LABEL_PROBLEM',
}
ACCEPT_STATS = {1: 'PROG_UNAVAIL', 2: 'PROG_MISMATCH', 3: 'PROC_UNAVAIL', 4: 'GARBAGE_ARGS', 5: 'SYSTEM_ERR'}
TYPES = {1: 'file', 2: 'directory', 5: 'link'}
SHARES = {0: 'nothing', 1: 'reading', 2: 'writing', 3: 'reading and writing'}
SPECIAL_STATES = {
    bytes(16): 'no state id', bytes([255] * 16): 'the bypass', bytes([0, 0, 0, 1]) + bytes(12): 'the current state id',
}
SEC_LABEL = 80
ACCESS_BITS = ['READ', 'LOOKUP', 'MODIFY', 'EXTEND', 'DELETE', 'EXECUTE']


class Damaged(ValueError):
    """What is read isn't what it should be, from a place on, counted in bytes from 0."""

    def __init__(self, place, why):
        super().__init__('damaged at byte %d: %s' % (place, why))
        self.place, self.why = place, why


class Reader:
    """Items of XDR, one behind the other (RFC 4506). An item that isn't there whole is a ValueError."""

    def __init__(self, data):
        self.data, self.at = data, 0

    def take(self, n):
        if n > len(self.data) - self.at:
            raise ValueError('it is cut')
        self.at += n
        return self.data[self.at - n:self.at]

    def word(self):
        return struct.unpack('>I', self.take(4))[0]

    def long(self):
        return struct.unpack('>Q', self.take(8))[0]

    def opaque(self):
        n = self.word()
        value = self.take(n)
        self.take(-n % 4)
        return value

    def is_left(self):
        return self.at < len(self.data)


# ---- bytes of a peer


def shown(value, most=None):
    """The bytes as printable text. What is no UTF-8, or no printable character, and the backslash are told by escapes,
    as Python has them. Of a text above so many characters the beginning is told."""
    text = value.decode(errors='surrogateescape')
    told = ''.join(map(_character, text if most is None else text[:most]))
    return told if most is None or len(text) <= most else '%s.. (%d bytes)' % (told, len(value))


def _character(c):
    if c == '\\':
        return '\\\\'
    if c.isprintable():
        return c
    return '\\x%02x' % (ord(c) - 0xdc00) if 0xdc80 <= ord(c) <= 0xdcff else c.encode('unicode_escape').decode()


def quoted(value):
    """A name in quotes. One that isn't ASCII is isolated, so that its direction turns nothing round it (UAX #9)."""
    told = shown(value, 255).replace("'", "\\'")
    return "'%s'" % (told if told.isascii() else '\u2068%s\u2069' % told)


# ---- recordings and replies


Event = collections.namedtuple('Event', 'number place listener link seconds nanoseconds record')


def events_of(data):
    """The events of a recording; Damaged at the length of its longest front that is one."""
    if not data.startswith(MAGIC):
        raise Damaged(0, 'it does not begin with %s' % MAGIC.decode())
    at, number = len(MAGIC), 1
    while at < len(data):
        if at + 24 > len(data):
            raise Damaged(at, 'event %d is cut' % number)
        listener, link, seconds, nanoseconds, size = struct.unpack_from('>IIQII', data, at)
        if seconds > MOST_SECONDS or nanoseconds > 999999999:
            raise Damaged(at, 'the moment of event %d is none' % number)
        if size > MOST_RECORD:
            raise Damaged(at, 'the record of event %d is too long' % number)
        if at + 24 + size > len(data):
            raise Damaged(at, 'event %d is cut' % number)
        yield Event(number, at, listener, link, seconds, nanoseconds, data[at + 24:at + 24 + size])
        at, number = at + 24 + size, number + 1


def is_call(record):
    """Whether a reply is due to the record."""
    return len(record) >= 8 and record[4:8] == bytes(4)


def frames_of(data):
    """The replies that a replay wrote, each of one fragment (RFC 5531 section 11): where its head is, and its bytes."""
    at = 0
    while at < len(data):
        if at + 4 > len(data):
            raise Damaged(at, 'it is cut')
        head = struct.unpack_from('>I', data, at)[0]
        if not head & 0x80000000:
            raise Damaged(at, 'it is no last fragment')
        size = head & 0x7fffffff
        if at + 4 + size > len(data):
            raise Damaged(at, 'it is cut')
        yield at, data[at + 4:at + 4 + size]
        at += 4 + size


def paired(events, replies):
    """The events with their replies: a replay writes a reply for each call, in their order, and each has the xid of its
    call. An event that is no call has none. Damaged where that isn't so, at a place of the replies."""
    frames, pairs, end = frames_of(replies), [], len(replies)
    for event in events:
        if not is_call(event.record):
            pairs.append((event, None))
            continue
        place, frame = next(frames, (end, None))
        if frame is None:
            raise Damaged(place, 'the reply to event %d is missing' % event.number)
        if frame[:4] != event.record[:4] or frame[4:8] != bytes([0, 0, 0, 1]):
            raise Damaged(place, 'it is not the reply to event %d' % event.number)
        pairs.append((event, frame))
    for place, _ in frames:
        raise Damaged(place, 'a reply is behind that to the last call')
    return pairs


# ---- calls


class Call:
    """A call (RFC 5531 section 9): its numbers, its credential and verifier, and its arguments."""

    def __init__(self, record):
        r = Reader(record)
        self.xid, _, self.rpc, self.program, self.version, self.procedure = (r.word() for _ in range(6))
        self.flavor, self.credential = r.word(), r.opaque()
        self.header = record[:r.at]
        self.verifier = r.word(), r.opaque()
        self.arguments = record[r.at:]

    def is_compound(self):
        return (self.rpc, self.program, self.version, self.procedure) == (2, NFS_PROGRAM, 4, 1)


Unix = collections.namedtuple('Unix', 'machine user group groups')
Context = collections.namedtuple('Context', 'version procedure sequence service handle')


def unix_of(credential):
    """The body of an AUTH_SYS credential (RFC 5531 appendix A)."""
    r = Reader(credential)
    r.word()
    machine, user, group, count = r.opaque(), r.word(), r.word(), r.word()
    groups = [r.word() for _ in range(count)]
    if len(machine) > 255 or count > 16 or r.is_left():
        raise ValueError('it is no body of AUTH_SYS')
    return Unix(machine, user, group, groups)


def context_of(credential):
    """The body of an RPCSEC_GSS credential (docs/PROTOCOL.md, 'Credential and verifier')."""
    r = Reader(credential)
    body = Context(r.word(), r.word(), r.word(), r.word(), r.opaque())
    if r.is_left():
        raise ValueError('it is no body of RPCSEC_GSS')
    return body


# ---- items in words


def status_of(n):
    return 'NFS4ERR_' + STATUSES[n] if n in STATUSES else 'status %d' % n


def time_of(r):
    return '%d.%09d' % (r.long(), r.word())


def label_of(r):
    return '(%d, %d) %s' % (r.word(), r.word(), r.opaque().hex())


def handle_of(handle):
    return 'node %d of level %d' % struct.unpack('>IQ', handle)[::-1] if len(handle) == 12 else handle.hex()


def state_of(r):
    """A state id. Those of locks have numbers above all others (docs/PROTOCOL.md)."""
    sequence, level, number = r.word(), r.word(), r.long()
    kind = 'lock' if number > MOST_NUMBER else 'state id'
    return '%s %d of level %d, sequence %d' % (kind, number & MOST_NUMBER, level, sequence)


def lock_kind(kind):
    return {1: 'for reading', 2: 'for writing', 3: 'for reading', 4: 'for writing'}.get(kind, 'of type %d' % kind)


def extent(offset, length):
    return 'all from %d on' % offset if length == ALL_LENGTH else '%d bytes at %d' % (length, offset)


def special_state_of(r):
    """A state id as it is asked with: special ones have names (RFC 8881 section 8.2.3)."""
    state = r.take(16)
    return SPECIAL_STATES.get(state) or state_of(Reader(state))


def change_of(r):
    r.word()
    return 'change from %d to %d' % (r.long(), r.long())


# number, name, value (RFC 8881 section 5, RFC 7862 section 12.2)
ATTRIBUTES = [
    (0, 'supported', lambda r: ' '.join('%08x' % r.word() for _ in range(r.word()))),
    (1, 'type', lambda r: TYPES.get(r.word(), '?')),
    (2, 'fh_expire_type', Reader.word),
    (3, 'change', Reader.long),
    (4, 'size', Reader.long),
    (5, 'link_support', Reader.word),
    (6, 'symlink_support', Reader.word),
    (7, 'named_attr', Reader.word),
    (8, 'fsid', lambda r: '%d.%d' % (r.long(), r.long())),
    (9, 'unique_handles', Reader.word),
    (10, 'lease_time', Reader.word),
    (11, 'error', lambda r: (lambda n: status_of(n) if n else 'none')(r.word())),
    (19, 'filehandle', lambda r: handle_of(r.opaque())),
    (20, 'fileid', Reader.long),
    (33, 'mode', lambda r: '%o' % r.word()),
    (35, 'numlinks', Reader.word),
    (36, 'owner', lambda r: shown(r.opaque(), 255)),
    (37, 'owner_group', lambda r: shown(r.opaque(), 255)),
    (38, 'quota_avail_hard', Reader.long),
    (40, 'quota_used', Reader.long),
    (47, 'time_access', time_of),
    (52, 'time_metadata', time_of),
    (53, 'time_modify', time_of),
    (55, 'mounted_on_fileid', Reader.long),
    (75, 'suppattr_exclcreat', lambda r: ' '.join('%08x' % r.word() for _ in range(r.word()))),
    (SEC_LABEL, 'sec_label', label_of),
]


def bits_of(r):
    """The numbers of a bitmap, rising."""
    count = r.word()
    if count > MOST_WORDS:
        raise ValueError('a bitmap is too long')
    words = [r.word() for _ in range(count)]
    return [32 * place + bit for place, word in enumerate(words) for bit in range(32) if word >> bit & 1]


def values_of(r):
    """The attributes of the table, each its number, its name and its value."""
    asked, values = set(bits_of(r)), Reader(r.opaque())
    return [(number, name, value(values)) for number, name, value in ATTRIBUTES if number in asked]


def listed(values):
    return ', '.join('%s %s' % (name, value) for _, name, value in values)


def attributes(r):
    return listed(values_of(r))


def names_of(r):
    """The names of the attributes of the table that a bitmap has."""
    asked = set(bits_of(r))
    return [name for number, name, _ in ATTRIBUTES if number in asked]
