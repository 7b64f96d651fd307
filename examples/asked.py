"""Calls in words: what the operations of a COMPOUND ask, by the arguments of docs/PROTOCOL.md."""
import collections

from wire import (
    ACCESS_BITS, ATTRIBUTES, MOST_OPERATIONS, OPERATIONS, SEC_LABEL, SHARES, Reader, bits_of, extent, handle_of,
    lock_kind, names_of, quoted, shown, special_state_of)

# Operations of RFC 8881 and RFC 7862 that aren't served.
OTHERS = {
    7: 'DELEGPURGE', 8: 'DELEGRETURN', 19: 'OPENATTR', 20: 'OPEN_CONFIRM',
    21: 'OPEN_DOWNGRADE', 23: 'PUTPUBFH', 30: 'RENEW', 33: 'SECINFO', 35: 'SETCLIENTID', 36: 'SETCLIENTID_CONFIRM',
    39: 'RELEASE_LOCKOWNER', 40: 'BACKCHANNEL_CTL', 41: 'BIND_CONN_TO_SESSION', 45: 'FREE_STATEID',
    46: 'GET_DIR_DELEGATION', 47: 'GETDEVICEINFO', 48: 'GETDEVICELIST', 49: 'LAYOUTCOMMIT', 50: 'LAYOUTGET',
    51: 'LAYOUTRETURN', 52: 'SECINFO_NO_NAME', 54: 'SET_SSV', 55: 'TEST_STATEID', 56: 'WANT_DELEGATION', 60: 'COPY',
    61: 'COPY_NOTIFY', 63: 'IO_ADVISE', 64: 'LAYOUTERROR', 65: 'LAYOUTSTATS', 66: 'OFFLOAD_CANCEL', 67: 'OFFLOAD_STATUS',
    68: 'READ_PLUS', 70: 'WRITE_SAME',
}
MOST_DATA = 40  # characters of what a WRITE brings that are told

# What is asked: the number, its arguments in words, its names, the handle that it brings, and the labels, each its LFS,
# its PI and its bytes.
Asked = collections.namedtuple('Asked', 'number told names handle labels', defaults=('', (), None, ()))


class Unserved(Exception):
    """The operation is outside of what is served, and what follows it is unread."""


def operation_name(number):
    return OPERATIONS.get(number) or OTHERS.get(number) or 'operation %d' % number


def given(r):
    """Attributes that a caller brings, and the labels among them. Where one isn't in the table, the values from there
    on have no known length."""
    numbers, values, told, labels = bits_of(r), Reader(r.opaque()), [], []
    table = {number: (name, value) for number, name, value in ATTRIBUTES}
    is_known = True
    for number in numbers:
        name, value = table.get(number, ('attribute %d' % number, None))
        is_known = is_known and value is not None
        try:
            if is_known and number == SEC_LABEL:
                labels.append((values.word(), values.word(), values.opaque()))
            told.append(name if not is_known or number == SEC_LABEL else '%s %s' % (name, value(values)))
        except ValueError:
            is_known = False
            told.append(name)
    return ', '.join(told) or 'no attributes', labels


def asked_bits(word):
    names = [name for bit, name in enumerate(ACCESS_BITS) if word >> bit & 1]
    return ', '.join(names) or '%#x' % word


def create(r):
    kind = r.word()
    if kind not in (2, 5):
        raise Unserved('of type %d' % kind)
    text = r.opaque() if kind == 5 else None
    name = r.opaque()
    told = 'symbolic link %s to %s' % (quoted(name), quoted(text)) if kind == 5 else 'directory %s' % quoted(name)
    attributes, labels = given(r)
    return Asked(6, '%s, with %s' % (told, attributes), (name,), labels=labels)


def making(r):
    """How a file is to be made, and the labels that it is to get."""
    how = r.word()
    if how == 2 or how > 3:
        raise Unserved('made in the way %d' % how)
    verifier = r.take(8) if how == 3 else b''
    told = ('where it is not there', 'only if it is not there', '', 'exclusively, ' + verifier.hex())[how]
    attributes, labels = given(r)
    return '; make it %s, with %s' % (told, attributes), labels


def open_of(r):
    r.word()
    access, deny = r.word(), r.word()
    r.long()
    owner, kind = r.opaque(), r.word()
    if kind > 1:
        raise Unserved('of opentype %d' % kind)
    made, labels = making(r) if kind == 1 else ('', ())
    claim = r.word()
    if claim not in (0, 4):
        raise Unserved('of claim %d' % claim)
    name = (r.opaque(),) if claim == 0 else ()
    what = quoted(name[0]) if name else 'the current file'
    share = '%s, denying %s' % (SHARES[access & 3], SHARES.get(deny, '%d' % deny))
    return Asked(18, '%s for %s, owner %s%s' % (what, share, quoted(owner), made), name, labels=labels)


def renaming(r):
    old, new = r.opaque(), r.opaque()
    return Asked(29, '%s to %s' % (quoted(old), quoted(new)), (old, new))


def named(number):
    def asked(r):
        name = r.opaque()
        return Asked(number, quoted(name), (name,))
    return asked


def comparing(number):
    def asked(r):
        told, labels = given(r)
        return Asked(number, told, labels=labels)
    return asked


def setting(r):
    state = special_state_of(r)
    told, labels = given(r)
    return Asked(34, told if state == 'no state id' else '%s, with %s' % (told, state), labels=labels)


def put_handle(r):
    handle = r.opaque()
    return Asked(22, handle_of(handle), handle=handle)


def listing(r):
    cookie, _, _, most = r.long(), r.take(8), r.word(), r.word()
    return 'from cookie %d, at most %d bytes, with %s' % (cookie, most, ', '.join(names_of(r)) or 'names alone')


def writing(r):
    state, offset, stable, data = special_state_of(r), r.long(), r.word(), r.opaque()
    text = " '%s'" % shown(data, MOST_DATA) if data and data.isascii() else ''
    told = '%d bytes%s at %d, with %s' % (len(data), text, offset, state)
    return told + (', stable %d' % stable if stable > 2 else '')


def range_of(r):
    return extent(r.long(), r.long())


def lock_owner(r):
    r.long()
    return 'owner ' + quoted(r.opaque())


def locking(r):
    kind, reclaim, where = lock_kind(r.word()), r.word(), range_of(r)
    if r.word():
        r.word()
        state = special_state_of(r)
        r.word()
        who = '%s, %s' % (state, lock_owner(r))
    else:
        who = special_state_of(r)
        r.word()
    return '%s %s, by %s%s' % (where, kind, who, ', reclaimed' if reclaim else '')


def testing(r):
    kind, where = lock_kind(r.word()), range_of(r)
    return '%s %s, by %s' % (where, kind, lock_owner(r))


def unlocking(r):
    r.word(), r.word()
    state = special_state_of(r)
    return '%s, with %s' % (range_of(r), state)


def region(r):
    state = special_state_of(r)
    return '%s, with %s' % (extent(r.long(), r.long()), state)


def seeking(r):
    state, offset, what = special_state_of(r), r.long(), r.word()
    return '%s from %d on, with %s' % ({0: 'data', 1: 'a hole'}.get(what, 'sort %d' % what), offset, state)


def cloning(r):
    source, target, first, to, count = special_state_of(r), special_state_of(r), r.long(), r.long(), r.long()
    what = '%d bytes' % count if count else 'all bytes'
    return '%s from %d on to %d, with %s and %s' % (what, first, to, source, target)


def exchange_id(r):
    r.take(8)
    owner, _, protection = r.opaque(), r.word(), r.word()
    if protection:
        raise Unserved('with state protection')
    implementations = [(r.opaque(), r.opaque(), r.take(12)) for _ in range(r.word())]
    by = ', by ' + ' '.join(quoted(part) for part in implementations[0][:2]) if implementations else ''
    return 'owner ' + quoted(owner) + by


def channel(r):
    r.take(24)
    for _ in range(r.word()):
        r.word()


def create_session(r):
    level, client = r.word(), r.word()
    r.take(8), channel(r), channel(r), r.word()
    for _ in range(r.word()):
        flavor = r.word()
        if flavor == 1:
            r.word(), r.opaque(), r.word(), r.word()
            r.take(4 * r.word())
        elif flavor == 6:
            r.word(), r.opaque(), r.opaque()
        elif flavor:
            raise Unserved('with another way to call back')
    return 'of client %d of level %d' % (client, level)


def session_of(r):
    level, number = r.word(), r.long()
    r.take(4)
    return 'session %d of level %d' % (number, level)


def sequence(r):
    session, number, slot = session_of(r), r.word(), r.word()
    r.take(8)
    return '%s, sequence %d on slot %d' % (session, number, slot)


# Of each operation what it asks, or its arguments in words.
ARGUMENTS = {
    3: lambda r: asked_bits(r.word()),
    4: lambda r: (r.word(), special_state_of(r))[1],
    5: lambda r: '%d bytes at %d' % (r.long(), r.word())[::-1],
    6: create,
    9: lambda r: ', '.join(names_of(r)) or 'nothing',
    10: lambda r: '',
    11: named(11),
    12: locking,
    13: testing,
    14: unlocking,
    59: region,
    62: region,
    69: seeking,
    71: cloning,
    15: named(15),
    16: lambda r: '',
    17: comparing(17),
    18: open_of,
    22: put_handle,
    24: lambda r: '',
    25: lambda r: '%s, at %d, at most %d bytes' % (special_state_of(r), r.long(), r.word()),
    26: listing,
    27: lambda r: '',
    28: named(28),
    29: renaming,
    31: lambda r: '',
    32: lambda r: '',
    34: setting,
    37: comparing(37),
    38: writing,
    42: exchange_id,
    43: create_session,
    44: session_of,
    53: sequence,
    57: lambda r: 'client %d of level %d' % (r.word(), r.word()),
    58: lambda r: 'of one file system' if r.word() else 'of all',
}


def operation(r):
    """The next operation of a COMPOUND. One that isn't served is told, and ends what can be read: the second is whether
    it does."""
    number = r.word()
    if number not in ARGUMENTS:
        return Asked(number), True
    try:
        told = ARGUMENTS[number](r)
    except Unserved as why:
        return Asked(number, str(why)), True
    return (told if isinstance(told, Asked) else Asked(number, told)), False


# A COMPOUND: its minor version, how many operations it counts, those that can be read, and where reading stopped: at
# an operation that isn't served, behind the first of too many, or at what is none.
Compound = collections.namedtuple('Compound', 'minor count operations ending')


def compound_of(arguments):
    r, operations, count, minor = Reader(arguments), [], 0, None
    try:
        r.opaque()
        minor = r.word()
        if minor != 2:
            return Compound(minor, 0, [], 'another minor version')
        count = r.word()
        for _ in range(1 if count > MOST_OPERATIONS else count):
            asked, is_end = operation(r)
            operations.append(asked)
            if is_end:
                return Compound(minor, count, operations, 'not served')
    except ValueError:
        return Compound(minor, count, operations, 'no COMPOUND')
    if count > MOST_OPERATIONS:
        return Compound(minor, count, operations, 'too many')
    return Compound(minor, count, operations, 'no COMPOUND' if r.is_left() else None)


def databody_of(arguments):
    """What a signed body has behind its sequence number (docs/PROTOCOL.md, 'Signed bodies')."""
    return Reader(arguments).opaque()[4:]


def assertion_of(arguments):
    """The LFS, the PI and the bytes of the label that a CREATE of a context asserts."""
    r = Reader(databody_of(arguments))
    if [r.word() for _ in range(4)] != [0, 0, 1, 0]:
        raise ValueError('it asserts no label')
    return r.word(), r.word(), r.opaque()
