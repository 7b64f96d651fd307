"""Replies in words: what each operation of a COMPOUND answers, by the results of docs/PROTOCOL.md."""
from wire import (
    attributes, change_of, extent, handle_of, listed, lock_kind, names_of, quoted, shown, state_of, values_of)


def entries_of(r):
    """The names of a listing, each with its attributes, and whether none is left."""
    r.take(8)
    names = []
    while r.word():
        r.long()
        names.append((r.opaque(), values_of(r)))
    return names, bool(r.word())


def entries(r):
    names, is_all = entries_of(r)
    lines = ['\n    %s  %s' % (shown(name).ljust(8), listed(values)) for name, values in names]
    return ('all of it' if is_all else 'more is left') + ''.join(lines)


def opened(r):
    told = '%s; %s' % (state_of(r), change_of(r))
    r.word(), names_of(r), r.word()
    return told


def content(r):
    end = r.word()
    return '%r%s' % (r.opaque().decode(errors='backslashreplace'), ', up to the end' if end else '')


def denial(r):
    """The lock that stands in the way."""
    where, kind, level, client = extent(r.long(), r.long()), lock_kind(r.word()), r.word(), r.word()
    return '%s %s, by owner %s of client %d of level %d' % (where, kind, quoted(r.opaque()), client, level)


def result(r, number):
    if number == 3:
        return 'told of %#x, granted %#x' % (r.word(), r.word())
    if number == 4:
        r.take(16)
        return ''
    if number in (5, 38):
        told = '%d bytes' % r.word() if number == 38 else ''
        r.take(4 if number == 38 else 0), r.take(8)
        return told
    if number in (6, 11, 28):
        told = change_of(r)
        return told if number != 6 else (told, names_of(r))[0]
    if number in (12, 14):
        return state_of(r)
    if number == 18:
        return opened(r)
    if number == 25:
        return content(r)
    if number == 29:
        return '%s; %s' % (change_of(r), change_of(r))
    if number == 34:
        return 'set: %s' % (', '.join(names_of(r)) or 'nothing')
    if number == 9:
        return attributes(r)
    if number == 10:
        return handle_of(r.opaque())
    if number == 26:
        return entries(r)
    if number == 27:
        return shown(r.opaque())
    if number == 42:
        level, client = r.word(), r.word()
        r.take(20)
        r.opaque(), r.opaque(), r.word()
        return 'client %d of level %d' % (client, level)
    if number == 43:
        level, session = r.word(), r.long()
        r.take(4 + 8 + 28 * 2)
        return 'session %d of level %d' % (session, level)
    if number == 53:
        r.take(36)
        return ''
    if number == 69:
        end = r.word()
        return '%d%s' % (r.long(), ', the end' if end else '')
    return ''
