"""A recording in words for examples/report: who asked what at which level, and on which files."""
import collections
import struct

from answered import entries_of, result
from asked import Compound, assertion_of, compound_of, databody_of
from wire import (
    AUTH_NONE, AUTH_SYS, GSS_CREATE, GSS_DATA, GSS_DESTROY, NFS_PROGRAM, RPCSEC_GSS, Call, Reader, context_of, is_call,
    shown, unix_of)

MOST_STEPS = 64  # of a path

# An event: its call, where it is one, its level, who calls, what it asks in words, and its COMPOUND.
Told = collections.namedtuple('Told', 'event call level caller machine what compound')
NO_COMPOUND = Compound(None, 0, [], None)


def caller_of(call):
    """Who calls by the credential, in words, and the name of its machine."""
    if call.flavor == AUTH_NONE:
        return 'nobody (AUTH_NONE)', ''
    if call.flavor == AUTH_SYS:
        body = unix_of(call.credential)
        return 'user %d' % body.user, shown(body.machine, 60)
    if call.flavor != RPCSEC_GSS:
        return 'flavor %d' % call.flavor, ''
    handle = context_of(call.credential).handle
    if len(handle) == 4:
        return 'parent %d' % struct.unpack('>I', handle), ''
    return ('parent %d, asserted' % struct.unpack('>I', handle[:4]) if len(handle) == 16 else 'a parent'), ''


def handle_words(call):
    handle = context_of(call.credential).handle
    return 'context %d of level %d' % struct.unpack('>IIQ', handle)[:0:-1] if len(handle) == 16 else 'a context'


def gss_of(call, policy):
    """What a call by RPCSEC_GSS asks, in words, and its COMPOUND."""
    procedure = context_of(call.credential).procedure
    if procedure == GSS_DATA and call.is_compound():
        compound = compound_of(databody_of(call.arguments))
        return compound_words(compound) + ' in ' + handle_words(call), compound
    if procedure == GSS_DESTROY:
        return 'end of ' + handle_words(call), NO_COMPOUND
    if procedure == GSS_CREATE:
        return 'a new context for the label of ' + label_words(policy, *assertion_of(call.arguments)), NO_COMPOUND
    return 'procedure %d of RPCSEC_GSS' % procedure, NO_COMPOUND


def label_words(policy, lfs, pi, value):
    level = policy.level_spelled(lfs, pi, value)
    return 'no level: (%d, %d) %s' % (lfs, pi, value.hex()[:80]) if level is None else 'level %d' % level


def compound_words(compound):
    if compound.minor not in (2, None):
        return 'a COMPOUND of minor version %d' % compound.minor
    return 'a COMPOUND of %d operation%s' % (compound.count, '' if compound.count == 1 else 's')


def what_of(call, policy):
    if call.rpc != 2:
        return 'version %d of RPC' % call.rpc, NO_COMPOUND
    if (call.program, call.version) != (NFS_PROGRAM, 4):
        return 'program %d, version %d' % (call.program, call.version), NO_COMPOUND
    if call.flavor == RPCSEC_GSS:
        return gss_of(call, policy)
    if call.procedure == 1:
        compound = compound_of(call.arguments)
        return compound_words(compound), compound
    return ('NULL' if call.procedure == 0 else 'procedure %d' % call.procedure), NO_COMPOUND


def told_of(event, policy):
    if not is_call(event.record):
        what = 'a record of %d bytes that is no call' % len(event.record)
        return Told(event, None, None, 'no call', '', what, NO_COMPOUND)
    try:
        call = Call(event.record)
    except ValueError:
        return Told(event, None, None, 'unreadable', '', 'a call whose header can\'t be read', NO_COMPOUND)
    try:
        caller, machine = caller_of(call)
    except ValueError:
        caller, machine = 'unreadable', ''
    try:
        what, compound = what_of(call, policy)
    except ValueError:
        what, compound = 'a call that can\'t be read', NO_COMPOUND
    is_ours = (call.rpc, call.program, call.version) == (2, NFS_PROGRAM, 4)
    level = policy.level_of(event.listener, call) if is_ours else None
    return Told(event, call, level, caller, machine, what, compound)


# ---- the names of files


def results_of(reply):
    """A reader of the results of a COMPOUND in a reply, and how many there are."""
    r = Reader(reply)
    if r.take(12)[8:] != bytes(4):
        return Reader(b''), 0
    is_signed, _, accepted = r.word() == RPCSEC_GSS, r.opaque(), r.word()
    if accepted:
        return Reader(b''), 0
    if is_signed:
        r = Reader(r.opaque()[4:])
    r.word(), r.opaque()
    return r, r.word()


ROOT = (0, 1)


class Nodes:
    """Where nodes are, as far as the policy and the replies tell it. A place is a node, its level and its number, or a
    name in a place. Of a node it is kept in which place and under which name it was seen last."""

    def __init__(self, policy):
        self.names, self.children = {}, {}
        handles = {path: node for node, path in policy.nodes().items()}
        for path, node in handles.items():
            above, _, name = path.rpartition('/')
            if node != ROOT:
                self.bind(node, handles[above or '/'], name.encode())

    def bind(self, node, directory, name):
        self.names[node] = directory, name
        self.children[directory, name] = node

    def is_known(self, node):
        return node == ROOT or node in self.names

    def path(self, place):
        tail = ''
        for _ in range(MOST_STEPS):
            if place == ROOT:
                return tail or '/'
            place = self.names.get(place, place)
            if place is None or not isinstance(place[1], bytes):
                break
            place, tail = place[0], '/' + shown(place[1], 255) + tail
        return ('..' if place is None or isinstance(place[1], bytes) else 'node %d of level %d' % place[::-1]) + tail

    def child(self, directory, name):
        return self.children.get((directory, name), (directory, name))

    def walk(self, operations, reply=None):
        """What each operation works on, in words, as far as it is known; with a reply, its names are learned too."""
        try:
            r, count = results_of(reply) if reply else (Reader(b''), None)
        except ValueError:
            r, count = Reader(b''), 0
        current = saved = None
        places = []
        for place, asked in enumerate(operations):
            places.append(self.place_of(asked, current, saved))
            answer = None
            if count is not None:
                try:
                    answer = self.answer(r, asked) if place < count else None
                except (ValueError, struct.error):
                    answer = None
                count = count if answer else 0
            current, saved = self.after(asked, current, saved, answer)
        return places

    def place_of(self, asked, current, saved):
        number, names = asked.number, asked.names
        if number == 22 and asked.handle is not None:
            node = node_of(asked.handle)
            return '(%s)' % self.path(node) if self.is_known(node) else ''
        if number == 29 and current and saved:
            return 'from %s to %s' % (self.path(saved), self.path(current))
        if number == 11 and current and saved:
            return '%s in %s' % (self.path(saved), self.path(current))
        if current is None or number in (24, 31, 53):
            return ''
        return 'in ' + self.path(current) if names else 'of %s%s' % (self.path(current), ':' if asked.told else '')

    def answer(self, r, asked):
        """What a result tells: nothing where it is a refusal."""
        number, status = r.word(), r.word()
        if status or number != asked.number:
            return None
        if number == 10:
            return 'node', node_of(r.opaque())
        if number == 26:
            return 'names', entries_of(r)[0]
        result(r, number)
        return 'done', None

    def after(self, asked, current, saved, answer):
        """The current and the saved place behind an operation."""
        number = asked.number
        kind, value = answer or (None, None)
        if number == 22:
            return node_of(asked.handle), saved
        if number == 24:
            return ROOT, saved
        if number == 31:
            return saved, saved
        if number == 32:
            return current, current
        if number == 16:
            return (self.names.get(current) or (None,))[0], saved
        if number in (6, 15, 18) and asked.names:
            return (self.child(current, asked.names[0]) if current else None), saved
        if kind == 'node' and value:
            if current and isinstance(current[1], bytes):
                self.bind(value, *current)
            return value, saved
        if kind == 'names' and current and not isinstance(current[1], bytes):
            for name, values in value:
                self.learn(current, name, values)
        if kind == 'done' and number == 29 and saved and current:
            node = self.children.pop((saved, asked.names[0]), None)
            if node:
                self.bind(node, current, asked.names[1])
        if kind == 'done' and number == 28:
            self.children.pop((current, asked.names[0]), None)
        return current, saved

    def learn(self, directory, name, values):
        for number, _, value in values:
            if number == 20:
                self.bind((value >> 32, value & 0xffffffff), directory, name)


def node_of(handle):
    return struct.unpack('>IQ', handle) if handle and len(handle) == 12 else None
