"""A policy file as examples/report needs it: docs/POLICY.md. It is read and not judged; `./lnfs check` judges it."""
import collections
import hashlib
import struct

from wire import (
    AUTH_NONE, AUTH_SYS, GSS_CREATE, GSS_DATA, GSS_DESTROY, RPCSEC_GSS, Damaged, Reader, context_of, unix_of)

NODES, BYTES = 4096, 67108864  # of a level without a quota line

Label = collections.namedtuple('Label', 'doi sensitivity compartments')
Parent = collections.namedtuple('Parent', 'secret level')


def compartments_of(text):
    found = set()
    for run in text.split(',') if text != '-' else []:
        first, last = (int(end[1:]) for end in (run.split('.') * 2)[:2])
        if last > 255:
            raise ValueError(run)
        found.update(range(first, last + 1))
    return frozenset(found)


def spelled(label):
    """The label as the format `text` spells it."""
    numbers, runs = sorted(label.compartments), []
    for n in numbers:
        if runs and runs[-1][1] == n - 1:
            runs[-1][1] = n
        else:
            runs.append([n, n])
    names = ['c%d' % a if a == b else 'c%d%sc%d' % (a, ',' if b == a + 1 else '.', b) for a, b in runs]
    return 's%d%s' % (label.sensitivity, ':' + ','.join(names) if names else '')


def body_of(label):
    """The label as the format `calipso` spells it."""
    words = max(label.compartments, default=-1) // 32 + 1
    bits = bytearray(4 * words)
    for n in label.compartments:
        bits[n // 8] |= 0x80 >> n % 8
    return struct.pack('>IBB', label.doi, words, label.sensitivity) + bytes(bits)


def signature(secret, covered):
    return hashlib.sha256(secret + hashlib.sha256(secret + covered).digest()).digest()


class Policy:
    def __init__(self, text):
        """Reads a policy file; Damaged at the line that can't be read."""
        self.levels, self.formats, self.names, self.parents = [], [], [], {}
        self.guests, self.quotas, self.directories, self.mode = [], {}, [], '?'
        place = 0
        for number, line in enumerate(text.splitlines(keepends=True), 1):
            try:
                self.read(line.decode('ascii').split())
            except (ValueError, IndexError):
                raise Damaged(place, 'line %d can\'t be read' % number) from None
            place += len(line)
        if not self.levels:
            raise Damaged(place, 'it has no level')

    def read(self, words):
        if not words or words[0].startswith('#'):
            return
        kind, rest = words[0], words[1:]
        if kind == 'mode':
            self.mode = rest[0]
        elif kind == 'level':
            self.levels.append(Label(int(rest[1]), int(rest[2]), compartments_of(rest[3])))
        elif kind == 'format':
            self.formats.append((int(rest[0]), int(rest[1]), rest[2]))
        elif kind == 'name':
            self.names.append((int(rest[0]), int(rest[1]), self.level(rest[2]), bytes.fromhex(rest[3])))
        elif kind == 'parent':
            self.parents[int(rest[0])] = Parent(bytes.fromhex(rest[1]), self.level(rest[2]))
        elif kind == 'guest':
            self.guests.append((int(rest[0]), None if rest[1] == '*' else int(rest[1]), self.level(rest[2])))
        elif kind == 'quota':
            self.quotas[self.level(rest[0])] = int(rest[1]), int(rest[2])
        elif kind == 'dir':
            self.directories.append((rest[0], self.level(rest[1])))
        elif words != ['lnfs-policy', '1']:
            raise ValueError(kind)

    def level(self, word):
        if not 0 <= int(word) < len(self.levels):
            raise ValueError(word)
        return int(word)

    def dominates(self, a, b):
        one, other = self.levels[a], self.levels[b]
        return (one.doi == other.doi and one.sensitivity >= other.sensitivity
                and one.compartments >= other.compartments)

    def spellings(self, lfs, pi):
        """How the labels of the levels are spelled in a format, by level."""
        for a, b, kind in self.formats:
            if (a, b) == (lfs, pi):
                if kind == 'name':
                    return {level: text for x, y, level, text in self.names if (x, y) == (lfs, pi)}
                if kind == 'text':
                    return {n: spelled(label).encode() for n, label in enumerate(self.levels) if label.doi == pi}
                return {n: body_of(label) for n, label in enumerate(self.levels)}
        return {}

    def level_spelled(self, lfs, pi, value):
        return next((level for level, text in self.spellings(lfs, pi).items() if text == value), None)

    def nodes(self):
        """The handles of the first directories, with their paths (docs/PROTOCOL.md, 'Identifiers')."""
        levels, last, found = {'': 0}, {0: 1}, {(0, 1): '/'}
        for path, level in self.directories:
            home = levels.get(path.rpartition('/')[0], 0)
            last[home] = last.get(home, 0) + 1
            levels[path] = level
            found[home, last[home]] = path
        return found

    # ---- the level of a call (docs/PROTOCOL.md, 'How a call is answered', 'The level of a call')

    def level_of(self, listener, call):
        """The level of a call for this program and version of NFS, or None."""
        try:
            if call.flavor == RPCSEC_GSS:
                return self.level_asserted(call)
            user = unix_of(call.credential).user if call.flavor == AUTH_SYS else None
        except ValueError:
            return None
        if call.flavor not in (AUTH_NONE, AUTH_SYS):
            return None
        fitting = (level for at, uid, level in self.guests if at == listener and uid in (None, user))
        return next(fitting, None)

    def level_asserted(self, call):
        """The level of a call of a parent or in a context: its parent signed it and is cleared for it."""
        body = context_of(call.credential)
        kinds = {GSS_DATA: 1, GSS_DESTROY: 0, GSS_CREATE: 0}
        is_spelled = body.version == 3 and kinds.get(body.procedure) == call.procedure
        is_made = body.procedure == GSS_CREATE
        if not is_spelled or (body.procedure != GSS_DESTROY and body.service != 2):
            return None
        r = Reader(body.handle)
        parent = self.parents.get(r.word())
        level = None if is_made else (r.word(), r.long())[0]
        if parent is None or r.is_left() or call.verifier != (RPCSEC_GSS, signature(parent.secret, call.header)):
            return None
        if body.procedure == GSS_DESTROY:
            return None if call.arguments else self.cleared(parent, level)
        r = Reader(call.arguments)
        databody, checksum = r.opaque(), r.opaque()
        if r.is_left() or len(databody) < 4 or checksum != signature(parent.secret, databody):
            return None
        if is_made:
            r = Reader(databody)
            if [r.word() for _ in range(5)] != [body.sequence, 0, 0, 1, 0]:
                return None
            level = self.level_spelled(r.word(), r.word(), r.opaque())
            if r.is_left():
                return None
        return self.cleared(parent, level)

    def cleared(self, parent, level):
        is_level = level is not None and level < len(self.levels)
        return level if is_level and self.dominates(parent.level, level) else None
