"""The sections of the page of examples/report."""
import collections
import datetime

from asked import operation_name
from page import Html, bars, chip, code, element, joined, page, table
from policy import BYTES, NODES, spelled
from told import Nodes, label_words
from wire import ACCEPT_STATS, AUTH_STATS, shown, status_of

PORT = 20490  # of class 0
PARTS = 60  # of the time
MOST_LABEL = 16  # characters, beside the number of its level
MOST_LINKS = 256  # that are told; a service has at most 64
MOST_OPERATIONS = 100  # that are told
LAST_YEAR = 253402300800  # seconds to the year 10000
NO_LEVEL = 'no level'

# What a gate tests (docs/COMMANDS.md, 'Audit lines'; docs/PROTOCOL.md, 'The rules of labels').
GATES = {
    'M1': 'Who reads has to dominate the label of what is read.',
    'M2': 'Who writes has to be exactly at the label of what is written: nobody writes down, and nobody up.',
    'M3': 'Who changes the names of a directory has to be at its label.',
    'M4': 'What is put into a directory has to have a label that dominates the directory\'s.',
    'M5': 'A label is only raised, and only by who is at the old label and at that of each directory that names the '
          'file.',
    'M6': 'Who links, removes or replaces something has to be at its label.',
    'M7': 'Who denies others an open or a range of bytes has to be at the label of the file.',
    'M8': 'Who brings a handle has to dominate the level at which its file was made. The answer is that of a handle of '
          'nothing, whether the file is there or not.',
    'M9': 'The id of a client, a session, an open or a lock is for its own level alone. The answer is that of no id.',
    'C': 'The caller was not let in: nobody the policy has a level for, no good credential or signature, a context '
         'that isn\'t there, or a label that may not be asserted.',
    'V': 'The call is of another version of RPC than 2.',
    'P': 'The call is for another program, version or procedure, or its arguments are none.',
    'X': 'The operation, or the minor version, isn\'t served.',
    'S': 'Clients, sessions and slots: an id that isn\'t there, a sequence out of turn, or an operation at a wrong '
         'place.',
    'R': 'The reply might be longer than the session allows.',
    'A': 'An argument is wrong: a name, a handle, an attribute, a size.',
    'N': 'Files and names: none of this name or handle, one that is there already, or another kind of file.',
    'O': 'Opens and locks: a state id of none that fits, or what another one denies.',
    'Q': 'The level has as many files, bytes, opens or locks as it may have.',
}
AUTH_WORDS = {
    1: 'The header or the credential can\'t be read.',
    5: 'No guest line of the policy fits this class and user, or this kind of credential isn\'t taken.',
    13: 'The credential, its handle, its parent or its signature isn\'t good.',
    14: 'This context isn\'t there, or no longer.',
    16: 'The label can\'t be read, or the parent\'s clearance doesn\'t dominate it.',
}

Refusal = collections.namedtuple('Refusal', 'event place number gate status')


def line_of(refusal):
    return ' '.join(map(str, refusal))


def second_of(event):
    if event.seconds >= LAST_YEAR:
        return 'second %d' % event.seconds
    return datetime.datetime.fromtimestamp(event.seconds, datetime.timezone.utc).strftime('%Y-%m-%d %H:%M:%S')


def moment_of(event):
    return second_of(event) + (('.%09d' % event.nanoseconds).rstrip('0') if event.nanoseconds else '')


def counted(n, one):
    return '%s %s' % (format(n, ','), one if n == 1 else one + 's')


def numbered(levels):
    return ('level ' if len(levels) == 1 else 'levels ') + ', '.join(map(str, levels))


def status_words(refusal):
    if refusal.gate == 'C':
        return AUTH_STATS.get(refusal.status, 'auth_stat %d' % refusal.status)
    if refusal.gate == 'P':
        return ACCEPT_STATS.get(refusal.status, 'accept_stat %d' % refusal.status)
    return 'RPC_MISMATCH' if refusal.gate == 'V' else status_of(refusal.status)


def gate_words(gate):
    return ('Rule ' if gate.startswith('M') else 'Gate ') + gate


class Report:
    """A recording under its policy, with what was refused of it."""

    def __init__(self, policy, tolds, refused, endings, replies, most):
        self.policy, self.tolds, self.refused, self.endings = policy, tolds, refused, endings
        self.replies, self.most = replies, most
        self.levels = list(range(len(policy.levels)))

    def label(self, level):
        """A level with its label, of a long one the beginning. The table of levels has it whole."""
        if level is None:
            return chip(NO_LEVEL)
        label = spelled(self.policy.levels[level])
        short = label if len(label) <= MOST_LABEL else label[:MOST_LABEL] + '..'
        return element('span', 'level %d ' % level, chip(element('code', short)), class_='whole')

    def lanes(self):
        has_none = any(told.level is None for told in self.tolds)
        return self.levels + ([None] if has_none else [])

    # ---- the head

    def tiles(self):
        by_rules = sum(refusal.gate.startswith('M') for refusal in self.refused.values())
        denied = sum(refusal.gate == 'C' for refusal in self.refused.values())
        callers = len({(told.event.listener, told.caller) for told in self.tolds})
        links = len({(told.event.listener, told.event.link) for told in self.tolds})
        numbers = [
            (len(self.tolds), 'requests' if len(self.tolds) > 1 else 'request'), (len(self.refused), 'refused'),
            (by_rules, 'by rules M1 to M9'), (denied, 'not let in'), (callers, 'callers' if callers > 1 else 'caller'),
            (links, 'links' if links > 1 else 'link')]
        tiles = (element('div', element('b', format(n, ',')), element('span', words), class_='tile')
                 for n, words in numbers)
        return element('div', *tiles, class_='tiles')

    def alarms(self):
        """What the link lines say otherwise than the recording."""
        records = collections.Counter(told.event.link for told in self.tolds)
        for link in sorted(set(self.endings) | (set(records) if self.endings else set())):
            said = self.endings[link][1] if link in self.endings else 0
            if said != records[link]:
                words = link, counted(records[link], 'request'), format(said, ',')
                told = 'The recording isn\'t whole, or not of this service: of link %d it has %s, and its line says %s.'
                yield element('p', told % words, class_='alarm', role='note')

    # ---- what was refused, by rule

    def by_rule(self):
        counts = collections.defaultdict(collections.Counter)
        for refusal in self.refused.values():
            counts[refusal.gate][self.tolds[refusal.event - 1].level] += 1
        rows, faint = [], set()
        for gate, sentence in GATES.items():
            found = counts[gate]
            if not found:
                faint.add(len(rows))
            name = element('a', gate, href='#' + gate) if found else gate
            levels = joined((element('span', self.label(level), ': ' + format(found[level], ','), class_='whole')
                             for level in self.lanes() if found[level]), Html('<br>'))
            count = format(sum(found.values()), ',')
            rows.append((element('span', name, class_='chip gate'), sentence, count, levels or '-'))
        heads = ['Rule or gate', 'What it asks, or what was wrong', '#Refused', 'Of callers at']
        return table(heads, rows, 'rules', faint)

    # ---- when

    def timeline(self):
        moments = [told.event.seconds * 10**9 + told.event.nanoseconds for told in self.tolds]
        first, span = min(moments), max(moments) - min(moments) + 1
        asked = {lane: [0] * PARTS for lane in self.lanes()}
        refused = {lane: [0] * PARTS for lane in self.lanes()}
        for told, moment in zip(self.tolds, moments):
            part = (moment - first) * PARTS // span
            asked[told.level][part] += 1
            refused[told.level][part] += told.event.number in self.refused
        most = max(map(max, asked.values()))
        lanes = []
        for lane in self.lanes():
            if not any(asked[lane]):
                continue
            words = '%s, %s refused' % (counted(sum(asked[lane]), 'request'), format(sum(refused[lane]), ','))
            lanes.append(element('div', element('div', self.label(lane), element('span', words, class_='soft small')),
                                 bars(asked[lane], refused[lane], most), class_='lane'))
        events = [told.event for told in self.tolds]
        ends = [element('span', second_of(which(events, key=lambda event: (event.seconds, event.nanoseconds))))
                for which in (min, max)]
        keys = element('span', 'served', class_='key'), element('span', 'refused', class_='key bad')
        silent = [level for level in self.levels if not any(asked[level])]
        note = element('p', 'No request came at ', numbered(silent), '.', class_='soft small') if silent else ''
        return element('figure', *lanes, element('div', *ends, class_='ends soft small'),
                       element('figcaption', *keys, class_='small'), note)

    # ---- levels, callers, links, operations

    def level_rows(self):
        asked = collections.Counter(told.level for told in self.tolds)
        refused = collections.Counter(self.tolds[event - 1].level for event in self.refused)
        for level in self.levels:
            label = self.policy.levels[level]
            names = [shown(value, 80) for _, _, at, value in self.policy.names if at == level]
            below = [n for n in self.levels if n != level and self.policy.dominates(level, n)]
            nodes, size = self.policy.quotas.get(level, (NODES, BYTES))
            paths = [path for path, at in self.policy.directories if at == level]
            yield (
                joined(['%d ' % level, chip(element('code', spelled(label)))]),
                ', '.join(names) or '-',
                numbered(below) if below else 'no other',
                joined(self.who_gets(level), Html('<br>')) or 'nobody',
                joined(map(code, (['/'] if level == 0 else []) + paths), ' ') or '-',
                '%s files, %s bytes' % (format(nodes, ','), format(size, ',')),
                format(asked[level], ','), format(refused[level], ','))

    def who_gets(self, level):
        before = set()
        for listener, user, at in self.policy.guests:
            if at == level and not {(listener, user), (listener, None)} & before:
                others = 'everybody else' if any(one == listener for one, _ in before) else 'everybody'
                yield 'class %d, %s' % (listener, others if user is None else 'user %d' % user)
            before.add((listener, user))
        for number, parent in sorted(self.policy.parents.items()):
            if self.policy.dominates(parent.level, level):
                yield 'parent %d, asserted' % number

    def level_table(self):
        heads = ['Level and label', 'Named', 'Dominates', 'Given to', 'First directories', 'May hold', '#Requests',
                 '#Refused']
        return table(heads, list(self.level_rows()))

    def more_at(self, count, level):
        return element('p', 'And %s more at ' % format(count, ','), self.label(level), '.', class_='soft')

    def caller_table(self):
        groups = collections.defaultdict(list)
        for told in self.tolds:
            groups[told.level, told.event.listener, told.caller].append(told)
        rows, more = [], []
        for lane in self.lanes():
            found = [(key, group) for key, group in groups.items() if key[0] == lane]
            rows += [self.caller_row(*key, group) for key, group in found[:self.most]]
            if found[self.most:]:
                more.append(self.more_at(len(found) - self.most, lane))
        heads = ['Level', 'Caller', 'Class', 'Machines', 'First request', 'Last request', '#Requests', '#Refused']
        return joined([table(heads, rows), *more])

    def caller_row(self, level, listener, caller, group):
        machines = list(dict.fromkeys(told.machine for told in group if told.machine))
        others = ['and %d more' % (len(machines) - 3)] if len(machines) > 3 else []
        names = [code(machine) for machine in machines[:3]] + others
        bad = sum(told.event.number in self.refused for told in group)
        return (self.label(level), caller, str(listener), joined(names, ', ') or '-', second_of(group[0].event),
                second_of(group[-1].event), format(len(group), ','), format(bad, ','))

    def link_table(self):
        groups = collections.defaultdict(list)
        for told in self.tolds:
            groups[told.event.listener, told.event.link].append(told)
        rows = []
        for (listener, link), group in sorted(groups.items())[:MOST_LINKS]:
            levels = {told.level for told in group}
            names = [self.label(level) for level in self.lanes() if level in levels]
            bad = sum(told.event.number in self.refused for told in group)
            port = 'class %d, port %d' % (listener, PORT + listener) if listener < 8 else 'class %d' % listener
            rows.append((str(link), port, joined(names, Html('<br>')), format(len(group), ','), format(bad, ','),
                         self.endings[link][0] if link in self.endings else 'not told'))
        more = len(groups) - len(rows)
        note = element('p', 'And %s more.' % counted(more, 'link'), class_='soft') if more else ''
        return joined([table(['Link', 'Class', 'Levels that called', '#Requests', '#Refused', 'It ended'], rows), note])

    def operation_table(self):
        asked, refused = collections.Counter(), collections.Counter()
        for told in self.tolds:
            refusal = self.refused.get(told.event.number)
            ran = told.compound.operations[:refusal.place if refusal else None]
            asked.update((one.number, told.level) for one in ran)
            if refusal and refusal.place:
                refused[refusal.number, told.level] += 1
        if not asked:
            return element('p', 'There was none.')
        lanes = [lane for lane in self.lanes() if any(at == lane for _, at in asked)]
        rows = []
        for number in sorted({number for number, _ in asked}, key=operation_name)[:MOST_OPERATIONS]:
            cells = []
            for lane in lanes:
                n, bad = asked[number, lane], refused[number, lane]
                told = element('span', ' (%s)' % format(bad, ','), class_='no') if bad else ''
                cells.append(joined([format(n, ',') if n else '·', told]))
            rows.append((operation_name(number), *cells))
        heads = ['Operation'] + ['#' + (NO_LEVEL if lane is None else 'level %d' % lane) for lane in lanes]
        return table(heads, rows, 'grid')

    # ---- each refusal

    def places(self):
        """Of each event that is refused, on what its operations work."""
        nodes, places = Nodes(self.policy), {}
        for told, reply in zip(self.tolds, self.replies or [None] * len(self.tolds)):
            refusal = self.refused.get(told.event.number)
            if told.compound.operations and (reply is not None or refusal):
                found = nodes.walk(told.compound.operations, reply)
                if refusal:
                    places[told.event.number] = found
        return places

    def chosen(self):
        """By gate the refusals that are told, the first of each level, and how many of a level are not."""
        chosen, counts = collections.defaultdict(list), collections.Counter()
        for refusal in self.refused.values():
            key = refusal.gate, self.tolds[refusal.event - 1].level
            counts[key] += 1
            if counts[key] <= self.most:
                chosen[refusal.gate].append(refusal)
        return chosen, {key: n - self.most for key, n in counts.items() if n > self.most}

    def why(self, told, refusal):
        """What the levels of a refusal say, where the request has them."""
        if refusal.gate != 'M8' or told.level is None:
            return ''
        handle = told.compound.operations[refusal.place - 1].handle
        home = int.from_bytes(handle[:4], 'big') if handle and len(handle) == 12 else len(self.levels)
        if home >= len(self.levels):
            return ''
        return joined([': ', self.label(told.level), ' doesn\'t dominate ', self.label(home)])

    def operation_line(self, asked, where, refusal, place):
        told = asked.told
        for lfs, pi, value in asked.labels:
            told += ', the label of ' + label_words(self.policy, lfs, pi, value)
        # Behind a name or a handle it is told where that is; anything else is told of a place.
        words = [element('bdi', where, class_='soft')] if where else []
        if told:
            words = [element('bdi', told)] + words if asked.names or asked.handle else words + [element('bdi', told)]
        parts = [element('b', operation_name(asked.number)), ' ', joined(words, ' ')]
        if place == refusal.place:
            parts += [' ', element('span', status_words(refusal), class_='no')]
        kind = 'bad' if place == refusal.place else 'unrun' if place > refusal.place else None
        return element('li', *parts, class_=kind)

    def card(self, refusal, places):
        told = self.tolds[refusal.event - 1]
        event, count = told.event, told.compound.count
        by = 'class %d, link %d' % (event.listener, event.link)
        xid = ', transaction %d' % told.call.xid if told.call else ''
        head = element('header', element('b', 'Event %d' % event.number), element('span', self.label(told.level)),
                       element('span', told.caller), element('span', moment_of(event), class_='soft'))
        machine = joined([', machine ', code(told.machine)]) if told.machine else ''
        source = element('p', by, xid, machine, '. Audit line ', element('code', line_of(refusal)), class_='soft small')
        status = element('span', status_words(refusal), class_='no')
        if refusal.place:
            words = refusal.place, count, operation_name(refusal.number)
            what = element('p', 'Operation %d of %d, %s, was refused' % words, self.why(told, refusal), '.')
        else:
            why = '. ' + AUTH_WORDS.get(refusal.status, '') if refusal.gate == 'C' else ''
            what = element('p', 'Asked was ', element('bdi', told.what), '. ', status, why)
        operations = told.compound.operations
        lines = [self.operation_line(asked, where, refusal, place)
                 for place, (asked, where) in enumerate(zip(operations, places.get(event.number, ())), 1)]
        unread = count - len(operations)
        note = element('p', '%s behind these could not be read.' % counted(unread, 'operation'), class_='soft small')
        return element('article', head, source, what, element('ol', *lines) if lines else '',
                       note if 0 < unread and lines else '', class_='card')

    def cards(self):
        chosen, left = self.chosen()
        places = self.places()
        parts = []
        for gate in GATES:
            if not chosen[gate]:
                continue
            parts.append(element('h3', element('span', gate_words(gate), class_='chip'), id=gate))
            parts.append(element('p', GATES[gate]))
            parts += [self.card(refusal, places) for refusal in chosen[gate]]
            for level in self.lanes():
                if (gate, level) in left:
                    parts.append(self.more_at(left[gate, level], level))
        return joined(parts)

    def html(self, files):
        if not self.tolds:
            return page('Report of a recording', element('h1', 'An empty recording'), files,
                        element('p', 'It has no request.'), *self.alarms(), element('h2', 'Levels'), self.level_table())
        names = 'A file is named as it was last seen before the request.' if self.replies else (
            'There are no replies, so files are named by the policy and the request alone.')
        return page(
            'Report of a recording', element('h1', 'What was asked, and what was refused'), files, *self.alarms(),
            self.tiles(),
            element('h2', 'Refused, by rule'),
            element('p', 'M1 to M9 are the rules of labels. The others are gates that a request of any level passes.'),
            self.by_rule(),
            element('h2', 'When'), element('p', 'Moments are those of the server\'s clock, in UTC.'), self.timeline(),
            element('h2', 'Levels'),
            element('p', 'Those of the policy. A level reads what it dominates, and writes at its own label alone.'),
            self.level_table(),
            element('h2', 'Callers'),
            element('p', 'A user id and a machine\'s name are what the caller says; nothing proves them. A label that '
                    'a parent asserts is signed.'),
            self.caller_table(),
            element('h2', 'Links'), element('p', 'A link is a connection, and its class the port that it came by.'),
            self.link_table(),
            element('h2', 'Operations'),
            element('p', 'How often each operation was run, and in brackets how often it was refused. What stands '
                    'behind a refusal in its request isn\'t run, and not counted.'), self.operation_table(),
            element('h2', 'Each refusal'),
            element('p', 'The request is told operation by operation. ' + names) if self.refused else
            element('p', 'Nothing was refused.'), self.cards())
