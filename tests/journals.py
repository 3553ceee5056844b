#!/usr/bin/env python3
"""Whether the plain reader of a day's journal, `journal` in plain.py, reads what docs/FORMATS.md says ("A day's journal"). Some rows are written by
hand. In others a plain day of a capture that is drawn writes its journal as it goes, and what is read in it has to be what the day came to. The
blotter isn't called.

  tests/journals.py     the last line is `N passed, M failed`, and the status is 1 where one failed"""
import sys

sys.dont_write_bytecode = True

import generated
import plain
from plain import SOH, NoJournal, framed, journal, order_line, printed, survivors

MOMENT = '52=20240105-10:00:00.000|'
TRADE = '37=O1|17={}|150=F|39=1|55=XYZ|54=1|38=300|32=100|31=10.5|14=100|151=200|6=10.5|'


def frame(kind, sender, target, number, rest='', between=''):
    """A frame, with a bar for SOH and > for a tab in its fields."""
    return framed(f'35={kind}|49={sender}|56={target}|{between}34={number}|{MOMENT}{rest}'.replace('|', SOH).replace('>', '\t'))


def told(number, kind, rest=''):
    return frame(kind, 'BRKA', 'MO', number, rest)


def sent(number, kind, rest=''):
    return frame(kind, 'MO', 'BRKA', number, rest)


def typed(number, line):
    return frame('UL', 'MO', 'MO', number, f'58={line}|', '50=desk|')


def wrapped(number, within):
    return framed(f'35=UR|49=MO|56=BRKA|34={number}|{MOMENT}95={len(within)}|96='.replace('|', SOH) + within + SOH)


def kept(text, behind='', second=False, length=None):
    """A journal's file: the length that doesn't count is a wild one."""
    lengths = [2**63, len(text) if length is None else length]
    first, other = (it.to_bytes(8, 'little').decode('latin-1') for it in (lengths if second else lengths[::-1]))
    head = ('\x01' if second else '\x00').ljust(512, '\x00') + first.ljust(512, '\x00') + other.ljust(512, '\x00') + plain.SIGNATURE
    return head.ljust(plain.HEAD, '\x00') + text + behind


SEEDS = range(1, 21)

BEGUN = frame('UD', 'MO', 'MO', 1, '75=20240105|')
LOGON = BEGUN + told(1, 'A', '98=0|108=30|') + sent(1, 'A', '98=0|108=30|') + sent(1, 'UN', '789=2|36=2|')
TRADED = LOGON + told(2, '8', TRADE.format('E1'))
BOOKED = TRADED + typed(1, 'allocate>BRKA>AL1>XYZ>B>20240105>10.5>1>E1>A>100')
E1, BUST = ('peer', 'BRKA', 'Trade', 'E1'), told(3, '8', '17=E3|19=E1|150=H|')
AL1, UNDONE = ('operator', 'desk', 'AllocNew', 'AL1'), ('operator', 'desk', 'Undo', 2)

# A name, a text, its events, and the numbers of BRKA.
ROWS = [
    ('the Logon and the Trade are durable', TRADED, [E1], (3, 2)),
    ('the Logon alone is durable', LOGON, [], (2, 2)),
    ('nothing but its beginning', BEGUN, [], (1, 1)),
    ('an early Trade counts for nothing', LOGON + wrapped(2, told(4, '8', TRADE.format('E2'))), [], (2, 2)),
    ('a bust', TRADED + BUST, [E1, ('peer', 'BRKA', 'Bust', 'E3')], (4, 2)),
    ('an operator books, and undoes it', BOOKED + typed(2, 'undo>2'), [E1, AL1, UNDONE], (3, 2)),
    ('an ask is no event, nor is a bad line', BOOKED + typed(2, 'order>BRKA>O1') + typed(3, 'undo>x') + typed(4, 'mine'), [E1, AL1], (3, 2)),
    ('an acknowledgement', TRADED + sent(2, 'P', '70=AL2|87=0|'), [E1], (3, 3)),
    ('what is sent again counts for nothing', TRADED + sent(2, 'P', '43=Y|70=AL2|87=0|'), [E1], (3, 2)),
    ('numbers that are reset', TRADED + sent(3, 'UN', '789=1|36=1|'), [E1], (1, 1)),
    ('a Heartbeat that came sets nothing', TRADED + told(3, '0'), [E1], (3, 2)),
    ('numbers of none but BRKA', TRADED + frame('UN', 'MO', 'BRKB', 1, '789=7|36=9|'), [E1], (3, 2)),
]


EARLY = told(9, '0')
WHOLE = kept(BOOKED + wrapped(2, EARLY))

# Why a file isn't taken up by MO on 20240105 with these peers.
FAULTS = [
    ('one that is taken up', WHOLE, ['BRKA'], None),
    ('a peer is added', WHOLE, ['NEW', 'BRKA'], None),
    ('a peer that is left out', WHOLE, ['BRKB'], "has a message of BRKA, which isn't listed"),
    ('a text file', TRADED * 20, ['BRKA'], 'is no journal'),
    ('cut by one byte', WHOLE[:-1], ['BRKA'], f'is damaged at byte {len(WHOLE) - 1}'),
    ('its first frame changed', WHOLE.replace('75=20240105', '75=20240106', 1), ['BRKA'], f'is damaged at byte {plain.HEAD}'),
    ('its Trade changed', WHOLE.replace('32=100', '32=101', 1), ['BRKA'], f'is damaged at byte {plain.HEAD + len(LOGON)}'),
    ('of another day', kept(frame('UD', 'MO', 'MO', 1, '75=20240108|')), ['BRKA'], 'is the journal of MO, 20240108'),
    ('of another blotter', kept(frame('UD', 'MX', 'MX', 1, '75=20240105|')), ['BRKA'], 'is the journal of MX, 20240105'),
    ('its first frame goes to a peer', kept(frame('UD', 'MO', 'BRKA', 1, '75=20240105|')), ['BRKA'], f'is damaged at byte {plain.HEAD}'),
    ('a second beginning', kept(BEGUN + BEGUN), ['BRKA'], f'is damaged at byte {plain.HEAD + len(BEGUN)}'),
]


def shown(party, event):
    """An event in words that a row can hold: the party, its name, the kind, and the number or the identifier."""
    return (*party, event.kind, event.key[1]) if isinstance(event, plain.Command) else (*party, type(event).__name__, *event)


def read(file):
    """What is told of a file: events and numbers of BRKA, or why it is no journal."""
    try:
        found = journal(file)
    except NoJournal as why:
        return str(why)
    return [shown(*it) for it in found.events], found.numbers.get('BRKA', (1, 1))


def line_of(text):
    """The order line of O1 after a text."""
    found = journal(kept(text))
    return found.own, found.day, printed([order_line([it.fill for it in survivors(found.desk.entries)], ('BRKA', 'O1')) or ('none',)])


class Writer:
    """A day that writes its journal as it goes."""

    def __init__(self, own, peers):
        self.day, self.own, self.text, self.counts = plain.Day(own, peers), own, BEGUN, {}
        self.numbers = dict.fromkeys(peers, (1, 1))

    def put(self, peer, *frames):
        self.text += ''.join(frames)
        self.numbers[peer] = plain.numbers_of(frames, self.own, peer, self.numbers[peer])

    def count(self, peer):
        """The number of the peer's next frame of the journal's own."""
        self.counts[peer] = self.counts.get(peer, 0) + 1
        return self.counts[peer]

    def front(self, kind, peer):
        return f'35={kind}|49={self.own}|56={peer}|34={self.count(peer)}|{MOMENT}'.replace('|', SOH)

    def take(self, message):
        """A message as it came where its session took it or the desk replied, else in a UR; what is sent; a UN where the numbers ask for one."""
        (peer, _, kind, _), became, sent_back = self.day.take(message)
        if became[0] == 'passed':
            return
        if became[0] in ('accepted', 'refused') or became[0] == 'taken' and kind in set('A012345'):
            self.put(peer, message)
        else:
            self.put(peer, framed(f'{self.front("UR", peer)}95={len(message)}{SOH}96={message}{SOH}'))
        self.put(peer, *sent_back)
        session = self.day.sessions[peer]
        if self.numbers[peer] != (session.expected, session.next_number):
            self.put(peer, framed(f'{self.front("UN", peer)}789={session.expected}{SOH}36={session.next_number}{SOH}'))


def written(seed):
    """What is read in the journal of a day that is drawn, and what the day came to: the commands, the entries, the numbers."""
    writer = Writer(generated.OWN, generated.PEERS)
    for what, _, piece in plain.pieces_of(generated.drawn(seed)[0].decode('latin-1')):
        if what == 'message':
            writer.take(piece)
    found, day = journal(kept(writer.text)), writer.day
    numbers = {peer: (it.expected, it.next_number) for peer, it in day.sessions.items()}
    told = {peer: found.numbers.get(peer, (1, 1)) for peer in numbers}
    wanted = [(('peer', command.key[0]), command) for command, _ in day.desk.history]
    return (found.events, found.desk.entries, told), (wanted, day.desk.entries, numbers)


def checks():
    for name, text, events, numbers in ROWS:
        yield name, read(kept(text)), (events, numbers)
        yield f'{name}, by the second length', read(kept(text, second=True)), (events, numbers)
    yield 'what stands behind the text that counts', read(kept(LOGON, TRADED[len(LOGON):])), ([], (2, 2))
    yield 'shorter than its text', read(kept(TRADED)[:-1]), 'the text is cut'
    yield 'shorter than a head', read(kept('')[:-1]), 'no journal'
    yield 'a text file', read(TRADED * 20), 'no journal'
    yield 'an empty text', read(kept('')), 'no beginning'
    yield 'what was received', plain.received(WHOLE), told(1, 'A', '98=0|108=30|') + told(2, '8', TRADE.format('E1')) + EARLY
    for name, file, peers, wanted in FAULTS:
        yield name, plain.journal_fault(file, 'MO', '20240105', peers), wanted
    for seed in SEEDS:
        yield f'seed {seed}', *written(seed)
    yield 'the order line', line_of(TRADED), ('MO', '20240105', 'order\tBRKA\tO1\tXYZ\tB\t100\t200\t1050\n')
    yield 'the order line after a bust', line_of(TRADED + BUST), ('MO', '20240105', 'none\n')


def tried():
    """How many rows passed, and how many failed."""
    rows = list(checks())
    failed = [it for it in rows if it[1] != it[2]]
    for name, got, wanted in failed:
        print(f'FAILED journal, {name}\n    wanted      {wanted}\n    plain.py    {got}')
    return len(rows) - len(failed), len(failed)


def main():
    passed, failed = tried()
    print(f'{passed} passed, {failed} failed')
    return 1 if failed else 0


if __name__ == '__main__':
    sys.exit(main())
