#!/usr/bin/env python3
"""Captures and operator's lines drawn from a seed, and what the program prints of them beside the plain program's answers.

  tried(program, seed)    the first difference of that seed, or none, and how often each thing came
  missing(came)           what never came, of all that a capture and an operator's lines can bring about
  tests/generated.py SEED FOLDER    writes the capture and the lines of that seed, SEED.fix and SEED.lines

Most messages are such as a session goes on with, and each fault comes now and then. Few ExecIDs, accounts and symbols are drawn,
so that they meet. The bytes come in pieces that are drawn too. The plain program's sessions and book stand beside the drawing: from them it knows which number is expected,
which executions are free and which step is the newest."""
import contextlib
import itertools
import os
import pathlib
import random
import re
import subprocess
import sys
import tempfile
import threading
import traceback
from collections import Counter

sys.dont_write_bytecode = True

import plain
from messages import OWN, SOH, frame

PEERS, DAYS = ('BRKA', 'BRKB'), ('20240105', '20240106')
MESSAGES, LINES = 60, 25   # of a seed
SECONDS = 20               # for a call of the program

# The messages that are drawn: F G H X are Execution Reports by ExecType, N R C Allocation Instructions, all else MsgTypes.
KINDS = '0 3 j D 8a 1 1 2 2 2 4 4 4 5 A'.split() + list('FFFFFFFFFFFFFFFFFFGGGGGGHHHXNNNNNNNNRRRRRRCC')
BAD_VALUES = ('x', '0', '1', '2', '3', '7', '-1', '+1', '1e3', '.', '0.0000001', '0.000000001', '10000000000', '-100000000',
              '201', 'a\x02b', 'b' * 64, 'b' * 65, '20240230', '2024-1-5', '20240105-24:00:00', '20240230-10:00:00',
              '20240105-10:00:00.1')
ODD_FIELDS = ('x=1', '=1', '58', '0=1', '1234567890=1', '58=', '95=3|96=abc', '354=3|355=a|b', '95=9|96=abc', '95=x|96=abc',
              '95=1|96=abc', '9999=1', '9999=1')
NOISE = ('noise', '8', '8=FIX.4.4|', '8=FIX.4.2|9=5|35=0|10=000|', '8=FIX.4.4|9=000004|35=|10=000|', '8=FIX.4.4|9=70|35=',
         '8=FIX.4.4|9=65537|35=', '8=FIX.4.4|9=0000045|', '\xff\x00|', '10=000|')
BAD_LINES = ('', 'undo', 'undo\tx', 'undo\t1\t2', 'undo\t1234567890', 'Undo\t1', 'oder\tBRKA\tO1', 'redo\t', 'order\t\tO1',
             'order\tBRKA\t', 'order\tBRKA', 'position\t*', 'position\tA\x7f\tXYZ', 'report\t20240230', 'report\t2024', 'report',
             'redo\r', 'withdraw', 'withdraw\tx', 'withdraw\t1\t2', 'withdraw\t0000000001', 'mine\t', 'mine\t1',
             'allocate\tBRKA\tAL9\tXYZ', 'allocate\tBRKA\tAL9\tXYZ\tB\t20240105\t10\t0', 'undo\t' + '1' * 65531,
             'undo\t' + '1' * 65532, 'entry', 'entry\tx', 'needs\t1234567890', 'execution\tBRKA', 'execution\t\tE1', 'allocation\tBRKA\t',
             'orders\t', 'orders\tBRKA\tO1', 'positions\tA\x7f', 'steps', 'steps\t0', 'steps\t1001', 'refusals\t', 'refusals\t-1', 'entries')


def bytes_of(text):
    return text.replace('|', SOH.decode()).encode('latin-1')


class Drawing:
    """What is drawn from one seed."""

    def __init__(self, seed):
        self.seed, self.random = seed, random.Random(seed)
        self.day = plain.Day(OWN, PEERS)
        self.moment = 0

    def below(self, number):
        return int(self.random.random() * number)

    def once_in(self, times):
        return self.below(times) == 0

    def pick(self, them):
        return them[self.below(len(them))]

    def near(self, number):
        """A number close to this one: mostly itself, from 1 on."""
        return max(1, self.pick((number - 1, number + 1, number + 3, 1, *[number] * 28)))

    def sending(self):
        """The next SendingTime: mostly on the first day, some with a fraction, some in a leap second."""
        self.moment += self.below(3)
        minute, second = divmod(self.moment, 60)
        second = 60 if self.once_in(50) else second
        fraction = self.pick(('', '', '.5004', '.123', '.999999999'))
        return f'{self.pick(DAYS) if self.once_in(8) else DAYS[0]}-10:{minute:02}:{second:02}{fraction}'

    # The book's messages

    def taken(self, letters, peer):
        return [it.key[1] for it in self.day.desk.entries if it.key[0] == peer and it.key[1].startswith(letters)]

    def identifier(self, letters, peer):
        """A new identifier of a peer, or, now and then, one that is taken up."""
        taken = self.taken(letters, peer)
        return self.pick(taken) if taken and self.once_in(12) else f'{letters}{len(taken) + 1}'

    def reference(self, letters, peer):
        """An identifier to refer to: mostly one that is there."""
        taken = self.taken(letters, peer)
        return self.pick(taken[-8:]) if taken and not self.once_in(12) else f'{letters}99'

    def reference_to_allocation(self, peer):
        """The same, of an allocation: mostly one that is live."""
        live = [it.key[1] for it in plain.live_allocations(self.day.desk.entries) if it.key[0] == peer]
        return self.pick(live) if live and not self.once_in(4) else self.reference('AL', peer)

    def symbol(self):
        return 'ABC' if self.once_in(10) else 'XYZ'

    def side(self):
        return self.pick('23456') if self.once_in(6) else '1'

    def execution(self, kind, peer):
        """The fields of an Execution Report."""
        key = [f"17={self.identifier('E', peer)}"]
        key += [f"19={self.reference('E', peer)}"] if kind in 'GH' else []
        if kind in 'HX':
            return [*key, f"150={self.pick('0A4') if kind == 'X' else kind}"]
        size = self.pick((['38=300', '14=0', '151=0'], ['38=300.0', '14=x', '151=x'], ['14=100', '151=50.5']))
        amount = self.pick(('100', '100', '100', '50', '50.25', '00020', '.5', '1.', '0.000001', '9999999999.999999'))
        at = self.pick(('10.5', '10.5', '11', '10', '0', '-0', '-0.00000001', '99999999.99999999', '10.0033'))
        days = self.pick(([], [], [], [f'75={self.pick(DAYS)}'], [f'60={self.pick(DAYS)}-09:00:00']))
        account = self.pick(([], ['1=A1'], ['1=A1'], ['1=A2'], ['1=*']))
        return [f"37=O{self.below(3)}", *key, f'150={kind}', '39=1', *account, f'55={self.symbol()}', f'54={self.side()}', *size,
                f'32={amount}', f'31={at}', '6=0', *days]

    def executions(self, peer, replaced):
        """Some last versions of a peer that an allocation may book together: free ones, of one symbol and side."""
        entries = self.day.desk.entries
        others = [it for it in plain.live_allocations(entries) if it.key != (peer, replaced)]
        named = [root for it in others for root in plain.named_roots(entries, it.terms)]
        free = [it for it in plain.survivors(entries) if it.key[0] == peer and plain.root_of(entries, it.key) not in named]
        first = self.pick(free) if free else None
        alike = [it for it in free if it != first and (it.fill.symbol, it.fill.side) == (first.fill.symbol, first.fill.side)]
        return [first, *alike[:self.below(3)]] if first else []

    def names(self, peer, executions):
        """The ExecIDs that an allocation lists: those of these executions or of their Trades, else others."""
        names = [self.pick((it, plain.root_of(self.day.desk.entries, it.key))).key[1] for it in executions]
        if self.once_in(8) or not names:
            names = [self.reference('E', peer) for _ in range(self.below(3) + 1)]
        if self.once_in(8):
            names[self.below(len(names))] = self.reference('E', peer)
        return [*names, names[0]] if self.once_in(16) else names

    def lines_of(self, block):
        """Lines that add up to the block, mostly: an account and a quantity each."""
        count = self.below(3) + 1
        each = plain.Fraction(int(block * 100) // count, 100)
        quantities = [each] * (count - 1) + [block - each * (count - 1)]
        if self.once_in(8):
            quantities[0] += plain.Fraction(1, 10**6)
        return [(self.pick(('A', 'B', 'A1', '*')), plain.shown(it)) for it in quantities]

    def terms(self, peer, replaced):
        """Symbol, side, block, ExecIDs and lines of an allocation."""
        executions = self.executions(peer, replaced)
        block = sum(it.fill.quantity for it in executions) + (1 if self.once_in(8) else 0)
        fill = executions[0].fill if executions else None
        symbol = fill.symbol if fill and not self.once_in(12) else self.symbol()
        sign = fill.side if fill and not self.once_in(12) else self.pick('BS')
        return symbol, sign, plain.shown(block), self.names(peer, executions), self.lines_of(block)

    def allocation(self, kind, peer):
        """The fields of an Allocation Instruction."""
        reference = self.reference_to_allocation(peer)
        fields = [f"70={self.identifier('AL', peer)}", f"71={'NRC'.index(kind)}", *([f'72={reference}'] if kind != 'N' else [])]
        if kind == 'C':
            return fields
        symbol, sign, block, names, lines = self.terms(peer, reference if kind == 'R' else None)
        price = self.pick(('10', '10.5', '10.0033'))
        booked = [[f'79={account}', f'80={amount}', *([f'366={price}1'] if self.once_in(3) else [])] for account, amount in lines]
        return [*fields, f"54={'1' if sign == 'B' else '2'}", f'55={symbol}', f'53={block}', f'6={price}',
                f'75={self.pick(DAYS)}', f'124={len(names)}', *(f'17={it}' for it in names),
                f'78={len(lines)}', *itertools.chain(*booked)]

    # Messages

    def fields(self, kind, peer, session):
        """MsgType and the fields after the header."""
        if kind in 'FGHX':
            return '8', self.execution(kind, peer)
        if kind in 'NRC':
            return 'J', self.allocation(kind, peer)
        if kind == 'A':
            return 'A', ['98=0', f"108={self.pick(('30', '0', '030'))}", *(['141=Y'] if self.once_in(6) else [])]
        if kind == '1':
            return '1', [f'112=T{self.below(9)}']
        if kind == '2':
            return '2', [f'7={self.near(session.next_number - self.below(2))}', '16=0']
        if kind == '4':
            to = 999999999 if self.once_in(100) else self.near(session.expected + 1)
            return '4', [f'36={to}', *self.pick(([], ['123=Y'], ['123=Y'], ['123=N']))]
        return kind, ['58=text'] if self.once_in(2) else []

    def with_fault(self, fields):
        """The fields with one of them left out, twice, empty, of another value or in another place, or with an odd one more."""
        place = self.below(len(fields) + 1)
        if place == len(fields) or self.once_in(3):
            return [*fields[:place], self.pick(ODD_FIELDS), *fields[place:]]
        tag, field = fields[place].split('=')[0], fields[place]
        bad = f'{tag}={self.pick(BAD_VALUES)}'
        there = self.pick(([], [field, field], [bad, field], [f'{tag}='], [bad], [bad]))
        if self.once_in(8):
            return [*fields[:place], *fields[place + 1:], field]
        return [*fields[:place], *there, *fields[place + 1:]]

    def message(self):
        """One frame, drawn by the sessions as they are, and taken by them."""
        peer = 'BRKC' if self.once_in(50) else self.pick(PEERS)
        session = self.day.sessions.get(peer) or plain.Session(OWN, peer)
        kind = 'A' if not session.is_on and not self.once_in(6) else self.pick(KINDS)
        kind = 'N' if kind in 'RC' and not self.taken('AL', peer) and not self.once_in(8) else kind
        kind, fields = self.fields(kind, peer, session)
        number = self.near(session.expected)
        is_duplicate = self.once_in(2 if number < session.expected else 20)
        head = [f'49={peer}', f'56={OWN}', f'34={number}', *(['43=Y'] if is_duplicate else []), f'52={self.sending()}']
        if self.once_in(8):
            fields = self.with_fault(fields)
        if self.once_in(60):
            head = self.pick((self.with_fault(head), [it.replace(OWN, 'MX') for it in head]))
        if self.once_in(400):
            fields += [f'{9000 + it}=x' for it in range(self.pick((1985, 1995)) - len(fields))]
        return frame(bytes_of('|'.join([f'35={kind}', *head, *fields, ''])))

    def noise(self):
        """Bytes that are no frame, or are one that was damaged or cut."""
        whole = frame(bytes_of(f'35=0|49={self.pick(PEERS)}|56={OWN}|34=2|52=20240105-10:00:00|'))
        place = self.below(len(whole))
        return self.pick((bytes_of(self.pick(NOISE)), whole[:place], whole[:place] + b'\x7C' + whole[place + 1:]))

    def capture(self):
        """Messages with noise between some of them, and after the last one at times the front of another."""
        parts = []
        for place in range(MESSAGES):
            parts += [self.noise()] if self.once_in(16) else []
            parts += [b'8=FIX.4.4\x019=65000\x0135='] if place == MESSAGES - 4 and self.once_in(20) else []
            parts.append(self.message())
            self.day.take(parts[-1].decode('latin-1'))
        parts += [self.noise()] if self.once_in(3) else []
        return b''.join(parts)

    # An operator's lines

    def allocate(self):
        peer = self.pick(PEERS)
        symbol, sign, _, names, lines = self.terms(peer, None)
        words = ['allocate', peer, self.identifier('AL', peer), symbol, sign, self.pick(DAYS), self.pick(('10', '10.5', '-.5')),
                 str(len(names)), *names, *itertools.chain(*lines)]
        if self.once_in(5):
            words[self.below(len(words) - 1) + 1] = self.pick(BAD_VALUES)
        return words[:-1] if self.once_in(16) else words

    def withdrawn(self):
        """A number to withdraw: mostly that of an entry, else that of any step."""
        entries, done = self.day.desk.entries, self.day.desk.done
        numbers = [it.number for it in (done if self.once_in(5) else entries)]
        return self.pick(numbers) if numbers and not self.once_in(20) else self.below(70)

    def line(self):
        """An operator's line, drawn by the desk as it is."""
        newest = self.day.desk.done[-1].number if self.day.desk.done else 1
        return '\t'.join(self.pick((
            ['undo', str(newest)], ['undo', str(newest)], ['undo', f'0{newest}'], ['undo', str(self.near(newest))], ['redo'],
            ['redo'], ['redo'], ['mine'],
            *(['withdraw', str(self.withdrawn())] for _ in range(4)),
            ['order', self.pick(PEERS), f'O{self.below(4)}'], ['order', self.pick(PEERS), f'O{self.below(3)}'],
            ['position', self.pick(('*', 'A', 'A1', 'B', 'Z')), self.symbol()], ['position', '*', 'XYZ'],
            ['report', self.pick((*DAYS, '20240107'))], self.allocate(), self.allocate(), [self.pick(BAD_LINES)])))

    def questions(self, draw):
        """A line of each question. What it asks of is mostly there."""
        entries = self.day.desk.entries
        numbers, keys = [it.number for it in [*entries, *self.day.desk.done]] or [1], [it.key for it in entries] or [('BRKA', 'E1')]
        number, key, other = str(draw.choice(numbers)), draw.choice(keys), draw.choice((('BRKA', 'E1'), ('BRKB', 'AL99')))
        key = key if draw.randrange(8) else other
        return ['\t'.join(it) for it in (
            ['entry', number], ['needs', number], ['execution', *key], ['allocation', *key],
            ['orders', *draw.choice(([], [draw.choice(PEERS)]))], ['positions', *draw.choice(([], [draw.choice(('*', 'A', 'Z'))]))],
            ['steps', draw.choice(('1', '3', '01000'))], ['refusals', draw.choice(('1', '3', '1000'))])]

    def lines(self):
        """Lines, in one of four seeds each with all questions after it; and at times after them undos of all that is done and redos of all
        that is undone, one more of each."""
        drawn, draw = [], random.Random(f'{self.seed} asks')
        asks = draw.randrange(4) == 0
        for _ in range(LINES):
            drawn.append(self.line())
            answered(self.day.desk, drawn[-1])
            drawn += self.questions(draw) if asks else []
        if self.once_in(4):
            undos = [f'undo\t{it.number}' for it in reversed(self.day.desk.done)] + ['undo\t1']
            redos = ['redo'] * (len(self.day.desk.done) + len(self.day.desk.undone) + 1)
            drawn += [line for it in undos + redos for line in (it, *([f'report\t{self.pick(DAYS)}'] if self.once_in(4) else []))]
        return '\n'.join(drawn).encode('latin-1')


def answered(desk, line):
    try:
        return plain.answer(desk, line)
    except plain.Bad:
        return []


def drawn(seed):
    """A capture, an operator's lines and the day of a report."""
    drawing = Drawing(seed)
    capture = drawing.capture()
    drawing.day = plain.day_of(capture.decode('latin-1'), OWN, PEERS)
    return capture, drawing.lines(), drawing.pick(DAYS)


# Both programs

def first_difference(wanted, printed):
    """The number of the first line that differs, and both texts: none is nothing more."""
    pairs = itertools.zip_longest(wanted.split(b'\n'), printed.split(b'\n'))
    return next(((number, *pair) for number, pair in enumerate(pairs, 1) if pair[0] != pair[1]), None)


def pieces_of(seed, given):
    """The bytes, cut at places drawn from the seed: nowhere, once, or up to forty times."""
    draw = random.Random(f'{seed} in pieces')
    cuts = sorted(draw.randrange(len(given) + 1) for _ in range(draw.choice((0, 1, 5, 40))))
    return [given[begin:end] for begin, end in zip([0, *cuts], [*cuts, len(given)])]


def packets():
    """Both ends of a pipe of packets, in which each piece is a read of its own, of 4,096 bytes at most. A system that has no such pipe joins the pieces."""
    try:
        return os.pipe2(os.O_DIRECT | os.O_CLOEXEC)
    except OSError:
        return os.pipe2(os.O_CLOEXEC)


def feed(pieces, end):
    """Writes pieces, and ends."""
    with contextlib.suppress(BrokenPipeError), open(end, 'wb', buffering=0) as pipe:
        for piece in pieces:
            pipe.write(piece)


def compared(words, pieces, wanted):
    """What differs in one call, whose input comes in pieces: the call, the number of the line, what the plain program says and what came."""
    source, end = packets()
    with tempfile.TemporaryFile() as printed, tempfile.TemporaryFile() as errors:
        process = subprocess.Popen(words, stdin=source, stdout=printed, stderr=errors)
        os.close(source)
        alarm = threading.Timer(SECONDS, process.kill)
        alarm.start()
        feed(pieces, end)
        status = process.wait()
        alarm.cancel()
        came, said = (file.seek(0) or file.read() for file in (printed, errors))
    found = first_difference(wanted, came)
    if not found and (status, said) != (0, b''):
        found = ('-', b'status 0', b'status %d: %s' % (status, said.replace(b'\n', b' ')))
    return found and (words[1], *found)


def seen(program, seed):
    """What differs first in a seed, or none, and how often each thing came."""
    capture, lines, dated = drawn(seed)
    text, own = capture.decode('latin-1'), ['--own', OWN]
    trail, told = plain.trail(text, OWN, PEERS), plain.answers(text, OWN, PEERS, lines.decode('latin-1'))
    report = plain.report(text, OWN, PEERS, dated)
    with tempfile.TemporaryDirectory(prefix='seed-') as room:
        file = pathlib.Path(room, 'capture')
        file.write_bytes(capture)
        calls = (([program, 'audit', *own, *PEERS], capture, trail),
                 ([program, 'replay', *own, '--day', dated, *PEERS], capture, report),
                 ([program, 'desk', *own, '--capture', str(file), *PEERS], lines, told))
        found = next(filter(None, (compared(words, pieces_of(seed, given), wanted.encode('latin-1')) for words, given, wanted in calls)), None)
    desk = plain.day_of(text, OWN, PEERS).desk
    return found, counted(trail, told, desk.entries) + withdrawals(desk, lines.decode('latin-1').split('\n'))


def tried(program, seed):
    """The same. Where one of the programs stops without an answer, that is the difference, and where it stopped."""
    try:
        return seen(program, seed)
    except Exception as error:   # whatever it is: the other seeds go on
        place = traceback.extract_tb(error.__traceback__)[-1]
        where = f'{pathlib.Path(place.filename).name}:{place.lineno}: {error!r}'
        return ('no answer', '-', b'both answer', where.encode('ascii', 'backslashreplace')), Counter()


# What came

COMMANDS = ('Trade', 'Correct', 'Bust', 'AllocNew', 'AllocReplace', 'AllocCancel')
EACH = [
    *(f'taken {it}' for it in COMMANDS),
    *(f'became {it}' for it in plain.BECAME if it not in ('refused', 'rejected', 'closed')),
    *(f'became refused {it}' for it in range(1, 11)),
    *(f'became rejected for {it}' for it in (0, 1, 4, 5, 6, 13, 16)),
    *(f'became closed {it}' for it in plain.REASONS),
    *(f'sent 35={it}' for it in ('A', '0', '2', '3', '4', '5', 'P', 'j')),
    'sent 141=Y', 'sent 371', 'sent 373=9', 'sent 87=0', 'sent 88=1', 'sent 88=7', 'sent 88=10', 'skipped', 'rest',
    *(f'answer {it}' for it in ('accepted', 'undone', 'redone', 'order', 'position', 'none', 'report', 'end')),
    *(f'answer {it.lower()}' for it in COMMANDS),
    *(f'answer {it}' for it in ('withdraw', 'withdrawn', 'execution', 'busted', 'survivor', 'allocated', 'allocation', 'ended', 'free', 'needed', 'refusal')),
    *(f'answer refused {it}' for it in (2, 5, 6, 7, 8, 9, 10, 11, 12, 13, 14, 15)),
    *(f'{what} {it}' for it in COMMANDS for what in ('withdrawn', 'returned', 'needed') if (what, it) != ('needed', 'Bust')),
    *(f'answer bad {it}' for it in (1, 2, 3, 4))]


def counted(trail, told, entries):
    """How often each thing came, by its name in EACH."""
    came = Counter(f'taken {it.kind}' for it in entries)
    for words in (line.split('\t') for line in trail.splitlines()):
        if words[0] == 'message':
            became = words[7:]
            name = {'refused': ' '.join(became[:2]), 'closed': ' '.join(became[:2]), 'rejected': f'rejected for {became[-1]}'}
            came[f'became {name.get(became[0], became[0])}'] += 1
        elif words[0] == 'sent':
            came.update(f'sent {it}' for it in re.findall(r'\|(35=.|141=Y|371|373=9|87=0|88=\d+)', words[1]))
        elif words[0] in ('skipped', 'rest'):
            came[words[0]] += 1
    for words in (line.split('\t') for line in told.splitlines()):
        came['answer ' + ' '.join(words[:2 if words[0] in ('refused', 'bad') else 1])] += 1
    return came


def kind_of(entries, number):
    return next(it.kind for it in entries if it.number == number)


def withdrawals(desk, lines):
    """How often an entry of each kind is withdrawn by these lines, is back where that is undone, and stays since another needs it."""
    came = Counter()
    for line in lines:
        before = desk.entries
        for told in answered(desk, line):
            step = desk.done[-1] if told[0] == 'accepted' else desk.undone[-1] if told[0] == 'undone' else None
            if step and isinstance(step.command, plain.Withdraw):
                what = 'withdrawn' if told[0] == 'accepted' else 'returned'
                came[f'{what} {kind_of(before + desk.entries, step.command.withdrawn)}'] += 1
            if told[:2] == ('refused', 12):
                number = int(line.split('\t')[1])
                came[f'needed {kind_of(before, number)}'] += 1
    return came


def missing(came):
    return [it for it in EACH if not came[it]]


def main(seed, folder):
    capture, lines, _ = drawn(int(seed))
    pathlib.Path(folder, f'{seed}.fix').write_bytes(capture)
    pathlib.Path(folder, f'{seed}.lines').write_bytes(lines)


if __name__ == '__main__':
    main(*sys.argv[1:])
