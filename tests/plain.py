"""The blotter once more, plain and slow, to compare the real program with. It shares nothing with it but the pages under docs/.

  trail(capture, own, peers)             what `blotter audit` prints
  report(capture, own, peers, day)       what `blotter replay` prints
  answers(capture, own, peers, lines)    what `blotter desk` prints to an operator's lines
  Day(own, peers).take(frame)            one message, with what became of it
  journal(file)                          what a day's journal keeps: its events, the desk after them, and each peer's numbers
  received(file)                         the messages in it that were received, as they came
  journal_fault(file, own, day, peers)   why it isn't taken up, in the words that follow its name, or None; a day and peers of None are as `desk` and `audit` ask

Each rule stands once, in the order and the words of docs/FORMATS.md, docs/SESSION.md and docs/DEFINITIONS.md; where the two
programs differ, the page says which is wrong. Nothing is kept that can be worked out: each answer is computed anew from the list
of entries. Whatever goes in or comes out is a text with a character for each byte (latin-1); amounts are exact fractions. What a
capture can't bring about isn't here: moments that pass, numbers to send that are used up, a desk that is full."""
import re
from collections import namedtuple
from fractions import Fraction

SOH = '\x01'


# Frames

LONGEST, DIGITS = 65536, 6   # of BodyLength


class NoFrame(Exception):
    """No frame begins here, whatever may follow."""


class Unfinished(Exception):
    """The capture ends within what may be a frame."""


def behind(capture, at, text):
    """The place after a text that has to stand at this one."""
    there = capture[at:at + len(text)]
    if not text.startswith(there):
        raise NoFrame
    if there != text:
        raise Unfinished
    return at + len(text)


def can_be_length(digits):
    """Whether these digits are a BodyLength, or its first ones."""
    number = int(digits or '0')
    return any(number * 10**more <= LONGEST and (number + 1) * 10**more > 5 for more in range(DIGITS + 1 - len(digits)))


def check_sum(text):
    return sum(text.encode('latin-1')) % 256


def end_of_frame(capture, start):
    """The place after the frame that begins at this one."""
    at = behind(capture, start, f'8=FIX.4.4{SOH}9=')
    digits = re.compile('[0-9]*').match(capture, at)[0][:DIGITS + 1]
    if not can_be_length(digits):
        raise NoFrame
    at += len(digits)
    if at == len(capture):
        raise Unfinished
    if not digits or not 5 <= int(digits) <= LONGEST:
        raise NoFrame
    body = behind(capture, at, SOH)
    behind(capture, body, '35=')
    end = body + int(digits)
    if end > len(capture):
        raise Unfinished
    behind(capture, end - 1, SOH)
    return behind(capture, end, f'10={check_sum(capture[start:end]):03}{SOH}')


def pieces_of(capture):
    """The walk: each frame with its place; each run of bytes passed over, and the rest, with its place and its length."""
    at, pieces = 0, []
    while at < len(capture):
        try:
            end = end_of_frame(capture, at)
        except Unfinished:
            return [*pieces, ('rest', at, len(capture) - at)]
        except NoFrame:
            begin, length = pieces.pop()[1:] if pieces and pieces[-1][0] == 'skipped' else (at, 0)
            pieces.append(('skipped', begin, length + 1))
            at += 1
        else:
            pieces.append(('message', at, capture[at:end]))
            at = end
    return pieces


# Fields

DATA = {90: 91, 93: 89, 95: 96, 212: 213, 348: 349, 350: 351, 352: 353, 354: 355, 356: 357, 358: 359, 360: 361, 362: 363,
        364: 365, 445: 446, 618: 619, 621: 622}   # the data tag after each length tag


class Fault(Exception):
    """What is wrong with a message: the tag and the reason of a Reject."""

    def __init__(self, tag, reason):
        super().__init__(tag, reason)
        self.tag, self.reason = tag, reason


def is_digits(text):
    return re.fullmatch('[0-9]+', text) is not None


def number_of(digits):
    """The number that digits write. Eighteen of them are above all that is allowed anywhere, so more aren't read."""
    return int(digits.lstrip('0')[:18] or '0')


def field_at(frame, at, before):
    """The tag and the value of the field at this place, and the place after it. Before it stands the field `before`."""
    text = frame[at:frame.index(SOH, at)]
    found = re.match('([1-9][0-9]{0,8})=', text)
    if not found:
        raise Fault(0, 0)
    tag, value = int(found[1]), text[found.end():]
    if before and DATA.get(before[0]) == tag:
        begin = at + found.end()
        end = begin + number_of(before[1]) if is_digits(before[1]) else len(frame)
        if end >= len(frame) - len('10=000|') or frame[end] != SOH:
            raise Fault(tag, 6)
        return tag, frame[begin:end], end + 1
    return tag, value, at + len(text) + 1


def fields_of(frame):
    """The fields of a frame, each a tag and a value, and the fault that ends them, or none."""
    at, fields = 0, []
    while at < len(frame):
        try:
            tag, value, at = field_at(frame, at, fields[-1] if fields else None)
        except Fault as fault:
            return fields, fault
        fields.append((tag, value))
    return fields, None


# Values: each form gives what a text says, or raises why it doesn't say it

LARGEST = 10**16 - 1   # of a quantity in millionths, of a price in hundred-millionths


class Wrong(Exception):
    """What is wrong with a value: the reason of a Reject."""

    def __init__(self, reason):
        super().__init__(reason)
        self.reason = reason


def anything(value):
    return value


def text(value):
    if not re.fullmatch('[ -~]{1,64}', value):
        raise Wrong(5)
    return value


def whole(lowest, highest):
    """The form of whole numbers between these."""
    def form(value):
        if not is_digits(value):
            raise Wrong(6)
        if not lowest <= number_of(value) <= highest:
            raise Wrong(5)
        return number_of(value)
    return form


def one_of(meanings):
    """The form of some values and what each of them means."""
    def form(value):
        if value not in meanings:
            raise Wrong(5)
        return meanings[value]
    return form


def decimal(places, lowest, highest):
    """The form of decimals between these, in units of the last place that is kept."""
    def form(value):
        found = re.fullmatch(r'(-?)([0-9]*)(?:\.([0-9]*))?', value)
        if not found or not (found[2] or found[3]):
            raise Wrong(6)
        kept, finer = (found[3] or '')[:places], (found[3] or '')[places:]
        units = number_of(found[2]) * 10**places + number_of(kept.ljust(places, '0'))
        units = -units if found[1] else units
        if finer.strip('0') or not lowest <= units <= highest:
            raise Wrong(5)
        return Fraction(units, 10**places)
    return form


sequence_number = whole(1, 999999999)
count = whole(1, 200)
flag = one_of({'Y': True, 'N': False})
side = one_of({'1': 'B', '3': 'B', '2': 'S', '4': 'S', '5': 'S', '6': 'S'})
quantity = decimal(6, 0, LARGEST)
some_quantity = decimal(6, 1, LARGEST)
price = decimal(8, -LARGEST, LARGEST)


def shown(number):
    """The shortest exact decimal."""
    whole_part, rest = divmod(int(abs(number) * 10**14), 10**14)
    return ('-' if number < 0 else '') + f'{whole_part}.{rest:014}'.rstrip('0').rstrip('.')


def day(value):
    if not re.fullmatch('[0-9]{8}', value):
        raise Wrong(6)
    year, month, date = int(value[:4]), int(value[4:6]), int(value[6:])
    is_leap = year % 4 == 0 and (year % 100 != 0 or year % 400 == 0)
    lengths = [31, 29 if is_leap else 28, 31, 30, 31, 30, 31, 31, 30, 31, 30, 31]
    if not 1 <= month <= 12 or not 1 <= date <= lengths[month - 1]:
        raise Wrong(5)
    return value


def moment(value):
    """A moment, written with its milliseconds."""
    found = re.fullmatch(r'([0-9]{8})-(([0-9]{2}):([0-9]{2}):)([0-9]{2})(?:\.([0-9]{3})[0-9]{0,6})?', value)
    if not found or int(found[3]) > 23 or int(found[4]) > 59 or int(found[5]) > 60:
        raise Wrong(6)
    return f"{day(found[1])}-{found[2]}{'59' if found[5] == '60' else found[5]}.{found[6] or '000'}"


# Messages

Head = namedtuple('Head', 'kind sender target number sending is_duplicate')
Fill = namedtuple('Fill', 'order account symbol side size quantity price day')   # its order is a key, its side B or S
Line = namedtuple('Line', 'account quantity price')
Terms = namedtuple('Terms', 'symbol side day block executions lines')

# What changes the book, and, with a number, an entry of its list. A key is a peer with its ExecID, OrderID or AllocID.
Command = namedtuple('Command', 'kind key reference fill terms number', defaults=[None, None, None, 0])


def values_of(fields, tag):
    return [value for there, value in fields if there == tag]


def read(tag, form, value):
    try:
        return form(value)
    except Wrong as wrong:
        raise Fault(tag, wrong.reason) from None


def row(fields, tag, form):
    """What a tag says that has to stand once."""
    values = values_of(fields, tag)
    if len(values) != 1:
        raise Fault(tag, 13 if values else 1)
    return read(tag, form, values[0])


def optional(fields, tag, form):
    """The same of one that may stand once: none where it doesn't."""
    return row(fields, tag, form) if values_of(fields, tag) else None


def head_of(fields):
    kind, sender, target = row(fields, 35, text), row(fields, 49, text), row(fields, 56, text)
    number, sending = row(fields, 34, sequence_number), row(fields, 52, moment)
    return Head(kind, sender, target, number, sending, bool(optional(fields, 43, flag)))


def sound_fields(frame):
    """The fields of a frame before its first fault, and that fault, or none."""
    fields, fault = fields_of(frame)
    for place, (tag, value) in enumerate(fields):
        if place == 2000 or not value:
            return fields[:place], Fault(tag, 6 if place == 2000 else 4)
    return fields, fault


def message_of(frame):
    """The head of a message, none where it can't be read, and its body or its fault."""
    fields, fault = sound_fields(frame)
    try:
        head = head_of(fields)
    except Fault as of_head:
        return None, fault or of_head
    try:
        return head, fault or body_of(head, fields)
    except Fault as of_body:
        return head, of_body


def body_of(head, fields):
    """What the rows of a message say: a command, or the values that its session goes by; none of a message that has no rows."""
    match head.kind:
        case 'A':
            row(fields, 98, one_of({'0': 0}))
            return {'heartbeat': row(fields, 108, whole(0, 86400)), 'resets': bool(optional(fields, 141, flag))}
        case '1':
            return {'asked': row(fields, 112, text)}
        case '2':
            begin = row(fields, 7, sequence_number)
            row(fields, 16, whole(0, 999999999))
            return {'begin': begin}
        case '4':
            return {'to': row(fields, 36, sequence_number), 'fills': bool(optional(fields, 123, flag))}
        case '8':
            return execution(head, fields)
        case 'J':
            return allocation(head, fields)
    return None


def execution(head, fields):
    """The command of an Execution Report, none of one about no fill."""
    kind = {'F': 'Trade', 'G': 'Correct', 'H': 'Bust'}.get(row(fields, 150, anything))
    if kind is None:
        return None
    order = (head.sender, row(fields, 37, text)) if kind != 'Bust' else None
    key = head.sender, row(fields, 17, text)
    reference = (head.sender, row(fields, 19, text)) if kind != 'Trade' else None
    return Command(kind, key, reference, fill_of(head, fields, order) if order else None)


def fill_of(head, fields, order):
    row(fields, 39, anything)
    row(fields, 6, anything)
    sign = row(fields, 54, side)
    form = anything if values_of(fields, 38) else quantity
    filled, left = row(fields, 14, form), row(fields, 151, form)
    symbol, size_of_fill, at = row(fields, 55, text), row(fields, 32, some_quantity), row(fields, 31, price)
    account, size = optional(fields, 1, text), optional(fields, 38, quantity)
    transacted, dated = optional(fields, 60, moment), optional(fields, 75, day)
    size = filled + left if size is None else size
    return Fill(order, account, symbol, sign, size, size_of_fill, at, dated or (transacted or head.sending)[:8])


def allocation(head, fields):
    """The command of an Allocation Instruction."""
    key = head.sender, row(fields, 70, text)
    kind = row(fields, 71, one_of({'0': 'AllocNew', '1': 'AllocReplace', '2': 'AllocCancel'}))
    reference = (head.sender, row(fields, 72, text)) if kind != 'AllocNew' else None
    return Command(kind, key, reference, None, terms_of(head, fields) if kind != 'AllocCancel' else None)


def terms_of(head, fields):
    sign, symbol, block = row(fields, 54, side), row(fields, 55, text), row(fields, 53, quantity)
    lines = lines_of(fields)
    average = row(fields, 6, anything if all(values_of(line, 366) for line in lines) else price)
    dated = row(fields, 75, day)
    executions = [(head.sender, it) for it in executions_of(fields)]
    check_lines(fields, lines)
    return Terms(symbol, sign, dated, block, executions, [line_of(line, average) for line in lines])


def line_of(fields, average):
    account, amount, own = row(fields, 79, text), row(fields, 80, quantity), optional(fields, 366, price)
    return Line(account, amount, average if own is None else own)


def places_of(fields, *tags):
    return [place for place, (tag, _) in enumerate(fields) if tag in tags]


def executions_of(fields):
    listed = row(fields, 124, count)
    places = places_of(fields, 17)
    if len(places) != listed or places[0] < places_of(fields, 124)[0]:
        raise Fault(124, 16)
    return [read(17, text, value) for value in values_of(fields, 17)]


def lines_of(fields):
    """The fields of each line: from a 79 after 78 to the next, or to the end."""
    begins = [place for place in places_of(fields, 79) if place > min(places_of(fields, 78), default=len(fields))]
    return [fields[begin:end] for begin, end in zip(begins, [*begins[1:], len(fields)])]


def check_lines(fields, lines):
    listed = row(fields, 78, count)
    parts = sum(len(places_of(line, 79, 80, 366)) for line in lines)
    if len(lines) != listed or parts != len(places_of(fields, 79, 80, 366)):
        raise Fault(78, 16)


# The session with a peer

REASONS = {1: 'NoLogon', 2: 'TooLow', 3: 'CompId', 4: 'LoggedOut', 7: 'BadHeader'}


def framed(body):
    front = f'8=FIX.4.4{SOH}9={len(body)}{SOH}{body}'
    return f'{front}10={check_sum(front):03}{SOH}'


class Session:
    """One peer's session. Each call says what became of a message, in the words of the trail; `sent` is what it sends."""

    def __init__(self, own, peer):
        self.own, self.peer = own, peer
        self.expected = self.next_number = 1
        self.is_on, self.now, self.sent = False, '', []

    def send(self, kind, *fields, in_place_of=None):
        """Sends a message, or, in place of those from a number on, a gap fill, which uses no number up."""
        is_fill = in_place_of is not None
        head = [f'35={kind}', f'49={self.own}', f'56={self.peer}', f'34={in_place_of if is_fill else self.next_number}']
        head += ['43=Y', f'52={self.now}', f'122={self.now}'] if is_fill else [f'52={self.now}']
        self.sent.append(framed(''.join(field + SOH for field in [*head, *fields])))
        self.next_number += not is_fill

    def ask_again(self):
        self.send('2', f'7={self.expected}', '16=0')

    def fill_gap(self, begin):
        self.send('4', '123=Y', f'36={self.next_number}', in_place_of=begin)

    def reject(self, number, tag, reason):
        self.send('3', f'45={number}', *([f'371={tag}'] if tag else []), f'373={reason}')
        return 'rejected', tag, reason

    def close(self, reason, logs_out=False):
        if logs_out:
            self.send('5')
        self.is_on = False
        return 'closed', reason, REASONS[reason]

    def take(self, head, body, desk):
        """A frame: its message as `message_of` has it."""
        self.sent = []
        return self.take_on(head, body, desk) if self.is_on else self.take_waiting(head, body)

    def take_waiting(self, head, body):
        if isinstance(body, Fault) or head.kind != 'A':
            return self.close(1)
        if (head.sender, head.target) != (self.peer, self.own):
            return self.close(3)
        if body['resets']:
            self.expected = self.next_number = 1
        if head.number < self.expected:
            return self.close(1) if head.is_duplicate else self.close(2, logs_out=True)
        self.is_on = True
        self.send('A', '98=0', f"108={body['heartbeat']}", *(['141=Y'] if body['resets'] else []))
        if head.number == self.expected:
            self.expected += 1
            return ('taken',)
        self.ask_again()
        return 'early', self.expected

    def take_on(self, head, body, desk):
        if head is None:
            return self.close(7, logs_out=True)
        if (head.sender, head.target) != (self.peer, self.own):
            self.reject(head.number, 49 if head.sender != self.peer else 56, 9)
            self.expected += head.number == self.expected
            return self.close(3, logs_out=True)
        kind = None if isinstance(body, Fault) else head.kind
        if kind == 'A' and body['resets']:
            return self.take_waiting(head, body)
        if kind == '4' and not body['fills']:
            return self.go_to(head, body['to'], self.expected)
        if head.number < self.expected:
            return ('late', self.expected) if head.is_duplicate else self.close(2, logs_out=True)
        if head.number > self.expected:
            return self.take_early(kind, body)
        if kind == '4':
            return self.go_to(head, body['to'], self.expected + 1)
        return self.take_next(head, kind, body, desk)

    def go_to(self, head, to, lowest):
        """A SequenceReset, to a number that is at least the lowest."""
        if to < lowest:
            return self.reject(head.number, 36, 5)
        self.expected = to
        return ('taken',)

    def take_early(self, kind, body):
        if kind == '2' and body['begin'] < self.next_number:
            self.fill_gap(body['begin'])
        self.ask_again()
        if kind == '5':
            self.send('5')
        return 'early', self.expected

    def take_next(self, head, kind, body, desk):
        """The message that is expected: whatever becomes of it, the next one is expected then."""
        self.expected += 1
        if kind is None:
            return self.reject(head.number, body.tag, body.reason)
        if isinstance(body, Command):
            return self.deliver(body, desk)
        if kind in ('A', '0', '3', 'j', '8'):
            return ('taken',)
        if kind == '1':
            self.send('0', f"112={body['asked']}")
            return ('taken',)
        if kind == '2':
            if body['begin'] >= self.next_number:
                return self.reject(head.number, 7, 5)
            self.fill_gap(body['begin'])
            return ('taken',)
        if kind == '5':
            return self.close(4, logs_out=True)
        self.send('j', f'45={head.number}', f'372={kind}', '380=3')
        return ('unsupported',)

    def deliver(self, command, desk):
        became = desk.submit(command)
        if command.kind.startswith('Alloc'):
            code = {5: 10, 6: 10, 8: 10, 10: 1}.get(became[1], 7)
            status = ['87=0'] if became[0] == 'accepted' else ['87=1', f'88={code}']
            self.send('P', f'70={command.key[1]}', f'60={self.now}', *status)
        return became


# The book: a list of entries in rising order of number

VERSIONS, EXECUTIONS = ('Trade', 'Correct'), ('Trade', 'Correct', 'Bust')
ALLOCATIONS, ENDINGS = ('AllocNew', 'AllocReplace'), ('AllocReplace', 'AllocCancel')


def root_of(entries, key):
    """The Trade that the chain of a key began with, none where the key has no chain."""
    for entry in entries:
        if entry.key == key and entry.kind in VERSIONS:
            return entry if entry.kind == 'Trade' else root_of(entries, entry.reference)
    return None


def bust_of(entries, root):
    return next((it for it in entries if it.kind == 'Bust' and root_of(entries, it.reference) == root), None)


def last_version(entries, root):
    return [it for it in entries if it.kind in VERSIONS and root_of(entries, it.key) == root][-1]


def survivors(entries):
    """The versions that stand: of each chain that isn't busted the last."""
    roots = [it for it in entries if it.kind == 'Trade' and not bust_of(entries, it)]
    return sorted((last_version(entries, root) for root in roots), key=lambda it: it.number)


def ending_of(entries, allocation_key):
    """The entry that replaced an allocation or cancelled it."""
    return next((it for it in entries if it.kind in ENDINGS and it.reference == allocation_key), None)


def live_allocations(entries):
    return [it for it in entries if it.kind in ALLOCATIONS and not ending_of(entries, it.key)]


def named_roots(entries, terms):
    return [root_of(entries, key) for key in terms.executions]


def refusals_of(entries, command):
    """Why a list refuses a command, by the reasons in their order: the first is the answer, and what follows it means nothing."""
    family = EXECUTIONS if command.kind in EXECUTIONS else ALLOCATIONS + ENDINGS
    for entry in entries:
        if entry.kind in family and entry.key == command.key:
            yield (1, 'DuplicateExec', entry.number) if family == EXECUTIONS else (2, 'DuplicateAlloc', entry.number)
    if command.kind in ENDINGS:
        if not any(it.kind in ALLOCATIONS and it.key == command.reference for it in entries):
            yield 3, 'UnknownAlloc'
        ending = ending_of(entries, command.reference)
        if ending:
            yield 4, 'DeadAlloc', ending.number
    keys = command.terms.executions if command.terms else [command.reference] if command.kind in ('Correct', 'Bust') else []
    roots = [root_of(entries, key) for key in keys]
    for key, root in zip(keys, roots):
        if root is None:
            yield 5, 'UnknownExec', *key
    for root in roots:
        bust = bust_of(entries, root)
        if bust:
            yield 6, 'BustedExec', bust.number
    if command.terms:
        yield from refusals_of_terms(entries, command, keys, roots)


def refusals_of_terms(entries, command, keys, roots):
    terms = command.terms
    for place, root in enumerate(roots):
        if root in roots[:place]:
            yield 7, 'RepeatedExec', *keys[place]
    others = [it for it in live_allocations(entries) if it.key != command.reference]
    for root in roots:
        for other in others:
            if root in named_roots(entries, other.terms):
                yield 8, 'ExecTaken', other.number
    fills = [last_version(entries, root).fill for root in roots]
    for key, fill in zip(keys, fills):
        if (fill.symbol, fill.side) != (terms.symbol, terms.side):
            yield 9, 'Instrument', *key
    wanted = sum(fill.quantity for fill in fills)
    for found in (terms.block, sum(line.quantity for line in terms.lines)):
        if found != wanted:
            yield 10, 'Quantity', shown(wanted), shown(found)


# Takes the entry of a number out of the list, whatever came after it.
Withdraw = namedtuple('Withdraw', 'withdrawn')

# What was done: its number, the command, and the list before it.
Step = namedtuple('Step', 'number command before')


def without(entries, number):
    return [it for it in entries if it.number != number]


def after(entries, command, number):
    """The list after a command that it takes."""
    is_withdrawal = isinstance(command, Withdraw)
    return without(entries, command.withdrawn) if is_withdrawal else [*entries, command._replace(number=number)]


def needing(entries, number):
    """The least number of an entry that those before it refuse, where the entry of this number isn't there; none where each is taken."""
    left = without(entries, number)
    return next((it.number for place, it in enumerate(left) if it.number > number and refusal_of(left[:place], it)), None)


def refusal_of(entries, command):
    """Why a list refuses a command, none where it takes it."""
    if not isinstance(command, Withdraw):
        return next(refusals_of(entries, command), None)
    if command.withdrawn not in [it.number for it in entries]:
        return 11, 'NotLive', command.withdrawn
    first = needing(entries, command.withdrawn)
    return first and (12, 'Needed', first)


class Desk:
    """The list of entries, the done steps, and the undone ones; of both the newest stands at the end."""

    def __init__(self):
        self.entries, self.done, self.undone, self.next_number = [], [], [], 1
        self.history = []   # each event: a command with its refusal, none where it was taken; an undo, a redo or an ask as None

    def do(self, number, command):
        self.done.append(Step(number, command, self.entries))
        self.entries = after(self.entries, command, number)

    def submit(self, command):
        refusal = refusal_of(self.entries, command)
        self.history.append((command, refusal))
        if refusal:
            return 'refused', *refusal
        self.do(self.next_number, command)
        self.undone, self.next_number = [], self.next_number + 1
        return 'accepted', self.done[-1].number

    def undo(self, number):
        self.history.append(None)
        if not self.done:
            return 'refused', 13, 'NothingToUndo'
        if self.done[-1].number != number:
            return 'refused', 14, 'Moved', self.done[-1].number
        self.undone.append(self.done.pop())
        self.entries = self.undone[-1].before
        return 'undone', number

    def redo(self):
        self.history.append(None)
        if not self.undone:
            return 'refused', 15, 'NothingToRedo'
        step = self.undone.pop()
        self.do(step.number, step.command)
        return 'redone', step.number

    def withdraw_newest(self):
        """Withdraws the newest entry, where there is one."""
        return self.submit(Withdraw(self.entries[-1].number)) if self.entries else ('none',)


# Orders, positions and the report of a day

# What an execution, or a line of an allocation, adds to a position.
Part = namedtuple('Part', 'account symbol day quantity value')


def order_line(fills, order):
    """The line of an order among some fills, none without one."""
    own = [fill for fill in fills if fill.order == order]
    if not own:
        return None
    filled, value = sum(fill.quantity for fill in own), sum(fill.quantity * fill.price for fill in own)
    left = max(own[-1].size - filled, 0)
    return 'order', *order, own[-1].symbol, own[-1].side, shown(filled), shown(left), shown(value)


def part(account, symbol, dated, sign, amount, at):
    signed = amount if sign == 'B' else -amount
    return Part(account, symbol, dated, signed, signed * at)


def parts_of(entries):
    allocations = live_allocations(entries)
    named = [root for it in allocations for root in named_roots(entries, it.terms)]
    for entry in survivors(entries):
        fill = entry.fill
        account = '*' if fill.account is None or root_of(entries, entry.key) in named else fill.account
        yield part(account, fill.symbol, fill.day, fill.side, fill.quantity, fill.price)
    for terms in (it.terms for it in allocations):
        for line in terms.lines:
            yield part(line.account, terms.symbol, terms.day, terms.side, line.quantity, line.price)
            yield part('*', terms.symbol, terms.day, terms.side, -line.quantity, line.price)


def position_line(parts, account, symbol):
    """The line of a position among some parts, none without one."""
    own = [it for it in parts if (it.account, it.symbol) == (account, symbol)]
    if not own:
        return None
    return 'position', account, symbol, shown(sum(it.quantity for it in own)), shown(sum(it.value for it in own))


def report_of(entries, dated):
    fills = [it.fill for it in survivors(entries) if it.fill.day == dated]
    parts = [it for it in parts_of(entries) if it.day == dated]
    lines = [order_line(fills, order) for order in sorted({fill.order for fill in fills})]
    lines += [position_line(parts, *place) for place in sorted({(it.account, it.symbol) for it in parts})]
    return [('report', dated), *lines, ('end', len(lines))]


# Questions: what an operator asks that is no event

def entry_line(entry):
    """An entry by its number, its key and what its command says."""
    words = entry.kind.lower(), entry.number, *entry.key, *([entry.reference[1]] if entry.reference else [])
    if entry.fill:
        fill = entry.fill
        return (*words, fill.order[1], fill.account or '*', fill.symbol, fill.side, shown(fill.quantity), shown(fill.price), fill.day, shown(fill.size))
    if entry.terms:
        terms = entry.terms
        lines = [word for it in terms.lines for word in (it.account, shown(it.quantity), shown(it.price))]
        return (*words, terms.symbol, terms.side, terms.day, shown(terms.block), len(terms.executions), *(it[1] for it in terms.executions), len(terms.lines), *lines)
    return words


def ended(first, lines):
    return [*first, *lines, ('end', len(lines))]


def numbered(word, entry):
    return [(word, entry.number)] if entry else []


def execution_of(entries, key):
    """The chain of an execution, what ended it or its last version, and the live allocation that names it."""
    found = next((it for it in entries if it.kind in EXECUTIONS and it.key == key), None)
    if not found:
        return [('none',)]
    chain = {it.number: root_of(entries, it.reference if it.kind == 'Bust' else it.key) for it in entries if it.kind in EXECUTIONS}
    root = chain[found.number]
    bust = bust_of(entries, root)
    allocated_by = next((it for it in live_allocations(entries) if root in named_roots(entries, it.terms)), None)
    lines = [entry_line(it) for it in entries if chain.get(it.number) == root]
    lines += numbered('busted', bust) or numbered('survivor', last_version(entries, root))
    return ended([('execution', *key)], lines + numbered('allocated', allocated_by))


def allocation_of(entries, key):
    found = next((it for it in entries if it.kind in ALLOCATIONS + ENDINGS and it.key == key), None)
    return ended([('allocation', *key)], [entry_line(found), *numbered('ended', ending_of(entries, key))]) if found else [('none',)]


def needs_of(entries, number):
    refusal = refusal_of(entries, Withdraw(number))
    return ('free',) if not refusal else ('needed', refusal[2]) if refusal[0] == 12 else ('refused', *refusal)


def step_line(entries, step):
    if isinstance(step.command, Withdraw):
        return 'withdraw', step.number, step.command.withdrawn
    return next((entry_line(it) for it in entries if it.number == step.number), ('withdrawn', step.number))


def refusal_lines(history):
    """The refused commands, the oldest first."""
    for place, event in enumerate(history, 1):
        if event and event[1]:
            command, refusal = event
            key = ('withdraw', command.withdrawn) if isinstance(command, Withdraw) else (command.kind.lower(), *command.key)
            yield 'refusal', place, *key, *refusal


def orders_of(entries, peer):
    fills = [it.fill for it in survivors(entries) if peer in (None, it.key[0])]
    return ended([], [order_line(fills, order) for order in sorted({it.order for it in fills})])


def positions_of(entries, account):
    parts = [it for it in parts_of(entries) if account in (None, it.account)]
    return ended([], [position_line(parts, *place) for place in sorted({(it.account, it.symbol) for it in parts})])


def some_rows(value):
    if not is_digits(value) or not 1 <= number_of(value) <= 1000:
        raise Wrong(6)
    return number_of(value)


def found(desk, words):
    """The answer to a question."""
    if words[0] in ('entry', 'needs'):
        number = value_at(words, 1, short_number)
        return [needs_of(desk.entries, number)] if words[0] == 'needs' else [entry_line(it) for it in desk.entries if it.number == number] or [('none',)]
    if words[0] in ('steps', 'refusals'):
        count = value_at(words, 1, some_rows)
        rows = [step_line(desk.entries, it) for it in desk.done] if words[0] == 'steps' else list(refusal_lines(desk.history))
        return ended([], rows[::-1][:count])
    if words[0] in ('orders', 'positions'):
        wanted = value_at(words, 1, text) if len(words) > 1 else None
        return orders_of(desk.entries, wanted) if words[0] == 'orders' else positions_of(desk.entries, wanted)
    key = value_at(words, 1, text), value_at(words, 2, text)
    return execution_of(desk.entries, key) if words[0] == 'execution' else allocation_of(desk.entries, key)


# How many words each question's line has.
QUESTIONS = {'entry': [2], 'execution': [3], 'allocation': [3], 'needs': [2], 'orders': [1, 2], 'positions': [1, 2], 'steps': [2], 'refusals': [2]}


# An operator's lines

class Bad(Exception):
    """What is wrong with a line: its number, and the place where it tells one."""


def value_at(words, place, form):
    try:
        return form(words[place])
    except Wrong:
        raise Bad(3, place) from None


def short_number(value):
    if not re.fullmatch('[0-9]{1,9}', value):
        raise Wrong(6)
    return int(value)


def listed_in(words):
    """How many executions an `allocate` names, by its COUNT: none where that is bad. Its words are as many as that asks for."""
    if len(words) < 8:
        raise Bad(2)
    try:
        listed = count(words[7])
    except Wrong:
        return None
    pairs, odd = divmod(len(words) - 8 - listed, 2)
    if odd or not 1 <= pairs <= 200:
        raise Bad(2)
    return listed


def allocated(words):
    """The command of an `allocate` line."""
    listed = listed_in(words)
    forms = [text, text, text, one_of({'B': 'B', 'S': 'S'}), day, price, count]
    peer, identifier, symbol, sign, dated, at, _ = (value_at(words, place, form) for place, form in enumerate(forms, 1))
    executions = [(peer, value_at(words, place, text)) for place in range(8, 8 + listed)]
    lines = [Line(value_at(words, it, text), value_at(words, it + 1, quantity), at) for it in range(8 + listed, len(words), 2)]
    block = sum(line.quantity for line in lines)
    if block > Fraction(LARGEST, 10**6):
        raise Bad(3, len(words) - 1)
    return Command('AllocNew', (peer, identifier), None, None, Terms(symbol, sign, dated, block, executions, lines))


def answer(desk, line):
    """The answer to one line: the words of its lines. It may change the desk."""
    words = line.split('\t')
    wanted = {'undo': [2], 'redo': [1], 'withdraw': [2], 'mine': [1], 'order': [3], 'position': [3], 'report': [2], **QUESTIONS}.get(words[0])
    if len(line) > 65536:
        raise Bad(4)
    if words[0] == 'allocate':
        return [desk.submit(allocated(words))]
    if wanted is None:
        raise Bad(1)
    if len(words) not in wanted:
        raise Bad(2)
    if words[0] in QUESTIONS:
        return found(desk, words)
    if words[0] == 'undo':
        return [desk.undo(value_at(words, 1, short_number))]
    if words[0] == 'redo':
        return [desk.redo()]
    if words[0] == 'withdraw':
        return [desk.submit(Withdraw(value_at(words, 1, short_number)))]
    if words[0] == 'mine':
        return [desk.withdraw_newest()]
    if words[0] == 'report':
        return report_of(desk.entries, value_at(words, 1, day))
    key = value_at(words, 1, text), value_at(words, 2, text)
    desk.history.append(None)
    if words[0] == 'order':
        return [order_line([it.fill for it in survivors(desk.entries)], key) or ('none',)]
    return [position_line(list(parts_of(desk.entries)), *key) or ('none',)]


# A capture

# A message: its PEER, NUMBER, KIND and ID as the trail tells them, what became of it, and what its session sends.
Turn = namedtuple('Turn', 'words became sent')


class Day:
    """The sessions with some peers, and the desk."""

    def __init__(self, own, peers):
        self.sessions, self.desk = {peer: Session(own, peer) for peer in peers}, Desk()

    def take(self, frame):
        head, body = message_of(frame)
        fields, _ = fields_of(frame)
        peer, named_by = first(fields, 49, text), {'8': 17, 'J': 70}.get(head.kind) if head else None
        words = peer, head and head.number, head and head.kind, named_by and first(fields, named_by, text)
        session = self.sessions.get(peer)
        if not session:
            return Turn(words, ('passed',), [])
        session.now = first(fields, 52, moment) or '19700101-00:00:00.000'
        became = session.take(head, body, self.desk)
        return Turn(words, became, session.sent)


def first(fields, tag, form):
    """What the first field of a tag says, none where there is none, or where its value isn't of the form."""
    try:
        return next((form(value) for value in values_of(fields, tag)), None)
    except Wrong:
        return None


BECAME = ('accepted', 'refused', 'rejected', 'unsupported', 'taken', 'early', 'late', 'closed', 'passed')


def printed(lines):
    return ''.join('\t'.join('-' if word is None else str(word) for word in words) + '\n' for words in lines)


def trail(capture, own, peers):
    lines, sums, messages, played = [], dict.fromkeys([*BECAME, 'skipped', 'rest'], 0), 0, Day(own, peers)
    for what, offset, piece in pieces_of(capture):
        if what != 'message':
            lines.append((what, offset, piece))
            sums[what] += piece
            continue
        turn, messages = played.take(piece), messages + 1
        lines.append((what, messages, offset, *turn.words, *turn.became))
        lines += [('sent', message.replace(SOH, '|')) for message in turn.sent]
        sums[turn.became[0]] += 1
    return printed([*lines, *(('sum', *it) for it in sums.items()), ('end', messages)])


def day_of(capture, own, peers):
    """Sessions and desk after a capture."""
    played = Day(own, peers)
    for what, _, piece in pieces_of(capture):
        if what == 'message':
            played.take(piece)
    return played


def report(capture, own, peers, dated):
    return printed(report_of(day_of(capture, own, peers).desk.entries, dated))


def answers(capture, own, peers, lines):
    """The answers to an operator's lines, of which the last needs no LF."""
    desk, told = day_of(capture, own, peers).desk, []
    for line in lines.removesuffix('\n').split('\n') if lines else []:
        try:
            told += answer(desk, line)
        except Bad as bad:
            told.append(('bad', *bad.args))
    return printed(told)


# A day's journal

HEAD, LENGTHS, SIGNATURE_AT, SIGNATURE = 4096, (512, 1024), 1536, 'blotter journal\n'
KEPT_KINDS = ('UD', 'UR', 'UN', 'UL')   # of the frames that only a journal has

# The events of a journal, in their order, each with its party, a pair as ('peer', 'BRKA') or ('operator', 'desk'); the desk after them; and
# of each peer the number that is expected of it, and the next number to it.
Journal = namedtuple('Journal', 'own day events desk numbers')
Undo, Redo = namedtuple('Undo', 'number'), namedtuple('Redo', '')


class NoJournal(Exception):
    """A file that is no journal, or is damaged."""


def text_of(file):
    """The text that counts of a journal's file: it stands behind the head, and the switch says which length is its."""
    if not file.startswith(SIGNATURE, SIGNATURE_AT) or len(file) < HEAD:
        raise NoJournal('no journal')
    place = LENGTHS[file[0] == '\x01']
    length = int.from_bytes(file[place:place + 8].encode('latin-1'), 'little')
    if length > len(file) - HEAD:
        raise NoJournal('the text is cut')
    return file[HEAD:HEAD + length]


def event_asked(line):
    """The event that a line asks for: none where it only asks, or is bad."""
    words = line.split('\t')
    if len(line) > 65536:
        return None
    try:
        match words[0], len(words):
            case 'allocate', _:
                return allocated(words)
            case 'redo', 1:
                return Redo()
            case 'undo', 2:
                return Undo(value_at(words, 1, short_number))
            case 'withdraw', 2:
                return Withdraw(value_at(words, 1, short_number))
    except Bad:
        pass
    return None


def event_of(frame):
    """The party and the event that a frame brings, none where it brings none."""
    head, body = message_of(frame)
    if isinstance(body, Command):
        return ('peer', head.sender), body
    if not head or isinstance(body, Fault) or head.kind != 'UL':
        return None
    fields, _ = fields_of(frame)
    operator, line = first(fields, 50, text), first(fields, 58, anything)
    event = event_asked(line or '')
    return (('operator', operator), event) if operator and event is not None else None


def numbers_named(frame):
    """Both numbers that a 35=UN names, none where it doesn't."""
    fields, _ = fields_of(frame)
    named = [first(fields, tag, whole(1, 10**9)) for tag in (789, 36)]
    return tuple(named) if all(named) else None


def numbers_of(frames, own, peer, before=(1, 1)):
    """The number that is expected of a peer, and the next number to it, where they were these before the frames."""
    expected, following = before
    for frame in frames:
        head, body = message_of(frame)
        if not head or isinstance(body, Fault):
            continue
        if head.kind == 'UN' and head.target == peer:
            expected, following = numbers_named(frame) or (expected, following)
        if isinstance(body, Command) and head.sender == peer:
            expected = head.number + 1
        if head.kind not in KEPT_KINDS and (head.sender, head.target) == (own, peer) and not head.is_duplicate:
            following = head.number + 1
    return expected, following


def step(desk, event):
    """The desk's answer to an event."""
    match event:
        case Undo(number):
            return desk.undo(number)
        case Redo():
            return desk.redo()
        case command:
            return desk.submit(command)


def journal(file):
    """What a journal keeps, by its text alone: no session is asked."""
    frames = [piece for what, _, piece in pieces_of(text_of(file)) if what == 'message']
    heads = [head for head, _ in map(message_of, frames)]
    if not frames or not heads[0] or heads[0].kind != 'UD':
        raise NoJournal('no beginning')
    own, desk = heads[0].sender, Desk()
    events = [it for it in map(event_of, frames) if it]
    for _, event in events:
        step(desk, event)
    peers = sorted({it for head in heads if head for it in (head.sender, head.target)} - {own})
    numbers = {peer: numbers_of(frames, own, peer) for peer in peers}
    return Journal(own, first(fields_of(frames[0])[0], 75, day), events, desk, numbers)


def received(file):
    """The messages of a journal that were received, as they came, one behind the other: those that their session didn't take too."""
    messages, own = '', None
    for what, _, piece in pieces_of(text_of(file)):
        head, _ = message_of(piece) if what == 'message' else (None, None)
        if head and head.kind == 'UD':
            own = head.sender
        elif head and head.kind == 'UR':
            messages += values_of(fields_of(piece)[0], 96)[0]
        elif head and head.sender != own:
            messages += piece
    return messages


def kept_of(frame):
    """The head of a journal's frame, and what it keeps: none where it is at fault. One of the journal's own that doesn't say what it has to keeps nothing clear."""
    head, body = message_of(frame)
    if not head or isinstance(body, Fault):
        return None
    fields, _ = fields_of(frame)
    says = {'UD': first(fields, 75, day), 'UN': numbers_named(frame), 'UR': values_of(fields, 96), 'UL': event_of(frame)}
    if isinstance(body, Command):
        return head, 'command'
    return head, 'message' if head.kind not in says else head.kind if says[head.kind] else 'unclear'


def stands(head, what, own, peers):
    """What is wrong with the place of a frame behind the first, if anything: that it is damage, or of whom it is who isn't listed."""
    if what == 'UL':
        return None if (head.sender, head.target) == (own, own) else 'damage'
    other = head.target if head.sender == own else head.sender
    if what in ('UD', 'unclear') or other == own:
        return 'damage'
    if other not in peers:
        return f"has a message of {other}, which isn't listed"
    ways = {'command': [(other, own)], 'message': [(other, own), (own, other)]}.get(what, [(own, other)])
    return None if (head.sender, head.target) in ways else 'damage'


def journal_fault(file, own, dated, peers):
    """Why a journal isn't taken up by a blotter of this name, day and peers, in the words behind the file's name: None where it is. Without a day it is read by
    `desk`, and without peers too by `audit`, to which it is a capture, whoever sent what."""
    try:
        text = text_of(file)
    except NoJournal as why:
        return 'is no journal' if str(why) == 'no journal' else f'is damaged at byte {len(file)}'
    for what, offset, piece in pieces_of(text):
        kept, damage = kept_of(piece) if what == 'message' else None, f'is damaged at byte {HEAD + offset}'
        if not kept or offset == 0 and kept[1] != 'UD':
            return damage
        named = first(fields_of(piece)[0], 75, day)
        if offset == 0 and (kept[0].sender != own or dated not in (None, named)):
            return f'is the journal of {kept[0].sender}, {named}'
        if offset == 0 and peers is not None and kept[0].target != own:
            return damage
        wrong = stands(*kept, own, peers) if offset and peers is not None else None
        if wrong:
            return damage if wrong == 'damage' else wrong
    return None
