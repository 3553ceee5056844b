"""The messages of a case as bytes: README.md beside this file has the forms in which a case writes them.

  message(line, numbers)     the bytes of one line; numbers holds the next number of each peer that has logged on
  frame(body)                a body with BeginString(8), BodyLength(9) and CheckSum(10) round it
  spelled(text, mark, byte)  the bytes of a text in which a mark stands for a byte
  lines_of(text)             the lines that one line of a case stands for
"""
import re

OWN, PEER, DAY = 'MO', 'BRKA', '20240105'
SOH = b'\x01'
HEADER = ['49', '56', '34', '43', '52']  # after MsgType(35), in this order
EVENTS_MAX = 250_000  # events that a day may have
LIMIT = re.compile(r'EVENTS_MAX([+-]\d+)?')
TIMES = re.compile(r'\{(\d+) times ([^}]*)\}')
TIMES_LINE = re.compile(r'( *)(\d+) times (.*)')
SIDES = {'buys': '1', 'sells': '2'}
FILL = (r'(?P<side>buys|sells) (?P<order>\S+) (?P<qty>\S+) of (?P<size>\S+) (?P<symbol>\S+) at (?P<price>\S+)'
        r'(?: for (?P<account>\S+))?(?: on (?P<day>\S+))?')
BOOKS = (r'(?P<execs>\S+(?: \S+)*): (?P<side>buys|sells) (?P<block>\S+) (?P<symbol>\S+) at (?P<price>\S+)'
         r'(?P<lines>(?:, \S+ to \S+(?: at \S+)?)+)(?:, on (?P<day>\S+))?')
LINE = re.compile(r', (\S+) to (\S+?)(?: at (\S+?))?(?=,|$)')


def numbered(text, count):
    """The text with this count, padded with zeros, for each run of #."""
    return re.sub('#+', lambda run: str(count).zfill(len(run[0])), text)


def lines_of(text):
    """The lines that one line of a case stands for: `3 times E#` is E1, E2 and E3, and `EVENTS_MAX-1 times` all but one of a day."""
    text = LIMIT.sub(lambda it: str(EVENTS_MAX + int(it[1] or 0)), text)
    times = TIMES_LINE.fullmatch(text)
    return [times[1] + numbered(times[3], count + 1) for count in range(int(times[2]))] if times else [text]


def expanded(text):
    """The text with each `{3 times x}` as xxx."""
    return TIMES.sub(lambda it: ''.join(numbered(it[2], count + 1) for count in range(int(it[1]))), text)


def spelled(text, mark, byte):
    """The bytes of a text: the mark stands for the byte, and \\x0D for any byte by its number."""
    parts = re.split(r'\\x([0-9A-F]{2})', expanded(text))
    return b''.join(bytes.fromhex(part) if place % 2 else part.encode().replace(mark, byte) for place, part in enumerate(parts))


def frame(body):
    head = b'8=FIX.4.4\x019=%d\x01%s' % (len(body), body)
    return head + b'10=%03d\x01' % (sum(head) % 256)


def fields_of(text):
    """The fields of a message, each with its tag: the last SOH needn't be written."""
    return [(field.partition('=')[0], field) for field in text.removesuffix('|').split('|')]


def with_header(text, sender, target, number, moment):
    """The message with the fields of the header filled in that it doesn't give after its 35."""
    kind, *rest = fields_of(text)
    filled = {'49': f'49={sender}', '56': f'56={target}', '34': f'34={number}', '43': '', '52': f'52={moment}'}
    while rest and rest[0][0] in HEADER:
        tag, field = rest.pop(0)
        filled[tag] = field
    fields = [kind[1], *(filled[tag] for tag in HEADER if filled[tag]), *(field for _, field in rest)]
    return ''.join(f'{field}|' for field in fields)


def number_of(text):
    """MsgSeqNum(34) where the head of the message gives it."""
    for tag, field in fields_of(text)[1:]:
        if tag not in HEADER:
            return None
        if tag == '34':
            return field[3:]
    return None


def logon(text):
    return '35=A|98=0|108=30' if text == 'logs on' else None


def fill_fields(found):
    account = f"1={found['account']}|" if found['account'] else ''
    return (f"{account}55={found['symbol']}|54={SIDES[found['side']]}|38={found['size']}|32={found['qty']}|31={found['price']}"
            f"|151=0|14=0|6=0|75={found['day'] or DAY}")


def trade(text):
    found = re.fullmatch(r'(?P<exec>\S+) ' + FILL, text)
    return found and f"35=8|37={found['order']}|17={found['exec']}|150=F|39=1|{fill_fields(found)}"


def correction(text):
    found = re.fullmatch(r'(?P<exec>\S+) corrects (?P<reference>\S+): ' + FILL, text)
    return found and f"35=8|37={found['order']}|17={found['exec']}|19={found['reference']}|150=G|39=1|{fill_fields(found)}"


def bust(text):
    found = re.fullmatch(r'(\S+) busts (\S+)', text)
    return found and f'35=8|17={found[1]}|19={found[2]}|150=H'


def booked_fields(found):
    execs, lines = found['execs'].split(' '), LINE.findall(found['lines'])
    listed = ''.join(f'17={it}|' for it in execs)
    given = '|'.join(f'79={account}|80={qty}' + (f'|366={price}' if price else '') for qty, account, price in lines)
    return (f"54={SIDES[found['side']]}|55={found['symbol']}|53={found['block']}|6={found['price']}|75={found['day'] or DAY}"
            f'|124={len(execs)}|{listed}78={len(lines)}|{given}')


def allocation(text):
    found = re.fullmatch(r'(?P<id>\S+) books ' + BOOKS, text)
    return found and f"35=J|70={found['id']}|71=0|{booked_fields(found)}"


def replacement(text):
    found = re.fullmatch(r'(?P<id>\S+) replaces (?P<old>\S+) with ' + BOOKS, text)
    return found and f"35=J|70={found['id']}|71=1|72={found['old']}|{booked_fields(found)}"


def cancel(text):
    found = re.fullmatch(r'(\S+) cancels (\S+)', text)
    return found and f'35=J|70={found[1]}|71=2|72={found[2]}'


def in_fix(text):
    """What one line of short words says, as the fields of a FIX message."""
    for form in (logon, correction, bust, replacement, cancel, allocation, trade):
        fields = form(text)
        if fields:
            return fields
    raise ValueError(f'no message: {text}')


def sender_of(line):
    """Who sends the message of a line, and the line without it: BRKA, where no peer is named."""
    if re.match('35=|frame |bytes( |$)', line):
        return PEER, line
    peer, _, text = line.partition(' ')
    return peer.partition('(')[0], text


def message(line, numbers):
    """The bytes of one line of messages. A peer that has sent nothing yet logs on in front of its first counted message."""
    peer, text = sender_of(expanded(line))
    if re.match('bytes( |$)', text):
        return spelled(text[6:], b'|', SOH)
    if text.startswith('frame '):
        return frame(spelled(text[6:], b'|', SOH))
    fields = text if text.startswith('35=') else in_fix(text)
    given = number_of(fields)
    front = b''
    if given is None and peer not in numbers and not fields.startswith('35=A'):
        front = message(f'{peer} logs on', numbers)
    number = given or numbers.get(peer, 1)
    numbers[peer] = int(number) + 1 if str(number).isdigit() else numbers.get(peer, 1)
    whole = with_header(fields, peer, OWN, number, f'{DAY}-10:00:00')
    return front + frame(spelled(whole, b'|', SOH))
