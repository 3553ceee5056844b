"""Brokers' engines and an operator for a `serve` that is refused memory: each sends a day over several connections, and loses nothing.

  served(command, port, environment, seconds, errors, is_open, path)     what the program printed, its status and its standard error, of an
                                                                         open day, with the operator at a socket's path or not, or of rounds

An engine keeps its numbers from one connection to the next, and sends again what it's asked for, with 43=Y; what isn't sent again it
covers by a gap fill. It knows that the blotter has all when the Heartbeat comes that answers its last TestRequest, and logs out. Where
its connection is closed before, it comes back, in rounds in the next one. Whatever comes has to be a sound message for it.
"""
import contextlib
import re
import socket
import subprocess
import threading
import time

from messages import DAY, OWN, SOH, fields_of, frame, in_fix, with_header

ROUNDS = 3
WAIT = 15     # seconds for the next message, in which all others are served
ASKS = 3      # seconds in which an operator waits for a broker
DAYS = {
    'BRKA': ['E1 buys O1 100 of 300 XYZ at 10.50 for A1', 'E2 buys O1 50 of 300 XYZ at 11 for A1', 'AL1 books E2: buys 50 XYZ at 11, 30 to A, 20 to B'],
    'BRKB': ['E1 sells O7 40 of 100 ABC at 20', 'AL1 books E1: sells 40 ABC at 20, 25 to A, 15 to B'],
}
REPORT = ['report 20240105', 'order BRKA O1 XYZ B 150 150 1600', 'order BRKB O7 ABC S 40 60 800', 'position * ABC 0 0', 'position * XYZ 0 0',
          'position A ABC -25 -500', 'position A XYZ 30 330', 'position A1 XYZ 100 1050', 'position B ABC -15 -300', 'position B XYZ 20 220', 'end 9']
# The operator books E1 to C, and takes that back: as broker's numbers come in between, the answers' own numbers differ.
LINES = [('order BRKA NONE', 'none'), ('fly', 'bad 1'), ('allocate BRKA OP1 XYZ B 20240105 10.5 1 E1 C 100', r'accepted \d+|refused 5 UnknownExec BRKA E1'),
         ('mine', r'accepted \d+|none'), ('redo', 'refused 15 NothingToRedo'), ('position C XYZ', 'none')]

# What a day of rounds logs, and an open day.
LOGGED = r'wire [01] ended [0-5]$|lanes \d+$|operator anna o(n|ff)$|no operator can connect|no connection can be accepted$|BRK[AB] on 127\.0\.0\.1:\d+$|(BRK[AB]|127\.0\.0\.1:\d+) ended [0-6] [A-Za-z]+$'


class Closed(Exception):
    """The connection ended."""


class Wrong(Exception):
    """What came can't be right."""


class Engine:
    """A broker's engine: what it sent, by number, and what was acknowledged."""

    def __init__(self, peer, port, is_in, day):
        self.peer, self.port, self.is_in = peer, port, is_in
        self.unsent, self.sent, self.acknowledged, self.tests = [*day], [], [], 0
        self.wire, self.came = None, b''

    def put(self, fields, number, *header):
        text = with_header('|'.join(['35=' + fields[0], *header, *fields[1:]]), self.peer, OWN, number, f'{DAY}-10:00:00')
        try:
            self.wire.sendall(frame(text.encode().replace(b'|', SOH)))
        except OSError:
            raise Closed from None

    def send(self, *fields):
        self.sent.append(fields)
        self.put(fields, len(self.sent))

    def send_again(self, begin):
        """Sends from a number on what is of the day, and covers the rest."""
        number = begin
        while number <= len(self.sent):
            following = number
            while following <= len(self.sent) and self.sent[following - 1][0] not in '8J':
                following += 1
            if following > number:
                self.put(('4', '123=Y', f'36={following}'), number, '43=Y')
                number = following
            else:
                self.put(self.sent[number - 1], number, '43=Y')
                number += 1

    def test(self):
        self.tests += 1
        self.send('1', f'112=T{self.tests}')

    def next(self):
        """The fields of the next message."""
        while True:
            found = re.match(rb'8=FIX\.4\.4\x019=(\d+)\x01', self.came)
            end = found.end() + int(found[1]) + 7 if found else None
            if end and len(self.came) >= end:
                got, self.came = self.came[:end], self.came[end:]
                if frame(got[found.end():-7]) != got:
                    raise Wrong(f'{self.peer} got {got!r}')
                return dict(it.split('=', 1) for it in got.decode().split('\x01')[2:-2])
            try:
                piece = self.wire.recv(65536)
            except ConnectionError:
                piece = b''
            if not piece:
                if self.came:
                    raise Wrong(f'{self.peer} got the front of a message: {self.came!r}')
                raise Closed
            self.came += piece

    def connect(self):
        """A new connection; the program may only just have begun to listen, or be over."""
        until = time.monotonic() + WAIT
        while True:
            try:
                self.wire, self.came = socket.create_connection(('127.0.0.1', self.port), WAIT), b''
                return
            except ConnectionError:
                if self.is_in.is_over() or time.monotonic() > until:
                    raise Closed from None
                time.sleep(0.005)

    def log_on(self):
        self.send('A', '98=0', '108=30')
        got = self.next()
        if got['35'] != 'A':
            raise Wrong(f'{self.peer} got {got} for its Logon')

    def take(self, got):
        """Does what a message asks for. Whether it ends the connection."""
        kind = got['35']
        if kind == '2':
            self.send_again(int(got['7']))
            self.test()
        elif kind == '0' and got.get('112') == f'T{self.tests}':
            self.is_in.set(self.peer)
            self.send('5')
        elif kind == 'P':
            self.acknowledged.append((got['70'], got['87'], got.get('88')))
        elif kind not in '015':
            raise Wrong(f'{self.peer} got {got}')
        return kind == '5'

    def serve_round(self):
        """One connection, to its end."""
        self.connect()
        try:
            self.log_on()
            while self.unsent:
                self.send(*[it for _, it in fields_of(in_fix(self.unsent.pop(0))[3:])])
            self.test()
            while not self.take(self.next()):
                pass
            self.next()
        except Closed:
            pass
        finally:
            self.wire.close()

    def run(self):
        try:
            for _ in range(ROUNDS):
                self.serve_round()
        except Closed:
            pass
        finally:
            self.is_in.set(self.peer)


class Progress:
    """Which peers' days are in the book, and whether the program is over."""

    def __init__(self, process):
        self.process, self.events = process, {peer: threading.Event() for peer in DAYS}

    def set(self, peer):
        self.events[peer].set()

    def is_over(self):
        return self.process.poll() is not None


def operate(process, is_in, is_open):
    """An operator's lines, after those of BRKA, and their end, which on an open day comes after the brokers' days."""
    is_in.events['BRKA'].wait(ASKS)
    try:
        process.stdin.write(''.join(line.replace(' ', '\t') + '\n' for line, _ in LINES).encode())
        process.stdin.flush()
        for event in is_in.events.values() if is_open else ():
            event.wait(WAIT)
        process.stdin.close()
    except BrokenPipeError:
        pass


def asked(lines, line):
    """The line that answers one at a terminal, or nothing where the connection ends."""
    with contextlib.suppress(OSError):
        lines.write(line.replace(' ', '\t').encode() + b'\n')
        lines.flush()
        return lines.readline().decode().rstrip('\n')
    return ''


def terminal(path, process):
    """A terminal of anna's, or none where the program is over. Where it ends before she has her name, another is tried."""
    while process.poll() is None:
        with contextlib.suppress(OSError):
            wire = socket.socket(socket.AF_UNIX)
            wire.settimeout(WAIT)
            wire.connect(path)
            lines = wire.makefile('rwb')
            wire.close()
            if asked(lines, 'operator anna'):
                return lines
            lines.close()
        time.sleep(0.01)
    return None


def operate_over(path, process, is_in, told):
    """An operator's lines over a socket, after those of BRKA, until one has no answer; the answers are put to `told`. After the brokers' days the day is closed."""
    is_in.events['BRKA'].wait(ASKS)
    lines = terminal(path, process)
    for line, _ in LINES:
        answer = asked(lines, line) if lines else ''
        if not answer:
            break
        told.append(f'{answer}\n'.encode())
    for event in is_in.events.values():
        event.wait(WAIT)
    while lines and asked(lines, 'close') != 'closed':
        with contextlib.suppress(OSError):
            lines.close()
        lines = terminal(path, process)
    if lines:
        lines.close()


def guarded(task, faults):
    def run():
        try:
            task()
        except Exception as error:
            faults.append(f'{type(error).__name__}: {error}')
    return run


def heard(stream, lines):
    for line in stream:
        lines.append(line)


def served(command, port, environment, seconds, errors, is_open=False, path=None):
    """Plays a day to its end: what the program printed, its status, its standard error, the acknowledgements, and what went wrong. The lines of
    standard error are put to `errors` as they come. Where the operator comes over a socket, at this path, the answers stand before what is printed."""
    process = subprocess.Popen(command, stdin=subprocess.PIPE, stdout=subprocess.PIPE, stderr=subprocess.PIPE, env=environment)
    alarm = threading.Timer(seconds, process.kill)
    alarm.start()
    printed, told, faults, is_in = [], [], [], Progress(process)
    engines = [Engine(peer, port, is_in, DAYS[peer]) for peer in DAYS]
    tasks = [*(it.run for it in engines), lambda: operate_over(path, process, is_in, told) if path else operate(process, is_in, is_open), lambda: printed.append(process.stdout.read()),
             lambda: heard(process.stderr, errors)]
    threads = [threading.Thread(target=guarded(it, faults)) for it in tasks]
    for thread in threads:
        thread.start()
    status = process.wait()
    for thread in threads:
        thread.join()
    alarm.cancel()
    if status == -9:
        faults.append('it had not ended')
    for stream in (process.stdout, process.stderr):
        stream.close()
    return b''.join(told) + printed[0], status, b''.join(errors), {it.peer: it.acknowledged for it in engines}, faults


def right_answers(printed):
    """The lines behind the answers, where these are right answers to the operator's lines or to a front of them, or None where one isn't."""
    lines = printed.split('\n')
    if lines.pop():
        return None
    begin = next((place for place, line in enumerate(lines) if line.startswith('report\t')), len(lines))
    if begin > len(LINES) or not all(re.fullmatch(wanted.replace(' ', '\t'), line) for line, (_, wanted) in zip(lines[:begin], LINES)):
        return None
    return begin, lines[begin:]


def is_report_or_none(lines):
    """Whether nothing was printed after the answers, or the whole report of what was taken."""
    return not lines or lines[0] == REPORT[0].replace(' ', '\t') and lines[-1] == f'end\t{len(lines) - 2}'


def fault_of(printed, status, errors, acknowledged, faults, refused, may_stop=False):
    """What is wrong with a served day, or None. Where the operator comes over a socket, want of memory may end the connection and not the day."""
    found = right_answers(printed.decode('latin-1'))
    *logged, last = errors.decode('latin-1').split('\n')[:-1] or ['']
    said = f'status {status} with {printed!r} and {errors!r}, acknowledged {acknowledged}'
    if faults:
        return f'{faults}: {said}'
    if found is None:
        return f'a wrong answer: {said}'
    answers, lines = found
    logged += [last] * (status == 0 and last != '')
    if not all(re.search(LOGGED, it) for it in logged):
        return f'a wrong line on standard error: {said}'
    if status == 3:
        is_right = last == 'blotter: no memory' and is_report_or_none(lines) and refused
    elif may_stop and refused and answers < len(LINES):
        is_right = status == 0 and lines != [] and is_report_or_none(lines)
    else:
        is_right = status == 0 and answers == len(LINES) and lines == [it.replace(' ', '\t') for it in REPORT]
    taken = [('AL1', '0', None), ('AL1', '1', '7')]   # the second where it was taken before, and comes again
    is_told = all(it in taken for its in acknowledged.values() for it in its) if refused else all(it == taken[:1] for it in acknowledged.values())
    return None if is_right and is_told else said
