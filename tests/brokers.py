"""Brokers with a store that come and go through an open day, for `opened` and `journal_day`: each has a day of its own, drawn from a seed.

  drawn_day(draw, count, peer)         a broker's day, in short words
  Broker(peer, port, is_in, seed)      its engine: it keeps its numbers from one connection to the next, and minds those that come
  In(process)                          the brokers whose day is in the book
  commands_of(broker)                  the commands of its day
"""
import random
import socket
import struct
import time

import plain
from messages import DAY, OWN, SOH, fields_of, frame, in_fix, with_header
from refused_serving import Closed, Engine, Wrong

SOON = 5      # seconds for the answer to a Logon
MESSAGES = 40  # of a broker's day


def drawn_day(draw, count, peer):
    """A broker's day, in short words, with accounts of its own: some of its commands will be refused, in the plain program too."""
    day, execs, allocs = [], [], []
    for number in range(1, count + 1):
        kind = draw.random()
        order, side, qty = f'O{draw.randint(1, 5)}', draw.choice(['buys', 'sells']), draw.randint(1, 90)
        if kind < 0.6 or not execs:
            execs.append(f'E{number}')
            day.append(f'E{number} {side} {order} {qty} of 1000 XYZ at {draw.randint(9, 12)} for A{draw.randint(1, 3)}{peer}')
        elif kind < 0.75:
            reference = draw.choice(execs)
            execs.append(f'E{number}')
            day.append(f'E{number} corrects {reference}: {side} {order} {qty} of 1000 XYZ at {draw.randint(9, 12)} for A{draw.randint(1, 3)}{peer}')
        elif kind < 0.85:
            day.append(f'E{number} busts {draw.choice(execs)}')
        elif kind < 0.95 or not allocs:
            allocs.append(f'AL{number}')
            day.append(f'AL{number} books {draw.choice(execs)}: {side} {qty} XYZ at 10, {qty} to B{draw.randint(1, 3)}{peer}')
        else:
            day.append(f'AL{number} cancels {draw.choice(allocs)}')
    return day


class In(set):
    """The brokers whose day is in the book, and whether the program is over."""

    def __init__(self, process):
        super().__init__()
        self.process = process

    def is_over(self):
        return self.process.poll() is not None


class Broker(Engine):
    """A broker's engine that comes and goes."""

    def __init__(self, peer, port, is_in, seed, count=MESSAGES):
        super().__init__(peer, port, is_in, drawn_day(random.Random(f'{seed} {peer}'), count, peer))
        self.day, self.draw, self.came_in = list(self.unsent), random.Random(f'{seed} {peer} comes'), 0
        self.due, self.asks = 1, False   # the number of the next message to it, and whether those before are asked for

    def connect(self):
        super().connect()
        self.asks = False

    def next(self):
        """The fields of the next message. Its number must not be too low; where some are missing they are asked for, and a gap fill stands for them."""
        while True:
            got = super().next()
            number = int(got['34'])
            if got['35'] == '4':
                if int(got['36']) < self.due:
                    raise Wrong(f'{self.peer} expects {self.due} and got {got}')
                self.due, self.asks = int(got['36']), False
                continue
            if number < self.due:
                raise Wrong(f'{self.peer} expects {self.due} and got {got}, too low')
            if number == self.due:
                self.due += 1
            elif not self.asks:
                self.asks = True
                self.send('2', f'7={self.due}', '16=0')
            return got

    def send_some(self, count):
        for _ in range(min(count, len(self.unsent))):
            self.send(*[it for _, it in fields_of(in_fix(self.unsent.pop(0))[3:])])

    def break_off(self):
        self.wire.setsockopt(socket.SOL_SOCKET, socket.SO_LINGER, struct.pack('ii', 1, 0))
        self.wire.close()

    def leave(self):
        """Leaves, in one of the ways that connections end."""
        way = self.draw.choice(['logs out', 'hangs up', 'breaks off', 'in a message'])
        if way == 'logs out':
            self.send('5')
            while not self.take(self.next()):
                pass
        elif way == 'hangs up':
            self.wire.shutdown(socket.SHUT_WR)
            while True:
                self.take(self.next())
        elif way == 'in a message':
            text = with_header('35=0', self.peer, OWN, len(self.sent) + 1, f'{DAY}-10:00:00')
            whole = frame(text.encode().replace(b'|', SOH))
            self.wire.sendall(whole[:self.draw.randint(1, len(whole) - 1)])
        else:
            self.break_off()

    def stray(self):
        """A connection that isn't a session: nothing, noise, or a second Logon."""
        with socket.create_connection(('127.0.0.1', self.port), SOON) as wire:
            kind = self.draw.choice(['nothing', 'noise', 'second'])
            if kind == 'noise':
                wire.sendall(self.draw.randbytes(self.draw.randint(1, 300)))
            if kind == 'second':
                text = with_header('35=A|98=0|108=30', self.peer, OWN, 1, f'{DAY}-10:00:00')
                wire.sendall(frame(text.encode().replace(b'|', SOH)))
                if wire.recv(1):
                    raise Wrong(f'{self.peer}: the second connection was answered')
            else:
                time.sleep(self.draw.random() / 5)

    def log_on(self):
        """Logs on. Where the last connection hasn't ended yet, this one is closed, and another is tried."""
        begun = time.monotonic()
        while True:
            try:
                super().log_on()
                break
            except Closed:
                if time.monotonic() - begun > SOON:
                    raise Wrong(f'{self.peer}: not let in again for {SOON} seconds') from None
                self.wire.close()
                time.sleep(0.01)
                self.connect()
        if time.monotonic() - begun > SOON:
            raise Wrong(f'{self.peer}: a Logon was answered after {time.monotonic() - begun:.1f} seconds')
        self.came_in += 1

    def come(self):
        """One connection: the broker logs on, sends some of its day, and leaves."""
        self.connect()
        try:
            self.log_on()
            self.send_some(self.draw.randint(0, 4))
            if self.draw.random() < 0.2:
                self.stray()
            time.sleep(self.draw.random() / 10)
            self.leave()
        except TimeoutError:
            raise Wrong(f'{self.peer}: no answer') from None
        except (Closed, OSError):
            pass
        finally:
            self.wire.close()

    def stay(self):
        """The last connection: what is left is sent, and the broker stays until the day is closed."""
        self.connect()
        self.log_on()
        self.send_some(len(self.unsent))
        self.test()
        while not self.take_last(self.next()):
            pass
        self.send('5')
        try:
            self.next()
            raise Wrong(f'{self.peer}: a message after its Logout')
        except Closed:
            self.wire.close()

    def take_last(self, got):
        """Does what a message asks for, at the last connection: whether it is the Logout of the day."""
        if got['35'] == '0' and got.get('112') == f'T{self.tests}':
            self.is_in.add(self.peer)
            return False
        return self.take(got)


def sent_frames(broker):
    """The frames of a day in which a broker sends its own once, in order, after its Logon."""
    for number, line in enumerate(['35=A|98=0|108=30', *(in_fix(it) for it in broker.day)], 1):
        yield frame(with_header(line, broker.peer, OWN, number, f'{DAY}-10:00:00').encode().replace(b'|', SOH)).decode('latin-1')


def commands_of(broker):
    return [body for _, body in map(plain.message_of, sent_frames(broker)) if isinstance(body, plain.Command)]
