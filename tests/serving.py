"""Plays the conversation of a case with `blotter serve`: peers over sockets, and an operator.

  played(command, port, body, seconds)     a namedtuple of what came of it

A line of the body is what a peer does (README.md beside this file has the words) or an operator's line with its answer.
What a peer gets is compared byte for byte with the message that the case wants, in which SendingTime(52) is the one that
came, and so is what stands for it elsewhere (`now`, and 122 of what is sent again): that it's a moment of the clock while
the case runs is checked by itself.
"""
import collections
import datetime
import itertools
import os
import queue
import pathlib
import re
import shutil
import socket
import struct
import subprocess
import tempfile
import threading
import time

from messages import OWN, PEER, SOH, frame, message, sender_of, spelled, with_header

Played = collections.namedtuple('Played', 'differences rest wanted_rest status errors')
WAIT = 10  # seconds for one thing that is awaited
GRACE = 1  # seconds in which a port is closed
MOMENT = re.compile(rb'\x0152=(\d{8}-\d\d:\d\d:\d\d\.\d{3})\x01')
DEED = re.compile(r'(\S+) (connects|hangs up|breaks off|is closed)')
CLOSED = re.compile(r'(\S+) is closed after (\d+) to (\d+) seconds')
NOBODY = re.compile(r'nobody listens at (\S+)')
ROOM = re.compile(r'the program has (\d+) (MB|open files)')
SOON = re.compile(r'the program ends within (\d+) seconds')
AGAIN = re.compile(r'the program is killed and begun again( with the copy)?')
GETS = re.compile(r'(\S+) gets (35=.*?)(?: within (\d+) seconds)?')


def now():
    return datetime.datetime.now(datetime.timezone.utc)


def held_port():
    """A socket that holds a port, as the system gives it out: nobody else gets it, and the program, which may share it, listens there."""
    holder = socket.socket()
    holder.bind(('127.0.0.1', 0))
    holder.setsockopt(socket.SOL_SOCKET, socket.SO_REUSEADDR, 1)
    return holder


def take(port):
    """Listens on a port, where nobody else does."""
    try:
        return socket.create_server(('127.0.0.1', port))
    except OSError:
        return None


def put_lines(stream, lines):
    for line in stream:
        lines.put(line)
    lines.put(None)


def conditions(lines):
    """What the first lines of a body say of the whole: how many lines that is, and what they say."""
    found = {'port': False, 'lines': True, 'room': None, 'seconds': None}
    for count, text in enumerate(lines):
        room, soon = ROOM.fullmatch(text), SOON.fullmatch(text)
        if text == 'the port is taken':
            found['port'] = True
        elif text == "the operator's lines can't be read":
            found['lines'] = False
        elif room:
            found['room'] = room
        elif soon:
            found['seconds'] = int(soon[1])
        else:
            return count, found
    return len(lines), found


def begin(command, said):
    """The program, begun. Where its room is said, in megabytes or in open files, the system refuses it more. Lines that can't be read are those of
    a folder."""
    room = said['room']
    if room:
        limit = f'-v {1024 * int(room[1])}' if room[2] == 'MB' else f'-n {room[1]}'
        command = ['sh', '-c', f'ulimit {limit} && exec "$@"', 'sh', *command]
    talk = {'errors': [], 'begun': now(), 'wires': {}, 'numbers': {}, 'own': {}, 'differences': [], 'wanted_rest': []}
    run(talk, command, said['lines'])
    return talk


def run(talk, command, has_lines=True):
    """Runs the program in a conversation, which may have gone on before."""
    source = subprocess.PIPE if has_lines else os.open('/', os.O_RDONLY)
    process = subprocess.Popen(command, stdin=source, stdout=subprocess.PIPE, stderr=subprocess.PIPE)
    if not has_lines:
        os.close(source)
    lines = queue.Queue()
    threads = [threading.Thread(target=put_lines, args=(process.stdout, lines)),
               threading.Thread(target=lambda: talk['errors'].append(process.stderr.read()))]
    for thread in threads:
        thread.start()
    talk.update(process=process, lines=lines, threads=threads, command=command)


def begin_again(talk, has_copy):
    """Kills the program, so that all connections end, and begins it again, at the journal that it left or at the copy of an earlier one."""
    talk['process'].kill()
    talk['process'].wait()
    for thread in talk['threads']:
        thread.join()
    for wire in talk['wires'].values():
        wire['socket'].close()
    talk['wires'].clear()
    close_lines(talk)
    if has_copy:
        shutil.copyfile(talk['copy'], talk['journal'])
    run(talk, talk['command'])


def connect(talk, label, port):
    """A connection of a peer: the program may only just have begun to listen."""
    until = time.monotonic() + WAIT
    while True:
        try:
            talk['wires'][label] = {'socket': socket.create_connection(('127.0.0.1', port), WAIT), 'came': b'', 'is_over': False, 'begun': time.monotonic()}
            return
        except ConnectionRefusedError:
            if time.monotonic() > until or talk['process'].poll() is not None:
                raise TimeoutError(f'{label} finds nobody at the port') from None
            time.sleep(0.02)


def wire_of(talk, label, port):
    """The connection of a peer; one that it ended itself is awaited to its end, and then there's a new one."""
    if label in talk['wires'] and talk['wires'][label]['is_over']:
        expect_closed(talk, label, None)
    if label not in talk['wires']:
        connect(talk, label, port)
    return talk['wires'][label]


def came_frame(wire):
    """The next whole message that came, or what came before the connection ended or was quiet for too long."""
    while True:
        found = re.match(rb'8=FIX\.4\.4\x019=(\d+)\x01', wire['came'])
        end = found.end() + int(found[1]) + 7 if found else None
        if end and len(wire['came']) >= end:
            got, wire['came'] = wire['came'][:end], wire['came'][end:]
            return got
        try:
            piece = wire['socket'].recv(65536)
        except (TimeoutError, ConnectionResetError):
            piece = b''
        if not piece:
            got, wire['came'] = wire['came'], b''
            return got
        wire['came'] += piece


def moment_of(talk, got):
    """SendingTime(52) of a message, if it's a moment since the program began."""
    found = MOMENT.search(got)
    if not found:
        return 'a moment'
    moment = datetime.datetime.strptime(found[1].decode() + '+0000', '%Y%m%d-%H:%M:%S.%f%z')
    second = datetime.timedelta(seconds=1)
    is_now = talk['begun'] - second <= moment <= now() + second
    return found[1].decode() if is_now else 'a moment of this run'


def wanted_frame(talk, peer, text, moment):
    """The message that a case wants, by the number that comes next and with this moment."""
    number = talk['own'].get(peer, 1)
    whole = with_header(text, OWN, peer, number, moment).replace('=now|', f'={moment}|')
    given = int(re.search(r'\|34=(\d+)\|', whole)[1])
    if '|43=Y|' in whole:
        whole = whole.replace(f'|52={moment}|', f'|52={moment}|122={moment}|')
    else:
        talk['own'][peer] = given + 1
    return frame(spelled(whole, b'|', SOH))


def differ(talk, number, wanted, got):
    if wanted != got:
        talk['differences'].append((number, wanted, got))


def expect_message(talk, label, number, text, seconds):
    """The next message; where seconds are said, no more than so many after the connection began."""
    wire = talk['wires'][label]
    got = came_frame(wire)
    differ(talk, number, wanted_frame(talk, sender_of(label)[0], text, moment_of(talk, got)), got)
    took = time.monotonic() - wire['begun']
    if seconds and took > int(seconds):
        differ(talk, number, b'within %s seconds' % seconds.encode(), b'%.1f seconds' % took)


def expect_closed(talk, label, number):
    """The connection ends, and nothing comes before that."""
    wire = talk['wires'].pop(label)
    got = came_frame(wire)
    try:
        is_closed = not wire['socket'].recv(1)
    except (ConnectionResetError, TimeoutError) as error:
        is_closed = isinstance(error, ConnectionResetError)
    wire['socket'].close()
    differ(talk, number, b'', got)
    differ(talk, number, b'the end of the connection', b'the end of the connection' if is_closed else b'an open connection')


def expect_closed_after(talk, label, number, least, most):
    """The connection ends so many seconds after it began, and nothing comes before that."""
    wire = talk['wires'][label]
    wire['socket'].settimeout(most + 1)
    expect_closed(talk, label, number)
    took = time.monotonic() - wire['begun']
    wanted = b'%d to %d seconds' % (least, most)
    differ(talk, number, wanted, wanted if least <= took <= most else b'%.1f seconds' % took)


def expect_nobody(talk, address, port, number):
    """The program, which is there already, doesn't listen at this address, or does so for a moment only."""
    got, until = b'a connection', time.monotonic() + GRACE
    while got != b'nobody' and time.monotonic() < until:
        try:
            socket.create_connection((address, port), WAIT).close()
            time.sleep(0.02)
        except ConnectionRefusedError:
            got = b'nobody'
    differ(talk, number, b'nobody', got)


def end_wire(talk, label, deed):
    wire = talk['wires'][label]
    if deed == 'hangs up':
        wire['is_over'] = True
        wire['socket'].shutdown(socket.SHUT_WR)
    else:
        wire['socket'].setsockopt(socket.SOL_SOCKET, socket.SO_LINGER, struct.pack('ii', 1, 0))
        talk['wires'].pop(label)['socket'].close()


def ask(talk, lines):
    """An operator's lines, one after the other, and their answers, of which each is awaited."""
    talk['process'].stdin.write(b''.join(spelled(line, b'>', b'\t') + b'\n' for _, line, _ in lines))
    talk['process'].stdin.flush()
    for place, wanted in itertools.chain.from_iterable(answers for _, _, answers in lines):
        try:
            got = talk['lines'].get(timeout=WAIT)
        except queue.Empty:
            raise TimeoutError('no answer') from None
        if got is None:
            talk['lines'].put(None)  # for finish, which waits for it
            raise TimeoutError('the program ended before its answer')
        differ(talk, place, spelled(wanted, b'>', b'\t') + b'\n', got)


def label_of(text):
    """The peer of a message, with the number of its connection where it has one."""
    return text.partition(' ')[0] if text.startswith(f'{sender_of(text)[0]}') else PEER


def deed_of(talk, port, number, text):
    """What a peer does."""
    again = AGAIN.fullmatch(text)
    if again:
        begin_again(talk, again[1])
        return
    if text == 'the journal is copied':
        shutil.copyfile(talk['journal'], talk['copy'])
        return
    if text == 'half a second passes':
        time.sleep(0.5)
        return
    deed, gets, nobody, closed = DEED.fullmatch(text), GETS.fullmatch(text), NOBODY.fullmatch(text), CLOSED.fullmatch(text)
    if closed:
        expect_closed_after(talk, closed[1], number, int(closed[2]), int(closed[3]))
    elif nobody:
        expect_nobody(talk, nobody[1], port, number)
    elif gets:
        expect_message(talk, gets[1], number, gets[2], gets[3])
    elif deed and deed[2] == 'connects':
        connect(talk, deed[1], port)
    elif deed and deed[2] == 'is closed':
        expect_closed(talk, deed[1], number)
    elif deed:
        end_wire(talk, deed[1], deed[2])
    else:
        wire_of(talk, label_of(text), port)['socket'].sendall(message(text, talk['numbers']))


def end_lines(talk, answers):
    """The operator's lines end: what is printed then stands at the program's end."""
    close_lines(talk)
    talk['wanted_rest'] = answers


def close_lines(talk):
    if talk['process'].stdin:
        try:
            talk['process'].stdin.close()
        except BrokenPipeError:
            pass


def kind_of(line):
    """Whether a line of a body is a deed, an operator's, or the end of these."""
    return 'deed' if line[2] is None else 'end' if line[1] == 'end of lines' else 'lines'


def converse(talk, port, body):
    for kind, lines in itertools.groupby(body, kind_of):
        lines = list(lines)
        if kind == 'lines':
            ask(talk, lines)
        elif kind == 'end':
            end_lines(talk, lines[0][2])
        else:
            for number, text, _ in lines:
                deed_of(talk, port, number, text)
    close_lines(talk)


def leave(talk):
    """The peers that are still there hang up."""
    for label in list(talk['wires']):
        if not talk['wires'][label]['is_over']:
            end_wire(talk, label, 'hangs up')
        expect_closed(talk, label, None)


def finish(talk):
    """Waits for the program's end: what it printed after the answers, its status, and its standard error."""
    status = talk['process'].wait()
    for thread in talk['threads']:
        thread.join()
    rest = b''.join(iter(talk['lines'].get, None))
    return Played(talk['differences'], rest, talk['wanted_rest'], status, b''.join(talk['errors']))


def played(command, port, body, seconds):
    """Plays a body, a list of lines with their numbers and answers, to its end or until the seconds are over. The word JOURNAL is a file of its own."""
    with tempfile.TemporaryDirectory(prefix='played-') as room:
        journal = pathlib.Path(room, 'journal')
        words = [str(journal) if word == b'JOURNAL' else word for word in command]
        return played_at(words, port, body, seconds, journal)


def played_at(command, port, body, seconds, journal):
    first, said = conditions([text for _, text, _ in body])
    taken = take(port) if said['port'] else None
    talk, begun = begin(command, said), time.monotonic()
    talk.update(journal=journal, copy=journal.with_name('copy'))
    alarm = threading.Timer(seconds, lambda: talk['process'].kill())
    alarm.start()
    try:
        converse(talk, port, body[first:])
        leave(talk)
    except Exception as error:
        talk['differences'].append((None, b'the conversation to its end', f'{type(error).__name__}: {error}'.encode()))
        talk['process'].kill()
    found = finish(talk)
    alarm.cancel()
    took = time.monotonic() - begun
    if said['seconds'] and took > said['seconds']:
        found.differences.append((body[0][0], b'an end within %d seconds' % said['seconds'], b'an end after %.1f seconds' % took))
    if taken:
        taken.close()
    return found
