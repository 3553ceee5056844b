"""A capture of any size through a pipe, made as it's read: the program goes through all of it in the room that a small one takes.

  tried(program, megabytes)     what is wrong with `replay` and with `desk`: a text for each, or none

Between two trades come messages that the session has had already, messages of a stranger, damaged ones and noise. None of these is
kept, so neither may be the bytes that bore them.
"""
import contextlib
import os
import subprocess
import threading

from messages import DAY, OWN, PEER, message

ROOM = 50               # megabytes of memory that the program gets
SECONDS = 30            # for a run, and as many again for each thousand megabytes
BLOCK = 1_000_000       # bytes that are written at once, more or less
FIRST = ('BRKA E1 buys O1 100 of 300 XYZ at 10.50 for A1',)
LAST = ('BRKA E2 buys O1 50 of 300 XYZ at 11 for A1',)
BETWEEN = ('bytes 8=FIX.4.4|9=60000|35=0|', 'bytes {4000 times 8=FIX.4.4|9=99999|35}', 'BRKA 35=0|34=1|43=Y|',
           'BRKX 35=8|34=1|37=O1|17=E9|150=F|39=1|55=XYZ|54=1|38=300|32=100|31=10.50|151=200|14=100|6=10.50|58={900 times x}|', 'bytes noise',
           r'bytes 8=FIX.4.4|9=45|35=0|49=BRKA|56=MO|34=2|52=20240105-10:00:00|10=178|', *500 * ('BRKA 35=0|34=1|43=Y|58={300 times y}|',))
ORDER = 'order BRKA O1 XYZ B 150 150 1600'
REPORT = (f'report {DAY}', ORDER, 'position A1 XYZ 150 1600', 'end 2')


def spelled(lines):
    return ''.join(line.replace(' ', '\t') + '\n' for line in lines).encode()


def capture(megabytes):
    """The bytes of the capture, a block at a time."""
    numbers = {}
    yield b''.join(message(line, numbers) for line in FIRST)
    follows = dict(numbers)
    between = b''.join(message(line, {**numbers, 'BRKX': 1}) for line in BETWEEN)
    block = between * (BLOCK // len(between))
    for _ in range(megabytes * 1_000_000 // len(block) + 1):
        yield block
    yield b''.join(message(line, follows) for line in LAST)


def feed(blocks, end):
    """Writes blocks, and ends."""
    with contextlib.suppress(BrokenPipeError), open(end, 'wb', buffering=0) as pipe:
        for block in blocks:
            view = memoryview(block)
            while view:
                view = view[pipe.write(view):]


def fault_of(words, megabytes, typed, wanted):
    """What is wrong with a run over the capture: `{}` among the words stands for it, and else it is the standard input."""
    source, end = os.pipe2(os.O_CLOEXEC)
    is_named, command = '{}' in words, [f'/dev/fd/{source}' if it == '{}' else it for it in words]
    process = subprocess.Popen(['sh', '-c', f'ulimit -v {1024 * ROOM} && exec "$@"', 'sh', *command], stdin=subprocess.PIPE if is_named else source,
                               stdout=subprocess.PIPE, stderr=subprocess.PIPE, pass_fds=[source] if is_named else [])
    os.close(source)
    feeder = threading.Thread(target=feed, args=(capture(megabytes), end))
    alarm = threading.Timer(SECONDS * (1 + megabytes / 1000), process.kill)
    alarm.start()
    feeder.start()
    printed, errors = process.communicate(typed if is_named else None)
    alarm.cancel()
    feeder.join()
    if (printed, process.returncode, errors) == (wanted, 0, b''):
        return None
    return f'status {process.returncode} with {errors!r} and {printed[:99]!r}'


def tried(program, megabytes):
    own = ['--own', OWN]
    return {'replay': fault_of([program, 'replay', *own, '--day', DAY, PEER], megabytes, b'', spelled(REPORT)),
            'desk': fault_of([program, 'desk', *own, '--capture', '{}', PEER], megabytes, spelled(['order BRKA O1', f'report {DAY}']), spelled([ORDER, *REPORT]))}
