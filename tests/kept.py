"""What a day's journal keeps, by the plain reader, and what `desk --journal` and `audit --journal` say of it.

  kept_in(file)                                   what a file keeps: nothing where there is none yet, or only its head
  framed_file(text)                               a journal's file with this text
  answers_of(program, *words, lines)              the status of a call, and both of its outputs
  readings(program, file, names)                  what both readers say of a file, which may be in use
  check_readings(*readings, names)                whether that is what the plain program says, of some moment meanwhile
  check_counts(text)                              whether what only a journal has is counted for each party, as FORMATS.md says
  check_readers(program, file, names)             both of a file that nobody changes: it stays as it is
"""
import subprocess

import plain
from messages import DAY, OWN
from refused_serving import Wrong
from told import answer_by

ENOUGH = 60   # seconds for a call


def expect(holds, said):
    if not holds:
        raise Wrong(said)


def kept_in(file):
    """What a file keeps, by the plain reader: nothing where there is none yet, or only its head."""
    whole = file.read_bytes().decode('latin-1') if file.exists() else ''
    return plain.journal(whole) if whole and plain.text_of(whole) else plain.Journal(OWN, DAY, [], plain.Desk(), {})


def answers_of(program, *words, lines=''):
    ran = subprocess.run([program, *map(str, words)], input=lines.encode('latin-1'), stdout=subprocess.PIPE, stderr=subprocess.PIPE, timeout=ENOUGH)
    return ran.returncode, ran.stdout.decode('latin-1'), ran.stderr.decode('latin-1')


ASKED = ['orders', 'positions', 'steps\t1000', 'undo\t1', 'mine']


def readings(program, file, names):
    """What `desk --journal` and `audit --journal` say of a file, which may be in use, and its text before and after that."""
    before = plain.text_of(file.read_bytes().decode('latin-1'))
    told = answers_of(program, 'desk', '--own', OWN, '--journal', file, *names, lines=''.join(f'{line}\n' for line in ASKED))
    trail = answers_of(program, 'audit', '--own', OWN, '--journal', file, *names)
    return told, trail, before, plain.text_of(file.read_bytes().decode('latin-1'))


def check_readings(told, trail, before, after, names):
    """They say what the plain program does, of some moment between."""
    expect(after.startswith(before), 'the text was changed')
    ends = [len(before)] + [len(before) + offset + len(piece) for what, offset, piece in plain.pieces_of(after[len(before):]) if what == 'message']
    fronts = [framed_file(after[:end]) for end in ends]
    desks = [plain.journal(it).desk for it in fronts]
    expect(any(told == (0, ''.join(answer_by(desk, line) for line in ASKED), '') for desk in desks), f'desk --journal: {told}')
    expect(any(trail == (0, plain.trail(plain.received(it), OWN, names), '') for it in fronts), f'audit --journal: {trail}')


def check_counts(text):
    """The frames that only a journal has are counted from 1, for each peer and each operator, whatever ended between them."""
    counts = {}
    for what, _, piece in plain.pieces_of(text):
        head, _ = plain.message_of(piece) if what == 'message' else (None, None)
        if head and head.kind in plain.KEPT_KINDS:
            party = head.target, plain.first(plain.fields_of(piece)[0], 50, plain.text)
            counts[party] = counts.get(party, 0) + 1
            expect(head.number == counts[party], f'{head.kind} {counts[party]} of {party} has number {head.number}')


def check_readers(program, file, names):
    """Both, of a file that nobody changes: it stays as it is."""
    whole = file.read_bytes()
    told, trail, before, after = readings(program, file, names)
    check_readings(told, trail, before, after, names)
    check_counts(after)
    expect(file.read_bytes() == whole, 'a reader changed the file')
    capture = plain.received(whole.decode('latin-1'))
    expect(trail == answers_of(program, 'audit', '--own', OWN, *names, lines=capture), 'audit of the capture says something else')
    return told, capture


def framed_file(text):
    """A journal's file with this text."""
    head = '\0'.ljust(512, '\0') + len(text).to_bytes(8, 'little').decode('latin-1').ljust(1024, '\0') + plain.SIGNATURE
    return head.ljust(plain.HEAD, '\0') + text
