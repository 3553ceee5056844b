"""The scripts of tests/book/refused.rs, each request of which is refused in turn, as a caller of the crates makes them.

  tried(group)     whether all went well, for each script of a group; what came is printed

`rt try --test --fail-alloc N` refuses a process its N-th request for memory, and has a process for each test. So the crate that is made
here has a test for each n, in which N - n requests come first: then the refused one is the script's own first, or second, and so on to
its end. What a caller prepares and what is compared comes in front of that, in a few requests more, or where the refusal is over.
"""
import pathlib
import re
import shutil
import subprocess
import sys
import tempfile

HERE = pathlib.Path(__file__).resolve().parent
sys.path.insert(0, str(HERE.parent / 'tools'))

from crates import add_line, below, copy_libraries, listed

STANDS_ON = 'blot_decimal blot_time blot_types blot_model blot_command blot_undo blot_desk blot_report'
MODULES = ('draws', 'keys', 'words', 'refused')
BEHIND = 8       # at least so many rows of a script stand where it's over
SECONDS = 900
# For each group the number of the request that is refused, and its scripts: how each is called, what it does, and its rows, from before its
# first request to after its last.
GROUPS = {
    'calls': (1000, {
        'held': ('held(rt.alloc(), {})', 'a bust undone, redone and withdrawn, at a desk of one thread', range(1, 91)),
        'seat': ('seat(&rt, rt.alloc(), {})', 'the same at one seat of a desk, settled and reported', range(1, 201)),
        'steps': ('steps(rt.alloc(), {})', 'three commands undone and redone', range(1, 91))}),
    'drawn': (3000, {'drawn': ('drawn(rt.alloc(), {})', '150 drawn events of every kind, at a desk of one thread', range(1200, 1701))})}
ROOT = '//! Each request of each script refused.\n#![tactic(auto)]\n\nmod draws;\nmod keys;\nmod refused;\nmod rows;\nmod words;\n'
HEAD = '//! A row for each request.\nuse std::test::Fail;\n'
ROW = '''
#[test]
fn {name}_{row}(rt: HostRuntime) -> Result<(), Fail> {{
    println!(rt; "{{:?}}", crate::refused::{call}?)?;
    Ok(())
}}
'''
CAME = re.compile(r'^test rows::(\w+)_(\d+) \.\.\. (\w+)\n    (.*)$', re.M)


def made(room, refused, scripts):
    """The crate with the rows of some scripts, over copies of the crates that it stands on."""
    crates = listed()
    copy_libraries(room, below('refused', {**crates, 'refused': STANDS_ON.split()}))
    add_line(room, f'refused: {STANDS_ON}')
    source = room / 'crates' / 'refused' / 'src'
    source.mkdir(parents=True)
    for name in MODULES:
        shutil.copy2(HERE / 'book' / f'{name}.rs', source / f'{name}.rt')
    rows = [ROW.format(name=name, row=row, call=call.format(refused - row)) for name, (call, _, numbers) in scripts.items() for row in numbers]
    (source / 'rows.rt').write_text(HEAD + ''.join(rows))
    (source / 'lib.rt').write_text(ROOT)
    return source.parent


def fault_of(rows, numbers):
    """What is wrong with the rows of a script, or None: each went well, the first comes before it, and the last ones where it's over."""
    wrong = [f'request {row}: {said}' for row, (ended, said) in sorted(rows.items()) if ended != 'ok']
    if wrong or sorted(rows) != [*numbers]:
        return f'{len(rows)} of {len(numbers)} rows; {"; ".join(wrong[:3])}'
    came = [rows[row][1] for row in numbers]
    is_whole = came[0] == 'InFront' and 'Met' in came and came[-BEHIND:] == ['NotMet'] * BEHIND and 'InFront' not in came[came.index('Met'):]
    return None if is_whole else f'its rows have to be moved: {came[0]} is the first, {came[-1]} the last'


def tried(group):
    """Runs all rows of a group: whether all went well, for each of its scripts."""
    refused, scripts = GROUPS[group]
    with tempfile.TemporaryDirectory(prefix='refused-') as room:
        folder = made(pathlib.Path(room), refused, scripts)
        ran = subprocess.run(['rt', 'try', '--test', '--fail-alloc', str(refused), '--seconds', str(SECONDS)], cwd=folder,
                             stdout=subprocess.PIPE, stderr=subprocess.STDOUT, text=True)
    rows = {name: {} for name in scripts}
    for name, row, ended, said in CAME.findall(ran.stdout):
        rows[name][int(row)] = (ended, said)
    return [told(words, fault_of(rows[name], numbers), rows[name], ran.stdout) for name, (_, words, numbers) in scripts.items()]


def told(words, fault, rows, said):
    """Prints what came of a script: whether all went well."""
    requests = len([it for it in rows.values() if it[1] == 'Met'])
    print(f'calls of the crates, {words}: {requests} requests refused in turn, and made once more', flush=True)
    if fault:
        print(f'  {fault}\n{said if not rows else ""}', flush=True)
    return fault is None
