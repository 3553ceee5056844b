"""The crates of this repository, and copies of some of them in which `rt` can work beside another `rt`.

  listed()                 the crates of crates.txt, each with those of them that it stands on itself
  below(crate, crates)     all that a crate stands on, each once, lower ones first
  copy_to(room, ...)       the crate in a repository of its own, over its libraries as they are proved in out/
  copy_libraries(room, ..) libraries alone, and add_line(room, line) for a crate of one's own over them
  is_program(crate)        whether a crate is a program, and no library
  words_of(crate, ..)      what `rattle` is told of a crate, over the statements of its libraries; words_over(..) of one that isn't listed
  stamp(crate, ..)         a sum of all that the proof of a crate reads
"""
import hashlib
import os
import pathlib
import shutil

TOP = pathlib.Path(__file__).resolve().parent.parent
CRATES = TOP / 'crates'
KIT = pathlib.Path(shutil.which('rattle') or '/opt/rattle/bin/rattle').resolve().parent.parent


def lines():
    """The lines of crates.txt, by the crate that each names."""
    named = (line.partition('#')[0] for line in (TOP / 'crates.txt').read_text().splitlines())
    return {line.partition(':')[0].strip(): line for line in named if ':' in line}


def listed():
    named = lines()
    return {crate: [word for word in line.partition(':')[2].split() if word in named] for crate, line in named.items()}


def below(crate, crates):
    found = []
    for low in crates[crate]:
        found += [it for it in [*below(low, crates), low] if it not in found]
    return found


def linked(old, new):
    """Gives a file a second name, or copies it where that can't be done. Nobody writes into what is proved: it is made anew."""
    try:
        os.link(old, new)
    except OSError:
        shutil.copy2(old, new)


def copy_libraries(room, libraries):
    """Copies libraries, each with what is proved of it and without its wrong bodies."""
    shutil.copy2(TOP / 'HANDLES', room)
    named = lines()
    (room / 'crates.txt').write_text(''.join(f'{named[it]}\n' for it in libraries))
    for name in libraries:
        folder = room / 'crates' / name
        shutil.copytree(CRATES / name, folder, ignore=shutil.ignore_patterns('out', 'must-fail'))
        if (CRATES / name / 'out' / 'rlib').is_dir():
            shutil.copytree(CRATES / name / 'out' / 'rlib', folder / 'out' / 'rlib', ignore=shutil.ignore_patterns('statements'), copy_function=linked)


def add_line(room, line):
    """Lists one crate more."""
    with (room / 'crates.txt').open('a') as listing:
        listing.write(f'{line}\n')


def copy_to(room, crate, libraries):
    """Copies a crate, without its wrong bodies and out/, and its libraries."""
    copy_libraries(room, libraries)
    add_line(room, lines()[crate])
    shutil.copytree(CRATES / crate, room / 'crates' / crate, ignore=shutil.ignore_patterns('out', 'must-fail'))
    return room / 'crates' / crate


def statements_of(crate):
    """The folder of what other crates can cite of a crate: its statements, without its proofs, as the gate builds it. In another place below out/
    than out/rlib `rt` would take its files for sources that nothing reads, and stop."""
    return CRATES / crate / 'out' / 'rlib' / 'statements' / f'{crate}.rlib'


def is_program(crate):
    return (CRATES / crate / 'src' / 'main.rt').is_file()


def words_of(crate, libraries):
    """What `rattle` is told of a crate that stands on these of the repository's libraries, as statements_of() has them."""
    return words_over(crate, 'src/main.rt' if is_program(crate) else 'src/lib.rt', lines()[crate].partition(':')[2].split(), libraries)


def words_over(crate, source, named, libraries):
    """The same of any crate, which names these libraries of the kit and of the repository."""
    words = ['--crate-name', crate, source, '-L', f'dependency={KIT}/rlibs']
    for name in ['std', *named]:
        words += ['--extern', f'{name}={statements_of(name) if name in libraries else KIT / "rlibs" / f"{name}.rlib"}']
    for name in libraries:
        words += ['-L', f'dependency={statements_of(name).parent}']
    return [*words, '--antt-project', f'{KIT}/rattle/logic/antt-project.json', '--logic-built', f'{KIT}/logic_built', '--links', f'{crate}=']


def stamp(crate, libraries):
    """A sum of all that the proof of a crate over its libraries reads: the toolchain, their lines of crates.txt, and their sources."""
    found = hashlib.sha256((KIT / 'KIT-ID').read_bytes())
    for name in [*libraries, crate]:
        found.update(lines()[name].encode())
        for file in sorted(it for part in ['src', 'specs', 'proofs'] for it in (CRATES / name / part).rglob('*') if it.is_file()):
            found.update(f'{file.relative_to(CRATES)} {file.stat().st_size} '.encode() + file.read_bytes())
    return found.hexdigest()
