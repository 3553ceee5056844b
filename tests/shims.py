"""What is loaded in front of the C library (LD_PRELOAD) to stand in the place of some of its calls.

  built(room, name)     the library of NAME.c, made in the folder `room`: by the toolchain's compiler, or by the system's where there is none
"""
import pathlib
import shutil
import subprocess

HERE = pathlib.Path(__file__).resolve().parent
FLAGS = ['-O1', '-Wall', '-Wextra', '-Werror', '-fPIC', '-fno-builtin']


def built(room, name):
    toolchain = pathlib.Path(shutil.which('rt') or '/opt/rattle/bin/rt').resolve().parent.parent / 'toolchain' / 'bin'
    source, object_file, shim = HERE / f'{name}.c', room / f'{name}.o', room / f'{name}.so'
    if not toolchain.is_dir():
        subprocess.run(['cc', *FLAGS, '-shared', source, '-o', shim], check=True)
        return shim
    subprocess.run([toolchain / 'clang', *FLAGS, '-c', source, '-o', object_file], check=True)
    subprocess.run([toolchain / 'ld.lld', '-shared', '--allow-shlib-undefined', '-o', shim, object_file], check=True)
    return shim
