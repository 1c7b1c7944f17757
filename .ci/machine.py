#!/usr/bin/env python3
# The machine that the gate runs on, and the one script of the gate that knows it. rt builds for x86-64 alone, and there everything is built and run as it stands. On
# Arm the same program and the same library are held to everything: what links the library is built for x86-64 too, and all of it runs under an
# emulator. A machine that is neither fails.
# machine.py: installs what is missing for that, by apt-get, or fails in a line; on x86-64 it does nothing.
# machine.py build, machine.py boxed: the words, from second/, that build the second program with the box, and those that run it; machine.py bench: a
# path, from there, by which crates/bench/out/bench runs.
# machine.py wrap PROGRAM: puts a script in its place that runs it.
import os
import shlex
import shutil
import subprocess
import sys
import tempfile
from pathlib import Path

top = Path(__file__).resolve().parent.parent
MACHINE = subprocess.run(['uname', '-m'], capture_output=True, text=True).stdout.strip()
EMULATED = MACHINE == 'aarch64'
if MACHINE not in ('x86_64', 'aarch64'):
    sys.exit(f"machine: the gate runs on x86_64, and on aarch64 under an emulator; this machine is '{MACHINE}'")
CC, CXX, NM, AR = [f'x86_64-linux-gnu-{tool}' for tool in ('gcc', 'g++', 'nm', 'ar')] if EMULATED else ['cc', 'c++', 'nm', 'ar']
# the map of the memory that the address sanitizer makes is more than an emulator can give: one took all that the machine had
SANITIZERS = 'undefined' if EMULATED else 'address,undefined'
# Debian's compilers for x86-64, their C library, an emulator of its own, and a Rust whose library is there for both processors in the same version
PACKAGES = ('gcc-x86-64-linux-gnu', 'g++-x86-64-linux-gnu', 'qemu-user', 'rustc-web')
LIBRARIES = '/usr/x86_64-linux-gnu'
TARGET = 'x86_64-unknown-linux-gnu'
RUST = top / 'second/target/rust-x86-64'
if EMULATED:
    kit = Path(os.environ.get('RATTLE_HOME') or Path(shutil.which('rt') or '/rt').resolve().parent.parent)
    tools = kit / 'on' / MACHINE / 'toolchain'
    if not os.access(tools / 'bin/qemu-x86_64', os.X_OK):
        sys.exit(f'machine: {MACHINE} runs the box under the emulator of the Rattle kit, and there is none at {tools}/bin/qemu-x86_64')
    # ./box goes by this too, where the command rt is one that does nothing; and an emulator is to do the same for everyone, as with rt
    os.environ['RATTLE_HOME'] = str(kit)
    for name in [name for name in os.environ if name.startswith('QEMU_')]:
        del os.environ[name]


def runs(program):
    """The words that run a program. Before one that is compiled for another processor stand the kit's emulator, loader and C library, as rt has them."""
    with open(program, 'rb') as file:
        head = file.read(20)
    if not EMULATED or head[:4] != b'\x7fELF' or head[18:] != b'\x3e\0':
        return [str(program)]
    return [f'{tools}/bin/qemu-x86_64', f'{tools}/lib/ld-linux-x86-64.so.2', '--library-path', f'{tools}/lib:{LIBRARIES}/lib', str(program)]


def patience(seconds):
    """How long something may keep still or take, in seconds: as the environment says, or this, and more where it is emulated."""
    return float(os.environ.get('PATIENCE') or seconds * (4 if EMULATED else 1))


def script(file, *lines):
    Path(file).write_text('\n'.join(['#!/bin/sh', *lines, '']))
    Path(file).chmod(0o755)


def wraps(program, file):
    """A script that runs the program, for those who take one path."""
    script(file, f'exec {shlex.join(runs(program))} "$@"')


def commands(folder):
    """A folder for the front of the path: there cc is the compiler for the box's processor, and what it links runs. Nothing where cc is that already."""
    if EMULATED:
        script(folder / 'cc', f'{CC} "$@" || exit', 'while [ $# -gt 1 ] && [ "$1" != -o ]; do shift; done', '[ $# -gt 1 ] && [ -x "$2" ] || exit 0',
               f'exec {shlex.quote(sys.executable)} {shlex.quote(__file__)} wrap "$2"')


def apt(*words):
    """What apt-get has to say only where it fails."""
    tried = subprocess.run(['apt-get', '-qq', '-y', '-oAcquire::Retries=5', '-oDPkg::Lock::Timeout=300', '-oAPT::Sandbox::User=root', *words], stdin=subprocess.DEVNULL,
                           stdout=subprocess.PIPE, stderr=subprocess.STDOUT, text=True, env={**os.environ, 'DEBIAN_FRONTEND': 'noninteractive', 'LC_ALL': 'C'})
    if tried.returncode:
        fails(f'apt-get {words[-1] if words[-1] == "update" else " ".join(words[-2:])}: {" ".join(tried.stdout.split())[-600:]}')


def fails(why):
    sys.exit(f'machine: what {MACHINE} needs for the gate is not installed: {why}')


def version(package):
    asked = subprocess.run(['dpkg-query', '-W', '-f', '${db:Status-Abbrev}${Version}', package], capture_output=True, text=True)
    return asked.stdout[3:] if asked.stdout.startswith('ii ') else None


def installs():
    """The packages, where one is missing; and of Rust's library the one for x86-64 beside them, in a folder that git ignores and rt leaves alone."""
    if missing := [tool for tool in ('apt-get', 'dpkg', 'dpkg-query') if not shutil.which(tool)]:
        fails(f'no {missing[0]}; it is a Debian system that has these packages: {" ".join(PACKAGES)}')
    if not all(map(version, PACKAGES)):
        apt('update')
        apt('install', '--no-install-recommends', '--no-remove', *PACKAGES)
    made = RUST / version('rustc-web')
    if made.exists():
        return
    with tempfile.TemporaryDirectory() as folder:
        own = ['-oAPT::Architecture=amd64', '-oAPT::Architectures=amd64', f'-oDir::State={folder}', f'-oDir::Cache={folder}', '-oDir::State::status=/dev/null']
        apt(*own, 'update')
        os.chdir(folder)
        apt(*own, 'download', f'libstd-rust-web-dev={made.name}')
        unpacked = subprocess.run(['dpkg', '-x', *Path(folder).glob('*.deb'), 'all'], capture_output=True, text=True)
        if unpacked.returncode:
            fails(f'dpkg -x: {" ".join(unpacked.stderr.split())[-600:]}')
        shutil.rmtree(RUST, ignore_errors=True)
        RUST.mkdir(parents=True)
        # the last step, so that what was broken off is begun anew
        shutil.move(f'all/usr/lib/rustlib/{TARGET}/lib', f'{made}.part')
        os.rename(f'{made}.part', made)


def build():
    if not EMULATED:
        return ['cargo', 'build']
    name = TARGET.upper().replace('-', '_')
    made = RUST / (version('rustc-web') or fails('no rustc-web: .ci/machine.py installs it'))
    if not made.exists():
        fails(f'no Rust library for x86-64 at {made}: .ci/machine.py brings it')
    library = os.path.relpath(made, top / 'second')
    return ['env', 'RUSTC=/usr/bin/rustc', f'CARGO_TARGET_{name}_LINKER={CC}', f'CARGO_TARGET_{name}_RUSTFLAGS=-L{library}', 'cargo', 'build', '--target', TARGET]


def boxed():
    # this program asks where its stack is, which the kit's emulator does not survive; with a later processor than the first x86-64 the C library copies by
    # what is dear to emulate, and the comparison takes three times as long
    return ['/usr/bin/qemu-x86_64', '-cpu', 'qemu64', '-L', LIBRARIES, f'./target/{TARGET}/release/second'] if EMULATED else ['./target/release/second']


def bench():
    if not EMULATED:
        return ['../crates/bench/out/bench']
    (top / 'second/target').mkdir(exist_ok=True)
    wraps(top / 'crates/bench/out/bench', top / 'second/target/bench')
    return ['./target/bench']


if __name__ == '__main__':
    words = sys.argv[1:]
    if not words:
        if EMULATED:
            installs()
    elif words in (['build'], ['boxed'], ['bench']):
        print(*{'build': build, 'boxed': boxed, 'bench': bench}[words[0]]())
    elif words[0] == 'wrap' and len(words) == 2:
        file = Path(words[1]).resolve()
        wraps(file.rename(f'{file}.x86-64'), file)
    else:
        sys.exit(f'machine: what is {" ".join(words)}?')
