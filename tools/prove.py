#!/usr/bin/env python3
"""Writes the archives of some crates from the proved code.

usage: prove.py CRATE..                proves every crate that has changed, and then writes them
       prove.py --gate FRESH CRATE..   writes them over what `rt ci` has proved just now; a last
                                       line 'N passed, M failed'. FRESH is 'fresh' where no crate
                                       had a folder out before that run

The kit's compiler writes an archive only of a crate that it proves, or has proved, over the
libraries that rt has built. They go to target/objects, over which the C is built, each with the
module that clang was handed (CRATE.bc), for those that compile it in another way; what was proved
is written to target/proved.sum.
"""
import concurrent.futures
import contextlib
import os
import re
import shutil
import subprocess
import sys
import tempfile
import time

import crates
import progress as told
import record

LOG, OBJECTS = 'target/make-prove.log', 'target/objects'
FAULT = re.compile(r'\berror\b|: (failed|not run)|^rt: ')
KIT = subprocess.run(['sh', 'tools/kit.sh'], stdout=subprocess.PIPE, text=True,
                     check=True).stdout.strip()


def below(name, listed):
    """The crates of the repository that a crate reaches, each once."""
    out = []
    for other in listed[name]:
        if other in listed:
            out += [it for it in below(other, listed) + [other] if it not in out]
    return out


def words(name, listed, root):
    """What the compiler is told of a crate, as rt tells it, but for every processor of the kind."""
    def built(crate):
        return os.path.abspath(f'{root}/crates/{crate}/out/rlib')

    out = ['--crate-name', name, 'src/lib.rt', '--crate-type', 'staticlib', '--links', f'{name}=']
    for crate in ['std'] + listed[name]:
        place = built(crate) if crate in listed else f'{KIT}/rlibs'
        out += ['--extern', f'{crate}={place}/{crate}.rlib']
    for place in [f'{KIT}/rlibs'] + [built(crate) for crate in below(name, listed)]:
        out += ['-L', f'dependency={place}']
    out += ['--antt-project', f'{KIT}/rattle/logic/antt-project.json']
    out += ['--logic-built', f'{KIT}/logic_built']
    return out + ['--jobs', '1', '--backend', 'llvm', '--cpu', 'x86-64']


def write(name, listed, root, folder, keeps):
    """Writes an archive and its module to a folder: the seconds, the status and what was said."""
    began = time.monotonic()
    with tempfile.TemporaryDirectory() as work:
        subprocess.run(['sh', 'tools/keeping.sh', work], check=True)
        made = f'{work}/lib{name}.a'
        command = [f'{KIT}/bin/rattle', 'build'] + words(name, listed, root)
        command += ['--toolchain', f'{work}/toolchain', '-o', made]
        command += ['--incremental', 'out/incremental'] if keeps else []
        done = subprocess.run(command, cwd=f'{root}/crates/{name}', stdout=subprocess.PIPE,
                              stderr=subprocess.STDOUT, text=True, errors='replace', check=False)
        if not done.returncode:
            shutil.move(f'{work}/kept1.bc', f'{folder}/{name}.bc')
            shutil.move(made, f'{folder}/lib{name}.a')
    return round(time.monotonic() - began), done.returncode, done.stdout


def write_all(wanted, root, folder, keeps):
    """Writes the archives, several at once; the crates of which none was written."""
    listed, failed, ended = crates.listed(root), [], 0
    with concurrent.futures.ThreadPoolExecutor(told.processors()) as pool:
        runs = {pool.submit(write, name, listed, root, folder, keeps): name for name in wanted}
        for run in concurrent.futures.as_completed(runs):
            seconds, status, said = run.result()
            ended += 1
            if status:
                failed.append(runs[run])
                print(f'{said}no archive of {runs[run]} (status {status})', flush=True)
            else:
                print(f'lib{runs[run]}.a ({seconds} s): {ended} of {len(wanted)}', flush=True)
    return failed


def hand_over(folder, wanted):
    """The proved archives take the place of those that were compiled without a proof."""
    os.makedirs(OBJECTS, exist_ok=True)
    with open(f'{OBJECTS}/doors', 'w', encoding='utf-8'):
        pass  # the mark of make, older than what follows
    with open(f'{OBJECTS}/kit', 'w', encoding='utf-8') as file:
        file.write(record.kit_here() + '\n')
    for name in wanted:
        for of in (f'{name}.bc', f'lib{name}.a'):
            shutil.copyfile(f'{folder}/{of}', f'{OBJECTS}/{of}')
    record.main(['write', OBJECTS, record.HERE] + wanted)


@contextlib.contextmanager
def proved_just_now(is_fresh):
    """A folder whose libraries are those that `rt ci` has proved just now.

    In a checkout that had some before, rt puts these back in the end: they may be of other sources.
    There it is a copy, for which rt takes what it has kept of that run."""
    if is_fresh:
        yield '.'
        return
    with tempfile.TemporaryDirectory() as root:
        os.mkdir(f'{root}/.git')
        for name in os.listdir('crates'):
            shutil.copytree(f'crates/{name}', f'{root}/crates/{name}',
                            ignore=lambda at, names: {'out'} & set(names))
        for name in ('crates.txt', 'HANDLES'):
            with contextlib.suppress(FileNotFoundError):
                shutil.copyfile(name, f'{root}/{name}')
        with open(LOG, 'w', encoding='utf-8') as log:
            subprocess.run(['rt', 'ci'], cwd=root, stdout=log, stderr=log, check=True)
        yield root


def is_proved(wanted):
    """Whether the archives that are here are of the sources as they stand."""
    try:
        here = record.Record.here(record.kit_here(), record.codes_of(OBJECTS, wanted))
        modules = all(os.path.exists(f'{OBJECTS}/{name}.bc') for name in wanted)
        return modules and record.standing(here)[0] == 'here'
    except (OSError, record.codehash.CodeError):
        return False


def prove():
    """Proves every crate that has changed; where one is not proved, its errors are shown."""
    print(f'proving what has changed; the log is {LOG}', flush=True)
    run = subprocess.Popen(['rt', 'all', 'check', '--jobs', str(told.processors())], text=True,
                           stdout=subprocess.PIPE, stderr=subprocess.STDOUT, errors='replace')
    with open(LOG, 'w', encoding='utf-8') as log:
        log.writelines(told.crates_ended(run.stdout, '{name}: {number} of {of} crates'))
    if run.wait():
        with open(LOG, encoding='utf-8') as log:
            faults = [line for line in log if FAULT.search(line)]
        print(''.join(line[:1500] for line in faults[:40]), end='')
    return run.returncode == 0


def main(given):
    is_gate, wanted = given[:1] == ['--gate'], given
    if is_gate:
        is_fresh, wanted = given[1:2] == ['fresh'], given[2:]
    if not wanted:
        sys.exit(__doc__)
    os.makedirs('target', exist_ok=True)
    if not is_gate and is_proved(wanted):
        print('nothing has changed since it was proved')
        return 0
    if not is_gate and not prove():
        print(f'not proved; the log is {LOG}')
        return 1
    with tempfile.TemporaryDirectory(dir='target') as folder, \
            proved_just_now(is_fresh) if is_gate else contextlib.nullcontext('.') as root:
        failed = write_all(wanted, root, folder, not is_gate)
        if not failed:
            hand_over(folder, wanted)
    if is_gate:
        print(f'{len(wanted) - len(failed)} passed, {len(failed)} failed')
    return 1 if failed else 0


if __name__ == '__main__':
    sys.exit(main(sys.argv[1:]))
