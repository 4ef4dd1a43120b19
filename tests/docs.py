#!/usr/bin/env python3
"""Tests of the documents: what they show is what is printed, and their C compiles and runs.

usage: docs.py BUILD [--write]   BUILD has the console and the programs. --write puts what is
                                 printed into the documents, and draws the pictures anew.
Ends in one line 'N passed, M failed'.

A block ```console has commands, each after '$ ', and what they print on both streams. They are run
in the order of the document, those of a block by one bash without a network, in a folder of their
own that is their home, from which console/ and target/c are seen; of make only that it ends well is
looked at. The blocks ```c of C.md are the body of one function. C.md and PYTHON.md have no code of
a kind that no test takes; and a line of each kind that is wrong is found.
"""
import os
import re
import shutil
import subprocess
import sys
import tempfile

ROOT = os.path.dirname(os.path.dirname(os.path.abspath(__file__)))
DOCUMENTS = ('README.md', 'docs/GUIDE.md', 'docs/C.md', 'docs/PYTHON.md')
# The kinds of code of the pages for programmers: cmake is run by installed.sh, pycon by python/.
KINDS = {'docs/C.md': {'c', 'cmake', 'console'}, 'docs/PYTHON.md': {'console', 'pycon'}}
counts = {True: 0, False: 0}

PRELUDE = '''
#include <stdio.h>
#include <string.h>
#include "star.h"

static uint8_t left[1024] = {1, 2, 3, 1, 1}, right[1024] = {2, 3, 4, 4, 3}, weight[4096];
static uint8_t mark[1024] = {1, 1, 1}, mine[5] = {1, 1, 1}, theirs[5] = {0, 1, 1, 1};
static uint8_t old[5] = {1, 1, 0, 0, 1}, forests[1024];
static const int32_t prices[] = {5, 3, 5, 4, 6};
static const char *const stp =
    "33D32945\\nSECTION Graph\\nNodes 2\\nEdges 1\\nE 1 2 7\\nEND\\nEOF\\n";

int main(void) {
    uint32_t i, n = 4, m = 5, s = 1, row = 4;
    int32_t price = 9;
'''
# What the blocks print, over the yard with the dearer plan.
PRINTED = '''\
take out 1, put in 4: saves 1
1 1 2 5
2 2 3 3
3 3 4 5
Total 13
refused 25 at byte 10
row 2 lies between s and junction 3
theirs
step 1: out 5, in 0
step 2: out 0, in 3
step 3: out 1, in 4
kind 1, total 12
'''


def holds(name, value, shown=''):
    counts[bool(value)] += 1
    if not value:
        print(f'docs {name} failed: {shown}')


def read(path):
    with open(os.path.join(ROOT, path), encoding='utf-8') as file:
        return file.read()


def blocks(text, kind):
    return re.findall(r'^```%s\n(.*?)^```$' % kind, text, re.M | re.S)


def run(command, folder):
    """What a command prints on both streams."""
    done = subprocess.run(command, shell=True, cwd=folder, stdin=subprocess.DEVNULL, check=False,
                          stdout=subprocess.PIPE, stderr=subprocess.STDOUT, text=True)
    return done.stdout, done.returncode


def shell(lines, folder):
    """What each of some commands prints, and its status; one bash runs them, which has no network
    where the system allows that."""
    kept = {k: v for k, v in os.environ.items()
            if not k.startswith(('MAKE', 'MFLAGS', 'PIP_', 'PYTHON', 'STAR_'))}
    kept.update(HOME=folder, ROOT=ROOT, PIP_NO_INDEX='1', PIP_DISABLE_PIP_VERSION_CHECK='1')
    script = 'make() { (cd "$ROOT" && command make -s "$@"); }\nexec 2>&1\n' + ''.join(
        f"{line[2:]}\nprintf '\\0%s\\0' $?\n" for line in lines)
    alone = ['unshare', '-rn']
    if not shutil.which('unshare') or subprocess.run(alone + ['true'], check=False,
                                                     capture_output=True).returncode:
        alone = []
    done = subprocess.run(alone + ['bash', '-c', script], cwd=folder, env=kept, check=False,
                          stdin=subprocess.DEVNULL, stdout=subprocess.PIPE, text=True)
    parts = done.stdout.split('\0')
    return [(parts[k], int(parts[k + 1])) for k in range(0, len(parts) - 1, 2)]


def commands(block, folder, document):
    """The block with what its commands print now, and what went wrong."""
    lines = [line for line in block.splitlines() if line.startswith('$ ')]
    out, wrong, ran = [], [], shell(lines, folder)
    if len(ran) != len(lines):
        wrong.append((document, 'a command ended the shell'))
    for line, (printed, status) in zip(lines, ran):
        made = line.startswith('$ make ')
        if status not in (0, 1) or made and status:
            wrong.append((f'{document}: {line}', printed[-300:]))
        out += [line] + ([] if made else printed.splitlines())
    return ''.join(line + '\n' for line in out), wrong


def with_venv(block):
    """Whether a block can be run here: it may need python3 to make a folder of packages."""
    if '-m venv' not in block or run('python3 -c "import ensurepip, venv"', ROOT)[1] == 0:
        return True
    print('skipped: a block of commands, since python3 has no module venv here')
    return False


def console(document, text):
    """The text with what its commands print now, and what differs."""
    wrong = []
    with tempfile.TemporaryDirectory() as folder:
        os.symlink(os.path.join(ROOT, 'console'), os.path.join(folder, 'console'))
        os.makedirs(os.path.join(folder, 'target'))
        os.symlink(BUILD, os.path.join(folder, 'target/c'))
        for block in filter(with_venv, blocks(text, 'console')):
            now, failed = commands(block, folder, document)
            wrong += failed + [(f'{document}: a block', f'printed now:\n{now}')] * (now != block)
            text = text.replace(f'```console\n{block}```', f'```console\n{now}```')
    return text, wrong


def commands_of(document, write):
    text, wrong = console(document, read(document))
    if write:
        with open(os.path.join(ROOT, document), 'w', encoding='utf-8') as file:
            file.write(text)
        return
    for name, shown in wrong:
        holds(name, False, shown)
    for block in blocks(text, 'console'):
        counts[True] += 1 + block.count('\n$ ')


def outside_blocks(text):
    """The lines that stand in no block, and the kinds of the blocks."""
    kinds = re.findall(r'^```(\w*)\n.*?^```$', text, re.M | re.S)
    return re.sub(r'^```.*?^```$', '', text, flags=re.M | re.S).splitlines(), kinds


def unknown(document, text):
    """The code of a page that no test takes."""
    lines, kinds = outside_blocks(text)
    return ([kind for kind in kinds if kind not in KINDS[document]]
            + [line for line in lines if line.startswith(('    ', '\t', '>>>', '```'))])


def broken():
    """A line of each kind that is wrong is found, and code that no test takes."""
    page, other = read('docs/C.md'), read('docs/PYTHON.md')
    for document, text, old, new in (
            ('docs/C.md', page, 'readstp < console', 'readstp < consoles'),
            ('docs/C.md', page, '$ target/c/diglist', '$ target/c/diglists'),
            ('docs/C.md', page, '--libs star)', '--libs stars)'),
            ('docs/C.md', page, 'Total 249', 'Total 248'),
            ('docs/PYTHON.md', other, 'saves 1', 'saves 2')):
        blocks_of = ''.join(f'```console\n{block.replace(old, new)}```\n'
                            for block in blocks(text, 'console') if old in block)
        holds(f'broken: {new}', not with_venv(blocks_of) or console(document, blocks_of)[1])
    for document, text in (('docs/C.md', page), ('docs/PYTHON.md', other)):
        for more in ('```sh\nls\n```\n', '```\nls\n```\n', '    ls\n', '>>> 1\n'):
            holds(f'broken: {document} with {more!r}', unknown(document, text + '\n' + more))
    for old, new in (('star_table_init(&t, 4)', 'star_table_ini(&t, 4)'), ('"mine"', 'mine')):
        holds(f'broken: {new}', not compiled(page.replace(old, new))[0])
    holds('broken: another price', compiled(page.replace('(&t, 1, 4, 4)', '(&t, 1, 4, 3)'))
          != (True, PRINTED))


def compiled(text):
    """The C of a page, as one program, with no warning: whether it ends well, and what is said."""
    body = '\n'.join(blocks(text, 'c'))
    with tempfile.TemporaryDirectory() as folder:
        source, program = os.path.join(folder, 'blocks.c'), os.path.join(folder, 'blocks')
        with open(source, 'w', encoding='utf-8') as file:
            file.write(f'{PRELUDE}{body}\n    return 0;\n}}\n')
        words = [os.environ.get('CC', 'cc'), '-std=c99', '-Wall', '-Wextra', '-Wpedantic',
                 '-Werror']
        # blocks set fields that they only name in a comment
        words += ['-Wno-unused-but-set-variable', f'-I{ROOT}/include', '-o', program, source]
        done = subprocess.run(words + [os.path.join(BUILD, 'libstar.a')], capture_output=True,
                              text=True, check=False)
        if done.returncode:
            return False, done.stderr
        printed, status = run(program, folder)
        return status == 0, printed


def programmers_pages():
    ended, printed = compiled(read('docs/C.md'))
    holds('C.md: its C', (ended, printed) == (True, PRINTED), printed)
    holds('C.md: it has C', ''.join(blocks(read('docs/C.md'), 'c')).count('star_') > 20)
    for document in KINDS:
        found = unknown(document, read(document))
        holds(f'{document}: code that no test takes', not found, found)
        for kind in KINDS[document]:
            holds(f'{document}: has {kind}', blocks(read(document), kind))


def first_page():
    text = read('README.md')
    holds('README.md has at most 70 lines', text.count('\n') <= 70, text.count('\n'))
    table = [line for line in read('console/examples/yard-dear.txt').splitlines()
             if not line.startswith('#')]
    holds('README.md shows the table', '```\n' + '\n'.join(table) + '\n```' in text)
    holds('README.md has a picture', '](docs/pictures/' in text)


def help_of_make():
    """make help lists what there is, and nothing that there is not."""
    said, status = run('make -s help', ROOT)
    listed = re.findall(r'^make(?: ([\w-]+))?', said, re.M)
    names = ' '.join(name for name in sorted(os.listdir(ROOT)) if name.endswith('.mk'))
    rules = run(f'grep -h "^[a-z].*:" Makefile {names}', ROOT)[0]
    there = {word for line in rules.splitlines() for word in line.split(':')[0].split()}
    holds('make help', status == 0 and said.count('\n') == len(listed), said)
    for name in ('', 'run', 'prove', 'test', 'page', 'wheel', 'install'):
        holds(f'make help lists make {name}', name in listed or f'make {name} ' in said)
    for name in filter(None, listed):
        holds(f'make help: {name}', name in there)


def links(document):
    """Every file that a document links, with its heading."""
    text = read(document)
    for target in re.findall(r'\]\(([^)]+)\)', text):
        path, _, heading = target.partition('#')
        file = os.path.join(os.path.dirname(document), path)
        holds(f'{document}: {target}', os.path.exists(os.path.join(ROOT, file)))
        if heading:
            titles = re.findall(r'^#+ (.*)$', read(file), re.M)
            holds(f'{document}: {target}', heading in [t.lower().replace(' ', '-') for t in titles])


def pictures(write):
    """Those in docs/pictures are as the console draws them, and each stands in a document."""
    kept = os.path.join(ROOT, 'docs/pictures')
    with tempfile.TemporaryDirectory() as folder:
        subprocess.run(['sh', 'tools/pictures.sh', os.path.join(BUILD, 'star'), folder], cwd=ROOT,
                       check=True)
        names = sorted(os.listdir(folder))
        for name in names:
            if write:
                shutil.copyfile(os.path.join(folder, name), os.path.join(kept, name))
            with open(os.path.join(folder, name), encoding='utf-8') as file:
                holds(f'picture {name}', file.read() == read(os.path.join('docs/pictures', name)))
            holds(f'{name} is shown', any(f'pictures/{name})' in read(d) for d in DOCUMENTS))
    holds('no other picture', sorted(os.listdir(kept)) == names)


if __name__ == '__main__':
    BUILD = os.path.abspath(sys.argv[1])
    WRITE = sys.argv[2:] == ['--write']
    for name in DOCUMENTS:
        commands_of(name, WRITE)
        links(name)
    links('CHANGES.md')
    pictures(WRITE)
    programmers_pages()
    broken()
    first_page()
    help_of_make()
    print(f'{counts[True]} passed, {counts[False]} failed')
    sys.exit(0 if counts[False] == 0 else 1)
