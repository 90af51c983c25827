#!/usr/bin/env python3
"""Writes docs/planted-bugs.md from crates/*/must-fail/*.edit, and from the edits that git knows to have stood there once."""
import glob
import os
import subprocess

TOP = os.path.dirname(os.path.dirname(os.path.abspath(__file__)))
# Crates whose former edits were each seen to be refused before they were left out of the gate.
TRIED_ONCE = {'layers', 'raster', 'player', 'pencil', 'playback'}
NEVER_REFUSED_FOR_A_FACT = {'surface_unreached.edit'}

HEAD = """# Planted bugs

Each row is a bug that was planted in the code, alone, and that the prover refuses: a contract no longer holds. Those of the first
kind are tried by the gate each time (`crates/NAME/must-fail/`); the others were tried once, in the code as it stood then, and left out,
since each costs a whole check of its crate. A bug in what a program prints is beyond every contract; the programs' stored outputs and
[the checks](checks.md) are for that. This page is written by `tools/make_planted_bugs.py`.

{gate} are tried by the gate, {once} were tried once.
"""


def git(*words):
    return subprocess.run(['git', *words], cwd=TOP, capture_output=True, text=True, check=True).stdout


def changes(text):
    file = old = None
    for line in text.split('\n'):
        if line.startswith('file: '):
            file = line[6:]
        elif line.startswith('old: '):
            old = line[5:].strip()
        elif line.startswith('new:'):
            new = line[4:].strip()
            if old != new:
                yield file, old, new


def code(text):
    return '`' + text.replace('|', '\\|') + '`' if text else '(nothing)'


def name_of(path):
    return os.path.basename(path)[:-len('.edit')].replace('_', ' ')


def main():
    crates = [line.split(':')[0].split()[0] for line in open(os.path.join(TOP, 'crates.txt')) if ':' in line]
    gate, body = 0, []
    for crate in crates:
        edits = sorted(glob.glob(f'{TOP}/crates/{crate}/must-fail/*.edit'))
        if edits:
            body += [f'### {crate}', '', '| bug | file | stands | becomes |', '|---|---|---|---|']
            for edit in edits:
                gate += 1
                for i, (file, old, new) in enumerate(changes(open(edit).read())):
                    body.append(f'| {"" if i else name_of(edit)} | `{file}` | {code(old)} | {code(new)} |')
            body.append('')
    once = []
    for path in sorted(set(git('log', '--diff-filter=D', '--name-only', '--format=', '--', 'crates/*/must-fail/*.edit').split())):
        crate = path.split('/')[1]
        if os.path.exists(os.path.join(TOP, path)) or crate not in TRIED_ONCE or os.path.basename(path) in NEVER_REFUSED_FOR_A_FACT:
            continue
        commit = git('log', '--diff-filter=D', '-1', '--format=%H', '--', path).strip()
        file, old, new = next(changes(git('show', f'{commit}^:{path}')))
        once.append(f'| {crate} | {name_of(path)} | `{file}` | {code(old)} | {code(new)} |')
    lines = [HEAD.format(gate=gate, once=len(once)), '## Tried by the gate', '', *body, '## Tried once', '', '| crate | bug | file | stands | becomes |', '|---|---|---|---|---|', *once]
    open(os.path.join(TOP, 'docs', 'planted-bugs.md'), 'w').write('\n'.join(lines) + '\n')


if __name__ == '__main__':
    main()
