#!/usr/bin/env python3
"""differ.py FOLDER: compares NAME.ours.pbm and NAME.gdi.pbm for each NAME of FOLDER/files.txt.

Prints a line for each group, a line for each file that fails, and at the end `N passed, N failed`. A file fails that must be equal
and is not, that lacks a picture, or whose report (NAME.report) tells of records refused or passed over: the files have none.
"""
import collections
import os
import sys


def cells(a, b):
    return sum(bin(x ^ y).count('1') for x, y in zip(a, b))


def read(path):
    return open(path, 'rb').read() if os.path.exists(path) else b''


def main():
    folder = sys.argv[1]
    groups = collections.OrderedDict()
    passed, wrong = 0, []
    for line in open(os.path.join(folder, 'files.txt')):
        kind, group, name, how = line.split()
        path = os.path.join(folder, name)
        ours, theirs, report = read(path + '.ours.pbm'), read(path + '.gdi.pbm'), read(path + '.report').decode()
        differ = cells(ours, theirs)
        groups.setdefault((kind, group), []).append(differ)
        if not len(ours) == len(theirs) == 28811:
            wrong.append('%s (%s): a picture is missing or short' % (name, how))
        elif not (report.startswith('taken ') and report.endswith('refused 0, passed over 0\n')):
            wrong.append('%s (%s): the report is %s' % (name, how, report.strip()))
        elif kind == 'same' and differ:
            wrong.append('%s (%s): %d cells differ' % (name, how, differ))
        elif kind == 'same':
            passed += 1
    for wanted in ('same', 'departs'):
        for (kind, group), counts in groups.items():
            if kind == wanted:
                text = '%-8s %-14s %3d files, %d differ' % (kind, group, len(counts), sum(n != 0 for n in counts))
                print(text + (', in %d to %d cells' % (min(counts), max(counts)) if any(counts) else ''))
    for text in wrong:
        print('failed   ' + text)
    print('%d passed, %d failed' % (passed, len(wrong)))
    return bool(wrong)


if __name__ == '__main__':
    sys.exit(main())
