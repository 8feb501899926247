#!/usr/bin/env python3
"""recognised.py VECTORS: writes the cases of the program `recognised`: crates/recognised/data/cases (each text behind its length, five
digits and an LF) and crates/recognised/stdout (a line for each: number and place). The texts are those of the folders below VECTORS
(policy.conf, and out with the load line) whose answer is 2, 3 or 7, and those at a limit, for which the recogniser answers 0 0."""
import glob
import os
import sys

CRATE = os.path.join(os.path.dirname(__file__), '..', 'crates', 'recognised')
root = sys.argv[1]
cases, lines = b'', ''
for folder in sorted(glob.glob(root + '/*/*'), key=lambda d: (d.split('/')[-2], int(d.split('/')[-1]))):
    text = open(folder + '/policy.conf', 'rb').read()
    number, place = open(folder + '/out').read().split('\n')[0].split(' ')[1:3]
    late = number not in ('2', '3', '7')
    if late and '/limits/' not in folder:
        continue
    cases += b'%05d\n' % len(text) + text
    lines += '0 0\n' if late else f'{number} {place}\n'
os.makedirs(CRATE + '/data', exist_ok=True)
open(CRATE + '/data/cases', 'wb').write(cases)
open(CRATE + '/stdout', 'w').write(lines)
print(lines.count('\n'), 'texts,', len(cases), 'bytes')
