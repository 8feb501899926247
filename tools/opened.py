#!/usr/bin/env python3
"""opened.py [--check]: writes crates/meaning/proofs/Opened.antt, one name that opens every definition of specs/, for proofs by
computation. With --check it writes nothing and fails where the file is not what it would write."""
import re
import sys

SPECS, OUT = 'crates/meaning/specs/', 'crates/meaning/proofs/Opened.antt'
pages = re.findall(r'^pub mod (\S+)', open(SPECS + 'Lib.antt').read(), re.M)
uses, opened, seen = [], [], set()
for page in pages:
    items = []
    for name in re.findall(r'^\s*unfoldable pub (\S+) :', open(SPECS + page + '.antt').read(), re.M):
        own = f'{name}-{page}' if name in seen else name
        seen.add(name)
        items.append(name if own == name else f'{name} as {own}')
        opened.append(own)
    if items:
        uses.append(f'use Rattle.meaning.specs.{page}.{{{", ".join(items)}}}')
text = '\n'.join(['-- A name that opens every definition: a proof by computation says `unfolding opened`. Written by tools/opened.py.',
                  '-- Assumes nothing.',
                  'use Prim.Native.Nat.{ℕ}', *uses, '', 'unfoldable pub opened : ℕ', 'unfolding ' + ' '.join(opened), 'opened = 0', ''])
if '--check' in sys.argv:
    if open(OUT).read() != text:
        sys.exit(f'{OUT} is not what tools/opened.py writes')
else:
    open(OUT, 'w').write(text)
