#!/usr/bin/env python3
"""keywords.py [--check]: writes the table KEYS of crates/words/src/keywords.rt from the list `keywords` of the definitions: the slots,
the lengths, the words. With --check it writes nothing and fails where the table is not what it would write."""
import re
import sys

LIST, OUT, WIDTH = 'crates/meaning/specs/Keywords.antt', 'crates/words/src/keywords.rt', 16
words = re.findall(r'"(\w+)"', re.search(r'^keywords =\n(.*?)\n\n', open(LIST).read(), re.M | re.S)[1])
text = open(OUT).read()
slots = int(re.search(r'const SLOTS: usize = (\d+);', text)[1])
first, middle = map(int, re.search(r'\((\d+) \* first \+ (\d+) \* middle \+ last\) % SLOTS', text).groups())
table = [len(words)] * slots
for k, w in enumerate(words):
    b = w.encode()
    slot = (first * b[0] + middle * b[len(b) // 2] + b[-1]) % slots
    if table[slot] < k:
        sys.exit(f'{w} and {words[table[slot]]} have one slot: choose other factors in slot_of of src/ and of specs/')
    table[slot] = k
rows = lambda l, n: [''.join(f'\\x{x:02x}' for x in l[i:i + n]) for i in range(0, len(l), n)]
lines = rows(table, 16) + rows([len(w) for w in words], 19) + [w.ljust(WIDTH) for w in words]
start = text.index('*b"\\\n') + len('*b"\\\n')
new = text[:start] + '\\\n'.join('    ' + l for l in lines) + text[text.index('";', start):]
if '--check' in sys.argv:
    if new != text:
        sys.exit(f'{OUT} is not what tools/keywords.py writes')
else:
    open(OUT, 'w').write(new)
