#!/usr/bin/env python3
"""spelling.py: brings the repository's own definitions and lemmas to the spelling of today's library: words in snake case, no
middle dot in a name. It was run once, at the top, right after the kit's port.py, and is kept to show what it did: run again it would
rename what the table LEMMAS names.

It turns the text of crates/*/{specs,proofs}/**.antt and crates/*/src/*.rt, and the names in crates/*/must-fail/*.edit. Functions,
types, strings and files keep their names.

Names that would fall together with a definition are turned first, by the table LEMMAS: a lemma that has its definition's name ends
in `_lem`."""
import os
import re

# lemmas that port.py put into snake case, where a definition of that name now comes to stand beside them
LEMMAS = {
    'goes_on': 'goes_on_lem',
    'in_source': 'in_source_lem',
    'left_in': 'left_in_lem',
    'none_from': 'none_from_lem',
    'same_bytes': 'same_bytes_lem',
}
# words of the library that stand inside names of lemmas
WORDS = {'getD': 'get_or'}
CAMEL = re.compile(r'(?<![\w\'"])[a-z][a-z0-9]*[A-Z]\w*')


def snake(word):
    return WORDS.get(word) or re.sub(r'(?<=[a-z0-9])([A-Z])', lambda m: '_' + m[1].lower(), word)


def turned(text):
    text = re.sub(r"(?<![\w'-])(" + '|'.join(LEMMAS) + r")(?![\w'-])", lambda m: LEMMAS[m[1]], text)
    text = re.sub(r'(\w)·(?=[A-Z]\w)', r'\1-', text)
    return CAMEL.sub(lambda m: snake(m[0]), text)


def rust(text):
    """all but what stands in quotes: no function or local of src/ has a capital inside its name"""
    return ''.join(part if part[:1] == '"' else turned(part) for part in re.split(r'("(?:[^"\\\n]|\\.)*")', text))


for folder, dirs, files in os.walk('crates'):
    dirs[:] = sorted(d for d in dirs if d != 'out')
    for name in sorted(files):
        how = {'.antt': turned, '.edit': turned, '.rt': rust}.get(os.path.splitext(name)[1])
        if how:
            path = os.path.join(folder, name)
            old = open(path, encoding='utf-8').read()
            new = how(old)
            if new != old:
                open(path, 'w', encoding='utf-8').write(new)
