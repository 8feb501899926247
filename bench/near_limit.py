#!/usr/bin/env python3
"""near_limit.py: writes a policy text near 01's sizes to standard output: just under 32,768 bytes, 128 types, 32 attributes, 32 classes,
16 booleans, 512 AV rows with 64 neverallows among them, 32 ifs, 32 constrains, no clash. The same text at every run."""

TYPES, ATTRIBUTES, CLASSES, BOOLS = 128, 32, 32, 16
PERMS = ['read', 'write', 'retire', 'scan', 'send', 'hold', 'lend', 'ask']


def main():
    out = [f'class k{i}' for i in range(CLASSES - 1)] + ['class process']
    out.append('common prof { ' + ' '.join(PERMS) + ' }')
    out += [f'class k{i} inherits prof' for i in range(CLASSES - 1)] + ['class process { fork transition dyntransition }']
    out += [f'attribute bench{i};' for i in range(ATTRIBUTES)]
    out += [f'type lamp{i}_t, bench{i % ATTRIBUTES};' for i in range(TYPES)]
    out += [f'bool b{i} {"true" if i % 3 else "false"};' for i in range(BOOLS)]
    out += ['role op_r;', 'role op_r types { ' + ' '.join(f'bench{i}' for i in range(ATTRIBUTES)) + ' };']
    # 64 neverallows; what they forbid, `ask` on the first half of the classes, no allow grants
    out += [f'neverallow bench{i % ATTRIBUTES} bench{(i * 5 + 1) % ATTRIBUTES} : k{i % 15} ask;' for i in range(63)]
    out.append('neverallow ~{ bench0 bench1 } self : process dyntransition;')
    # 96 rows in 32 ifs, 352 outside
    for i in range(32):
        b, c = f'b{i % BOOLS}', f'b{(i * 7 + 3) % BOOLS}'
        out.append(f'if ({b} && !{c} || {c} == {b}) {{ allow lamp{i}_t bench{i} : k{i % 31} {{ read send }}; allow bench{i} lamp{i + 1}_t : k{(i + 5) % 31} write; }}'
                   f' else {{ dontaudit lamp{i + 32}_t bench{i} : k{i % 31} scan; }}')
    for i in range(352):
        s, t = (f'bench{i % 32}', f'lamp{i * 3 % 128}_t') if i % 2 else (f'lamp{i * 7 % 128}_t', f'bench{i * 11 % 32}')
        out.append(f'{["allow", "allow", "auditallow", "dontaudit"][i % 4]} {s} {t} : k{i % 31} {PERMS[i % 7]};')
    out += ['user op_u roles op_r;']
    out += [f'constrain k{i % 31} {PERMS[i % 7]} (r1 == r2 or t1 == bench{i} or u1 != u2 and t2 == lamp{i}_t);' for i in range(32)]
    text = '\n'.join(out) + '\n'
    text += '#' * max(0, 32767 - len(text) - 1) + '\n' if len(text) < 32767 else ''
    assert len(text) <= 32768, len(text)
    print(text, end='')


main()
