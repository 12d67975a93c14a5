#!/usr/bin/env python3
"""Works out what roll_demo must print, from the rules in docs/RULES.md and not from our program.

    tools/roll_demo_expected.py < crates/roll_demo/stdin > crates/roll_demo/stdout

A sorted roll gives a new key the first empty place. A hashed roll gives it the first empty place from
the key's hash (FNV-1a of its 8 big-endian bytes) modulo the size on, going round.
"""
import re, sys

def fnv_1a(data):
    h = 0xcbf29ce484222325
    for b in data:
        h = (h ^ b) * 0x100000001b3 % 2 ** 64
    return h

class Model:
    def __init__(self, size, start):
        self.places, self.start = [None] * size, start
    def find(self, key):
        return self.places.index(key) if key in self.places else 'absent'
    def enter(self, key):
        if key in self.places: return self.places.index(key)
        n = len(self.places)
        for d in range(n):
            p = (self.start(key) + d) % n
            if self.places[p] is None:
                self.places[p] = key
                return p
        return 'full'
    def strike(self, key):
        p = self.find(key)
        if p != 'absent': self.places[p] = None
        return p

def number(text):
    return int(text) if re.fullmatch('[0-9]+', text) and int(text) < 2 ** 64 else None

def main():
    lines = sys.stdin.read().split('\n')
    if lines[-1] == '': lines.pop()
    size = number(lines[0]) if lines else None
    if size is None: print('line 1 does not read'); return
    if not 1 <= size <= 64: print(f'size {size}: refused with 22'); return
    rolls = [Model(size, lambda k: 0), Model(size, lambda k: fnv_1a(k.to_bytes(8, 'big')) % size)]
    for i, line in enumerate(lines[1:], 2):
        m = re.fullmatch(r'([+?-]) ([0-9]+)', line)
        if not m or number(m[2]) is None: print(f'line {i} does not read'); continue
        key = number(m[2])
        a, b = ({'+': r.enter, '-': r.strike, '?': r.find}[m[1]](key) for r in rolls)
        print(f'{line}: sorted {a}, hashed {b}')
    for key in sorted(k for k in rolls[0].places if k is not None):
        print(f'key {key}: sorted {rolls[0].find(key)}, hashed {rolls[1].find(key)}')
    same = set(rolls[0].places) - {None} == set(rolls[1].places) - {None}
    print('both rolls hold the same keys' if same else 'the rolls hold different keys')

main()
