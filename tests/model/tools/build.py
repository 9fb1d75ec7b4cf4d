"""Builds target/model/scenarios.txt and expected.txt. Hand-derived outcomes stand here and are compared with the
model's, whose programs cargo has built below target/cargo/checked.
"""
import os
import subprocess
import sys

HERE = os.path.dirname(os.path.abspath(__file__))
sys.path.insert(0, HERE)
from asm import assemble, tape

TARGET = os.path.join(HERE, '..', '..', '..', 'target')
OUT = os.path.join(TARGET, 'model')
WALK = os.path.join(TARGET, 'cargo', 'checked', 'walk')
os.makedirs(OUT, exist_ok=True)
SCENARIOS = []


RELEASE = (1, 0x61)


def S(title, source, clocks, free, hand=None, inputs=(), vectors=None):
    """hand: text 'clock word, clock word, ... end k s' worked out on paper, or None. RES gets high on clock 1 (document
    02, U8), before all inputs that are given here."""
    if vectors:
        image = assemble(source + '|.org $FFFA|.word %s,$0200,%s' % vectors)
    else:
        image = assemble(source + '|.org $FFFC|.word $0200')
    lines = [line.strip().removeprefix('Hand: ') for line in title.strip().split('\n')]
    inputs = [RELEASE] + list(inputs)
    assert all(clock > 1 for clock, _ in inputs[1:]), title
    for line in lines:
        assert not set(line) & set(';+='), line
        assert max(map(ord, line)) < 128, line
    text = ''.join('#' + line + '\n' for line in lines) + tape(image)
    text += ''.join('+%08X %02X\n' % i for i in inputs)
    text += '=%04X %02X\n' % (clocks, free)
    assert len(inputs) <= 32 and free <= 0x40
    SCENARIOS.append((title.split('\n')[0], text, hand))


exec(open(os.path.join(HERE, 'list.py')).read())

whole = ''.join(text for _, text, _ in SCENARIOS)
wrong = 0
expected = ''
for title, text, hand in SCENARIOS:
    out = subprocess.run([WALK], input=text, capture_output=True, text=True, check=True).stdout
    expected += out
    if hand is None:
        continue
    want = [w.strip() for w in hand.replace('end', ',end').split(',') if w.strip()]
    got = out.strip().split('\n')
    if want != got:
        wrong += 1
        print('DIFFERS:', title)
        print('   hand ', want)
        print('   model', got)
together = subprocess.run([WALK], input=whole, capture_output=True, text=True, check=True).stdout
assert together == expected, 'whole file differs from single scenarios'
open(os.path.join(OUT, 'scenarios.txt'), 'w').write(whole)
open(os.path.join(OUT, 'expected.txt'), 'w').write(expected)
by_hand = sum(1 for s in SCENARIOS if s[2] is not None)
print(len(SCENARIOS), 'scenarios,', by_hand, 'by hand,', len(whole), 'characters,', wrong, 'differ')
assert len(whole) <= 16384, 'too long'
