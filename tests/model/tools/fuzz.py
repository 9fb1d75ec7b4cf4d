"""Writes scenario files of random firmware and inputs, and what the model prints for them.

usage: fuzz.py walk directory number-of-files first-seed; walk is the model's program (tests/random builds it).
"""
import os
import random
import subprocess
import sys

HERE = os.path.dirname(os.path.abspath(__file__))
sys.path.insert(0, HERE)
from asm import T, tape

LIMIT = 16384
NAMES = sorted(T)
DEFINED = sorted(o for modes in T.values() for o in modes.values())
BRANCHES = {o for n, m in T.items() for k, o in m.items() if k == 'rel'}
REGISTERS = [0, 1, 2, 3, 0x10, 0x11, 0x12, 0x14, 0x15, 0x16, 0x17, 0x18, 0x19, 0x1A, 0x1C, 0x1D, 0x1E, 0x04, 0x1F]
WRITERS = {'STA', 'STX', 'STY', 'ASL', 'DEC', 'INC', 'LSR', 'RMB', 'ROL', 'ROR', 'SMB'}
RARE = {0x00, 0x40, 0x60, 0x6C, 0x4C, 0x20}
ASYNCHRONOUS = [0x00, 0x40, 0x80, 0xC0]
SHIFTING = [0xA0, 0xA0, 0xB0, 0xE0, 0xF0, 0x50, 0x50, 0x50, 0xD0]


def zero_page(r, written=False):
    k = r.random()
    if r.quiet and written:
        return r.choice([1, 2, 1, 2, 0x40, 0x80, 0xFE, 0xFF])
    if k < 0.35:
        return r.choice([1, 2, 1, 2, 0, 3])
    if k < 0.7:
        return r.choice(REGISTERS)
    if k < 0.75:
        return r.randrange(0x40)
    return r.choice([0x40, 0x41, 0x80, 0x81, 0xFD, 0xFE, 0xFF, r.randrange(0x40, 0x100)])


def absolute(r):
    k = r.random()
    if k < 0.4:
        return zero_page(r)
    if k < 0.5:
        return 0xFF00 + zero_page(r)
    if k < 0.6:
        return 0x10000 - r.randrange(1, 16)
    return 0x200 + r.randrange(0x60)


def instruction(r):
    """Random defined instruction without control transfer by absolute addresses."""
    while True:
        name = r.choice(NAMES)
        mode, opcode = r.choice(sorted(T[name].items()))
        if opcode in RARE and r.random() < 0.97:
            continue
        written = name[:3] in WRITERS
        if r.quiet and (name == 'TXS' or written and mode not in ('zp', 'acc')):
            continue
        if mode in ('imp', 'acc'):
            return [opcode]
        if mode == 'imm':
            return [opcode, r.choice([0, 1, 0xFF, r.randrange(256)])]
        if mode == 'rel':
            return [opcode, r.choice([0, 1, 2, 3, 4])]
        if mode == 'bit':
            return [opcode, zero_page(r), r.choice([0, 1, 2, 3])]
        if mode in ('zp', 'zpx', 'zpy', 'indx', 'indy'):
            return [opcode, zero_page(r, written)]
        a = absolute(r)
        return [opcode, a & 255, a >> 8]


def store(value, register):
    return [0xA9, value, 0x85, register]


def serial_control(r):
    """SCCR: each half in each mode, in any form; mostly in shift-register mode where the scenario is about it."""
    mode = r.choice(SHIFTING if r.random() < (0.8 if r.shifts else 0.3) else ASYNCHRONOUS)
    return mode | r.randrange(16)


def setup(r):
    """Random settings of counters, serial channel and interrupts, in random order."""
    parts = []
    small = lambda: r.choice([0, 0, 1, 2, 3, 5, 9] if not r.quiet else [0, 1, 2, 5, 30])
    if r.shifts:
        parts.append(store(r.choice([0, 1, 2]), 0x18) + store(0, 0x1A))
        parts.append(store(serial_control(r), 0x15) + store(r.randrange(256), 0x17))
        parts.append(store(r.choice([0, 1, 1, 2, 3]), 0x14))
        r.shuffle(parts)
        return [b for part in parts for b in part]
    if r.random() < 0.8:
        parts.append(store(small(), 0x18) + store(0, 0x1A))
    if r.random() < 0.8:
        parts.append(store(small(), 0x1C) + store(0, 0x1D) + store(small(), 0x1C) + store(0, 0x1E))
    if r.random() < 0.9:
        parts.append(store(r.choice([r.randrange(16), r.randrange(64), 1, 4, 5]), 0x14))
    if r.random() < 0.7:
        parts.append(store(serial_control(r), 0x15))
        if r.random() < 0.7:
            parts.append(store(r.randrange(256), 0x17))
    if r.random() < 0.6:
        parts.append(store(r.choice([1, 2, 4, 8, 0x0F, 0x10, 0x20, 0x30, 0x40, 0x80, r.randrange(256)]), 0x12))
    r.shuffle(parts)
    code = [b for part in parts for b in part]
    if r.random() < 0.6:
        code += [0x58]
    return code


def clocked_bits(r, number):
    """Rises of PA4 by its latch, with bits on PA7 by its own: RMB4, SMB4, and RMB7 or SMB7."""
    return [b for _ in range(number) for b in [r.choice([0x77, 0xF7]), 0, 0x47, 0, 0xC7, 0]]


def shift_part(r):
    """What bears on the shift-register mode: bytes to send, bytes read, rises of PA4, SCCR written once more."""
    k = r.random()
    if k < 0.35:
        return store(r.randrange(256), 0x17)
    if k < 0.5:
        return [0xA5, 0x17, 0x85, 2]
    if k < 0.65:
        return clocked_bits(r, r.choice([1, 2, 8]))
    if k < 0.75:
        return store(serial_control(r), 0x15)
    return [0xEA] * r.randrange(1, 12)


def body(r, length):
    code = []
    while len(code) < length:
        k = r.random()
        if r.shifts and k < 0.7:
            code += shift_part(r)
        elif k < 0.08:
            code += [0x85, r.choice([1, 2])]
        elif k < 0.11:
            code += [0x08, 0x68, 0x85, r.choice([1, 2])]
        elif k < 0.15:
            code += [0xA5, r.choice(REGISTERS), 0x85, r.choice([1, 2])]
        elif k < 0.155 and not r.quiet:
            code += [r.randrange(256)]
        elif k < 0.17 and r.quiet:
            code += store(r.randrange(256), 0x17)
        else:
            code += instruction(r)
    return code


def program(r):
    image = {}

    def put(address, code):
        for i, b in enumerate(code):
            image[address + i] = b
    main = setup(r)
    loop = 0x200 + len(main)
    main += body(r, r.choice([8, 16, 24, 40]))
    main += [0x4C, loop & 255, loop >> 8]
    put(0x200, main)
    handler = 0x200 + len(main) + 2
    code = body(r, r.choice([2, 4, 8]))
    if r.random() < 0.7:
        code += [0xA9, 0, 0x85, 0x10, 0xA5, 0x18, 0xA5, 0x1C]
    put(handler, code + [0x40])
    vectors = [handler & 255, handler >> 8, 0, 2, handler & 255, handler >> 8]
    put(0xFFFA, vectors)
    return image


def serial_inputs(r, pins):
    """PA7 with bits 16 times a small interval long."""
    step = 16 * r.choice([1, 1, 2, 3, 4])
    clock = r.randrange(40, 90)
    for _ in range(r.randrange(1, 3)):
        level = 0
        for _ in range(11):
            pins.append((clock, 7 | level << 6))
            clock += step + r.choice([0, 0, 0, 1])
            level = r.randrange(2)
        pins.append((clock, 0x47))
        clock += step


def shift_inputs(r, pins):
    """A shift clock on PA4 with bits on PA7, somewhat more than a byte."""
    low, high = r.choice([1, 2, 4]), r.choice([1, 2, 4])
    clock = r.randrange(30, 60)
    level = None
    for _ in range(r.choice([8, 9, 10])):
        pins.append((clock, 4))
        bit = r.randrange(2)
        if bit != level:
            pins.append((clock + r.choice([0, low]), 7 | bit << 6))
        level = bit
        pins.append((clock + low, 0x44))
        clock += low + high


def inputs(r, clocks):
    pins = []
    if r.shifts and r.random() < 0.6:
        shift_inputs(r, pins)
    elif r.random() < 0.4:
        serial_inputs(r, pins)
    count = r.choice([0, 2, 5, 10, 20] if not r.shifts else [0, 0, 2])
    for _ in range(count):
        pin = r.choice([0, 1, 2, 3, 4, 4, 4, 5, 5, 5, 7, r.randrange(32), 32, 32] + ([33] if r.random() < 0.3 else []))
        clock = r.randrange(1, clocks + 20)
        if pin == 33:
            pins.append((clock, 33))
            pins.append((clock + r.randrange(1, 6), 33 | 64))
        else:
            pins.append((clock, pin | r.choice([0, 64])))
            if r.random() < 0.5:
                pins.append((clock + r.randrange(1, 4), pin | 64))
    best = {}
    for clock, code in pins:
        best[(clock, code & 63)] = code
    best.setdefault((1, 33), 33 | 64)  # RES high on clock 1 (document 02, U8), unless the list sets it itself
    listed = [(c, best[(c, p)]) for c, p in sorted(best)][:32]
    if r.random() < 0.01 and len(listed) > 1:
        listed.reverse()
    return listed


def scenario(r, title):
    r.shifts = r.random() < 0.4
    r.quiet = r.random() < (0.8 if r.shifts else 0.5)
    clocks = r.choice([100, 200, 400, 800])
    free = r.choice([0x40, 0x40, 0x40, 0x20, 8, 1])
    text = '#%s\n' % title + tape(program(r))
    text += ''.join('+%08X %02X\n' % i for i in inputs(r, clocks))
    return text + '=%04X %02X\n' % (clocks, free)


def main():
    if len(sys.argv) != 5 or not (sys.argv[3].isdecimal() and sys.argv[4].isdecimal() and int(sys.argv[3]) > 0):
        print('usage: fuzz.py walk directory number-of-files first-seed', file=sys.stderr)
        sys.exit(2)
    walk, directory, files, seed = sys.argv[1], sys.argv[2], int(sys.argv[3]), int(sys.argv[4])
    os.makedirs(directory, exist_ok=True)
    for n in range(files):
        r = random.Random(seed + n)
        text, k = '', 0
        while True:
            one = scenario(r, 'random %d.%d, by the plain-clock model' % (seed + n, k))
            if len(text) + len(one) > LIMIT:
                break
            text += one
            k += 1
        base = os.path.join(directory, 'random_%04d' % (seed + n))
        out = subprocess.run([walk], input=text, capture_output=True, text=True, check=True).stdout
        open(base + '.txt', 'w').write(text)
        open(base + '.expected', 'w').write(out)


main()
