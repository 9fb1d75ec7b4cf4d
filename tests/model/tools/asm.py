"""A small assembler for the R6501Q, for building scenarios."""
import re

T = {}


def _add(name, **modes):
    T[name] = modes


_add('ADC', imm=0x69, zp=0x65, zpx=0x75, abs=0x6D, absx=0x7D, absy=0x79, indx=0x61, indy=0x71)
_add('AND', imm=0x29, zp=0x25, zpx=0x35, abs=0x2D, absx=0x3D, absy=0x39, indx=0x21, indy=0x31)
_add('ASL', acc=0x0A, zp=0x06, zpx=0x16, abs=0x0E, absx=0x1E)
_add('BIT', zp=0x24, abs=0x2C)
_add('CMP', imm=0xC9, zp=0xC5, zpx=0xD5, abs=0xCD, absx=0xDD, absy=0xD9, indx=0xC1, indy=0xD1)
_add('CPX', imm=0xE0, zp=0xE4, abs=0xEC)
_add('CPY', imm=0xC0, zp=0xC4, abs=0xCC)
_add('DEC', zp=0xC6, zpx=0xD6, abs=0xCE, absx=0xDE)
_add('EOR', imm=0x49, zp=0x45, zpx=0x55, abs=0x4D, absx=0x5D, absy=0x59, indx=0x41, indy=0x51)
_add('INC', zp=0xE6, zpx=0xF6, abs=0xEE, absx=0xFE)
_add('JMP', abs=0x4C, ind=0x6C)
_add('JSR', abs=0x20)
_add('LDA', imm=0xA9, zp=0xA5, zpx=0xB5, abs=0xAD, absx=0xBD, absy=0xB9, indx=0xA1, indy=0xB1)
_add('LDX', imm=0xA2, zp=0xA6, zpy=0xB6, abs=0xAE, absy=0xBE)
_add('LDY', imm=0xA0, zp=0xA4, zpx=0xB4, abs=0xAC, absx=0xBC)
_add('LSR', acc=0x4A, zp=0x46, zpx=0x56, abs=0x4E, absx=0x5E)
_add('ORA', imm=0x09, zp=0x05, zpx=0x15, abs=0x0D, absx=0x1D, absy=0x19, indx=0x01, indy=0x11)
_add('ROL', acc=0x2A, zp=0x26, zpx=0x36, abs=0x2E, absx=0x3E)
_add('ROR', acc=0x6A, zp=0x66, zpx=0x76, abs=0x6E, absx=0x7E)
_add('SBC', imm=0xE9, zp=0xE5, zpx=0xF5, abs=0xED, absx=0xFD, absy=0xF9, indx=0xE1, indy=0xF1)
_add('STA', zp=0x85, zpx=0x95, abs=0x8D, absx=0x9D, absy=0x99, indx=0x81, indy=0x91)
_add('STX', zp=0x86, zpy=0x96, abs=0x8E)
_add('STY', zp=0x84, zpx=0x94, abs=0x8C)
for _n, _o in dict(BRK=0x00, PHP=0x08, CLC=0x18, PLP=0x28, SEC=0x38, RTI=0x40, PHA=0x48, CLI=0x58, RTS=0x60, PLA=0x68,
                   SEI=0x78, DEY=0x88, TXA=0x8A, TYA=0x98, TXS=0x9A, TAY=0xA8, TAX=0xAA, CLV=0xB8, TSX=0xBA, INY=0xC8,
                   DEX=0xCA, CLD=0xD8, INX=0xE8, NOP=0xEA, SED=0xF8).items():
    _add(_n, imp=_o)
for _n, _o in dict(BPL=0x10, BMI=0x30, BVC=0x50, BVS=0x70, BCC=0x90, BCS=0xB0, BNE=0xD0, BEQ=0xF0).items():
    _add(_n, rel=_o)
for _m in range(8):
    _add('RMB%d' % _m, zp=0x07 + 16 * _m)
    _add('SMB%d' % _m, zp=0x87 + 16 * _m)
    _add('BBR%d' % _m, bit=0x0F + 16 * _m)
    _add('BBS%d' % _m, bit=0x8F + 16 * _m)


def _value(text, labels, here):
    text = text.strip()
    m = re.match(r'^(.+?)([+-]\d+)$', text)
    if m and not text.startswith('$'):
        return _value(m.group(1), labels, here) + int(m.group(2))
    if text.startswith('<'):
        return _value(text[1:], labels, here) & 255
    if text.startswith('>'):
        return _value(text[1:], labels, here) >> 8
    if text == '*':
        return here
    if text.startswith('$'):
        return int(text[1:], 16)
    if text[0].isdigit():
        return int(text)
    return labels.get(text, 0x1000)


def _short(text):
    return re.match(r'^\$[0-9A-Fa-f]{1,2}$', text.strip()) is not None


def _encode(name, arg, labels, here):
    modes = T[name]
    v = lambda t: _value(t, labels, here)
    if 'imp' in modes:
        return [modes['imp']]
    if 'rel' in modes:
        return [modes['rel'], (v(arg) - here - 2) & 255]
    if 'bit' in modes:
        a, t = arg.split(',')
        return [modes['bit'], v(a), (v(t) - here - 3) & 255]
    if arg in ('', 'A') and 'acc' in modes:
        return [modes['acc']]
    if arg.startswith('#'):
        return [modes['imm'], v(arg[1:]) & 255]
    word = lambda x: [x & 255, x >> 8 & 255]
    m = re.match(r'^\((.+),X\)$', arg)
    if m:
        return [modes['indx'], v(m.group(1))]
    m = re.match(r'^\((.+)\),Y$', arg)
    if m:
        return [modes['indy'], v(m.group(1))]
    m = re.match(r'^\((.+)\)$', arg)
    if m:
        return [modes['ind']] + word(v(m.group(1)))
    m = re.match(r'^(.+),([XY])$', arg)
    suffix, base = ('', arg) if not m else (m.group(2).lower(), m.group(1))
    if _short(base) and 'zp' + suffix in modes:
        return [modes['zp' + suffix], v(base)]
    return [modes['abs' + suffix]] + word(v(base))


def assemble(source, org=0x200):
    """Gives {address: byte}. Lines: [label:] OP arg | .org X | .byte a,b | .word a,b; several by '|'."""
    labels = {}
    for _ in range(3):
        here, out = org, {}
        for line in re.split(r'[\n|]', source):
            line = line.split('#!')[0].strip()
            m = re.match(r'^(\w+):\s*(.*)$', line)
            if m:
                labels[m.group(1)] = here
                line = m.group(2).strip()
            if not line:
                continue
            op, _, arg = line.partition(' ')
            arg = arg.strip()
            if op == '.org':
                here = _value(arg, labels, here)
                continue
            if op == '.byte':
                data = [_value(t, labels, here) & 255 for t in arg.split(',')]
            elif op == '.word':
                data = [b for t in arg.split(',') for b in (_value(t, labels, here) & 255, _value(t, labels, here) >> 8)]
            else:
                data = _encode(op.upper(), arg, labels, here)
            for b in data:
                out[here] = b & 255
                here = here + 1 & 0xFFFF
    return out


def tape(image):
    """Tape text of an image."""
    addresses = sorted(image)
    records, i = [], 0
    while i < len(addresses):
        start = addresses[i]
        data = [image[start]]
        while i + 1 < len(addresses) and addresses[i + 1] == addresses[i] + 1 and len(data) < 0x18:
            i += 1
            data.append(image[addresses[i]])
        i += 1
        total = len(data) + (start >> 8) + (start & 255) + sum(data)
        records.append(';%02X%04X%s%04X' % (len(data), start, ''.join('%02X' % b for b in data), total & 0xFFFF))
    n = len(records) + 1
    records.append(';00%04X%04X' % (n, (n >> 8) + (n & 255)))
    return '\n'.join(records) + '\n'
