#!/usr/bin/env python3
"""What the comparers share: batches, the proved library's cutting, the drivers' names, and the file of exceptions.

    cut.py assembled OUT NAMES FOLDER     the streams FOLDER/*.bin as a batch, in name order; their names, one a line
    cut.py examples OUT NAMES EXCEPTIONS  the example streams of the file of exceptions, and the exceptions' names
    cut.py show BATCH INDEX               one stream's tokens
"""
import collections
import pathlib
import struct
import sys

NUMBERS = {1: 'LENGTH', 2: 'VERSION', 3: 'OPCODE', 4: 'BITS', 5: 'RUN-OUT', 6: 'SIZE', 8: 'REGISTER', 9: 'BLOCK',
           10: 'DEPTH', 11: 'TAIL', 16: 'RESERVED', 17: 'MODIFIER', 18: 'RELATIVE'}
VERSIONS = {0xFFFE0101: 'vs_1_1', 0xFFFE0200: 'vs_2_0', 0xFFFE0300: 'vs_3_0',
            0xFFFF0101: 'ps_1_1', 0xFFFF0102: 'ps_1_2', 0xFFFF0103: 'ps_1_3', 0xFFFF0104: 'ps_1_4',
            0xFFFF0200: 'ps_2_0', 0xFFFF0300: 'ps_3_0'}
PS_1_1_TO_3 = ('ps_1_1', 'ps_1_2', 'ps_1_3')

PHASE, COMMENT, END = 0xFFFD, 0xFFFE, 0xFFFF

# ---- Batches ---------------------------------------------------------------------------------------------------------


def read_batch(path):
    """The streams of a batch, each as bytes."""
    data, at, streams = pathlib.Path(path).read_bytes(), 0, []
    while at < len(data):
        length, = struct.unpack_from('<I', data, at)
        streams.append(data[at + 4:at + 4 + length])
        at += 4 + length
    return streams


def write_batch(path, streams):
    pathlib.Path(path).write_bytes(b''.join(struct.pack('<I', len(stream)) + stream for stream in streams))


def tokens_of(stream):
    """The whole tokens of a stream."""
    return list(struct.unpack_from('<%dI' % (len(stream) // 4), stream))


def stream_of(tokens):
    return struct.pack('<%dI' % len(tokens), *tokens)


def written(stream, most=40):
    """A stream as one writes it: hexadecimal tokens."""
    tokens = tokens_of(stream)
    return ' '.join('%08X' % token for token in tokens[:most]) + (' ...' if len(tokens) > most else '')


def version_of(stream):
    """Such as vs_1_1; None if it is none of the nine."""
    return VERSIONS.get(struct.unpack_from('<I', stream)[0]) if len(stream) >= 4 else None


# ---- The proved library's cutting ------------------------------------------------------------------------------------

# Places of tokens count from the stream's first. `relative` is None or another register; its token is 0 in vs_1_1.
Register = collections.namedtuple('Register', 'token type number relative is_predicate')
# tag: I or F, as in cutting.c. registers: in the order of the tokens, the predicate among them.
Instruction = collections.namedtuple('Instruction', 'tag at next opcode controls predicated coissue registers')
# instructions: what has the tag I, comments and END left out; beyond: what has the tag F, likewise.
# whole: whether what was read ends with END. refused_at: None, or (number, position) of a line X. notes: of
# (shapes, place, place of the comments before it).
Cut = collections.namedtuple('Cut', 'number position tokens count instructions beyond whole refused_at notes')


def read_register(word):
    is_predicate = word.startswith('?')
    first, _, second = word.lstrip('?').partition('+')
    relative = Register(*map(int, second.split('.')), None, False) if second else None
    return Register(*map(int, first.split('.')), relative, is_predicate)


def read_instruction(words):
    return Instruction(words[0], *map(int, words[1:7]), tuple(map(read_register, words[7:])))


def read_cutting(path):
    """A Cut for each stream of what the program cutting printed."""
    cuts = []
    with open(path, encoding='ascii') as lines:
        for line in lines:
            words = line.split()
            if words[0] == 'S':
                cuts.append(Cut(*map(int, words[2:6]), [], [], False, None, []))
            elif words[0] == 'N':
                cuts[-1].notes.append(tuple(map(int, words[1:4])))
            elif words[0] == 'X':
                cuts[-1] = cuts[-1]._replace(refused_at=(int(words[1]), int(words[2])))
            elif int(words[3]) == END:
                cuts[-1] = cuts[-1]._replace(whole=True)
            elif int(words[3]) != COMMENT:
                cut = cuts[-1]
                (cut.instructions if words[0] == 'I' else cut.beyond).append(read_instruction(words))
    return cuts


# ---- Names in the drivers' listings ----------------------------------------------------------------------------------

OPCODE_NAMES = {
    0: 'nop', 1: 'mov', 2: 'add', 3: 'sub', 4: 'mad', 5: 'mul', 6: 'rcp', 7: 'rsq', 8: 'dp3', 9: 'dp4', 10: 'min',
    11: 'max', 12: 'slt', 13: 'sge', 14: 'exp', 15: 'log', 16: 'lit', 17: 'dst', 18: 'lrp', 19: 'frc', 20: 'm4x4',
    21: 'm4x3', 22: 'm3x4', 23: 'm3x3', 24: 'm3x2', 25: 'call', 26: 'callnz', 27: 'loop', 28: 'ret', 29: 'endloop',
    30: 'label', 31: 'dcl', 32: 'pow', 33: 'crs', 34: 'sgn', 35: 'abs', 36: 'nrm', 37: 'sincos', 38: 'rep',
    39: 'endrep', 40: 'if', 41: 'ifc', 42: 'else', 43: 'endif', 44: 'break', 45: 'breakc', 46: 'mova', 47: 'defb',
    48: 'defi', 64: 'texcoord', 65: 'texkill', 66: 'tex', 67: 'texbem', 68: 'texbeml', 69: 'texreg2ar',
    70: 'texreg2gb', 71: 'texm3x2pad', 72: 'texm3x2tex', 73: 'texm3x3pad', 74: 'texm3x3tex', 76: 'texm3x3spec',
    77: 'texm3x3vspec', 78: 'expp', 79: 'logp', 80: 'cnd', 81: 'def', 82: 'texreg2rgb', 83: 'texdp3tex',
    84: 'texm3x2depth', 85: 'texdp3', 86: 'texm3x3', 87: 'texdepth', 88: 'cmp', 89: 'bem', 90: 'dp2add', 91: 'dsx',
    92: 'dsy', 93: 'texldd', 94: 'setp', 95: 'texldl', 96: 'breakp', PHASE: 'phase'}
OPCODES = {name: opcode for opcode, name in OPCODE_NAMES.items()}
# tex and texcoord have other names in later versions; texld has two more for its controls 1 and 2
OPCODES.update({'texld': 66, 'texldp': 66, 'texldb': 66, 'texldp/b': 66, 'texcrd': 64})
COMPARISONS = {'gt', 'eq', 'ge', 'lt', 'ne', 'le'}


def opcode_of(word, has_operands=True):
    """The opcode of a mnemonic with its suffixes, such as setp_gt, mul_x2_sat, dcl_texcoord1, texld; None if unknown.

    IF and IFC have one mnemonic, as have BREAK, BREAKC and BREAKP, so that the suffix and the operands tell them apart."""
    head, *suffixes = word.split('_')
    is_compared = bool(suffixes) and suffixes[0] in COMPARISONS
    if head == 'if':
        return OPCODES['ifc' if is_compared else 'if']
    if head == 'break':
        return OPCODES['breakc' if is_compared else 'breakp' if has_operands else 'break']
    return OPCODES.get(head)


def register_name(version, kind, number):
    """A register's name in an assembler's source, by its type and number; types 11 to 13 are constants from 2,048 on."""
    is_vertex = version.startswith('vs')
    if kind == 4:
        return ('oPos', 'oFog', 'oPts')[number] if number < 3 else 'oRast%d' % number
    if kind == 17:
        return ('vPos', 'vFace')[number] if number < 2 else 'vMisc%d' % number
    if kind in (9, 15):
        return {9: 'oDepth', 15: 'aL'}[kind] + (str(number) if number else '')
    letter = {0: 'r', 1: 'v', 2: 'c', 3: 'a' if is_vertex else 't', 5: 'oD', 6: 'o' if version == 'vs_3_0' else 'oT', 7: 'i',
              8: 'oC', 10: 's', 11: 'c', 12: 'c', 13: 'c', 14: 'b', 18: 'l', 19: 'p'}.get(kind, '?%d:' % kind)
    return letter + str(number + {11: 2048, 12: 4096, 13: 6144}.get(kind, 0))


# ---- Exceptions ------------------------------------------------------------------------------------------------------

FIELDS = ('name', 'driver', 'versions', 'covers', 'reason', 'example')


def read_exceptions(path):
    """The entries of the file of exceptions, each a dictionary of FIELDS; `example` is a stream, as bytes.

    An entry is a row of lines `field: text`, a line that begins with a space goes on with the field before it, an empty
    line ends the entry, and what begins with # is left out. An error in the file ends the program."""
    entries, entry, field = [], {}, None
    for number, line in enumerate(pathlib.Path(path).read_text(encoding='ascii').splitlines() + [''], 1):
        if line.startswith('#'):
            continue
        if not line.strip():
            if entry:
                entries.append(entry)
            entry, field = {}, None
        elif line[0] == ' ' and field:
            entry[field] += ' ' + line.strip()
        else:
            field, _, text = line.partition(':')
            if field not in FIELDS or field in entry:
                sys.exit('%s:%d: no field %s here' % (path, number, field))
            entry[field] = text.strip()
    for entry in entries:
        lacking = [field for field in FIELDS if not entry.get(field)]
        if lacking:
            sys.exit('%s: %s lacks %s' % (path, entry.get('name', 'an entry'), ', '.join(lacking)))
        entry['example'] = stream_of([int(word, 16) for word in entry['example'].split()])
    names = [entry['name'] for entry in entries]
    if len(names) != len(set(names)):
        sys.exit('%s: a name stands twice' % path)
    return entries


def exceptions_of(path, driver):
    """The entries of one driver, such as MojoShader or wined3d, by their names; its version may stand behind its name."""
    return {entry['name']: entry for entry in read_exceptions(path) if entry['driver'].split()[0] == driver}


# ----------------------------------------------------------------------------------------------------------------------


def main(arguments):
    if len(arguments) == 4 and arguments[0] == 'assembled':
        files = sorted(pathlib.Path(arguments[3]).glob('*.bin'))
        write_batch(arguments[1], [file.read_bytes() for file in files])
        pathlib.Path(arguments[2]).write_text(''.join(file.name + '\n' for file in files))
    elif len(arguments) == 4 and arguments[0] == 'examples':
        entries = read_exceptions(arguments[3])
        write_batch(arguments[1], [entry['example'] for entry in entries])
        pathlib.Path(arguments[2]).write_text(''.join(entry['name'] + '\n' for entry in entries))
    elif len(arguments) == 3 and arguments[0] == 'show':
        print(written(read_batch(arguments[1])[int(arguments[2])], 1 << 20))
    else:
        sys.exit(__doc__.strip())


if __name__ == '__main__':
    main(sys.argv[1:])
