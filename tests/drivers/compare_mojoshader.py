#!/usr/bin/env python3
"""MojoShader's cutting against the proved reader's.

    compare_mojoshader.py EXCEPTIONS FOLDER BATCH...

FOLDER holds for each BATCH the streams (BATCH), what the program cutting printed of them (BATCH.cutting), and what the
program mojoshader did (BATCH.mojoshader). Prints a table for each batch, the first differences, and, last,
`N passed, M failed`.

What is compared, of every stream that is accepted here:
- whatever MojoShader says of it: the position and opcode of every instruction, the place where its walk ends, and of every
  operand the token, the register's type and number, and the same of what it is relative to, as MojoShader decoded them.
  Of PHASE, which is not in MojoShader's table of instructions: that it complains of no unknown token there;
- where it has no complaint, also its output: mnemonics, PHASE among them, the mark of co-issue, and the names of registers
  in order.
Types 11 to 13 are constants from 2,048 on, and MojoShader calls them so: c2048 is the same register either way.

A difference that no exception predicts fails; so does a predicted one that does not show (an exception that is gone), and
one that shows otherwise than predicted. One of the cutting or of operands also fails where MojoShader does not complain: it
makes no shader of other operands.

Of refused streams there are rows: what MojoShader says, and whether it cuts as the reader does up to the refusal. Nothing
of that is asserted, but that it takes no stream with a wrong size, and goes on to say something of the next stream.
"""
import collections
import itertools
import pathlib
import re
import sys

import cut

SHOWN = 20
DCL, DEFB, DEFI, DEF = 31, 47, 48, 81
# NOP, flow control and breaks
WITHOUT_DESTINATION = {0, 25, 26, 27, 28, 29, 30, 38, 39, 40, 41, 42, 43, 44, 45, 96, cut.PHASE}

# ---- What MojoShader says --------------------------------------------------------------------------------------------

# ending: ok, errors, crash or hang. instructions: of (at, opcode, operands). errors: of (position in bytes, text).
Answer = collections.namedtuple('Answer', 'ending number instructions end errors text')


def read_answers(path):
    answers, instructions, errors, text, end = [], [], [], [], None
    with open(path, encoding='ascii', errors='replace') as lines:
        for line in lines:
            tag, _, rest = line.rstrip('\n').partition(' ')
            words = rest.split()
            if tag == 'P':
                instructions.append((int(words[0]), int(words[1]), words[2:]))
            elif tag == 'Z':
                end = int(words[0])
            elif tag == 'E':
                errors.append((int(words[0]), ' '.join(words[1:])))
            elif tag == 'T':
                text.append(rest)
            else:
                answers.append(Answer(words[1], int(words[2]), instructions, end, errors, text))
                instructions, errors, text, end = [], [], [], None
    return answers


# ---- Operands --------------------------------------------------------------------------------------------------------


def as_one_constant(kind, number):
    return (2, number + 2048 * (kind - 10)) if kind in (11, 12, 13) else (kind, number)


def described(register):
    """A register of ours, in the notation of the program mojoshader."""
    word = '%s%d.%d.%d' % ('?' if register.is_predicate else '', register.token,
                           *as_one_constant(register.type, register.number))
    if register.relative:
        word += '+%d.%d.%d' % (register.relative.token, register.relative.type, register.relative.number)
    return word


def in_order(operands):
    """MojoShader's operands by their tokens; the program names the predicate last."""
    return sorted(operands, key=lambda word: int(word.lstrip('?').split('.')[0]))


def destination_of(instruction):
    return None if instruction.opcode in WITHOUT_DESTINATION else instruction.registers[0]


def sources_of(instruction):
    first = 0 if instruction.opcode in WITHOUT_DESTINATION else 1
    return [register for register in instruction.registers[first:] if not register.is_predicate]


def places_of(instructions):
    """Positions and opcodes, but for PHASE, which MojoShader's table of instructions does not have."""
    return [(instruction.at, instruction.opcode) for instruction in instructions if instruction.opcode != cut.PHASE]


# ---- Exceptions ------------------------------------------------------------------------------------------------------
# One function for each entry of the file of exceptions, by its name: whether it covers an instruction of an accepted
# stream. `as_predicted` says what operands MojoShader takes for those of a covered one.


def mojoshader_predicate_last(instruction):
    return bool(instruction.predicated) and bool(sources_of(instruction))


def mojoshader_relative_destination(instruction):
    destination = destination_of(instruction)
    return destination is not None and destination.relative is not None


def mojoshader_coissued_phase(instruction):
    return instruction.opcode == cut.PHASE and bool(instruction.coissue)


def mojoshader_coissued_definition(instruction):
    return instruction.opcode == DEF and bool(instruction.coissue)


def by_name(*functions):
    return {function.__name__: function for function in functions}


# of the cutting and of operands, whatever MojoShader says of the stream
IN_CUTTING = by_name(mojoshader_predicate_last, mojoshader_relative_destination, mojoshader_coissued_phase)
# of the output, which it has only for a stream that it takes
IN_OUTPUT = by_name(mojoshader_coissued_definition)


def source_at(tokens, at, mark=''):
    """What a source's token says, and the position behind it and its relative token."""
    def type_and_number(token):
        return token >> 28 & 7 | token >> 8 & 0x18, token & 0x7FF
    if at + 1 >= len(tokens):  # END stands behind every instruction that was read rightly
        return '%s%d is no operand' % (mark, at), at + 1
    word = '%s%d.%d.%d' % (mark, at, *as_one_constant(*type_and_number(tokens[at])))
    if not tokens[at] & 0x2000:
        return word, at + 1
    return word + '+%d.%d.%d' % (at + 1, *type_and_number(tokens[at + 1])), at + 2


def as_predicted(instruction, tokens, covering):
    """The operands as MojoShader takes them, by the exceptions that cover the instruction.

    It knows the bit of a relative destination and steps over no token for it, so that the relative token becomes the first
    source, and it looks for the predicate behind all sources, so that the predicate becomes a source too."""
    destination, words, at = destination_of(instruction), [], instruction.at + 1
    if destination is not None:
        at = destination.token + 1
        words = [described(destination._replace(relative=None))]
        if 'mojoshader_relative_destination' in covering:
            words[0] += '+?'
        elif destination.relative:
            words, at = [described(destination)], at + 1
    is_last = 'mojoshader_predicate_last' in covering
    marks = [''] * len(sources_of(instruction))
    if instruction.predicated:
        marks.insert(len(marks) if is_last else 0, '?')
    for mark in marks:
        word, at = source_at(tokens, at, mark)
        words.append(word)
    return words


# ---- MojoShader's output ---------------------------------------------------------------------------------------------

OPERAND = re.compile(r'(?:-|!|1-)?([A-Za-z]+[0-9]*)(?:_[a-z0-9]+)?(?:\[(a0|aL)[^\]]*\])?(?:\.[xyzwrgba]*)?$')
# such as (p0) or (!p0.x) behind the mnemonic
PREDICATE = re.compile(r'\(!?(p[0-9]+)[^)]*\) *')


def read_line(line):
    """The opcode of a line and the names of its registers, each with what it is relative to, a predicate first."""
    mnemonic, _, rest = line.strip().lstrip('+').partition(' ')
    predicate = PREDICATE.match(rest)
    names = [predicate.group(1)] if predicate else []
    rest = rest[predicate.end():] if predicate else rest
    words = [word.strip() for word in rest.split(',')] if rest else []
    opcode = cut.opcode_of(mnemonic, bool(words))
    if opcode in (DEF, DEFI, DEFB):
        words = words[:1]
    for word in words:
        match = OPERAND.match(word)
        names.append((match.group(1) + ('[%s]' % match.group(2) if match.group(2) else '')) if match else word)
    return opcode, names


def names_of(version, instruction):
    """The names of an instruction's registers as the output has them."""
    registers = sorted(instruction.registers, key=lambda register: not register.is_predicate)
    names = []
    for register in registers:
        name = cut.register_name(version, register.type, register.number)
        if register.relative:
            name += '[%s]' % cut.register_name(version, register.relative.type, register.relative.number)
        names.append(name)
    return names


# ---- One accepted stream ---------------------------------------------------------------------------------------------


class Comparison:
    """What has been compared so far, over all batches."""

    def __init__(self, exceptions):
        self.exceptions = exceptions
        self.met = collections.Counter()
        self.versions_met = collections.defaultdict(set)
        self.passed = self.failed = 0

    def judge(self, problem, where, stream=None):
        if problem is None:
            self.passed += 1
            return
        self.failed += 1
        if self.failed <= SHOWN:
            print('  FAILED %s: %s%s' % (where, problem, '\n    ' + cut.written(stream) if stream else ''))

    def meet(self, names, version):
        for name in names:
            self.met[name] += 1
            self.versions_met[name].add(version)

    def covering(self, instruction, functions=IN_CUTTING):
        return [name for name in self.exceptions if name in functions and functions[name](instruction)]

    def cut_difference(self, ours, answer, tokens):
        mine = places_of(ours.instructions)
        theirs = [(at, opcode) for at, opcode, _ in answer.instructions]
        for own, other in itertools.zip_longest(mine, theirs):
            if own != other:
                return 'cut differently, position and opcode: ours %s, MojoShader %s' % (own, other)
        if answer.end != len(tokens):
            return 'MojoShader ends at %s of %d tokens' % (answer.end, len(tokens))
        return None

    def phase_difference(self, version, instruction, answer):
        unknown = any(position == 4 * instruction.at and text.startswith('unknown token') for position, text in answer.errors)
        covering = self.covering(instruction)
        if unknown and not covering:
            return 'PHASE at %d is unknown' % instruction.at
        if covering and not unknown:
            return 'exception that is gone: %s, at %d' % (covering[0], instruction.at)
        self.meet(covering, version)
        return None

    def operand_difference(self, version, instruction, taken, tokens):
        covering = self.covering(instruction)
        mine = [described(register) for register in instruction.registers]
        expected = as_predicted(instruction, tokens, covering) if covering else mine
        found = in_order(taken)
        if covering and found == mine:
            return 'exception that is gone: %s, at %d' % (', '.join(covering), instruction.at)
        if found != expected:
            return 'operands at %d: expected %s, MojoShader %s' % (instruction.at, ' '.join(expected), ' '.join(found))
        self.meet(covering, version)
        return None

    def difference(self, ours, answer, tokens, version):
        """None, or what is not as it should be of an accepted stream."""
        if answer.ending not in ('ok', 'errors'):
            return 'MojoShader: ' + answer.ending
        problem = self.cut_difference(ours, answer, tokens)
        if problem:
            return problem
        taken = {at: operands for at, _, operands in answer.instructions}
        for instruction in ours.instructions:
            if instruction.opcode == cut.PHASE:
                problem = self.phase_difference(version, instruction, answer)
            else:
                problem = self.operand_difference(version, instruction, taken[instruction.at], tokens)
            if problem:
                return problem
            if answer.ending == 'ok' and self.covering(instruction):
                return 'exception without a complaint: %s, at %d' % (self.covering(instruction)[0], instruction.at)
        return self.output_difference(version, ours.instructions, answer.text) if answer.ending == 'ok' else None

    def line_difference(self, version, instruction, line):
        opcode, names = read_line(line)
        if opcode != instruction.opcode or names != names_of(version, instruction):
            return 'output `%s` for opcode %d %s' % (line, instruction.opcode, ' '.join(names_of(version, instruction)))
        covering, is_marked = self.covering(instruction, IN_OUTPUT), line.startswith('+')
        if covering and is_marked:
            return 'exception that is gone: %s, output `%s`' % (covering[0], line)
        if is_marked != bool(instruction.coissue) and not covering:
            return 'output `%s` for co-issue %d' % (line, instruction.coissue)
        self.meet(covering, version)
        return None

    def output_difference(self, version, instructions, text):
        """None, or the first line of the output that is not what the reader read."""
        if not text or text[0] != version or text[-1] != 'end':
            return 'the output does not begin with the version and end with end'
        lines = text[1:-1]
        for instruction, line in zip(instructions, lines):
            problem = self.line_difference(version, instruction, line)
            if problem:
                return problem
        if len(lines) != len(instructions):
            return '%d lines for %d instructions' % (len(lines), len(instructions))
        return None

    def names_met(self, ours, answer):
        functions = {**IN_CUTTING, **IN_OUTPUT} if answer.ending == 'ok' else IN_CUTTING
        return sorted({name for instruction in ours.instructions for name in self.covering(instruction, functions)})


# ---- Rows ------------------------------------------------------------------------------------------------------------


def refused_row(ours, answer):
    """Whether MojoShader cut the stream as the reader did before it refused."""
    if ours.number in (1, 2):
        return '-'
    mine, beyond = places_of(ours.instructions), places_of(ours.beyond)
    theirs = [(at, opcode) for at, opcode, _ in answer.instructions]
    if theirs[:len(mine)] != mine:
        return 'cut elsewhere'
    if ours.whole and theirs == mine + beyond:
        return 'cut as the reader would go on'
    return 'cut the same up to our refusal'


def compare_batch(comparison, folder, batch):
    streams = cut.read_batch(folder / batch)
    cuts = cut.read_cutting(folder / (batch + '.cutting'))
    answers = read_answers(folder / (batch + '.mojoshader'))
    comparison.judge(None if len(streams) == len(cuts) == len(answers) else 'streams are lacking', batch)
    rows = collections.Counter()
    for index, (stream, ours, answer) in enumerate(zip(streams, cuts, answers)):
        where = '%s %d' % (batch, index)
        if ours.number:
            row = ('refused %2d %s' % (ours.number, cut.NUMBERS[ours.number]), answer.ending, refused_row(ours, answer))
            if batch == 'sizes':
                comparison.judge('MojoShader takes a wrong size' if answer.ending == 'ok' else None, where, stream)
        else:
            problem = comparison.difference(ours, answer, cut.tokens_of(stream), cut.version_of(stream))
            names = comparison.names_met(ours, answer)
            how = 'DIFFERENT' if problem else \
                'cut the same, operands the same' + (' but for ' + ', '.join(names) if names else '')
            row = ('accepted', answer.ending, how)
            comparison.judge(problem, where, stream)
        rows[row] += 1
    print('%s, %d streams' % (batch, len(streams)))
    for row in sorted(rows):
        print('%8d  %s | %s | %s' % (rows[row], *row))


def compare_examples(comparison, folder):
    """Each exception's example is accepted, and the exception and no other covers it."""
    names = (folder / 'examples.names').read_text().split()
    cuts = cut.read_cutting(folder / 'examples.cutting')
    for name, ours, answer in zip(names, cuts, read_answers(folder / 'examples.mojoshader')):
        if name in comparison.exceptions:
            right = ours.number == 0 and comparison.names_met(ours, answer) == [name]
            comparison.judge(None if right else 'is no example of it', name)


def main(arguments):
    if len(arguments) < 3:
        sys.exit(__doc__.strip())
    comparison = Comparison(cut.exceptions_of(arguments[0], 'MojoShader'))
    for name in sorted(set(comparison.exceptions) ^ {*IN_CUTTING, *IN_OUTPUT}):
        comparison.judge('it is in the file of exceptions or here, not in both', name)
    folder = pathlib.Path(arguments[1])
    for batch in arguments[2:]:
        compare_batch(comparison, folder, batch)
    compare_examples(comparison, folder)
    for name in comparison.exceptions:
        print('%8d  instructions as %s has it' % (comparison.met[name], name))
        others = comparison.versions_met[name] - set(comparison.exceptions[name]['versions'].split())
        comparison.judge('exception that is gone: it was never met' if not comparison.met[name] else
                         'met in ' + ', '.join(sorted(others)) if others else None, name)
    print('%d passed, %d failed' % (comparison.passed, comparison.failed))
    sys.exit(1 if comparison.failed else 0)


if __name__ == '__main__':
    main(sys.argv[1:])
