"""What C knows of the exports: the header."""
import itertools
import re
import textwrap

from tools.bindings.exports import (EXPORTS, TEXT, VERSION, Call, Field, Struct, c_parameters,
                                    c_type, filled, without_returns)

WIDTH = 118


def comment(text: str, indent: str = '', width: int = WIDTH) -> str:
    """A comment for documentation."""
    lines = textwrap.wrap(text, width - len(indent) - 7, break_long_words=False,
                          break_on_hyphens=False)
    return f'{indent}/** ' + f'\n{indent} *  '.join(lines) + ' */\n'


def in_c(text: str) -> str:
    """A comment of the sources for readers of C."""
    return re.sub(r'`([A-Z_]+)`', r'CELLARCOVE_\1', without_returns(text)).replace('`', '')


def of_items(parameter: Field) -> str:
    """What a list or a text has, for readers of C."""
    if parameter.item == TEXT:
        return 'bytes'
    return 'aligned congruences' if parameter.item in EXPORTS().structs else 'aligned numbers'


def prototype(call: Call) -> str:
    """The declaration of a call, with a comment on its pointers and its statuses."""
    attribute = ('CELLARCOVE_WRITES' if call.writes else 'CELLARCOVE_PURE' if call.has_slice
                 else 'CELLARCOVE_CONST')
    text = f'{attribute} {c_type(call.result)} {call.symbol}({", ".join(c_parameters(call))});'
    if len(text) > WIDTH:
        # a type and its name stay on one line
        words = re.sub(r' (?=\*?\w+[,)])', '\N{NO-BREAK SPACE}',
                       text.replace(' *CELLARCOVE_RESTRICT ',
                                    '\N{NO-BREAK SPACE}*CELLARCOVE_RESTRICT\N{NO-BREAK SPACE}'))
        text = '\n    '.join(line.replace('\N{NO-BREAK SPACE}', ' ')
                             for line in textwrap.wrap(words, WIDTH - 4))
    slices = ''.join(f' {p.name} points to {p.name}_len {of_items(p)}, which'
                     f' {"nothing else reads or writes" if p.is_written else "do not change"} '
                     'during the call; it may be null if' f' {p.name}_len is 0.'
                     for p in call.parameters if p.item)
    always = ' The status is always CELLARCOVE_ANSWER.' * (EXPORTS().has_status(call)
                                                           and not call.statuses)
    return (comment(' '.join([in_c(call.doc) + slices, *map(in_c, call.statuses)]) + always) + text
            + '\n')


def in_order_of_need(structs: dict[str, Struct]) -> list[Struct]:
    """The structs, each after those of its fields."""
    def needed(name: str) -> list[str]:
        return [*itertools.chain.from_iterable(needed(field.kind) for field in structs[name].fields
                                               if field.kind in structs), name]
    first = sorted(structs, key=lambda name: name not in ('I64Answer', 'U64Answer'))
    return [structs[name]
            for name in dict.fromkeys(itertools.chain.from_iterable(map(needed, first)))]


def header() -> str:
    """The header for C."""
    found = EXPORTS()
    statuses = ''.join(f'    /** {in_c(status.doc)} */\n    CELLARCOVE_{status.name} = '
                       f'{status.number}{"," if status != found.statuses[-1] else ""}\n'
                       for status in found.statuses)
    texts = ''.join(f'    case CELLARCOVE_{status.name}: return "{status.reason}";\n'
                    for status in found.statuses)
    text = module = ''
    for struct in in_order_of_need(found.structs):
        inner = ''.join(f'    {c_type(field.kind)} {field.name};\n' for field in struct.fields)
        text += (
            f'{comment(in_c(struct.doc))}typedef struct {{\n{inner}}} {c_type(struct.name)};\n\n')
    for call in found.calls:
        if call.module != module:
            module = call.module
            text += '/* ---- ' + '\n * '.join(
                textwrap.wrap(in_c(found.headings[module]).rstrip('.'),
                              WIDTH - 14)) + ' ---- */\n\n'
        text += prototype(call) + '\n'
    major, minor, patch = VERSION.split('.')
    return filled('cellarcove.h', version=VERSION, major=major, minor=minor, patch=patch,
                  statuses=statuses, texts=texts, calls=text)
