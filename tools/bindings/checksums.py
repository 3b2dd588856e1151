"""Prints a program in C that calls each export many times, and prints a line for each: how many of
the calls have a result, and a checksum of all that they return. Two archives whose lines are the
same return the same. The program fails if a call returns a status that its comment does not name,
or a rejection whose other fields are not 0."""
from tools.bindings.exports import EXPORTS, Call, c_parameters, c_type, filled


def arguments(parameters: list[str]) -> tuple[list[str], list[str]]:
    """The lines that draw the arguments of a call, and their names. Each has a line, for C leaves
    their order open."""
    lines, names, lengths = list[str](), list[str](), list[str]()
    for number, parameter in enumerate(parameters):
        kind, name = parameter.rsplit(' ', 1)
        if '*' in parameter:
            kind = kind.removeprefix('const ').removesuffix(' *CELLARCOVE_RESTRICT')
            lines += [f'{kind} counts{number}[{"BYTES" if kind == "char" else "COUNTS"}] = {{0}};',
                      f'size_t length{number} = fill_{kind}(counts{number});']
            # most lists have one length
            lines += [f'if (random_bits() % 8 > 0) length{number} = {length};'
                      for length in lengths]
            names += [f'counts{number}', f'length{number}']
            lengths.append(f'length{number}')
        elif kind != 'size_t':
            lines.append(f'{kind} x{number} = any_{kind}();')
            names.append(f'x{number}')
    return lines, names


def function(call: Call) -> str:
    """The function that calls an export."""
    lines, names = arguments(list(c_parameters(call)))
    numbers = {status.name: status.number for status in EXPORTS().statuses}
    allowed = {0, *(numbers[sentence.split('`')[1]] for sentence in call.statuses)}
    looked = f'look("{call.symbol}", %s, {sum(1 << status for status in allowed)}u, %s);'
    body = ['start_call();', *lines,
            f'{c_type(call.result)} result = {call.symbol}({", ".join(names)});']
    if call.writes:
        body += [looked % ('result', 'true'), 'add(result);',
                 f'for (size_t i = 0; i < {names[-1]}; i++) add((uint64_t){names[-2]}[i]);']
    elif EXPORTS().has_status(call):
        paths = [path for path, _ in EXPORTS().leaves(call.result)]
        body += [looked % ('result.status', ' && '.join(f'result{path} == 0' for path in paths)),
                 'add(result.status);']
        body += [f'add((uint64_t)result{path});' for path in paths]
    else:
        body += (['results++;']
                 + [f'add((uint64_t)result{path});' for path, _ in EXPORTS().leaves(call.result)])
    return filled('sum.c', symbol=call.symbol, body='\n'.join(f'        {line}' for line in body))


def make(_: list[str]) -> bool:
    # Those that JavaScript lacks are last, so that the others have its seeds.
    calls = sorted(EXPORTS().calls, key=lambda call: call.is_each)
    runs = ''.join(f'    sum_{call.symbol}({seed});\n' for seed, call in enumerate(calls, 1))
    print(filled('checksums.c', calls=''.join(map(function, calls)), runs=runs), end='')
    return True
