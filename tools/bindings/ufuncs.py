"""What numpy knows of the exports: the loops of ufuncs, and the table of the calls of columns."""
from tools.bindings.exports import EACH, EXPORTS, Call, c_type, filled
from tools.bindings.python import (
    CLASSES,
    LETTERS,
    TYPES,
    arguments,
    cells,
    divides,
    number_names,
    parameter_names,
    public_calls,
    results,
    shapes,
)

NUMPY = {
    'q': 'INT64',
    'Q': 'UINT64',
    'I': 'UINT32',
    'i': 'INT32',
    'H': 'UINT16',
    'B': 'UINT8',
    '?': 'BOOL',
}
COUNTED = '_counted'  # the end of the name of a ufunc that counts the failures alone
WHOLE = {'Fraction': 'Fraction', 'Date': 'Date', 'Decimal': 'Decimal'}


def takes_columns(forms: list[Call]) -> bool:
    """Whether a call takes columns: it has no list, or it divides a number by weights."""
    return not forms[0].has_slice or is_shared(forms[0])


def is_shared(call: Call) -> bool:
    """Whether a call writes a part of a number for each weight."""
    return [parameter.item for parameter in call.parameters if parameter.item][1:] != []


def taken(call: Call) -> str:
    """The letters of the numbers that a form takes."""
    return (
        f'{LETTERS[call.form]}Q'
        if is_shared(call)
        else ''.join(LETTERS[kind] for kind in cells(call))
    )


def returned(call: Call) -> str:
    """The letters of the numbers that a form returns, without the status."""
    return (
        LETTERS[call.form]
        if is_shared(call)
        else ''.join(LETTERS[kind] for _, kind in results(call))
    )


def of_each(call: Call) -> str:
    """What a loop does first, if there is a call of lists: of two, or of one and a number that is
    one for all."""
    each = EXPORTS().all_forms().get(call.name + EACH, [])
    return ''.join(
        filled(
            'by_both.c' if all(parameter.item for parameter in form.parameters) else 'by_one.c',
            type=TYPES[LETTERS[form.form]],
            symbol=form.symbol,
        )
        for form in each
        if form.form == call.form
    )


def loop(call: Call) -> str:
    """The loop of a form."""
    name = call.symbol.removeprefix('cellarcove_')
    if is_shared(call):
        return filled(
            'loop_shares.c', name=name, symbol=call.symbol, type=TYPES[LETTERS[call.form]]
        )
    first, found = len(cells(call)), results(call)
    last, has_status = first + len(found), EXPORTS().has_status(call)
    stores = [
        f'        AT({TYPES[LETTERS[kind]]}, {first + k}) = r{path};'
        for k, (path, kind) in enumerate(found)
    ]
    if has_status:
        stores += [
            f'        AT(uint8_t, {last}) = (uint8_t)r.status;',
            '        failed |= r.status;',
        ]
    given = arguments(call, lambda k, kind: f'AT(const {TYPES[LETTERS[kind]]}, {k})')
    return filled(
        'loop.c',
        opening=opening(last, has_status) + of_each(call),
        closing='    failures += failed != CELLARCOVE_ANSWER;' * has_status,
        name=name,
        type=c_type(call.result),
        symbol=call.symbol,
        taken=given,
        stores='\n'.join(stores),
    )


def opening(count: int, has_status: bool) -> str:
    """What a loop begins with: where so many numbers lie, and the statuses if there are any."""
    places = ' '.join(f'PLACE({k})' for k in range(count))
    return f'    {places}\n' + (
        f'    STATUSES({count})\n    uint32_t failed = CELLARCOVE_ANSWER;\n    npy_intp k = 0;'
        if has_status
        else '    npy_intp k = 0;\n    (void)data;'
    )


def types(name: str, forms: list[Call], has_status: bool) -> str:
    """The types of the loops of a ufunc, of which the status may be one."""
    letters = ''.join(taken(call) + returned(call) + 'B' * has_status for call in forms)
    listed = ', '.join(f'NPY_{NUMPY[letter]}' for letter in letters)
    return f'static const char types_{name}[] = {{{listed}}};\n'


def arrays(name: str, forms: list[Call]) -> str:
    """The loops of a call, and the types of its ufuncs."""
    has_status = EXPORTS().has_status(forms[0])
    loops = ', '.join(f'loop_{call.symbol.removeprefix("cellarcove_")}' for call in forms)
    return (
        f'static PyUFuncGenericFunction loops_{name}[] = {{{loops}}};\n'
        + types(name, forms, has_status)
        + types(f'{name}{COUNTED}', forms, False) * counts(forms)
    )


def counts(forms: list[Call]) -> bool:
    """Whether a call has a ufunc that returns no statuses, and counts the failures."""
    return EXPORTS().has_status(forms[0]) and not is_shared(forms[0])


def row(name: str, forms: list[Call]) -> str:
    """The rows of the ufuncs of a call."""
    has_status = EXPORTS().has_status(forms[0])
    signature = '"(),(n)->(n),()"' if is_shared(forms[0]) else 'NULL'
    given, made = len(taken(forms[0])), len(returned(forms[0]))
    rows = [(name, 'returns_statuses', made + has_status)]
    rows += [(f'{name}{COUNTED}', 'counts_failures', made)] * counts(forms)
    return ''.join(
        f'    {{"{ufunc}", {signature}, loops_{name}, {data}, types_{ufunc}, '
        f'{len(forms)}, {given}, {count}}},\n'
        for ufunc, data, count in rows
    )


def ufuncs_c() -> str:
    """The loops and the table of the ufuncs."""
    named = [(name, forms) for name, forms in public_calls() if takes_columns(forms)]
    return filled(
        'ufuncs.c',
        loops=''.join(loop(call) for _, forms in named for call in forms),
        arrays='\n'.join(arrays(*each) for each in named),
        rows=''.join(row(*each) for each in named),
    )


def shape(call: Call) -> str:
    """The letters of the parameters of a call."""
    if is_shared(call):
        return 'nl'
    return shapes(call)


def result(call: Call) -> str:
    """What several numbers of a result are."""
    named = {end: name for end, (_, name) in CLASSES.items()} | WHOLE
    return (
        next((name for end, name in named.items() if end in call.result), '')
        if not call.writes
        else ''
    )


def table() -> str:
    """The calls that take columns, for the package."""
    rows = ''
    for name, forms in public_calls():
        if takes_columns(forms):
            call = forms[0]
            values = (
                tuple(parameter_names(call)),
                shape(call),
                tuple((taken(form), returned(form)) for form in forms),
                result(call),
                EXPORTS().has_status(call),
                tuple(k for k, by in enumerate(divides(call)) if by),
                *([tuple(number_names(call))] * bool(number_names(call))),
            )
            rows += f'    {name!r}: Call{values!r},\n'
    return filled('_table.py', rows=rows)
