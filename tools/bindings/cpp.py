"""What C++ knows of the exports: a header of templates over that for C."""
import itertools
import textwrap

from tools.bindings.exports import EXPORTS, TEXT, Call, Field, filled, listed, without_returns

WIDTH = 118
PLAIN, RESULTS, FROM_C = (listed('cpp.txt', sign) for sign in (' = ', ': ', ' -> '))
CLASSES = ('Fraction', 'Date')
# what the header computes in constant expressions
CONSTANT = {'div_rem', 'div_floor', 'div_mod_floor', 'mod_floor', 'div_ceil'}


def of(call: Call) -> tuple[str, str]:
    """The result of a form: its type, and the expression that makes it of `r`."""
    if call.writes:
        return 'status', ''
    if not EXPORTS().has_status(call):
        # a `std::uint8_t` prints as a character
        plain = 'int' if call.result == 'u8' else PLAIN[call.result]
        return plain, FROM_C.get(call.result, 'r')
    value = RESULTS[call.result]
    fields = [path.removeprefix('.') for path, _ in EXPORTS().leaves(call.result)]
    made = (FROM_C.get(call.result)
            or (f'{value}{{{", ".join(f"r.{field}" for field in fields)}}}' if '<' in value
                or value in ('bezout', 'week_of_year') else f'r.{fields[0]}'))
    return (f'result<{value}>', f'r.status == CELLARCOVE_ANSWER ? result<{value}>({made}) : '
            f'result<{value}>(static_cast<status>(r.status))')


def lines_of(text: str, mark: str) -> str:
    """A comment, each line after its mark."""
    lines = textwrap.wrap(text.replace('`', ''), WIDTH - len(mark) - 1, break_long_words=False,
                          break_on_hyphens=False)
    return ''.join(f'{mark} {line}\n' for line in lines)


def comment(call: Call) -> str:
    statuses = (sentence.split('`', 2) for sentence in call.statuses)
    return lines_of(' '.join([without_returns(call.doc),
                              *(f'status::{name.lower()}{rest}' for _, name, rest in statuses)]),
                    '///')


def named(parameter: Field) -> str:
    """The name of a parameter, which is not that of a class."""
    return 'of' if parameter.name == 'date' else parameter.name


def taken(call: Call, parameter: Field) -> str:
    """A parameter that is no template: a class, a slice, or a number, which a call without a
    status takes only of an exact type."""
    number = 'checked' if EXPORTS().has_status(call) else 'exact'
    if parameter.item == TEXT:
        return f'std::string_view {parameter.name}'
    if parameter.item:
        constant = '' if parameter.is_written else 'const '
        return (f'{constant}{PLAIN[parameter.item]} *{parameter.name}, '
                f'detail::{number}<std::size_t> {parameter.name}_length')
    if parameter.kind in CLASSES:
        return f'const {PLAIN[parameter.kind]} &{named(parameter)}'
    return f'detail::{number}<{PLAIN[parameter.kind]}> {named(parameter)}'


def given(parameter: Field) -> str:
    """What the call for C gets of a parameter."""
    if parameter.item == TEXT:
        return f'{parameter.name}.data(), {parameter.name}.size()'
    if parameter.item:
        return f'{parameter.name}, {parameter.name}_length.value'
    return f'{named(parameter)}.{"to_c()" if parameter.kind in CLASSES else "value"}'


def refusal(call: Call, parameters: list[Field]) -> list[str]:
    """The statement that refuses a number out of the range of its parameter. The call for C itself
    refuses the largest `u8`."""
    numbers = [f'{p.name}_length' if p.item else named(p) for p in parameters
               if p.kind not in (*CLASSES, 'u8') and p.item != TEXT]
    if not numbers or not EXPORTS().has_status(call):
        return []
    returned = 'error' if call.writes else f'{of(call)[0]}(error)'
    return [f'if (auto error = detail::error_of({", ".join(numbers)}); error != status::answer) {{',
            f'    return {returned};', '}']


def plain_function(call: Call) -> str:
    """A function of one form."""
    parameters = ', '.join(taken(call, parameter) for parameter in call.parameters)
    called = f'{call.symbol}({", ".join(map(given, call.parameters))})'
    last = ([f'return static_cast<status>({called});'] if call.writes
            else [f'auto r = {called};', f'return {of(call)[1]};'])
    body = '\n    '.join(refusal(call, call.parameters) + last)
    return (f'{comment(call)}[[nodiscard]] inline {of(call)[0]} {call.name}({parameters}) {{\n'
            f'    {body}\n}}\n')


def slice_functions(forms: list[Call]) -> str:
    """The functions of a call with a slice, one for each form, and one for a container."""
    call = forms[0]
    text = ''.join(plain_function(form) + '\n' for form in forms)
    if any(p.item == TEXT for p in call.parameters):
        return text.removesuffix('\n')
    parameters, types = list[str](), list[str]()
    for k, (p, q) in enumerate(zip(call.parameters, forms[-1].parameters)):
        own = f'Items{k}' if p.item else f'N{k}' if p.kind != q.kind else ''
        types += [own] if own else []
        of_list = f'{own} &&{p.name}' if p.is_written else f'const {own} &{p.name}'
        parameters.append(of_list if p.item else f'{own} {p.name}' if own else taken(call, p))
    kinds = {p.name: list(dict.fromkeys(PLAIN[form.parameters[k].item] for form in forms))
             for k, p in enumerate(call.parameters) if p.item}
    passed = [f'detail::items<{", ".join(kinds[p.name])}>({p.name}), std::size({p.name})' if p.item
              else p.name for p in call.parameters]
    asserts = [f'static_assert(detail::has_items<decltype({name}), {", ".join(of_items)}>, "the '
               f'items of {name} have to be {" or ".join(of_items)}");'
               for name, of_items in kinds.items()]
    asserts += [f'static_assert(detail::outlives_call<Items{k}>, "{p.name} ends with the call: '
                'pass a variable, or a view of one");' for k, p in enumerate(call.parameters)
                if p.is_written]
    items = ' or '.join(f'`{kind}`' for kind in dict.fromkeys(itertools.chain(*kinds.values())))
    return text + filled('container.hpp', items=items,
                         types=', '.join(f'class {kind}' for kind in types), name=call.name,
                         parameters=', '.join(parameters), asserts='\n    '.join(asserts),
                         passed=', '.join(passed))


def template(signed: Call, unsigned: Call) -> str:
    """A function of both forms."""
    follows = [a.kind != b.kind for a, b in zip(signed.parameters, unsigned.parameters)]
    types = [f'N{k}' for k, follow in enumerate(follows) if follow]
    parameters = ', '.join(f'N{k} {p.name}' if follow else taken(signed, p)
                           for k, (p, follow) in enumerate(zip(signed.parameters, follows)))
    others = [p for p, follow in zip(signed.parameters, follows) if not follow]

    def statements(call: Call) -> str:
        arguments = ', '.join(f'static_cast<{PLAIN[p.kind]}>({p.name})' if follow else given(p)
                              for p, follow in zip(call.parameters, follows))
        computed = ([f'if (CELLARCOVE_IS_CONSTANT) {{ return '
                     f'detail::constant::{call.name}({arguments}); }}'] if call.name in CONSTANT
                    else [])
        return '\n        '.join([*computed, *refusal(call, others),
                                  f'auto r = {call.symbol}({arguments});',
                                  f'return {of(call)[1]};'])
    return filled('both_forms.hpp', comment=comment(signed),
                  constant='CELLARCOVE_CONSTEXPR ' * (signed.name in CONSTANT),
                  types=', '.join(f'class {kind}' for kind in types), name=signed.name,
                  parameters=parameters, uses=f'detail::is_signed<{", ".join(types)}>()',
                  signed=statements(signed), unsigned=statements(unsigned))


def hpp() -> str:
    """The header for C++."""
    found = EXPORTS()
    statuses = ''.join(f'    {status.name.lower()} = {status.number},\n'
                       for status in found.statuses)
    text = module = ''
    for name, forms in found.all_forms().items():
        if forms[0].module != module:
            module = forms[0].module
            text += lines_of('---- ' + found.headings[module].rstrip('.'), '//') + '\n'
        if name == 'fraction_new':
            continue  # it is `fraction::make`
        text += slice_functions(forms) if forms[0].has_slice else template(*forms) if len(
            forms) == 2 else plain_function(forms[0])
        text += '\n'
    return filled('cellarcove.hpp', statuses=statuses, calls=text)
