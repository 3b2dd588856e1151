"""Tries many mutants of a crate in one check. Each changes the body of one function, and no two
of a check change the same one. A function's callers are proved from its contract, so what the
check says of the goals of a function holds for its mutant alone.

A mutant is rejected if the check says that `search` did not prove a goal of the function, or has
an error in a file of its proof that does not only miss a name. Prints a line for each such mutant,
in the words of `rt must-fail`, and nothing of the others.

usage: python3 -m tools.gate.together CRATE EDIT.. (CRATE is the folder of a copy, which it changes)
"""
import re
import subprocess
import sys
from pathlib import Path
from typing import NamedTuple

from tools.checks.edits import BadEdit, apply

HEAD = re.compile(r'( *)(?:pub(?:\([^)]*\))? )?(?:const |final |extern "C" )*fn (\w+)')
OWNER = re.compile(r'(?:pub(?:\([^)]*\))? )?(impl|trait)\b(.*)')
# A proof that names what is gone, or that cites one that is not admitted, says nothing of a goal,
# and neither does a limit.
SILENT = re.compile('has no field|is not in scope|has no `|was not admitted|ran out of|outgrew the '
                    'memory limit|stopped at the step limit')
UNPROVED = re.compile(r'fn (\S+): no proof: expected answers in \S+; `search` did not prove `')
CONSTANT = re.compile(r'^ *(?:pub(?:\([^)]*\))? )?(?:const|static) \w+: .*?;$', re.M | re.S)
ERROR = re.compile(r'(?:\./)?proofs/(\S+)/\w+\.antt:\d+:\d+: error: (?:`[^`]*`: )?(.*)')


class Mutant(NamedTuple):
    """A mutant: the end of the name that `rt` has for its function, the file, and the lines by
    numbers. A method's name has the module of its type, which may be another, so it is left out."""
    edit: Path
    function: str
    file: str
    lines: dict[int, str]


def without_brackets(text: str) -> str:
    """The text without what is between `<` and `>`."""
    shorter = re.sub(r'<[^<>]*>', '', text.replace('->', ''))
    return text if shorter == text else without_brackets(shorter)


def owner(head: str) -> str:
    """The name of an impl, as `rt` makes it of its type and its trait."""
    of_type = re.search(r'<(\w\w+)> for ', head)
    head = re.split(r'\{|\bwhere\b|\brequires\b', without_brackets(head))[0]
    first, second = (re.findall(r'\w+', part)[-1:] for part in head.partition(' for ')[::2])
    kind, last = ''.join(second), of_type[1] if of_type else ''
    names = ['Any' if len(kind) == 1 else kind, *first, last]
    return ''.join(name[:1].upper() + name[1:] for name in names)


def function_at(lines: list[str], number: int) -> str | None:
    """The function whose body has the line, by its name below its module, or None."""
    start = next((at for at in range(number - 1, -1, -1) if HEAD.match(lines[at])), None)
    match = HEAD.match(lines[start]) if start is not None else None
    if start is None or not match:
        return None
    opened = match[1] + '{' in lines[start:number] or lines[start].endswith(' {')
    if not opened or match[1] + '}' in lines[start:number]:
        return None
    if not match[1]:
        return match[2]
    around = next((at for at in range(start, -1, -1) if OWNER.match(lines[at])), start)
    found = OWNER.match(lines[around])
    if not found or '}' in lines[around:start]:
        return None
    name = re.findall(r'\w+', found[2])[0] if found[1] == 'trait' else owner(found[2])
    return f'{name}::{match[2]}'


def read(crate: Path, edit: Path) -> Mutant | None:
    """The mutant, or None if it changes more than one body, or one that makes a constant."""
    try:
        texts = apply(crate, edit)[1]
    except BadEdit:
        return None
    (file, text), *others = texts.items()
    old, new = (crate / file).read_text().split('\n'), text.split('\n')
    if others or not file.startswith('src/') or len(old) != len(new):
        return None
    lines = {at: line for at, line in enumerate(new) if line != old[at]}
    found = {function_at(old, at) for at in lines}
    function = found.pop()
    if found or function is None:
        return None
    constants = ' '.join(constant for path in crate.glob('src/**/*.rt')
                         for constant in CONSTANT.findall(path.read_text()))
    if re.search(rf'\b{function.split(":")[-1]}\(', constants):
        return None
    module = [part for part in Path(file).with_suffix('').parts[1:] if part != 'mod']
    parts = [crate.name, *([] if module in (['lib'], ['main']) else module), function]
    return Mutant(edit, function if '::' in function else '::'.join(parts), file, lines)


def rounds(mutants: list[Mutant]) -> list[list[Mutant]]:
    """The mutants, in lists that have each function once."""
    found = list[dict[str, Mutant]]()
    for mutant in mutants:
        free = [each for each in found if mutant.function not in each]
        found += [] if free else [{}]
        (free or found[-1:])[0][mutant.function] = mutant
    return [[*each.values()] for each in found]


def own_faults(said: str, crate: str, functions: set[str]) -> dict[str, str]:
    """The first line that says of a goal of a function that it is not proved, by the functions."""
    found = dict[str, str]()
    for line in said.splitlines():
        error, unproved = ERROR.match(line), UNPROVED.match(line)
        name = unproved[1] if unproved else ''
        if error and not SILENT.search(error[2]):
            name = f'{crate}/{error[1]}'.replace('/', '::')
        found = {each: line for each in functions if f'::{name}'.endswith(f'::{each}')} | found
    return found


def check(crate: Path, mutants: list[Mutant]) -> dict[str, str]:
    """The faults that a check of the crate with these mutants finds in their functions."""
    texts = {mutant.file: (crate / mutant.file).read_text() for mutant in mutants}
    changed = {file: text.split('\n') for file, text in texts.items()}
    for mutant in mutants:
        for at, line in mutant.lines.items():
            changed[mutant.file][at] = line
    for file, lines in changed.items():
        (crate / file).unlink()  # It may be a link.
        (crate / file).write_text('\n'.join(lines))
    only = [word for mutant in mutants for word in ('--only', mutant.function)]
    ran = subprocess.run(['rt', 'check', '--jobs', '1', *only], cwd=crate, text=True,
                         stdout=subprocess.PIPE, stderr=subprocess.STDOUT, check=False)
    for file, text in texts.items():
        (crate / file).write_text(text)
    if re.search(r'^only=\d+ proved=\d+$', ran.stdout, re.M):
        return own_faults(ran.stdout, crate.name, {mutant.function for mutant in mutants})
    # A name that is not the prover's hides the others, and so does one that does not compile.
    named = [each for each in mutants if f'no function `{each.function}`' not in ran.stdout]
    half = len(named) // 2 if len(named) == len(mutants) else 0
    parts = [named[:half], named[half:]] if len(mutants) > 1 else []
    return {name: fault for part in parts if part for name, fault in check(crate, part).items()}


def main(crate: Path, edits: list[Path]) -> None:
    crate = crate.resolve()
    for each in rounds([mutant for edit in edits if (mutant := read(crate, edit))]):
        faults = check(crate, each)
        for mutant in each:
            if fault := faults.get(mutant.function):
                name = f'{crate.name}/{mutant.edit.name}'
                print(f'must-fail {name}: refused, as it must be: {fault[:160]}', flush=True)


if __name__ == '__main__':
    main(Path(sys.argv[1]), [Path(edit) for edit in sys.argv[2:]])
