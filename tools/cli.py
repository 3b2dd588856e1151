"""Makes the files that are made, and checks the repository.

    tools/cellarcove make [PART [WORD..]]
    tools/cellarcove check [PART [WORD..]]

Without a PART it runs those that need no WORD, one after the other, but for the slow ones.
`--help` after a PART says more of it. The status is 1 if something fails, 2 if a form is not
known, and 3 if nothing fails and a program is missing."""
import glob
import importlib
import sys
import tomllib
from typing import NamedTuple

from tools import MISSING, ROOT, as_made, run, write
from tools.erase.source import Unknown


class Part(NamedTuple):
    """A part, as tools/parts.toml has it."""
    runs: str
    does: str
    named: bool = False


PARTS = {verb: {name: Part(**row) for name, row in rows.items()}
         for verb, rows in tomllib.loads((ROOT / 'tools/parts.toml').read_text()).items()}


def run_part(verb: str, part: Part, words: list[str]) -> int:
    """The status of a part."""
    if ' ' in part.runs:
        command = [file for word in part.runs.split()
                   for file in (sorted(glob.glob(word, root_dir=ROOT)) if '*' in word else [word])]
        return run(*command, *words)
    name, function = part.runs.split(':')
    module = importlib.import_module(name)
    if words == ['--help']:
        print(part.does, module.__doc__, sep='\n\n')
        return 0
    try:
        if function == 'made':
            return 0 if (write if verb == 'make' else as_made)(ROOT, module.made()) else 1
        passed = getattr(module, function)(words)
        return MISSING if passed is None else 0 if passed else 1
    except Unknown as form:
        print(form, file=sys.stderr)
        return 2


def main(words: list[str]) -> int:
    """Runs what the words name, and returns the status."""
    verb, name, rest = (words + ['', ''])[0], (words + ['', ''])[1], words[2:]
    if verb not in PARTS or name and name not in PARTS[verb]:
        print(__doc__)
        for verb, parts in PARTS.items():
            print('', f'    {verb}',
                  *(f'        {name:<12}{part.does}{" *" * part.named}'
                    for name, part in parts.items()), sep='\n')
        print('\nThose with a star run only if they are named.')
        return 0 if words == ['--help'] else 2
    found = set[int]()
    for each, part in PARTS[verb].items():
        if each == name or not (part.named or name):
            if verb == 'check' or not name:
                print(verb, each, flush=True)
            found.add(run_part(verb, part, rest))
    return max(found - {MISSING}, default=0) or max(found, default=0)
