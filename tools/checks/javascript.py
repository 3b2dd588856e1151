"""Reads JavaScript as a linter does, by the compiler of TypeScript: no name is unknown, declared
twice or never read, no constant is assigned, no line is unreachable, and no case falls into the
next one. Debian's eslint, 6.4, reads no JavaScript from 2021 on. What the compiler says of types is
left out: the types of the package are in its `.d.ts`, which tools/gate/check_js.sh tries."""
import os
import re
import shutil
import subprocess

from tools import ROOT, counted

WORDS = ('--noEmit', '--allowJs', '--checkJs', '--skipLibCheck', '--target', 'es2022', '--module',
         'es2022', '--moduleResolution', 'node', '--noUnusedLocals', '--noUnusedParameters',
         '--noFallthroughCasesInSwitch', '--allowUnreachableCode', 'false')
# Forms that are no JavaScript, and what the first sentences name.
READ = re.compile(r'error TS(?:1\d\d\d|2304|2448|2451|2588|6133|6138|6192|6196|6198|7027|7029):')
GIVEN = {'Buffer', 'process'}            # names that Node gives


def findings(printed: str) -> list[str]:
    """The lines of the compiler that are read."""
    return [line for line in printed.splitlines()
            if READ.search(line) and not GIVEN.intersection(re.findall(r"'(\w+)'", line))]


def check(_: list[str]) -> bool | None:
    """Whether nothing is found, or None if there is no compiler."""
    if not shutil.which('tsc'):
        print('tsc is missing: tools/gate/install_packages.sh installs it if Node is there')
        return False if os.environ.get('CI') and shutil.which('node') else None
    files = sorted(file.relative_to(ROOT).as_posix()
                   for folder in ('bindings/js', 'bindings/js/tests')
                   for file in (ROOT / folder).glob('*.js') if file.name != 'wasm.js')
    run = subprocess.run(['tsc', *WORDS, *files], cwd=ROOT, capture_output=True, text=True)
    return counted([*((line, False) for line in findings(run.stdout)), *[('', True)] * len(files)])
