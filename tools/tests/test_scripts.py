"""The scripts that build and check without Rattle use what bash 3.2 and the tools of BSD have."""
import re
from collections.abc import Iterator

import pytest

from tools import ROOT

SCRIPTS = ('tools/gate/check_without_rt.sh', 'tools/gate/lib.sh', 'tools/gate/check_js.sh',
           'bindings/build', 'bindings/cargo', 'bindings/install', 'bindings/js/build')
# What is of bash 4 or later, or of GNU alone.
UNKNOWN = re.compile(
    r'\bsed -i|\bsed .*[&|]\\n|\bsed .*/[ai] |\bstat -c|\brealpath\b|\breadlink -f|\bcp -P\b'
    r'|-print -quit|\bgrep -\w*P|\bdate -d|\bmapfile\b|\breadarray\b|\bdeclare -A|\blocal -n'
    r'|\$\{\w+(?:,,|\^\^)|&>>|\|&|\bwait -n|\bcoproc\b|\[\[ -v ')
# Before bash 4.4 an empty array is unbound, unless it is written so.
ARRAY = re.compile(r'(?:\$\{(\w+)\[@\]\+)?"\$\{(\w+)\[@\]\}"')
FILLED = {'compiler', 'plain_sources', 'proved_sources', 'sources'}     # arrays that aren't empty


def slips(text: str) -> Iterator[str]:
    """What a script uses that is unknown elsewhere."""
    for line in text.split('\n'):
        yield from UNKNOWN.findall(line)
        yield from (found[0] for found in ARRAY.finditer(line)
                    if found[1] != found[2] and found[2] not in FILLED)


@pytest.mark.parametrize('name', SCRIPTS)
def test_portable(name: str) -> None:
    assert not list(slips((ROOT / name).read_text()))


@pytest.mark.parametrize('line', [
    'sed -i s/a/b/ file', "sed 's|a|&\\nb|' file", "sed '/a/a b' file", 'x=$(stat -c %s file)',
    'x=$(realpath -m a)', 'mapfile -t names <file', 'cargo test "${words[@]}"', 'cp -P a b',
    '[ -z "$(find a -newer b -print -quit)" ]', '${words[@]+"${flags[@]}"}', 'echo "${x,,}"'])
def test_not_portable(line: str) -> None:
    assert len(list(slips(line))) == 1


@pytest.mark.parametrize('line', [
    'cargo test ${words[@]+"${words[@]}"}', '"${compiler[@]}" -c x.c', "sed -n 's/^a$/b/p' file",
    '[ ${#words[@]} -gt 0 ]', 'a || b && c', 'wc -c <file'])
def test_portable_lines(line: str) -> None:
    assert not list(slips(line))
