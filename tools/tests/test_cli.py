"""The command tools/cellarcove."""
import importlib

import pytest

import tools
from tools import cli

# That of `fuzz` imports the package for Python, as it is installed.
PARTS = [part for parts in cli.PARTS.values() for name, part in parts.items() if name != 'fuzz']


@pytest.mark.parametrize('part', PARTS)
def test_parts(part: cli.Part) -> None:
    if ' ' not in part.runs:
        name, function = part.runs.split(':')
        assert callable(getattr(importlib.import_module(name), function))


@pytest.mark.parametrize('words', [[], ['nothing'], ['check', 'nothing'], ['make', 'pages']])
def test_unknown(words: list[str]) -> None:
    assert cli.main(words) == 2


def test_help(capsys: pytest.CaptureFixture[str]) -> None:
    assert cli.main(['--help']) == 0
    said = capsys.readouterr().out
    assert all(part.does in said for part in PARTS)


@pytest.mark.parametrize('runs, status', [
    ('true x', 0), ('false x', 1), ('no-such-program x', tools.MISSING),
    ('python3 -m this_module_is_missing', tools.MISSING), ('python3 -m compileall -h', 0)])
def test_status(monkeypatch: pytest.MonkeyPatch, runs: str, status: int) -> None:
    monkeypatch.delenv('CI', raising=False)
    assert cli.run_part('check', cli.Part(runs, ''), []) == status
    monkeypatch.setenv('CI', 'true')        # where nothing may be missing
    assert cli.run_part('check', cli.Part(runs, ''), []) == min(status, 1)


@pytest.mark.parametrize('runs, status',
                         [(['true x'], 0), (['true x', 'no-such-program x'], tools.MISSING),
                          (['no-such-program x'], tools.MISSING),
                          (['false x', 'no-such-program x'], 1),
                          (['no-such-program x', 'false x', 'true x'], 1)])
def test_worst(monkeypatch: pytest.MonkeyPatch, runs: list[str], status: int) -> None:
    monkeypatch.delenv('CI', raising=False)
    parts = {str(place): cli.Part(words, '') for place, words in enumerate(runs)}
    monkeypatch.setattr(cli, 'PARTS', {'check': parts})
    assert cli.main(['check']) == status
