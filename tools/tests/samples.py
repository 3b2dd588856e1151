"""Samples: libraries of which some files have a text, what the scripts make of them, and the lists
of golden/."""
import re
import subprocess
import tempfile
from collections.abc import Mapping
from pathlib import Path

from tools import write
from tools.erase.library import CRATES, RustLibrary
from tools.erase.crate import Eraser
from tools.erase.exports import CRATE, Exports

GOLDEN = Path(__file__).resolve().parent / 'golden'


def cases(name: str) -> list[tuple[str, str]]:
    """The heads of a list of golden/, each with the text that stands below it, indented by four."""
    blocks = re.split(r'\n+(?=\S)', (GOLDEN / f'{name}.txt').read_text())
    parts = (block.partition('\n') for block in blocks if not block.startswith('#'))
    return [(head, re.sub('^    ', '', text, flags=re.M).rstrip('\n') + '\n')
            for head, _, text in parts]


def change(file: Path, slip: str) -> None:
    """Puts a new text in the place of an old one: the two stand above and below a line."""
    text, (old, _, new) = file.read_text(), slip.partition('\n----\n')
    assert old in text
    file.write_text(text.replace(old, new.rstrip('\n'), 1))


def erased(crate: str, texts: Mapping[str, str]) -> str:
    """What is made of a crate of a library. The texts are those of files, or of the roots of
    crates."""
    with tempfile.TemporaryDirectory() as folder:
        crates = Path(folder) / 'crates'
        write(crates,
              {name if '/' in name else f'{name}/src/lib.rt': texts.get(name, '')
               for name in {*CRATES, *texts}})
        library = RustLibrary(crates)
        if CRATE in texts:
            library.read(CRATE, (), crates / CRATE / 'src' / 'lib.rt')
        module = library.modules[crate, ()]
        return (Exports if crate == CRATE else Eraser)(module, library).rust()


def formatted(text: str) -> str:
    """A text of Rust as rustfmt writes it."""
    words = ['rustfmt', '--edition', '2021', '--emit', 'stdout']
    return subprocess.run(words, input=text, capture_output=True, text=True, check=True).stdout
