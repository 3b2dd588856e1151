"""Stamps the libraries of a copy of the crates, which one run of `rt ci` has proved.

    python3 tools/gate/stamps.py FOLDER

`rt ci` leaves them without a stamp, so that other commands build their own: they fit only those of
the same run. Here all are of one run, and `rt must-fail` takes them if they have a stamp. The kit
computes it. If it cannot, there is none, and `rt must-fail` builds the libraries again."""
import importlib.machinery
import importlib.util
import subprocess
import sys
from pathlib import Path


def main(folder: Path) -> None:
    words = ['rt', 'doc']
    doc = subprocess.run(words, capture_output=True, text=True, check=True).stdout.strip()
    loader = importlib.machinery.SourceFileLoader('rtlib', f'{Path(doc).parent}/bin/rtlib.py')
    spec = importlib.util.spec_from_loader('rtlib', loader)
    assert spec
    sys.dont_write_bytecode = True
    sys.modules['rtlib'] = kit = importlib.util.module_from_spec(spec)
    loader.exec_module(kit)
    for crate in kit.crates_below(f'{folder.resolve()}'):
        library = Path(crate.folder) / 'out/rlib'
        if (library / f'{crate.name}.rlib').is_dir():
            (library / 'stamp').write_text(crate.stamp())


if __name__ == '__main__':
    main(Path(sys.argv[1]))
