"""Takes the contracts out of the crate below the program `intcalc`, and makes a Cargo package of
the program over the crate of plain Rust.

The library of the package is `intcalc_core`, erased as crate.py does it. What else changes: paths
lead to the crate `cellarcove`, and `std::io` stays what it is. The program itself is by hand,
since in Rattle the system hands it words and memory in other types."""
from tools import ROOT
from tools.erase.crate import BY_HAND, Eraser, files, made_from
from tools.erase.library import RustLibrary

CRATE, PROGRAM = 'intcalc_core', BY_HAND / 'intcalc.rs'
OF_STD = {'io'}                                 # modules of `std` that `core` lacks


class Program(Eraser):
    """A file of the crate below the program."""
    root = 'cellarcove'

    def path(self, k: int) -> None:
        if self.at(k) != 'std' or self.at(k + 3) not in OF_STD:
            super().path(k)


def made() -> dict[str, str | None]:
    library = RustLibrary(ROOT / 'crates')
    library.read(CRATE, (), ROOT / 'crates' / CRATE / 'src' / 'lib.rt')
    texts = {'main.rs': made_from(PROGRAM.relative_to(ROOT), 'program') + PROGRAM.read_text()}
    for module in [module for module in library.modules.values() if module.crate == CRATE]:
        rust, sources = Program(module, library).rust(), str(module.source.path)
        if not module.path:             # the root: its comment, the head by hand, and the modules
            comment = ''.join(line for line in rust.splitlines(True) if line.startswith('//!'))
            modules = ''.join(line for line in rust.splitlines(True)
                              if not line.startswith('//!')).lstrip()
            rust = comment + (BY_HAND / 'intcalc_head.rs').read_text() + '\n' + modules
            sources = f'{sources} and rust/by_hand/intcalc_head.rs'
        texts[f'{"/".join(module.path) or "lib"}.rs'] = made_from(sources, 'program') + rust
    return files('rust/intcalc', texts)
