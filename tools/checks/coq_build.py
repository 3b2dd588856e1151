"""A folder of files for Coq, which is compiled as far as something has changed."""
import concurrent.futures
import os
import subprocess
from collections.abc import Iterator
from pathlib import Path

FOLDERS = '-R', 'Cellarcove', 'Cellarcove', '-R', 'Known', 'Known'
SECONDS = 300                                   # of a processor, for a file
TOO_LONG = 124


def workers() -> int:
    return int(os.environ.get('COQ_JOBS', min(os.cpu_count() or 1, 4)))


class Build:
    """A folder of files for Coq, with what each needs."""

    def __init__(self, folder: Path) -> None:
        self.folder = folder
        self.needs = dict[str, list[str]]()

    def write(self, files: dict[str, str]) -> None:
        for old in self.folder.rglob('*.v'):
            if old.relative_to(self.folder).as_posix() not in files:
                old.unlink()
        for name, text in files.items():
            path = self.folder / name
            if not path.is_file() or path.read_text() != text:
                path.parent.mkdir(parents=True, exist_ok=True)
                path.write_text(text)
                path.with_suffix('.vo').unlink(missing_ok=True)
        words = ('coqdep', *FOLDERS, *files)
        done = subprocess.run(words, cwd=self.folder, capture_output=True, text=True, check=True)
        for line in done.stdout.replace('./', '').splitlines():
            target, _, needs = line.partition(':')
            if target.split() and target.split()[0].endswith('.vo'):
                needed = [word for word in needs.split() if word.endswith('.vo')]
                self.needs[target.split()[0]] = needed

    def coqc(self, target: str, seconds: int = SECONDS) -> tuple[int, str]:
        """Compiles a file, and returns the status and what Coq said."""
        limited = ('sh', '-c', f'ulimit -t {seconds}; exec "$@"', 'sh')
        words = ('coqc', '-q', '-w', 'none', *FOLDERS, target[:-1])
        done = subprocess.run([*limited, *words], cwd=self.folder, capture_output=True, text=True,
                              check=False)
        if done.returncode < 0:
            return TOO_LONG, f'{target[:-1]}: not done in {seconds} s'
        return done.returncode, done.stdout + done.stderr

    def stale(self, target: str) -> bool:
        """Whether a file has to be compiled, since it or what it needs has changed."""
        made = self.folder / target
        needed = [target[:-1], *self.needs[target]]
        return not made.is_file() or any(
            (self.folder / need).stat().st_mtime > made.stat().st_mtime for need in needed)

    def order(self, targets: list[str]) -> list[str]:
        """The targets and all that they need, each after what it needs."""
        found = dict[str, None]()

        def visit(target: str) -> None:
            if target not in found:
                for need in self.needs.get(target, ()):
                    visit(need)
                found[target] = None
        for target in targets:
            visit(target)
        return [target for target in found if target in self.needs]

    def run(self, jobs: int) -> Iterator[tuple[str, int, str]]:
        """Compiles what is stale. Yields each file that was compiled, with what Coq said."""
        left = self.order(sorted(self.needs))
        running = dict[concurrent.futures.Future[tuple[int, str]], str]()
        done, failed = set[str](), set[str]()
        with concurrent.futures.ThreadPoolExecutor(jobs) as pool:
            while left or running:
                for target in [each for each in left if set(self.needs[each]) <= done | failed]:
                    left.remove(target)
                    if failed & set(self.needs[target]):
                        failed.add(target)
                    elif self.stale(target):
                        running[pool.submit(self.coqc, target)] = target
                    else:
                        done.add(target)
                if running:
                    ended = concurrent.futures.wait(running, return_when='FIRST_COMPLETED').done
                    for future in ended:
                        target, (status, said) = running.pop(future), future.result()
                        (failed if status else done).add(target)
                        yield target, status, said
