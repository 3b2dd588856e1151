"""Draws docs/trust.svg from the first table of docs/TRUST.md: how one knows that each step from a
definition to what runs is right. In the table stand the numbers of lines of tools/checks/erased.py
and of tools/checks/antt_to_coq.py, and below it how many mutants are run as Rust, and how many
change a proof."""
import re
from collections.abc import Iterator

from tools import ROOT, filled
from tools.checks import edits

PLACES = {"Coq's library": (1, 0), 'what you mean': (0, 1), 'definitions': (1, 1),
          'contracts': (2, 1), 'Rattle source': (3, 1), 'C++, Python': (0, 2), 'C': (1, 2),
          'compiled by Rattle': (2, 2), 'Rust source': (3, 2), 'read by rustc': (3, 3),
          'compiled by rustc': (2, 3), 'JavaScript': (1, 3)}
COLOURS = {'proved': '#1a7f37', 'checked': '#0969da', 'tested': '#9a6700', 'trusted': '#cf222e'}
ROW = re.compile(r'^\| ([^|]+) \| ([^|]+) \| \*\*(\w+)\*\*([^|]*) \|', re.M)
WIDE, HIGH, ACROSS, DOWN = 144, 40, 224, 92         # of a box, and from one to the next
MARKER = ('<marker id="{0}" viewBox="0 0 8 8" refX="8" refY="4" markerWidth="8" '
          'markerHeight="8" orient="auto"><path d="M0 0 8 4 0 8z" fill="{1}"/></marker>')


def centre(name: str) -> tuple[float, float]:
    column, row = PLACES[name]
    return 16 + WIDE / 2 + ACROSS * column, 16 + HIGH / 2 + DOWN * row


def arrow(start: str, end: str, kind: str, more: str, along: float) -> Iterator[str]:
    """An arrow from the edge of one box to that of another, with its words on that part of the
    way."""
    (x, y), (to_x, to_y) = centre(start), centre(end)
    across, down = to_x - x, to_y - y
    edge = min(size / 2 / abs(way) for size, way in ((WIDE, across), (HIGH, down)) if way)
    ends = [f'{place:.0f}' for place in (x + across * edge, y + down * edge, to_x - across * edge,
                                         to_y - down * edge)]
    yield (f'<line x1="{ends[0]}" y1="{ends[1]}" x2="{ends[2]}" y2="{ends[3]}" '
           f'stroke="{COLOURS[kind]}" stroke-width="2" ' f'marker-end="url(#{kind})"/>')
    yield (f'<text x="{x + across * along:.0f}" '
           f'y="{y + down * along + (5 if down else -6):.0f}" fill="{COLOURS[kind]}" '
           'font-size="12" stroke="#ffffff" '
           f'stroke-width="4" paint-order="stroke">{kind}{more}</text>')


def picture(page: str) -> str:
    rows = ROW.findall(page)
    columns, lines = (max(place[axis] for place in PLACES.values()) for axis in (0, 1))
    middles = [[a + b for a, b in zip(centre(start), centre(end))] for start, end, *_ in rows]
    # two arrows cross in their middle
    along = [0.36 if middles.count(place) > 1 else 0.5 for place in middles]
    parts = [MARKER.format(*pair) for pair in COLOURS.items()]
    for (start, end, kind, more), part_of_way in zip(rows, along):
        parts += arrow(start, end, kind, more, part_of_way)
    for name in PLACES:
        x, y = centre(name)
        parts.append(f'<rect x="{x - WIDE / 2:.0f}" y="{y - HIGH / 2:.0f}" width="{WIDE}" '
                     f'height="{HIGH}" rx="6" fill="#f6f8fa" stroke="#57606a"/>')
        parts.append(f'<text x="{x:.0f}" y="{y + 5:.0f}" fill="#1f2328">{name}</text>')
    size = {'wide': str(32 + WIDE + ACROSS * columns), 'high': str(32 + HIGH + DOWN * lines)}
    return filled(ROOT / 'tools/pages/templates/trust.svg', **size, parts='\n'.join(parts))


def with_counts(page: str) -> str:
    """The page with the lines of two scripts that one trusts, and the counts of mutants."""
    for words, script in (('**checked** by ', 'erased'), ('of most, through ', 'antt_to_coq')):
        lines = (ROOT / f'tools/checks/{script}.py').read_text().count('\n')
        page = re.sub(rf'(?<={re.escape(words)})\d+', str(lines), page)
    mutants = edits.counts()
    page = re.sub(r'Of \d+ mutants \d+ are run', f'Of {mutants.all} mutants {mutants.run} are run',
                  page)
    return re.sub(r'\d+(?= change a proof)', str(mutants.of_proofs), page)


def made() -> dict[str, str]:
    page = with_counts((ROOT / 'docs/TRUST.md').read_text())
    return {'docs/TRUST.md': page, 'docs/trust.svg': picture(page)}
