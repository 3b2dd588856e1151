"""Makes the bill of materials of a release, in SPDX 2.3: its files, and the crates that they are
made with.

    tools/cellarcove make bill FOLDER REGISTRY

FOLDER has the files, and REGISTRY the sources of the crates, such as Debian's. It prints the
bill."""
import hashlib
import json
import os
import re
import time
import tomllib
from pathlib import Path

from tools import ROOT
from tools.checks.versions import CARGO

OURS = 'MIT OR Apache-2.0'


def package(name: str, version: str, licence: str, **more: object) -> dict[str, object]:
    """A package of the bill."""
    return {'SPDXID': 'SPDXRef-' + re.sub('[^A-Za-z0-9.-]', '-', name), 'name': name,
            'versionInfo': version, 'downloadLocation': 'NOASSERTION', 'filesAnalyzed': False,
            'licenseConcluded': licence, 'licenseDeclared': licence, 'copyrightText': 'NOASSERTION',
            **more}


def crates(registry: Path) -> list[dict[str, object]]:
    """The crates that are compiled in."""
    found = []
    for file in sorted(registry.glob('num-traits-0.2.*/Cargo.toml')):
        head = tomllib.loads(file.read_text())['package']
        found.append(package(head['name'], head['version'], head['license'].replace('/', ' OR ')))
    return found


def bill(folder: Path, registry: Path) -> dict[str, object]:
    version = re.findall(CARGO, (ROOT / 'rust/Cargo.toml').read_text(), re.M)[0]
    sums = {file.name: hashlib.sha256(file.read_bytes()).hexdigest()
            for file in sorted(folder.iterdir()) if file.is_file()}
    ours = [package(name, version, OURS, packageFileName=name,
                    checksums=[{'algorithm': 'SHA256', 'checksumValue': value}],
                    supplier='Organization: The Cellarcove authors')
            for name, value in sums.items()]
    others = crates(registry)
    whole = hashlib.sha256(''.join(sums.values()).encode()).hexdigest()
    made = time.strftime('%Y-%m-%dT%H:%M:%SZ',
                         time.gmtime(int(os.environ.get('SOURCE_DATE_EPOCH', '0'))))
    relations: list[tuple[object, str, object]] = [('SPDXRef-DOCUMENT', 'DESCRIBES', file['SPDXID'])
                                                   for file in ours]
    relations += [(file['SPDXID'], 'DEPENDS_ON', other['SPDXID']) for file in ours
                  for other in others]
    return {'spdxVersion': 'SPDX-2.3', 'dataLicense': 'CC0-1.0', 'SPDXID': 'SPDXRef-DOCUMENT',
            'name': f'cellarcove-{version}', 'documentNamespace': f'urn:sha256:{whole}',
            'creationInfo': {'created': made, 'creators': ['Organization: The Cellarcove authors']},
            'packages': [*ours, *others],
            'relationships': [dict(zip(('spdxElementId', 'relationshipType', 'relatedSpdxElement'),
                                       row)) for row in relations]}


def make(words: list[str]) -> bool:
    folder, registry = map(Path, words)
    print(json.dumps(bill(folder, registry), indent=1))
    return True
