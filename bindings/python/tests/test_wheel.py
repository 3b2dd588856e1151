"""Looks at a wheel: it names its licences as the version of its metadata does, and has their
texts. Everyone may read it, its tag is that of its extensions, and they call nothing that the
stable ABI of its tag has not.

    test_wheel.py WHEEL
"""
import email
import pathlib
import re
import sys
import zipfile

# what the stable ABI has from 3.9 on, as the headers of Python say
LATER = (r'PyBuffer_\w+|PyObject_\w*Buffer\w*|PyType_GetName|PyType_GetQualName'
         r'|PyUnicode_AsUTF8AndSize|PyModule_Add(?:ObjectRef|Type)|Py_NewRef|Py_XNewRef')


def look_at(path: pathlib.Path) -> None:
    wheel = zipfile.ZipFile(path)
    name, version, platforms = re.fullmatch(r'(\w+)-([0-9.]+)-cp39-abi3-(.*)\.whl',
                                            path.name).groups()
    folder = f'{name}-{version}.dist-info'
    description = email.message_from_bytes(wheel.read(f'{folder}/METADATA'))
    fields = ({field: description.get_all(field)
               for field in ('Metadata-Version', 'Name', 'Version', 'License-Expression', 'License',
                             'License-File')})
    licences = ['LICENSE-APACHE', 'LICENSE-MIT']
    assert list(fields.values()) == [['2.4'], [name], [version], ['MIT OR Apache-2.0'], None,
                                     licences], fields
    assert {f'{folder}/licenses/{licence}'
            for licence in licences} <= set(wheel.namelist()), wheel.namelist()
    tags = sorted(f'Tag: cp39-abi3-{platform}' for platform in platforms.split('.'))
    assert sorted(line for line in wheel.read(f'{folder}/WHEEL').decode().splitlines()
                  if line.startswith('Tag')) == tags, tags
    modes = [path.stat().st_mode, *(file.external_attr >> 16 for file in wheel.infolist())]
    assert all(mode & 0o444 == 0o444 for mode in modes), list(map(oct, modes))

    for extension in ('_calls', '_ufuncs'):
        words = wheel.read(f'{name}/{extension}.abi3.so')
        later = re.findall(rf'\0({LATER})\0'.encode(), words)
        assert not later, later
        found = re.findall(rb'\0GLIBC_([\d.]+)', words)
        glibc = max((tuple(map(int, word.split(b'.'))) for word in found), default=(0,))
        assert not platforms.startswith('manylinux2014_') or glibc <= (2, 17), glibc


if __name__ == '__main__':
    look_at(pathlib.Path(sys.argv[1]))
