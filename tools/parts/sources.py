"""What a library is made of: the sources of its crates, as one sum."""
import hashlib
import os

ROOT = os.path.dirname(os.path.dirname(os.path.dirname(os.path.abspath(__file__))))


class Missing(Exception):
    """What is needed and is not there, in one line."""


def listed(root=ROOT):
    """The crates of crates.txt, each with those that it names."""
    crates = {}
    with open(os.path.join(root, 'crates.txt'), encoding='utf-8') as file:
        for line in file:
            name, colon, uses = line.split('#')[0].partition(':')
            if colon:
                crates[name.split()[0]] = uses.split()
    return crates


def crates_of(crate, root=ROOT):
    """A crate and all of this repository that it stands on, by name."""
    crates = listed(root)
    if crate not in crates:
        raise Missing(f'crates.txt lists no crate {crate}')
    found, todo = set(), [crate]
    while todo:
        name = todo.pop()
        if name in crates and name not in found:
            found.add(name)
            todo += crates[name]
    return sorted(found)


def files_of(crate, root=ROOT):
    """The source files of a crate, by their paths below the repository."""
    found = []
    for folder, _, files in os.walk(os.path.join(root, 'crates', crate, 'src')):
        found += [os.path.relpath(os.path.join(folder, name), root) for name in files if name.endswith('.rt')]
    return sorted(found)


def source_sum(crate, root=ROOT):
    """The sum over the sources that a crate's library is compiled from. What only the checker reads, specs/ and proofs/, has no
    part in the code and none in the sum."""
    total = hashlib.sha256()
    for name in crates_of(crate, root):
        for path in files_of(name, root):
            with open(os.path.join(root, path), 'rb') as file:
                total.update(f'{path} {hashlib.sha256(file.read()).hexdigest()}\n'.encode())
    return total.hexdigest()


def file_sum(path):
    """The sum of a file."""
    with open(path, 'rb') as file:
        return hashlib.sha256(file.read()).hexdigest()
