"""The crates of the repository: what crates.txt lists, and the hash of each one's sources."""
import hashlib
import os

FOLDERS = ('src', 'specs', 'proofs')


def listed(root='.'):
    """The crates in the order of crates.txt, each with those that it names."""
    out = {}
    with open(os.path.join(root, 'crates.txt'), encoding='utf-8') as file:
        for line in file:
            head, _, named = line.split('#')[0].partition(':')
            if head.strip():
                out[head.split()[0]] = named.split()
    return out


def files(crate, root='.'):
    """Every file below src, specs and proofs of a crate, in the order of its path's bytes."""
    top, out = os.path.join(root, 'crates', crate), []
    for folder in FOLDERS:
        for at, _, names in os.walk(os.path.join(top, folder)):
            out += [os.path.relpath(os.path.join(at, name), top) for name in names]
    return sorted(out, key=os.fsencode)


def source_hash(crate, named, root='.'):
    """The hash of the crates that a crate names and of its files, each by its path and bytes."""
    total = hashlib.sha256(('names ' + ' '.join(named) + '\n').encode())
    for path in files(crate, root):
        with open(os.path.join(root, 'crates', crate, path), 'rb') as file:
            total.update(f'{hashlib.sha256(file.read()).hexdigest()}  {path}\n'.encode())
    return total.hexdigest()


def source_hashes(root='.'):
    return {crate: source_hash(crate, named, root) for crate, named in listed(root).items()}
