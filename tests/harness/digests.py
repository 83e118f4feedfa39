"""Lists of digests, which tie what was made to what it was made of: a line `SHA-256 path` for each file, so that a change of one without the other
is told where the tool that makes them isn't at hand."""
import hashlib
import os


def below(folder, *parts):
    """the files below parts of a folder, or the parts themselves where they are files, by their paths in the folder"""
    found = []
    for part in parts:
        path = os.path.join(folder, part)
        walked = [os.path.join(at, name) for at, _, names in os.walk(path) for name in names if not name.endswith('.pyc')]
        found += walked if os.path.isdir(path) else [path]
    return sorted(os.path.relpath(path, folder) for path in found)


def digest(path):
    with open(path, 'rb') as file:
        return hashlib.sha256(file.read()).hexdigest()


def write(folder, parts, head):
    """writes the list of a folder, behind a line that says what it is"""
    with open(os.path.join(folder, 'digests'), 'w', encoding='utf-8') as file:
        file.write('# %s\n' % head)
        file.writelines('%s %s\n' % (digest(os.path.join(folder, path)), path) for path in below(folder, *parts))


def listed(folder):
    """what the list of a folder says: its first line, and the digests by path"""
    with open(os.path.join(folder, 'digests'), encoding='utf-8') as file:
        head, *lines = file.read().splitlines()
    return head, dict(reversed(line.split(' ', 1)) for line in lines)


def faults(folder, parts):
    """the files that aren't as the list of a folder says, that it lacks, or that it names and aren't there"""
    _, wanted = listed(folder)
    here = {path: digest(os.path.join(folder, path)) for path in below(folder, *parts)}
    return sorted(path for path in wanted.keys() | here.keys() if wanted.get(path) != here.get(path))
