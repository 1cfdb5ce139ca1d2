"""Reads and writes whole files."""
import os


def read(path):
    with open(path, 'rb') as file:
        return file.read()


def read_all(paths):
    return [read(path) for path in paths]


def write(path, data):
    with open(path, 'wb') as file:
        file.write(data)


def write_list(folder, files, name='file{}'):
    """Writes files under names that have their number, and gives their paths."""
    paths = [os.path.join(folder, name.format(i)) for i in range(len(files))]
    for path, data in zip(paths, files):
        write(path, data)
    return paths


def random_bytes(rng, count):
    """So many bytes by chance, as `randbytes` of later versions of Python gives them."""
    return rng.getrandbits(8 * count).to_bytes(count, 'little') if count else b''


def files_in(folder):
    """The bytes of each file of a folder, by its name."""
    return {name: read(os.path.join(folder, name)) for name in os.listdir(folder)}
