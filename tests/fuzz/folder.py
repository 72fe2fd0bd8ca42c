"""The folder that the program runs in: it has the files of a run, and nothing else."""
import os
import shutil

# In place of a file's bytes.
FOLDER = object()


def content(path):
    """The bytes of a regular file, None for none."""
    try:
        if not os.path.isfile(path):
            return None
        with open(path, 'rb') as file:
            return file.read()
    except (OSError, ValueError):
        return None


def write(name, text):
    if os.path.dirname(name):
        os.makedirs(os.path.dirname(name), exist_ok=True)
    if text is FOLDER:
        os.makedirs(name, exist_ok=True)
        return
    with open(name, 'wb') as file:
        file.write(text)


def furnish(run):
    """Makes the files of a run. One that can't be made is none of its files."""
    for name in os.listdir(b'.'):
        if os.path.isdir(name) and not os.path.islink(name):
            shutil.rmtree(name)
        else:
            os.unlink(name)
    for name, text in sorted(run.files.items(), key=lambda file: file[0]):
        try:
            write(name, text)
        except OSError:
            run.files.pop(name)
    if run.bytes is not None:
        write(b'dev.img', run.bytes)


def put_back(name, text):
    """Makes what stands at a name what it was before."""
    if text is not None:
        write(name, text)
    elif os.path.isfile(name):
        os.unlink(name)


def all_files():
    """Each file in the folder with its bytes."""
    paths = [os.path.join(path, name) for path, _, names in os.walk(b'.') for name in names]
    return {path: content(path) for path in paths}
