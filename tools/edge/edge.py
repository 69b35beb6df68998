"""What the measurements of this folder share: commands of the solver in a folder of their own."""
import os
import subprocess

# How many vertices the drawn cut has that is searched: some seconds of a search.
VERTICES = 30

ITEMS = b"3 10\n60 5\n50 4\n70 6\n"


def run(program, words, folder, given=b"", closed=(), **more):
    """The status, the output and the errors of a command, with these of the descriptors 0 to 2 closed before it starts."""
    def close():
        for number in closed:
            os.close(number)

    done = subprocess.run(
        [program, *words.split()], input=given, stdout=subprocess.PIPE, stderr=subprocess.PIPE,
        cwd=folder, preexec_fn=close, timeout=600, check=False, **more,
    )
    return done.returncode, done.stdout, done.stderr


def content(path):
    """The bytes of a file, or None where there is none."""
    if not os.path.exists(path):
        return None
    with open(path, "rb") as file:
        return file.read()


def prepare(path, begun):
    """Has this file hold these bytes, or be absent for None."""
    if os.path.exists(path):
        os.remove(path)
    if begun is not None:
        with open(path, "wb") as file:
            file.write(begun)


def size(words):
    """How many vertices the cut has: the fifth word of a script's, where it is given."""
    return words[5] if len(words) > 5 else VERTICES
