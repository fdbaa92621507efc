"""What the benches share: the built program, and a run of it with its time, peak memory and status."""
import pathlib
import subprocess
import sys

TOP = pathlib.Path(__file__).resolve().parent.parent
MIB = 1 << 20


def program(crate):
    """The program of a crate that bin/wetune --build or rt run leaves, or the one that the command line names."""
    path = pathlib.Path(sys.argv[1] if len(sys.argv) > 1 else TOP / f'crates/{crate}/out/{crate}')
    if not path.exists():
        sys.exit(f'{path} is not built')
    return path.resolve()


# Runs its words and tells the processor seconds, the peak memory and the status. It stands between, since a process begins with the peak of
# the one that it was made by.
SMALL = """import os, sys
pid = os.posix_spawn(sys.argv[1], sys.argv[1:], os.environ)
_, status, usage = os.wait4(pid, 0)
print(usage.ru_utime + usage.ru_stime, usage.ru_maxrss / 1024, os.waitstatus_to_exitcode(status), file=sys.stderr)
"""


def measure(words, folder):
    """The seconds of processor, the peak memory in MB and the status of a run in this folder; its output goes to the file `out`."""
    with open(folder / 'out', 'wb') as out:
        run = subprocess.run([sys.executable, '-IS', '-c', SMALL, *words], cwd=folder, stdout=out, stderr=subprocess.PIPE, check=True)
    seconds, memory, status = run.stderr.split()[-3:]
    return float(seconds), float(memory), int(status)


def plain_example(folder):
    """Puts the empty rule file and the schema of one table into the folder."""
    for file in ('rules.txt', 'schema.sql'):
        (folder / file).write_bytes((TOP / 'examples/plain' / file).read_bytes())
