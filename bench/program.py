"""Where the program is, and how the scripts of this folder run it and the small C programs beside them."""
import collections
import os
import shutil
import signal
import subprocess
import sys
import tempfile
import time

HERE = os.path.dirname(os.path.abspath(__file__))
TOP = os.path.dirname(HERE)
FOLDER = os.path.join(TOP, "out", "bench")


def program():
    """The built program: the one that BIDPRICE names, or that of this repository."""
    path = os.environ.get("BIDPRICE", os.path.join(TOP, "crates", "bidprice", "out", "bidprice"))
    if not os.access(path, os.X_OK):
        sys.exit(f"{path} is not there: a first call of ./bidprice builds it")
    return path


def bench_program(name):
    """The built program of a crate that these scripts time, which is built where it is missing or old."""
    line = 'here="$1"; . "$here/beside.sh"; find_program "$2" >&2; echo "$program"'
    done = subprocess.run(["bash", "-euc", line, "-", HERE, name], stdout=subprocess.PIPE, text=True)
    if done.returncode:
        sys.exit(f"{name} is not there")
    return done.stdout.strip()


def build(name):
    """Builds one of the C programs beside this script."""
    os.makedirs(FOLDER, exist_ok=True)
    made = os.path.join(FOLDER, name)
    subprocess.run(["gcc", "-O2", "-o", made, os.path.join(HERE, name + ".c")], check=True)
    return made


def build_library(name):
    """Builds one of the C files beside this script as a library to load before a program."""
    os.makedirs(FOLDER, exist_ok=True)
    made = os.path.join(FOLDER, name + ".so")
    subprocess.run(["gcc", "-O2", "-shared", "-fPIC", "-o", made, os.path.join(HERE, name + ".c"), "-ldl"], check=True)
    return made


def build_beside_lemon(name):
    """Builds one of the C++ programs beside this script, or gives None where LEMON or a compiler is missing."""
    if not shutil.which("g++") or not os.path.exists("/usr/include/lemon/network_simplex.h"):
        return None
    os.makedirs(FOLDER, exist_ok=True)
    made = os.path.join(FOLDER, name)
    subprocess.run(["g++", "-O2", "-std=c++17", "-pthread", "-w", "-o", made, os.path.join(HERE, name + ".cpp")], check=True)
    return made


def spent(command, said=os.devnull, statuses=(0,)):
    """Seconds, processor seconds and status of one run, whose output goes to a file."""
    action = [(os.POSIX_SPAWN_OPEN, 1, said, os.O_WRONLY | os.O_CREAT | os.O_TRUNC, 0o644)]
    begin = time.perf_counter()
    child = os.posix_spawn(command[0], command, os.environ, file_actions=action)
    _, status, used = os.wait4(child, 0)
    taken = time.perf_counter() - begin
    status = os.waitstatus_to_exitcode(status)
    if status not in statuses:
        sys.exit(f"{' '.join(command)} ended with status {status}")
    return taken, used.ru_utime + used.ru_stime, status


Run = collections.namedtuple("Run", "status text errors seconds processor late")


class Runs:
    """Runs of the program, one after another and as many a second as can be: the process waits for each, and what it
    writes goes to two files of a folder. A run that has not ended in time is stopped."""

    def __init__(self, folder, limit=60):
        self.ours, self.limit, self.child, self.late = os.path.abspath(program()), limit, 0, False
        self.files = [os.open(os.devnull, os.O_RDONLY)]
        self.files += [os.open(os.path.join(folder, name), os.O_RDWR | os.O_CREAT) for name in ("said", "errors")]
        self.actions = [(os.POSIX_SPAWN_DUP2, file, at) for at, file in enumerate(self.files)]

    def stop(self, *_):
        self.late = True
        os.kill(self.child, signal.SIGKILL)

    def run(self, words, environment={}):
        """One run of a line, in an environment of these words alone."""
        for file in self.files[1:]:
            os.ftruncate(file, 0)
            os.lseek(file, 0, os.SEEK_SET)
        begin, self.late = time.perf_counter(), False
        self.child = os.posix_spawn(self.ours, [self.ours, *words], environment, file_actions=self.actions)
        signal.signal(signal.SIGALRM, self.stop)
        signal.alarm(self.limit)
        _, status, used = os.wait4(self.child, 0)
        signal.alarm(0)
        seconds = time.perf_counter() - begin
        text, errors = (os.pread(file, os.fstat(file).st_size, 0) for file in self.files[1:])
        return Run(os.waitstatus_to_exitcode(status), text, errors, seconds, used.ru_utime + used.ru_stime, self.late)


def place_for_files(prefix):
    """A new folder, in memory where the system has such a place. The caller removes it."""
    return tempfile.mkdtemp(prefix=prefix, dir="/dev/shm" if os.access("/dev/shm", os.W_OK) else None)


def timed(command, said=os.devnull, statuses=(0,)):
    """Seconds and status of one run, whose output goes to a file."""
    taken, _, status = spent(command, said, statuses)
    return taken, status


def peak(command):
    """The most memory that a run had, in KiB."""
    return int(subprocess.run([build("peak"), *command], stdout=subprocess.DEVNULL, stderr=subprocess.PIPE, check=True).stderr)
