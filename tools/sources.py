"""The crates of the repository, sums of what `rt try` compiles of them, and that command."""
import glob
import hashlib
import os
import pathlib
import shutil
import signal
import subprocess
import time

TOP = pathlib.Path(__file__).resolve().parent.parent


def kit():
    """The folder of the kit; `None` if its command rt is not on the PATH."""
    rt = shutil.which("rt")
    return pathlib.Path(rt).resolve().parent.parent if rt else None


def crates():
    """Each crate of crates.txt with those of the repository that it names."""
    lines = [line.split("#")[0].split(":") for line in (TOP / "crates.txt").read_text().splitlines()]
    named = {parts[0].split()[0]: parts[1].split() for parts in lines if len(parts) == 2}
    return {name: [other for other in others if other in named] for name, others in named.items()}


def with_below(name, below):
    """A crate and all crates below it."""
    names = [name]
    for one in names:
        names += [other for other in below[one] if other not in names]
    return names


def sum_of(name, below):
    """The sum of the sources of a crate, of those of the crates below it, and of the kit's own line."""
    total = hashlib.sha256((kit() / "KIT-ID").read_bytes())
    for file in sorted(file for one in with_below(name, below) for file in (TOP / "crates" / one / "src").rglob("*.rt")):
        total.update(os.fsencode(file.relative_to(TOP)) + hashlib.sha256(file.read_bytes()).digest())
    return total.hexdigest()


def end_hint(tried):
    """Whether the check that `rt try` starts beside itself was found, and ended. It gives a hint, and takes a third of the time."""
    for folder in glob.glob("/proc/[0-9]*"):
        try:
            words = pathlib.Path(f"{folder}/cmdline").read_text().split("\0")
            parent = pathlib.Path(f"{folder}/stat").read_text().rpartition(")")[2].split()[1]
        except OSError:
            continue  # it ended meanwhile
        if parent == str(tried.pid) and "no function" in words:
            os.kill(int(folder[6:]), signal.SIGKILL)
            return True
    return False


def start_try(crate, words, output, top=TOP):
    """Starts `rt try` with these words in the folder of the crate; what it prints goes to the file. A test has 300 seconds, not 60: the
    machine may be slow, and busy with other tests."""
    tried = subprocess.Popen(["rt", "try", *words], cwd=top / "crates" / crate, stdin=subprocess.DEVNULL, stdout=output, stderr=output,
                             env={"RT_SECONDS": "300", **os.environ})
    end = time.monotonic() + 10
    while tried.poll() is None and time.monotonic() < end and not end_hint(tried):
        time.sleep(0.1)
    return tried
