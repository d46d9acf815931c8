"""A live bench: a simulated fabric, and unmodified programs at its ports. live/run and tests/live go by it."""
import os
import pathlib
import shutil
import subprocess
import sys
import tempfile

HERE = pathlib.Path(__file__).resolve().parent
PROGRAM = HERE.parent / "fabric"
PACKAGES = {"gcc": "gcc libc6-dev", "saquery": "infiniband-diags", "osmtest": "opensm"}  # of Debian
STARTING, ENDING = 900, 60  # seconds; before anything is proved the first start compiles the program


class Failed(Exception):
    """Why there is no bench."""


def missing(*programs):
    """What has to be installed for these programs, in words; nothing if all are there."""
    absent = [name for name in programs if not shutil.which(name, path=f"{os.environ['PATH']}:/usr/sbin")]
    packages = " ".join(PACKAGES[name] for name in absent)
    return f"there is no {', no '.join(absent)}; on Debian: apt-get update && apt-get install --no-install-recommends {packages}" if absent else ""


class Bench:
    """The bridge over a fabric, as long as it is open; and the folder, of its user alone, by which programs reach it. The file
    `messages` gets what it says, in place of standard error."""

    def __init__(self, topology, partitions, program=PROGRAM, script=None, record=None, show=False, repairs=None, messages=None):
        self.folder = pathlib.Path(tempfile.mkdtemp(prefix="live."))
        self.bridge, self.is_ready = None, False
        try:
            self.compile()
            call = [sys.executable, "-B", str(HERE / "bridge.py"), str(program), str(topology), str(partitions), str(self.folder)]
            for name, value in (("--script", script), ("--record", record), ("--repairs", repairs)):
                call += [name, str(value)] if value else []
            ends = {"stdin": subprocess.PIPE, "stdout": subprocess.PIPE, "stderr": open(messages, "wb") if messages else None}
            self.bridge = subprocess.Popen(call + ["--show"] * show, start_new_session=True, **ends)
            if self.bridge.stdout.readline() != b"ready\n":
                raise Failed("the bridge did not start")
            self.is_ready = True
        except BaseException:
            self.close()
            raise

    def compile(self):
        shim = ["gcc", "-std=gnu11", "-O2", "-fPIC", "-shared", "-o", str(self.folder / "umad_shim.so"), str(HERE / "umad_shim.c"), "-ldl"]
        done = subprocess.run(shim, capture_output=True, text=True, timeout=STARTING)
        if done.returncode:
            raise Failed(f"umad_shim.c does not compile: {done.stderr}")
        (self.folder / "bin").mkdir()
        (self.folder / "bin" / "at").symlink_to(HERE / "at")

    def environment(self, port=None):
        """That of a program at this port; or of a shell in which `at` can be called."""
        changed = dict(os.environ, LIVE=str(self.folder), PATH=f"{self.folder}/bin:{os.environ['PATH']}:/usr/sbin")
        if port:
            folder = self.folder / "ports" / port
            if not (folder / "socket").exists():
                raise Failed(f"{port} is no port of a CA that has a cable, or has no such P_Key; `fabric keys TOPO PARTS` lists ports and their P_Keys")
            changed |= {"LD_PRELOAD": str(self.folder / "umad_shim.so"), "LIVE_PORT": str(folder)}
        return changed

    def close(self):
        """Ends the fabric. The last line of the bridge, and whether all went well."""
        last, is_well = "", False
        if self.bridge:
            if not self.is_ready:
                self.bridge.kill()
            try:
                out, _ = self.bridge.communicate(timeout=ENDING)
                last = (out.decode().splitlines() or [""])[-1]
                is_well = self.bridge.returncode == 0
            except subprocess.TimeoutExpired:
                self.bridge.kill()
                self.bridge.wait()
            self.bridge = None
        shutil.rmtree(self.folder, ignore_errors=True)
        return last, is_well
