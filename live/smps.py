"""SMPs of the SM port, answered by the agents of the fabric: `fabric smp` as the session leaves the fabric.

The fabric takes SMPs by directed routes alone. One by LID gets the directed route that the LFTs of the fabric (`fabric
tables`) lead along, and its reply is turned back into one by LID.
"""
import contextlib
import os
import select
import subprocess

BY_LID, DIRECTED = 0x01, 0x81
SECONDS = 120  # of the program
HOPS = 63
SM_NODE_INFO = bytes([1, DIRECTED, 1, 1]).ljust(16, b"\0") + b"\0\x11".ljust(16, b"\0") + b"\xff" * 4 + bytes(220)  # Get, of its own node


class Manager:
    """The fabric, for SMPs. It is brought up anew, and the script of the session run, if that has new lines.
    `names` has the port of each LID."""

    def __init__(self, call, topology, partitions, script, names):
        self.call, self.files, self.script, self.lids = call, [topology, partitions], str(script), names
        self.process, self.tables, self.is_current = None, None, False
        self.cables, self.sm, self.guids = {}, None, {}
        with open(topology, encoding="latin-1") as file:
            for words in (line.split("#")[0].split() for line in file):
                if words[:1] == ["cable"]:
                    self.cables[words[1]], self.cables[words[2]] = words[2], words[1]
                elif words[:1] == ["sm"]:
                    self.sm = words[1]
                elif words[:1] == ["switch"]:
                    self.guids[int(words[2], 0)] = words[1]

    def make_ready(self, is_by_lid=True):
        """Brings the fabric up, unless it is as the session left it, and waits until it answers an SMP; and until its LFTs are
        read, if SMPs are to go by LID. A program that opens the device waits for that, and does not count it as a response's
        time."""
        if not (self.is_current and self.process):
            self.end()
            self.process = subprocess.Popen(self.call + ["smp"] + self.files + ["-", "--script", self.script], stdin=subprocess.PIPE, stdout=subprocess.PIPE)
            self.routes, self.is_current = None, True
            if is_by_lid:
                self.begin_tables()
            self.put(SM_NODE_INFO)
        if is_by_lid and self.routes is None:
            self.read_routes()

    def begin_tables(self):
        """Has the LFTs printed, while the fabric for SMPs is brought up."""
        self.tables = subprocess.Popen(self.call + ["tables"] + self.files + [self.script], stdin=subprocess.DEVNULL, stdout=subprocess.PIPE, stderr=subprocess.DEVNULL)

    def read_routes(self):
        """The LFTs: of each switch the port for each LID."""
        if self.tables is None:
            self.begin_tables()
        try:
            text, _ = self.tables.communicate(timeout=SECONDS)
        except subprocess.TimeoutExpired:
            text = b""
        self.end_tables()
        self.routes, table = {}, {}
        for words in (line.split() for line in text.decode().splitlines()):
            if words[:2] == ["Unicast", "lids"]:
                table = self.routes.setdefault(self.guids[int(words[-2], 16)], {})
            elif words[:2] == ["Multicast", "mlids"]:
                table = {}
            elif words[2:3] == [":"]:
                table[int(words[0], 16)] = int(words[1])

    def end_tables(self):
        if self.tables:
            self.tables.kill()
            self.tables.wait()
            self.tables.stdout.close()
            self.tables = None

    def end(self):
        self.end_tables()
        if self.process:
            self.process.kill()
            self.process.wait()
            for end in (self.process.stdin, self.process.stdout):
                with contextlib.suppress(BrokenPipeError):
                    end.close()
            self.process = None

    def route(self, lid):
        """The ports by which a packet to this LID leaves each node on its way from the SM port; none if it gets lost."""
        at, ports = self.sm, []
        while True:
            node, number = at.split("/")
            if self.lids.get(lid) in (at, f"{node}/0"):
                return ports
            port = self.routes.get(node, {}).get(lid) if ports else int(number)
            at = self.cables.get(f"{node}/{port}")
            if at is None or len(ports) == HOPS:
                return None
            ports.append(port)

    def exchange(self, mad, lid):
        """The reply to an SMP that the SM port sends to this LID; none if there is none."""
        self.make_ready(mad[1] == BY_LID)
        if mad[1] == DIRECTED:
            return self.put(mad)
        if mad[1] != BY_LID:
            return None
        route = self.route(lid)
        if route is None:
            return None
        directed = mad[:1] + bytes([DIRECTED]) + mad[2:6] + bytes([0, len(route)]) + mad[8:32] + b"\xff" * 4 + bytes(28)
        directed += mad[64:128] + bytes(1) + bytes(route).ljust(63, b"\0") + bytes(64)
        reply = self.put(directed)
        if reply is None:
            return None
        return mad[:3] + reply[3:4] + bytes([reply[4] & 0x7F]) + reply[5:6] + bytes(2) + reply[8:24] + mad[24:64] + reply[64:128] + mad[128:]

    def put(self, mad):
        """One line to the program, and one back. If none comes in time, the program is ended."""
        line = f"{len(mad)}:{mad.rstrip(bytes(1)).hex()}\n".encode()
        answer = b""
        if self.process is None:
            return None
        try:
            self.process.stdin.write(line)
            self.process.stdin.flush()
            while not answer.endswith(b"\n"):
                ready, _, _ = select.select([self.process.stdout], [], [], SECONDS)
                read = os.read(self.process.stdout.fileno(), 65536) if ready else b""
                if not read:
                    self.end()
                    return None
                answer += read
        except BrokenPipeError:
            self.end()
            return None
        length, _, digits = answer.decode().strip().partition(":")
        return bytes.fromhex(digits).ljust(int(length), b"\0") if digits else None
