#!/usr/bin/env python3
"""Plays the kernel of every host of a simulated fabric, for unmodified programs that go by libibumad:
    bridge.py PROGRAM TOPO PARTS DIR [--script FILE] [--record FILE] [--show]
PROGRAM is `fabric`. One process of it, `fabric run`, is the fabric; a MAD that a program sends becomes a line `send` of its
script, and a line `recv` of its report becomes a MAD that the program reads. For each port DIR gets a folder with what
libibumad reads of sysfs, and the socket that umad_shim.c opens in place of /dev/infiniband/umad0.

As the kernel does, it keeps the agents of each program, waits for responses and repeats requests, joins the segments of a
table (RMPP, windows of 64), and turns the index of a P_Key into the P_Key. The TransactionID of a request is the number of
its agent and a count, both of the port: so a session does not depend on numbers that programs draw.
Each response of subnet administration is checked as volume 1 asks (sa_check.py).

It prints `ready`, ends at the end of its standard input, and prints as its last line
`N SA responses checked, M wrong`. Messages go to standard error. Status 1: a response was wrong, or PROGRAM ended before.
"""
import argparse
import collections
import contextlib
import errno
import fcntl
import heapq
import importlib.util
import itertools
import os
import pathlib
import selectors
import shutil
import socket
import struct
import subprocess
import sys
import termios
import time

from rmpp import IS_ACK, IS_DATA, LAST, MAD_BYTES, RESPONSE, SA, Incoming, Outgoing, is_active, number
from sa_check import name_of, response_errors, segment_errors
from smps import Manager

UMAD = struct.Struct("<IIIII")  # what begins the kernel's header: agent, status, timeout, retries, length
UMAD_BYTES = 64  # of the whole header
BLANKS = b" " * 256 + b"\n"  # no command, and more than the program reads at once
QUEUED = 4096  # packets that wait for a program that does not read
STARTING, ENDING = 900, 30  # seconds that the program has to start in (it may have to be compiled), and to end in
F_SETPIPE_SZ = 1031


class Failed(Exception):
    """Why there is no fabric."""


def say(text):
    with contextlib.suppress(OSError):  # the terminal may be closed
        print(f"live: {text}", file=sys.stderr, flush=True)


def tell(text):
    """Prints a line for who started the bridge; it may have ended."""
    try:
        print(text, flush=True)
    except BrokenPipeError:
        os.dup2(os.open(os.devnull, os.O_WRONLY), 1)


class Port:
    """A port of a CA that has a cable: what libibumad reads of it, and the agents of its programs by their numbers."""

    def __init__(self, name, lid, guid, node_guid, keys, is_manager):
        self.name, self.lid, self.guid, self.node_guid = name, lid, guid, node_guid
        self.keys, self.is_manager = keys, is_manager
        self.agents = {}
        self.agent_count, self.request_count = itertools.count(1), itertools.count(1)
        self.incoming, self.outgoing = {}, {}  # messages in segments, by LID and TransactionID
        self.latest = None  # the last table that began

    def write_files(self, folder, keys):
        """The files of sysfs; the P_Keys are these, in this order."""
        node, port = self.name.split("/")
        quads = lambda value, size: ":".join(f"{value:0{size}x}"[at : at + 4] for at in range(0, size, 4))
        files = {
            "infiniband_mad/abi_version": "5",
            "infiniband_mad/umad0/ibdev": node[:19],
            "infiniband_mad/umad0/port": port,
        }
        ca = {"node_type": "1: CA", "fw_ver": "1", "hw_rev": "0", "hca_type": "fabric", "node_desc": node}
        ca |= {"node_guid": quads(self.node_guid, 16), "sys_image_guid": quads(self.node_guid, 16)}
        ports = {"lid": f"0x{self.lid:x}", "lid_mask_count": "0", "sm_lid": "0x1", "sm_sl": "0", "state": "4: ACTIVE"}
        ports |= {"phys_state": "5: LinkUp", "rate": "10 Gb/sec (4X)", "cap_mask": "0x00000000", "link_layer": "InfiniBand"}
        ports["gids/0"] = quads(0xFE80000000000000 << 64 | self.guid, 32)
        ports |= {f"pkeys/{index}": f"0x{key:04x}" for index, key in enumerate(keys or [0])}
        files |= {f"infiniband/{node[:19]}/{file}": text for file, text in ca.items()}
        files |= {f"infiniband/{node[:19]}/ports/{port}/{file}": text for file, text in ports.items()}
        for file, text in files.items():
            (folder / file).parent.mkdir(parents=True, exist_ok=True)
            (folder / file).write_text(text + "\n")


class Agent:
    """Of a program, what it registered: the class and methods of which it takes requests, and whether RMPP is done for it."""

    def __init__(self, client, words):
        self.client = client
        self.id, self.qp, self.kind, self.version, rmpp, user_rmpp = (int(word) for word in words[:6])
        self.oui, self.methods = int(words[6], 16), int(words[7], 16)
        self.joins_tables = bool(rmpp) and not user_rmpp
        self.number = next(client.port.agent_count)
        self.waiting = {}  # requests, by TransactionID

    def takes(self, mad):
        """Whether it is the one to take this request."""
        if (mad[1], mad[2]) != (self.kind, self.version) or not self.methods >> (mad[3] & 0x7F) & 1:
            return False
        return not 0x30 <= self.kind <= 0x4F or number(mad, 37, 3) == self.oui

    def end(self):
        self.client.port.agents.pop(self.number, None)
        self.waiting.clear()


class Request:
    """A request that waits for its response: as it was sent, and its TransactionID as the program has it."""

    def __init__(self, agent, mad, tid, line, timeout, retries):
        self.agent, self.mad, self.tid, self.line = agent, mad, tid, line
        self.timeout, self.retries, self.is_repeated = timeout / 1000, retries, False
        self.until = time.monotonic() + self.timeout


class Client:
    """A program that has opened a device: its socket, agents, and what waits to be read by it."""

    def __init__(self, port, order, link):
        self.port, self.order, self.link = port, order, link
        self.process = struct.unpack("iii", link.getsockopt(socket.SOL_SOCKET, socket.SO_PEERCRED, 12))[0]
        self.agents = {}
        self.warnings = set()
        self.queue = collections.deque()
        try:
            link.setsockopt(socket.SOL_SOCKET, 32, 8 << 20)  # SO_SNDBUFFORCE, for a large table
        except PermissionError:
            link.setsockopt(socket.SOL_SOCKET, socket.SO_SNDBUF, 8 << 20)

    def __str__(self):
        return f"{self.port.name}: process {self.process}"

    def warn(self, text):
        """Says once of this program why it waits for what does not come."""
        if text not in self.warnings:
            self.warnings.add(text)
            say(f"{self} {text}")


class Bridge:
    def __init__(self, program, topology, partitions, folder, script, record, is_shown, repairs):
        self.call, self.files, self.folder, self.is_shown = [program], [topology, partitions], folder, is_shown
        self.selector = selectors.DefaultSelector()
        self.timers, self.order = [], itertools.count()
        self.checked = self.wrong = 0
        self.repairs = repairs
        self.script = open(folder / "script", "wb", buffering=0)
        self.records = [open(record, "wb"), open(f"{record}.report", "wb")] if record else []
        self.start()
        self.make_ports()
        self.manager = Manager([program], topology, partitions, folder / "script", self.names)
        for line in script.splitlines():
            self.put(line)
        self.unwritten += BLANKS  # once the program has read all of it, all before it is carried out

    # The fabric.

    def texts(self, *commands):
        """The lines that these commands print of the fabric, as words."""
        ends = {"stdin": subprocess.DEVNULL, "stdout": subprocess.PIPE, "stderr": subprocess.PIPE}
        for run in [subprocess.Popen(self.call + [word] + self.files, **ends) for word in commands]:
            text, fault = run.communicate(timeout=STARTING)
            if run.returncode:
                raise Failed(fault.decode(errors="replace").strip())
            yield [line.split() for line in text.decode().splitlines()]

    def make_ports(self):
        """A folder and a socket for each port of a CA; and one for each of its P_Keys, in which that is the first."""
        listing, tables = self.texts("check", "keys")
        keys = {words[1]: [int(key, 16) for key in words[2:]] for words in tables}
        self.ports, self.names = {}, {}
        for _, lid, guid, name in (words for words in listing if words[0] == "port"):
            lid, guid, (node, place) = int(lid, 16), int(guid, 16), name.split("/")
            self.names[lid] = name
            if place == "0":
                continue
            port = Port(name, lid, guid, guid - int(place), keys[name], lid == 1)
            self.ports[name] = port
            folder = self.folder / "ports" / name
            self.listen(port, folder, port.keys)
            for key in port.keys:
                other = folder.with_name(f"{place}@0x{key:04x}")
                if key == port.keys[0]:
                    other.symlink_to(place)
                else:
                    self.listen(port, other, [key] + [rest for rest in port.keys if rest != key])

    def listen(self, port, folder, keys):
        port.write_files(folder, keys)
        listener = socket.socket(socket.AF_UNIX, socket.SOCK_SEQPACKET)
        listener.bind(str(folder / "socket"))
        listener.listen(64)
        listener.setblocking(False)
        self.selector.register(listener, selectors.EVENT_READ, lambda _: self.welcome(port, keys, listener))

    def start(self):
        reader, self.input = os.pipe()
        fcntl.fcntl(self.input, F_SETPIPE_SZ, 1 << 20)
        os.set_blocking(self.input, False)
        self.faults = open(self.folder / "faults", "w+b")
        self.run = subprocess.Popen(self.call + ["run"] + self.files + ["-"], stdin=reader, stdout=subprocess.PIPE, stderr=self.faults)
        os.close(reader)
        self.unwritten, self.unread = bytearray(), b""
        os.set_blocking(self.run.stdout.fileno(), False)
        self.selector.register(self.run.stdout, selectors.EVENT_READ, lambda _: self.read_report())
        self.selector.register(self.input, selectors.EVENT_WRITE, lambda _: self.write_script())
        self.is_writing, self.is_over = True, False

    def put(self, line):
        """Gives the program a line."""
        line = line.rstrip(b"\r\n") + b"\n"
        for file in [self.script] + self.records[:1]:
            file.write(line)
        self.manager.is_current = False
        self.unwritten += line
        if not self.is_writing:
            self.selector.register(self.input, selectors.EVENT_WRITE, lambda _: self.write_script())
            self.is_writing = True

    def is_carried_out(self):
        """Whether the program has read all that it was given."""
        return not self.unwritten and fcntl.ioctl(self.input, termios.FIONREAD, bytes(4)) == bytes(4)

    def write_script(self):
        try:
            while self.unwritten:
                del self.unwritten[: os.write(self.input, self.unwritten)]
        except BlockingIOError:
            return
        except BrokenPipeError:
            self.unwritten.clear()
        self.selector.unregister(self.input)
        self.is_writing = False

    def read_report(self):
        read = self.run.stdout.read(1 << 20)
        if read == b"":
            self.is_over = True
            return
        *lines, self.unread = (self.unread + (read or b"")).split(b"\n")
        for line in lines:
            for file in self.records[1:]:
                file.write(line + b"\n")
            self.take_event(line.decode())

    # Programs.

    def welcome(self, port, keys, listener):
        link, _ = listener.accept()
        link.setblocking(False)
        if port.is_manager:
            self.manager.make_ready()
        try:
            link.send(b"ready")
        except OSError:
            link.close()  # it has ended
            return
        client = Client(port, keys, link)
        self.selector.register(link, selectors.EVENT_READ, lambda events: self.serve(client, events))

    def serve(self, client, events):
        if events & selectors.EVENT_WRITE:
            self.flush(client)
        if not events & selectors.EVENT_READ:
            return
        try:
            packet = client.link.recv(65536)
        except BlockingIOError:
            return
        except ConnectionError:
            packet = b""
        if packet == b"":
            self.part(client)
        elif packet[:4] == b"\xff\xff\xff\xff":
            try:
                self.obey(client, packet[4:].decode().split())
            except (ValueError, IndexError):
                say(f"{client} asks the device for what is no request")
        else:
            self.send(client, packet)

    def part(self, client):
        for agent in client.agents.values():
            agent.end()
        client.agents.clear()
        self.selector.unregister(client.link)
        client.link.close()
        client.link = None

    def obey(self, client, words):
        if words[0] == "register":
            agent = Agent(client, words[1:])
            client.agents[agent.id] = client.port.agents[agent.number] = agent
        elif int(words[1]) in client.agents:
            client.agents.pop(int(words[1])).end()

    def deliver(self, agent, mad, lid, index, status=0):
        """Lets a program read a MAD; or, with a status, that its request has no response."""
        client = agent.client
        if client.link is None:
            return
        header = UMAD.pack(agent.id, status, 0, 0, UMAD_BYTES + len(mad)) + struct.pack(">IIHBB", agent.qp, 0, lid, 0, 0)
        header += bytes(24) + struct.pack("<H", index) + bytes(6)
        if len(client.queue) == QUEUED:
            say(f"{client} does not read; a MAD to it is dropped")
            return
        client.queue.append(header + mad)
        self.flush(client)

    def flush(self, client):
        try:
            while client.queue:
                client.link.send(client.queue[0])
                client.queue.popleft()
        except BlockingIOError:
            pass
        except (BrokenPipeError, ConnectionResetError):
            client.queue.clear()  # it has ended
        except OSError as error:
            say(f"{client} does not get {len(client.queue[0])} bytes: {error.strerror}")
            client.queue.clear()
        events = selectors.EVENT_READ | (selectors.EVENT_WRITE if client.queue else 0)
        self.selector.modify(client.link, events, lambda events: self.serve(client, events))

    # From a program to the fabric.

    def send(self, client, packet):
        agent_id, _, timeout, retries, _ = UMAD.unpack_from(packet.ljust(UMAD_BYTES, b"\0"))
        agent = client.agents.get(agent_id)
        mad = packet[UMAD_BYTES:]
        if agent is None or len(mad) < 36 or len(mad) > MAD_BYTES and not is_active(mad):
            say(f"{client} sends {len(packet)} bytes that are no MAD of an agent; they are dropped")
            return
        tid = mad[8:16]
        if not mad[3] & RESPONSE:
            mad = mad[:8] + struct.pack(">II", agent.number, next(client.port.request_count)) + mad[16:]
        qp, lid, index = number(packet, 20, 4) & 0xFFFFFF, number(packet, 28, 2), struct.unpack_from("<H", packet, 56)[0]
        if len(mad) > MAD_BYTES:
            message = client.port.outgoing[lid, mad[8:16]] = Outgoing(mad)
            self.send_on(client, lid, index, message, 1)
            return
        mad = mad.ljust(MAD_BYTES, b"\0")
        if agent.qp == 0 and client.port.is_manager:
            self.exchange(Request(agent, mad, tid, None, timeout, 0), lid)
            return
        self.warn_of(client, mad, lid, index, qp)
        repaired = self.repairs.outward(client.port, mad) if self.repairs else mad
        if isinstance(repaired, tuple):
            self.answer(Request(agent, mad, tid, None, timeout, 0), repaired[0], lid, index)
            return
        line = self.line_of(client, lid, index, qp, repaired)
        if timeout and not mad[3] & RESPONSE:
            self.wait(Request(agent, repaired, tid, line, timeout, retries))
        if line:
            self.put(line)

    def warn_of(self, client, mad, lid, index, qp):
        """Says if nothing can answer: an SMP is sent at another port than the SM's, or no P_Key of that port matches."""
        if client.port.is_manager or index >= len(client.order):
            return
        key = client.order[index]
        if qp == 0:
            client.warn(f"sends an SMP, which its port refuses (AR2): only at the SM port, {self.names[1]}, are SMPs answered")
        elif mad[1] == SA and lid == 1 and not any(are_matching(key, held) for held in self.ports[self.names[1]].keys):
            client.warn(f"asks the SA by P_Key 0x{key:04x}, which matches none of the SM port's: there is no answer")

    def send_on(self, client, lid, index, message, window):
        """The segments of a message that the receiver allows."""
        for mad in message.allowed(window):
            line = self.line_of(client, lid, index, 1, mad)
            if line:
                self.put(line)

    def line_of(self, client, lid, index, qp, mad):
        """The line of the script that sends this; none if the port cannot send it."""
        if client.port.is_manager:
            say(f"{client} sends a packet, but no script can send from the SM port; it is dropped")
        elif index >= len(client.order):
            say(f"{client} sends by P_Key index {index}, which is empty; the packet is dropped")
        else:
            data = mad.rstrip(b"\0").hex()
            return f"send {client.port.name} {lid} 0x{client.order[index]:04x} {qp} {len(mad)}:{data}".encode()
        return None

    def exchange(self, request, lid):
        """An SMP of the SM port is answered at once, or never."""
        reply = self.manager.exchange(request.mad, lid)
        if reply:
            self.answer(request, reply, lid, 0)
        elif request.timeout:
            self.give_up(request)

    def wait(self, request):
        request.agent.waiting[request.mad[8:16]] = request
        heapq.heappush(self.timers, (request.until, next(self.order), request))

    def time_out(self, request):
        """Its time is over, unless it was given more, or has its response."""
        agent = request.agent
        if agent.waiting.get(request.mad[8:16]) is not request:
            return
        if request.until > time.monotonic():
            self.wait(request)
        elif request.retries and request.line:
            request.retries, request.is_repeated = request.retries - 1, True
            request.until = time.monotonic() + request.timeout
            self.put(request.line)
            self.wait(request)
        else:
            del agent.waiting[request.mad[8:16]]
            self.end_tables(agent.client.port, request)
            self.give_up(request)

    def end_tables(self, port, request):
        """Drops what has come of a table. The SA has one transfer at a time for a port, so that another table ends it."""
        for place in [place for place in port.incoming if place[1] == request.mad[8:16]]:
            text = f"its segments end after {len(port.incoming.pop(place).segments)}"
            if port.latest == place:
                self.judge(port, request.mad, [f"{text}, without the flag Last"])
            else:
                say(f"{request.agent.client}: {summary(request.mad)}: {text}, since another table began at the port")

    def answer(self, request, mad, lid, index):
        self.deliver(request.agent, mad[:8] + request.tid + mad[16:], lid, index)

    def give_up(self, request):
        self.deliver(request.agent, request.mad[:8] + request.tid + request.mad[16:24], 0, 0, errno.ETIMEDOUT)

    # From the fabric to a program.

    def take_event(self, line):
        words = line.split()
        port = self.ports.get(words[0])
        if port is None or words[1] != "recv":
            self.show(line)
            return
        slid, pkey, qp = int(words[2], 16), int(words[4], 16), int(words[5], 16)
        length, digits = words[6].split(":")
        mad = bytes.fromhex(digits).ljust(int(length), b"\0")
        if qp != 1 or len(mad) != MAD_BYTES:
            self.show(line)
            return
        self.show(f"{port.name} receives from LID {slid}, P_Key 0x{pkey:04x}: {summary(mad)}")
        bases = [key & 0x7FFF for key in port.keys]
        if pkey & 0x7FFF not in bases:
            self.judge(port, mad, [f"it arrives with P_Key 0x{pkey:04x}, which the port does not hold"])
            return
        index = bases.index(pkey & 0x7FFF)
        if mad[3] & RESPONSE:
            agent = port.agents.get(number(mad, 8, 4))
            if agent:
                mad = self.repairs.inward(port, mad) if self.repairs else mad
                self.take_response(port, agent, slid, index, mad)
            return
        message = port.outgoing.get((slid, mad[8:16])) if is_active(mad) else None
        for agent in list(port.agents.values()):
            if agent.qp == 1 and agent.takes(mad):
                index = agent.client.order.index(port.keys[index])
                if message and mad[25] == IS_ACK:
                    self.send_on(agent.client, slid, index, message, number(mad, 32, 4))
                    if number(mad, 28, 4) == len(message.segments):
                        del port.outgoing[slid, mad[8:16]]
                else:
                    self.deliver(agent, mad, slid, index)
                return

    def take_response(self, port, agent, slid, index, mad):
        request = agent.waiting.get(mad[8:16])
        if request is None:
            return
        index = agent.client.order.index(port.keys[index])
        if is_active(mad) and agent.joins_tables:
            self.take_segment(port, request, slid, index, mad)
            return
        if mad[1] == SA:
            self.judge(port, request.mad, response_errors(request.mad, mad, port.keys))
        del agent.waiting[mad[8:16]]
        self.answer(request, mad, slid, index)

    def take_segment(self, port, request, slid, index, mad):
        """A segment of a response, which is acknowledged if that is due."""
        place = slid, mad[8:16]
        message = port.incoming.get(place) or Incoming(request.mad)
        if request.is_repeated and number(mad, 28, 4) == 1:
            message = Incoming(request.mad)
        if mad[25] != IS_DATA or number(mad, 28, 4) != message.expected():
            self.judge(port, request.mad, segment_errors(request.mad, message.segments + [mad], port.keys))
            return
        port.incoming[place] = message
        if not message.segments:
            port.latest = place
        ack = message.take(mad)
        is_last = bool(mad[26] & LAST)
        if mad[1] == SA:
            wrong = segment_errors(request.mad, message.segments, port.keys)
            if wrong or is_last:
                self.judge(port, request.mad, wrong)
        request.until = time.monotonic() + request.timeout
        if ack:
            self.put(self.line_of(request.agent.client, slid, index, 1, ack))
        if is_last:
            del port.incoming[place]
            del request.agent.waiting[mad[8:16]]
            self.answer(request, message.whole(), slid, index)

    def judge(self, port, request, wrong):
        self.checked += 1
        self.wrong += bool(wrong)
        for text in wrong[:3]:  # (of a table each record may have the same)
            say(f"WRONG response of the SA to {port.name}, to {summary(request)}: {text}")

    def show(self, text):
        if self.is_shown:
            say(text)

    # The whole.

    def turn(self, longest=60):
        """One round: what is there to read and write, and the requests whose time is over."""
        rest = min(longest, self.timers[0][0] - time.monotonic() if self.timers else longest)
        for key, events in self.selector.select(max(0, rest)):
            key.data(events)
        while self.timers and self.timers[0][0] <= time.monotonic():
            self.time_out(heapq.heappop(self.timers)[2])

    def serve_until_end(self):
        """Until standard input ends. Whether the program lived so long, and then ended well."""
        asked = []
        os.set_blocking(0, False)
        self.selector.register(0, selectors.EVENT_READ, lambda _: asked.append(True) if os.read(0, 4096) == b"" else None)
        end = time.monotonic() + STARTING
        while not self.is_carried_out() and not asked and not self.is_over and time.monotonic() < end:
            self.turn(0.01)
        if self.is_over or time.monotonic() >= end:
            return False
        tell("ready")
        while not asked and not self.is_over:
            self.turn()
        lived = not self.is_over
        end = time.monotonic() + ENDING
        while self.unwritten and not self.is_over and time.monotonic() < end:
            self.turn()
        os.close(self.input)
        while not self.is_over and time.monotonic() < end:
            self.read_or_wait()
        return lived and self.is_over and self.run.wait(ENDING) == 0

    def read_or_wait(self):
        self.read_report()
        time.sleep(0.001)

    def end(self, is_well):
        if not is_well:
            self.run.kill()
            self.faults.seek(0)
            text = self.faults.read().decode(errors="replace").strip()
            say(f"the program ended: status {self.run.wait()}{', ' + text if text else ''}")
        self.manager.end()
        for file in [self.script] + self.records:
            file.close()
        tell(f"{self.checked} SA responses checked, {self.wrong} wrong")
        return 0 if is_well and not self.wrong else 1


def are_matching(one, other):
    """Whether two P_Keys name one partition, and one of them is a full member's."""
    return one & 0x7FFF == other & 0x7FFF != 0 and bool((one | other) & 0x8000)


def summary(mad):
    """A MAD in a few words."""
    methods = {0x01: "Get", 0x02: "Set", 0x12: "GetTable", 0x15: "Delete", 0x81: "GetResp", 0x92: "GetTableResp", 0x95: "DeleteResp"}
    method = methods.get(mad[3], f"method 0x{mad[3]:02x}")
    status = f", status 0x{number(mad, 4, 2):04x}" if mad[3] & RESPONSE else ""
    if mad[1] == SA:
        part = f", segment {number(mad, 28, 4)}" if is_active(mad) else ""
        return f"SA {method} {name_of(number(mad, 16, 2))}{part}{status}"
    return f"class 0x{mad[1]:02x} {method} attribute 0x{number(mad, 16, 2):04x}{status}"


def module_of(path):
    spec = importlib.util.spec_from_file_location("repairs", path)
    module = importlib.util.module_from_spec(spec)
    spec.loader.exec_module(module)
    return module


def main():
    parser = argparse.ArgumentParser()
    for name in ("PROGRAM", "TOPO", "PARTS", "DIR"):
        parser.add_argument(name)
    parser.add_argument("--script")
    parser.add_argument("--record")
    parser.add_argument("--show", action="store_true")
    parser.add_argument("--repairs", help="a module that changes MADs on their way, as a test needs it")
    given = parser.parse_args()
    starter = os.getppid()
    try:
        script = pathlib.Path(given.script).read_bytes() if given.script else b""
        repairs = module_of(given.repairs) if given.repairs else None
        bridge = Bridge(given.PROGRAM, given.TOPO, given.PARTS, pathlib.Path(given.DIR), script, given.record, given.show, repairs)
    except (Failed, OSError) as error:
        say(reason(error, given.DIR))
        return 1
    status = bridge.end(bridge.serve_until_end())
    if os.getppid() != starter:
        shutil.rmtree(given.DIR, ignore_errors=True)  # it was killed
    return status


def reason(error, folder):
    """Why the bridge does not start, in words."""
    if "AF_UNIX" in str(error):
        return f"the names of sockets in {folder} are too long: let TMPDIR be a folder with a shorter name"
    if isinstance(error, OSError) and error.filename:
        return f"{error.filename}: {error.strerror}"
    return error


if __name__ == "__main__":
    sys.exit(main())
