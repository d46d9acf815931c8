#!/usr/bin/env python3
"""Works out anew what `fabric audit` has to print of a fabric and a dump, and its status:
    tests/oracle/audit.py FABRIC DUMP [--all]
FABRIC is a topology, or what ibnetdiscover printed. It knows nothing of the program: it reads lines by patterns, follows each
LID with a set of switches seen, and looks for circles by a search from each channel.
"""
import collections
import re
import sys

sys.dont_write_bytecode = True
from topology import Topology  # noqa: E402

Node = collections.namedtuple("Node", "is_switch name guid ports is_aggregation", defaults=[False])
Row = collections.namedtuple("Row", "port guid kind")


def read_topology(file):
    topology = Topology(file)
    places = {name: place for place, name in enumerate(topology.nodes)}
    nodes = [Node(node.is_switch, name, node.guid, node.ports) for name, node in topology.nodes.items()]
    return nodes, [[(places[name], port) for name, port in cable] for cable in topology.cables]


HEADER = re.compile(r'(Switch|Ca|Rt)\s+(\d+) "[SHR]-([0-9a-f]+)"\s+# "(.*)"(?: \w+ port 0 lid (\d+))?')
LINE = re.compile(r'\[(\d+)\](?:\[ext \d+\])?(?:\(([0-9a-f]+)\))?\s+"[SHR]-([0-9a-f]+)"\[(\d+)\](?:[^"#]*#\s+lid (\d+))?')


class Found:
    """What ibnetdiscover printed: nodes, the cables that join a switch and those that do not, end ports by GUID, and their LIDs."""

    def __init__(self, text):
        self.nodes, ends, own, names, lids = [], [], [], [], []
        port_0 = None
        for line in text.splitlines():
            if found := re.match(r"switchguid=0x[0-9a-f]+\(([0-9a-f]+)\)", line):
                port_0 = int(found[1], 16)
            elif found := HEADER.match(line):
                place, guid = len(self.nodes), int(found[3], 16)
                is_switch = found[1] == "Switch"
                self.nodes.append(Node(is_switch, found[4], guid, int(found[2]), not is_switch and found[4].endswith("Aggregation Node")))
                if is_switch:
                    own.append((port_0 or guid, (place, 0)))
                    lids.append((0, int(found[5] or 0), port_0 or guid))
                port_0 = None
            elif found := LINE.match(line):
                here = len(self.nodes) - 1, int(found[1])
                if found[2]:
                    own.append((int(found[2], 16), here))
                    lids.append((1, int(found[5] or 0), int(found[2], 16)))
                ends.append((here, (int(found[3], 16), int(found[4]))))
        own.sort(key=lambda end: end[1][1] != 0)  # those of switches first
        lids.sort(key=lambda lid: lid[0])
        self.lids = [(lid, guid) for _, lid, guid in lids if 0 < lid < 0xC000]
        self.ports = {}
        for guid, at in own:
            self.ports.setdefault(guid, at)
        places = {node.guid: place for place, node in enumerate(self.nodes)}
        cables = [(here, (places[guid], port)) for here, (guid, port) in ends]
        once = [cable for cable in cables if cable[0] <= cable[1]]
        joins = [any(self.nodes[place].is_switch for place, _ in cable) for cable in once]
        self.cables = [cable for cable, joined in zip(once, joins) if joined]
        self.apart = [cable for cable, joined in zip(once, joins) if not joined]
        counts = collections.Counter(node.name for node in self.nodes)
        for place, node in enumerate(self.nodes):
            if not node.name or counts[node.name] > 1:
                names.append(f"{node.name} 0x{node.guid:016x}".removeprefix(" " if not node.name else ""))
            else:
                names.append(node.name)
        self.nodes = [node._replace(name=name) for node, name in zip(self.nodes, names)]


def read_dump(file):
    """Of each switch, by its GUID, the top of its table and its rows by LID. A table counts at its last line."""
    tables, rows, switch, top = {}, None, 0, 0
    for line in open(file):
        heading = re.match(r"Unicast lids \[0x0-(0x[0-9a-f]+)\] of switch .* guid (0x[0-9a-f]+) \(", line)
        row = re.match(r"(0x[0-9a-f]+) (\d+) : \((.*)\)\s*$", line)
        if heading:
            switch, top, rows = int(heading[2], 16), int(heading[1], 16), {}
        elif rows is not None and re.match(r"\w+ (valid )?lids dumped", line):
            tables[switch] = top, rows
            rows = None
        elif re.match(r"\S+: iberror: ", line):
            rows = None
        elif row and rows is not None:
            guid = re.search(r"portguid (0x[0-9a-f]+)", row[3])
            kind = re.match(r"Channel Adapter|Switch|Router|node info not available", row[3])
            rows[int(row[1], 16)] = Row(int(row[2]), int(guid[1], 16) if guid else None, kind[0] if kind else None)
    return tables


class Net:
    def __init__(self, fabric, dump):
        text = open(fabric, errors="surrogateescape").read()
        found = Found(text) if re.search(r"^(Switch|Ca|Rt)\s", text, re.M) else None
        if found:
            self.nodes, self.cables, self.apart = found.nodes, found.cables, found.apart
        else:
            (self.nodes, self.cables), self.apart = read_topology(fabric), []
        self.tables = read_dump(dump)
        self.far = {here: there for a, b in self.cables for here, there in ((a, b), (b, a))}
        self.switches = [place for place, node in enumerate(self.nodes) if node.is_switch]
        ports = found.ports if found else {}
        for place, node in enumerate([] if found else self.nodes):
            for number in [0] if node.is_switch else range(1, node.ports + 1):
                ports.setdefault(node.guid + number, (place, number))
        self.own_guids = {at: guid for guid, at in ports.items()}
        self.guids = {}
        for _, rows in self.tables.values():
            for lid, row in rows.items():
                if row.guid is not None:
                    self.guids.setdefault(lid, row.guid)
        # what a port reports counts if no row gives it a LID, and no row says whose that LID is
        told = set(self.guids.values())
        reported = {}
        for lid, guid in found.lids if found else []:
            if guid not in told:
                reported.setdefault(lid, guid)
        self.guids = {**reported, **self.guids}
        self.lids = sorted({lid for _, rows in self.tables.values() for lid in rows} | set(reported))
        # a row that calls a LID a channel adapter's or a switch's is believed: then its port is one of that kind
        self.ends = {lid: ports[guid] for lid, guid in self.guids.items() if guid in ports and self.fits(lid, ports[guid])}
        self.attached = [place for place in self.switches if any(at[0] == place and self.is_host(end[0]) for at, end in self.far.items())]

    def is_switch(self, place):
        return self.nodes[place].is_switch

    def is_host(self, place):
        return not self.is_switch(place) and not self.nodes[place].is_aggregation

    def kinds(self, lid):
        """What the rows of the switches of the topology say of the LID."""
        tables = [self.tables[self.nodes[place].guid][1] for place in self.switches if self.nodes[place].guid in self.tables]
        return {rows[lid].kind for rows in tables if lid in rows}

    def fits(self, lid, end):
        return not self.kinds(lid) & ({"Channel Adapter", "Router"} if self.is_switch(end[0]) else {"Switch"})

    def port(self, at):
        return f"{self.nodes[at[0]].name}/{at[1]}"

    def name(self, place):
        return self.nodes[place].name

    def whose(self, lid):
        """The LID, and the port that has it."""
        return f"{lid} ({self.port(self.ends[lid])})" if lid in self.ends else f"{lid}"

    def hops(self, place, lid):
        """The ports by which packets of the LID leave switches, from this one on, until they end or come back."""
        seen = set()
        while place not in seen:
            seen.add(place)
            kind, what = self.turn(place, lid)
            if kind != "goes":
                return
            yield place, self.entry(place, lid)
            place = what

    def used(self, lid):
        """The ports by which packets of hosts leave switches for other switches."""
        return {at for place in self.attached for at in self.hops(place, lid)}

    def steps(self, lids, by_hosts=()):
        """Of each two ports that packets leave by one behind the other, the LIDs. For these LIDs packets of hosts count alone."""
        steps = collections.defaultdict(set)
        for lid in lids:
            froms = self.used(lid) if lid in by_hosts else {(place, self.entry(place, lid)) for place in self.switches}
            for at in froms:
                there = self.far.get(at)
                if there and self.is_switch(there[0]):
                    steps[at, (there[0], self.entry(there[0], lid))].add(lid)
        return steps

    def circle_line(self, word, ring, steps):
        closing = (self.whose(min(steps[step])) for step in zip(ring, ring[1:] + ring[:1]))
        return f"{word} {' '.join(map(self.port, ring))} by LIDs {' '.join(closing)}"

    def entry(self, place, lid):
        """A port, `None`, or 'unknown'."""
        if self.nodes[place].guid not in self.tables:
            return "unknown"
        top, rows = self.tables[self.nodes[place].guid]
        if lid not in rows:
            return "unknown" if lid == top and top % 64 == 0 or self.nodes[place].ports >= 128 else None
        return None if rows[lid].port == 255 else rows[lid].port

    def turn(self, place, lid):
        entry = self.entry(place, lid)
        if entry in (None, "unknown"):
            return ("hole" if entry is None else "unknown"), None
        if entry == 0:
            return "arrives", (place, 0)
        there = self.far.get((place, entry))
        if there is None:
            return "nowhere", entry
        return ("goes", there[0]) if self.nodes[there[0]].is_switch else ("arrives", there)

    def fate(self, place, lid):
        seen = set()
        while place not in seen:
            seen.add(place)
            kind, what = self.turn(place, lid)
            if kind == "arrives":
                return "reached" if what == self.ends[lid] else "wrong"
            if kind != "goes":
                return kind
            place = what
        return "loop"

    def loop(self, place, lid):
        """The switches of a loop through this one, if there is one."""
        ring, at = [place], self.turn(place, lid)
        while at[0] == "goes" and at[1] not in ring:
            ring.append(at[1])
            at = self.turn(at[1], lid)
        return ring if at == ("goes", place) else None

    def files(self):
        for a, b in self.apart:
            yield f"# passed over: {self.port(a)} {self.port(b)}"
        if not self.switches:
            yield "# no switches"
        for place in self.switches:
            if self.nodes[place].guid not in self.tables:
                yield f"no-table {self.name(place)}"
        for guid in self.tables:
            if guid not in [self.nodes[place].guid for place in self.switches]:
                yield f"no-switch 0x{guid:016x}"
        for lid in self.lids:
            if lid in self.guids and lid not in self.ends:
                yield f"no-port {lid} 0x{self.guids[lid]:016x}"
        for cable in self.cables:
            for end in cable:
                if not self.nodes[end[0]].is_switch and end not in self.ends.values():
                    yield f"no-lid {self.port(end)}"
        for top in sorted({top for top, rows in self.tables.values() if top % 64 == 0 and top not in rows} - set(self.lids)):
            yield f"untold {top}"

    def trouble(self, place, lid):
        kind, what = self.turn(place, lid)
        if lid not in self.guids:
            _, rows = self.tables.get(self.nodes[place].guid, (0, {}))
            row = rows.get(lid)
            if row and row.kind == "node info not available" and row.port != 255:
                yield f"stray {self.name(place)} {lid}"
            if kind == "unknown" and self.nodes[place].guid in self.tables and self.is_fed(place, lid):
                yield f"left-out {self.name(place)} {lid}"
        elif kind == "hole":
            yield f"hole {self.name(place)} {self.whose(lid)}"
        elif kind == "unknown" and self.nodes[place].guid in self.tables:
            yield f"left-out {self.name(place)} {self.whose(lid)}"
        if lid in self.ends and kind == "nowhere":
            yield f"nowhere {self.name(place)} {self.whose(lid)} port {what}"
        if lid in self.ends and kind == "arrives" and what != self.ends[lid]:
            yield f"wrong {self.name(place)} {self.whose(lid)} {self.port(what)}"
        ring = self.loop(place, lid) if kind == "goes" else None
        if ring and min(ring) == place:
            yield f"loop {self.whose(lid)} {' '.join(map(self.name, ring))}"

    def is_fed(self, place, lid):
        """Some switch sends the LID there."""
        return any(self.turn(other, lid) == ("goes", place) for other in self.switches)

    def named(self, places):
        """How many switches, and the names of eight."""
        more = [f"and {len(places) - 8} more"] if len(places) > 8 else []
        return f"{len(places)} switches: " + " ".join([*map(self.name, places[:8]), *more])

    def unreached(self, hosts):
        """The LIDs of hosts that packets from some switch with a host are lost on their way to."""
        for lid in hosts:
            places = [place for place in self.attached if self.fate(place, lid) not in ("reached", "unknown")]
            if places:
                yield f"unreached {self.whose(lid)} from {self.named(places)}"

    def unknown(self, hosts, others):
        """The LIDs whose entry is unknown at a switch that has a table, and to which packets come."""
        for lid in others:
            lacking = [place for place in self.switches if self.nodes[place].guid in self.tables and self.entry(place, lid) == "unknown"]
            places = [place for place in lacking if (lid in hosts and place in self.attached) or self.is_fed(place, lid)]
            if places:
                yield f"unknown {self.whose(lid)} at {self.named(places)}"

    def asks(self):
        """The switches whose table may lack rows of ports from 128 on, by their LIDs."""
        for place in self.switches:
            if self.nodes[place].ports < 128 or self.nodes[place].guid not in self.tables:
                continue
            if any(self.turn(place, lid)[0] == "unknown" and (lid in self.ends or self.is_fed(place, lid)) for lid in self.lids):
                for lid in [lid for lid in self.lids if self.ends.get(lid) == (place, 0)][:1]:
                    yield f"# ask: ibroute {lid}, and append its table to the dump"

    def circle(self, steps):
        """The shortest circle of these steps through the least channel that is on one, by the least channel at each step."""
        ports = [(place, number) for place in self.switches for number in range(1, self.nodes[place].ports + 1)]
        channels = {at for at in ports if at in self.far and self.nodes[self.far[at][0]].is_switch}
        nexts = {at: set() for at in channels}
        for at, after in steps:
            if at in channels and after in channels:
                nexts[at].add(after)
        for home in sorted(channels):
            # how many steps lead home from each
            steps, front = {}, {home}
            while front:
                count = len(front) and max(steps.values(), default=0) + 1
                front = {at for at in channels if at not in steps and nexts[at] & front}
                steps.update({at: count for at in front})
            if home in steps:
                ring = [home]
                while len(ring) < steps[home]:
                    ring.append(min(at for at in nexts[ring[-1]] if steps.get(at) == steps[home] - len(ring)))
                return ring
        return None

    def lacks(self, lid):
        """A row gives the LID to a channel adapter or a switch that the topology lacks."""
        return lid not in self.ends and self.kinds(lid) & {"Channel Adapter", "Switch"}

    def knows_next(self, place, lid):
        """The entry is known of the switch to which this one sends the LID, if there is one."""
        kind, what = self.turn(place, lid)
        return kind != "goes" or self.turn(what, lid)[0] != "unknown"

    def audit(self, whole=False):
        """The lines, with all those by switch and LID or with their number, and the status."""
        hosts = [lid for lid in self.lids if lid in self.ends and self.is_host(self.ends[lid][0])]
        aggregation = [lid for lid in self.lids if lid in self.ends and self.nodes[self.ends[lid][0]].is_aggregation]
        own = [lid for lid in self.lids if lid in self.ends and self.is_switch(self.ends[lid][0])]
        others = [lid for lid in self.lids if lid not in own]
        words = {"deadlock": self.steps(others, aggregation), "deadlock aggregation-lids": self.steps(others), "deadlock switch-lids": self.steps(self.lids)}
        circles = {}
        for word, steps in words.items():
            circles[word] = None if any(circles.values()) else self.circle(steps)
        ring = circles["deadlock"]
        lines = list(self.files())
        unnamed = any(line.startswith("no-lid") for line in lines)
        lines += self.unreached(hosts)
        lines += self.unknown(hosts, others)
        lines += self.asks()
        lines += [self.circle_line(word, found, words[word]) for word, found in circles.items() if found]
        troubles = [line for place in self.switches for lid in self.lids for line in self.trouble(place, lid)]
        counted = [f"# {len(troubles)} lines by switch and LID: --all prints them"] if troubles else []
        lines += troubles if whole else counted
        transit = [place for place in self.switches if place not in self.attached]
        groups = [
            ("adapters", [(place, lid) for place in self.attached for lid in hosts], ", deadlock" if ring else ", no deadlock"),
            ("transit", [(place, lid) for place in transit for lid in hosts], ""),
            ("aggregation", [(place, lid) for place in self.switches for lid in aggregation], ""),
            ("switches", [(place, lid) for place in self.switches for lid in own], ""),
        ]
        groups.append(("audit", [pair for _, pairs, _ in groups for pair in pairs], ", deadlock" if any(circles.values()) else ", no deadlock"))
        for title, pairs, words in groups:
            if title == "aggregation" and not pairs:
                continue
            fates = collections.Counter(self.fate(place, lid) for place, lid in pairs)
            kinds = [("reached", "reached"), ("hole", "holes"), ("nowhere", "nowhere"), ("wrong", "wrong"), ("loop", "loops"), ("unknown", "unknown")]
            lines.append(f"{title}: {len(pairs)} pairs, " + ", ".join(f"{fates[kind]} {word}" for kind, word in kinds) + words)
        guids = {self.nodes[place].guid for place in self.switches}
        deciding = [self.fate(*pair) for pair in groups[0][1]]
        reasons = [
            word
            for word, holds in [
                ("no-lid", not unnamed),
                ("unreached", all(fate in ("reached", "unknown") for fate in deciding)),
                ("deadlock", not ring),
                ("mismatch", self.tables and guids == set(self.tables) and not any(map(self.lacks, self.lids))),
                ("unknown", "unknown" not in deciding and all(self.knows_next(place, lid) for place in self.switches for lid in others)),
            ]
            if not holds
        ]
        safe = f"not safe ({', '.join(reasons)})" if reasons else "safe"
        lines.append(f"verdict: {safe}, as if all packets used one virtual lane; multicast is not judged")
        return lines, 1 if reasons else 0


if __name__ == "__main__":
    lines, status = Net(*sys.argv[1:3]).audit(whole="--all" in sys.argv[3:])
    print("\n".join(lines))
    sys.exit(status)
