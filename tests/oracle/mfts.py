#!/usr/bin/env python3
"""Works out anew what `fabric audit --mft` has to print of a fabric, its LFTs and its MFTs, and its status:
    tests/oracle/mfts.py FABRIC DUMP MFTS
FABRIC is a topology, or what ibnetdiscover printed. The lines on LFTs are those of audit.py. It knows nothing of the program: it
reads rows by their columns, and follows the copies of a packet one by one, the oldest first.
"""
import collections
import re
import sys

sys.dont_write_bytecode = True
import audit  # noqa: E402

ORDER = ["no-lid", "unreached", "deadlock", "mismatch", "unknown", "multicast-loop", "multicast-copies", "multicast-cut"]


def read_mfts(file):
    """Of each switch, by its GUID, the ports of the mask of each MLID. An MFT counts at its last line."""
    tables, rows, guid = {}, None, 0
    for line in open(file, errors="surrogateescape"):
        heading = re.match(r"Multicast mlids \[0xc000-0x[0-9a-f]+\] of switch .* guid (0x[0-9a-f]+) \(", line)
        if heading:
            guid, rows = int(heading[1], 16), {}
        elif rows is not None and re.match(r"\w+ (valid )?mlids dumped", line):
            tables[guid] = rows
            rows = None
        elif line.startswith("Unicast lids") or re.match(r"\S+: iberror: ", line):
            rows = None
        elif rows is not None and re.match(r"0x[cdef]", line):
            cells = line.rstrip()[12:]
            rows[int(line[:6], 16)] = {column // 2 for column, cell in enumerate(cells) if cell == "x"}
    return tables


class Masks:
    """The masks of one MLID over a fabric."""

    def __init__(self, net, tables, mlid):
        self.net = net
        self.ports = {place: tables.get(net.nodes[place].guid, {}).get(mlid, set()) for place in net.switches}

    def outs(self, place, but=0):
        """The ports by which a packet leaves for another switch, if it came in by port `but`."""
        for number in range(1, self.net.nodes[place].ports + 1):
            there = self.net.far.get((place, number))
            if number in self.ports[place] and number != but and there and self.net.is_switch(there[0]):
                yield place, number

    def next(self, at):
        return list(self.outs(*self.net.far[at]))

    def copy(self, place):
        """The first switch to which a packet that enters there comes again."""
        met, flying = {place}, collections.deque(self.outs(place))
        while flying:
            at = flying.popleft()
            there = self.net.far[at][0]
            if there in met:
                return there
            met.add(there)
            flying.extend(self.next(at))
        return None

    def members(self, place):
        """The ports of the switch that are in its mask, and lead to end ports."""
        ends = ((number, self.net.far.get((place, number))) for number in sorted(self.ports[place]))
        return [(place, number) for number, end in ends if number and end and not self.net.is_switch(end[0])]

    def receives(self, place):
        """The switches to which a packet that enters there comes."""
        met, seen, flying = {place}, set(), list(self.outs(place))
        while flying:
            at = flying.pop()
            if at not in seen:
                seen.add(at)
                met.add(self.net.far[at][0])
                flying.extend(self.next(at))
        return met

    def cut(self):
        """The first member that others do not receive, and these."""
        members = [at for place in self.net.switches for at in self.members(place)]
        for place in dict.fromkeys(at[0] for at in members):
            met = self.receives(place)
            if missed := [at for at in members if at[0] not in met]:
                return self.members(place)[0], missed
        return None

    def loop(self):
        """The shortest loop through the least port that is on one, by the least port at each step."""
        ports = [at for place in self.net.switches for at in self.outs(place)]
        befores = collections.defaultdict(list)
        for at in ports:
            for after in self.next(at):
                befores[after].append(at)
        for home in ports:
            steps, front = {}, [home]  # how many steps lead home from each
            count = 0
            while front and home not in steps:
                count += 1
                front = [at for at in dict.fromkeys(before for after in front for before in befores[after]) if at not in steps]
                steps.update({at: count for at in front})
            if home in steps:
                ring = [home]
                while len(ring) < steps[home]:
                    ring.append(next(at for at in self.next(ring[-1]) if steps.get(at) == steps[home] - len(ring)))
                return ring
        return None


def lines_of(net, tables):
    """The lines on multicast, and the words of the verdict that they bring."""
    guids = {net.nodes[place].guid: place for place in net.switches}
    lacking = [place for place in net.switches if net.nodes[place].guid not in tables]
    strange = [guid for guid in tables if guid not in guids]
    lines = [f"multicast no-table {net.name(place)}" for place in lacking]
    lines += [f"multicast no-switch 0x{guid:016x}" for guid in strange]
    for place in net.switches:
        for mlid, mask in sorted(tables.get(net.nodes[place].guid, {}).items()):
            for number in sorted(mask - {0}):
                word = "no-port" if number > net.nodes[place].ports else "nowhere"
                if (place, number) not in net.far or word == "no-port":
                    lines.append(f"multicast {word} {net.name(place)} 0x{mlid:04x} port {number}")
    entrances = [place for place in net.switches if any(at[0] == place and not net.is_switch(end[0]) for at, end in net.far.items())]
    mlids = sorted({mlid for rows in tables.values() for mlid in rows})
    loops = copies = cuts = 0
    for mlid in mlids:
        masks = Masks(net, tables, mlid)
        if ring := masks.loop():
            loops += 1
            lines.append(f"multicast loop 0x{mlid:04x} {' '.join(map(net.port, ring))}")
        found = next(((place, there) for place in entrances if (there := masks.copy(place)) is not None), None)
        if found:
            copies += 1
            lines.append(f"multicast copies 0x{mlid:04x} {net.name(found[1])} from {net.name(found[0])}")
        if found := masks.cut():
            cuts += 1
            here, there = (net.port(net.far[at]) for at in (found[0], found[1][0]))
            lines.append(f"multicast cut 0x{mlid:04x} {there} from {here}, and {len(found[1]) - 1} more")
    lines.append(f"multicast: {len(mlids)} MLIDs, {loops} with a loop, {copies} with copies, {cuts} cut")
    lines.append("# multicast: a member to which no mask leads is unknown, since MFTs do not say who is a member")
    words = [("mismatch", strange), ("unknown", lacking), ("multicast-loop", loops), ("multicast-copies", copies), ("multicast-cut", cuts)]
    return lines, {word for word, holds in words if holds}


def audit_with(net, tables, whole=False):
    """The lines, with all those of the LFTs by switch and LID or with their number, and the status."""
    routes, _ = net.audit(whole)
    found = re.search(r"not safe \(([^)]*)\)", routes[-1])
    lines, words = lines_of(net, tables)
    words |= set(found[1].split(", ")) if found else set()
    reasons = [word for word in ORDER if word in words]
    safe = f"not safe ({', '.join(reasons)})" if reasons else "safe"
    verdict = f"verdict: {safe}, as if all packets used one virtual lane; credit loops of multicast are not judged"
    return [*routes[:-1], *lines, verdict], 1 if reasons else 0


if __name__ == "__main__":
    lines, status = audit_with(audit.Net(*sys.argv[1:3]), read_mfts(sys.argv[3]), whole="--all" in sys.argv[4:])
    print("\n".join(lines))
    sys.exit(status)
