#!/usr/bin/env python3
"""Works out anew what `fabric audit --sl2vl` has to print of a fabric, its LFTs, its SL-to-VL mapping tables and its path records,
and its status:
    tests/oracle/lanes.py FABRIC DUMP LANES
FABRIC is a topology, or what ibnetdiscover printed. The lines on LFTs are those of audit.py. It knows nothing of the program: it
reads numbers by patterns, follows packets from port to port, and looks for circles of lanes by a search from each lane.
"""
import collections
import re
import sys

sys.dont_write_bytecode = True
import audit  # noqa: E402

ORDER = ["no-lid", "unreached", "deadlock", "mismatch", "unknown", "dropped"]
DROPS = 15
Hop = collections.namedtuple("Hop", "place input output sl vl")


def read_lanes(file):
    """The VLs by LID and ports, and the source, destination and SL of each path record."""
    rows, paths, lid, fields = {}, [], None, {}
    for line in open(file):
        if found := re.match(r"# SL2VL table: Lid (\d+)", line):
            lid = int(found[1])
        elif found := re.match(r"ports: in +(\d+), out +(\d+): ", line):
            vls = [int(vl) for vl in re.findall(r"\| *(\d+)(?=\|)", line)]
            rows[lid, int(found[1]), int(found[2])] = vls
        elif line.startswith("PathRecord"):
            fields = {}
            paths.append(fields)
        elif found := re.match(r"\t\t([a-z]+)\.+(\S+)", line):
            fields[found[1]] = found[2]
    return rows, [(int(path["slid"]), int(path["dlid"]), int(path["sl"], 16)) for path in paths]


class Lanes:
    def __init__(self, net, rows, paths):
        self.net, self.paths = net, paths
        # the first row counts of a switch and its ports, whichever of its LIDs it is of
        self.rows = {}
        for (lid, first, last), vls in rows.items():
            end = net.ends.get(lid)
            if end and end[1] == 0 and net.is_switch(end[0]):
                self.rows.setdefault((end[0], first, last), vls)
        self.owned = [lid for lid in net.lids if lid in net.ends and not net.is_switch(net.ends[lid][0])]
        self.counted = [path for path in paths if path[0] in self.owned and path[1] in self.owned]
        self.traces = [list(self.hops(*path)) for path in self.counted]
        self.all_hops = {hop for trace in self.traces for hop in trace}

    def hops(self, source, destination, sl):
        """Up to the first that packets take a second time: where they come in says all that they do from there on."""
        at, seen, again = self.net.far.get(self.net.ends[source]), set(), False
        while at and self.net.is_switch(at[0]) and not again:
            again = at in seen
            seen.add(at)
            entry = self.net.entry(at[0], destination)
            if entry in (None, "unknown", 0) or (at[0], entry) not in self.net.far:
                return
            vls = self.rows.get((*at, entry))
            hop = Hop(*at, entry, sl, vls[sl] if vls else None)
            yield hop
            if hop.vl == DROPS:
                return
            at = self.net.far[at[0], entry]

    def is_channel(self, at):
        return at in self.net.far and self.net.is_switch(self.net.far[at][0])

    def waits(self):
        """Of each lane those for which it waits."""
        nexts = collections.defaultdict(set)
        for trace in self.traces:
            for a, b in zip(trace, trace[1:]):
                if a.vl is not None and b.vl not in (None, DROPS) and self.is_channel((b.place, b.output)):
                    nexts[a.place, a.output, a.vl].add((b.place, b.output, b.vl))
        homeless = [lid for lid in self.net.lids if lid not in self.net.ends]
        for place in self.net.switches:
            for lid in homeless:
                entry = self.net.entry(place, lid)
                if self.is_channel((place, entry)):
                    there = self.net.far[place, entry][0]
                    after = there, self.net.entry(there, lid)
                    if self.is_channel(after):
                        for vl in range(DROPS):
                            nexts[place, entry, vl] |= {(*after, other) for other in range(DROPS)}
        return nexts

    def ring(self):
        """The shortest circle through the least lane that is on one, by the least lane at each step."""
        nexts = self.waits()
        befores = collections.defaultdict(set)
        for a, others in nexts.items():
            for b in others:
                befores[b].add(a)
        for home in sorted(nexts):
            steps, front, count = {}, {home}, 0
            while front and home not in steps:
                count += 1
                front = {a for b in front for a in befores[b]} - set(steps)
                steps.update(dict.fromkeys(front, count))
            if home in steps:
                ring = [home]
                while len(ring) < steps[home]:
                    ring.append(min(b for b in nexts[ring[-1]] if steps.get(b) == steps[home] - len(ring)))
                return ring
        return None

    def pairs(self):
        return [(a, b) for a in self.owned for b in self.owned if self.net.ends[a] != self.net.ends[b]]

    def crossing(self, hop):
        return f"{self.net.name(hop.place)} in {hop.input} out {hop.output}"

    def lines(self):
        """The lines on lanes, and the words of the verdict that they bring."""
        ring = self.ring()
        lines = ["lanes deadlock " + " ".join(f"{self.net.port(lane[:2])} VL {lane[2]}" for lane in ring)] if ring else []
        known = {path[:2] for path in self.paths}
        lacking = [pair for pair in self.pairs() if pair not in known]
        for source in self.owned:
            others = [self.net.whose(b) for a, b in lacking if a == source]
            more = f" and {len(others) - 1} more" if len(others) > 1 else ""
            lines += [f"lanes no-path {self.net.whose(source)} {others[0]}{more}"] if others else []
        without_row = sorted({hop._replace(sl=0) for hop in self.all_hops if hop.vl is None})
        dropped = sorted(hop for hop in self.all_hops if hop.vl == DROPS)
        lines += [f"lanes no-row {self.crossing(hop)}" for hop in without_row]
        lines += [f"lanes dropped {self.crossing(hop)} SL {hop.sl}" for hop in dropped]
        sls = sorted({path[2] for path in self.counted})
        vls = sorted({hop.vl for hop in self.all_hops} - {None, DROPS})
        used = [", ".join([f"{word} {' '.join(map(str, numbers)) or 'none'}"]) for word, numbers in (("SLs", sls), ("VLs", vls))]
        pairs = len(self.pairs())
        lines.append(f"lanes: {pairs} pairs, {pairs - len(lacking)} with a path record, {', '.join(used)}")
        words = [("deadlock", ring), ("unknown", lacking or without_row), ("dropped", dropped)]
        return lines, {word for word, holds in words if holds}


def audit_with(net, lanes, whole=False):
    """The lines, with all those of the LFTs by switch and LID or with their number, and the status."""
    routes, _ = net.audit(whole)
    found = re.search(r"not safe \(([^)]*)\)", routes[-1])
    words = set(found[1].split(", ")) if found else set()
    lines, others = Lanes(net, *lanes).lines()
    if "deadlock" in words - others and "unknown" not in others:
        lines.append("# lanes: by virtual lanes the deadlock above does not happen")
    lines.append("# lanes: packets of a path record use its SL; other packets are not judged")
    words = words - {"deadlock"} | others
    reasons = [word for word in ORDER if word in words]
    safe = f"not safe ({', '.join(reasons)})" if reasons else "safe"
    return [*routes[:-1], *lines, f"verdict: {safe}, by virtual lanes; multicast is not judged"], 1 if reasons else 0


if __name__ == "__main__":
    lines, status = audit_with(audit.Net(*sys.argv[1:3]), read_lanes(sys.argv[3]), whole="--all" in sys.argv[4:])
    print("\n".join(lines))
    sys.exit(status)
