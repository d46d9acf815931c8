#!/usr/bin/env python3
"""Works out anew the LFTs of a topology, or its P_Key tables without a partition file:
    tests/oracle/tables.py tables TOPOLOGY [--balanced]    prints what `fabric tables` does
    tests/oracle/tables.py keys TOPOLOGY                   prints what `fabric keys` does
Routes are found by a plain search over all switches for each target. Up is towards the lesser (rank, GUID).
"""
import bisect
import collections
import math
import sys

sys.dont_write_bytecode = True
from topology import Topology  # noqa: E402


class Fabric:
    def __init__(self, topology, balanced=False):
        self.topology, self.balanced = topology, balanced
        self.guids, self.by_lid, self.far = topology.guids(), topology.by_lid(), topology.far()
        # of each switch the ports that lead to a switch, with that switch
        self.hops = {name: [] for name in topology.switches}
        for (name, port), (other, _) in sorted(self.far.items()):
            if name in self.hops and other in self.hops:
                self.hops[name].append((port, other))

    def ranks(self):
        """The distance of each switch from the roots, or from the switch of the least GUID."""
        switches = self.topology.switches
        roots = self.topology.roots or [min(switches, key=switches.get)]
        rank, front = dict.fromkeys(switches, math.inf), roots
        distance = 0
        while front:
            rank.update(dict.fromkeys(front, distance))
            distance += 1
            front = {other for name in front for _, other in self.hops[name] if rank[other] > distance}
        return rank

    def order(self, rank):
        """The switches by rank and GUID."""
        return sorted(self.topology.switches, key=lambda name: (rank[name], self.topology.switches[name]))

    def ties_to(self, target, order):
        """Of each switch the ports, in order, that begin a shortest path to the target: down if one leads down all the way, else up
        to a neighbour and then as that one sends."""
        place = {name: number for number, name in enumerate(order)}
        ties, length = {target: []}, {target: 0}

        def look(name, nexts):
            if nexts:
                length[name] = 1 + min(length[other] for _, other in nexts)
                ties[name] = [port for port, other in nexts if length[other] + 1 == length[name]]

        for name in reversed(order):
            if name != target:
                look(name, [(port, other) for port, other in self.hops[name] if place[other] > place[name] and other in length])
        down = set(length)
        for name in order:
            if name not in down:
                look(name, [(port, other) for port, other in self.hops[name] if place[other] < place[name] and other in length])
        return ties

    def pick(self, ports, before, rank, place):
        """Of the ties of a switch of this rank and place the one to a port: the least; or, if routes are balanced, the one that the
        number of CA ports before that one, the place and the rank name."""
        rounds = before // len(ports)
        return ports[(before + rounds * (rank % len(ports) + 1) + place) % len(ports)] if self.balanced else ports[0]

    def routed(self):
        """Of each LID the switch where its port is, the port there, how many CA ports are before it, and the ties of each switch. A
        switch stands behind the one that it sends to."""
        self.rank = self.ranks()
        order = self.order(self.rank)
        self.place = {name: number for number, name in enumerate(order)}
        homes = [(name, 0) if port == 0 else self.far[name, port] for name, port in self.by_lid]
        before = sorted((self.place[name], port) for name, port in homes if port)
        ties = {name: self.ties_to(name, order) for name in {name for name, _ in homes}}
        for name, port in homes:
            yield name, port, bisect.bisect_left(before, (self.place[name], port)), ties[name]

    def entries(self):
        """The port of each entry that is not 255, by switch and LID."""
        found = {}
        for lid, (leaf, last, before, ties) in enumerate(self.routed(), 1):
            for switch, ports in ties.items():
                found[switch, lid] = last if switch == leaf else self.pick(ports, before, self.rank[switch], self.place[switch])
        return found

    def busiest(self):
        """How many pairs of CA ports send over the most loaded cable, one way."""
        far = {end: other for end, (other, _) in self.far.items()}
        hosts = collections.Counter(far[end] for end in self.by_lid if end[1])
        loads = collections.Counter()
        for leaf, last, before, ties in self.routed():
            if last:
                flow = dict(hosts)
                for switch in list(ties)[:0:-1]:
                    here = flow.get(switch, 0)
                    if here:
                        end = switch, self.pick(ties[switch], before, self.rank[switch], self.place[switch])
                        loads[end] += here
                        flow[far[end]] = flow.get(far[end], 0) + here
        return max(loads.values())

    def paths(self):
        """The directed path to each switch, as a sweep from the SM port finds it."""
        manager = self.topology.manager
        first = self.far[manager][0]
        paths, queue = {first: f"0,{manager[1]}"}, [first]
        for name in queue:
            for port, other in self.hops[name]:
                if other not in paths:
                    paths[other] = f"{paths[name]},{port}"
                    queue.append(other)
        return paths

    def tables(self):
        entries, paths, top = self.entries(), self.paths(), len(self.by_lid)
        for switch, of_switch in self.by_lid:
            if of_switch != 0:
                continue
            yield f"Unicast lids [0x0-0x{top:x}] of switch DR path slid 0; dlid 0; {paths[switch]} guid 0x{self.guids[switch, 0]:016x} ({switch}):"
            yield "  Lid  Out   Destination"
            yield "       Port     Info "
            count = 0
            for lid, end in enumerate(self.by_lid, 1):
                if (switch, lid) in entries:
                    kind = "Switch" if end[1] == 0 else "Channel Adapter"
                    yield f"0x{lid:04x} {entries[switch, lid]:03d} : ({kind} portguid 0x{self.guids[end]:016x}: '{end[0]}')"
                    count += 1
            yield f"{count} valid lids dumped "

    def keys(self):
        for name, port in self.by_lid:
            yield f"keys {name}/{port} 0xffff"
            if port == 0:
                before = [number for (switch, number), (other, _) in self.far.items() if switch == name and other in self.topology.adapters]
                yield from (f"keys {name}/{number} 0xffff" for number in sorted(before))


if __name__ == "__main__":
    what, topology, *flags = sys.argv[1:]
    fabric = Fabric(Topology(topology), flags == ["--balanced"])
    print("\n".join(fabric.keys() if what == "keys" else fabric.tables()))
