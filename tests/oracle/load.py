#!/usr/bin/env python3
"""Works out anew what `fabric load` has to print of a fabric and a dump:
    tests/oracle/load.py FABRIC DUMP [PARTS]
FABRIC is a topology, or what ibnetdiscover printed. With PARTS, a partition file, FABRIC is a topology, and only pairs count that
may talk. It knows nothing of the program: it follows the packets of each pair one by one, with the set of ports by which they left
a switch.
"""
import collections
import itertools
import re
import sys

sys.dont_write_bytecode = True
import audit  # noqa: E402
from topology import Topology  # noqa: E402


def followed(net, place, lid):
    """The ports by which packets leave switches, and what comes of them: `reached`, `lost` or `unknown`."""
    ports, seen = set(), set()
    while place not in seen:
        seen.add(place)
        kind, what = net.turn(place, lid)
        if kind != "goes":
            return ports, "unknown" if kind == "unknown" else "reached" if kind == "arrives" and what == net.ends[lid] else "lost"
        ports.add((place, net.entry(place, lid)))
        place = what
    return ports, "lost"


def hundredths(number):
    return f"{number // 100}.{number % 100:02}"


def distances(net):
    """Of each switch how many links lead to the nearest one to which a host is attached."""
    front = {at[0] for at, end in net.far.items() if net.is_switch(at[0]) and net.is_host(end[0])}
    found = {}
    while front:
        found.update({place: max(found.values(), default=-1) + 1 for place in front})
        nexts = {at[0] for at, end in net.far.items() if net.is_switch(at[0]) and end[0] in front}
        front = {place for place in nexts if place not in found}
    return found


def tops(net):
    """The switches that are farthest from hosts; none if a host is attached to each."""
    levels = {place: level for place, level in distances(net).items() if level < 16}
    top = max(levels.values(), default=0)
    return [place for place in net.switches if top and levels.get(place) == top]


def level_lines(net, loads, channels):
    levels = distances(net)
    steps = {"up": lambda step: step > 0, "across": lambda step: step == 0, "down": lambda step: step < 0}
    for level, (word, fits) in itertools.product(range(16), steps.items()):
        numbers = [loads[at] for at in channels if levels.get(at[0]) == level and fits(min(levels.get(net.far[at][0], 16), 16) - level)]
        if numbers:
            total = sum(numbers)
            ratio = max(numbers) * len(numbers) * 100 // total if total else 0
            yield f"level {level} {word} most {max(numbers)} mean {hundredths(total * 100 // len(numbers))} ratio {hundredths(ratio)}"


def memberships(file, guids, manager):
    """For each of these CA ports, by GUID, the partitions that it is in, by base, and whether it is a full member."""
    if file == "-":
        return {guid: {0x7FFF: True} for guid in guids}
    found = {guid: {0x7FFF: True} if guid == manager else {} for guid in guids}
    listed = {}
    for definition in re.sub(r"#.*", "", open(file).read()).split(";")[:-1]:
        head, ports = definition.split(":", 1)
        key, *flags = [part.strip() for part in head.split(",")]
        default = "full" if "defmember=full" in flags else "limited"
        words = [[part.strip() for part in port.split("=")] for port in ports.split(",") if port.strip()]
        listed.setdefault(int(key.split("=")[1], 16) & 0x7FFF, []).extend((word, *(membership or [default])) for word, *membership in words)
    for base, words in {0x7FFF: [("ALL", "limited")], **listed}.items():
        for word, membership in words:
            for guid in guids if word in ("ALL", "ALL_CAS") else [manager] if word == "SELF" else [int(word, 16)] if word[0].isdigit() else []:
                if guid in found:
                    found[guid][base] = found[guid].get(base, False) or membership == "full"
    return found


def talkers(topology, partitions):
    """Whether packets of one CA port go to another: they are members of some partition, one of them at least a full one."""
    read = Topology(topology)
    ends = {(name, number): node.guid + number for name, node in read.nodes.items() if not node.is_switch for number in range(1, node.ports + 1)}
    found = memberships(partitions, list(ends.values()), ends[read.manager])
    places = {name: place for place, name in enumerate(read.nodes)}
    held = {(places[name], number): found[guid] for (name, number), guid in ends.items()}
    return lambda a, b: any(held[a][base] or held[b][base] for base in held[a] if base in held[b])


def load(net, talk=lambda source, end: True):
    """The lines."""
    sources = [(at[0], end) for at, end in net.far.items() if net.is_switch(at[0]) and net.is_host(end[0])]
    channels = sorted(at for at, end in net.far.items() if net.is_switch(at[0]) and net.is_switch(end[0]))
    loads, fates = collections.Counter(), collections.Counter()
    for lid, end in net.ends.items():
        if not net.is_host(end[0]):
            continue
        for place in {place for place, _ in sources}:
            count = sum(1 for at, source in sources if at == place and source != end and talk(source, end))
            ports, fate = followed(net, place, lid)
            fates[fate] += count
            for port in ports:
                loads[port] += count
    lines = [f"load {net.port(at)} {net.port(net.far[at])} {loads[at]}" for at in sorted(channels, key=lambda at: (-loads[at], at))]
    if channels:
        numbers = [loads[at] for at in channels]
        lines += [f"most {max(numbers)}", f"least {min(numbers)}", f"mean {hundredths(sum(numbers) * 100 // len(numbers))}"]
        lines += level_lines(net, loads, channels)
    return [*lines, f"pairs {fates.total()}, lost {fates['lost']}, unknown {fates['unknown']}"]


if __name__ == "__main__":
    print("\n".join(load(audit.Net(*sys.argv[1:3]), *[talkers(sys.argv[1], parts) for parts in sys.argv[3:]])))
