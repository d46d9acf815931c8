#!/usr/bin/env python3
"""Prints a topology in the form of ibnetdiscover, with the LIDs that our bring-up assigns:
    tests/oracle/discovered.py TOPO
The topology is one whose cables are all up.
"""
import sys

sys.dont_write_bytecode = True
from topology import Topology  # noqa: E402


def discovered(file):
    """What ibnetdiscover prints of the fabric."""
    topology = Topology(file)
    far, guids = topology.far(), topology.guids()
    lids = {port: lid for lid, port in enumerate(topology.by_lid(), 1)}

    def lid_of(name, port):
        return lids[name, 0 if topology.nodes[name].is_switch else port]

    def name_of(name):
        node = topology.nodes[name]
        return f'"{"S" if node.is_switch else "H"}-{node.guid:016x}"'

    def own(name, port):
        return "" if topology.nodes[name].is_switch else f"({guids[name, port]:x}) "

    lines = ["#", "# Topology file: generated on Sun Nov 29 12:00:00 2026", "#"]
    for name, node in [*topology.switches.items(), *topology.adapters.items()]:
        lines.append("")
        if node.is_switch:
            lines.append(f"switchguid=0x{node.guid:x}({node.guid:x})")
            lines.append(f'Switch\t{node.ports} {name_of(name)}\t\t# "{name}" base port 0 lid {lid_of(name, 0)} lmc 0')
        else:
            lines.append(f'Ca\t{node.ports} {name_of(name)}\t\t# "{name}"')
        for port in range(1, node.ports + 1):
            if (name, port) not in far:
                continue
            there, number = far[name, port]
            lid = "" if node.is_switch else f"lid {lid_of(name, port)} lmc 0 "
            end = f"[{port}]{own(name, port)}\t{name_of(there)}[{number}]{own(there, number)}"
            lines.append(f'{end}\t\t# {lid}"{there}" lid {lid_of(there, number)} 4xEDR')
    return "\n".join([*lines, ""])


if __name__ == "__main__":
    print(discovered(sys.argv[1]), end="")
