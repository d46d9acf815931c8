#!/usr/bin/env python3
"""Works out anew what `fabric cuts` prints without a partition file, so that there are no groups, of a topology in which every
link between switches can be spared:
    tests/oracle/cuts.py TOPOLOGY [--balanced]
The LFTs without each link are those of tables.py, and are compared entry by entry with those with it.
"""
import sys

sys.dont_write_bytecode = True
from tables import Fabric  # noqa: E402
from topology import Topology  # noqa: E402


def lines(topology, balanced):
    whole = Fabric(topology, balanced).entries()
    cables, links = topology.cables, topology.links()
    for link in links:
        topology.cables = [cable for cable in cables if cable != link]
        left = Fabric(topology, balanced).entries()
        changed = [entry for entry in whole | left if whole.get(entry) != left.get(entry)]
        ends = " ".join(f"{name}/{port}" for name, port in link)
        yield f"cut {ends} keeps {len(changed)} entries 0 masks {len({switch for switch, _ in changed})} switches"
    yield f"cables {len(links)} keep {len(links)} stop 0"


if __name__ == "__main__":
    print("\n".join(lines(Topology(sys.argv[1]), sys.argv[2:] == ["--balanced"])))
