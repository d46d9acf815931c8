#!/usr/bin/env python3
"""A fabric that ours brought up, as `ibnetdiscover` and `smpquery` would show it:

    tests/oracle/as_read.py TOPOLOGY LISTING KEYS

LISTING is what `fabric check` prints, and KEYS what `fabric keys` prints. It writes netdiscover and pkeys into this folder. Switch
ports that face adapters enforce partitions in both directions, and no others do."""

import sys

nodes, cables, manager = {}, {}, None
for line in open(sys.argv[1]):
    words = line.split("#")[0].split()
    if words[:1] == ["switch"] or words[:1] == ["adapter"]:
        nodes[words[1]] = (words[0], int(words[2], 0), int(words[3]))
    elif words[:1] == ["cable"]:
        one, other = ((name, int(port)) for name, port in (word.rsplit("/", 1) for word in words[1:3]))
        cables[one], cables[other] = other, one
    elif words[:1] == ["sm"]:
        manager = words[1].rsplit("/", 1)[0], int(words[1].rsplit("/", 1)[1])
lids = {words[3]: int(words[1], 0) for words in map(str.split, open(sys.argv[2])) if words[0] == "port"}
keys = {words[1]: words[2:] for words in map(str.split, open(sys.argv[3]))}


def lid(name, port):
    return lids[f"{name}/0" if nodes[name][0] == "switch" else f"{name}/{port}"]


def node_id(name):
    kind, guid, _ = nodes[name]
    return f'"{"S" if kind == "switch" else "H"}-{guid:016x}"'


def own_guid(name, port):
    return f"({nodes[name][1] + port:x})" if nodes[name][0] == "adapter" else ""


found, asked = [f"# Initiated from node {nodes[manager[0]][1]:016x} port {nodes[manager[0]][1] + manager[1]:016x}"], []


def ask(query, answer):
    asked.extend([f"# smpquery {query}", *answer])


def ask_keys(where, port):
    held = keys.get(port, ["0xffff"])
    rows = held + ["0x0000"] * (-len(held) % 8)
    lines = [f"{place:4}: " + " ".join(rows[place : place + 8]) for place in range(0, len(rows), 8)]
    ask(f"pkeys {where}", [*lines, f"{len(rows)} pkeys capacity for this port"])


def ask_node(where, guid, port_guid):
    ask(f"nodeinfo {where}", [f"# Node info: Lid {where}", f"Guid:....0x{guid:016x}", f"PortGuid:....0x{port_guid:016x}", "PartCap:....128"])


for name, (kind, guid, ports) in nodes.items():
    ends = [port for port in range(1, ports + 1) if (name, port) in cables]
    if kind == "adapter" and not ends:
        continue
    if kind == "switch":
        found += [f"switchguid=0x{guid:x}({guid:x})", f'Switch\t{ports} {node_id(name)}\t\t# "{name}" base port 0 lid {lid(name, 0)} lmc 0']
        ask_node(lid(name, 0), guid, guid)
        ask_keys(f"{lid(name, 0)} 0", f"{name}/0")
    else:
        found.append(f'Ca\t{ports} {node_id(name)}\t\t# "{name}"')
    for port in ends:
        far, far_port = cables[name, port]
        far_lid = f'"{far}" lid {lid(far, far_port)} 4xEDR'
        own_lid = f"lid {lid(name, port)} lmc 0 " if kind == "adapter" else ""
        found.append(f"[{port}]{own_guid(name, port)} \t{node_id(far)}[{far_port}]{own_guid(far, far_port)}\t\t# {own_lid}{far_lid}")
        if kind == "adapter":
            ask_node(lid(name, port), guid, guid + port)
            ask_keys(f"{lid(name, port)} {port}", f"{name}/{port}")
        else:
            ask_keys(f"{lid(name, 0)} {port}", f"{name}/{port}")
            bit = int(nodes[far][0] == "adapter")
            ask(f"portinfo {lid(name, 0)} {port}", [f"PartEnforceInb:....{bit}", f"PartEnforceOutb:....{bit}"])
open("netdiscover", "w").write("\n".join(found) + "\n")
open("pkeys", "w").write("\n".join(asked) + "\n")
