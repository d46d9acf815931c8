#!/usr/bin/env python3
"""Sends between all pairs of adapters while links go down and up, and what then has to be received:
    tests/oracle/all_pairs.py TOPOLOGY
writes `script` and `stdout` into the current folder. Each adapter except the SM's sends to each adapter: first with all cables,
then with each link between switches cut in turn, and again once it is mended. Adapters have one port each.
"""
import sys

sys.dont_write_bytecode = True
from topology import Topology  # noqa: E402


class Runs:
    def __init__(self, topology):
        self.topology = topology
        self.lids = {port: lid for lid, port in enumerate(topology.by_lid(), 1)}
        self.ports = [(name, 1) for name in sorted(topology.adapters, key=topology.adapters.get)]
        self.sent, self.script, self.report = 0, [], []
        self.all_pairs()
        for link in topology.links():
            one, other = (f"{name}/{port}" for name, port in link)
            for command in (f"cut {one} {other}", f"mend {other} {one}"):
                self.script.append(command)
                self.all_pairs()

    def all_pairs(self):
        for sender in self.ports:
            if sender != self.topology.manager:
                for receiver in self.ports:
                    self.send(sender, receiver)

    def send(self, sender, receiver):
        self.sent += 1
        payload = self.sent.to_bytes(4, "big")
        slid, dlid = self.lids[sender], self.lids[receiver]
        self.script.append(f"send {sender[0]}/1 {dlid} 0xffff 7 4:{payload.hex()}")
        # zeros at the end of a payload are left out
        self.report.append(f"{receiver[0]}/1 recv 0x{slid:04x} 0x{dlid:04x} 0xffff 0x000007 4:{payload.rstrip(bytes(1)).hex()}")


if __name__ == "__main__":
    runs = Runs(Topology(sys.argv[1]))
    for name, lines in (("script", runs.script), ("stdout", runs.report)):
        with open(name, "w") as file:
            file.write("".join(f"{line}\n" for line in lines))
