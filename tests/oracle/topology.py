"""A topology, as the other files of this folder read it."""
import collections

Node = collections.namedtuple("Node", "guid ports is_switch")


def number(word):
    return int(word, 16) if word.lower().startswith("0x") else int(word)


def end(word):
    """The name of a node, and the number of its port."""
    name, port = word.split("/")
    return name, number(port)


class Topology:
    def __init__(self, file):
        self.nodes = {}  # by name
        self.cables, self.roots, self.manager = [], [], None
        for line in open(file, errors="replace"):
            kind, *words = line.split("#")[0].split() or [None]
            if kind in ("switch", "adapter"):
                self.nodes[words[0]] = Node(number(words[1]), number(words[2]), kind == "switch")
            elif kind == "cable":
                self.cables.append((end(words[0]), end(words[1])))
            elif kind == "root":
                self.roots.append(words[0])
            elif kind == "sm":
                self.manager = end(words[0])
        self.switches = {name: node for name, node in self.nodes.items() if node.is_switch}
        self.adapters = {name: node for name, node in self.nodes.items() if not node.is_switch}

    def links(self):
        """The cables between switches."""
        return [cable for cable in self.cables if all(name in self.switches for name, _ in cable)]

    def far(self):
        """What each port that has a cable is cabled to."""
        return {here: there for a, b in self.cables for here, there in ((a, b), (b, a))}

    def guids(self):
        """The GUID of each port that has a LID: port 0 of a switch, and a port with a cable of an adapter."""
        far = self.far()
        ports = {(name, 0): node.guid for name, node in self.switches.items()}
        for name, node in self.adapters.items():
            ports.update({(name, port): node.guid + port for port in range(1, node.ports + 1) if (name, port) in far})
        return ports

    def by_lid(self):
        """The ports in the order of their LIDs: the SM port has LID 1, then they go by GUID."""
        guids = self.guids()
        return sorted(guids, key=lambda port: (port != self.manager, guids[port]))
