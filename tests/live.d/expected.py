"""What programs have to print of a fabric, worked out from its topology and partition file alone. Both are read here plainly,
for right files of the forms that the tests of live/ use; nothing is taken from the program that is tested.
"""
import pathlib

SELECTORS = ((lambda shown, asked: shown > asked), (lambda shown, asked: shown < asked), (lambda shown, asked: shown == asked), (lambda shown, asked: True))
RATES = {2: 2.5, 3: 10, 4: 30, 5: 5, 6: 20, 7: 40, 8: 60, 9: 80, 10: 120}
MTU, RATE, LIFE = 4, 3, 18  # of every path
UNSUPPORTED, INVALID, NO_COMPONENT = 0x000C, 0x0200, 0x0600


class Port:
    def __init__(self, name, guid, node, kind, node_guid, count):
        self.name, self.guid, self.node, self.kind, self.node_guid, self.count = name, guid, node, kind, node_guid, count
        self.number = int(name.split("/")[1])
        self.keys = {}  # by base: whether it is a full member

    def key(self, base):
        return base | 0x8000 * self.keys[base]

    def gid(self):
        return f"fe80::{short(self.guid)}"


def short(guid):
    """The last 64 bits of a GID, as programs print it."""
    quads = [f"{guid >> at & 0xFFFF:x}" for at in (48, 32, 16, 0)]
    while len(quads) > 1 and quads[0] == "0":
        quads.pop(0)
    return ":".join(quads)


class Group:
    def __init__(self, base, number, flags):
        self.base, self.mlid = base, 0xC000 + 32 * number
        value = lambda name, other: int(flags.get(name, other), 0)
        self.mtu, self.rate, self.sl = value("mtu", "4"), value("rate", "3"), value("sl", "0")
        self.qkey, self.scope = value("Q_Key", "0xb1b"), value("scope", "2")

    def mgid(self):
        return bytes([0xFF, 0x10 | self.scope, 0x40, 0x1B]) + (self.base | 0x8000).to_bytes(2, "big") + bytes(6) + b"\xff" * 4

    def shown(self):
        return f"ff1{self.scope:x}:401b:{self.base | 0x8000:x}::ffff:ffff"


class Fabric:
    def __init__(self, topology, partitions):
        nodes, self.cables, self.sm = {}, {}, None
        for words in (line.split("#")[0].split() for line in pathlib.Path(topology).read_text().splitlines()):
            if words[:1] in (["switch"], ["adapter"]):
                nodes[words[1]] = (words[0], int(words[2], 0), int(words[3], 0))
            elif words[:1] == ["cable"]:
                self.cables[words[1]], self.cables[words[2]] = words[2], words[1]
            elif words[:1] == ["sm"]:
                sm = words[1]
        ports = []
        for name, (kind, guid, count) in nodes.items():
            numbers = [0] if kind == "switch" else [p for p in range(1, count + 1) if f"{name}/{p}" in self.cables]
            ports += [Port(f"{name}/{p}", guid + p, name, kind, guid, count) for p in numbers]
        ports.sort(key=lambda port: (port.name != sm, port.guid))
        self.ports = {}
        for lid, port in enumerate(ports, 1):
            port.lid = lid
            self.ports[port.name] = port
        self.sm = self.ports[sm]
        self.groups = []
        self.read_partitions("Default=0x7fff: ALL=full;" if str(partitions) == "-" else pathlib.Path(partitions).read_text())

    def read_partitions(self, text):
        text = "".join(line.split("#")[0] for line in text.splitlines())
        numbers = {0x7FFF: 0}
        for definition in text.split(";")[:-1]:
            head, _, items = definition.partition(":")
            (first, *flags) = [[part.strip() for part in flag.split("=")] for flag in head.split(",")]
            base = int(first[1], 0) & 0x7FFF
            flags = {flag[0]: (flag + [""])[1] for flag in flags}
            number = numbers.setdefault(base, len(numbers))
            if "ipoib" in flags:
                self.groups.append(Group(base, number, flags))
            for item in items.split(","):
                who, _, how = (part.strip() for part in item.partition("="))
                is_full = (how or flags.get("defmember", "")) == "full"
                for port in self.ports.values():
                    if who == "ALL" or who == "SELF" and port is self.sm or who[:2] == "0x" and port.guid == int(who, 16):
                        port.keys[base] = port.keys.get(base, False) or is_full
        if "0x7fff" not in text:
            for port in self.ports.values():
                port.keys.setdefault(0x7FFF, False)
        self.sm.keys[0x7FFF] = True

    def bases(self, one, other):
        """The partitions by which two ports may talk."""
        return sorted(base for base in one.keys if base in other.keys and (one.keys[base] or other.keys[base]))

    def near(self, port):
        return [other for other in self.ports.values() if other is port or self.bases(port, other)]

    def paths(self, port):
        return [(port, other, base) for other in self.near(port) for base in self.bases(port, other)]

    # What saquery prints.

    def nodes(self, port, chosen=lambda node: True):
        return "".join(node_dump(node) for node in self.near(port) if chosen(node))

    def path_table(self, port, chosen=lambda destination, base: True):
        return "".join(path_dump(*path) for path in self.paths(port) if chosen(path[1], path[2]))

    def list_of(self, port):
        rows = "".join(f"{node.lid:6}  \"{node.node}\"\n" for node in self.near(port) if node.kind == "adapter")
        return '   LID "name"\n================\n' + rows

    def visible_groups(self, port):
        return sorted((group for group in self.groups if group.base in port.keys), key=lambda group: group.mlid)


def dump(title, rows, width=24):
    return f"{title}\n" + "".join(f"\t\t{name.ljust(width, '.')}{value}\n" for name, value in rows)


def node_dump(port):
    kind = {"switch": "Switch", "adapter": "Channel Adapter"}[port.kind]
    guids = [("sys_guid", port.node_guid), ("node_guid", port.node_guid), ("port_guid", port.guid)]
    rows = [("lid", port.lid), ("reserved", "0x0"), ("base_version", "0x1"), ("class_version", "0x1"), ("node_type", kind), ("num_ports", port.count)]
    rows += [(name, f"0x{guid:016x}") for name, guid in guids]
    rows += [("partition_cap", "0x80"), ("device_id", "0x0"), ("revision", "0x0"), ("port_num", port.number), ("vendor_id", "0x0")]
    return dump("NodeRecord dump:", rows + [("NodeDescription", port.node)])


def path_dump(source, destination, base):
    rows = [("service_id", f"0x{0:016x}"), ("dgid", destination.gid()), ("sgid", source.gid()), ("dlid", destination.lid), ("slid", source.lid)]
    rows += [("hop_flow_raw", "0x0"), ("tclass", "0x0"), ("num_path_revers", "0x80"), ("pkey", f"0x{source.key(base):X}"), ("qos_class", "0x0"), ("sl", "0x0")]
    rows += [("mtu", f"0x{0x80 | MTU:x}"), ("rate", f"0x{0x80 | RATE:x}"), ("pkt_life", f"0x{0x80 | LIFE:x}")]
    return dump("PathRecord dump:", rows + [("preference", "0x0"), ("resv2", "0x000000000000")])


def group_dump(group):
    rows = [("MGID", group.shown()), ("Mlid", f"0x{group.mlid:X}"), ("Mtu", f"0x{0x80 | group.mtu:X}"), ("pkey", f"0x{group.base | 0x8000:X}")]
    return dump("MCMemberRecord group dump:", rows + [("Rate", f"0x{0x80 | group.rate:X}"), ("SL", f"0x{group.sl:X}")])


def member_dump(group):
    rows = [("MGID", group.shown()), ("Mlid", f"0x{group.mlid:X}"), ("PortGid", "::"), ("ScopeState", f"0x{group.scope << 4:X}")]
    return dump("MCMemberRecord member dump:", rows + [("ProxyJoin", "0x0"), ("NodeDescription", "<unknown>")])


def member_row(group):
    return f"\t\t{'PortGid'.ljust(24, '.')}:: (<unknown>)\n"


def membership_dump(group):
    rows = [("MGID", group.shown()), ("PortGid", "::"), ("qkey", f"0x{group.qkey:x}"), ("mlid", f"0x{group.mlid:x}"), ("mtu", f"0x{0x80 | group.mtu:x}")]
    rows += [("TClass", "0x0"), ("pkey", f"0x{group.base | 0x8000:x}"), ("rate", f"0x{0x80 | group.rate:x}"), ("pkt_life", f"0x{0x80 | LIFE:x}")]
    rows += [("SL", f"0x{group.sl:x}"), ("FlowLabel", "0x0"), ("HopLimit", "0x0"), ("Scope", f"0x{group.scope:x}"), ("JoinState", "0x0"), ("ProxyJoin", "0x0")]
    return dump("MCMember Record dump:", rows)


def is_chosen(shown, byte, values=None):
    """Whether a value is chosen by a selector and a value, in one byte; rates by their speed."""
    speed = (lambda code: values[code]) if values else (lambda code: code)
    return SELECTORS[byte >> 6](speed(shown), speed(byte & 63))


# Requests and responses of the SA, as bytes; the layouts are those of volume 1, 15.2.

SERVICE, MEMBER = 0x31, 0x38
SET, DELETE = 0x02, 0x15
MGID, PORT_GID, QKEY, TCLASS, PKEY, SL_BIT, FLOW, JOIN = 1, 1 << 1, 1 << 2, 1 << 6, 1 << 7, 1 << 12, 1 << 13, 1 << 16


def mad(method, attribute, tid, mask, data, status=0):
    """An SA MAD of 256 bytes."""
    head = bytes([1, 3, 2, method]) + status.to_bytes(2, "big") + bytes(2) + tid.to_bytes(8, "big") + attribute.to_bytes(2, "big")
    return (head + bytes(30) + mask.to_bytes(8, "big") + data).ljust(256, b"\0")


def gid_bytes(port):
    return 0xFE80000000000000.to_bytes(8, "big") + port.guid.to_bytes(8, "big")


def member(mgid, port, join, pkey=0, qkey=0, mlid=0, mtu=0, rate=0, life=0, sl=0, scope=0):
    """An MCMemberRecord."""
    words = qkey.to_bytes(4, "big") + mlid.to_bytes(2, "big") + bytes([mtu, 0]) + pkey.to_bytes(2, "big") + bytes([rate, life, sl << 4, 0, 0, 0])
    return mgid + gid_bytes(port) + words + bytes([scope << 4 | join, 0, 0, 0])


def joined(group, port, join):
    """The record that answers a join of a group of the file."""
    values = (0x80 | group.mtu, 0x80 | group.rate, 0x80 | LIFE, group.sl, group.scope)
    return member(group.mgid(), port, join, group.base | 0x8000, group.qkey, group.mlid, *values)


def service(number, port, base, name, data):
    """A ServiceRecord without a key, of 64 bytes of data, and how saquery prints it."""
    lease = 0xFFFFFFFF
    record = number.to_bytes(8, "big") + gid_bytes(port) + (base | 0x8000).to_bytes(2, "big") + bytes(2) + lease.to_bytes(4, "big")
    record += bytes(16) + name.encode().ljust(64, b"\0") + data
    rows = [("ServiceID", f"0x{number:016x}"), ("ServiceGID", port.gid()), ("ServiceP_Key", f"0x{base | 0x8000:X}"), ("ServiceLease", f"0x{lease:X}")]
    rows += [("ServiceKey", "<not displayed>"), ("ServiceName", name)]
    for size, begin, digits in ((1, 0, "X"), (2, 16, "X"), (4, 32, "X"), (8, 48, "016x")):
        for count in range(16 // size):
            at = begin + count * size
            rows.append((f"ServiceData{8 * size}.{count + 1}", f"0x{int.from_bytes(data[at : at + size], 'big'):{digits}}"))
    return record, dump("ServiceRecord dump:", rows)


# What programs print of a fabric's switches, in a form in which the order of nodes is of no account.


def fabric_of(text):
    """Nodes, cables and the SM of a topology, in sets."""
    lines = [line.split("#")[0].split() for line in text.splitlines()]
    nodes = {(w[0], w[1], int(w[2], 0), int(w[3], 0)) for w in lines if w[:1] in (["switch"], ["adapter"])}
    return nodes, {frozenset(w[1:3]) for w in lines if w[:1] == ["cable"]}, [w[1] for w in lines if w[:1] == ["sm"]]


def tables_of(text, kind):
    """The tables of a dump, each with its lines, in a fixed order."""
    tables = []
    for line in text.splitlines():
        if line.startswith(("Unicast", "Multicast")):
            tables.append([])
        if tables:
            tables[-1].append(line)
    return sorted("\n".join(table) + "\n" for table in tables if table[0].startswith(kind))


def hops_of_trace(text):
    """Of what `fabric trace` prints: the name of each node after the first, and the port by which the packet comes in."""
    lines = [line.split() for line in text.splitlines()]
    hops = [(words[0], int(words[2])) for words in lines if words[1:2] == ["in"]]
    return hops + [tuple([words[0].split("/")[0], int(words[0].split("/")[1])]) for words in lines if words[1:] == ["accepts"]]


def hops_of_ibtracert(text):
    """The same of what `ibtracert` prints."""
    hops = []
    for line in text.splitlines():
        if line.startswith("["):
            name = line.split('"')[1]
            hops.append((name, int(line.split("}[")[1].split("]")[0])))
    return hops
