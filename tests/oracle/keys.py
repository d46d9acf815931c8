#!/usr/bin/env python3
"""What `fabric audit-keys` prints, worked out a second time, plainly:

    tests/oracle/keys.py NETDISCOVER PKEYS PARTITIONS [--sm GUID | --all]   prints the audit, and then a line `status N`
    tests/oracle/keys.py --make SEED                                        writes netdiscover, pkeys and partitions by chance into this folder
    tests/oracle/keys.py --try PROGRAM COUNT                                makes COUNT such fabrics, and compares what `PROGRAM audit-keys` prints

Partition files may have what --make and the files of tests/opensm-keys have: definitions with a P_Key, flags, and lists of GUIDs,
ALL, ALL_CAS, ALL_SWITCHES and SELF. A GUID with a letter that is no digit is the one error that is looked for."""

import collections
import difflib
import itertools
import random
import re
import subprocess
import sys

End = collections.namedtuple("End", "name guid node lid number switch far")  # far: the GUID of the switch and its port
FEW_PAIRS = 100
FELL_OPEN = "diagnosis: every port that was read has 0xffff alone: OpenSM dropped its file, or had none"


def encoded(name, taken):
    """The name that an import gives a node."""
    name = "".join(c if re.match(r"[A-Za-z0-9_.-]", c) else "_" for c in name[:32]) or "node"
    count, own = 2, name
    while own in taken:
        own = name[: 32 - len(f"-{count}")] + f"-{count}"
        count += 1
    taken.add(own)
    return own


class Fabric:
    """Ends in the order of the discovery: those of switches first. An adapter has the ports whose GUIDs follow one another."""

    def __init__(self, file):
        self.manager, node, nodes = None, None, []
        guids = None
        for line in open(file, errors="replace"):
            if found := re.match(r"# Initiated from node \w+ port (\w+)", line):
                self.manager = self.manager or int(found[1], 16)
            elif found := re.match(r"switchguid=0x(\w+)\((\w+)\)", line):
                guids = int(found[2], 16)
            elif found := re.match(r'(Switch|Ca)\s+(\d+) "\w-(\w+)"\s+# "(.*)"(?: (?:base|enhanced) port 0 lid (\d+))?', line):
                node = {"switch": found[1] == "Switch", "guid": int(found[3], 16), "name": found[4], "ports": []}
                node["port"], node["lid"] = (guids or node["guid"], int(found[5])) if node["switch"] else (None, None)
                guids = None
                nodes.append(node)
            elif found := re.match(r'\[(\d+)\](?:\((\w+)\))?\s+"(\w)-(\w+)"\[(\d+)\](?:\(\w+\))?\s+#(?: lid (\d+))?', line):
                node["ports"].append((int(found[1]), found[2] and int(found[2], 16), int(found[4], 16), int(found[5]), found[6] and int(found[6])))
        taken = set()
        self.switches = {node["guid"]: (encoded(node["name"], taken), node) for node in nodes if node["switch"]}
        lines = [(node, port) for node in nodes if not node["switch"] for port in node["ports"]]
        known = {port[1] for _, port in lines}
        adapters = {}
        for node, port in lines:
            if port[1] - 1 not in known:
                adapters[port[1] - 1] = encoded(node["name"], taken)
        self.ends = [End(f"{name}/0", node["port"], node["guid"], node["lid"], 0, node["guid"], None) for name, node in self.switches.values()]
        for node, (number, guid, far, far_port, lid) in lines:
            first = guid - 1
            while first not in adapters:
                first -= 1
            facing = (far, far_port) if far in self.switches else None
            self.ends.append(End(f"{adapters[first]}/{guid - first}", guid, node["guid"], lid, number, None, facing))


def answers(file):
    """By the words of their queries: the fields of an answer, or the words of a table; nothing if it is not whole, or the query failed."""
    found, words, rows, fields, failed = {}, None, [], {}, False
    for line in [*open(file, errors="replace"), "# smpquery end"]:
        line = line.rstrip()
        if line.startswith("# smpquery "):
            if words:
                found[words] = {} if failed else fields
            words, rows, fields, failed = tuple(line.split()[2:]), [], {}, False
        elif failed or re.match(r"[^ ]*: iberror: ", line):
            failed = True
        elif re.match(r"\s*\d+: ", line):
            rows += [int(key, 16) for key in line.split()[1:]]
        elif line.endswith("pkeys capacity for this port"):
            fields = {"table": rows[: int(line.split()[0])]}
        elif words and not line.startswith(("#", "\t")) and ":" in line:
            name, value = line.split(":", 1)
            fields[name] = value.lstrip(".")
    return found


def memberships(file, fabric, manager):
    """The keys that the file gives each end, and those that OpenSM reads in it, by its GUID; the GUIDs that it lists, and the bases that
    an end has by it."""
    if file == "-":
        given = {end.guid: [0xFFFF] for end in fabric.ends}
        return given, given, [], [0x7FFF] if given else []
    text = re.sub(r"#.*", "", open(file).read())
    items = collections.OrderedDict({0x7FFF: []})
    ruled = False
    for definition in text.split(";")[:-1]:
        head, lists = definition.split(":", 1)
        name_and_key, *flags = [part.strip() for part in head.split(",")]
        base = int(name_and_key.split("=")[1].strip(), 16) & 0x7FFF
        ruled |= base == 0x7FFF
        full = "defmember=full" in flags
        for item in lists.split(","):
            port, _, membership = [part.strip() for part in item.partition("=")]
            if port:
                items.setdefault(base, []).append((port, membership == "full" if membership else full))
            else:
                items.setdefault(base, [])
    listed_guids = [int(port, 16) for listed in items.values() for port, _ in listed if port.startswith("0x")]
    words = items[0x7FFF]
    built_in = [("ALL", False), ("SELF", True)]
    opensms = {**items, 0x7FFF: built_in + words}
    if not ruled:
        items[0x7FFF] = [("ALL", False)]
    items[0x7FFF] = items[0x7FFF] + [("SELF", True)]
    given, read = {}, {}
    for end in fabric.ends:
        is_listed = {"ALL": True, "ALL_CAS": end.switch is None, "ALL_SWITCHES": end.switch is not None, "SELF": end.guid == manager}
        given[end.guid], read[end.guid] = [], []
        for base in items:
            met, last = ([full for port, full in listed if (is_listed[port] if port in is_listed else int(port, 16) == end.guid)] for listed in (items[base], opensms[base]))
            if met:
                given[end.guid].append(base | (0x8000 if any(met) else 0))
            if last:
                read[end.guid].append(base | (0x8000 if last[-1] else 0))
    return given, read, list(dict.fromkeys(listed_guids)), [one for one in items if any(one == key & 0x7FFF for keys in given.values() for key in keys)]


def base(key):
    return key & 0x7FFF


def lacking(keys, others):
    return [key for key in keys if base(key) not in {base(other) for other in others}]


def talk(wanted, keys, others):
    """Whether two ports with these keys may talk in the partition of this base."""
    keys, others = ([key for key in each if base(key) == wanted] for each in (keys, others))
    return bool(keys and others) and max(keys + others) >= 0x8000


class Audit:
    def __init__(self, netdiscover, pkeys, partitions, manager=None, all_pairs=False):
        self.fabric = Fabric(netdiscover)
        self.answers = answers(pkeys)
        self.all_pairs = all_pairs
        self.manager = manager or self.fabric.manager
        self.given, self.opensms, self.listed, self.bases = memberships(partitions, self.fabric, self.manager)
        self.keys, self.facing, self.cut, self.moved, self.unread = [], [], [], [], []
        self.counts = collections.Counter()
        self.clean = self.agrees = True

    def node(self, lid):
        fields = self.answers.get(("nodeinfo", str(lid)), {})
        return fields if {"Guid", "PortGuid", "PartCap"} <= fields.keys() else {}

    def table(self, lid, *ports):
        for port in ports:
            for words in (("pkeys", str(lid), str(port)), *([("pkeys", str(lid))] if port == 0 else [])):
                table = self.answers.get(words, {}).get("table")
                if table is not None:
                    return table
        return None

    def note(self, lines, kind, port, keys, opensms=lambda key: False):
        lines += [f"{kind} {port} 0x{key:04x}" + (" (OpenSM reads the file so)" if opensms(key) else "") for key in keys]
        self.counts[kind] += len(keys)
        self.agrees &= not keys

    def own(self, end):
        """The keys that stand at an end, if it is judged."""
        node = self.node(end.lid)
        wanted, field = (end.switch, "Guid") if end.switch else (end.guid, "PortGuid")
        if node and int(node[field], 16) != wanted:
            self.moved.append(f"moved {end.name} {end.lid} 0x{end.guid:016x} 0x{int(node[field], 16):016x}")
            self.clean = False
            return None
        table = self.table(end.lid, end.number, 0) if node else None
        if table is None:
            self.unread.append(f"unread {end.name}")
            self.clean = False
            return None
        held, given = list(dict.fromkeys(key for key in table if base(key))), self.given[end.guid]
        missing = lacking(given, held)
        changed = [key for key in held if key not in given and base(key) in {base(other) for other in given}]
        opensms = self.opensms[end.guid]
        self.note(self.keys, "extra", end.name, lacking(held, given), lambda key: key in opensms)
        self.note(self.keys, "missing", end.name, missing, lambda key: lacking([key], opensms))
        self.note(self.keys, "membership", end.name, changed, lambda key: key in opensms)
        if missing and all(map(base, table)):
            self.keys.append(f"full {end.name}")
            self.counts["full"] += 1
        if set(held) == set(given):
            self.counts["as the file"] += 1
        else:
            self.clean = False
        return held

    def faced(self, end, held):
        name, switch = self.fabric.switches[end.far[0]]
        port = f"{name}/{end.far[1]}"
        self.counts["faced"] += 1
        node, lid = self.node(switch["lid"]), str(switch["lid"])
        known = node and int(node["Guid"], 16) == switch["guid"]
        info = self.answers.get(("portinfo", lid, str(end.far[1])), {}) if known else {}
        table = self.table(lid, end.far[1]) if known else None
        if not {"PartEnforceInb", "PartEnforceOutb"} <= info.keys():
            self.facing.append(f"unread {port}")
            self.counts["unread switch"] += 1
            self.clean = False
            return
        bits = info["PartEnforceInb"] + info["PartEnforceOutb"]
        if bits == "00":
            self.facing.append(f"off {port}")
            self.counts["off"] += 1
            return
        if bits != "11":
            self.facing.append(f"half {port}")
            self.counts["half"] += 1
        if table is None:
            self.facing.append(f"unread {port}")
            self.counts["unread switch"] += 1
            self.clean = False
        elif held is not None:
            keys = list(dict.fromkeys(key for key in table if base(key)))
            self.note(self.facing, "lacks", port, [base(key) for key in lacking(held, keys)])
            self.cut += [(port, end, base(key)) for key in lacking(held, keys)]
            self.note(self.facing, "more", port, [base(key) for key in lacking(keys, held)])
            self.clean &= {base(key) for key in held} == {base(key) for key in keys}

    def partitions(self, read):
        """Of each base that is there: whether tables or the file have it alone, and the pairs that talk by one of them."""
        alone, pairs = [], []
        for wanted in sorted({base(key) for end, held in read for key in held + self.given[end.guid]}):
            stands = sum(any(base(key) == wanted for key in held) for _, held in read)
            given = sum(any(base(key) == wanted for key in self.given[end.guid]) for end, _ in read)
            if not stands:
                alone.append(f"absent 0x{wanted:04x} {given}")
            if not given:
                alone.append(f"stray 0x{wanted:04x} {stands}")
            found = {"- ": [], "+ ": []}
            for (one, held), (other, others) in itertools.combinations(read, 2):
                tables, file = talk(wanted, held, others), talk(wanted, self.given[one.guid], self.given[other.guid])
                if tables != file:
                    found["+ " if tables else "- "].append(f"share {one.name} {other.name} 0x{wanted:04x}")
            for sign, lines in found.items():
                counted = len(lines) > FEW_PAIRS and not self.all_pairs
                pairs += [f"{sign}pairs 0x{wanted:04x} {len(lines)}"] if counted else [sign + line for line in lines]
        return alone, pairs

    def cuts(self, read):
        held = {end.guid: keys for end, keys in read}
        for port, end, wanted in self.cut:
            others = sum(talk(wanted, held[end.guid], keys) for other, keys in read if other is not end)
            if others:
                yield f"cut {port} 0x{wanted:04x} {others}"

    def trunks(self):
        """What ports between switches lack that drop packets."""
        for name, switch in self.fabric.switches.values():
            node, lid = self.node(switch["lid"]), str(switch["lid"])
            for number, _, far, _, _ in switch["ports"] if node and int(node["Guid"], 16) == switch["guid"] else []:
                info, table = self.answers.get(("portinfo", lid, str(number)), {}), self.table(lid, number)
                drops = {"PartEnforceInb", "PartEnforceOutb"} <= info.keys() and "1" in info["PartEnforceInb"] + info["PartEnforceOutb"]
                if far in self.fabric.switches and drops and table is not None:
                    yield from (f"trunk {name}/{number} lacks 0x{one:04x}" for one in self.bases if one not in map(base, table))

    def wide(self, read):
        """The partitions in which the file lets at least half of the pairs of ports talk that were read, the greatest first: eight."""
        pairs = list(itertools.combinations([self.given[end.guid] for end, _ in read], 2))
        counts = {wanted: sum(talk(wanted, one, other) for one, other in pairs) for wanted in self.bases}
        wide = sorted((wanted for wanted, count in counts.items() if count and 2 * count >= len(pairs)), key=lambda wanted: (-counts[wanted], wanted))
        for wanted in wide[:8]:
            yield f"by the file: {counts[wanted]} of {len(pairs)} pairs may talk in 0x{wanted:04x}"
        if wide[8:]:
            yield f"# in {len(wide) - 8} more partitions the file lets at least half of all pairs talk"

    def diagnosis(self, read, alone):
        lines = []
        if self.counts["extra"] + self.counts["missing"] + self.counts["membership"]:
            if read and all(set(held) == {0xFFFF} for _, held in read):
                lines.append(FELL_OPEN.removeprefix("diagnosis: "))
            else:
                if all(set(held) == set(self.opensms[end.guid]) for end, held in read):
                    lines.append("OpenSM reads this file so: if several words name a port, it takes the last")
                if alone and not self.counts["full"]:
                    lines.append("the tables follow another file, or another program wrote them: see stray and absent")
        for end, held in read:
            if end.guid == self.manager and 0xFFFF not in held:
                lines.append(f"the SM port {end.name} is not a full member of 0x7fff: limited members cannot ask the SA")
        if self.counts["full"]:
            lines.append("a table has no place for keys of the file: see full")
        return ["diagnosis: " + line for line in lines]

    def strangers(self):
        for guid in self.listed:
            if guid not in {end.guid for end in self.fabric.ends}:
                ports = [end.name for end in self.fabric.ends if end.node == guid]
                yield " ".join(["node-guid" if ports else "no-port", f"0x{guid:016x}", *ports])
        yield from (f"no-partition {end.name}" for end in self.fabric.ends if not self.given[end.guid])

    def without_partitions(self):
        """What is said of the tables if the partition file is refused."""
        held = [keys for keys in map(self.own, self.fabric.ends) if keys is not None]
        return [FELL_OPEN] if held and all(set(keys) == {0xFFFF} for keys in held) else []

    def lines(self):
        read = []
        for end in self.fabric.ends:
            held = self.own(end)
            if held is not None:
                read.append((end, held))
            if end.far:
                self.faced(end, held)
        count, trunks = self.counts, list(self.trunks())
        if trunks:
            self.clean = self.agrees = False
        alone, pairs = self.partitions(read)
        facing = ["off everywhere"] if count["faced"] and count["off"] == count["faced"] else self.facing
        verdict = "the tables follow the file" if self.clean else "not all tables were read; those that were follow the file" if self.agrees else "the tables do not follow the file"
        return self.diagnosis(read, alone) + alone + pairs + self.keys + facing + list(self.cuts(read)) + trunks + self.moved + self.unread + list(self.strangers()) + list(self.wide(read)) + [
            f"ports: {len(self.fabric.ends)}, {count['as the file']} as the file, {len(self.unread)} unread, {len(self.moved)} moved",
            f"keys: {count['extra']} extra, {count['missing']} missing, {count['membership']} of other membership",
            f"switch ports: {count['faced']}, {count['off']} off, {count['half']} half, {count['unread switch']} unread",
            f"bases: {count['lacks']} lacking, {count['more']} more",
            "verdict: " + verdict,
            f"status {int(not self.clean)}",
        ]


def refused_line(partitions):
    """The first line of the file with a GUID that is none, if there is one."""
    lines = [] if partitions == "-" else open(partitions).read().split("\n")
    return next((place for place, line in enumerate(lines, 1) if re.search(r"\b0x\w*[g-zG-Z_]", line.split("#")[0])), None)


def audited(netdiscover, pkeys, partitions, manager=None, all_pairs=False):
    """The lines of both outputs, one behind the other, and of the status."""
    line = refused_line(partitions)
    if line is None:
        return Audit(netdiscover, pkeys, partitions, manager, all_pairs).lines()
    return [*Audit(netdiscover, pkeys, "-", manager).without_partitions(), f"fault PF2 partitions line {line}", "status 1"]


def table_text(words, capacity):
    rows = -(-capacity // 8) * 8
    words = (words + [0] * rows)[:rows]
    text = [f"{place:4}: " + " ".join(f"0x{key:04x}" for key in words[place : place + 8]) for place in range(0, rows, 8)]
    return text + [f"{capacity} pkeys capacity for this port"]


def make(seed):
    """A fabric of a line of switches with adapters, a partition file, and tables that follow it but for some edits."""
    chance = random.Random(seed)
    switches = [{"guid": 0x1000 * (n + 1), "lid": n + 1, "name": chance.choice(["sw", f"sw {n}", f"s{n}"]), "ports": {}} for n in range(chance.randrange(1, 4))]
    for one, (a, b) in enumerate(zip(switches, switches[1:])):
        a["ports"][1], b["ports"][2] = (b, 2), (a, 1)
    adapters, lid = [], 20
    for n in range(chance.randrange(1, 7)):
        node = {"guid": 0x100000 + 0x100 * n, "name": chance.choice(["host", f"h{n}", f"h{n} HCA-1"]), "ports": []}
        for number in range(1, chance.choice([1, 1, 1, 2]) + 1):
            switch = chance.choice(switches)
            port = len(switch["ports"]) + 3
            node["ports"].append({"number": number, "guid": node["guid"] + number, "lid": lid, "far": (switch, port)})
            switch["ports"][port] = (node, number)
            lid += chance.choice([1, 2])
        adapters.append(node)
    lines = [f"# Initiated from node {adapters[0]['guid']:016x} port {adapters[0]['ports'][0]['guid']:016x}"]
    for switch in switches:
        lines += [f"switchguid=0x{switch['guid']:x}({switch['guid']:x})", f"Switch\t36 \"S-{switch['guid']:016x}\"\t\t# \"{switch['name']}\" base port 0 lid {switch['lid']} lmc 0"]
        for port, (far, number) in sorted(switch["ports"].items()):
            if isinstance(far["ports"], dict):
                lines.append(f"[{port}]\t\"S-{far['guid']:016x}\"[{number}]\t\t# \"{far['name']}\" lid {far['lid']} 4xEDR")
            else:
                lines.append(f"[{port}]\t\"H-{far['guid']:016x}\"[{number}]({far['guid'] + number:x}) \t\t# \"{far['name']}\" lid {far['ports'][number - 1]['lid']} 4xEDR")
    for node in adapters:
        lines.append(f"Ca\t2 \"H-{node['guid']:016x}\"\t\t# \"{node['name']}\"")
        for port in node["ports"]:
            far, number = port["far"]
            lines.append(f"[{port['number']}]({port['guid']:x}) \t\"S-{far['guid']:016x}\"[{number}]\t\t# lid {port['lid']} lmc 0 \"{far['name']}\" lid {far['lid']} 4xEDR")
    open("netdiscover", "w").write("\n".join(lines) + "\n")

    guids = [port["guid"] for node in adapters for port in node["ports"]] + [switch["guid"] for switch in switches] + [0xDEAD]
    rules = []
    if chance.randrange(2):
        rules.append("Default=0x7fff: " + chance.choice(["ALL=limited", "ALL=limited, SELF=full", "ALL_CAS=full", "ALL_SWITCHES=full"]) + ";")
    for n in range(chance.randrange(1, 6)):
        words = chance.choice(["ALL", "ALL_CAS", "SELF", *[f"0x{guid:x}" for guid in guids * 2]]), *[f"0x{guid:x}" for guid in chance.sample(guids, chance.randrange(len(guids)))]
        rules.append(f"P{n}=0x{chance.choice([1, 2, 3, 0x8004, 0x55]):04x}{chance.choice(['', ', defmember=full'])}: " + ", ".join(word + chance.choice(["", "=full", "=limited"]) for word in words) + ";")
    open("partitions", "w").write("\n".join(rules) + "\n")

    fabric = Fabric("netdiscover")
    given, _, _, bases = memberships("partitions", fabric, fabric.manager)

    # Some files have a GUID that is none, so OpenSM dropped them.
    dropped = chance.randrange(8) == 0
    if dropped:
        rules.insert(chance.randrange(len(rules) + 1), "Typo=0x0077: 0x98o39b0300d05051=full;")
        open("partitions", "w").write("\n".join(rules) + "\n")

    def edited(keys, capacity):
        if dropped:
            return table_text([0xFFFF] if chance.randrange(20) else [0xFFFF, 0x8001], capacity)
        keys = list(keys)
        if chance.randrange(4) == 0:
            keys.insert(chance.randrange(len(keys) + 1), 0)
        if keys and chance.randrange(5) == 0:
            place = chance.randrange(len(keys))
            keys[place] = chance.choice([0, keys[place] ^ 0x8000, 0x8000, 0x7777, 0x8003])
        if chance.randrange(6) == 0:
            keys.append(chance.choice([0x8001, 0x0002, 0x8055, 0xFFFF, *keys]))
        return table_text(keys, capacity)

    out = []

    def failure(words):
        return f"{chance.choice(['', '/usr/sbin/'])}smpquery: iberror: failed: operation {words.split()[0]}: node info query failed"

    def ask(words, answer):
        out.append("# smpquery " + words)
        way, place = chance.randrange(90), chance.randrange(len(answer) + 1)
        if way == 0:
            out.append(failure(words))
        elif way == 1:
            out.extend([*answer[:place], failure(words), *answer[place:], *chance.choice([[], ["broken off"]])])
        elif way == 2:
            out.extend(answer[:-1][:place])
        elif way > 3:
            out.extend(answer)

    def node_info(lid, guid, port):
        moved = chance.choice([0] * 25 + [0x40])
        return [f"# Node info: Lid {lid}", f"Guid:............{hex(guid + moved)}", f"PortGuid:........{hex(port + moved)}", "PartCap:.....8", "DevId:....0xd2f0"]

    for switch in switches:
        ask(f"nodeinfo {switch['lid']}", node_info(switch["lid"], switch["guid"], switch["guid"]))
        ask(f"pkeys {switch['lid']} 0", edited(given[switch["guid"]], chance.choice([8, 12, 32])))
        for port, (far, number) in sorted(switch["ports"].items()):
            is_trunk = isinstance(far["ports"], dict)
            keys = chance.choice([[0xFFFF], bases, bases]) if is_trunk else given[far["guid"] + number]
            ask(f"pkeys {switch['lid']} {port}", edited(keys, chance.choice([8, 32])))
            bits = chance.choice(["00"] * 5 + ["01", "10", "11"] if is_trunk else ["11"] * 5 + ["01", "10", "00"])
            ask(f"portinfo {switch['lid']} {port}", [f"# Port info: Lid {switch['lid']} port {port}", "CapMask:....0x2", "\t\tIsSM", f"PartEnforceInb:..{bits[0]}", f"PartEnforceOutb:.{bits[1]}"])
    for node in adapters:
        for port in node["ports"]:
            ask(f"nodeinfo {port['lid']}", node_info(port["lid"], node["guid"], port["guid"]))
            ask(f"pkeys {port['lid']}{chance.choice(['', ' ' + str(port['number'])])}", edited(given[port["guid"]], chance.choice([8, 64, 128])))
    if chance.randrange(20) == 0:
        out.insert(0, failure("nodeinfo"))
    open("pkeys", "w").write("\n".join(out) + "\n")


def tried(program, seed):
    """Whether the program says of the fabric of this seed what is worked out here."""
    make(seed)
    all_pairs = seed % 2 == 0
    options = ["--all"] if all_pairs else []
    run = subprocess.run([program, "audit-keys", "netdiscover", "pkeys", "partitions", *options], capture_output=True, stdin=subprocess.DEVNULL)
    given = (run.stdout + run.stderr).decode() + f"status {run.returncode}\n"
    wanted = "\n".join(audited("netdiscover", "pkeys", "partitions", all_pairs=all_pairs)) + "\n"
    if given != wanted:
        print(f"tests/keys: the fabric of seed {seed} differs (-: wanted, +: given)")
        print("\n".join(list(difflib.unified_diff(wanted.split("\n"), given.split("\n"), lineterm=""))[2:20]))
    return given == wanted


if sys.argv[1] == "--make":
    make(int(sys.argv[2]))
elif sys.argv[1] == "--try":
    results = [tried(sys.argv[2], seed) for seed in range(1, int(sys.argv[3]) + 1)]
    print(f"{sum(results)} passed, {len(results) - sum(results)} failed")
else:
    all_pairs = "--all" in sys.argv
    print("\n".join(audited(*sys.argv[1:4], int(sys.argv[5], 16) if "--sm" in sys.argv else None, all_pairs)))
