//! What `fabric` does, without a proof: a plain program of `std` alone, to measure beside it. `bench/measure` builds it with
//! rustc and asks first that it prints the same.
//!
//! It reads the same texts, but takes them to be right; computes LIDs, keys, routes and tables straight from the topology, where
//! `fabric` sends SMPs over a simulated fabric and reads the tables back; and carries packets by these tables. It knows the
//! commands `check`, `tables`, `shares`, `audit` and `run`, and of scripts `send`, `cut` and `mend`.
use std::collections::{HashMap, VecDeque};
use std::fmt::Write as _;
use std::io::{BufRead, BufReader, BufWriter, Write};

const NONE: u8 = 255;

struct Node {
    name: String,
    guid: u64,
    ports: usize,
    is_switch: bool,
}

/// The far end of each port of each node: a node and its port.
type Far = Vec<Vec<Option<(usize, usize)>>>;

struct Topology {
    nodes: Vec<Node>,
    by_name: HashMap<String, usize>,
    far: Far,
    roots: Vec<usize>,
    manager: (usize, usize),
}

struct EndPort {
    node: usize,
    port: usize,
    guid: u64,
    /// By partition number; 0 where the port is no member.
    keys: Vec<u16>,
}

struct Partition {
    base: u16,
    name: String,
}

fn number(word: &str) -> u64 {
    match word.strip_prefix("0x") {
        Some(digits) => u64::from_str_radix(digits, 16),
        None => word.parse(),
    }
    .unwrap_or_else(|_| refused(word))
}

fn refused<T>(what: &str) -> T {
    eprintln!("plain: it takes no {what}");
    std::process::exit(1)
}

fn read(path: &str) -> String {
    std::fs::read_to_string(path).unwrap_or_else(|_| refused(path))
}

fn words(line: &str) -> impl Iterator<Item = &str> {
    line.split('#').next().unwrap_or("").split_ascii_whitespace()
}

impl Topology {
    fn read(text: &str) -> Topology {
        let mut it = Topology {
            nodes: Vec::new(),
            by_name: HashMap::new(),
            far: Vec::new(),
            roots: Vec::new(),
            manager: (0, 0),
        };
        for line in text.lines() {
            let words: Vec<&str> = words(line).collect();
            match words[..] {
                [] => {}
                ["switch", name, guid, ports] => it.add(name, guid, ports, true),
                ["adapter", name, guid, ports] => it.add(name, guid, ports, false),
                ["cable", a, b] => {
                    let (a, b) = (it.port(a), it.port(b));
                    it.far[a.0][a.1] = Some(b);
                    it.far[b.0][b.1] = Some(a);
                }
                ["root", name] => it.roots.push(it.by_name[name]),
                ["sm", port] => it.manager = it.port(port),
                _ => refused(line),
            }
        }
        it
    }

    fn add(&mut self, name: &str, guid: &str, ports: &str, is_switch: bool) {
        let ports = number(ports) as usize;
        self.by_name.insert(name.to_string(), self.nodes.len());
        self.far.push(vec![None; ports + 1]);
        self.nodes.push(Node {
            name: name.to_string(),
            guid: number(guid),
            ports,
            is_switch,
        });
    }

    fn port(&self, word: &str) -> (usize, usize) {
        let (name, port) = word.split_once('/').unwrap_or_else(|| refused(word));
        match self.by_name.get(name) {
            Some(&node) => (node, number(port) as usize),
            None => refused(word),
        }
    }

    fn label(&self, node: usize, port: usize) -> String {
        format!("{}/{}", self.nodes[node].name, port)
    }

    /// The end ports by LID, which begin at 1.
    fn end_ports(&self) -> Vec<EndPort> {
        let mut ports = Vec::new();
        for (node, it) in self.nodes.iter().enumerate() {
            let all = if it.is_switch { 0..=0 } else { 1..=it.ports };
            for port in all.filter(|p| it.is_switch || self.far[node][*p].is_some()) {
                ports.push(EndPort {
                    node,
                    port,
                    guid: it.guid + port as u64,
                    keys: Vec::new(),
                });
            }
        }
        ports.sort_by_key(|it| ((it.node, it.port) != self.manager, it.guid));
        ports
    }
}

// ---- partitions

/// Gives each end port its keys; definitions of `ALL`, `ALL_CAS`, `SELF` and GUIDs, with `=full`.
fn partitions(topology: &Topology, text: Option<&str>, ports: &mut [EndPort]) -> Vec<Partition> {
    let mut all = vec![Partition {
        base: 0x7fff,
        name: "Default".to_string(),
    }];
    let by_guid: HashMap<u64, usize> = ports.iter().enumerate().map(|(k, it)| (it.guid, k)).collect();
    for port in ports.iter_mut() {
        let is_full = text.is_none() || (port.node, port.port) == topology.manager;
        port.keys.push(if is_full { 0xffff } else { 0x7fff });
    }
    for definition in text.unwrap_or("").split(';') {
        let Some((head, list)) = definition.split_once(':') else {
            continue;
        };
        let (name, key) = head.split_once('=').unwrap_or_else(|| refused(head));
        all.push(Partition {
            base: number(key.trim()) as u16 & 0x7fff,
            name: name.trim().to_string(),
        });
        for port in ports.iter_mut() {
            port.keys.push(0);
        }
        let (number_of, base) = (all.len() - 1, all[all.len() - 1].base);
        for item in list.split(',').map(str::trim).filter(|it| !it.is_empty()) {
            let (who, how) = item.split_once('=').unwrap_or((item, "limited"));
            let key = if how == "full" { base | 0x8000 } else { base };
            let take = |port: &mut EndPort| port.keys[number_of] |= key;
            match who {
                "ALL" => ports.iter_mut().for_each(take),
                "ALL_CAS" => ports
                    .iter_mut()
                    .filter(|it| !topology.nodes[it.node].is_switch)
                    .for_each(take),
                "SELF" => take(&mut ports[0]),
                guid => {
                    if let Some(&place) = by_guid.get(&number(guid)) {
                        take(&mut ports[place]);
                    }
                }
            }
        }
    }
    all
}

fn matches(a: u16, b: u16) -> bool {
    a & 0x7fff != 0 && a & 0x7fff == b & 0x7fff && (a | b) & 0x8000 != 0
}

// ---- routes

/// A table for each node, by LID; an adapter's is empty.
type Tables = Vec<Vec<u8>>;

struct Switches {
    /// The nodes that are switches, from the highest down.
    order: Vec<usize>,
    /// By node: its place in that order.
    place: Vec<usize>,
    /// By place: its links, each a port and the place behind it.
    links: Vec<Vec<(u8, usize)>>,
}

fn switches(topology: &Topology, far: &Far) -> Switches {
    let all: Vec<usize> = (0..topology.nodes.len())
        .filter(|n| topology.nodes[*n].is_switch)
        .collect();
    let mut roots = topology.roots.clone();
    if roots.is_empty() {
        roots.extend(all.iter().min_by_key(|n| topology.nodes[**n].guid));
    }
    let mut rank = vec![usize::MAX; topology.nodes.len()];
    let mut queue = VecDeque::new();
    for root in roots {
        rank[root] = 0;
        queue.push_back(root);
    }
    while let Some(node) = queue.pop_front() {
        for &(next, _) in far[node].iter().flatten() {
            if topology.nodes[next].is_switch && rank[next] == usize::MAX {
                rank[next] = rank[node] + 1;
                queue.push_back(next);
            }
        }
    }
    let mut order = all;
    order.sort_by_key(|n| (rank[*n], topology.nodes[*n].guid));
    let mut place = vec![usize::MAX; topology.nodes.len()];
    for (k, node) in order.iter().enumerate() {
        place[*node] = k;
    }
    let links = order
        .iter()
        .map(|node| {
            let ends = far[*node].iter().enumerate();
            ends.filter_map(|(port, end)| Some((port as u8, place[(*end)?.0])))
                .filter(|(_, place)| *place != usize::MAX)
                .collect()
        })
        .collect();
    Switches { order, place, links }
}

impl Switches {
    /// The port by which each switch sends what is for this one, by up/down.
    fn towards(&self, target: usize) -> Vec<u8> {
        let count = self.order.len();
        let (mut port, mut hops) = (vec![NONE; count], vec![usize::MAX; count]);
        hops[target] = 0;
        // down: a switch before the target, over switches that stand ever later
        for s in (0..target).rev() {
            for &(p, t) in &self.links[s] {
                if t > s && hops[t] != usize::MAX && hops[t] + 1 < hops[s] {
                    (hops[s], port[s]) = (hops[t] + 1, p);
                }
            }
        }
        // up: where none leads down
        for s in 0..count {
            if hops[s] != usize::MAX {
                continue;
            }
            for &(p, t) in &self.links[s] {
                if t < s && hops[t] != usize::MAX && hops[t] + 1 < hops[s] {
                    (hops[s], port[s]) = (hops[t] + 1, p);
                }
            }
        }
        port
    }
}

/// The linear forwarding tables, or nothing where the fabric does not come up.
fn tables(topology: &Topology, far: &Far, ports: &[EndPort]) -> Option<Tables> {
    let switches = switches(topology, far);
    let is_lost = |it: &EndPort| !topology.nodes[it.node].is_switch;
    let mut tables: Tables = topology
        .nodes
        .iter()
        .map(|it| {
            if it.is_switch {
                vec![NONE; ports.len() + 1]
            } else {
                Vec::new()
            }
        })
        .collect();
    let carries: Vec<bool> = topology
        .nodes
        .iter()
        .enumerate()
        .map(|(n, it)| it.is_switch && far[n].iter().flatten().any(|e| !topology.nodes[e.0].is_switch))
        .collect();
    let mut known: Vec<Option<Vec<u8>>> = vec![None; switches.order.len()];
    for (k, end) in ports.iter().enumerate() {
        let (home, exit) = match topology.nodes[end.node].is_switch {
            true => (end.node, 0),
            false => far[end.node][end.port]?,
        };
        let target = switches.place[home];
        let next = known[target].get_or_insert_with(|| switches.towards(target));
        for (place, node) in switches.order.iter().enumerate() {
            let port = if *node == home { exit as u8 } else { next[place] };
            if port == NONE && carries[*node] && is_lost(end) {
                return None;
            }
            tables[*node][k + 1] = port;
        }
    }
    Some(tables)
}

/// Whether all switches are joined, and every cable is near enough.
fn is_whole(topology: &Topology, far: &Far) -> bool {
    let paths = paths(topology, far);
    topology
        .nodes
        .iter()
        .enumerate()
        .all(|(n, it)| !it.is_switch || paths[n].as_ref().is_some_and(|p| p.len() <= 63))
}

/// By node the ports by which a search from the subnet manager's port leaves each node.
fn paths(topology: &Topology, far: &Far) -> Vec<Option<Vec<usize>>> {
    let mut found = vec![None; topology.nodes.len()];
    let (node, port) = topology.manager;
    let mut queue = VecDeque::new();
    if let Some((first, _)) = far[node][port] {
        found[first] = Some(vec![port]);
        queue.push_back(first);
    }
    while let Some(node) = queue.pop_front() {
        for (port, end) in far[node].iter().enumerate() {
            let Some((next, _)) = *end else { continue };
            if topology.nodes[next].is_switch && found[next].is_none() {
                let mut path: Vec<usize> = found[node].clone().unwrap_or_default();
                path.push(port);
                found[next] = Some(path);
                queue.push_back(next);
            }
        }
    }
    found
}

// ---- commands

fn check(topology: &Topology, all: &[Partition], ports: &[EndPort]) -> String {
    let mut text = String::new();
    for (k, it) in ports.iter().enumerate() {
        let _ = writeln!(
            text,
            "port {:#06x} {:#018x} {}",
            k + 1,
            it.guid,
            topology.label(it.node, it.port)
        );
    }
    for (k, partition) in all.iter().enumerate() {
        let name = if partition.name.is_empty() {
            "-"
        } else {
            &partition.name
        };
        let _ = writeln!(text, "partition {k} {:#06x} {name}", partition.base);
        for it in ports.iter().filter(|it| it.keys[k] != 0) {
            let _ = writeln!(text, "member {:#06x} {}", it.keys[k], topology.label(it.node, it.port));
        }
    }
    text
}

fn shares(topology: &Topology, all: &[Partition], ports: &[EndPort]) -> String {
    let mut text = String::new();
    let mut by_base: Vec<usize> = (0..all.len()).collect();
    by_base.sort_by_key(|k| all[*k].base);
    let labels: Vec<String> = ports.iter().map(|it| topology.label(it.node, it.port)).collect();
    for (a, one) in ports.iter().enumerate() {
        for (b, other) in ports.iter().enumerate().skip(a + 1) {
            for &k in by_base.iter().filter(|k| matches(one.keys[**k], other.keys[**k])) {
                let _ = writeln!(text, "share {} {} {:#06x}", labels[a], labels[b], all[k].base);
            }
        }
    }
    text
}

fn dump(topology: &Topology, ports: &[EndPort], tables: &Tables) -> String {
    let mut text = String::new();
    let paths = paths(topology, &topology.far);
    for it in ports.iter().filter(|it| topology.nodes[it.node].is_switch) {
        let node = &topology.nodes[it.node];
        let mut path = "0".to_string();
        for port in paths[it.node].iter().flatten() {
            let _ = write!(path, ",{port}");
        }
        let _ = writeln!(
            text,
            "Unicast lids [0x0-{:#x}] of switch DR path slid 0; dlid 0; {path} guid {:#018x} ({}):",
            ports.len(),
            node.guid,
            node.name
        );
        text.push_str("  Lid  Out   Destination\n       Port     Info \n");
        let mut count = 0;
        for (k, end) in ports.iter().enumerate() {
            let out = tables[it.node][k + 1];
            if usize::from(out) <= node.ports {
                let of = &topology.nodes[end.node];
                let kind = if of.is_switch { "Switch" } else { "Channel Adapter" };
                let _ = writeln!(
                    text,
                    "{:#06x} {out:03} : ({kind} portguid {:#018x}: '{}')",
                    k + 1,
                    end.guid,
                    of.name
                );
                count += 1;
            }
        }
        let _ = writeln!(text, "{count} valid lids dumped ");
    }
    text
}

/// What of a payload is not known yet.
fn payload(word: &str, into: &mut Vec<u8>) {
    let (count, digits) = word.split_once(':').unwrap_or_else(|| refused(word));
    into.clear();
    let digit = |byte: u8| match byte {
        b'0'..=b'9' => byte - b'0',
        b'a'..=b'f' => byte - b'a' + 10,
        b'A'..=b'F' => byte - b'A' + 10,
        _ => refused(word),
    };
    into.extend(
        digits
            .as_bytes()
            .chunks(2)
            .map(|pair| digit(pair[0]) * 16 + digit(pair[1])),
    );
    into.resize(number(count) as usize, 0);
}

struct Run<'a> {
    topology: &'a Topology,
    far: Far,
    ports: &'a [EndPort],
    by_port: HashMap<String, usize>,
    tables: Tables,
    payload: Vec<u8>,
}

impl Run<'_> {
    fn line(&mut self, line: &str, out: &mut impl Write) -> std::io::Result<()> {
        let mut words = words(line);
        let Some(word) = words.next() else {
            return Ok(());
        };
        let mut next = || words.next().unwrap_or_else(|| refused(line));
        match word {
            "send" => {
                let from = *self.by_port.get(next()).unwrap_or_else(|| refused(line));
                let (dlid, key, qp) = (number(next()) as u16, number(next()) as u16, number(next()) as u32);
                payload(next(), &mut self.payload);
                self.send(from, dlid, key, qp, out)
            }
            "cut" | "mend" => {
                let (a, b) = (self.topology.port(next()), self.topology.port(next()));
                self.recable(a, b, word == "mend");
                Ok(())
            }
            _ => refused(line),
        }
    }

    fn send(&mut self, from: usize, dlid: u16, key: u16, qp: u32, out: &mut impl Write) -> std::io::Result<()> {
        let sender = &self.ports[from];
        let refusal = match () {
            _ if !sender.keys.contains(&key) => Some("AR1"),
            _ if qp == 0 => Some("AR2"),
            _ if dlid == 0 || dlid == 0xffff => Some("AR3"),
            _ => None,
        };
        if let Some(code) = refusal {
            return writeln!(out, "{} refused {code}", self.topology.label(sender.node, sender.port));
        }
        let Some((mut node, mut entry)) = self.far[sender.node][sender.port] else {
            return Ok(());
        };
        while self.topology.nodes[node].is_switch {
            let table = &self.tables[node];
            let port = table.get(usize::from(dlid)).copied().unwrap_or(NONE);
            if port == 0 {
                return Ok(());
            }
            match self.far[node].get(usize::from(port)) {
                Some(Some(end)) => (node, entry) = *end,
                _ => return Ok(()),
            }
        }
        let place = usize::from(dlid) - 1;
        let receiver = &self.ports[place];
        debug_assert!((receiver.node, receiver.port) == (node, entry));
        if !receiver.keys.iter().any(|held| matches(*held, key)) || (dlid == 1 && qp == 1) {
            return Ok(());
        }
        let shown = self.payload.iter().rposition(|byte| *byte != 0).map_or(0, |k| k + 1);
        write!(
            out,
            "{}/{} recv {:#06x} {dlid:#06x} {key:#06x} {qp:#08x} {}:",
            self.topology.nodes[node].name,
            entry,
            from + 1,
            self.payload.len()
        )?;
        let mut digits = [0; 512];
        for (k, byte) in self.payload[..shown].iter().enumerate() {
            digits[2 * k] = b"0123456789abcdef"[usize::from(byte >> 4)];
            digits[2 * k + 1] = b"0123456789abcdef"[usize::from(byte & 15)];
        }
        out.write_all(&digits[..2 * shown])?;
        out.write_all(b"\n")
    }

    fn recable(&mut self, a: (usize, usize), b: (usize, usize), up: bool) {
        if self.far[a.0][a.1].is_some() == up {
            return;
        }
        let before = self.far.clone();
        self.far[a.0][a.1] = up.then_some(b);
        self.far[b.0][b.1] = up.then_some(a);
        let next = if is_whole(self.topology, &self.far) {
            tables(self.topology, &self.far, self.ports)
        } else {
            None
        };
        match next {
            Some(tables) => self.tables = tables,
            None => self.far = before,
        }
    }
}

fn run(topology: &Topology, ports: &[EndPort], tables: Tables, script: &str) -> std::io::Result<()> {
    let by_port = ports
        .iter()
        .enumerate()
        .map(|(k, it)| (topology.label(it.node, it.port), k))
        .collect();
    let far = topology.far.clone();
    let mut run = Run {
        topology,
        far,
        ports,
        by_port,
        tables,
        payload: Vec::new(),
    };
    let mut reader = BufReader::new(std::fs::File::open(script)?);
    let mut out = BufWriter::new(std::io::stdout().lock());
    let mut line = String::new();
    while reader.read_line(&mut line)? > 0 {
        run.line(&line, &mut out)?;
        line.clear();
    }
    out.flush()
}

// ---- audits

struct Dumped {
    /// By node: its entries, by LID.
    tables: HashMap<usize, Vec<u8>>,
    /// By LID: the GUID of the end port.
    guids: Vec<Option<u64>>,
}

fn dumped(topology: &Topology, text: &str) -> Dumped {
    let by_guid: HashMap<u64, usize> = topology
        .nodes
        .iter()
        .enumerate()
        .filter(|(_, it)| it.is_switch)
        .map(|(n, it)| (it.guid, n))
        .collect();
    let mut all = Dumped {
        tables: HashMap::new(),
        guids: Vec::new(),
    };
    let mut at = None;
    for line in text.lines() {
        if let Some(rest) = line.strip_prefix("Unicast lids [") {
            let guid = rest
                .split(" guid ")
                .nth(1)
                .and_then(|it| it.split(' ').next())
                .map(number);
            at = guid.and_then(|it| by_guid.get(&it).copied());
        } else if line.starts_with("0x") {
            let mut words = line.split(' ');
            let lid = number(words.next().unwrap_or("0")) as usize;
            let port = words.next().map_or(NONE, |it| it.parse().unwrap_or(NONE));
            let guid = line
                .split("portguid ")
                .nth(1)
                .and_then(|it| it.split(':').next())
                .map(number);
            if all.guids.len() <= lid {
                all.guids.resize(lid + 1, None);
            }
            all.guids[lid] = guid;
            if let Some(node) = at {
                let table = all.tables.entry(node).or_default();
                if table.len() <= lid {
                    table.resize(lid + 1, NONE);
                }
                table[lid] = port;
            }
        }
    }
    all
}

#[derive(Clone, Copy, PartialEq)]
enum Ends {
    Reached,
    Hole,
    Nowhere,
    Wrong,
    Loop,
}

/// What comes of a packet for this LID, from each switch.
fn follow(topology: &Topology, tables: &[Vec<u8>], lid: usize, end: (usize, usize)) -> Vec<Option<Ends>> {
    let mut known: Vec<Option<Ends>> = vec![None; topology.nodes.len()];
    for from in (0..topology.nodes.len()).filter(|n| topology.nodes[*n].is_switch) {
        let (mut node, mut way) = (from, Vec::new());
        let ends = loop {
            if let Some(ends) = known[node] {
                break ends;
            }
            if way.contains(&node) {
                break Ends::Loop;
            }
            way.push(node);
            let port = tables[node].get(lid).copied().unwrap_or(NONE);
            if port == NONE {
                break Ends::Hole;
            }
            let next = if port == 0 {
                Some((node, 0))
            } else {
                topology.far[node].get(usize::from(port)).copied().flatten()
            };
            match next {
                None => break Ends::Nowhere,
                Some(at) if at == end => break Ends::Reached,
                Some((next, _)) if topology.nodes[next].is_switch && port != 0 => node = next,
                Some(_) => break Ends::Wrong,
            }
        };
        for node in way {
            known[node] = Some(ends);
        }
    }
    known
}

/// A port number has one byte.
const PORTS: usize = 256;

/// Whether channels wait for one another in a circle, along these LIDs.
fn has_circle(topology: &Topology, tables: &[Vec<u8>], lids: &[usize]) -> bool {
    let far = &topology.far;
    let number_of = |node: usize, port: usize| node * PORTS + port;
    let mut waits: Vec<Vec<usize>> = vec![Vec::new(); topology.nodes.len() * PORTS];
    let mut waiting = vec![0usize; waits.len()];
    let mut channels = 0;
    for (node, it) in topology.nodes.iter().enumerate().filter(|(_, it)| it.is_switch) {
        for port in 1..=it.ports {
            let Some((next, _)) = far[node][port].filter(|end| topology.nodes[end.0].is_switch) else {
                continue;
            };
            channels += 1;
            let mut seen = [false; 256];
            for &lid in lids.iter().filter(|lid| tables[node].get(**lid) == Some(&(port as u8))) {
                let out = tables[next].get(lid).copied().unwrap_or(NONE);
                let leads = far[next].get(usize::from(out)).copied().flatten();
                if out != 0 && leads.is_some_and(|end| topology.nodes[end.0].is_switch) && !seen[usize::from(out)] {
                    seen[usize::from(out)] = true;
                    waits[number_of(node, port)].push(number_of(next, usize::from(out)));
                    waiting[number_of(next, usize::from(out))] += 1;
                }
            }
        }
    }
    // take away what nothing waits for, until nothing is left or a circle is
    let is_channel = |k: &usize| {
        topology.nodes[k / PORTS].is_switch
            && far[k / PORTS]
                .get(k % PORTS)
                .copied()
                .flatten()
                .is_some_and(|end| topology.nodes[end.0].is_switch)
    };
    let mut free: Vec<usize> = (0..waits.len())
        .filter(|k| waiting[*k] == 0)
        .filter(is_channel)
        .collect();
    let mut gone = 0;
    while let Some(k) = free.pop() {
        gone += 1;
        for &next in &waits[k] {
            waiting[next] -= 1;
            if waiting[next] == 0 {
                free.push(next);
            }
        }
    }
    gone < channels
}

/// The counts and the verdict of an audit, if each switch has a table, each CA port a LID, and each LID a port of the
/// topology. Prints no other line.
fn audit(topology: &Topology, dump: &Dumped) -> String {
    let tables: Vec<Vec<u8>> = (0..topology.nodes.len())
        .map(|n| dump.tables.get(&n).cloned().unwrap_or_default())
        .collect();
    let by_guid: HashMap<u64, (usize, usize)> = topology
        .end_ports()
        .iter()
        .map(|it| (it.guid, (it.node, it.port)))
        .collect();
    let carries: Vec<bool> = topology
        .far
        .iter()
        .map(|ports| ports.iter().flatten().any(|end| !topology.nodes[end.0].is_switch))
        .collect();
    // by `adapters`, `transit` and `switches`, and in all
    let mut counts = [[0usize; 5]; 4];
    let mut lids: [Vec<usize>; 2] = [Vec::new(), Vec::new()];
    for (lid, guid) in dump.guids.iter().enumerate() {
        let Some(&end) = guid.as_ref().and_then(|it| by_guid.get(it)) else {
            continue;
        };
        let is_own = topology.nodes[end.0].is_switch;
        lids[usize::from(is_own)].push(lid);
        for (node, ends) in follow(topology, &tables, lid, end).into_iter().enumerate() {
            let Some(ends) = ends else { continue };
            let kind = if is_own { 2 } else { usize::from(!carries[node]) };
            counts[kind][ends as usize] += 1;
            counts[3][ends as usize] += 1;
        }
    }
    let is_circle = has_circle(topology, &tables, &lids[0]);
    let is_any = is_circle || has_circle(topology, &tables, &lids.concat());
    let mut text = String::new();
    for (what, it) in ["adapters", "transit", "switches", "audit"].into_iter().zip(counts) {
        let pairs: usize = it.iter().sum();
        let _ = write!(
            text,
            "{what}: {pairs} pairs, {} reached, {} holes, {} nowhere, {} wrong, {} loops, 0 unknown",
            it[0], it[1], it[2], it[3], it[4]
        );
        let circle = match what {
            "adapters" if is_circle => ", deadlock",
            "audit" if is_any => ", deadlock",
            "transit" | "switches" => "",
            _ => ", no deadlock",
        };
        let _ = writeln!(text, "{circle}");
    }
    let is_lost = counts[0][1..].iter().any(|count| *count > 0);
    let reasons: Vec<&str> = [(is_lost, "unreached"), (is_circle, "deadlock")]
        .iter()
        .filter(|it| it.0)
        .map(|it| it.1)
        .collect();
    let verdict = if reasons.is_empty() {
        "safe".to_string()
    } else {
        format!("not safe ({})", reasons.join(", "))
    };
    let _ = writeln!(text, "verdict: {verdict}, as if all packets used one virtual lane; multicast is not judged");
    text
}

fn main() {
    let args: Vec<String> = std::env::args().skip(1).collect();
    let words: Vec<&str> = args.iter().map(String::as_str).collect();
    let [command, topology, parts, ..] = words[..] else {
        return refused("call without files");
    };
    let topology = Topology::read(&read(topology));
    let mut out = std::io::stdout().lock();
    if command == "audit" {
        let _ = out.write_all(audit(&topology, &dumped(&topology, &read(parts))).as_bytes());
        return;
    }
    let mut ports = topology.end_ports();
    let text = (parts != "-").then(|| read(parts));
    let all = partitions(&topology, text.as_deref(), &mut ports);
    let text = match command {
        "shares" => shares(&topology, &all, &ports),
        _ => {
            let Some(tables) = Some(&topology.far)
                .filter(|far| is_whole(&topology, far))
                .and_then(|far| tables(&topology, far, &ports))
            else {
                return refused("fabric that does not come up");
            };
            match (command, words.get(3)) {
                ("check", None) => check(&topology, &all, &ports),
                ("tables", None) => dump(&topology, &ports, &tables),
                ("run", Some(script)) => {
                    drop(out);
                    run(&topology, &ports, tables, script).unwrap_or_else(|_| refused("script"));
                    return;
                }
                _ => refused(command),
            }
        }
    };
    let _ = out.write_all(text.as_bytes());
}
