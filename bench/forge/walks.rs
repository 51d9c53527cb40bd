//! The walks of a certificate of version 3 under any claims: gates, masks, rows and trees, as docs/FORMATS.md has them.

use crate::certs::{Cert, Row};
use crate::maps::{Map, P, Random};
use std::collections::{BTreeMap, BTreeSet, HashMap, HashSet};

fn turn(a: P, b: P, c: P) -> i64 {
    (b.0 - a.0) * (c.1 - a.1) - (b.1 - a.1) * (c.0 - a.0)
}

fn is_on(a: P, b: P, p: P) -> bool {
    turn(a, b, p) == 0 && p.0 >= a.0.min(b.0) && p.0 <= a.0.max(b.0) && p.1 >= a.1.min(b.1) && p.1 <= a.1.max(b.1)
}

fn meet(a: P, b: P, c: P, d: P) -> bool {
    let apart = |a, b, c, d| turn(a, b, c).signum() * turn(a, b, d).signum() < 0;
    apart(a, b, c, d) && apart(c, d, a, b) || is_on(a, b, c) || is_on(a, b, d) || is_on(c, d, a) || is_on(c, d, b)
}

/// Whether no straight line has all of one strictly on one side and all of the other on the other.
fn no_line_splits(one: &[P], other: &[P]) -> bool {
    let within = |hull: &[P], p: P| {
        hull.len() == 3 && {
            let turns = [turn(hull[0], hull[1], p), turn(hull[1], hull[2], p), turn(hull[2], hull[0], p)];
            turns.iter().all(|t| *t > 0) || turns.iter().all(|t| *t < 0)
        }
    };
    let pairs = |points: &[P]| -> Vec<(P, P)> { points.iter().flat_map(|a| points.iter().map(move |b| (*a, *b))).collect() };
    pairs(one).iter().any(|(a, b)| pairs(other).iter().any(|(c, d)| meet(*a, *b, *c, *d)))
        || other.iter().any(|p| within(one, *p))
        || one.iter().any(|p| within(other, *p))
}

const NONE: usize = usize::MAX;

/// A half-edge by which its triangle is entered.
#[derive(Clone, Copy)]
struct Entry {
    right: P,
    left: P,
    apex: P,
    to: usize,
    /// the half-edges behind the edge from the apex to the left end, and behind the other; none behind a solid line
    behind: [usize; 2],
    /// its number among gates
    gate: usize,
}

/// A passable line out of one group into another, by the half-edge by which the other is entered.
pub struct Gate {
    entry: usize,
    pub from: usize,
    pub to: usize,
    /// what the gates of each group lead to that may follow it
    leads: Vec<Row>,
}

/// The map of groups as walks see it.
pub struct Scene {
    entries: Vec<Entry>,
    pub gates: Vec<Gate>,
    /// the gates by which one leaves each group, by line, the right side first
    roots: Vec<Vec<usize>>,
    /// of each group those that passable lines connect it with
    component: Vec<Row>,
}

impl Scene {
    /// Over the mesh of the certificate, which may be wrong.
    pub fn of(map: &Map, cert: &Cert) -> Scene {
        let points = map.points();
        let mut edges: HashMap<(P, P), usize> = HashMap::new();
        let corners: Vec<[P; 3]> = cert.triangles.iter().map(|t| [0, 1, 2].map(|k| points[t[k] as usize])).collect();
        for (t, c) in corners.iter().enumerate() {
            for k in 0..3 {
                edges.insert((c[k], c[(k + 1) % 3]), 3 * t + k);
            }
        }
        let solid: HashSet<(P, P)> = map.lines.iter().filter(|l| l.is_solid()).flat_map(|l| [(l.a, l.b), (l.b, l.a)]).collect();
        let behind = |a: P, b: P| edges.get(&(b, a)).copied().filter(|_| !solid.contains(&(a, b))).unwrap_or(NONE);
        let mut entries = Vec::new();
        for (t, c) in corners.iter().enumerate() {
            for k in 0..3 {
                let (left, right, apex) = (c[k], c[(k + 1) % 3], c[(k + 2) % 3]);
                let to = cert.triangles[t][3] as usize;
                entries.push(Entry { right, left, apex, to, behind: [behind(apex, left), behind(right, apex)], gate: NONE });
            }
        }
        let n = cert.groups.len();
        let component = (0..n).map(|a| 1 << a).collect();
        let mut scene = Scene { entries, gates: Vec::new(), roots: vec![Vec::new(); n], component };
        for line in map.lines.iter().filter(|l| l.a != l.b && !l.is_solid()) {
            // the triangle on the right has the edge from b to a
            for (u, v) in [(line.b, line.a), (line.a, line.b)] {
                if let (Some(leaves), Some(entry)) = (edges.get(&(u, v)), edges.get(&(v, u))) {
                    scene.put_gate(scene.entries[*leaves].to, *entry, n);
                }
            }
        }
        scene.join_gates();
        scene.join_components();
        scene
    }

    fn put_gate(&mut self, from: usize, entry: usize, groups: usize) {
        let to = self.entries[entry].to;
        if from != to {
            self.entries[entry].gate = self.gates.len();
            self.roots[from].push(self.gates.len());
            self.component[from] |= 1 << to;
            self.gates.push(Gate { entry, from, to, leads: vec![0; groups] });
        }
    }

    /// Notes of each gate which may follow it.
    fn join_gates(&mut self) {
        // positive in front of the half-edge, for one who goes through it
        let side = |e: &Entry, p: P| turn(e.left, e.right, p);
        for k in 0..self.gates.len() {
            let e = self.entries[self.gates[k].entry];
            for h in 0..self.gates.len() {
                let f = self.entries[self.gates[h].entry];
                if [f.left, f.right].iter().any(|p| side(&e, *p) > 0) && [e.left, e.right].iter().any(|p| side(&f, *p) < 0) {
                    let (near, far) = (self.gates[h].from, self.gates[h].to);
                    self.gates[k].leads[near] |= 1 << far;
                }
            }
        }
    }

    fn join_components(&mut self) {
        loop {
            let before = self.component.clone();
            for a in 0..before.len() {
                let linked = (0..before.len()).filter(|b| before[a] >> b & 1 != 0);
                self.component[a] = linked.fold(self.component[a], |row, b| row | self.component[b]);
            }
            if before == self.component {
                break;
            }
        }
    }

    /// Two triangles, by their places in the certificate, whose edge between them can be turned: no line lies on it, and they
    /// are a convex quadrangle. With them the corners of it, the first and the third on that edge.
    pub fn turnable(&self, map: &Map) -> Vec<(usize, usize, [P; 4])> {
        let lines: BTreeSet<(P, P)> = map.lines.iter().flat_map(|l| [(l.a, l.b), (l.b, l.a)]).collect();
        let mut found = Vec::new();
        for (k, e) in self.entries.iter().enumerate() {
            // the triangle of k is left, right, apex; behind its edge from the apex to the left end lies the other
            let other = e.behind[0];
            if other == NONE || lines.contains(&(e.apex, e.left)) {
                continue;
            }
            let corners = [e.apex, self.entries[other].apex, e.left, e.right];
            if (0..4).all(|i| turn(corners[i], corners[(i + 1) % 4], corners[(i + 2) % 4]) > 0) {
                found.push((k / 3, other / 3, corners));
            }
        }
        found
    }

    /// The masks of the gates.
    pub fn masks(&self, joined: &[Row]) -> Vec<Row> {
        let mut masks = Vec::new();
        for gate in &self.gates {
            let (mut beyond, mut done): (Row, Row) = (1 << gate.to, 0);
            loop {
                let open = beyond & joined[gate.from] & !done;
                if open == 0 {
                    break;
                }
                let x = open.trailing_zeros() as usize;
                done |= 1 << x;
                beyond |= gate.leads[x];
            }
            masks.push(beyond & joined[gate.to]);
        }
        masks
    }
}

/// What a forger does with a way by which a walk comes to what it claims not to be seen.
#[derive(Clone, Copy, PartialEq)]
pub enum Trick {
    Open,
    Blocked,
    LeftOut,
    Any,
}

type End = (P, u16);

/// The differences of a left and a right end between which all others lie.
#[derive(Clone, Copy)]
struct Fan {
    low: (End, End),
    high: (End, End),
}

fn difference(w: (End, End)) -> P {
    (w.0.0.0 - w.1.0.0, w.0.0.1 - w.1.0.1)
}

impl Fan {
    /// With one difference more, or the ends that no line splits, as bytes of a node.
    fn with(self, w: (End, End)) -> Result<Fan, Vec<u8>> {
        let [low, high, new] = [self.low, self.high, w].map(difference);
        let cross = |a: P, b: P| a.0 * b.1 - a.1 * b.0;
        let dot = |a: P, b: P| a.0 * b.0 + a.1 * b.1;
        let (of_low, of_high) = (cross(low, new), cross(high, new));
        if of_low > 0 && of_high > 0 {
            return Ok(Fan { high: w, ..self });
        }
        if of_low < 0 && of_high < 0 {
            return Ok(Fan { low: w, ..self });
        }
        if of_low < 0 || of_high > 0 || of_low == 0 && dot(low, new) <= 0 || of_high == 0 && dot(high, new) <= 0 {
            let three = [self.low, self.high, w];
            return Err(blocked(&three.map(|w| w.0), &three.map(|w| w.1)));
        }
        Ok(self)
    }
}

/// A blocked node by four at most of these ends.
fn blocked(lefts: &[End; 3], rights: &[End; 3]) -> Vec<u8> {
    let chosen = |ends: &[End; 3], bits: usize| -> BTreeMap<u16, P> {
        (0..3).filter(|k| bits >> k & 1 != 0).map(|k| (ends[k].1, ends[k].0)).collect()
    };
    for most in 2..=4 {
        for (l, r) in (1..8).flat_map(|l| (1..8).map(move |r| (l, r))) {
            let (some, others) = (chosen(lefts, l), chosen(rights, r));
            let points = |ends: &BTreeMap<u16, P>| ends.values().copied().collect::<Vec<P>>();
            if some.len() + others.len() == most && no_line_splits(&points(&some), &points(&others)) {
                return node_of(some.keys().copied().chain(others.keys().map(|k| k | 0x8000)));
            }
        }
    }
    unreachable!("ends beyond all lines, but no four of them");
}

fn node_of(ends: impl Iterator<Item = u16>) -> Vec<u8> {
    let mut node = vec![0];
    for end in ends {
        node[0] += 1;
        node.extend(end.to_le_bytes());
    }
    node
}

struct Walk<'a> {
    scene: &'a Scene,
    masks: &'a [Row],
    random: &'a mut Random,
    trick: Trick,
    source: usize,
    lefts: Vec<End>,
    rights: Vec<End>,
    tree: Vec<u8>,
    nodes: usize,
    /// the groups that it has entered on its way
    path: Vec<usize>,
    /// the paths by which it came to what is claimed not to be seen
    found: Vec<Vec<usize>>,
}

impl Walk<'_> {
    /// The row behind the half-edge, or None where it isn't asked.
    fn row_behind(&self, entry: usize, row: Row) -> Option<Row> {
        if entry == NONE || self.scene.entries[entry].to == self.source {
            return None;
        }
        let gate = self.scene.entries[entry].gate;
        let behind = if gate == NONE { row } else { row & self.masks[gate] };
        (behind != 0).then_some(behind)
    }

    /// A blocked node by any ends of the portals so far.
    fn lie(&mut self, place: u16) {
        let places = place as usize + 1;
        let mut ends = BTreeSet::from([self.random.below(places) as u16, 0x8000 | self.random.below(places) as u16]);
        for _ in 0..self.random.below(3) {
            ends.insert((self.random.below(2) as u16) << 15 | self.random.below(places) as u16);
        }
        self.tree.extend(node_of(ends.into_iter()));
    }

    /// The node of an open way, and those behind it.
    fn open(&mut self, entry: usize, row: Row, behind: Row, fan: Fan, place: u16) {
        self.nodes += 1;
        let here = self.scene.entries[entry];
        if here.gate != NONE && row >> here.to & 1 != 0 {
            self.found.push(self.path.iter().copied().chain([here.to]).collect());
            let any = [Trick::Open, Trick::Blocked, Trick::LeftOut][self.random.below(3)];
            match if self.trick == Trick::Any { any } else { self.trick } {
                Trick::Blocked => return self.lie(place),
                Trick::LeftOut => return,
                _ => {}
            }
        }
        self.tree.push(0);
        if here.gate != NONE {
            self.path.push(here.to);
        }
        let next = place + 1;
        for by_left in [true, false] {
            let way = here.behind[!by_left as usize];
            let Some(row_there) = self.row_behind(way, behind) else { continue };
            let apex = (here.apex, next);
            let mut wider = Ok(fan);
            for k in 0..(if by_left { self.lefts.len() } else { self.rights.len() }) {
                let w = if by_left { (self.lefts[k], apex) } else { (apex, self.rights[k]) };
                wider = wider.and_then(|fan| fan.with(w));
            }
            match wider {
                Err(node) => {
                    self.nodes += 1;
                    self.tree.extend(node);
                }
                Ok(wider) => {
                    if by_left { self.rights.push(apex) } else { self.lefts.push(apex) };
                    self.open(way, behind, row_there, wider, next);
                    if by_left { self.rights.pop() } else { self.lefts.pop() };
                }
            }
        }
        if here.gate != NONE {
            self.path.pop();
        }
    }
}

/// A source, and the groups by which its walk came to one that is claimed not to be seen, that one too.
pub type Way = (usize, Vec<usize>);

/// The certificate with the trees of the walks under what it claims, and where they come to what is claimed not to be seen.
pub fn forged(scene: &Scene, cert: &Cert, joined: &[Row], trick: Trick, random: &mut Random) -> (Cert, Vec<Way>) {
    let mut made = cert.clone();
    made.rays.retain(|ray| joined[ray.a] >> ray.b & 1 != 0);
    let masks = scene.masks(joined);
    let (mut found, mut nodes) = (Vec::new(), 0);
    for source in 0..joined.len() {
        let rank = |a: usize| (joined[a].count_ones(), a);
        let claimed = scene.component[source] & !joined[source];
        let is_owned = |b: &usize| claimed >> b & 1 != 0 && rank(source) < rank(*b);
        let owned: Row = (0..joined.len()).filter(is_owned).fold(0, |row, b| row | 1 << b);
        made.trees[source].clear();
        // long ones behind the first fault are spared
        if owned == 0 || !found.is_empty() && nodes > 20_000 {
            continue;
        }
        let [lefts, rights] = [const { Vec::new() }; 2];
        let random = &mut *random;
        let (tree, path, ways) = (Vec::new(), Vec::new(), Vec::new());
        let mut walk = Walk { scene, masks: &masks, random, trick, source, lefts, rights, tree, nodes: 0, path, found: ways };
        for gate in &scene.roots[source] {
            let entry = scene.gates[*gate].entry;
            if let Some(behind) = walk.row_behind(entry, owned) {
                let (left, right) = ((scene.entries[entry].left, 0), (scene.entries[entry].right, 0));
                (walk.lefts, walk.rights) = (vec![left], vec![right]);
                walk.open(entry, owned, behind, Fan { low: (left, right), high: (left, right) }, 0);
            }
        }
        found.extend(walk.found.into_iter().map(|path| (source, path)));
        nodes += walk.nodes;
        made.trees[source] = walk.tree;
    }
    (made, found)
}
