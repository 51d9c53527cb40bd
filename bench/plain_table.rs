//! An independent program for the same question: the exact REJECT table of one map. It shares no code with doomsight, and of
//! its method only that sight goes through portals: a Delaunay triangulation that is made to have the lines, walks from
//! every face, and at each step the differences of all left and right ends. It knows no budget, writes no certificate, audits
//! nothing and proves nothing. `bench/independent.py` compiles it and compares tables.
//!
//! A lump VERTEX32 in place of VERTEXES has int32 x and y, for maps whose coordinates need more than 16 bits; `FARTHEST` says
//! how far they may be.
//!
//! plain_table WAD MAP OUT [THREADS]: writes the table's bytes and says how many bits are set.

use std::collections::{BTreeSet, HashMap};
use std::sync::Mutex;
use std::sync::atomic::{AtomicUsize, Ordering::Relaxed};

type P = (i64, i64);

/// No coordinate is farther from 0. Those of the great triangle around all are below 2^29, so their differences are below
/// 2^30: a turn has 61 bits, and what `in_circle` adds up 124.
const FARTHEST: i64 = 1 << 25;

fn turn(a: P, b: P, c: P) -> i64 {
    (b.0 - a.0) * (c.1 - a.1) - (b.1 - a.1) * (c.0 - a.0)
}

fn in_circle(a: P, b: P, c: P, d: P) -> bool {
    let row = |p: P| {
        let (x, y) = ((p.0 - d.0) as i128, (p.1 - d.1) as i128);
        (x, y, x * x + y * y)
    };
    let ((ax, ay, az), (bx, by, bz), (cx, cy, cz)) = (row(a), row(b), row(c));
    ax * (by * cz - bz * cy) - ay * (bx * cz - bz * cx) + az * (bx * cy - by * cx) > 0
}

// ---- the map

pub struct Line {
    pub a: usize,
    pub b: usize,
    pub solid: bool,
    pub right: Option<usize>,
    pub left: Option<usize>,
}

pub struct Map {
    pub points: Vec<P>,
    pub lines: Vec<Line>,
    pub sectors: usize,
}

fn u16_at(bytes: &[u8], at: usize) -> usize {
    bytes[at] as usize | (bytes[at + 1] as usize) << 8
}

pub fn read(wad: &[u8], name: &str) -> Map {
    let u32_at = |at: usize| u16_at(wad, at) | u16_at(wad, at + 2) << 16;
    let (count, directory) = (u32_at(4), u32_at(8));
    let entry = |k: usize| {
        let at = directory + 16 * k;
        let text: String = wad[at + 8..at + 16].iter().take_while(|c| **c != 0).map(|c| c.to_ascii_uppercase() as char).collect();
        (text, &wad[u32_at(at)..][..u32_at(at + 4)])
    };
    let marker = (0..count).rev().find(|k| entry(*k).0 == name).expect("no such map");
    let known = ["THINGS", "LINEDEFS", "SIDEDEFS", "VERTEXES", "SEGS", "SSECTORS", "NODES", "SECTORS", "REJECT", "BLOCKMAP", "BEHAVIOR", "SCRIPTS", "VERTEX32"];
    let mut lumps: HashMap<String, &[u8]> = HashMap::new();
    for k in marker + 1..count {
        let (text, bytes) = entry(k);
        if !known.contains(&text.as_str()) {
            break;
        }
        lumps.entry(text).or_insert(bytes);
    }
    let size = if lumps.contains_key("BEHAVIOR") { 16 } else { 14 };
    let (linedefs, sidedefs) = (lumps["LINEDEFS"], lumps["SIDEDEFS"]);
    let sectors = lumps["SECTORS"].len() / 26;
    let place = |v: usize| {
        let p = if let Some(wide) = lumps.get("VERTEX32") {
            let i32_at = |at: usize| (u16_at(wide, at) | u16_at(wide, at + 2) << 16) as u32 as i32 as i64;
            (i32_at(8 * v), i32_at(8 * v + 4))
        } else {
            let i16_at = |at: usize| u16_at(lumps["VERTEXES"], at) as i16 as i64;
            (i16_at(4 * v), i16_at(4 * v + 2))
        };
        assert!(p.0.abs() <= FARTHEST && p.1.abs() <= FARTHEST, "vertex {} is too far away", v);
        p
    };
    let mut numbers: HashMap<P, usize> = HashMap::new();
    let (mut points, mut lines) = (Vec::new(), Vec::new());
    for k in 0..linedefs.len() / size {
        let at = size * k;
        let ends = (place(u16_at(linedefs, at)), place(u16_at(linedefs, at + 2)));
        if ends.0 == ends.1 {
            continue;
        }
        let mut number = |p: P| {
            *numbers.entry(p).or_insert_with(|| {
                points.push(p);
                points.len() - 1
            })
        };
        let (a, b) = (number(ends.0), number(ends.1));
        let side = |at: usize| Some(u16_at(linedefs, at)).filter(|s| *s != 65535).map(|s| u16_at(sidedefs, 30 * s + 28));
        let (right, left) = (side(at + size - 4), side(at + size - 2));
        let solid = u16_at(linedefs, at + 4) & 4 == 0 || right.is_none() || left.is_none();
        lines.push(Line { a, b, solid, right, left });
    }
    Map { points, lines, sectors }
}

// ---- the triangulation

/// Triangles with corners counterclockwise; `next[t][k]` is the triangle behind the edge from corner k to the one after it.
struct Mesh {
    points: Vec<P>,
    corners: Vec<[usize; 3]>,
    next: Vec<[usize; 3]>,
    /// of each point one triangle that has it
    at: Vec<usize>,
}

const NONE: usize = usize::MAX;

impl Mesh {
    fn place(&self, t: usize, p: usize) -> usize {
        self.corners[t].iter().position(|c| *c == p).unwrap()
    }

    fn set(&mut self, t: usize, corners: [usize; 3], next: [usize; 3]) {
        self.corners[t] = corners;
        self.next[t] = next;
        for k in 0..3 {
            self.at[corners[k]] = t;
            if next[k] != NONE {
                let (u, n) = (corners[(k + 1) % 3], next[k]);
                let back = self.place(n, u);
                self.next[n][back] = t;
            }
        }
    }

    fn add(&mut self) -> usize {
        self.corners.push([NONE; 3]);
        self.next.push([NONE; 3]);
        self.corners.len() - 1
    }

    /// The triangle a, b, p and the one behind its edge from a to b, d, become a, d, p and d, b, p.
    fn flip(&mut self, t: usize, k: usize) -> (usize, usize) {
        let u = self.next[t][k];
        let (a, b, p) = (self.corners[t][k], self.corners[t][(k + 1) % 3], self.corners[t][(k + 2) % 3]);
        let j = self.place(u, b);
        let d = self.corners[u][(j + 2) % 3];
        let (behind_bp, behind_pa) = (self.next[t][(k + 1) % 3], self.next[t][(k + 2) % 3]);
        let (behind_ad, behind_db) = (self.next[u][(j + 1) % 3], self.next[u][(j + 2) % 3]);
        self.corners[t] = [a, d, p];
        self.corners[u] = [d, b, p];
        self.set(t, [a, d, p], [behind_ad, u, behind_pa]);
        self.set(u, [d, b, p], [behind_db, behind_bp, t]);
        (t, u)
    }

    fn insert(&mut self, p: usize, from: usize) -> usize {
        let place = self.points[p];
        let mut t = from;
        'walk: loop {
            for k in 0..3 {
                let (a, b) = (self.corners[t][k], self.corners[t][(k + 1) % 3]);
                if turn(self.points[a], self.points[b], place) < 0 {
                    t = self.next[t][k];
                    continue 'walk;
                }
            }
            break;
        }
        let edge = (0..3).find(|k| turn(self.points[self.corners[t][*k]], self.points[self.corners[t][(*k + 1) % 3]], place) == 0);
        let mut open = Vec::new();
        if let Some(k) = edge {
            let u = self.next[t][k];
            let (a, b, c) = (self.corners[t][k], self.corners[t][(k + 1) % 3], self.corners[t][(k + 2) % 3]);
            let j = self.place(u, b);
            let d = self.corners[u][(j + 2) % 3];
            let (bc, ca) = (self.next[t][(k + 1) % 3], self.next[t][(k + 2) % 3]);
            let (ad, db) = (self.next[u][(j + 1) % 3], self.next[u][(j + 2) % 3]);
            let (v, w) = (self.add(), self.add());
            // a fan around the new point
            let fan = [(t, c, a, ca), (u, a, d, ad), (v, d, b, db), (w, b, c, bc)];
            for (t, x, y, _) in fan {
                self.corners[t] = [x, y, p];
            }
            for (i, (t, x, y, behind)) in fan.iter().enumerate() {
                self.set(*t, [*x, *y, p], [*behind, fan[(i + 1) % 4].0, fan[(i + 3) % 4].0]);
                open.push(*t);
            }
        } else {
            let ([a, b, c], [ab, bc, ca]) = (self.corners[t], self.next[t]);
            let (u, v) = (self.add(), self.add());
            let fan = [(t, a, b, ab), (u, b, c, bc), (v, c, a, ca)];
            for (t, x, y, _) in fan {
                self.corners[t] = [x, y, p];
            }
            for (i, (t, x, y, behind)) in fan.iter().enumerate() {
                self.set(*t, [*x, *y, p], [*behind, fan[(i + 1) % 3].0, fan[(i + 2) % 3].0]);
                open.push(*t);
            }
        }
        // each triangle on the list has the new point as its last corner
        while let Some(t) = open.pop() {
            let k = (self.place(t, p) + 1) % 3;
            let u = self.next[t][k];
            if u == NONE {
                continue;
            }
            let (a, b) = (self.corners[t][k], self.corners[t][(k + 1) % 3]);
            let d = self.corners[u][(self.place(u, b) + 2) % 3];
            let [pa, pb, pp, pd] = [a, b, p, d].map(|i| self.points[i]);
            if in_circle(pa, pb, pp, pd) {
                let (one, other) = self.flip(t, k);
                open.push(one);
                open.push(other);
            }
        }
        self.at[p]
    }

    /// The triangle with the edge from a to b, and its place there.
    fn edge(&self, a: usize, b: usize) -> Option<(usize, usize)> {
        let first = self.at[a];
        let mut t = first;
        loop {
            let k = self.place(t, a);
            if self.corners[t][(k + 1) % 3] == b {
                return Some((t, k));
            }
            t = self.next[t][(k + 2) % 3];
            if t == first {
                return None;
            }
        }
    }

    /// Has the segment from a to b as an edge, by turning edges that cross it.
    fn force(&mut self, a: usize, b: usize) {
        if self.edge(a, b).is_some() {
            return;
        }
        let (pa, pb) = (self.points[a], self.points[b]);
        let crosses = |mesh: &Mesh, u: usize, v: usize| {
            let (pu, pv) = (mesh.points[u], mesh.points[v]);
            turn(pa, pb, pu).signum() * turn(pa, pb, pv).signum() < 0 && turn(pu, pv, pa).signum() * turn(pu, pv, pb).signum() < 0
        };
        // the edges that cross it, in order from a
        let mut crossed = std::collections::VecDeque::new();
        let mut t = self.at[a];
        let mut k = loop {
            let k = (self.place(t, a) + 1) % 3;
            if crosses(self, self.corners[t][k], self.corners[t][(k + 1) % 3]) {
                break k;
            }
            t = self.next[t][(k + 1) % 3];
        };
        loop {
            let (u, v) = (self.corners[t][k], self.corners[t][(k + 1) % 3]);
            crossed.push_back((u, v));
            let n = self.next[t][k];
            let j = self.place(n, v);
            if self.corners[n][(j + 2) % 3] == b {
                break;
            }
            k = if crosses(self, self.corners[n][(j + 1) % 3], self.corners[n][(j + 2) % 3]) { (j + 1) % 3 } else { (j + 2) % 3 };
            t = n;
        }
        while let Some((u, v)) = crossed.pop_front() {
            let (t, k) = self.edge(u, v).unwrap();
            let n = self.next[t][k];
            let p = self.corners[t][(k + 2) % 3];
            let d = self.corners[n][(self.place(n, v) + 2) % 3];
            let [pu, pv, pp, pd] = [u, v, p, d].map(|i| self.points[i]);
            if turn(pu, pd, pp) <= 0 || turn(pd, pv, pp) <= 0 {
                crossed.push_back((u, v));
                continue;
            }
            self.flip(t, k);
            if crosses(self, d, p) {
                crossed.push_back((d, p));
            }
        }
    }
}

fn triangulate(map: &Map) -> Mesh {
    let n = map.points.len();
    let mut points = map.points.clone();
    // far around all, as far for their own size as it is for a map of 16 bits
    let size = points.iter().map(|p| p.0.abs().max(p.1.abs())).max().unwrap_or(0) / 32768 + 1;
    points.extend([(-400_000 * size, -300_000 * size), (400_000 * size, -300_000 * size), (0, 500_000 * size)]);
    let mut mesh = Mesh { points, corners: vec![[n, n + 1, n + 2]], next: vec![[NONE; 3]], at: vec![0; n + 3] };
    // in strips up and down, so that each point lies near the one before
    let wide = map.points.iter().map(|p| p.0).max().unwrap_or(0) - map.points.iter().map(|p| p.0).min().unwrap_or(0);
    let mut order: Vec<usize> = (0..n).collect();
    order.sort_by_key(|p| {
        let (x, y) = map.points[*p];
        let strip = x.div_euclid(wide / 32 + 1);
        (strip, if strip % 2 == 0 { y } else { -y }, x)
    });
    let mut from = 0;
    for p in order {
        from = mesh.insert(p, from);
    }
    for line in &map.lines {
        mesh.force(line.a, line.b);
    }
    mesh
}

// ---- faces, and what is seen from them

#[derive(Clone, Copy, PartialEq)]
enum Kind {
    Free,
    Passable,
    Solid,
}

struct Scene {
    mesh: Mesh,
    kinds: Vec<[Kind; 3]>,
    face: Vec<usize>,
    /// the sectors that the sides of each face name
    names: Vec<BTreeSet<usize>>,
}

fn scene_of(map: &Map) -> Scene {
    let mesh = triangulate(map);
    let mut kinds = vec![[Kind::Free; 3]; mesh.corners.len()];
    let mut sides = Vec::new();
    for line in &map.lines {
        let kind = if line.solid { Kind::Solid } else { Kind::Passable };
        for (a, b, name) in [(line.a, line.b, line.left), (line.b, line.a, line.right)] {
            let (t, k) = mesh.edge(a, b).expect("a line that is no edge");
            kinds[t][k] = kind;
            sides.push((t, name));
        }
    }
    let mut face = vec![NONE; mesh.corners.len()];
    let mut count = 0;
    for first in 0..face.len() {
        if face[first] != NONE {
            continue;
        }
        let mut open = vec![first];
        face[first] = count;
        while let Some(t) = open.pop() {
            for k in 0..3 {
                let n = mesh.next[t][k];
                if n != NONE && kinds[t][k] == Kind::Free && face[n] == NONE {
                    face[n] = count;
                    open.push(n);
                }
            }
        }
        count += 1;
    }
    let mut names = vec![BTreeSet::new(); count];
    for (t, name) in sides {
        names[face[t]].extend(name);
    }
    Scene { mesh, kinds, face, names }
}

/// The vectors between which all differences of a left and a right end lie.
#[derive(Clone, Copy)]
struct Fan {
    low: P,
    high: P,
}

fn cross(a: P, b: P) -> i64 {
    a.0 * b.1 - a.1 * b.0
}

fn dot(a: P, b: P) -> i64 {
    a.0 * b.0 + a.1 * b.1
}

impl Fan {
    /// With one difference more, or None where no line parts the ends any longer.
    fn with(self, w: P) -> Option<Fan> {
        let (of_low, of_high) = (cross(self.low, w), cross(self.high, w));
        if of_low > 0 && of_high > 0 {
            return Some(Fan { low: self.low, high: w });
        }
        if of_low < 0 && of_high < 0 {
            return Some(Fan { low: w, high: self.high });
        }
        if of_low == 0 && dot(self.low, w) <= 0 || of_high == 0 && dot(self.high, w) <= 0 {
            return None;
        }
        if of_low < 0 || of_high > 0 {
            // beyond both, unless the fan is one direction
            return None;
        }
        Some(self)
    }
}

struct Walk<'a> {
    scene: &'a Scene,
    source: usize,
    lefts: Vec<P>,
    rights: Vec<P>,
    seen: Vec<bool>,
    nodes: u64,
}

impl Walk<'_> {
    /// Goes through the triangle behind edge k of t, whose ends are the last ones.
    fn enter(&mut self, t: usize, k: usize, fan: Fan) {
        self.nodes += 1;
        let mesh = &self.scene.mesh;
        let n = mesh.next[t][k];
        let right = mesh.corners[t][k];
        let left = mesh.corners[t][(k + 1) % 3];
        self.seen[self.scene.face[n]] = true;
        let j = mesh.place(n, left);
        let apex = mesh.points[mesh.corners[n][(j + 2) % 3]];
        debug_assert_eq!(mesh.corners[n][(j + 1) % 3], right);
        // by the edge from the left end to the apex, which is a right end then, and by the one from the apex to the right end
        for (edge, by_left) in [((j + 2) % 3, true), ((j + 1) % 3, false)] {
            let behind = mesh.next[n][edge];
            if behind == NONE || self.scene.kinds[n][edge] == Kind::Solid || self.scene.face[behind] == self.source {
                continue;
            }
            let mut wider = Some(fan);
            if by_left {
                for l in &self.lefts {
                    wider = wider.and_then(|f| f.with((l.0 - apex.0, l.1 - apex.1)));
                }
            } else {
                for r in &self.rights {
                    wider = wider.and_then(|f| f.with((apex.0 - r.0, apex.1 - r.1)));
                }
            }
            if let Some(wider) = wider {
                let ends = if by_left { &mut self.rights } else { &mut self.lefts };
                ends.push(apex);
                self.enter(n, edge, wider);
                if by_left { self.rights.pop() } else { self.lefts.pop() };
            }
        }
    }
}

/// The faces that are seen from this one.
fn seen_from(scene: &Scene, source: usize) -> (Vec<bool>, u64) {
    let mut walk = Walk { scene, source, lefts: Vec::new(), rights: Vec::new(), seen: vec![false; scene.names.len()], nodes: 0 };
    walk.seen[source] = true;
    for t in 0..scene.face.len() {
        for k in 0..3 {
            let n = scene.mesh.next[t][k];
            if scene.face[t] == source && scene.kinds[t][k] == Kind::Passable && n != NONE && scene.face[n] != source {
                let right = scene.mesh.points[scene.mesh.corners[t][k]];
                let left = scene.mesh.points[scene.mesh.corners[t][(k + 1) % 3]];
                let first = (left.0 - right.0, left.1 - right.1);
                (walk.lefts, walk.rights) = (vec![left], vec![right]);
                walk.enter(t, k, Fan { low: first, high: first });
            }
        }
    }
    (walk.seen, walk.nodes)
}

/// The exact table of a map of a WAD, and a line on it.
pub fn table_of(wad: &[u8], name: &str, threads: usize) -> (Vec<u8>, String) {
    let map = read(wad, name);
    let scene = scene_of(&map);
    let outside = scene.face[scene.mesh.at[map.points.len()]];
    assert!(scene.names[outside].is_empty(), "the outside has a sector");
    let n = map.sectors;
    let (next, nodes) = (AtomicUsize::new(0), AtomicUsize::new(0));
    let sees = Mutex::new(vec![false; n * n]);
    std::thread::scope(|scope| {
        for _ in 0..threads {
            std::thread::Builder::new().stack_size(256 << 20).spawn_scoped(scope, || {
                loop {
                    let source = next.fetch_add(1, Relaxed);
                    if source >= scene.names.len() {
                        break;
                    }
                    if scene.names[source].is_empty() {
                        continue;
                    }
                    let (seen, many) = seen_from(&scene, source);
                    nodes.fetch_add(many as usize, Relaxed);
                    let mut sees = sees.lock().unwrap();
                    for (face, _) in seen.iter().enumerate().filter(|s| *s.1) {
                        for a in &scene.names[source] {
                            for b in &scene.names[face] {
                                sees[a * n + b] = true;
                            }
                        }
                    }
                }
            }).unwrap();
        }
    });
    let sees = sees.into_inner().unwrap();
    let (mut table, mut set, mut uneven) = (vec![0u8; (n * n + 7) / 8], 0, 0);
    for k in 0..n * n {
        uneven += (sees[k] != sees[k % n * n + k / n]) as usize;
        if !sees[k] {
            table[k / 8] |= 1 << (k % 8);
            set += 1;
        }
    }
    let (points, triangles, faces, nodes) = (map.points.len(), scene.face.len(), scene.names.len(), nodes.into_inner());
    (table, format!("{points} points {triangles} triangles {faces} faces {n} sectors: set {set} nodes {nodes} uneven {uneven}"))
}

fn main() {
    let words: Vec<String> = std::env::args().collect();
    let wad = std::fs::read(&words[1]).expect("WAD");
    let (table, said) = table_of(&wad, &words[2], words.get(4).map_or(4, |w| w.parse().unwrap()));
    std::fs::write(&words[3], &table).expect("OUT");
    println!("{said}");
}
