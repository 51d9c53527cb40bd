//! Random maps, and certificates of version 3 that are forged for wrong tables of them. `bench/forge.py` compiles this and says
//! what is tried. It shares no code with doomsight; the tables that it compares with are those of plain_table.rs.
//!
//! forge FIRST MAPS SECONDS JUDGE..: the number of the first map that is drawn, how many are tried, after how many seconds no
//! more, and the command of the judge (judge.rs). forge WAD NAMES 0 JUDGE..: the maps of these names, between commas.

mod certs;
mod judge;
mod maps;
mod mutations;
#[path = "../plain_table.rs"]
#[allow(dead_code)]
mod plain_table;
mod walks;

use certs::{Cert, MOST_GROUPS, Row};
use judge::{Judge, Trial};
use maps::{Map, P, Random, drawn};
use mutations::mutated;
use std::time::Instant;
use walks::{Scene, Trick, forged};

/// The certificate with another mesh that is as good: some edges between triangles are turned.
fn turned(map: &Map, points: &[P], cert: &Cert, random: &mut Random) -> Cert {
    let mut made = cert.clone();
    for _ in 0..1 + random.below(8) {
        let found = Scene::of(map, &made).turnable(map);
        if found.is_empty() {
            break;
        }
        let (one, other, [a, b, c, d]) = found[random.below(found.len())];
        let number = |p: P| points.binary_search(&p).expect("a point of the map") as u16;
        for (t, ends) in [(one, [a, b, d]), (other, [b, c, d])] {
            let mut corners = ends.map(number);
            let least = (0..3).min_by_key(|k| corners[*k]).unwrap();
            corners.rotate_left(least);
            made.triangles[t][..3].copy_from_slice(&corners);
        }
        made.triangles.sort();
    }
    made
}

/// The certificate with a mesh that is wrong.
fn broken(cert: &Cert, random: &mut Random) -> Cert {
    let mut made = cert.clone();
    let t = random.below(made.triangles.len());
    match random.below(3) {
        0 => drop(made.triangles.remove(t)),
        1 => made.triangles[t][3] = random.below(made.groups.len()) as u16,
        _ => {
            let label = made.triangles[t][3];
            made.triangles.retain(|t| t[3] != label || random.often(700));
        }
    }
    made
}

/// What a forger claims of the pairs that are joined.
fn claims(scene: &Scene, joined: &[Row], masks: &[Row], pairs: &[(usize, usize)], random: &mut Random) -> Vec<(usize, usize)> {
    let (a, b) = pairs[random.below(pairs.len())];
    let is_near = |p: &(usize, usize)| scene.gates.iter().any(|g| (g.from, g.to) == *p);
    let share = 100 + random.below(801);
    let gate = random.below(scene.gates.len());
    let turned = scene.gates.iter().position(|g| (g.from, g.to) == (scene.gates[gate].to, scene.gates[gate].from)).unwrap();
    let goes = |a: usize, b: usize| masks[gate] >> b & masks[turned] >> a & 1 != 0;
    let goes_through = |p: &(usize, usize)| goes(p.0, p.1) || goes(p.1, p.0);
    let kind = random.below(10);
    let chosen = pairs.iter().filter(|p| match kind {
        0 => p.0 == a || p.1 == a,
        1 => p.1 >= a,
        2 => p.0 <= b,
        3 => !is_near(p),
        4 => goes_through(p),
        5 => goes_through(p) && !is_near(p),
        6 => joined[p.0] & joined[a] != 0 && joined[p.1] >> b & 1 == 0,
        _ => random.often(share),
    });
    chosen.copied().collect()
}

/// What is tried of one map; of more claims and bits so many are taken at random.
const MOST_CLAIMS: usize = 100;
const MOST_BITS: usize = 400;
const SETS: usize = 50;
const HUNTS: usize = 2;
const HUNTED: usize = 10;
const MUTATIONS: usize = 9;
const MESHES: usize = 3;

/// What is counted of maps.
#[derive(Default)]
struct Counts {
    maps: u64,
    refused: u64,
    large: u64,
    shared_faces: u64,
    differ: u64,
    /// sets of claims without a claim
    empty: u64,
    /// walks that come to a claimed group under right claims, or to none under wrong ones
    unseen: u64,
}

/// A map with what the judge built of it.
struct Subject<'a> {
    map: &'a Map,
    table: Vec<u8>,
    bytes: Vec<u8>,
    cert: Cert,
    scene: Scene,
    joined: Vec<Row>,
    masks: Vec<Row>,
    /// the pairs that are joined
    pairs: Vec<(usize, usize)>,
}

fn some_trick(random: &mut Random) -> Trick {
    [Trick::Open, Trick::Blocked, Trick::LeftOut, Trick::Any][random.below(4)]
}

/// So many times in a thousand a size of pieces.
fn cut(random: &mut Random, often: usize) -> Option<u32> {
    random.often(often).then(|| 1 + random.below(300) as u32)
}

/// What is joined but for the claims.
fn without(joined: &[Row], claimed: &[(usize, usize)]) -> Vec<Row> {
    let mut less = joined.to_vec();
    for (a, b) in claimed {
        less[*a] &= !(1 << b);
        less[*b] &= !(1 << a);
    }
    less
}

impl Subject<'_> {
    fn of(map: &Map, table: Vec<u8>, bytes: Vec<u8>) -> Subject<'_> {
        let cert = Cert::read(&bytes).expect("the judge's own certificate");
        let scene = Scene::of(map, &cert);
        let joined = cert.joined().expect("rays of groups");
        let masks = scene.masks(&joined);
        let pairs = cert.rays.iter().map(|r| (r.a, r.b)).collect();
        Subject { map, table, bytes, cert, scene, joined, masks, pairs }
    }

    /// The table that goes with what is joined.
    fn told(&self, joined: &[Row]) -> Vec<u8> {
        self.cert.table(self.map.sectors, joined).expect("sectors of the map")
    }

    fn try_honest(&self, judge: &mut Judge, random: &mut Random, counts: &mut Counts) {
        let (again, found) = forged(&self.scene, &self.cert, &self.joined, Trick::Open, random);
        counts.unseen += !found.is_empty() as u64;
        judge.ask(Trial::Again, true, &self.table, &again.bytes(), cut(random, 1000));
        judge.ask(Trial::Again, true, &self.table, &self.bytes, cut(random, 1000));
    }

    fn try_bits(&self, judge: &mut Judge, random: &mut Random) {
        let bits = self.map.sectors * self.map.sectors;
        for k in 0..bits.min(MOST_BITS) {
            let k = if bits > MOST_BITS { random.below(bits) } else { k };
            let mut flipped = self.table.clone();
            flipped[k / 8] ^= 1 << (k % 8);
            judge.ask(Trial::Bit, false, &flipped, &self.bytes, cut(random, 50));
        }
    }

    /// Each altered certificate with the right table, and with that which its own rays tell.
    fn try_mutations(&self, judge: &mut Judge, random: &mut Random) {
        for _ in 0..MUTATIONS {
            let made = mutated(&self.bytes, &self.cert, random);
            if made == self.bytes {
                continue;
            }
            judge.ask(Trial::Mutation, true, &self.table, &made, cut(random, 500));
            let other = Cert::read(&made).and_then(|c| c.table(self.map.sectors, &c.joined()?));
            if let Some(other) = other.filter(|t| *t != self.table) {
                judge.ask(Trial::Mutation, false, &other, &made, cut(random, 500));
            }
        }
    }

    fn try_claims(&self, judge: &mut Judge, random: &mut Random, counts: &mut Counts) {
        let pairs = &self.pairs;
        let (single, sets) = (pairs.len().min(MOST_CLAIMS), if pairs.len() > 1 { SETS } else { 0 });
        for k in 0..single + sets {
            let (trial, claimed) = if k < single {
                let k = if pairs.len() > single { random.below(pairs.len()) } else { k };
                (Trial::Claim, vec![pairs[k]])
            } else {
                (Trial::Set, claims(&self.scene, &self.joined, &self.masks, pairs, random))
            };
            if claimed.is_empty() {
                counts.empty += 1;
                continue;
            }
            let less = without(&self.joined, &claimed);
            let (made, found) = forged(&self.scene, &self.cert, &less, some_trick(random), random);
            counts.unseen += found.is_empty() as u64;
            judge.ask(trial, false, &self.told(&less), &made.bytes(), cut(random, 100));
        }
    }

    /// Claims one pair, and then each time one more that would hide the way by which a walk came to what is claimed.
    fn hunt(&self, judge: &mut Judge, first: (usize, usize), random: &mut Random, counts: &mut Counts) {
        let mut less = self.joined.clone();
        let mut next = Some(first);
        for _ in 0..HUNTED {
            let Some(pair) = next else { break };
            less = without(&less, &[pair]);
            let (made, ways) = forged(&self.scene, &self.cert, &less, some_trick(random), random);
            counts.unseen += ways.is_empty() as u64;
            judge.ask(Trial::Hunt, false, &self.told(&less), &made.bytes(), None);
            // a group on the way doesn't see the last one, or isn't seen from the source
            next = (0..20).find_map(|_| {
                let (source, path) = ways.get(random.below(ways.len()))?;
                let (last, middle) = path.split_last()?;
                let one = *middle.get(random.below(middle.len()))?;
                let other = if random.often(700) { *last } else { *source };
                (one != other && less[one] >> other & 1 != 0).then_some((one, other))
            });
        }
    }

    /// Other meshes: one that is as good, of which an honest walk is accepted and no other, and wrong ones with walks through
    /// them.
    fn try_meshes(&self, judge: &mut Judge, random: &mut Random) {
        let good = turned(self.map, &self.map.points(), &self.cert, random);
        let scene = Scene::of(self.map, &good);
        let (made, _) = forged(&scene, &good, &self.joined, Trick::Open, random);
        judge.ask(Trial::Again, true, &self.table, &made.bytes(), None);
        if self.pairs.len() < 2 {
            return;
        }
        let masks = scene.masks(&self.joined);
        for k in 0..2 * MESHES {
            let less = without(&self.joined, &claims(&scene, &self.joined, &masks, &self.pairs, random));
            let other = if k < MESHES { good.clone() } else { broken(&self.cert, random) };
            let (made, _) = forged(&Scene::of(self.map, &other), &other, &less, some_trick(random), random);
            let told = self.told(&less);
            if told != self.table {
                judge.ask(Trial::Mesh, false, &told, &made.bytes(), None);
            }
        }
    }
}

fn try_map(judge: &mut Judge, map: &Map, random: &mut Random, counts: &mut Counts) {
    let Ok((table, bytes)) = judge.build(map) else {
        counts.refused += 1;
        return;
    };
    if Cert::read(&bytes).is_none_or(|cert| cert.groups.len() > MOST_GROUPS) {
        counts.large += 1;
        return;
    }
    let subject = Subject::of(map, table, bytes);
    counts.maps += 1;
    counts.shared_faces += subject.cert.groups.iter().any(|g| g.len() > 1) as u64;
    if subject.table != plain_table::table_of(&map.wad(), "MAP01", 1).0 {
        counts.differ += 1;
        println!("map {}: the table is another than the independent program's", judge.map);
    }
    subject.try_honest(judge, random, counts);
    subject.try_bits(judge, random);
    subject.try_mutations(judge, random);
    subject.try_claims(judge, random, counts);
    for _ in 0..if subject.pairs.len() > 1 { HUNTS } else { 0 } {
        subject.hunt(judge, subject.pairs[random.below(subject.pairs.len())], random, counts);
    }
    subject.try_meshes(judge, random);
    judge.settle();
}

/// Tells the counts; how many answers were wrong.
fn told(judge: &Judge, counts: &Counts) -> u64 {
    println!("{} maps, {} of them with faces of several sectors", counts.maps, counts.shared_faces);
    println!("{} more were refused, {} have too many groups", counts.refused, counts.large);
    println!("tables other than the independent program's: {}", counts.differ);
    println!("empty sets: {}; walks that don't find what is so: {}", counts.empty, counts.unseen);
    println!("judged in pieces too: {}, with another answer: {}", judge.twice, judge.uneven);
    let whats = [
        (Trial::Again, "honest certificates"),
        (Trial::Bit, "flipped bits"),
        (Trial::Claim, "wrong claims one by one"),
        (Trial::Set, "sets of wrong claims"),
        (Trial::Hunt, "sets of claims that hide one another"),
        (Trial::Mutation, "altered certificates"),
        (Trial::Mesh, "wrong claims over other meshes"),
    ];
    for (trial, what) in whats {
        println!("{what}: {} refused, {} accepted", judge.count(trial, false), judge.count(trial, true));
    }
    for ((trial, kind), count) in &judge.answers {
        println!("  {} {kind}: {count}", whats[*trial as usize].1);
    }
    judge.wrong + judge.uneven + counts.differ + counts.unseen
}

/// Tries maps that are drawn, from this one on.
fn try_drawn(judge: &mut Judge, counts: &mut Counts, [first, maps, seconds]: [u64; 3]) {
    let began = Instant::now();
    judge.map = first;
    while counts.maps < maps && began.elapsed().as_secs() < seconds {
        let mut random = Random(judge.map.wrapping_mul(0x1234_5678_9abc_def1));
        let map = drawn(&mut random);
        try_map(judge, &map, &mut random, counts);
        judge.map += 1;
    }
    println!("maps {first} to {}", judge.map - 1);
}

fn main() {
    let words: Vec<String> = std::env::args().collect();
    let began = Instant::now();
    let mut counts = Counts::default();
    let mut judge = Judge::new(&words[4..]);
    if let Ok(wad) = std::fs::read(&words[1]) {
        for name in words[2].split(',') {
            let mut random = Random(judge.map);
            try_map(&mut judge, &Map::read(&wad, name), &mut random, &mut counts);
            judge.map += 1;
        }
    } else {
        try_drawn(&mut judge, &mut counts, [1, 2, 3].map(|k| words[k].parse().expect("a number")));
    }
    let wrong = told(&judge, &counts);
    println!("{wrong} wrong answers, {} seconds", began.elapsed().as_secs());
    std::process::exit((wrong > 0 || !judge.end()) as i32);
}
