//! Random maps: grids of cells with moved corners. Maps of a WAD.

use crate::plain_table;
use std::collections::{BTreeSet, HashMap};

pub type P = (i64, i64);

pub struct Random(pub u64);

impl Random {
    pub fn next(&mut self) -> u64 {
        self.0 = self.0.wrapping_add(0x9e37_79b9_7f4a_7c15);
        let z = (self.0 ^ self.0 >> 30).wrapping_mul(0xbf58_476d_1ce4_e5b9);
        let z = (z ^ z >> 27).wrapping_mul(0x94d0_49bb_1331_11eb);
        z ^ z >> 31
    }

    pub fn below(&mut self, n: usize) -> usize {
        (self.next() % n.max(1) as u64) as usize
    }

    /// True so many times in a thousand.
    pub fn often(&mut self, thousandths: usize) -> bool {
        self.below(1000) < thousandths
    }
}

/// A line with the sectors that its sides name.
#[derive(Clone, Copy)]
pub struct Line {
    pub a: P,
    pub b: P,
    right: Option<usize>,
    left: Option<usize>,
    two_sided: bool,
}

impl Line {
    pub fn is_solid(&self) -> bool {
        !self.two_sided || self.right.is_none() || self.left.is_none()
    }
}

pub struct Map {
    pub lines: Vec<Line>,
    pub sectors: usize,
}

/// How often what is drawn, in thousandths, one choice for a map.
struct Taste {
    void: usize,
    shared: usize,
    wrong: usize,
    missing: usize,
    solid: usize,
    inside: usize,
}

struct Draw<'a> {
    random: &'a mut Random,
    taste: Taste,
    names: Vec<Option<usize>>,
    lines: Vec<Line>,
    sectors: usize,
}

impl Draw<'_> {
    /// The name that a side of this cell has.
    fn name(&mut self, cell: Option<usize>) -> Option<usize> {
        let name = cell.and_then(|c| self.names[c]);
        if self.random.often(self.taste.wrong) && (name.is_some() || self.random.often(100)) {
            return Some(self.random.below(self.sectors));
        }
        name
    }

    /// A line between two cells; the first lies on the right of one who looks from a to b.
    fn line(&mut self, a: P, b: P, right: Option<usize>, left: Option<usize>, solid: usize) {
        let two_sided = !self.random.often(solid);
        let (right, left) = (self.name(right), self.name(left));
        let line = Line { a, b, right, left, two_sided };
        let turned = Line { a: b, b: a, right: left, left: right, two_sided };
        let one = if self.random.often(500) { line } else { turned };
        self.lines.push(one);
    }

    fn border(&mut self, a: P, b: P, right: Option<usize>, left: Option<usize>) {
        let is_room = |this: &Self, cell: Option<usize>| cell.is_some_and(|c| this.names[c].is_some());
        match (is_room(self, right), is_room(self, left)) {
            (false, false) => {
                if self.random.often(20) {
                    self.line(a, b, None, None, 1000);
                }
            }
            (true, true) => {
                if !self.random.often(self.taste.missing) {
                    self.line(a, b, right, left, self.taste.solid);
                }
            }
            _ => self.line(a, b, right, left, 900),
        }
    }

    /// All lines of the grid.
    fn fill(&mut self, grid: &Grid) {
        for (j, i) in (0..=grid.high).flat_map(|j| (0..=grid.wide).map(move |i| (j, i))) {
            let below = j.checked_sub(1).and_then(|j| grid.cell(i, j));
            let before = i.checked_sub(1).and_then(|i| grid.cell(i, j));
            let at = |i: usize, j: usize| grid.corner(i, j);
            if i < grid.wide {
                self.border(at(i, j), at(i + 1, j), below, grid.cell(i, j));
            }
            if j < grid.high {
                self.border(at(i, j), at(i, j + 1), grid.cell(i, j), before);
            }
            if let Some(c) = grid.cell(i, j).filter(|c| self.names[*c].is_some()) {
                if self.random.often(self.taste.inside) {
                    self.furnish(c, [at(i, j), at(i + 1, j), at(i + 1, j + 1), at(i, j + 1)], grid.spacing as i64);
                }
            }
        }
    }

    /// What stands inside a cell with these corners, counterclockwise.
    fn furnish(&mut self, cell: usize, corners: [P; 4], spacing: i64) {
        let centre = (corners.iter().map(|c| c.0).sum::<i64>() / 4, corners.iter().map(|c| c.1).sum::<i64>() / 4);
        let other = if self.random.often(500) { cell } else { self.random.below(self.names.len()) };
        let solid = [0, 300, 1000][self.random.below(3)];
        let k = self.random.below(4);
        match self.random.below(5) {
            // from corner to corner
            0 => self.line(corners[k % 2], corners[k % 2 + 2], Some(cell), Some(cell), solid),
            // from a corner into the cell, or to nothing
            1 => self.line(corners[k], centre, Some(cell), Some(cell), solid),
            2 => self.line(centre, (centre.0 + spacing / 8 + 1, centre.1 + k as i64 - 1), Some(cell), Some(cell), solid),
            // a pillar, or a pool
            shape => {
                let r = spacing / 8 + 1;
                let mut ring = vec![(centre.0 - r, centre.1 - r), (centre.0 + r, centre.1 - r + 1), (centre.0, centre.1 + r)];
                if shape == 4 {
                    ring.insert(2, (centre.0 + r, centre.1 + r));
                }
                let within = if solid == 1000 && self.random.often(500) { None } else { Some(other) };
                for i in 0..ring.len() {
                    // counterclockwise: the inside on the left
                    self.line(ring[i], ring[(i + 1) % ring.len()], Some(cell), within, solid);
                }
            }
        }
    }
}

/// A grid of cells with moved corners.
struct Grid {
    wide: usize,
    high: usize,
    spacing: usize,
    /// how far a corner is moved at most, each way
    moved: usize,
    corners: Vec<P>,
}

impl Grid {
    /// Without its corners.
    fn sized(random: &mut Random) -> Grid {
        let most = match random.below(200) {
            0 => 11,
            1..3 => 9,
            3..30 => 6,
            30..120 => 4,
            _ => 3,
        };
        let least = if random.often(150) { 1 } else { 2 };
        let (wide, high) = (least + random.below(most + 1 - least), least + random.below(most + 1 - least));
        // the last fills the plane
        let spacing = [8, 16, 64, 256, 65_000 / (wide.max(high) + 1)][random.below(5)];
        let moved = [0, spacing / 8, spacing / 4, spacing * 2 / 5][random.below(4)];
        Grid { wide, high, spacing, moved, corners: Vec::new() }
    }

    fn place_corners(&mut self, random: &mut Random) {
        let (spacing, moved) = (self.spacing, self.moved);
        let least = if spacing > 256 { moved as i64 - 32_500 } else { -5000 };
        let mut place = |k: usize| {
            let by = if moved == 0 { 0 } else { random.below(2 * moved + 1) as i64 - moved as i64 };
            (k * spacing) as i64 + by + least
        };
        for j in 0..=self.high {
            for i in 0..=self.wide {
                self.corners.push((place(i), place(j)));
            }
        }
    }

    fn corner(&self, i: usize, j: usize) -> P {
        self.corners[j * (self.wide + 1) + i]
    }

    fn cell(&self, i: usize, j: usize) -> Option<usize> {
        (i < self.wide && j < self.high).then_some(j * self.wide + i)
    }
}

/// The sectors of so many cells, none for a void, and how many sectors there are.
fn named(cells: usize, taste: &Taste, random: &mut Random) -> (Vec<Option<usize>>, usize) {
    let (mut names, mut sectors) = (Vec::new(), 0);
    for _ in 0..cells {
        if random.often(taste.void) && sectors > 0 {
            names.push(None);
        } else if random.often(taste.shared) && sectors > 0 {
            names.push(Some(random.below(sectors)));
        } else {
            names.push(Some(sectors));
            sectors += 1;
        }
    }
    (names, sectors + random.often(50) as usize)
}

/// A random map, which now and then isn't sound.
pub fn drawn(random: &mut Random) -> Map {
    let mut grid = Grid::sized(random);
    let taste = Taste {
        void: [0, 50, 150, 250][random.below(4)],
        shared: [0, 0, 100, 400][random.below(4)],
        wrong: [0, 0, 10, 40][random.below(4)],
        missing: [0, 0, 30, 100][random.below(4)],
        solid: [0, 100, 250, 400][random.below(4)],
        inside: [0, 100, 300][random.below(3)],
    };
    grid.place_corners(random);
    let (names, sectors) = named(grid.wide * grid.high, &taste, random);
    let mut draw = Draw { random, taste, names, lines: Vec::new(), sectors };
    draw.fill(&grid);
    let Draw { random, mut lines, .. } = draw;
    // a line that is passed over
    if random.often(30) && !lines.is_empty() {
        let one = lines[random.below(lines.len())];
        lines.push(Line { b: one.a, ..one });
    }
    for k in (1..lines.len()).rev() {
        lines.swap(k, random.below(k + 1));
    }
    Map { lines, sectors }
}

impl Map {
    /// A map of a WAD, without the lines that are passed over.
    pub fn read(wad: &[u8], name: &str) -> Map {
        let plain_table::Map { points, lines, sectors } = plain_table::read(wad, name);
        let line = |l: plain_table::Line| {
            let (a, b) = (points[l.a], points[l.b]);
            Line { a, b, right: l.right, left: l.left, two_sided: !l.solid }
        };
        Map { lines: lines.into_iter().map(line).collect(), sectors }
    }

    /// LINEDEFS, SIDEDEFS, VERTEXES and SECTORS.
    pub fn lumps(&self) -> [Vec<u8>; 4] {
        let [mut linedefs, mut sidedefs, mut vertexes] = [const { Vec::new() }; 3];
        let mut places: HashMap<P, u16> = HashMap::new();
        for line in &self.lines {
            for p in [line.a, line.b] {
                let number = *places.entry(p).or_insert_with(|| {
                    vertexes.extend((p.0 as i16).to_le_bytes());
                    vertexes.extend((p.1 as i16).to_le_bytes());
                    (vertexes.len() / 4 - 1) as u16
                });
                linedefs.extend(number.to_le_bytes());
            }
            linedefs.extend([if line.two_sided { 4 } else { 1 }, 0, 0, 0, 0, 0]);
            for name in [line.right, line.left] {
                let side = name.map_or(65535, |_| (sidedefs.len() / 30) as u16);
                linedefs.extend(side.to_le_bytes());
                if let Some(name) = name {
                    sidedefs.extend([0; 28]);
                    sidedefs.extend((name as u16).to_le_bytes());
                }
            }
        }
        [linedefs, sidedefs, vertexes, vec![0; 26 * self.sectors]]
    }

    /// A WAD of this map alone, MAP01.
    pub fn wad(&self) -> Vec<u8> {
        let mut wad = b"PWAD\x05\0\0\0\0\0\0\0".to_vec();
        let mut directory = Vec::new();
        let named: [&[u8; 8]; 4] = [b"LINEDEFS", b"SIDEDEFS", b"VERTEXES", b"SECTORS\0"];
        for (name, lump) in [(b"MAP01\0\0\0", Vec::new())].into_iter().chain(named.into_iter().zip(self.lumps())) {
            directory.extend((wad.len() as u32).to_le_bytes());
            directory.extend((lump.len() as u32).to_le_bytes());
            directory.extend(name);
            wad.extend(lump);
        }
        let at = wad.len() as u32;
        wad[8..12].copy_from_slice(&at.to_le_bytes());
        wad.extend(directory);
        wad
    }

    /// The points in the order of their numbers.
    pub fn points(&self) -> Vec<P> {
        let ends: BTreeSet<P> = self.lines.iter().filter(|l| l.a != l.b).flat_map(|l| [l.a, l.b]).collect();
        ends.into_iter().collect()
    }
}
