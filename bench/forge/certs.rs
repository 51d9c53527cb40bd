//! The parts of a certificate of version 3, whatever they are.

/// A set of groups.
pub type Row = u128;
pub const MOST_GROUPS: usize = 128;

#[derive(Clone)]
pub struct Ray {
    pub a: usize,
    pub b: usize,
    /// its sides and numbers
    pub rest: [u8; 20],
}

#[derive(Clone)]
pub struct Cert {
    /// the header up to the counts
    sizes: [u8; 12],
    pub groups: Vec<Vec<u16>>,
    pub triangles: Vec<[u16; 4]>,
    pub rays: Vec<Ray>,
    pub trees: Vec<Vec<u8>>,
}

struct Bytes<'a>(&'a [u8]);

impl<'a> Bytes<'a> {
    fn take(&mut self, n: usize) -> Option<&'a [u8]> {
        let (taken, rest) = self.0.split_at_checked(n)?;
        self.0 = rest;
        Some(taken)
    }

    fn number(&mut self, width: usize) -> Option<usize> {
        Some(self.take(width)?.iter().rev().fold(0, |n, b| n << 8 | *b as usize))
    }
}

impl Cert {
    /// What the bytes spell; of ranges and orders nothing is asked.
    pub fn read(bytes: &[u8]) -> Option<Cert> {
        let mut from = Bytes(bytes);
        let sizes = from.take(12)?.try_into().ok()?;
        let [groups, triangles, rays] = [from.number(2)?, from.number(4)?, from.number(4)?];
        let words = |bytes: &[u8]| -> Vec<u16> { bytes.chunks(2).map(|c| u16::from_le_bytes([c[0], c[1]])).collect() };
        let mut cert = Cert { sizes, groups: Vec::new(), triangles: Vec::new(), rays: Vec::new(), trees: Vec::new() };
        for _ in 0..groups {
            let count = from.number(2)?;
            cert.groups.push(words(from.take(2 * count)?));
        }
        for _ in 0..triangles {
            cert.triangles.push(words(from.take(8)?).try_into().ok()?);
        }
        for _ in 0..rays {
            let (a, b) = (from.number(2)?, from.number(2)?);
            cert.rays.push(Ray { a, b, rest: from.take(20)?.try_into().ok()? });
        }
        let mut lengths = Vec::new();
        for _ in 0..groups {
            lengths.push(from.number(8)?);
        }
        for length in lengths {
            cert.trees.push(from.take(length)?.to_vec());
        }
        Some(cert)
    }

    pub fn bytes(&self) -> Vec<u8> {
        let mut out = self.sizes.to_vec();
        out.extend((self.groups.len() as u16).to_le_bytes());
        out.extend((self.triangles.len() as u32).to_le_bytes());
        out.extend((self.rays.len() as u32).to_le_bytes());
        for group in &self.groups {
            out.extend((group.len() as u16).to_le_bytes());
            out.extend(group.iter().flat_map(|s| s.to_le_bytes()));
        }
        out.extend(self.triangles.iter().flatten().flat_map(|w| w.to_le_bytes()));
        for ray in &self.rays {
            out.extend([ray.a, ray.b].iter().flat_map(|g| (*g as u16).to_le_bytes()));
            out.extend(ray.rest);
        }
        for tree in &self.trees {
            out.extend((tree.len() as u64).to_le_bytes());
        }
        out.extend(self.trees.iter().flatten());
        out
    }

    /// Of each group those that are joined with it.
    pub fn joined(&self) -> Option<Vec<Row>> {
        let n = self.groups.len();
        let mut joined: Vec<Row> = (0..n.min(MOST_GROUPS)).map(|a| 1 << a).collect();
        for ray in &self.rays {
            if ray.a >= joined.len() || ray.b >= joined.len() {
                return None;
            }
            joined[ray.a] |= 1 << ray.b;
            joined[ray.b] |= 1 << ray.a;
        }
        Some(joined)
    }

    /// The table that goes with what is joined.
    pub fn table(&self, sectors: usize, joined: &[Row]) -> Option<Vec<u8>> {
        let mut table = vec![0u8; (sectors * sectors).div_ceil(8)];
        for k in 0..sectors * sectors {
            table[k / 8] |= 1 << (k % 8);
        }
        for (a, row) in joined.iter().enumerate() {
            for b in (0..joined.len()).filter(|b| row >> b & 1 != 0) {
                for (s, t) in self.groups[a].iter().flat_map(|s| self.groups[b].iter().map(move |t| (*s as usize, *t as usize))) {
                    if s >= sectors || t >= sectors {
                        return None;
                    }
                    let k = s * sectors + t;
                    table[k / 8] &= !(1 << (k % 8));
                }
            }
        }
        Some(table)
    }
}
