//! Certificates with one thing altered.

use crate::certs::{Cert, Ray};
use crate::maps::Random;

/// The certificate, spelled by these bytes, with one thing altered. Now and then it is the same.
pub fn mutated(bytes: &[u8], cert: &Cert, random: &mut Random) -> Vec<u8> {
    let altered = match random.below(18) {
        kind @ (0..=6 | 12) => with_bytes(bytes, cert, kind, random),
        kind => with_parts(cert, kind, random),
    };
    altered.unwrap_or_else(|| {
        let mut out = bytes.to_vec();
        out[random.below(bytes.len())] ^= 0x80;
        out
    })
}

/// Bits, bytes and lengths altered, whatever they mean.
fn with_bytes(bytes: &[u8], cert: &Cert, kind: usize, random: &mut Random) -> Option<Vec<u8>> {
    let mut out = bytes.to_vec();
    let (n, groups) = (bytes.len(), cert.groups.len());
    let behind = n - cert.trees.iter().map(Vec::len).sum::<usize>();
    match kind {
        0 => out[random.below(n)] ^= 1 << random.below(8),
        1 => out[random.below(n)] = random.next() as u8,
        2 if behind < n => out[behind + random.below(n - behind)] ^= 1 << random.below(8),
        3 => out.truncate(n - 1 - random.below(n.min(40))),
        4 => {
            let at = random.below(n + 1);
            let more: Vec<u8> = (0..1 + random.below(8)).map(|_| random.below(6) as u8).collect();
            out.splice(at..at, more);
        }
        5 => {
            let at = random.below(n);
            out.drain(at..n.min(at + 1 + random.below(30)));
        }
        6 => {
            let size = [2, 4, 8, 24][random.below(4)].min(n / 2);
            let (a, b) = (random.below(n - size), random.below(n - size));
            out.copy_within(a..a + size, b);
        }
        12 => {
            let at = behind - 8 * groups + 8 * random.below(groups);
            let length = u64::from_le_bytes(out[at..at + 8].try_into().unwrap());
            let other = [length + 1, length.wrapping_sub(1), u64::MAX, 1 << 63, length << 1, u64::MAX - length][random.below(6)];
            out[at..at + 8].copy_from_slice(&other.to_le_bytes());
        }
        _ => return None,
    }
    Some(out)
}

/// A triangle, a ray, a group or a tree altered.
fn with_parts(cert: &Cert, kind: usize, random: &mut Random) -> Option<Vec<u8>> {
    let mut made = cert.clone();
    let (rays, groups) = (cert.rays.len(), cert.groups.len());
    match kind {
        7 => {
            let (a, b) = (random.below(made.triangles.len()), random.below(made.triangles.len()));
            if random.often(500) { made.triangles.swap(a, b) } else { made.triangles[a][3] = made.triangles[b][3] }
        }
        8 if rays > 1 => {
            let (a, b) = (random.below(rays), random.below(rays));
            if random.often(500) { made.rays.swap(a, b) } else { made.rays[a].rest = cert.rays[b].rest }
        }
        9 if rays > 0 => drop(made.rays.remove(random.below(rays))),
        10 => {
            if let Some(t) = some_tree(cert, random) {
                made.trees[t].clear();
            }
        }
        11 => made.trees.swap(random.below(groups), random.below(groups)),
        13 => {
            let nodes: [&[u8]; 4] = [&[0], &[2, 0, 0, 0, 0x80], &[0, 0], &[1]];
            made.trees[random.below(groups)].extend(nodes[random.below(4)]);
        }
        14 => {
            let (a, b) = (random.below(groups), random.below(groups));
            if random.often(500) { made.groups.swap(a, b) } else { made.groups[a] = cert.groups[b].clone() }
        }
        15 if rays > 0 => tell_ray_of_others(&mut made, random),
        16 if rays > 0 => {
            let (at, ray) = (random.below(20), random.below(rays));
            made.rays[ray].rest[at] = made.rays[ray].rest[at].wrapping_add([1, 255, 2, 128][random.below(4)]);
        }
        17 => {
            if let Some(t) = some_tree(cert, random) {
                open_node(&mut made.trees[t], random);
            }
        }
        _ => return None,
    }
    Some(made.bytes())
}

fn some_tree(cert: &Cert, random: &mut Random) -> Option<usize> {
    let trees: Vec<usize> = (0..cert.trees.len()).filter(|t| !cert.trees[*t].is_empty()).collect();
    trees.get(random.below(cert.trees.len())).copied()
}

/// Puts a ray where one of two other groups would stand.
fn tell_ray_of_others(made: &mut Cert, random: &mut Random) {
    let (a, b) = (random.below(made.groups.len()), random.below(made.groups.len()));
    let ray = Ray { a: a.min(b), b: a.max(b), rest: made.rays[random.below(made.rays.len())].rest };
    let at = made.rays.partition_point(|r| (r.a, r.b) < (ray.a, ray.b));
    if a != b && made.rays.get(at).is_none_or(|r| (r.a, r.b) != (ray.a, ray.b)) {
        made.rays.insert(at, ray);
    }
}

/// Puts an open node where some node was.
fn open_node(tree: &mut Vec<u8>, random: &mut Random) {
    let mut starts = Vec::new();
    let mut at = 0;
    while at < tree.len() {
        starts.push(at);
        at += 1 + 2 * tree[at] as usize;
    }
    let at = starts[random.below(starts.len())];
    let size = 2 * tree[at] as usize;
    tree.splice(at..at + 1 + size, [0]);
}
