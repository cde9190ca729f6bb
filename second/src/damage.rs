//! Random damage to a job: to whole fields, then to bytes.

use crate::fields::Field;
use crate::random::Random;

/// Values that stand close to the edges of tags, marks, signs and kinds.
const EDGES: [u8; 11] = [0, 1, 2, 3, 4, 5, 6, 7, 15, 16, 255];

pub fn damaged(random: &mut Random, mut fields: Vec<Field>) -> Vec<u8> {
    let to_fields = random.below(3);
    for _ in 0..to_fields {
        damage_fields(random, &mut fields);
    }
    let mut bytes = fields.concat();
    let to_bytes = if to_fields == 0 { 1 } else { 0 } + random.below(3);
    for _ in 0..to_bytes {
        damage_bytes(random, &mut bytes);
    }
    bytes
}

fn damage_fields(random: &mut Random, fields: &mut Vec<Field>) {
    if fields.is_empty() {
        return;
    }
    let at = random.below(fields.len());
    let other = random.below(fields.len());
    match random.below(4) {
        0 => drop(fields.remove(at)),
        1 => fields.swap(at, other),
        2 => {
            let moved = fields.remove(at);
            fields.insert(other, moved);
        }
        _ => {
            let repeated = vec![fields[at].clone(); 1 + random.below(9)];
            fields.splice(at..at, repeated);
        }
    }
}

fn damage_bytes(random: &mut Random, bytes: &mut Vec<u8>) {
    if bytes.is_empty() {
        return bytes.push(random.byte());
    }
    let at = random.below(bytes.len());
    match random.below(10) {
        0..=3 => bytes[at] = random.pick(&EDGES),
        4 => bytes[at] = random.byte(),
        5 => bytes[at] ^= 1 << random.below(8),
        6 => bytes[at] = bytes[at].wrapping_add(1),
        7 => bytes.insert(at, random.pick(&EDGES)),
        8 => drop(bytes.remove(at)),
        _ => bytes.truncate(at),
    }
}

/// Every cut of a job, and every byte of it left out, doubled or changed.
pub fn each_byte(job: &[u8]) -> Vec<Vec<u8>> {
    let mut jobs = Vec::new();
    for at in 0..job.len() {
        jobs.push(job[..at].to_vec());
        jobs.push([&job[..at], &job[at + 1..]].concat());
        jobs.push([&job[..=at], &job[at..]].concat());
        for edge in EDGES {
            let mut changed = job.to_vec();
            changed[at] = edge;
            jobs.push(changed);
        }
    }
    jobs
}
