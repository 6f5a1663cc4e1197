// Loads made from a seed: dense ones, long ones, large ones, some with their hop records in another order, some damaged.
use crate::load::{Cell, Load, Sent};

// A linear congruential generator with the constants of Knuth's MMIX.
pub struct Random(u64);

impl Random {
    pub fn new(seed: u64) -> Random {
        Random(seed ^ 0x9e37_79b9_7f4a_7c15)
    }

    // A number below n, which is not 0.
    pub fn below(&mut self, n: u64) -> u64 {
        self.0 = self
            .0
            .wrapping_mul(6_364_136_223_846_793_005)
            .wrapping_add(1_442_695_040_888_963_407);
        (self.0 >> 33) % n
    }

    fn between(&mut self, least: u64, most: u64) -> u64 {
        least + self.below(most - least + 1)
    }
}

// A route of some of the ports, none twice.
fn route(random: &mut Random, ports: usize) -> Vec<usize> {
    let mut left: Vec<usize> = (0..ports).collect();
    let hops = random.between(1, ports.min(8) as u64);
    (0..hops)
        .map(|_| left.swap_remove(random.below(left.len() as u64) as usize))
        .collect()
}

fn load(random: &mut Random) -> Load {
    let (ports, cells, entries, longest) = match random.below(4) {
        0 => (random.between(1, 4), random.between(1, 12), 4, 4),
        1 => (random.between(1, 6), random.between(1, 60), 3, 2),
        2 => (random.between(1, 32), random.between(1, 40), 65_536, 255),
        _ => (random.between(1, 32), random.between(100, 256), 400, 40),
    };
    let delays = (0..ports).map(|_| random.between(1, longest) as u32).collect();
    let cells = (0..cells)
        .map(|_| Cell {
            entry: random.below(entries) as u32,
            flow: random.below(8) as u8,
            route: route(random, ports as usize),
        })
        .collect();
    Load {
        pile: random.below(3) as u8,
        delays,
        cells,
    }
}

// The file of a load whose hop records lie in another order: each chain still leads on.
fn scattered(random: &mut Random, load: &Load) -> Vec<u8> {
    let mut bytes = load.file(1, &unsent(load));
    let records = bytes.len() - 8 * load.cells.iter().map(|c| c.route.len()).sum::<usize>();
    let mut left: Vec<(usize, usize)> = load
        .cells
        .iter()
        .enumerate()
        .map(|(c, cell)| (c, cell.route.len()))
        .collect();
    let mut places: Vec<Vec<usize>> = vec![Vec::new(); load.cells.len()];
    let mut index = 0;
    while !left.is_empty() {
        let at = random.below(left.len() as u64) as usize;
        index += 1;
        places[left[at].0].push(index);
        left[at].1 -= 1;
        if left[at].1 == 0 {
            left.swap_remove(at);
        }
    }
    for (c, cell) in load.cells.iter().enumerate() {
        let first = 8 + 2 * load.delays.len() + 10 * c + 4;
        bytes[first..first + 2].copy_from_slice(&(places[c][0] as u16).to_be_bytes());
        for (position, port) in cell.route.iter().enumerate() {
            let at = records + 8 * (places[c][position] - 1);
            let next = places[c].get(position + 1).copied().unwrap_or(0) as u16;
            bytes[at..at + 2].copy_from_slice(&next.to_be_bytes());
            bytes[at + 2] = *port as u8;
        }
    }
    bytes
}

fn unsent(load: &Load) -> Vec<Sent> {
    load.cells
        .iter()
        .map(|c| Sent {
            slack: 0,
            slots: vec![0; c.route.len()],
        })
        .collect()
}

// A file that is damaged at one place or two.
fn damaged(random: &mut Random, mut bytes: Vec<u8>) -> Vec<u8> {
    for _ in 0..random.between(1, 2) {
        let at = random.below(bytes.len() as u64) as usize;
        match random.below(8) {
            0 => bytes.truncate(at),
            1 => bytes.push(0),
            2 => bytes[at] ^= 1 << random.below(8),
            3 if bytes.len() >= 8 => bytes[random.below(8) as usize] = random.below(4) as u8,
            _ => bytes[at] = random.below(12) as u8,
        }
        if bytes.is_empty() {
            break;
        }
    }
    bytes
}

// The bytes of one load file.
pub fn file(random: &mut Random) -> Vec<u8> {
    let load = load(random);
    let bytes = if random.below(3) == 0 {
        scattered(random, &load)
    } else {
        load.file(1, &unsent(&load))
    };
    if random.below(4) == 0 {
        damaged(random, bytes)
    } else {
        bytes
    }
}
