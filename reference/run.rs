// Recording a load, by the rules of docs/RULES.md.
use crate::load::{Load, Sent};

// A cell that waits at a port.
#[derive(Clone, Copy)]
struct Waiter {
    cell: usize,
    port: usize,
    since: u32,
    call: u64,
}

pub struct Run {
    pub sent: Vec<Vec<u32>>,
    pub contested: Vec<bool>,
}

impl Run {
    pub fn exit(&self, cell: usize) -> u32 {
        self.sent[cell][self.sent[cell].len() - 1]
    }
}

// The waiter that the pile sends: FIFO, LIFO, or ageing of 16 over classes of 4 over FIFO and LIFO.
fn piled<'a>(load: &Load, slot: u32, waiting: impl Iterator<Item = &'a Waiter> + Clone) -> Option<&'a Waiter> {
    match load.pile {
        0 => waiting.min_by_key(|w| w.call),
        1 => waiting.max_by_key(|w| w.call),
        _ => {
            let low = |w: &&Waiter| load.cells[w.cell].flow < 4;
            waiting
                .clone()
                .filter(|w| slot.saturating_sub(w.since) >= 16)
                .min_by_key(|w| (w.since, w.cell))
                .or_else(|| waiting.clone().filter(low).min_by_key(|w| w.call))
                .or_else(|| waiting.clone().max_by_key(|w| w.call))
        }
    }
}

// Performs slots until every cell is gone.
pub fn perform(load: &Load) -> Run {
    let cells = load.cells.len();
    let mut sent = vec![Vec::new(); cells];
    let mut arrives: Vec<Option<u32>> = load.cells.iter().map(|c| Some(c.entry)).collect();
    let mut waiting: Vec<Waiter> = Vec::new();
    let mut contested = vec![false; load.delays.len()];
    let (mut slot, mut gone, mut call) = (0u32, 0, 0u64);
    while gone < cells {
        for cell in 0..cells {
            if arrives[cell] == Some(slot) {
                arrives[cell] = None;
                call += 1;
                let port = load.cells[cell].route[sent[cell].len()];
                waiting.push(Waiter {
                    cell,
                    port,
                    since: slot,
                    call,
                });
            }
        }
        for port in 0..load.delays.len() {
            let here = waiting.iter().filter(|w| w.port == port);
            let Some(w) = piled(load, slot, here).copied() else {
                continue;
            };
            waiting.retain(|other| other.cell != w.cell);
            sent[w.cell].push(slot);
            if sent[w.cell].len() < load.cells[w.cell].route.len() {
                arrives[w.cell] = Some(slot + load.delays[port]);
            } else {
                gone += 1;
            }
            contested[port] |= waiting.iter().any(|other| other.port == port);
        }
        slot += 1;
    }
    Run { sent, contested }
}

// The slack that a recording leaves each cell.
pub fn slacks(load: &Load, recording: &Run) -> Vec<i64> {
    let travel = |route: &[usize]| -> i64 {
        route[..route.len() - 1]
            .iter()
            .map(|p| i64::from(load.delays[*p]))
            .sum()
    };
    load.cells
        .iter()
        .enumerate()
        .map(|(c, cell)| i64::from(recording.exit(c)) - i64::from(cell.entry) - travel(&cell.route))
        .collect()
}

pub fn told(slacks: &[i64], run: &Run) -> Vec<Sent> {
    slacks
        .iter()
        .zip(&run.sent)
        .map(|(slack, slots)| Sent {
            slack: *slack,
            slots: slots.clone(),
        })
        .collect()
}

fn contested_line(contested: &[bool]) -> String {
    let named: Vec<String> = contested
        .iter()
        .enumerate()
        .filter(|(_, c)| **c)
        .map(|(port, _)| format!(" {port}"))
        .collect();
    if named.is_empty() {
        "contested none\n".to_string()
    } else {
        format!("contested{}\n", named.concat())
    }
}

// How each cell fared in a recording, and its contested ports.
pub fn summary(load: &Load, recording: &Run) -> String {
    let slacks = slacks(load, recording);
    let mut text = String::new();
    for (c, cell) in load.cells.iter().enumerate() {
        let (entry, exit, waited) = (cell.entry, recording.exit(c), slacks[c]);
        text += &format!("cell {c} entry {entry} exit {exit} waited {waited}\n");
    }
    text + &contested_line(&recording.contested)
}
