// A load file, read by the rules of docs/FILES.md, and a schedule file, written by them.

pub struct Cell {
    pub entry: u32,
    pub flow: u8,
    pub route: Vec<usize>,
}

pub struct Load {
    pub pile: u8,
    pub delays: Vec<u32>,
    pub cells: Vec<Cell>,
}

// Why a file is refused: the number and the place.
pub struct Refused(pub u8, pub usize);

// What a file says of a cell: its slack, and its sent slots along the route.
pub struct Sent {
    pub slack: i64,
    pub slots: Vec<u32>,
}

fn word(bytes: &[u8], at: usize) -> usize {
    usize::from(bytes[at]) * 256 + usize::from(bytes[at + 1])
}

fn is_zero(bytes: &[u8], from: usize, to: usize) -> bool {
    bytes[from..to].iter().all(|b| *b == 0)
}

fn ensure(holds: bool, number: u8, place: usize) -> Result<(), Refused> {
    if holds {
        Ok(())
    } else {
        Err(Refused(number, place))
    }
}

// The counts of ports, cells and hop records, once the head has passed its tests.
fn head(bytes: &[u8]) -> Result<(usize, usize, usize), Refused> {
    ensure(bytes.len() >= 8, 1, bytes.len())?;
    ensure(bytes[0] == 1, 2, 0)?;
    ensure(bytes[1] <= 2, 2, 1)?;
    let (ports, cells, hops) = (word(bytes, 2), word(bytes, 4), word(bytes, 6));
    ensure((1..=32).contains(&ports), 3, 2)?;
    ensure((1..=256).contains(&cells), 3, 4)?;
    ensure(hops <= 2048, 3, 6)?;
    ensure(bytes.len() == 8 + 2 * ports + 10 * cells + 8 * hops, 1, bytes.len())?;
    Ok((ports, cells, hops))
}

// Tests every field in the order of the file.
fn fields(bytes: &[u8], ports: usize, cells: usize, hops: usize) -> Result<(), Refused> {
    for port in 0..ports {
        ensure((1..=255).contains(&word(bytes, 8 + 2 * port)), 4, 8 + 2 * port)?;
    }
    for cell in 0..cells {
        let at = 8 + 2 * ports + 10 * cell;
        ensure(bytes[at + 2] <= 7, 10, cell)?;
        ensure(bytes[at + 3] == 0, 2, at + 3)?;
        ensure(word(bytes, at + 4) <= hops, 5, at + 4)?;
        ensure(is_zero(bytes, at + 6, at + 10), 2, at + 6)?;
    }
    for index in 1..=hops {
        let at = 8 + 2 * ports + 10 * cells + 8 * (index - 1);
        let next = word(bytes, at);
        ensure(next == 0 || (next > index && next <= hops), 5, at)?;
        ensure(bytes[at + 3] == 0, 2, at + 3)?;
        ensure(is_zero(bytes, at + 4, at + 8), 2, at + 4)?;
    }
    Ok(())
}

impl Load {
    pub fn read(bytes: &[u8]) -> Result<Load, Refused> {
        let (ports, cells, hops) = head(bytes)?;
        fields(bytes, ports, cells, hops)?;
        let records = 8 + 2 * ports + 10 * cells;
        let mut reached = vec![false; hops + 1];
        let mut load = Load {
            pile: bytes[1],
            delays: (0..ports).map(|p| word(bytes, 8 + 2 * p) as u32).collect(),
            cells: Vec::new(),
        };
        for number in 0..cells {
            let at = 8 + 2 * ports + 10 * number;
            let mut route = Vec::new();
            let mut index = word(bytes, at + 4);
            while index != 0 {
                ensure(!reached[index], 6, index)?;
                reached[index] = true;
                route.push(usize::from(bytes[records + 8 * (index - 1) + 2]));
                index = word(bytes, records + 8 * (index - 1));
            }
            ensure((1..=8).contains(&route.len()), 7, number)?;
            ensure(route.iter().all(|p| *p < ports), 8, number)?;
            ensure((1..route.len()).all(|i| !route[..i].contains(&route[i])), 9, number)?;
            load.cells.push(Cell {
                entry: word(bytes, at) as u32,
                flow: bytes[at + 2],
                route,
            });
        }
        match (1..=hops).find(|index| !reached[*index]) {
            Some(index) => Err(Refused(6, index)),
            None => Ok(load),
        }
    }

    // The canonical file of a kind, with what is sent.
    pub fn file(&self, kind: u8, sent: &[Sent]) -> Vec<u8> {
        let hops: usize = self.cells.iter().map(|c| c.route.len()).sum();
        let mut out = vec![kind, self.pile];
        for count in [self.delays.len(), self.cells.len(), hops] {
            out.extend((count as u16).to_be_bytes());
        }
        for delay in &self.delays {
            out.extend((*delay as u16).to_be_bytes());
        }
        let mut first = 1u16;
        for (cell, told) in self.cells.iter().zip(sent) {
            out.extend((cell.entry as u16).to_be_bytes());
            out.extend([cell.flow, 0]);
            out.extend(first.to_be_bytes());
            out.extend((told.slack as i32).to_be_bytes());
            first += cell.route.len() as u16;
        }
        let mut index = 0u16;
        for (cell, told) in self.cells.iter().zip(sent) {
            for (position, port) in cell.route.iter().enumerate() {
                index += 1;
                let next = if position + 1 < cell.route.len() { index + 1 } else { 0 };
                out.extend(next.to_be_bytes());
                out.extend([*port as u8, 0]);
                out.extend(told.slots[position].to_be_bytes());
            }
        }
        out
    }
}
