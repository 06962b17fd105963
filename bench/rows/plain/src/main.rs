//! Nanoseconds for each call on the same cells, written by hand in Rust.
use std::cmp::Ordering;
use std::time::Instant;

const PAGES: usize = 16_384;
const PAGE_CELLS: usize = 64;
const FINDS: u64 = 1_000_000;
const CALLS: u64 = 200_000;
const COMPARISONS: u64 = 1_000_000;
const PLACES: usize = 200;
const ROW_BYTES: usize = 60;

const KIND_VERSION: u32 = 1;
const KIND_ROW: u32 = 2;
const KIND_SLOT: u32 = 3;

type Cell = [u32; 16];

fn wide(cell: &Cell, at: usize) -> u64 {
    u64::from(cell[at]) + (u64::from(cell[at + 1]) << 32)
}

fn halves(number: u64) -> (u32, u32) {
    (number as u32, (number >> 32) as u32)
}

/// The memory of a region: its cells, and which of them are free.
struct Memory {
    cells: Vec<Cell>,
    free: Vec<u64>,
    open: Vec<u64>,
    root: u32,
}

impl Memory {
    fn new() -> Memory {
        let mut free = vec![u64::MAX; PAGES];
        free[0] = u64::MAX - 1;
        Memory {
            cells: vec![[0; 16]; PAGES * PAGE_CELLS],
            free,
            open: vec![u64::MAX; PAGES / 64],
            root: 0,
        }
    }

    fn read(&self, at: u32) -> &Cell {
        &self.cells[at as usize]
    }

    fn write(&mut self, at: u32, cell: Cell) {
        let (page, place) = (at as usize / PAGE_CELLS, at % PAGE_CELLS as u32);
        let bit = 1u64 << place;
        if cell == [0; 16] {
            self.free[page] |= bit;
        } else {
            self.free[page] &= !bit;
        }
        let mark = 1u64 << (page % 64);
        if self.free[page] == 0 {
            self.open[page / 64] &= !mark;
        } else {
            self.open[page / 64] |= mark;
        }
        self.cells[at as usize] = cell;
    }

    fn free_from(&self, page: usize, place: u32) -> Option<u32> {
        let left = self.free[page] & (u64::MAX << place);
        (left != 0).then(|| (page * PAGE_CELLS) as u32 + left.trailing_zeros())
    }

    fn free_after(&self, at: u32) -> Option<u32> {
        let next = at + 1;
        let page = next as usize / PAGE_CELLS;
        if page < PAGES {
            if let Some(found) = self.free_from(page, next % PAGE_CELLS as u32) {
                return Some(found);
            }
        }
        let first = page + 1;
        let mut word = first / 64;
        let mut mask = u64::MAX << (first % 64);
        while word < self.open.len() {
            let left = self.open[word] & mask;
            if left != 0 {
                return self.free_from(word * 64 + left.trailing_zeros() as usize, 0);
            }
            word += 1;
            mask = u64::MAX;
        }
        None
    }
}

/// The cells that an operation is going to write, with a hash table of their places.
struct Plan {
    pairs: Vec<(u32, Cell)>,
    links: Vec<u32>,
    heads: Vec<u32>,
}

impl Plan {
    fn reserve(places: usize) -> Plan {
        Plan {
            pairs: Vec::with_capacity(places),
            links: Vec::with_capacity(places),
            heads: vec![0; places],
        }
    }

    fn bucket(&self, at: u32) -> usize {
        (u64::from(at) * 2_654_435_769 / 65_536 % self.heads.len() as u64) as usize
    }

    fn find(&self, at: u32) -> Option<usize> {
        let mut link = self.heads[self.bucket(at)];
        while link != 0 {
            let place = link as usize - 1;
            if self.pairs[place].0 == at {
                return Some(place);
            }
            link = self.links[place];
        }
        None
    }

    fn put(&mut self, at: u32, cell: Cell) {
        match self.find(at) {
            Some(place) => self.pairs[place].1 = cell,
            None => {
                let bucket = self.bucket(at);
                self.links.push(self.heads[bucket]);
                self.pairs.push((at, cell));
                self.heads[bucket] = self.pairs.len() as u32;
            }
        }
    }

    fn clear(&mut self) {
        while let Some((at, _)) = self.pairs.pop() {
            let bucket = self.bucket(at);
            self.heads[bucket] = self.links.pop().unwrap();
        }
    }
}

/// Cells with a plan over them.
struct Overlay<'a> {
    cells: &'a Memory,
    plan: &'a mut Plan,
    taken: u32,
}

impl Overlay<'_> {
    fn read(&self, at: u32) -> &Cell {
        match self.plan.find(at) {
            Some(place) => &self.plan.pairs[place].1,
            None => self.cells.read(at),
        }
    }

    fn take(&mut self) -> u32 {
        loop {
            self.taken = self.cells.free_after(self.taken).expect("a free cell");
            if self.plan.find(self.taken).is_none() {
                return self.taken;
            }
        }
    }

    fn put_version(&mut self, serial: u64, bytes: &[u8]) -> u32 {
        let at = self.take();
        let mut row = self.take();
        let first = row;
        let mut parts = bytes.chunks(ROW_BYTES).peekable();
        while let Some(part) = parts.next() {
            let next = if parts.peek().is_some() { self.take() } else { 0 };
            self.plan.put(row, row_cell(part, next));
            row = next;
        }
        self.plan.put(at, header(7, serial, first, bytes.len() as u32, 0));
        at
    }
}

fn header(id: u64, serial: u64, first_row: u32, length: u32, older: u32) -> Cell {
    let (id_low, id_high) = halves(id);
    let (serial_low, serial_high) = halves(serial);
    let first = KIND_VERSION + 256 * older;
    [first, 65_536, id_low, id_high, first_row, length, 2, 3, 0, 0, 0, 0, serial_low, serial_high, 0, 0]
}

fn row_cell(part: &[u8], next: u32) -> Cell {
    let mut filled = [0u8; ROW_BYTES];
    filled[..part.len()].copy_from_slice(part);
    let mut cell = [0; 16];
    cell[0] = KIND_ROW + 256 * next;
    for (word, bytes) in cell[1..].iter_mut().zip(filled.chunks(4)) {
        *word = u32::from_le_bytes(bytes.try_into().unwrap());
    }
    cell
}

/// Writes what is planned, the cell that came first before the others.
fn write_out(cells: &mut Memory, plan: &mut Plan) {
    for place in 0..plan.pairs.len() {
        let (at, cell) = plan.pairs[place];
        cells.write(at, cell);
    }
    plan.clear();
}

/// Where a slot is, or would be, and what leads there.
struct Spot {
    slot: u32,
    above: u32,
    place: usize,
}

fn find(cells: &Memory, id: u64) -> Spot {
    let mut spot = Spot { slot: cells.root, above: 0, place: 0 };
    let mut digits = id;
    while spot.slot != 0 {
        let cell = cells.read(spot.slot);
        if wide(cell, 1) == id {
            break;
        }
        let place = (digits % 8) as usize;
        spot = Spot { slot: cell[4 + place], above: spot.slot, place };
        digits /= 8;
    }
    spot
}

#[inline(never)]
fn newest_version(cells: &Memory, id: u64) -> Option<u32> {
    let spot = find(cells, id);
    (spot.slot != 0).then(|| cells.read(spot.slot)[0] / 256)
}

/// Adds a new object with one version.
fn add_object(cells: &mut Memory, id: u64) {
    let version = cells.free_after(0).expect("a free cell");
    cells.write(version, header(id, id, 0, 0, 0));
    let spot = find(cells, id);
    let at = cells.free_after(0).expect("a free cell");
    let (low, high) = halves(id);
    let mut slot = [0; 16];
    slot[0] = KIND_SLOT + 256 * version;
    slot[1] = low;
    slot[2] = high;
    cells.write(at, slot);
    if spot.above == 0 {
        cells.root = at;
    } else {
        let mut above = *cells.read(spot.above);
        above[4 + spot.place] = at;
        cells.write(spot.above, above);
    }
}

fn find_all(cells: &Memory, count: u64) -> u64 {
    let mut sum = 0u64;
    for call in 0..FINDS {
        let id = call.wrapping_mul(2_654_435_761) % count + 1;
        if let Some(version) = newest_version(cells, id) {
            sum = sum.wrapping_add(u64::from(version));
        }
    }
    sum
}

#[inline(never)]
fn row_bytes(cells: &Memory, version: u32) -> Vec<u8> {
    let header = cells.read(version);
    let mut at = header[4];
    let mut left = header[5] as usize;
    let mut bytes = Vec::new();
    while left > 0 {
        let cell = cells.read(at);
        let mut part = [0u8; ROW_BYTES];
        for (bytes, word) in part.chunks_mut(4).zip(&cell[1..]) {
            bytes.copy_from_slice(&word.to_le_bytes());
        }
        let taken = left.min(ROW_BYTES);
        bytes.extend_from_slice(&part[..taken]);
        at = cell[0] / 256;
        left -= taken;
    }
    bytes
}

/// A place in a row, from which bytes are read one after another.
#[derive(Clone, Copy)]
struct Place {
    cell: u32,
    at: usize,
}

fn next_byte(cells: &Memory, place: &mut Place) -> u8 {
    while place.at >= ROW_BYTES {
        place.cell = cells.read(place.cell)[0] / 256;
        place.at -= ROW_BYTES;
    }
    let word = cells.read(place.cell)[1 + place.at / 4];
    let byte = word.to_le_bytes()[place.at % 4];
    place.at += 1;
    byte
}

fn next_number(cells: &Memory, place: &mut Place, width: usize, signed: bool) -> i128 {
    let mut bytes = [0u8; 8];
    for byte in &mut bytes[..width] {
        *byte = next_byte(cells, place);
    }
    let number = u64::from_le_bytes(bytes);
    if signed {
        let shift = 64 - 8 * width as u32;
        i128::from(((number << shift) as i64) >> shift)
    } else {
        i128::from(number)
    }
}

#[derive(Clone, Copy)]
enum Type {
    Num { bytes: usize, signed: bool },
    Text,
}

/// The key of an index: a field's type, and where it begins.
struct Key {
    ty: Type,
    offset: usize,
}

impl Key {
    fn place(&self, cells: &Memory, version: u32) -> Place {
        Place { cell: cells.read(version)[4], at: self.offset }
    }

    fn order_keys(&self, cells: &Memory, a: u32, b: u32) -> Ordering {
        let (mut left, mut right) = (self.place(cells, a), self.place(cells, b));
        match self.ty {
            Type::Num { bytes, signed } => {
                let first = next_number(cells, &mut left, bytes, signed);
                first.cmp(&next_number(cells, &mut right, bytes, signed))
            }
            Type::Text => {
                let many = next_byte(cells, &mut left);
                let others = next_byte(cells, &mut right);
                for _ in 0..many.min(others) {
                    match next_byte(cells, &mut left).cmp(&next_byte(cells, &mut right)) {
                        Ordering::Equal => {}
                        unequal => return unequal,
                    }
                }
                many.cmp(&others)
            }
        }
    }

    #[inline(never)]
    fn order(&self, cells: &Memory, a: u32, b: u32) -> Ordering {
        let (left, right) = (cells.read(a), cells.read(b));
        self.order_keys(cells, a, b)
            .then(wide(left, 2).cmp(&wide(right, 2)))
            .then(wide(left, 12).cmp(&wide(right, 12)))
    }
}

fn compare_all(cells: &Memory, key: &Key, a: u32, b: u32) -> u64 {
    let mut sum = 0u64;
    for call in 0..COMPARISONS {
        let order = if call % 2 == 0 { key.order(cells, a, b) } else { key.order(cells, b, a) };
        if order == Ordering::Less {
            sum = sum.wrapping_add(1);
        }
    }
    sum
}

fn put_all(cells: &Memory, plan: &mut Plan, bytes: &[u8]) -> u64 {
    let mut sum = 0u64;
    for call in 0..CALLS {
        let mut overlay = Overlay { cells, plan, taken: 0 };
        sum = sum.wrapping_add(u64::from(overlay.put_version(call, bytes)));
        let changed = plan.pairs.iter().filter(|(at, cell)| cells.read(*at) != cell).count();
        sum = sum.wrapping_add((changed != plan.pairs.len()) as u64);
        plan.clear();
    }
    sum
}

fn read_all(cells: &Memory, a: u32, b: u32) -> u64 {
    let mut sum = 0u64;
    for call in 0..CALLS {
        let version = if call % 2 == 0 { a } else { b };
        sum = sum.wrapping_add(row_bytes(cells, version).len() as u64);
    }
    sum
}

/// The encoding of the row of eight fields.
fn encoding(number: u16, words: &str) -> Vec<u8> {
    let mut out = Vec::new();
    out.extend_from_slice(&(-4i32).to_le_bytes());
    out.extend_from_slice(&u64::from(number).to_le_bytes());
    out.push(words.len() as u8);
    out.extend_from_slice(words.as_bytes());
    for edge in [-1i32, 2, 3, 4] {
        out.extend_from_slice(&edge.to_le_bytes());
    }
    out.push(4);
    for _ in 0..4 {
        out.extend_from_slice(&number.to_le_bytes());
    }
    out.extend_from_slice(&i32::from(number).to_le_bytes());
    out.extend_from_slice(&(-5i32).to_le_bytes());
    out.push(number as u8);
    out.extend_from_slice(&(-1_000_003i64).to_le_bytes());
    out
}

fn tell(what: &str, start: Instant, calls: u64, sum: u64) {
    let tenths = start.elapsed().as_nanos() as u64 * 10 / calls;
    println!("{what} {}.{} {sum}", tenths / 10, tenths % 10);
}

fn versions() {
    let mut memory = Memory::new();
    let mut plan = Plan::reserve(PLACES);
    let first = encoding(7, "a text of some length");
    let second = encoding(9, "a text of some lengthy");
    for _ in 0..5 {
        let start = Instant::now();
        let sum = put_all(&memory, &mut plan, &first);
        tell("write", start, CALLS, sum);
    }
    let a = Overlay { cells: &memory, plan: &mut plan, taken: 0 }.put_version(1, &first);
    write_out(&mut memory, &mut plan);
    let b = Overlay { cells: &memory, plan: &mut plan, taken: 0 }.put_version(1, &second);
    assert_eq!(Overlay { cells: &memory, plan: &mut plan, taken: 0 }.read(b)[0], KIND_VERSION);
    write_out(&mut memory, &mut plan);
    let numbers = Key { ty: Type::Num { bytes: 8, signed: false }, offset: 4 };
    let texts = Key { ty: Type::Text, offset: 12 };
    for _ in 0..5 {
        let start = Instant::now();
        let sum = read_all(&memory, a, b);
        tell("read", start, CALLS, sum);
        let start = Instant::now();
        let sum = compare_all(&memory, &numbers, a, b);
        tell("number", start, COMPARISONS, sum);
        let start = Instant::now();
        let sum = compare_all(&memory, &texts, a, b);
        tell("text", start, COMPARISONS, sum);
    }
}

fn objects(call: &str, count: u64) {
    let mut memory = Memory::new();
    for id in 1..=count {
        add_object(&mut memory, id);
    }
    for _ in 0..5 {
        let start = Instant::now();
        let sum = find_all(&memory, count);
        tell(call, start, FINDS, sum);
    }
}

fn main() {
    versions();
    objects("find-1000", 1_000);
    objects("find-30000", 30_000);
    objects("find-300000", 300_000);
}
