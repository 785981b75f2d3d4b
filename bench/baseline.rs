// The same work as crates/speed in plain Rust: what the proved library is measured against.
// It prints the same lines, so that equal results can be asked for before a time is compared.
use std::hint::black_box;
use std::time::Instant;

#[derive(Clone, Copy, PartialEq, Eq)]
enum Side {
    North,
    East,
    South,
    West,
}

const SIDES: [Side; 4] = [Side::North, Side::East, Side::South, Side::West];

impl Side {
    fn of_segment(segment: u16) -> Side {
        SIDES[(segment % 4) as usize]
    }

    fn opposite(self) -> Side {
        match self {
            Side::North => Side::South,
            Side::East => Side::West,
            Side::South => Side::North,
            Side::West => Side::East,
        }
    }

    fn segment_from(self, table: u8) -> u16 {
        4 * table as u16 + self as u16
    }
}

#[derive(Clone)]
struct Map {
    width: u8,
    height: u8,
    tables: [bool; 256],
    segments: [bool; 1024],
    stops: [bool; 256],
}

impl Map {
    fn new(width: u8, height: u8) -> Map {
        Map { width, height, tables: [false; 256], segments: [false; 1024], stops: [false; 256] }
    }

    fn beside(&self, table: u8, side: Side) -> Option<u8> {
        let (column, row) = (table % 16, table / 16);
        if column >= self.width || row >= self.height {
            return None;
        }
        match side {
            Side::North if row > 0 => Some(table - 16),
            Side::East if column + 1 < self.width => Some(table + 1),
            Side::South if row + 1 < self.height => Some(table + 16),
            Side::West if column > 0 => Some(table - 1),
            _ => None,
        }
    }

    fn head(&self, segment: u16) -> Option<u8> {
        if segment >= 1024 {
            return None;
        }
        self.beside((segment / 4) as u8, Side::of_segment(segment))
    }

    fn is_open(&self, segment: u16) -> bool {
        match self.head(segment) {
            None => false,
            Some(head) => {
                !self.segments[segment as usize]
                    && !self.tables[(segment / 4) as usize]
                    && !self.tables[head as usize]
            }
        }
    }

    fn link(&self, table: u8, side: Side) -> Option<u8> {
        let other = self.beside(table, side)?;
        (self.is_open(side.segment_from(table)) && self.is_open(side.opposite().segment_from(other)))
            .then_some(other)
    }
}

trait WayFinder {
    fn first_note(&self, origin: u8, destination: u8) -> u32;
    fn way(&self, table: u8, destination: u8, note: u32) -> Option<(Side, u32)>;
}

trait Ranker {
    fn key(&self, segment: u16) -> (u16, u16);
}

struct RowFirst;

impl WayFinder for RowFirst {
    fn first_note(&self, _: u8, _: u8) -> u32 {
        0
    }

    fn way(&self, table: u8, destination: u8, _: u32) -> Option<(Side, u32)> {
        let (column, row) = (table % 16, table / 16);
        let (to_column, to_row) = (destination % 16, destination / 16);
        if column < to_column {
            Some((Side::East, 0))
        } else if to_column < column {
            Some((Side::West, 0))
        } else if row < to_row {
            Some((Side::South, 0))
        } else if to_row < row {
            Some((Side::North, 0))
        } else {
            None
        }
    }
}

impl Ranker for RowFirst {
    fn key(&self, segment: u16) -> (u16, u16) {
        if segment >= 1024 {
            return (2, 0);
        }
        let (column, row) = (segment / 4 % 16, segment / 4 / 16);
        match Side::of_segment(segment) {
            Side::East => (0, column),
            Side::West => (0, 15 - column),
            Side::North => (1, 15 - row),
            Side::South => (1, row),
        }
    }
}

#[derive(Clone)]
struct Tree {
    roots: [Option<u8>; 256],
    depths: [u8; 256],
    sides: [Option<Side>; 256],
    parents: [Option<u8>; 256],
}

impl Tree {
    fn new(map: &Map) -> Tree {
        let mut tree = Tree { roots: [None; 256], depths: [0; 256], sides: [None; 256], parents: [None; 256] };
        let mut queue = [0u8; 256];
        for root in 0..=255u8 {
            let present = root % 16 < map.width && root / 16 < map.height && !map.tables[root as usize];
            if !present || tree.roots[root as usize].is_some() {
                continue;
            }
            tree.roots[root as usize] = Some(root);
            queue[0] = root;
            let (mut next, mut end) = (0, 1);
            while next < end {
                let table = queue[next];
                next += 1;
                for side in SIDES {
                    if let Some(other) = map.link(table, side) {
                        if tree.roots[other as usize].is_none() {
                            tree.roots[other as usize] = Some(root);
                            tree.depths[other as usize] = tree.depths[table as usize] + 1;
                            queue[end] = other;
                            end += 1;
                        }
                    }
                }
            }
        }
        for table in 0..=255u8 {
            for side in SIDES {
                if let Some(other) = map.link(table, side) {
                    if tree.depths[other as usize] + 1 == tree.depths[table as usize] {
                        tree.sides[table as usize] = Some(side);
                        tree.parents[table as usize] = Some(other);
                        break;
                    }
                }
            }
        }
        tree
    }

    fn child(&self, table: u8, destination: u8) -> Option<u8> {
        let mut x = destination;
        loop {
            let parent = self.parents[x as usize]?;
            if parent == table {
                return Some(x);
            }
            x = parent;
        }
    }
}

impl WayFinder for Tree {
    fn first_note(&self, _: u8, _: u8) -> u32 {
        0
    }

    fn way(&self, table: u8, destination: u8, _: u32) -> Option<(Side, u32)> {
        if table == destination {
            return None;
        }
        match (self.roots[table as usize], self.roots[destination as usize]) {
            (Some(a), Some(b)) if a == b => {}
            _ => return None,
        }
        let side = match self.child(table, destination) {
            None => self.sides[table as usize]?,
            Some(child) => self.sides[child as usize]?.opposite(),
        };
        Some((side, 0))
    }
}

impl Ranker for Tree {
    fn key(&self, segment: u16) -> (u16, u16) {
        if segment >= 1024 {
            return (2, 0);
        }
        let (table, side) = ((segment / 4) as u8, Side::of_segment(segment));
        if self.sides[table as usize] == Some(side) {
            return (0, 255 - self.depths[table as usize] as u16);
        }
        let other = match side {
            Side::North if table / 16 > 0 => table - 16,
            Side::East if table % 16 < 15 => table + 1,
            Side::South if table / 16 < 15 => table + 16,
            Side::West if table % 16 > 0 => table - 1,
            _ => return (2, 0),
        };
        if self.sides[other as usize] == Some(side.opposite()) {
            (1, self.depths[other as usize] as u16)
        } else {
            (2, 0)
        }
    }
}

fn check_route<P: WayFinder + Ranker>(map: &Map, plan: &P, origin: u8, destination: u8) -> Result<u16, u16> {
    let (mut table, mut note) = (origin, plan.first_note(origin, destination));
    let mut held: Option<(u16, u16)> = None;
    let mut step = 1;
    loop {
        let (side, next) = plan.way(table, destination, note).ok_or(step)?;
        let wanted = side.segment_from(table);
        let head = map.head(wanted).ok_or(step)?;
        if !map.is_open(wanted) {
            return Err(step);
        }
        let key = plan.key(wanted);
        if held.is_some_and(|held| held >= key) {
            return Err(step);
        }
        if head == destination {
            return Ok(step);
        }
        (table, note, held) = (head, next, Some(key));
        step += 1;
    }
}

fn check<P: WayFinder + Ranker>(map: &Map, plan: &P) -> Result<(u32, u32, u16), u16> {
    let (mut pairs, mut segments, mut longest) = (0, 0, 0);
    for origin in 0..=255u8 {
        if !map.stops[origin as usize] {
            continue;
        }
        for destination in 0..=255u8 {
            if map.stops[destination as usize] && destination != origin {
                let length = check_route(map, plan, origin, destination)?;
                pairs += 1;
                segments += length as u32;
                longest = longest.max(length);
            }
        }
    }
    Ok((pairs, segments, longest))
}

#[derive(Clone, Copy)]
struct Tray {
    number: u32,
    destination: u8,
    note: u32,
    advances: u16,
}

struct Floor<W> {
    map: Map,
    finder: W,
    records: Box<[Option<Tray>; 1024]>,
    entered: u32,
    delivered: u32,
}

impl<W: WayFinder> Floor<W> {
    fn open(map: Map, finder: W) -> Floor<W> {
        Floor { map, finder, records: Box::new([None; 1024]), entered: 0, delivered: 0 }
    }

    fn ask(&self, table: u8, destination: u8, note: u32) -> Option<(u16, u32)> {
        let (side, carried) = self.finder.way(table, destination, note)?;
        let wanted = side.segment_from(table);
        self.map.head(wanted)?;
        if !self.map.is_open(wanted) || self.records[wanted as usize].is_some() {
            return None;
        }
        Some((wanted, carried))
    }

    fn enter(&mut self, origin: u8, destination: u8) -> Option<(u32, u16)> {
        let stops = self.map.stops[origin as usize] && self.map.stops[destination as usize];
        if !stops || origin == destination || self.entered == u32::MAX {
            return None;
        }
        let first = self.finder.first_note(origin, destination);
        let (segment, note) = self.ask(origin, destination, first)?;
        self.entered += 1;
        self.records[segment as usize] = Some(Tray { number: self.entered, destination, note, advances: 0 });
        Some((self.entered, segment))
    }

    fn advance(&mut self, segment: u16) -> Option<(u32, u16, u16)> {
        let head = self.map.head(segment)?;
        let tray = self.records[segment as usize]?;
        let advances = tray.advances.saturating_add(1);
        if head == tray.destination {
            self.records[segment as usize] = None;
            self.delivered += 1;
            return Some((tray.number, advances, 65535));
        }
        let (wanted, note) = self.ask(head, tray.destination, tray.note)?;
        self.records[wanted as usize] = Some(Tray { note, advances, ..tray });
        self.records[segment as usize] = None;
        Some((tray.number, advances, wanted))
    }
}

fn run_floor(store: &Map) -> u64 {
    let tree = Tree::new(store);
    let _ = black_box(check(store, &tree));
    let mut floor = Floor::open(store.clone(), tree);
    let (mut state, mut accepted, mut sum) = (1u64, 0u32, 0u64);
    for _ in 0..200_000_000u32 {
        if accepted >= 1_000_000 {
            break;
        }
        state = state.wrapping_mul(6364136223846793005).wrapping_add(1442695040888963407);
        let random = (state >> 33) as u32;
        let answer = if random % 16 == 0 {
            let origin = (random / 16 % 64) as u8 * 4;
            let destination = (random / 1024 % 64) as u8 * 4;
            floor.enter(origin, destination).map(|(tray, segment)| (tray as u64).wrapping_mul(1024).wrapping_add(segment as u64) | 1)
        } else {
            floor
                .advance((random / 16 % 1024) as u16)
                .map(|(tray, _, segment)| (tray as u64).wrapping_mul(65536).wrapping_add(segment as u64) | 1)
        };
        if let Some(answer) = answer {
            accepted += 1;
            sum = sum.wrapping_mul(31).wrapping_add(answer);
        }
    }
    sum
}

fn far_key(tree: &Tree) -> u64 {
    (0..256u16).fold(0u64, |sum, table| {
        let (first, second) = tree.key(table * 4);
        sum.wrapping_mul(31).wrapping_add(first as u64 * 256 + second as u64)
    })
}

fn sum_of(verdict: Result<(u32, u32, u16), u16>) -> u64 {
    match verdict {
        Ok((pairs, segments, longest)) => pairs as u64 * 1_000_000_000 + segments as u64 * 1_000 + longest as u64,
        Err(step) => step as u64,
    }
}

fn full_store() -> Map {
    let mut map = Map::new(16, 16);
    for table in (0..256).step_by(4) {
        map.stops[table] = true;
    }
    map
}

fn corridor_store() -> Map {
    let mut map = full_store();
    for row in 0..8 {
        for column in 0..15 {
            let shift = if row % 2 == 0 { column } else { column + 1 };
            map.tables[32 * row + 16 + shift] = true;
        }
    }
    map
}

fn report(name: &str, rounds: u32, work: impl Fn() -> u64) {
    let start = Instant::now();
    let mut result = 0;
    for _ in 0..rounds {
        result = black_box(work());
    }
    let spent = start.elapsed().as_nanos();
    println!("{name} {result} {rounds} {spent}");
}

fn main() {
    let (full, corridor) = (full_store(), corridor_store());
    report("check-row-first", 100, || sum_of(check(black_box(&full), &RowFirst)));
    report("check-tree", 20, || {
        let tree = Tree::new(black_box(&full));
        sum_of(check(&full, &tree))
    });
    report("build-tree", 2000, || far_key(&Tree::new(black_box(&full))));
    report("build-tree-corridor", 2000, || far_key(&Tree::new(black_box(&corridor))));
    report("floor-million", 1, || run_floor(black_box(&full)));
}
