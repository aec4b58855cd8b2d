//! Arguments of all kinds, the same for the same seed: SplitMix64 (Steele, Lea and Flood 2014).

use std::ops::Range;

use mom::Figures;

use super::plain::{cell_of, hashes, overlap_test, Cell, Setting, Zuniq};

pub struct Draw(u64);

/// The arguments of an add call but for the values, of which only the numbers are drawn.
#[derive(Clone, Debug)]
pub struct AddCall<Z> {
    pub depth: u8,
    pub m: u8,
    pub t: f64,
    pub protected: Vec<Z>,
    pub held: usize,
    pub zuniqs: Vec<Z>,
    pub values: usize,
    pub hashes: Vec<Z>,
    pub batch: usize,
}

impl<Z: Zuniq> AddCall<Z> {
    pub fn setting(&self) -> Setting<'_, Z> {
        Setting {
            m: self.m,
            t: self.t,
            protected: &self.protected,
        }
    }

    /// The same with no protected parents.
    pub fn unprotected(&self) -> AddCall<Z> {
        let protected = vec![];
        AddCall {
            protected,
            ..self.clone()
        }
    }

    /// The held entries and the cells, for a call that is accepted.
    pub fn unmerged(&self) -> Vec<Z> {
        let cells = self.hashes.iter().map(|hash| hash.number());
        let cells = cells.map(|hash| zuniq_of(self.depth, hash));
        let held = self.zuniqs[..self.held].iter().copied();
        held.chain(cells).collect()
    }
}

/// A map of a combining or moving call but for its values, of which only the number is drawn.
#[derive(Clone, Debug)]
pub struct Side<Z> {
    pub depth: u8,
    pub zuniqs: Vec<Z>,
    pub values: usize,
}

/// The arguments of a combining call but for the values and the output.
#[derive(Clone, Debug)]
pub struct CombineCall {
    pub sides: [Side<u64>; 2],
    pub m: u8,
    pub t: f64,
    pub k: f64,
    pub protected: Vec<u64>,
}

impl CombineCall {
    pub fn setting(&self) -> Setting<'_, u64> {
        Setting {
            m: self.m,
            t: self.t,
            protected: &self.protected,
        }
    }

    /// The same with no protected parents.
    pub fn unprotected(&self) -> CombineCall {
        let protected = vec![];
        CombineCall {
            protected,
            ..self.clone()
        }
    }
}

/// The arguments of a call between rows and byte columns.
#[derive(Clone, Debug)]
pub struct LayoutCall {
    pub row_size: usize,
    pub input: Vec<u8>,
    /// The output, with bytes round it that are not lent.
    pub output: Vec<u8>,
    pub lent: Range<usize>,
}

/// The arguments of a clip call but for the densities and the output.
#[derive(Clone, Debug)]
pub struct ClipCall {
    pub map: Side<u64>,
    pub starts: Vec<u64>,
    pub ends: Vec<u64>,
}

/// N(29), behind the last hash.
const SKY: u64 = 12 << 58;

/// (2h + 1) × 4^(K − d), K being the largest depth.
fn zuniq_of<Z: Zuniq>(depth: u8, hash: u64) -> Z {
    Z::of((2 * hash + 1) << (2 * (Z::MAX_DEPTH - depth)))
}

/// The cell that stands so many depths over this one, if any.
fn over<Z: Zuniq>((depth, hash): Cell, up: u8) -> Option<Z> {
    let is_cell = depth <= Z::MAX_DEPTH && hash < 12 << (2 * depth);
    (is_cell && up <= depth).then(|| zuniq_of(depth - up, hash >> (2 * up)))
}

/// The bounds of what a map covers: those where it starts or ends, and not both.
fn own_bounds(zuniqs: &[u64]) -> Vec<u64> {
    let cells = zuniqs.iter().filter_map(|&z| cell_of(z));
    let mut bounds: Vec<u64> = Vec::new();
    for hashes in cells.map(hashes) {
        if bounds.last() == Some(&hashes.start) {
            bounds.pop();
        } else {
            bounds.push(hashes.start);
        }
        bounds.push(hashes.end);
    }
    bounds
}

impl Draw {
    pub fn new(seed: u64) -> Self {
        Draw(seed)
    }

    fn bits(&mut self) -> u64 {
        self.0 = self.0.wrapping_add(0x9e37_79b9_7f4a_7c15);
        let z = (self.0 ^ self.0 >> 30).wrapping_mul(0xbf58_476d_1ce4_e5b9);
        let z = (z ^ z >> 27).wrapping_mul(0x94d0_49bb_1331_11eb);
        z ^ z >> 31
    }

    fn below(&mut self, n: usize) -> usize {
        ((self.bits() as u128 * n as u128) >> 64) as usize
    }

    pub fn one_in(&mut self, n: usize) -> bool {
        self.below(n) == 0
    }

    /// Few bits as often as many.
    fn few_bits<Z: Zuniq>(&mut self) -> Z {
        let bits = 8 * Z::SIZE;
        let shift = self.below(bits);
        Z::of(self.bits() >> (64 - bits) >> shift)
    }

    /// Mostly 0 to 29, or 13 for a narrow map, and small, so that cells meet.
    pub fn depth<Z: Zuniq>(&mut self) -> u8 {
        match self.below(16) {
            0 => self.bits() as u8,
            1 => Z::MAX_DEPTH - 1 + self.below(4) as u8,
            2..=7 => self.below(Z::MAX_DEPTH as usize + 1) as u8,
            _ => self.below(3) as u8,
        }
    }

    /// Mostly 0 to 29, for narrow maps too.
    fn depth_threshold(&mut self) -> u8 {
        if self.one_in(2) {
            return 0;
        }
        self.depth::<u64>()
    }

    pub fn hash<Z: Zuniq>(&mut self) -> Z {
        self.few_bits()
    }

    /// A merger's parent, mostly with a hash that its depth has.
    pub fn parent(&mut self) -> Cell {
        let depth = self.depth::<u64>();
        let n = 12 << (2 * depth.min(28));
        let hash = match self.below(8) {
            0 => n - 1 + self.below(3) as u64,
            1 => self.few_bits(),
            2 => self.below(n as usize) as u64,
            _ => self.below(12) as u64,
        };
        (depth, hash)
    }

    /// Protected parents: often none, else mostly a rising list that names parents of these cells and what
    /// stands over and beside them.
    pub fn protected<Z: Zuniq>(&mut self, cells: &[Cell]) -> Vec<Z> {
        if self.one_in(2) {
            return vec![];
        }
        let few = [1, 2, 8][self.below(3)];
        let mut list: Vec<Z> = Vec::new();
        for &cell in cells {
            if self.one_in(few) {
                let up = [1, 1, 1, 2, 3, 0][self.below(6)];
                list.extend(over::<Z>(cell, up));
            }
        }
        if self.one_in(2) {
            list.extend(self.zuniqs::<Z>());
        }
        list.retain(|&zuniq| cell_of(zuniq).is_some());
        list.sort();
        list.dedup();
        if self.one_in(8) {
            self.spoil_list(&mut list);
        }
        list
    }

    /// With a value that is no zuniq, is there twice, or stands too far to the front.
    fn spoil_list<Z: Zuniq>(&mut self, list: &mut Vec<Z>) {
        let place = self.below(list.len() + 1);
        let Some(&zuniq) = list.get(place) else {
            list.push(self.few_bits());
            return;
        };
        match self.below(4) {
            0 => list[place] = self.few_bits(),
            1 => list[place] = Z::of(zuniq.number() ^ 1 << self.below(8 * Z::SIZE)),
            2 => list.insert(place, zuniq),
            _ => list[place..].rotate_right(1),
        }
    }

    pub fn count(&mut self) -> u32 {
        match self.below(8) {
            0 => u32::MAX - self.below(3) as u32,
            1 => self.bits() as u32,
            _ => self.below(6) as u32,
        }
    }

    /// Four for a merger, half of them of blank sky with hardly a source.
    pub fn four_counts(&mut self) -> [u32; 4] {
        if self.one_in(2) {
            return [(); 4].map(|_| self.one_in(8) as u32);
        }
        [(); 4].map(|_| self.count())
    }

    /// T: now and then one that the chi of blank sky, 0, is not below.
    pub fn chi2_threshold(&mut self) -> f64 {
        if self.one_in(3) {
            return [0.0, -0.0, -1.0, -f64::MAX, f64::NEG_INFINITY][self.below(5)];
        }
        self.float()
    }

    pub fn float(&mut self) -> f64 {
        match self.below(8) {
            0 => f64::from_bits(self.bits()),
            1 => [f64::NAN, f64::INFINITY, f64::NEG_INFINITY, f64::MAX][self.below(4)],
            2 => [0.0, -0.0, 5e-324, -5e-324][self.below(4)],
            _ => self.below(64) as f64 / 8.0,
        }
    }

    /// Mostly a density.
    pub fn density(&mut self) -> f64 {
        if self.one_in(16) {
            return self.float();
        }
        self.below(64) as f64 / 4.0
    }

    /// Mostly that of a cell near the others.
    pub fn zuniq<Z: Zuniq>(&mut self) -> Z {
        let depth = if self.one_in(4) {
            self.below(Z::MAX_DEPTH as usize + 1)
        } else {
            self.below(3)
        };
        let n = 12 << (2 * depth);
        let few = if self.one_in(4) { n } else { n.min(8) };
        let zuniq: Z = zuniq_of(depth as u8, self.below(few) as u64);
        match self.below(16) {
            0 => self.few_bits(),
            1 => Z::of(zuniq.number() ^ 1 << self.below(8 * Z::SIZE)),
            _ => zuniq,
        }
    }

    pub fn zuniqs<Z: Zuniq>(&mut self) -> Vec<Z> {
        (0..self.below(12)).map(|_| self.zuniq()).collect()
    }

    pub fn counts(&mut self) -> Vec<u32> {
        let number = self.below(12);
        self.counts_of(number)
    }

    /// Mostly all of them small, so that their total is a u32.
    pub fn counts_of(&mut self, number: usize) -> Vec<u32> {
        if self.one_in(4) {
            return (0..number).map(|_| self.count()).collect();
        }
        (0..number).map(|_| self.below(6) as u32).collect()
    }

    /// Blank sky with a source here and there, as counts of two lists.
    fn blank_counts(&mut self, numbers: [usize; 2]) -> [Vec<u32>; 2] {
        let few = [8, 64, 512][self.below(3)];
        numbers.map(|number| (0..number).map(|_| self.one_in(few) as u32).collect())
    }

    /// The held counts and those of the batch, half of them of blank sky.
    pub fn add_counts<Z>(&mut self, call: &AddCall<Z>) -> [Vec<u32>; 2] {
        if self.one_in(2) {
            return self.blank_counts([call.values, call.batch]);
        }
        [call.values, call.batch].map(|number| self.counts_of(number))
    }

    pub fn densities_of(&mut self, number: usize) -> Vec<f64> {
        (0..number).map(|_| self.density()).collect()
    }

    /// Mostly all of them valid, however many there are.
    pub fn few_faulty_densities(&mut self, number: usize) -> Vec<f64> {
        let mut densities: Vec<f64> = (0..number).map(|_| self.below(64) as f64 / 4.0).collect();
        if number > 0 && self.one_in(8) {
            let place = self.below(number);
            densities[place] = self.float();
        }
        densities
    }

    /// Mostly rising, and half of them without entries that overlap their predecessor.
    pub fn map<Z: Zuniq>(&mut self) -> Vec<Z> {
        let mut map = self.zuniqs();
        if !self.one_in(4) {
            map.sort();
        }
        if self.one_in(2) {
            map.retain(|&z| cell_of(z).is_some());
            map.dedup_by(|z, before| overlap_test(*z, *before) != Ok(false));
        }
        map
    }

    /// Any bytes, of a length that mostly is that of some rows of one of these sizes.
    pub fn bytes(&mut self, sizes: &[usize]) -> Vec<u8> {
        let length = match self.below(4) {
            0 => self.below(80),
            _ => sizes[self.below(sizes.len())] * self.below(8),
        };
        self.bytes_of(length)
    }

    fn bytes_of(&mut self, number: usize) -> Vec<u8> {
        (0..number).map(|_| self.bits() as u8).collect()
    }

    /// Count rows, now and then with a byte less or too many of them.
    pub fn rows<Z: Zuniq>(&mut self) -> Vec<u8> {
        if self.one_in(64) {
            return vec![0; (Z::SIZE + 4) * (4095 + self.below(4))];
        }
        let mut bytes = Vec::new();
        for zuniq in self.map::<Z>() {
            bytes.extend(zuniq.to_bytes());
            bytes.extend(self.count().to_le_bytes());
        }
        if self.one_in(8) {
            bytes.pop();
        }
        bytes
    }

    /// A part of so many places: all but a few at both ends.
    pub fn part(&mut self, places: usize) -> Range<usize> {
        let first = self.below(3).min(places);
        let end = places - self.below(3).min(places - first);
        first..end
    }

    /// A map, mostly of few entries, and a hash that may stand behind it.
    fn held_map<Z: Zuniq>(&mut self, depth: u8) -> (Vec<Z>, u64) {
        let mut map = self.map();
        if !self.one_in(4) {
            map.truncate(self.below(2));
        }
        let deepest = depth.min(Z::MAX_DEPTH);
        let last = map.last().and_then(|&z| cell_of(z));
        let from = match last.filter(|&(d, _)| d <= deepest) {
            Some((d, h)) if self.one_in(2) => (h + 1) << (2 * (deepest - d)),
            _ => self.below((12 << (2 * deepest)).min(64)) as u64,
        };
        (map, from)
    }

    /// The first base cells, now and then one left out, and the hash behind them: often as many that the
    /// next one would complete four, or that the next four look like siblings.
    fn base_cells<Z: Zuniq>(&mut self) -> (Vec<Z>, u64) {
        let end = match self.below(2) {
            0 => [0, 3, 4, 7, 8, 11][self.below(6)],
            _ => self.below(13) as u64,
        };
        let cells = (0..end).filter(|_| !self.one_in(32));
        (cells.map(|hash| zuniq_of(0, hash)).collect(), end)
    }

    /// The first cells of some siblings or their children, as a batch cut off within them leaves them, and
    /// the hash behind them.
    fn cut_siblings<Z: Zuniq>(&mut self, depth: u8) -> (Vec<Z>, u64) {
        let siblings = [4, 16][self.below(2)];
        let first = self.below(12 << (2 * depth)) as u64 / siblings * siblings;
        let end = first + self.below(siblings as usize) as u64;
        let cells = (first..end).map(|hash| zuniq_of(depth, hash));
        (cells.collect(), end)
    }

    /// What is held before a call, and the hash from which on its cells stand.
    fn held<Z: Zuniq>(&mut self, depth: u8) -> (Vec<Z>, u64) {
        match depth {
            0 if !self.one_in(4) => self.base_cells(),
            d if d > 0 && d <= Z::MAX_DEPTH && self.one_in(3) => self.cut_siblings(depth),
            _ => self.held_map(depth),
        }
    }

    /// A map of cells of one depth and above it, and cells behind it; some of it wrong.
    pub fn add_call<Z: Zuniq>(&mut self) -> AddCall<Z> {
        let depth = self.depth::<Z>();
        let (mut zuniqs, from) = self.held(depth);
        let held = match self.below(8) {
            0 => self.below(14),
            _ => zuniqs.len(),
        };
        // Of base cells at most one too many.
        let number = match depth {
            0 => self.below(14 - from as usize),
            _ => self.below(20),
        };
        let behind = (from..from + number as u64).map(Z::of);
        let mut hashes: Vec<Z> = behind.collect();
        if self.one_in(8) {
            hashes.push(self.few_bits());
        }
        let free = match self.below(8) {
            0 => self.below(24),
            _ => hashes.len() + self.below(3),
        };
        let mut cells: Vec<Cell> = hashes.iter().map(|&h| (depth, h.number())).collect();
        cells.extend(zuniqs.iter().filter_map(|&z| cell_of(z)));
        zuniqs.extend((0..free).map(|_| Z::of(77)));
        let differ = |wrong: bool, n: usize| if wrong { n + 1 } else { n };
        AddCall {
            depth,
            m: self.depth_threshold(),
            t: self.chi2_threshold(),
            protected: self.protected(&cells),
            held: if self.one_in(8) {
                held
            } else {
                held.min(zuniqs.len() - free)
            },
            values: differ(self.one_in(32), zuniqs.len()),
            batch: differ(self.one_in(32), hashes.len()),
            zuniqs,
            hashes,
        }
    }

    /// Entries in a cell and maybe below it: round the cells of one way down to `end`, and now and
    /// then elsewhere. The way is the hash of its cell at depth 29.
    fn cover<Z: Zuniq>(
        &mut self,
        (d, h): (u8, u64),
        way: u64,
        end: u8,
        deepest: u8,
        map: &mut Vec<Z>,
    ) {
        let on_way = d < end && way >> (2 * (29 - d)) == h;
        if on_way || d < deepest && self.one_in(8) {
            for child in 0..4 {
                self.cover((d + 1, 4 * h + child), way, end, deepest, map);
            }
        } else if !self.one_in(4) {
            map.push(zuniq_of(d, h));
        }
    }

    /// A map round the way, now and then with something wrong in it.
    fn side<Z: Zuniq>(&mut self, depth: u8, way: u64, end: u8, deepest: u8) -> Side<Z> {
        let mut zuniqs = Vec::new();
        let all = self.one_in(4);
        for base in 0..12 {
            if all || base == way >> 58 {
                self.cover((0, base), way, end, deepest, &mut zuniqs);
            }
        }
        self.spoilt(depth, zuniqs)
    }

    /// The map of these entries, now and then with something wrong in it.
    fn spoilt<Z: Zuniq>(&mut self, depth: u8, mut zuniqs: Vec<Z>) -> Side<Z> {
        match self.below(16) {
            0 => zuniqs = self.map(),
            1 if !zuniqs.is_empty() => {
                let place = self.below(zuniqs.len());
                zuniqs[place] = self.zuniq();
            }
            2 => zuniqs.clear(),
            _ => {}
        }
        let values = zuniqs.len() + self.one_in(32) as usize;
        Side {
            depth,
            zuniqs,
            values,
        }
    }

    /// One of the two maps round a way.
    fn combined(&mut self, way: u64) -> Side<u64> {
        let depth = self.depth::<u64>();
        let deepest = depth.min(29);
        let end = self.below(deepest as usize + 1) as u8;
        self.side(depth, way, end, deepest)
    }

    /// Two maps round one way, so that entries of each lie in entries of the other.
    pub fn combine_call(&mut self) -> CombineCall {
        let way = self.below(12 << 58) as u64;
        let sides = [self.combined(way), self.combined(way)];
        let entries = sides.iter().flat_map(|side| &side.zuniqs);
        let cells: Vec<Cell> = entries.filter_map(|&z| cell_of(z)).collect();
        CombineCall {
            protected: self.protected(&cells),
            sides,
            m: self.depth_threshold(),
            // Split counts are large and so is their chi.
            t: if self.one_in(3) {
                self.few_bits::<u64>() as f64
            } else {
                self.chi2_threshold()
            },
            k: if self.one_in(2) { 1.0 } else { self.float() },
        }
    }

    /// Counts of two maps whose total mostly is a u32, and now and then the last one or just none; or
    /// blank sky.
    pub fn pool_counts(&mut self, [left, right]: [usize; 2]) -> [Vec<u32>; 2] {
        if self.one_in(3) {
            return self.blank_counts([left, right]);
        }
        let mut counts: Vec<u32> = if self.one_in(16) {
            self.counts_of(left + right)
        } else {
            let mut small = || self.bits() as u32 >> (10 + self.below(22));
            (0..left + right).map(|_| small()).collect()
        };
        if !counts.is_empty() && self.one_in(8) {
            let place = self.below(counts.len());
            counts[place] = 0;
            let total: u64 = counts.iter().map(|&n| n as u64).sum();
            let rest = (u32::MAX as u64).saturating_sub(total) + self.below(2) as u64;
            counts[place] = rest.min(u32::MAX as u64) as u32;
        }
        let right = counts.split_off(left);
        [counts, right]
    }

    /// Figures to commit a pool by, half of them those asked; else mostly one of the three is another.
    pub fn figures(&mut self, asked: Figures) -> Figures {
        let mut figures = asked;
        for _ in 0..[0, 0, 0, 1, 1, 2][self.below(6)] {
            match self.below(3) {
                0 => figures.cells = self.figure(asked.cells, asked.entries),
                1 => figures.entries = self.figure(asked.entries, asked.cells),
                _ => figures.total = self.figure(asked.total as usize, 0) as u32,
            }
        }
        figures
    }

    /// A number beside this one, one bit away from it, the other one, or any.
    fn figure(&mut self, right: usize, other: usize) -> usize {
        match self.below(8) {
            0..=1 => right.wrapping_add(1),
            2..=3 => right.wrapping_sub(1),
            4..=5 => right ^ 1 << self.below(usize::BITS as usize),
            6 => other,
            _ => self.few_bits::<u64>() as usize,
        }
    }

    /// A map to be moved, mostly with entries down to a depth about 13, which is the largest of a
    /// narrow one; now and then the last entry stands in front of others.
    pub fn moved<Z: Zuniq>(&mut self) -> Side<Z> {
        let depth = match self.below(4) {
            0 => self.depth::<Z>(),
            _ => 10 + self.below(Z::MAX_DEPTH as usize - 9) as u8,
        };
        let most = depth.min(Z::MAX_DEPTH);
        let deepest = match self.below(4) {
            0 => most,
            _ => most.min(12 + self.below(3) as u8),
        };
        let end = match self.below(2) {
            0 => self.below(deepest as usize + 1) as u8,
            _ => deepest,
        };
        let way = self.below(12 << 58) as u64;
        let mut side = self.side(depth, way, end, deepest);
        if side.zuniqs.len() > 1 && self.one_in(8) {
            let place = self.below(side.zuniqs.len());
            side.zuniqs[place..].rotate_right(1);
        }
        side
    }

    /// A cell of few depth-29 cells, now and then at an end of the sky.
    fn small_area(&mut self) -> Cell {
        let depth = 26 + self.below(3) as u8;
        let n = 12 << (2 * depth);
        let hash = match self.below(4) {
            0 => 0,
            1 => n - 1,
            _ => self.below(n as usize) as u64,
        };
        (depth, hash)
    }

    /// Entries in that area, or now and then one over all of it.
    fn small_entries(&mut self, (depth, hash): Cell) -> Vec<u64> {
        if self.one_in(4) {
            let up = self.below(depth as usize + 1) as u8;
            return vec![zuniq_of(depth - up, hash >> (2 * up))];
        }
        let inside = hashes((depth, hash));
        let way = inside.start + self.below((inside.end - inside.start) as usize) as u64;
        let end = depth + self.below(4) as u8;
        let mut zuniqs = Vec::new();
        self.cover((depth, hash), way, end.min(29), 29, &mut zuniqs);
        zuniqs
    }

    /// Some of the hashes of that area and next to it, as bounds of ranges.
    fn small_bounds(&mut self, area: Cell) -> Vec<u64> {
        let inside = hashes(area);
        let few = [2, 4, 16][self.below(3)];
        let near = inside.start.saturating_sub(3)..=(inside.end + 3).min(SKY);
        near.filter(|_| self.one_in(few)).collect()
    }

    /// Bounds at the ends of entries, near them, and elsewhere.
    fn bounds(&mut self, zuniqs: &[u64]) -> Vec<u64> {
        let mut bounds = Vec::new();
        let few = [1, 2, 8][self.below(3)];
        for cell in zuniqs.iter().filter_map(|&z| cell_of(z)) {
            let inside = hashes(cell);
            for end in [inside.start, inside.end] {
                let away = (self.below(4) as u64) << (2 * self.below(30));
                match self.below(4 * few) {
                    0 => bounds.push(end),
                    1 => bounds.push((end + away).min(SKY)),
                    2 => bounds.push(end.saturating_sub(away)),
                    3 => bounds.push(end.saturating_sub(1)),
                    _ => {}
                }
            }
        }
        if self.one_in(4) {
            bounds.extend([0, SKY, self.below(SKY as usize) as u64]);
        }
        bounds
    }

    /// Ranges between these bounds, of which every second one is an end; now and then one that is wrong.
    fn ranges(&mut self, mut bounds: Vec<u64>) -> (Vec<u64>, Vec<u64>) {
        bounds.sort();
        bounds.dedup();
        let ranges = bounds.chunks_exact(2);
        let (mut starts, mut ends): (Vec<u64>, Vec<u64>) =
            ranges.map(|range| (range[0], range[1])).unzip();
        if !starts.is_empty() && self.one_in(5) {
            self.spoil_range(&mut starts, &mut ends);
        }
        if self.one_in(32) {
            starts.push(SKY);
        }
        (starts, ends)
    }

    fn spoil_range(&mut self, starts: &mut [u64], ends: &mut [u64]) {
        let place = self.below(starts.len());
        let before = ends[place.saturating_sub(1)];
        let some = self.below(9) as u64;
        match self.below(8) {
            0 => ends[place] = starts[place],
            1 => ends[place] = ends[place].saturating_sub(some),
            2 => ends[place] = SKY + some,
            3 => ends[place] = self.few_bits(),
            4 => starts[place] = before,
            5 => starts[place] = before.saturating_sub(some),
            6 => starts[place] = self.few_bits(),
            _ => starts.swap(0, place),
        }
    }

    /// A map of that area, mostly of depth 29, and bounds there.
    fn small_map(&mut self) -> (Side<u64>, Vec<u64>) {
        let area = self.small_area();
        let zuniqs = self.small_entries(area);
        let depth = match self.below(16) {
            0 => self.depth::<u64>(),
            _ => 29,
        };
        (self.spoilt(depth, zuniqs), self.small_bounds(area))
    }

    /// A map and bounds about it, both of few depth-29 cells or both of any.
    fn bounded_map(&mut self) -> (Side<u64>, Vec<u64>) {
        if self.one_in(2) {
            return self.small_map();
        }
        let way = self.below(SKY as usize) as u64;
        let map = self.combined(way);
        let bounds = self.bounds(&map.zuniqs);
        (map, bounds)
    }

    /// A map to be covered.
    pub fn covered(&mut self) -> Side<u64> {
        let (map, _) = self.bounded_map();
        map
    }

    /// A map and ranges; now and then the map's own ranges, or none.
    pub fn clip_call(&mut self) -> ClipCall {
        let (map, bounds) = self.bounded_map();
        let bounds = match self.below(16) {
            0 => vec![],
            1 => own_bounds(&map.zuniqs),
            _ => bounds,
        };
        let (starts, ends) = self.ranges(bounds);
        ClipCall { map, starts, ends }
    }

    /// Mostly whole rows of a length that is named, and an output that is long enough.
    pub fn layout_call(&mut self) -> LayoutCall {
        let row_size = match self.below(8) {
            0 => self.below(40),
            1 if self.one_in(4) => self.few_bits::<u64>() as usize,
            _ => [8, 12, 16][self.below(3)],
        };
        let rows = match self.below(8) {
            0 => self.below(300),
            1 => (1 << self.below(9)) - 1 + self.below(3),
            _ => self.below(20),
        };
        let more = if self.one_in(8) { self.below(16) } else { 0 };
        let length = row_size.min(40) * rows + more;
        let places = match self.below(8) {
            0 => self.below(length + 1),
            1 => length.saturating_sub(1),
            2..=4 => length,
            _ => length + self.below(20),
        };
        let first = self.below(16);
        let around = first + places + self.below(16);
        LayoutCall {
            row_size,
            input: self.bytes_of(length),
            output: self.bytes_of(around),
            lent: first..first + places,
        }
    }

    /// The zuniqs of an output and the number of its values, mostly enough for so many cells.
    pub fn output<Z: Zuniq>(&mut self, cells: usize) -> (Vec<Z>, usize) {
        let places = match self.below(16) {
            0 => self.below(cells + 1),
            1 => cells.saturating_sub(1),
            _ => cells + self.below(3),
        };
        let zuniqs: Vec<Z> = (0..places).map(|_| self.zuniq()).collect();
        (zuniqs, places + self.one_in(32) as usize)
    }
}
