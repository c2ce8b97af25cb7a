//! The collector's jobs in plain Rust, the yardstick of the speed comparison.
//! `plain dayline < records` prints what dayline prints, `plain replay < commands` what replay prints.
//! Every call makes the same checks and gives the same refusals as the programs it is measured against.

use std::fmt::Write as _;
use std::io::{self, Read, Write as _};

const MOST_LEVELS: usize = 16;
const MOST_SAMPLES: usize = 256;
const MOST_TOLERANCE: u32 = 32_768;
const FARTHEST: i16 = 16_384;
const MOST_RECORDS: usize = 4_096;
const RECORD: usize = 16;
/// The mark of the first sample after a restart, the highest there is.
const RESTART: u8 = 1;
/// The cost of a stretch that is not permitted.
const NEVER: u16 = u16::MAX;

/// A number of refusal, 1 to 11.
type Refusal = u8;

fn ensure(holds: bool, refusal: Refusal) -> Result<(), Refusal> {
    holds.then_some(()).ok_or(refusal)
}

fn in_range(coordinate: i16) -> bool {
    (-FARTHEST..=FARTHEST).contains(&coordinate)
}

/// The buffers lent to a call.
#[derive(Default)]
struct Lent {
    across: Vec<i16>,
    up: Vec<i16>,
    cells: Vec<u16>,
    ranks: Vec<u8>,
    marks: Vec<u8>,
}

/// The three lists of an upload.
#[derive(Default)]
struct Lists {
    across: Vec<i16>,
    up: Vec<i16>,
    marks: Vec<u8>,
}

/// What an upload has done so far: the trace, how many samples it added and how many cells it wrote.
struct Uploaded {
    trace: Trace,
    added: usize,
    cells: usize,
}

impl Uploaded {
    /// Adds the samples up to the first refused. Refusals 1 to 5 are checked once: no put leaves what they apply to.
    fn take(&mut self, lent: &mut Lent, new: &Lists) -> Result<(), Refusal> {
        ensure(new.across.len() == new.up.len() && new.up.len() == new.marks.len(), 3)?;
        if new.across.is_empty() {
            return Ok(());
        }
        self.trace.check_table(lent, 0)?;
        for ((&x, &y), &mark) in new.across.iter().zip(&new.up).zip(&new.marks) {
            let (after, cells) = self.trace.put_checked(lent, self.trace.held, x, y, mark)?;
            self.trace = after;
            self.added += 1;
            self.cells += cells;
        }
        Ok(())
    }
}

/// The setup of a trace and the number of samples it holds.
#[derive(Clone, Copy, Default)]
struct Trace {
    levels: usize,
    capacity: usize,
    held: usize,
    tolerances: [u32; MOST_LEVELS],
}

impl Trace {
    fn start(levels: usize, capacity: usize, tolerances: [u32; MOST_LEVELS]) -> Result<Trace, Refusal> {
        let mut trace = Trace { levels, capacity, held: 0, tolerances };
        trace.check_setup()?;
        trace.tolerances[levels..].fill(0);
        Ok(trace)
    }

    fn put(self, lent: &mut Lent, v: usize, x: i16, y: i16, mark: u8) -> Result<(Trace, usize), Refusal> {
        self.check_table(lent, 0)?;
        self.put_checked(lent, v, x, y, mark)
    }

    /// The same where refusals 1 to 5 are known not to apply.
    fn put_checked(self, lent: &mut Lent, v: usize, x: i16, y: i16, mark: u8) -> Result<(Trace, usize), Refusal> {
        ensure(in_range(x) && in_range(y) && mark <= RESTART, 6)?;
        ensure(v != self.held || self.held < self.capacity, 7)?;
        ensure(v <= self.held, 8)?;
        let after = Trace { held: self.held.max(v + 1), ..self };
        Ok((after, after.place(lent, v, x, y, mark)))
    }

    /// Puts the samples at the end one by one; gives what was done before the refusal, if any, that stopped it.
    fn upload(self, lent: &mut Lent, new: &Lists) -> (Uploaded, Result<(), Refusal>) {
        let mut uploaded = Uploaded { trace: self, added: 0, cells: 0 };
        let stop = uploaded.take(lent, new);
        (uploaded, stop)
    }

    /// The lowest sample that spoils stretch (i, j) at level k, none when it is permitted.
    fn ask(&self, lent: &Lent, i: usize, j: usize, k: usize) -> Result<Option<usize>, Refusal> {
        self.check_samples(lent, true)?;
        ensure(i < j && j < self.held && (1..=self.levels).contains(&k), 8)?;
        let segment = Segment::new(lent, i, j);
        let square = i64::from(self.tolerances[k - 1]).pow(2);
        Ok((i + 1..j).find(|&q| {
            let (apart, unit) = segment.miss(lent.across[q], lent.up[q]);
            lent.marks[q] == RESTART || apart > square * unit
        }))
    }

    /// Writes the ranks of the held samples and gives the count of segments per level.
    fn read(&self, lent: &mut Lent) -> Result<[usize; MOST_LEVELS], Refusal> {
        self.check_table(lent, self.held)?;
        ensure(self.held >= 2, 9)?;
        let Lent { cells, ranks, .. } = lent;
        let ranks = &mut ranks[..self.held];
        ranks.fill(0);
        ranks[0] = self.levels as u8;
        ranks[self.held - 1] = self.levels as u8;
        for k in (1..=self.levels).rev() {
            self.rank_level(self.level(cells, k), k as u8, ranks);
        }
        let mut counts = [0; MOST_LEVELS];
        for (k, count) in counts[..self.levels].iter_mut().enumerate() {
            *count = ranks.iter().filter(|&&rank| usize::from(rank) > k).count() - 1;
        }
        Ok(counts)
    }

    /// Gives rank k to the samples that level k adds between the neighbours of the level above.
    fn rank_level(&self, level: &[u16], k: u8, ranks: &mut [u8]) {
        let mut sums = [0; MOST_SAMPLES];
        let mut from = 0;
        while let Some(gap) = ranks[from + 1..].iter().position(|&rank| rank > 0) {
            let to = from + 1 + gap;
            least_sums(level, self.capacity, from, to, &mut sums);
            // Of equal sums the larger sample number wins, so each step goes as far as it can.
            while from < to {
                let row = &level[from * self.capacity..];
                let next = (from + 1..=to).rev().find(|&q| row[q].saturating_add(sums[q]) == sums[from]);
                from = next.expect("neighbours are always permitted");
                ranks[from] = ranks[from].max(k);
            }
        }
    }

    /// Puts sample v at (x, y) with its mark and writes the cells of all stretches i <= v <= j; gives their number.
    fn place(&self, lent: &mut Lent, v: usize, x: i16, y: i16, mark: u8) -> usize {
        lent.across[v] = x;
        lent.up[v] = y;
        lent.marks[v] = mark;
        (v..self.held).map(|j| self.write_ending(lent, j, j.min(v + 1))).sum()
    }

    /// Writes the cells of the stretches (i, j) with i below `starts`, level 1 first.
    fn write_ending(&self, lent: &mut Lent, j: usize, starts: usize) -> usize {
        let mut finest_of = [0; MOST_SAMPLES];
        for (i, slot) in finest_of[..starts].iter_mut().enumerate() {
            *slot = finest(lent, i, j, &self.tolerances[..self.levels]);
        }
        let mut sums = [0; MOST_SAMPLES];
        for k in 1..=self.levels {
            if k > 1 {
                least_sums(self.level(&lent.cells, k - 1), self.capacity, 0, j, &mut sums);
            }
            let first = (k - 1) * self.capacity * self.capacity + j;
            let column = lent.cells[first..].iter_mut().step_by(self.capacity);
            for ((cell, &finest), &sum) in column.zip(&finest_of[..starts]).zip(&sums) {
                *cell = if finest < k { 1 + sum } else { NEVER };
            }
        }
        self.levels * starts
    }

    /// The cells of level k, row by row.
    fn level<'a>(&self, cells: &'a [u16], k: usize) -> &'a [u16] {
        let size = self.capacity * self.capacity;
        &cells[(k - 1) * size..k * size]
    }

    /// Refusals 1 and 2.
    fn check_setup(&self) -> Result<(), Refusal> {
        let shape = (1..=MOST_LEVELS).contains(&self.levels) && (2..=MOST_SAMPLES).contains(&self.capacity);
        ensure(shape, 1)?;
        let used = &self.tolerances[..self.levels];
        let ranged = used.iter().all(|tolerance| (1..=MOST_TOLERANCE).contains(tolerance));
        ensure(ranged && used.windows(2).all(|pair| pair[0] < pair[1]), 2)
    }

    /// Refusals 1 to 5 of a call that uses the samples; `room` is what it asks of its other buffers.
    fn check_samples(&self, lent: &Lent, room: bool) -> Result<(), Refusal> {
        self.check_setup()?;
        let places = lent.across.len().min(lent.up.len()).min(lent.marks.len());
        ensure(room && places >= self.capacity, 3)?;
        ensure(self.held <= self.capacity, 4)?;
        let mut stored = lent.across[..self.held].iter().chain(&lent.up[..self.held]);
        let mut marks = lent.marks[..self.held].iter();
        ensure(stored.all(|&coordinate| in_range(coordinate)) && marks.all(|&mark| mark <= RESTART), 5)
    }

    /// Refusals 1 to 5 of a call that uses the table and `ranks` bytes of the rank buffer.
    fn check_table(&self, lent: &Lent, ranks: usize) -> Result<(), Refusal> {
        self.check_setup()?;
        let size = self.levels * self.capacity * self.capacity;
        self.check_samples(lent, lent.cells.len() >= size && lent.ranks.len() >= ranks)?;
        ensure((1..=self.levels).all(|k| self.level_fits(self.level(&lent.cells, k), k as u16)), 5)
    }

    /// Whether each cell of a stretch i < j < held of level k has a value that a cost can have.
    fn level_fits(&self, level: &[u16], k: u16) -> bool {
        (0..self.held).all(|i| row_fits(&level[i * self.capacity..][i + 1..self.held], k))
    }
}

/// The same of one row, from the neighbour of its sample on.
fn row_fits(row: &[u16], k: u16) -> bool {
    let Some((&neighbour, farther)) = row.split_first() else { return true };
    let mut most = k;
    let mut fits = neighbour == k;
    for &cell in farther {
        most += k - 1;
        fits &= cell == NEVER || (k <= cell && cell <= most);
    }
    fits
}

/// Sets sums[i], from <= i <= to, to the least sum of a path from i to `to` over the cells of one level.
/// Neighbours are always permitted, so no least sum uses a cell of NEVER.
fn least_sums(level: &[u16], capacity: usize, from: usize, to: usize, sums: &mut [u16; MOST_SAMPLES]) {
    sums[to] = 0;
    for i in (from..to).rev() {
        let row = &level[i * capacity..][i + 1..=to];
        let paths = row.iter().zip(&sums[i + 1..=to]).map(|(&cell, &sum)| cell.saturating_add(sum));
        sums[i] = paths.fold(NEVER, u16::min);
    }
}

/// The closed segment between two samples.
struct Segment {
    ax: i64,
    ay: i64,
    dx: i64,
    dy: i64,
    length: i64,
}

impl Segment {
    fn new(lent: &Lent, i: usize, j: usize) -> Segment {
        let sample = |q: usize| (i64::from(lent.across[q]), i64::from(lent.up[q]));
        let ((ax, ay), (bx, by)) = (sample(i), sample(j));
        let (dx, dy) = (bx - ax, by - ay);
        Segment { ax, ay, dx, dy, length: dx * dx + dy * dy }
    }

    /// The squared distance of a sample, as a fraction.
    fn miss(&self, x: i16, y: i16) -> (i64, i64) {
        let (px, py) = (i64::from(x) - self.ax, i64::from(y) - self.ay);
        let dot = px * self.dx + py * self.dy;
        if dot <= 0 {
            (px * px + py * py, 1)
        } else if dot >= self.length {
            ((px - self.dx).pow(2) + (py - self.dy).pow(2), 1)
        } else {
            ((px * self.dy - py * self.dx).pow(2), self.length)
        }
    }
}

/// How many of the growing tolerances do not permit stretch (i, j): the finest level that does, from 0.
fn finest(lent: &Lent, i: usize, j: usize, tolerances: &[u32]) -> usize {
    let segment = Segment::new(lent, i, j);
    let mut squares = tolerances.iter().map(|&tolerance| i64::from(tolerance).pow(2));
    let mut square = squares.next().unwrap_or(0);
    let mut passed = 0;
    for ((&x, &y), &mark) in lent.across[i + 1..j].iter().zip(&lent.up[i + 1..j]).zip(&lent.marks[i + 1..j]) {
        if mark == RESTART {
            return tolerances.len();
        }
        let (apart, unit) = segment.miss(x, y);
        while apart > square * unit {
            passed += 1;
            let Some(next) = squares.next() else { return passed };
            square = next;
        }
    }
    passed
}

struct Record {
    across: i16,
    up: i16,
    pause: u32,
    rank: u8,
    boot: u16,
    edition: u8,
}

fn decode(bytes: &[u8]) -> Result<Record, Refusal> {
    let bytes: &[u8; RECORD] = bytes.try_into().map_err(|_| 10)?;
    let [x0, x1, y0, y1, p0, p1, p2, p3, rank, b0, b1, edition, spare @ ..] = *bytes;
    let (across, up) = (i16::from_le_bytes([x0, x1]), i16::from_le_bytes([y0, y1]));
    ensure(in_range(across) && in_range(up), 6)?;
    let boot = u16::from_le_bytes([b0, b1]);
    let edition_ok = edition == 1 || edition == 0 && boot == 0;
    ensure(usize::from(rank) <= MOST_LEVELS && edition_ok && spare == [0; 4], 11)?;
    Ok(Record { across, up, pause: u32::from_le_bytes([p0, p1, p2, p3]), rank, boot, edition })
}

fn decode_file(bytes: &[u8]) -> Result<Vec<Record>, Refusal> {
    ensure(bytes.len() % RECORD == 0 && bytes.len() <= MOST_RECORDS * RECORD, 10)?;
    bytes.chunks_exact(RECORD).map(decode).collect()
}

/// Between two of edition 1 a new boot is a restart, else a lower counter.
fn restarted(earlier: &Record, later: &Record) -> bool {
    if earlier.edition == 1 && later.edition == 1 {
        earlier.boot != later.boot
    } else {
        later.pause < earlier.pause
    }
}

/// A restart counts from zero; without one the counter may roll over.
fn increase(earlier: &Record, later: &Record) -> u32 {
    if restarted(earlier, later) { later.pause } else { later.pause.wrapping_sub(earlier.pause) }
}

/// The sum of the increases.
fn pause_line(records: &[Record]) -> u64 {
    records.windows(2).map(|pair| u64::from(increase(&pair[0], &pair[1]))).sum()
}

fn day_text(bytes: &[u8]) -> Result<String, Refusal> {
    const CAPACITY: usize = 104;
    let records = decode_file(bytes)?;
    let mut tolerances = [0; MOST_LEVELS];
    tolerances[..3].copy_from_slice(&[1, 4, 16]);
    let mut trace = Trace::start(3, CAPACITY, tolerances)?;
    let (samples, cells, ranks) = (vec![0; CAPACITY], vec![0; 32_768], vec![0; CAPACITY]);
    let mut lent = Lent { across: samples.clone(), up: samples, cells, marks: ranks.clone(), ranks };
    let mut before = None;
    for (v, record) in records.iter().enumerate() {
        let mark = before.replace(record).is_some_and(|earlier| restarted(earlier, record));
        trace = trace.put(&mut lent, v, record.across, record.up, mark.into())?.0;
    }
    let counts = trace.read(&mut lent)?;
    let mut text = format!("samples {} levels {}\n", trace.held, trace.levels);
    for q in 0..trace.held {
        put(&mut text, format_args!("{q} {} {} {}\n", lent.across[q], lent.up[q], lent.ranks[q]));
    }
    let [c1, c2, c3, ..] = counts;
    put(&mut text, format_args!("segments {} {c1} {c2} {c3}\n", c1 + c2 + c3));
    put(&mut text, format_args!("pause {}\n", pause_line(&records)));
    Ok(text)
}

fn put(text: &mut String, what: std::fmt::Arguments) {
    text.write_fmt(what).expect("a String takes all text");
}

const CRC_TABLE: [u32; 256] = crc_table();

const fn crc_table() -> [u32; 256] {
    let mut table = [0; 256];
    let mut byte = 0;
    while byte < 256 {
        let mut crc = byte as u32;
        let mut bit = 0;
        while bit < 8 {
            crc = if crc & 1 == 1 { crc >> 1 ^ 0xEDB8_8320 } else { crc >> 1 };
            bit += 1;
        }
        table[byte] = crc;
        byte += 1;
    }
    table
}

fn crc_byte(crc: u32, byte: u8) -> u32 {
    crc >> 8 ^ CRC_TABLE[usize::from(crc as u8 ^ byte)]
}

/// CRC-32 of all lent parts, across, up, cells, ranks and marks.
fn crc_of(lent: &Lent) -> u32 {
    let pair = |crc, bytes: [u8; 2]| crc_byte(crc_byte(crc, bytes[0]), bytes[1]);
    let mut crc = lent.across.iter().chain(&lent.up).fold(!0, |crc, sample| pair(crc, sample.to_le_bytes()));
    crc = lent.cells.iter().fold(crc, |crc, cell| pair(crc, cell.to_le_bytes()));
    !lent.ranks.iter().chain(&lent.marks).fold(crc, |crc, &byte| crc_byte(crc, byte))
}

/// What replay keeps from one command to the next.
#[derive(Default)]
struct Replay {
    lent: Lent,
    trace: Trace,
    lists: Lists,
    text: String,
}

/// The number as the type of the argument, if it can hold it.
fn fit<T: TryFrom<i32>>(number: i32) -> Option<T> {
    T::try_from(number).ok()
}

fn fit_tolerances(numbers: &[i32]) -> Option<[u32; MOST_LEVELS]> {
    let mut tolerances = [0; MOST_LEVELS];
    for (tolerance, &number) in tolerances.iter_mut().zip(numbers) {
        *tolerance = fit(number)?;
    }
    Some(tolerances)
}

/// The number of refusal or 0, and the answer or the one that a refused call gives.
fn answer<T: Default>(result: Result<T, Refusal>) -> (Refusal, T) {
    result.map_or_else(|refusal| (refusal, T::default()), |value| (0, value))
}

impl Replay {
    const ROOMS: [usize; 5] = [320, 320, 1_048_576, 320, 320];
    const LIST_ROOM: usize = 320;

    /// Obeys one command; none when it is not a good one.
    fn obey(&mut self, command: &[u8]) -> Option<()> {
        let &[operation, 0, 0, 0, ref rest @ ..] = command else { return None };
        let rest: &[u8; 76] = rest.try_into().ok()?;
        let mut a = [0; 19];
        for (number, bytes) in a.iter_mut().zip(rest.chunks_exact(4)) {
            *number = i32::from_le_bytes(bytes.try_into().ok()?);
        }
        match operation {
            0 => self.lend([fit(a[0])?, fit(a[1])?, fit(a[2])?, fit(a[3])?, fit(a[4])?])?,
            1 => {
                let (levels, capacity, held) = (fit(a[0])?, fit(a[1])?, fit(a[2])?);
                self.trace = Trace { levels, capacity, held, tolerances: fit_tolerances(&a[3..19])? };
            }
            2 => self.poke(a[0], fit(a[1])?, a[2])?,
            3 => self.start(fit(a[0])?, fit(a[1])?, fit_tolerances(&a[2..18])?),
            6 => match self.trace.ask(&self.lent, fit(a[0])?, fit(a[1])?, fit(a[2])?) {
                Ok(None) => put(&mut self.text, format_args!("0 1 -\n")),
                Ok(Some(spoiler)) => put(&mut self.text, format_args!("0 0 {spoiler}\n")),
                Err(refusal) => put(&mut self.text, format_args!("{refusal} - -\n")),
            },
            7 => self.read(),
            8 => self.decode(&rest[..RECORD]),
            9 => self.put(fit(a[0])?, fit(a[1])?, fit(a[2])?, fit(a[3])?),
            10 => self.list(a[0], a[1])?,
            11 => self.lists = Lists::default(),
            12 => self.upload(),
            _ => return None,
        }
        Some(())
    }

    /// Lends buffers of these lengths, filled with the known patterns.
    fn lend(&mut self, lengths: [usize; 5]) -> Option<()> {
        if lengths.iter().zip(Self::ROOMS).any(|(&length, room)| length > room) {
            return None;
        }
        let Lent { across, up, cells, ranks, marks } = &mut self.lent;
        refill(across, lengths[0], |p| (p * 7_919 + 13) as i16);
        refill(up, lengths[1], |p| (p * 104_729 + 29) as i16);
        refill(cells, lengths[2], |p| (p * 40_503 + 7) as u16);
        refill(ranks, lengths[3], |p| (p * 31 + 5) as u8);
        refill(marks, lengths[4], |p| (p * 17 + 2) as u8);
        Some(())
    }

    fn poke(&mut self, which: i32, p: usize, value: i32) -> Option<()> {
        match which {
            0 => *self.lent.across.get_mut(p)? = fit(value)?,
            1 => *self.lent.up.get_mut(p)? = fit(value)?,
            2 => *self.lent.cells.get_mut(p)? = fit(value)?,
            3 => *self.lent.ranks.get_mut(p)? = fit(value)?,
            4 => *self.lent.marks.get_mut(p)? = fit(value)?,
            _ => return None,
        }
        Some(())
    }

    fn start(&mut self, levels: usize, capacity: usize, tolerances: [u32; MOST_LEVELS]) {
        let (refusal, trace) = answer(Trace::start(levels, capacity, tolerances));
        self.trace = trace;
        put(&mut self.text, format_args!("{refusal} {} {} {}", trace.levels, trace.capacity, trace.held));
        for tolerance in trace.tolerances {
            put(&mut self.text, format_args!(" {tolerance}"));
        }
        self.text.push('\n');
    }

    fn put(&mut self, v: usize, x: i16, y: i16, mark: u8) {
        let done = self.trace.put(&mut self.lent, v, x, y, mark);
        let (refusal, (after, cells)) = done.map_or_else(|refusal| (refusal, (self.trace, 0)), |done| (0, done));
        self.trace = after;
        let crc = crc_of(&self.lent);
        put(&mut self.text, format_args!("{refusal} {cells} {} {crc}\n", self.trace.held));
    }

    fn list(&mut self, which: i32, value: i32) -> Option<()> {
        match which {
            0 => append(&mut self.lists.across, value),
            1 => append(&mut self.lists.up, value),
            2 => append(&mut self.lists.marks, value),
            _ => None,
        }
    }

    fn upload(&mut self) {
        let (Uploaded { trace, added, cells }, stop) = self.trace.upload(&mut self.lent, &self.lists);
        self.trace = trace;
        let (refusal, ()) = answer(stop);
        let crc = crc_of(&self.lent);
        put(&mut self.text, format_args!("{refusal} {added} {cells} {} {crc}\n", trace.held));
    }

    fn read(&mut self) {
        let (refusal, counts) = answer(self.trace.read(&mut self.lent));
        put(&mut self.text, format_args!("{refusal} {}", counts.iter().sum::<usize>()));
        for count in counts {
            put(&mut self.text, format_args!(" {count}"));
        }
        put(&mut self.text, format_args!(" {}\n", crc_of(&self.lent)));
    }

    fn decode(&mut self, bytes: &[u8]) {
        let text = &mut self.text;
        match decode(bytes) {
            Ok(Record { across, up, pause, rank, boot, edition }) => {
                put(text, format_args!("0 {across} {up} {pause} {rank} {boot} {edition}\n"))
            }
            Err(refusal) => put(text, format_args!("{refusal} 0 0 0 0 0 0\n")),
        }
    }
}

fn refill<T>(buffer: &mut Vec<T>, length: usize, value: impl Fn(usize) -> T) {
    buffer.clear();
    buffer.extend((0..length).map(value));
}

/// Appends the value if it fits and there is room.
fn append<T: TryFrom<i32>>(list: &mut Vec<T>, value: i32) -> Option<()> {
    let value = fit(value)?;
    (list.len() < Replay::LIST_ROOM).then(|| list.push(value))
}

fn replay_text(commands: &[u8]) -> String {
    let mut replay = Replay::default();
    for command in commands.chunks(80) {
        if replay.obey(command).is_none() {
            replay.text.push_str("?\n");
        }
    }
    replay.text
}

fn main() -> io::Result<()> {
    let job = std::env::args().nth(1);
    let mut input = Vec::new();
    let text = match job.as_deref() {
        Some("dayline") => {
            // One byte more than the longest file tells a longer one.
            io::stdin().take((MOST_RECORDS * RECORD + 1) as u64).read_to_end(&mut input)?;
            day_text(&input).unwrap_or_else(|refusal| format!("refused {refusal}\n"))
        }
        Some("replay") => {
            io::stdin().read_to_end(&mut input)?;
            replay_text(&input)
        }
        _ => {
            eprintln!("usage: plain dayline|replay < input");
            std::process::exit(2);
        }
    };
    io::stdout().write_all(text.as_bytes())
}
