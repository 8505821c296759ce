//! The whole program in plain Rust: a job's bytes to the text of its sheet, or a fault.
//!
//! UNVERIFIED. Nothing here is proved, and nothing of the library uses it: it is only a baseline to
//! measure the proved program against. It follows the same rules in the same memory: fixed arrays in
//! one `Desk` that is used again and again, no allocation for a job, and what a bank does not use
//! is zero. Thermographs are built corner by corner.
//!
//!     rustc -O --edition 2021 bench/plain.rs -o /tmp/plain && /tmp/plain < examples/two-regions.job
//!
//! With `--events` it also tells on standard error what the builder of thermographs had to do, and
//! with `--repeat N` how many nanoseconds a run of the job took on the average of N.

use std::io::{Read, Write};

const JOB_LIMIT: usize = 16384;
const PART_LIMIT: usize = 8;
const ROW_LIMIT: usize = 1024;
const CORNER_LIMIT: usize = 1024;
const OPTION_LIMIT: usize = 16;
const TREE_ROWS: usize = 256;
const PICK_LIMIT: usize = 1024;
const HEIGHT_LIMIT: u8 = 12;
const UNIT: i32 = 4096;
const PAGE: usize = 400;

// ---- faults

#[derive(Clone, Copy, PartialEq, Eq, Debug)]
pub struct Fault {
    pub number: u8,
    pub line: u32,
}

impl Fault {
    pub fn layer(&self) -> &'static str {
        match self.number / 10 {
            1 => "text",
            2 => "seat",
            3 => "play",
            4 => "sheet",
            _ => "rules",
        }
    }
}

#[derive(Clone, Copy, PartialEq, Eq, Debug)]
enum Side {
    Left,
    Right,
}

impl Side {
    fn other(self) -> Side {
        match self {
            Side::Left => Side::Right,
            Side::Right => Side::Left,
        }
    }
}

#[derive(Clone, Copy, PartialEq, Eq, Debug)]
enum Turn {
    Ours,
    Theirs,
    Over,
}

// ---- rule sets

/// The four questions of a rule set.
trait Rules {
    fn known(&self, code: u32) -> bool;
    fn score(&self, code: u32) -> Option<i16>;
    fn count(&self, code: u32, side: Side) -> u8;
    fn option(&self, code: u32, side: Side, k: u8) -> Option<u32>;
}

#[derive(Clone, Copy)]
struct TreeRow {
    open: bool,
    score: i16,
    first: u16,
    lefts: u8,
    rights: u8,
}

const BLANK_TREE_ROW: TreeRow = TreeRow {
    open: false,
    score: 0,
    first: 0,
    lefts: 0,
    rights: 0,
};

/// A tree in two buffers: the options of a row are its picks, Left's and then Right's.
struct Trees {
    rows: [TreeRow; TREE_ROWS],
    picks: [u8; PICK_LIMIT],
    row_count: usize,
    pick_count: usize,
}

impl Trees {
    fn clear(&mut self) {
        self.rows[..self.row_count].fill(BLANK_TREE_ROW);
        self.picks[..self.pick_count].fill(0);
        self.row_count = 0;
        self.pick_count = 0;
    }
}

impl Rules for Trees {
    fn known(&self, code: u32) -> bool {
        (code as usize) < self.row_count
    }

    fn score(&self, code: u32) -> Option<i16> {
        let row = self.rows.get(code as usize)?;
        (!row.open).then_some(row.score)
    }

    fn count(&self, code: u32, side: Side) -> u8 {
        match (self.rows.get(code as usize), side) {
            (None, _) => 0,
            (Some(row), Side::Left) => row.lefts,
            (Some(row), Side::Right) => row.rights,
        }
    }

    fn option(&self, code: u32, side: Side, k: u8) -> Option<u32> {
        if k >= self.count(code, side) {
            return None;
        }
        let row = &self.rows[code as usize];
        let from = match side {
            Side::Left => row.first as usize,
            Side::Right => row.first as usize + row.lefts as usize,
        };
        Some(self.picks[from + k as usize] as u32)
    }
}

/// A map: its points and the neighbours of each, as bits.
struct Snort {
    all: u32,
    near: [u32; 12],
}

impl Snort {
    fn beside(&self, mut mask: u32) -> u32 {
        let mut beside = 0;
        while mask != 0 {
            beside |= self.near[mask.trailing_zeros() as usize];
            mask &= mask - 1;
        }
        beside
    }
}

impl Snort {
    /// The masks of both sides, where they may stand on the map.
    fn colours(&self, code: u32) -> Option<(u32, u32)> {
        let (left, right) = (code & 4095, code >> 12);
        if (left | right) & !self.all != 0 || left & (right | self.beside(right)) != 0 {
            return None;
        }
        Some((left, right))
    }

    /// The points that Left and Right may colour.
    fn legal(&self, left: u32, right: u32) -> (u32, u32) {
        let free = self.all & !(left | right);
        (free & !self.beside(right), free & !self.beside(left))
    }

    /// The points that the side may colour in an open position.
    fn moves(&self, code: u32, side: Side) -> u32 {
        let Some((left, right)) = self.colours(code) else {
            return 0;
        };
        match (self.legal(left, right), side) {
            ((0, _) | (_, 0), _) => 0,
            ((left, _), Side::Left) => left,
            ((_, right), Side::Right) => right,
        }
    }
}

impl Rules for Snort {
    fn known(&self, code: u32) -> bool {
        self.colours(code).is_some()
    }

    fn score(&self, code: u32) -> Option<i16> {
        let (left, right) = self.colours(code)?;
        let (left_may, right_may) = self.legal(left, right);
        if left_may != 0 && right_may != 0 {
            return None;
        }
        Some((left | left_may).count_ones() as i16 - (right | right_may).count_ones() as i16)
    }

    fn count(&self, code: u32, side: Side) -> u8 {
        self.moves(code, side).count_ones() as u8
    }

    fn option(&self, code: u32, side: Side, k: u8) -> Option<u32> {
        let mut mask = self.moves(code, side);
        for _ in 0..k {
            mask &= mask.wrapping_sub(1);
        }
        if mask == 0 {
            return None;
        }
        let base = match side {
            Side::Left => 1,
            Side::Right => 4096,
        };
        Some(code + (base << mask.trailing_zeros()))
    }
}

// ---- the bank

/// A row: its shape, its figures in units, and where its corners stand, the left wall's first.
#[derive(Clone, Copy)]
struct Row {
    first: u16,
    lefts: u8,
    rights: u8,
    score: i16,
    corners: u16,
    left_corners: u16,
    right_corners: u16,
    left: i32,
    right: i32,
    mean: i32,
    heat: u32,
}

const BLANK_ROW: Row = Row {
    first: 0,
    lefts: 0,
    rights: 0,
    score: 0,
    corners: 0,
    left_corners: 0,
    right_corners: 0,
    left: 0,
    right: 0,
    mean: 0,
    heat: 0,
};

impl Row {
    fn open(&self) -> bool {
        self.lefts != 0
    }

    fn count(&self, side: Side) -> usize {
        match side {
            Side::Left => self.lefts as usize,
            Side::Right => self.rights as usize,
        }
    }

    /// The row of the side's option k.
    fn option(&self, side: Side, k: usize) -> usize {
        match side {
            Side::Left => self.first as usize + k,
            Side::Right => self.first as usize + self.lefts as usize + k,
        }
    }
}

/// How far a wall with these corners has moved at t.
fn run_to(corners: &[u32], t: u32) -> u32 {
    let mut sloped = corners.len() % 2 == 1;
    let (mut from, mut moved) = (0, 0);
    for &corner in corners {
        if corner >= t {
            break;
        }
        if sloped {
            moved += corner - from;
        }
        sloped = !sloped;
        from = corner;
    }
    if sloped {
        moved + (t - from)
    } else {
        moved
    }
}

/// A wall that the sweep follows, turned so that it rises: its value now, whether it rises, its next
/// corner, and what is left of its strip.
#[derive(Clone, Copy)]
struct Cursor {
    value: i32,
    rises: bool,
    next: u32,
    at: u16,
    end: u16,
}

const NO_CURSOR: Cursor = Cursor {
    value: 0,
    rises: false,
    next: u32::MAX,
    at: 0,
    end: 0,
};

impl Cursor {
    fn new(strip: &[u32], value: i32, start: u16, n: u16) -> Cursor {
        let next = if n > 0 {
            strip[start as usize]
        } else {
            u32::MAX
        };
        Cursor {
            value,
            rises: n % 2 == 1,
            next,
            at: start,
            end: start + n,
        }
    }
}

/// The greatest of some walls: its value now, whether it rises, and until when that holds.
struct Front {
    value: i32,
    rises: bool,
    until: u32,
}

fn front(cursors: &[Cursor], t: u32) -> Front {
    let (mut value, mut rises, mut until) = (i32::MIN, false, u32::MAX);
    for c in cursors {
        if c.value > value {
            value = c.value;
            rises = c.rises;
        } else if c.value == value {
            rises |= c.rises;
        }
        until = until.min(c.next);
    }
    if !rises {
        for c in cursors {
            if c.rises {
                until = until.min(t + (value - c.value) as u32);
            }
        }
    }
    Front {
        value,
        rises,
        until,
    }
}

fn advance(cursors: &mut [Cursor], strip: &[u32], t: u32, to: u32) {
    for c in cursors {
        if c.rises {
            c.value += (to - t) as i32;
        }
        if c.next == to {
            c.rises = !c.rises;
            c.at += 1;
            c.next = if c.at < c.end {
                strip[c.at as usize]
            } else {
                u32::MAX
            };
        }
    }
}

struct Bank {
    parts: [u16; PART_LIMIT],
    part_count: usize,
    rows: [Row; ROW_LIMIT],
    row_count: usize,
    corners: [u32; CORNER_LIMIT],
    corner_count: usize,
    /// Scratch: what rows stand for while a part is spread, their heights and stops while it is
    /// judged, and the options' walls and the right wall's corners while a row is built.
    codes: [u32; ROW_LIMIT],
    notes: [Note; ROW_LIMIT],
    cursors: [Cursor; 2 * OPTION_LIMIT],
    right: [u32; CORNER_LIMIT],
}

#[derive(Clone, Copy)]
struct Note {
    height: u8,
    left: i16,
    right: i16,
}

const NO_NOTE: Note = Note {
    height: 0,
    left: 0,
    right: 0,
};

/// What the builder of thermographs did: its stops on the way up, and the walls it looked at there.
#[derive(Clone, Copy, Default, Debug)]
pub struct Effort {
    pub events: u64,
    pub looks: u64,
}

impl Bank {
    fn clear(&mut self) {
        self.rows[..self.row_count].fill(BLANK_ROW);
        self.corners[..self.corner_count].fill(0);
        self.parts[..self.part_count].fill(0);
        self.part_count = 0;
        self.row_count = 0;
        self.corner_count = 0;
    }

    /// Seats copies of a position in an emptied bank, again and again.
    fn seat_again<R: Rules>(
        &mut self,
        rules: &R,
        copies: u8,
        times: u32,
        effort: &mut Effort,
    ) -> u8 {
        for _ in 0..times {
            self.clear();
            for _ in 0..copies {
                let _ = self.seat(rules, 0, effort);
            }
        }
        self.part_count as u8
    }

    /// Seats the tree of a known code, or gives the number of the first cause against it.
    fn seat<R: Rules>(&mut self, rules: &R, code: u32, effort: &mut Effort) -> Result<(), u8> {
        if self.part_count == PART_LIMIT {
            return Err(21);
        }
        if !rules.known(code) {
            return Err(22);
        }
        let base = self.row_count;
        let end = self.spread(rules, code)?;
        let drawn = self
            .judge(base, end)
            .and_then(|()| self.draw(base, end, effort));
        match drawn {
            Ok(corner_end) => {
                self.parts[self.part_count] = base as u16;
                self.part_count += 1;
                self.row_count = end;
                self.corner_count = corner_end;
                Ok(())
            }
            Err(cause) => {
                self.rows[base..end].fill(BLANK_ROW);
                Err(cause)
            }
        }
    }

    /// Spreads the tree breadth first behind the rows in use, and answers where it ends.
    fn spread<R: Rules>(&mut self, rules: &R, code: u32) -> Result<usize, u8> {
        let base = self.row_count;
        if base == ROW_LIMIT {
            return Err(23);
        }
        self.codes[base] = code;
        let (mut at, mut end) = (base, base + 1);
        while at < end {
            let code = self.codes[at];
            if let Some(score) = rules.score(code) {
                self.rows[at] = Row { score, ..BLANK_ROW };
                at += 1;
                continue;
            }
            let lefts = rules.count(code, Side::Left);
            let rights = rules.count(code, Side::Right);
            if end + lefts as usize + rights as usize > ROW_LIMIT {
                self.rows[base..at].fill(BLANK_ROW);
                return Err(23);
            }
            self.rows[at] = Row {
                first: end as u16,
                lefts,
                rights,
                ..BLANK_ROW
            };
            for (side, count) in [(Side::Left, lefts), (Side::Right, rights)] {
                for k in 0..count {
                    if let Some(option) = rules.option(code, side, k) {
                        self.codes[end] = option;
                        end += 1;
                    }
                }
            }
            at += 1;
        }
        Ok(end)
    }

    /// The height of the tree, then cold positions, from the last row to the first.
    fn judge(&mut self, base: usize, end: usize) -> Result<(), u8> {
        let mut cold = false;
        for at in (base..end).rev() {
            let row = &self.rows[at];
            if !row.open() {
                self.notes[at] = Note {
                    height: 0,
                    left: row.score,
                    right: row.score,
                };
                continue;
            }
            let first = row.first as usize;
            let middle = first + row.lefts as usize;
            let last = middle + row.rights as usize;
            let (mut height, mut left, mut right) = (0, i16::MIN, i16::MAX);
            for note in &self.notes[first..middle] {
                height = height.max(note.height);
                left = left.max(note.right);
            }
            for note in &self.notes[middle..last] {
                height = height.max(note.height);
                right = right.min(note.left);
            }
            cold |= left < right;
            self.notes[at] = Note {
                height: height.saturating_add(1),
                left,
                right,
            };
        }
        if self.notes[base].height > HEIGHT_LIMIT {
            Err(24)
        } else if cold {
            Err(25)
        } else {
            Ok(())
        }
    }

    /// The thermographs of all rows from the last to the first; answers where the corners end.
    fn draw(&mut self, base: usize, end: usize, effort: &mut Effort) -> Result<usize, u8> {
        let mut used = self.corner_count;
        for at in (base..end).rev() {
            if self.rows[at].open() {
                match self.build(at, used, effort) {
                    Some(n) => used += n,
                    None => {
                        self.corners[self.corner_count..].fill(0);
                        return Err(26);
                    }
                }
            } else {
                let row = &mut self.rows[at];
                let value = UNIT * row.score as i32;
                (row.left, row.right, row.mean) = (value, value, value);
            }
        }
        Ok(used)
    }

    /// Both walls of an open row, their corners written from `used` on; answers their number, or none
    /// where they are more than are free. The sweep goes from event to event: a corner of an option's
    /// wall, an option that catches up with the best, or the meeting of the scaffolds.
    fn build(&mut self, at: usize, used: usize, effort: &mut Effort) -> Option<usize> {
        let Bank {
            rows,
            corners,
            cursors,
            right: rights_strip,
            ..
        } = self;
        let row = rows[at];
        let (n, m) = (row.lefts as usize, row.rights as usize);
        let first = row.first as usize;
        for (cursor, option) in cursors.iter_mut().zip(&rows[first..first + n]) {
            let start = option.corners + option.left_corners;
            *cursor = Cursor::new(corners, option.right, start, option.right_corners);
        }
        for (cursor, option) in cursors[n..].iter_mut().zip(&rows[first + n..first + n + m]) {
            *cursor = Cursor::new(corners, -option.left, option.corners, option.left_corners);
        }
        let (lefts, rights) = cursors[..n + m].split_at_mut(n);
        let room = CORNER_LIMIT - used;
        let (mut left_n, mut right_n) = (0, 0);
        let mut t = 0;
        let (mut left_fell, mut right_fell) = (false, false);
        let (mut left, mut right) = (0, 0);
        loop {
            let l = front(lefts, t);
            let r = front(rights, t);
            effort.events += 1;
            effort.looks += (n + m) as u64;
            // how far apart the scaffolds are
            let gap = l.value + r.value - 2 * t as i32;
            let (left_falls, right_falls) = (gap > 0 && !l.rises, gap > 0 && !r.rises);
            if t == 0 {
                (left, right) = (l.value, -r.value);
            } else {
                let turns =
                    (left_falls != left_fell) as usize + (right_falls != right_fell) as usize;
                if left_n + right_n + turns > room {
                    return None;
                }
                if left_falls != left_fell {
                    corners[used + left_n] = t;
                    left_n += 1;
                }
                if right_falls != right_fell {
                    rights_strip[right_n] = t;
                    right_n += 1;
                }
            }
            if gap <= 0 {
                corners[used + left_n..used + left_n + right_n]
                    .copy_from_slice(&rights_strip[..right_n]);
                rows[at] = Row {
                    corners: used as u16,
                    left_corners: left_n as u16,
                    right_corners: right_n as u16,
                    left,
                    right,
                    mean: l.value - t as i32,
                    heat: t,
                    ..row
                };
                return Some(left_n + right_n);
            }
            (left_fell, right_fell) = (left_falls, right_falls);
            let mut to = l.until.min(r.until);
            match left_falls as u32 + right_falls as u32 {
                0 => {}
                speed => to = to.min(t + (gap as u32).div_ceil(speed)),
            }
            advance(lefts, corners, t, to);
            advance(rights, corners, t, to);
            t = to;
        }
    }

    fn left_at(&self, row: &Row, t: u32) -> i32 {
        let start = row.corners as usize;
        row.left - run_to(&self.corners[start..start + row.left_corners as usize], t) as i32
    }

    fn right_at(&self, row: &Row, t: u32) -> i32 {
        let start = row.corners as usize + row.left_corners as usize;
        row.right + run_to(&self.corners[start..start + row.right_corners as usize], t) as i32
    }

    fn near(&self, side: Side, row: &Row, t: u32) -> i32 {
        match side {
            Side::Left => self.right_at(row, t),
            Side::Right => -self.left_at(row, t),
        }
    }

    fn far(&self, side: Side, row: &Row, t: u32) -> i32 {
        match side {
            Side::Left => self.left_at(row, t),
            Side::Right => -self.right_at(row, t),
        }
    }
}

// ---- the game

struct Game {
    side: Side,
    turn: Turn,
    ambient: u32,
    pending: Option<u8>,
    present: [u16; PART_LIMIT],
    /// The open part of greatest temperature, the lowest number among equals.
    hottest: Option<(u8, u32)>,
}

impl Game {
    fn open(bank: &Bank, side: Side, first: Turn) -> Game {
        let mut game = Game {
            side,
            turn: first,
            ambient: 0,
            pending: None,
            present: bank.parts,
            hottest: None,
        };
        game.find_hottest(bank);
        match game.hottest {
            Some((_, heat)) => game.ambient = heat,
            None => game.turn = Turn::Over,
        }
        game
    }

    fn find_hottest(&mut self, bank: &Bank) {
        self.hottest = None;
        for part in 0..bank.part_count {
            let row = &bank.rows[self.present[part] as usize];
            if row.open() && self.hottest.is_none_or(|(_, heat)| heat < row.heat) {
                self.hottest = Some((part as u8, row.heat));
            }
        }
    }

    /// A move by whoever is to move, or the number of its refusal.
    fn play(&mut self, bank: &Bank, part: u8, option: u8) -> Result<(), u8> {
        let mover = match self.turn {
            Turn::Over => return Err(32),
            Turn::Ours => self.side,
            Turn::Theirs => self.side.other(),
        };
        if part as usize >= bank.part_count {
            return Err(33);
        }
        let row = &bank.rows[self.present[part as usize] as usize];
        if !row.open() {
            return Err(34);
        }
        if option as usize >= row.count(mover) {
            return Err(35);
        }
        let to = row.option(mover, option as usize);
        self.present[part as usize] = to as u16;
        self.find_hottest(bank);
        self.pending = None;
        if self.turn == Turn::Theirs {
            let row = &bank.rows[to];
            if row.open() && row.heat > self.ambient {
                self.pending = Some(part);
            } else if let Some((_, heat)) = self.hottest {
                self.ambient = self.ambient.min(heat);
            }
        }
        self.turn = match (self.hottest, self.turn) {
            (None, _) => Turn::Over,
            (_, Turn::Ours) => Turn::Theirs,
            _ => Turn::Ours,
        };
        Ok(())
    }

    fn advice(&self, bank: &Bank) -> Option<(u8, u8)> {
        if self.turn != Turn::Ours {
            return None;
        }
        let part = self.pending.or(self.hottest.map(|(part, _)| part))?;
        let row = &bank.rows[self.present[part as usize] as usize];
        let mut best = (0, i32::MIN);
        for k in 0..row.count(self.side) {
            let near = bank.near(
                self.side,
                &bank.rows[row.option(self.side, k)],
                self.ambient,
            );
            if near > best.1 {
                best = (k as u8, near);
            }
        }
        Some((part, best.0))
    }

    fn floor(&self, bank: &Bank) -> i64 {
        let mut sum = 0;
        for part in 0..bank.part_count {
            let row = &bank.rows[self.present[part] as usize];
            let wall = if self.turn == Turn::Ours && self.pending == Some(part as u8) {
                bank.far(self.side, row, self.ambient)
            } else {
                bank.near(self.side, row, self.ambient)
            };
            sum += wall as i64;
        }
        if self.turn == Turn::Theirs {
            sum - self.ambient as i64
        } else {
            sum
        }
    }

    fn bracket(&self, bank: &Bank) -> (i64, i64) {
        let mut mean = 0;
        for part in 0..bank.part_count {
            mean += bank.rows[self.present[part] as usize].mean as i64;
        }
        let heat = self.hottest.map_or(0, |(_, heat)| heat as i64);
        let mover = match self.turn {
            Turn::Over => return (mean, mean),
            Turn::Ours => self.side,
            Turn::Theirs => self.side.other(),
        };
        match mover {
            Side::Left => (mean, mean + heat),
            Side::Right => (mean - heat, mean),
        }
    }
}

// ---- text

fn natural(text: &[u8]) -> Option<u32> {
    match text {
        [] => None,
        [b'0'] => Some(0),
        [b'0', ..] => None,
        _ => {
            let mut n: u32 = 0;
            for &b in text {
                if !b.is_ascii_digit() {
                    return None;
                }
                n = n.saturating_mul(10).saturating_add((b - b'0') as u32);
            }
            Some(n)
        }
    }
}

fn integer(text: &[u8]) -> Option<i64> {
    match text {
        [b'-', rest @ ..] => match natural(rest)? {
            0 => None,
            n => Some(-(n as i64)),
        },
        _ => natural(text).map(|n| n as i64),
    }
}

fn upto(text: &[u8], most: u32) -> Option<u32> {
    natural(text).filter(|&n| n <= most)
}

/// Of two texts of numbers, whether the first says less.
fn less(a: &[u8], b: &[u8]) -> bool {
    (a.len(), a) < (b.len(), b)
}

struct Reader<'a> {
    job: &'a [u8],
    at: usize,
    line: u32,
}

impl<'a> Reader<'a> {
    fn fault<T>(&self, number: u8) -> Result<T, Fault> {
        Err(Fault {
            number,
            line: self.line,
        })
    }

    /// Begins the next line: what stands before its byte 10.
    fn begin(&mut self) -> Result<&'a [u8], Fault> {
        self.line += 1;
        let rest = &self.job[self.at..];
        match rest.iter().position(|&b| b == b'\n') {
            Some(n) => {
                self.at += n + 1;
                Ok(&rest[..n])
            }
            None => self.fault(11),
        }
    }

    fn value(&mut self, key: &[u8]) -> Result<&'a [u8], Fault> {
        let line = self.begin()?;
        match line.strip_prefix(key) {
            Some(value) => Ok(value),
            None => self.fault(11),
        }
    }

    fn upto(&mut self, key: &[u8], most: u32) -> Result<u32, Fault> {
        let value = self.value(key)?;
        upto(value, most).map_or(self.fault(12), Ok)
    }
}

/// Options of a row of a tree, behind the picks in use.
fn read_picks(
    reader: &Reader,
    value: &[u8],
    trees: &mut Trees,
    own: usize,
    rows: usize,
) -> Result<u8, Fault> {
    let mut entries = [0; OPTION_LIMIT];
    let mut n = 0;
    let mut above = true;
    for entry in value.split(|&b| b == b',') {
        match upto(entry, rows as u32 - 1) {
            Some(row) if n < OPTION_LIMIT => {
                above &= row as usize > own;
                entries[n] = row as u8;
                n += 1;
            }
            _ => return reader.fault(12),
        }
    }
    if !above {
        return reader.fault(13);
    }
    if trees.pick_count + n > PICK_LIMIT {
        return reader.fault(15);
    }
    trees.picks[trees.pick_count..trees.pick_count + n].copy_from_slice(&entries[..n]);
    trees.pick_count += n;
    Ok(n as u8)
}

fn read_tree(reader: &mut Reader, trees: &mut Trees) -> Result<(), Fault> {
    let rows = match natural(reader.value(b"rows=")?) {
        Some(n @ 1..=256) => n as usize,
        _ => return reader.fault(12),
    };
    trees.row_count = rows;
    for own in 0..rows {
        let line = reader.begin()?;
        trees.rows[own] = if let Some(value) = line.strip_prefix(b"end=") {
            match integer(value) {
                Some(score @ -1000..=1000) => TreeRow {
                    score: score as i16,
                    ..BLANK_TREE_ROW
                },
                _ => return reader.fault(12),
            }
        } else if let Some(value) = line.strip_prefix(b"left=") {
            let first = trees.pick_count as u16;
            let lefts = read_picks(reader, value, trees, own, rows)?;
            let value = reader.value(b"right=")?;
            let rights = read_picks(reader, value, trees, own, rows)?;
            TreeRow {
                open: true,
                score: 0,
                first,
                lefts,
                rights,
            }
        } else {
            return reader.fault(11);
        };
    }
    Ok(())
}

fn read_map(reader: &mut Reader) -> Result<Snort, Fault> {
    let points = match integer(reader.value(b"points=")?) {
        Some(n @ 1..=12) => n as u32,
        Some(_) => return reader.fault(51),
        None => return reader.fault(12),
    };
    let mut map = Snort {
        all: (1 << points) - 1,
        near: [0; 12],
    };
    let value = reader.value(b"edges=")?;
    if value == b"none" {
        return Ok(map);
    }
    let mut sound = true;
    let mut last: Option<(&[u8], &[u8])> = None;
    for edge in value.split(|&b| b == b',') {
        let Some(dash) = edge.iter().position(|&b| b == b'-') else {
            return reader.fault(12);
        };
        let (a, b) = (&edge[..dash], &edge[dash + 1..]);
        let (Some(from), Some(to)) = (natural(a), natural(b)) else {
            return reader.fault(12);
        };
        let rising = last.is_none_or(|(c, d)| less(c, a) || (c == a && less(d, b)));
        if less(b, a) || !rising {
            return reader.fault(12);
        }
        last = Some((a, b));
        if to < points && from != to {
            map.near[from as usize] |= 1 << to;
            map.near[to as usize] |= 1 << from;
        } else {
            sound = false;
        }
    }
    if sound {
        Ok(map)
    } else {
        reader.fault(52)
    }
}

fn read_move(value: &[u8]) -> Option<(u8, u8)> {
    let comma = value.iter().position(|&b| b == b',')?;
    let part = upto(&value[..comma], 7)?;
    let option = upto(&value[comma + 1..], 15)?;
    Some((part as u8, option as u8))
}

// ---- the sheet

struct Page {
    bytes: [u8; PAGE],
    used: usize,
}

impl Page {
    fn put(&mut self, text: &[u8]) {
        self.bytes[self.used..self.used + text.len()].copy_from_slice(text);
        self.used += text.len();
    }

    fn number(&mut self, n: i64) {
        let mut digits = [0; 20];
        let mut at = digits.len();
        let mut left = n.unsigned_abs();
        loop {
            at -= 1;
            digits[at] = b'0' + (left % 10) as u8;
            left /= 10;
            if left == 0 {
                break;
            }
        }
        if n < 0 {
            at -= 1;
            digits[at] = b'-';
        }
        self.put(&digits[at..]);
    }

    fn line(&mut self, key: &[u8], n: i64) {
        self.put(key);
        self.number(n);
        self.put(b"\n");
    }

    fn sheet(&mut self, bank: &Bank, game: &Game) {
        self.used = 0;
        self.put(b"sheet=1\n");
        self.put(if game.side == Side::Left {
            b"side=left\n"
        } else {
            b"side=right\n"
        });
        self.put(match game.turn {
            Turn::Ours => b"turn=ours\n",
            Turn::Theirs => b"turn=theirs\n",
            Turn::Over => b"turn=over\n",
        });
        self.line(b"parts=", bank.part_count as i64);
        for part in 0..bank.part_count {
            let row = &bank.rows[game.present[part] as usize];
            self.line(b"part=", part as i64);
            self.line(b"mean=", row.mean as i64);
            if row.open() {
                self.line(b"heat=", row.heat as i64);
            } else {
                self.put(b"heat=ended\n");
            }
        }
        self.line(b"ambient=", game.ambient as i64);
        self.line(b"floor=", game.floor(bank));
        let (low, high) = game.bracket(bank);
        self.line(b"low=", low);
        self.line(b"high=", high);
        match game.advice(bank) {
            Some((part, option)) => {
                self.put(b"advice=");
                self.number(part as i64);
                self.put(b",");
                self.number(option as i64);
                self.put(b"\n");
            }
            None => self.put(b"advice=none\n"),
        }
    }
}

// ---- the run of a job

/// All that jobs need, to be used again and again.
pub struct Desk {
    bank: Bank,
    trees: Trees,
    page: Page,
    pub effort: Effort,
}

impl Desk {
    pub fn new() -> Desk {
        Desk {
            bank: Bank {
                parts: [0; PART_LIMIT],
                part_count: 0,
                rows: [BLANK_ROW; ROW_LIMIT],
                row_count: 0,
                corners: [0; CORNER_LIMIT],
                corner_count: 0,
                codes: [0; ROW_LIMIT],
                notes: [NO_NOTE; ROW_LIMIT],
                cursors: [NO_CURSOR; 2 * OPTION_LIMIT],
                right: [0; CORNER_LIMIT],
            },
            trees: Trees {
                rows: [BLANK_TREE_ROW; TREE_ROWS],
                picks: [0; PICK_LIMIT],
                row_count: 0,
                pick_count: 0,
            },
            page: Page {
                bytes: [0; PAGE],
                used: 0,
            },
            effort: Effort::default(),
        }
    }

    /// The rows and corners of the bank in use.
    pub fn used(&self) -> (usize, usize) {
        (self.bank.row_count, self.bank.corner_count)
    }

    /// Runs a job and writes its sheet at the start of `out`; answers the sheet's length. A refused
    /// job leaves `out` untouched and the bank empty.
    pub fn run(&mut self, job: &[u8], out: &mut [u8]) -> Result<usize, Fault> {
        self.effort = Effort::default();
        self.bank.clear();
        let ran = self.read(job, out);
        self.trees.clear();
        if ran.is_err() {
            self.bank.clear();
        }
        ran
    }

    fn read(&mut self, job: &[u8], out: &mut [u8]) -> Result<usize, Fault> {
        if job.len() > JOB_LIMIT {
            return Err(Fault {
                number: 10,
                line: 0,
            });
        }
        let mut reader = Reader {
            job,
            at: 0,
            line: 0,
        };
        let side = match reader.value(b"side=")? {
            b"left" => Side::Left,
            b"right" => Side::Right,
            _ => return reader.fault(12),
        };
        let first = match reader.value(b"first=")? {
            b"ours" => Turn::Ours,
            b"theirs" => Turn::Theirs,
            _ => return reader.fault(12),
        };
        for _ in 0..reader.upto(b"parts=", 8)? {
            self.read_part(&mut reader)?;
        }
        let moves = reader.upto(b"moves=", 96)?;
        let mut game = Game::open(&self.bank, side, first);
        for _ in 0..moves {
            let Some((part, option)) = read_move(reader.value(b"move=")?) else {
                return reader.fault(12);
            };
            if let Err(number) = game.play(&self.bank, part, option) {
                return reader.fault(number);
            }
        }
        if reader.at < job.len() {
            return reader.fault(14);
        }
        self.page.sheet(&self.bank, &game);
        let text = &self.page.bytes[..self.page.used];
        match out.get_mut(..text.len()) {
            Some(start) => {
                start.copy_from_slice(text);
                Ok(text.len())
            }
            None => Err(Fault {
                number: 41,
                line: 0,
            }),
        }
    }

    /// Reads a part once, and seats copies of it in an emptied bank so many times; answers how many
    /// parts the bank has then, 0 for a text that is refused.
    pub fn seat_many(&mut self, part: &[u8], copies: u8, times: u32) -> u8 {
        let mut reader = Reader {
            job: part,
            at: 0,
            line: 0,
        };
        self.effort = Effort::default();
        self.trees.clear();
        let Desk {
            bank,
            trees,
            effort,
            ..
        } = self;
        match reader.value(b"rules=") {
            Ok(b"tree") if read_tree(&mut reader, trees).is_ok() => {
                bank.seat_again(trees, copies, times, effort)
            }
            Ok(b"snort") => match read_map(&mut reader) {
                Ok(map) => bank.seat_again(&map, copies, times, effort),
                Err(_) => 0,
            },
            _ => 0,
        }
    }

    fn read_part(&mut self, reader: &mut Reader) -> Result<(), Fault> {
        let seated = match reader.value(b"rules=")? {
            b"tree" => {
                self.trees.clear();
                read_tree(reader, &mut self.trees)?;
                self.bank.seat(&self.trees, 0, &mut self.effort)
            }
            b"snort" => {
                let map = read_map(reader)?;
                self.bank.seat(&map, 0, &mut self.effort)
            }
            _ => return reader.fault(12),
        };
        seated.map_or_else(|cause| reader.fault(cause), Ok)
    }
}

impl Default for Desk {
    fn default() -> Desk {
        Desk::new()
    }
}

fn main() {
    let mut job = Vec::with_capacity(JOB_LIMIT + 1);
    std::io::stdin()
        .take(JOB_LIMIT as u64 + 1)
        .read_to_end(&mut job)
        .expect("standard input");
    let mut desk = Desk::new();
    let mut out = [0; PAGE];
    let ran = desk.run(&job, &mut out);
    let mut stdout = std::io::stdout();
    match ran {
        Ok(n) => stdout.write_all(&out[..n]),
        Err(fault) => write!(
            stdout,
            "fault={}\nlayer={}\nline={}\n",
            fault.number,
            fault.layer(),
            fault.line
        ),
    }
    .expect("standard output");
    let words: Vec<String> = std::env::args().collect();
    if words.iter().any(|word| word == "--events") {
        let (rows, corners) = desk.used();
        let Effort { events, looks } = desk.effort;
        eprintln!("rows={rows}\ncorners={corners}\nevents={events}\nlooks={looks}");
    }
    if let Some(at) = words.iter().position(|word| word == "--repeat") {
        let times: u32 = words
            .get(at + 1)
            .and_then(|n| n.parse().ok())
            .unwrap_or(1)
            .max(1);
        let start = std::time::Instant::now();
        for _ in 0..times {
            let _ = std::hint::black_box(desk.run(std::hint::black_box(&job), &mut out));
        }
        eprintln!("nanoseconds={}", start.elapsed().as_nanos() / times as u128);
    }
    std::process::exit(ran.is_err() as i32);
}
