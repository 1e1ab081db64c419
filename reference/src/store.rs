//! The store: its layout in bytes, create, questions 9 to 12, search, put, removal of rows, and
//! what puts an earlier store in order.
//!
//! Used rows come first in their partition, by rising stored key (W-203). The book may have one
//! row more than those of its requests, the floor (W-209).

use std::collections::BTreeMap;

use crate::bytes::{u16_at, u32_at, u64_at, write_at};
use crate::refusal::{ask, Refusal};

pub const MOST_PARTITIONS: usize = 8;
pub const LEAST_ROWS: usize = 5;
pub const MOST_ROWS: usize = 256;
/// Rows of one request in the book: the workflow number and four arguments.
pub const BOOK_ROWS: usize = 5;

const DATA: u64 = 1 << 63;

/// The key of the book's extra row, whose value is the floor. No request's row has it.
pub const FLOOR_KEY: u64 = 1 << 40;

/// What a stored key of a data partition stands for.
#[derive(Clone, Copy, Debug, PartialEq, Eq, PartialOrd, Ord)]
pub enum Key {
    Data(u32),
    Log { id: u32, step: u16 },
}

impl Key {
    pub fn stored(self) -> u64 {
        match self {
            Self::Data(key) => DATA + u64::from(key),
            Self::Log { id, step } => u64::from(id) * 65_536 + u64::from(step),
        }
    }

    /// `None` if the stored key has neither form.
    pub fn of_stored(stored: u64) -> Option<Self> {
        if stored >= DATA {
            return u32::try_from(stored - DATA).ok().map(Self::Data);
        }
        let id = u32::try_from(stored / 65_536).ok()?;
        let step = (stored % 65_536) as u16;
        Some(Self::Log { id, step })
    }
}

pub fn book_key(id: u32, j: u8) -> u64 {
    u64::from(id) * 8 + u64::from(j)
}

/// The id and j of a key of a request in the book, `None` of any other key, the floor's too.
pub fn of_book_key(stored: u64) -> Option<(u32, u8)> {
    let id = u32::try_from(stored / 8).ok()?;
    let j = (stored % 8) as u8;
    (usize::from(j) < BOOK_ROWS).then_some((id, j))
}

/// What the book holds of a request.
#[derive(Clone, Copy, Debug, PartialEq, Eq, Hash)]
pub struct Request {
    pub id: u32,
    pub workflow: u32,
    pub arguments: [u32; 4],
}

/// P and C, and where everything stands.
#[derive(Clone, Copy, Debug, PartialEq, Eq)]
pub struct Shape {
    pub partitions: usize,
    pub rows: usize,
}

impl Shape {
    /// Question 9, put to two numbers as they are.
    pub fn new(partitions: u32, rows: u32) -> Result<Self, Refusal> {
        let (partitions, rows) = (partitions as usize, rows as usize);
        ask(
            9,
            (1..=MOST_PARTITIONS).contains(&partitions) && (LEAST_ROWS..=MOST_ROWS).contains(&rows),
        )?;
        Ok(Self { partitions, rows })
    }

    /// The book's number; the data partitions have the numbers below.
    pub fn book(&self) -> usize {
        self.partitions
    }

    pub fn length(&self) -> usize {
        self.keys_start() + 12 * self.all_rows()
    }

    fn all_rows(&self) -> usize {
        (self.partitions + 1) * self.rows
    }

    fn keys_start(&self) -> usize {
        3 + 2 * (self.partitions + 1)
    }

    pub fn used_at(&self, partition: usize) -> usize {
        3 + 2 * partition
    }

    pub fn key_at(&self, partition: usize, row: usize) -> usize {
        self.keys_start() + 8 * (partition * self.rows + row)
    }

    pub fn value_at(&self, partition: usize, row: usize) -> usize {
        self.keys_start() + 8 * self.all_rows() + 4 * (partition * self.rows + row)
    }
}

/// Create: question 9 to the numbers, 10 to the lent buffer, then a fresh store.
pub fn create(buffer: &mut [u8], partitions: u32, rows: u32) -> Result<(), Refusal> {
    let shape = Shape::new(partitions, rows)?;
    ask(10, buffer.len() == shape.length())?;
    buffer.fill(0);
    buffer[0] = shape.partitions as u8;
    write_at(buffer, 1, &(shape.rows as u16).to_le_bytes());
    Ok(())
}

/// A fresh store in a buffer of its own.
pub fn fresh(partitions: u32, rows: u32) -> Result<Vec<u8>, Refusal> {
    let mut buffer = vec![0; Shape::new(partitions, rows)?.length()];
    create(&mut buffer, partitions, rows)?;
    Ok(buffer)
}

/// The only bytes that a store with these contents has: for each partition, the book last,
/// its stored keys with their values, at most C of them.
pub fn encode(shape: Shape, contents: &[BTreeMap<u64, u32>]) -> Vec<u8> {
    let mut bytes = vec![shape.partitions as u8];
    bytes.extend((shape.rows as u16).to_le_bytes());
    for rows in contents {
        bytes.extend((rows.len() as u16).to_le_bytes());
    }
    for rows in contents {
        bytes.extend(rows.keys().flat_map(|key| key.to_le_bytes()));
        bytes.resize(bytes.len() + 8 * (shape.rows - rows.len()), 0);
    }
    for rows in contents {
        bytes.extend(rows.values().flat_map(|value| value.to_le_bytes()));
        bytes.resize(bytes.len() + 4 * (shape.rows - rows.len()), 0);
    }
    bytes
}

/// A store over lent (or owned) bytes whose layout is right.
#[derive(Clone, Debug)]
pub struct Store<B> {
    bytes: B,
    shape: Shape,
}

impl<B: AsRef<[u8]>> Store<B> {
    /// Questions 9 and 10: only the layout.
    pub fn lay_out(bytes: B) -> Result<Self, Refusal> {
        let lent = bytes.as_ref();
        ask(9, lent.len() >= 3)?;
        let shape = Shape::new(u32::from(lent[0]), u32::from(u16_at(lent, 1)))?;
        ask(10, lent.len() == shape.length())?;
        Ok(Self { bytes, shape })
    }

    /// Questions 9 to 12.
    pub fn read(bytes: B) -> Result<Self, Refusal> {
        let store = Self::lay_out(bytes)?;
        ask(11, store.rows_are_right() && store.is_in_order())?;
        ask(12, store.book_is_whole())?;
        Ok(store)
    }

    /// Questions 9 to 12, of 11 all but the rising keys: what an earlier store passes.
    pub fn read_earlier(bytes: B) -> Result<Self, Refusal> {
        let store = Self::lay_out(bytes)?;
        ask(11, store.rows_are_right())?;
        ask(12, store.book_is_whole())?;
        Ok(store)
    }

    pub fn shape(&self) -> Shape {
        self.shape
    }

    pub fn bytes(&self) -> &[u8] {
        self.bytes.as_ref()
    }

    /// The used count as it stands, which may be above C before question 11.
    pub fn used(&self, partition: usize) -> usize {
        usize::from(u16_at(self.bytes(), self.shape.used_at(partition)))
    }

    pub fn free(&self, partition: usize) -> usize {
        self.shape.rows.saturating_sub(self.used(partition))
    }

    pub fn key(&self, partition: usize, row: usize) -> u64 {
        u64_at(self.bytes(), self.shape.key_at(partition, row))
    }

    pub fn value(&self, partition: usize, row: usize) -> u32 {
        u32_at(self.bytes(), self.shape.value_at(partition, row))
    }

    /// The used rows, at most C of them, as they stand.
    pub fn rows(&self, partition: usize) -> impl Iterator<Item = (u64, u32)> + '_ {
        let used = self.used(partition).min(self.shape.rows);
        (0..used).map(move |row| (self.key(partition, row), self.value(partition, row)))
    }

    /// The used rows by rising key (then value).
    pub fn sorted_rows(&self, partition: usize) -> Vec<(u64, u32)> {
        let mut rows: Vec<_> = self.rows(partition).collect();
        rows.sort_unstable();
        rows
    }

    /// The used keys, rising.
    fn sorted_keys(&self, partition: usize) -> Vec<u64> {
        let mut keys: Vec<u64> = self.rows(partition).map(|(key, _)| key).collect();
        keys.sort_unstable();
        keys
    }

    /// Question 11 but for the rising keys.
    fn rows_are_right(&self) -> bool {
        (0..=self.shape.book()).all(|partition| self.is_right(partition))
    }

    /// The rest of question 11: each used key is greater than the one before it.
    pub fn is_in_order(&self) -> bool {
        (0..=self.shape.book()).all(|partition| self.rises(partition))
    }

    pub fn rises(&self, partition: usize) -> bool {
        let keys: Vec<u64> = self.rows(partition).map(|(key, _)| key).collect();
        keys.windows(2).all(|pair| pair[0] < pair[1])
    }

    /// Question 11 but for the rising keys, for one partition.
    fn is_right(&self, partition: usize) -> bool {
        let used = self.used(partition);
        if used > self.shape.rows {
            return false;
        }
        let keys = self.sorted_keys(partition);
        let has_form = |key: &u64| match partition == self.shape.book() {
            true => of_book_key(*key).is_some() || *key == FLOOR_KEY,
            false => Key::of_stored(*key).is_some(),
        };
        let is_zero = |row| self.key(partition, row) == 0 && self.value(partition, row) == 0;
        keys.iter().all(has_form)
            && keys.windows(2).all(|pair| pair[0] != pair[1])
            && (used..self.shape.rows).all(is_zero)
    }

    /// Question 12: keys of a right book differ, so five rows of an id are all its rows. The
    /// floor's own row is none of a request.
    fn book_is_whole(&self) -> bool {
        let mut keys = self.sorted_keys(self.shape.book());
        keys.retain(|key| *key != FLOOR_KEY);
        let floor = u64::from(self.floor());
        let mut requests = keys.chunk_by(|a, b| a / 8 == b / 8);
        requests.all(|rows| rows.len() == BOOK_ROWS && rows[0] / 8 >= floor)
    }

    /// No id below it is booked any more; 0 where the book has no row for it.
    pub fn floor(&self) -> u32 {
        self.find(self.shape.book(), FLOOR_KEY).unwrap_or(0)
    }

    /// The row of a stored key. Where the partition's keys begin is worked out once, ahead of the search (W-205).
    fn row_of(&self, partition: usize, key: u64) -> Option<usize> {
        let used = self.used(partition).min(self.shape.rows);
        let keys = &self.bytes()[self.shape.key_at(partition, 0)..][..8 * used];
        keys.chunks_exact(8).position(|stored| u64_at(stored, 0) == key)
    }

    /// The value at a stored key.
    pub fn find(&self, partition: usize, key: u64) -> Option<u32> {
        let row = self.row_of(partition, key)?;
        Some(self.value(partition, row))
    }

    /// The request that is booked under an id.
    pub fn request(&self, id: u32) -> Option<Request> {
        let word = |j| self.find(self.shape.book(), book_key(id, j));
        Some(Request {
            id,
            workflow: word(0)?,
            arguments: [word(1)?, word(2)?, word(3)?, word(4)?],
        })
    }

    /// The booked ids, in the order of their first rows.
    pub fn booked_ids(&self) -> Vec<u32> {
        let rows = self.rows(self.shape.book());
        rows.filter_map(|(key, _)| match of_book_key(key) {
            Some((id, 0)) => Some(id),
            _ => None,
        })
        .collect()
    }

    /// The workflow numbers that stand in the book.
    pub fn booked_workflows(&self) -> impl Iterator<Item = u32> + '_ {
        let rows = self.rows(self.shape.book());
        rows.filter_map(|(key, value)| match of_book_key(key) {
            Some((_, 0)) => Some(value),
            _ => None,
        })
    }
}

impl<B: AsRef<[u8]> + AsMut<[u8]>> Store<B> {
    /// Writes a row: over the one with this key, or ahead of the first greater key.
    /// `false` if there is no room for it, and then nothing is changed.
    pub fn put(&mut self, partition: usize, key: u64, value: u32) -> bool {
        if let Some(row) = self.row_of(partition, key) {
            let place = self.shape.value_at(partition, row);
            write_at(self.bytes.as_mut(), place, &value.to_le_bytes());
            return true;
        }
        if self.free(partition) == 0 {
            return false;
        }
        let mut rows: Vec<_> = self.rows(partition).collect();
        let greater = rows.iter().position(|(other, _)| *other > key);
        rows.insert(greater.unwrap_or(rows.len()), (key, value));
        self.write_rows(partition, &rows);
        true
    }

    /// Writes the used rows of a partition, and how many they are.
    fn write_rows(&mut self, partition: usize, rows: &[(u64, u32)]) {
        let shape = self.shape;
        let bytes = self.bytes.as_mut();
        let used = (rows.len() as u16).to_le_bytes();
        write_at(bytes, shape.used_at(partition), &used);
        for (row, (key, value)) in rows.iter().enumerate() {
            write_at(bytes, shape.key_at(partition, row), &key.to_le_bytes());
            write_at(bytes, shape.value_at(partition, row), &value.to_le_bytes());
        }
    }

    /// The same rows of every partition and of the book, by rising key.
    pub fn put_in_order(&mut self) {
        for partition in 0..=self.shape.book() {
            let rows = self.sorted_rows(partition);
            self.write_rows(partition, &rows);
        }
    }

    /// Removes the rows of a partition whose keys `goes` says: later rows move up, and the places
    /// that come free are zero.
    pub fn remove(&mut self, partition: usize, goes: impl Fn(u64) -> bool) {
        let used = self.used(partition);
        let mut rows: Vec<_> = self.rows(partition).collect();
        rows.retain(|(key, _)| !goes(*key));
        let kept = rows.len();
        rows.resize(used, (0, 0));
        self.write_rows(partition, &rows);
        let place = self.shape.used_at(partition);
        write_at(self.bytes.as_mut(), place, &(kept as u16).to_le_bytes());
    }

    /// Books a request; the caller asked for five free rows.
    pub fn book(&mut self, request: &Request) {
        let book = self.shape.book();
        self.put(book, book_key(request.id, 0), request.workflow);
        for (j, argument) in (1..).zip(request.arguments) {
            self.put(book, book_key(request.id, j), argument);
        }
    }
}
