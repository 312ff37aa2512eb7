//! The rows of a table, found by hashing their numbers.

use std::collections::HashMap;
use std::hash::{BuildHasherDefault, Hasher};

/// Rows found by number; at most `lent` of them, none ever removed.
#[derive(Clone)]
pub struct Table<Row> {
    lent: usize,
    rows: HashMap<u32, Row, BuildHasherDefault<NumberHasher>>,
}

impl<Row> Table<Row> {
    pub fn new(lent: usize) -> Table<Row> {
        Table {
            lent,
            rows: HashMap::with_capacity_and_hasher(lent, Default::default()),
        }
    }

    pub fn has(&self, number: u32) -> bool {
        self.rows.contains_key(&number)
    }

    pub fn is_full(&self) -> bool {
        self.rows.len() == self.lent
    }

    pub fn get(&mut self, number: u32) -> Option<&mut Row> {
        self.rows.get_mut(&number)
    }

    pub fn add(&mut self, number: u32, row: Row) {
        self.rows.insert(number, row);
    }
}

/// Spreads row numbers by one multiplication; enough for tables this small.
#[derive(Default)]
struct NumberHasher(u64);

impl Hasher for NumberHasher {
    fn write(&mut self, bytes: &[u8]) {
        for &byte in bytes {
            self.write_u32(u32::from(byte));
        }
    }

    fn write_u32(&mut self, number: u32) {
        let product = (self.0 ^ u64::from(number)).wrapping_mul(0x9E37_79B9_7F4A_7C15);
        self.0 = product ^ (product >> 32);
    }

    fn finish(&self) -> u64 {
        self.0
    }
}
