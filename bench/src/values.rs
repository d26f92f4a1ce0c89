//! Values of mixed lengths, the same in each run.
use bit_vec::BitVec;
use chrono::{DateTime, Utc};
use std::collections::{BTreeMap, HashMap};

/// Numbers by xorshift.
pub struct Numbers(u64);

impl Numbers {
    pub fn new(seed: u64) -> Numbers {
        let mut numbers = Numbers(88_172_645_463_325_252 ^ seed << 32);
        for _ in 0..9 {
            numbers.next();
        }
        numbers
    }

    pub fn next(&mut self) -> u64 {
        self.0 ^= self.0 << 13;
        self.0 ^= self.0 >> 7;
        self.0 ^= self.0 << 17;
        self.0
    }

    pub fn below(&mut self, limit: u64) -> u64 {
        (self.next() >> 11) % limit
    }

    /// No to 23 small letters: 11.5 in the middle.
    pub fn text(&mut self) -> String {
        (0..self.below(24)).map(|_| char::from(b'a' + self.below(26) as u8)).collect()
    }

    /// A moment of the years 1970 to 2069; a quarter has no part of a second.
    pub fn moment(&mut self) -> DateTime<Utc> {
        let micros = if self.below(4) == 0 { 0 } else { self.below(1_000_000) as u32 };
        let seconds = self.below(100 * 365 * 86_400) as i64;
        DateTime::<Utc>::from(std::time::UNIX_EPOCH) + chrono::Duration::seconds(seconds) + chrono::Duration::microseconds(micros.into())
    }

    pub fn octets(&mut self) -> Vec<u8> {
        (0..self.below(24)).map(|_| self.next() as u8).collect()
    }

    pub fn bits(&mut self) -> BitVec {
        (0..self.below(64)).map(|_| self.below(2) == 1).collect()
    }

    /// Five pairs; a sixth of the values is null.
    pub fn map(&mut self) -> HashMap<String, Option<String>> {
        let mut map = BTreeMap::new();
        while map.len() < 5 {
            let value = if self.below(6) == 0 { None } else { Some(self.text()) };
            map.insert(self.text(), value);
        }
        map.into_iter().collect()
    }
}

/// So many values of one kind.
pub fn many<T>(count: usize, seed: u64, mut make: impl FnMut(&mut Numbers) -> T) -> Vec<T> {
    let mut numbers = Numbers::new(seed);
    (0..count).map(|_| make(&mut numbers)).collect()
}

pub fn in_lists<T: Clone>(values: &[T], per: usize) -> Vec<Vec<T>> {
    values.chunks(per).map(<[T]>::to_vec).collect()
}
