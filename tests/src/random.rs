//! Random numbers from a seed (splitmix64).

use crate::panel::Row;

pub struct Random(u64);

impl Random {
    pub fn new(seed: u64) -> Random {
        Random(seed)
    }

    pub fn word(&mut self) -> u64 {
        self.0 = self.0.wrapping_add(0x9e37_79b9_7f4a_7c15);
        let mut z = self.0;
        z = (z ^ (z >> 30)).wrapping_mul(0xbf58_476d_1ce4_e5b9);
        z = (z ^ (z >> 27)).wrapping_mul(0x94d0_49bb_1331_11eb);
        z ^ (z >> 31)
    }

    /// A number from `low` to `high`, both included.
    pub fn within(&mut self, low: usize, high: usize) -> usize {
        low + (self.word() % (high - low + 1) as u64) as usize
    }

    pub fn node(&mut self, nodes: u16) -> u16 {
        self.within(0, nodes as usize - 1) as u16
    }

    /// True once in `n` times.
    pub fn once_in(&mut self, n: usize) -> bool {
        self.within(1, n) == 1
    }

    pub fn pattern(&mut self, len: usize) -> Vec<u16> {
        (0..len).map(|_| self.word() as u16).collect()
    }

    /// A number of 16 bits with 1 to 5 digits, each count about as often.
    pub fn numeral(&mut self) -> u16 {
        let most = [9, 99, 999, 9_999, 65_535][self.within(0, 4)];
        let edge = self.once_in(8);
        if edge {
            most
        } else {
            self.within(0, most as usize) as u16
        }
    }

    pub fn bytes(&mut self, len: usize) -> Vec<u8> {
        (0..len).map(|_| self.word() as u8).collect()
    }

    pub fn records(&mut self, len: usize) -> Vec<Row> {
        (0..len)
            .map(|_| {
                let word = self.word();
                Row {
                    src: word as u16,
                    dst: (word >> 16) as u16,
                    len: (word >> 32) as u16,
                    due: (word >> 48) as u16,
                }
            })
            .collect()
    }
}
