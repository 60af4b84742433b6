//! Random numbers for made filings and books: always the same for a seed.

use std::ops::Range;

/// A small random generator: a counter whose values are scrambled.
pub struct Random {
    state: u64,
}

impl Random {
    /// The generator with that number among those of a seed.
    pub fn new(seed: u64, number: u64) -> Random {
        let scrambled = Random { state: seed }.any();
        let state = Random {
            state: scrambled.wrapping_add(number),
        }
        .any();
        Random { state }
    }

    /// Any number of 64 bits.
    pub fn any(&mut self) -> u64 {
        self.state = self.state.wrapping_add(0x9e37_79b9_7f4a_7c15);
        let mut number = self.state;
        number = (number ^ (number >> 30)).wrapping_mul(0xbf58_476d_1ce4_e5b9);
        number = (number ^ (number >> 27)).wrapping_mul(0x94d0_49bb_1331_11eb);
        number ^ (number >> 31)
    }

    /// From 0 to `most`.
    pub fn up_to(&mut self, most: u64) -> u64 {
        (u128::from(self.any()) % (u128::from(most) + 1)) as u64
    }

    /// From `least` to `most`.
    pub fn between(&mut self, least: i64, most: i64) -> i64 {
        least + self.up_to((most - least) as u64) as i64
    }

    /// True once in so many times.
    pub fn one_in(&mut self, times: u64) -> bool {
        self.up_to(times - 1) == 0
    }

    /// True in so many of a hundred cases.
    pub fn percent(&mut self, cases: u64) -> bool {
        self.up_to(99) < cases
    }

    /// A number of any length up to that many bits, as often short as long.
    pub fn of_bits(&mut self, most: u64) -> u64 {
        let bits = self.up_to(most);
        self.up_to(1 << bits)
    }

    pub fn byte(&mut self) -> u8 {
        self.up_to(255) as u8
    }

    /// A place in a list of that length.
    pub fn place(&mut self, length: usize) -> usize {
        self.up_to(length as u64 - 1) as usize
    }

    /// One of the numbers of a range.
    pub fn within(&mut self, range: Range<usize>) -> usize {
        range.start + self.place(range.len())
    }

    pub fn pick<T: Copy>(&mut self, list: &[T]) -> T {
        list[self.place(list.len())]
    }

    /// From `least` to `most`, often one of these two.
    pub fn edge(&mut self, least: u64, most: u64) -> u64 {
        match self.up_to(3) {
            0 | 1 => least,
            2 => most,
            _ => least + self.up_to(most - least),
        }
    }

    pub fn shuffle<T>(&mut self, list: &mut [T]) {
        for place in (1..list.len()).rev() {
            list.swap(place, self.place(place + 1));
        }
    }
}
