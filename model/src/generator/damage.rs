//! Filings with damaged bytes: cut, changed, added. They get 1, 2 and 3 above all.

use super::draft::Draft;
use crate::filing::content_length;
use crate::random::Random;

/// The bytes of a sound filing, and what is damaged of them.
struct Damage {
    random: Random,
    bytes: Vec<u8>,
    /// The offset of one tag.
    tag: usize,
    /// The right length for that tag.
    right: usize,
    unknown: u8,
}

impl Draft {
    /// The bytes of a sound filing, damaged in one way.
    pub fn damaged(mut self) -> Vec<u8> {
        let plan = self.small_plan();
        self.make(&plan);
        let mut random = self.random;
        let tag = random.pick(&self.tags);
        let right = content_length(self.bytes[tag]).expect("a tag of a sound filing");
        let above_7 = 8 + random.place(248) as u8;
        let unknown = random.pick(&[0, 8, 99, 255, above_7, above_7]);
        let mut damage = Damage {
            random,
            bytes: self.bytes,
            tag,
            right,
            unknown,
        };
        damage.once();
        damage.bytes
    }
}

impl Damage {
    fn once(&mut self) {
        match self.random.up_to(13) {
            0 => self.bytes.truncate(self.random.place(self.bytes.len() + 1)),
            // Within a field: any part of it is left.
            1 => {
                let left = 1 + self.random.place(self.right + 2);
                self.bytes.truncate(self.tag + left);
            }
            2 => self.bytes.truncate(self.tag + 1 + self.random.place(2)),
            3 | 4 => self.flip_bits(),
            5 => {
                let place = self.random.place(self.bytes.len());
                self.bytes[place] = self.random.byte();
            }
            6 => self.other_length(),
            7 => self.other_length_that_fits(),
            8 | 9 => self.insert_unknown(),
            10 => self.cut_unknown(),
            11 => self.bytes[self.tag] = self.random.pick(&[self.unknown, 1, 2, 3, 4, 5, 6, 7]),
            12 => self.remove_or_insert(),
            _ => self.random_rest(),
        }
    }

    fn flip_bits(&mut self) {
        for _ in 0..1 + self.random.up_to(2) {
            self.flip_bit();
        }
    }

    fn flip_bit(&mut self) {
        let place = self.random.place(self.bytes.len());
        self.bytes[place] ^= 1 << self.random.up_to(7);
    }

    /// Another length before the same content.
    fn other_length(&mut self) {
        let length = match self.random.up_to(4) {
            0 => self.right - 1,
            1 => self.right + 1,
            2 => self.random.pick(&[0, 255, 256, 65_535]),
            3 => 256 * self.right,
            _ => self.random.place(65_536),
        };
        self.put_length(self.tag, length);
    }

    /// A wrong length that fits its content, so that the next tag is met.
    fn other_length_that_fits(&mut self) {
        let length = match self.random.up_to(3) {
            0 => self.right - 1,
            1 => self.right + 1,
            2 => self.right + 256,
            _ => self.random.place(300),
        };
        let rest = self.bytes.split_off(self.tag + 3 + self.right);
        self.bytes.resize(self.tag + 3 + length, 0);
        self.put_length(self.tag, length);
        self.bytes.extend(rest);
    }

    /// An unknown tag before a known one, its length right or too long.
    fn insert_unknown(&mut self) {
        let length = self.random.place(6);
        let present = if self.random.one_in(3) { 0 } else { length };
        let mut field = vec![self.unknown, 0, length as u8];
        field.resize(3 + present, 0);
        let rest = self.bytes.split_off(self.tag);
        self.bytes.extend(field);
        self.bytes.extend(rest);
    }

    /// Cut within a field with an unknown tag.
    fn cut_unknown(&mut self) {
        self.bytes.truncate(self.tag);
        let left = self.random.place(3);
        let after = [(); 3].map(|()| self.random.byte());
        self.bytes.push(self.unknown);
        self.bytes.extend(&after[..left]);
    }

    fn remove_or_insert(&mut self) {
        let place = self.random.place(self.bytes.len());
        if self.random.one_in(2) {
            self.bytes.remove(place);
        } else {
            self.bytes.insert(place, self.random.byte());
        }
    }

    /// Random bytes, alone or after the sound fields before one of them.
    fn random_rest(&mut self) {
        let kept = self.random.pick(&[0, self.tag]);
        self.bytes.truncate(kept);
        for _ in 0..self.random.up_to(40) {
            self.bytes.push(self.random.byte());
        }
        if self.random.one_in(2) && self.bytes.len() > kept + 3 {
            self.put_known_field(kept);
        }
    }

    /// A known tag with its right length.
    fn put_known_field(&mut self, offset: usize) {
        let tag = 1 + self.random.place(7) as u8;
        let right = content_length(tag).expect("a known tag");
        self.bytes[offset] = tag;
        self.put_length(offset, right);
    }

    fn put_length(&mut self, offset: usize, length: usize) {
        self.bytes[offset + 1] = (length / 256) as u8;
        self.bytes[offset + 2] = (length % 256) as u8;
    }
}
