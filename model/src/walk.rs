//! The walk over the fields of a filing, which no book judges.

use crate::filing::{after_field, field_at};
use crate::numbers::numbers;
use crate::sector::Sector;

/// What a walk comes to.
#[derive(Clone, Copy, Debug, PartialEq, Eq)]
pub struct Walk {
    /// The number of well formed fields from the start.
    pub fields: usize,
    /// The offset of the first tag that is refused, or the filing's length.
    pub offset: usize,
    /// The refusal 1, 2 or 3 there, if any.
    pub refusal: Option<u8>,
}

/// Walks over a filing of electricity, field by field, up to the first that 1, 2 or 3
/// of 01's table of answers refuses.
pub fn walk(filing: &[u8]) -> Walk {
    let mut walk = Walk {
        fields: 0,
        offset: 0,
        refusal: None,
    };
    while walk.refusal.is_none() && walk.offset < filing.len() {
        walk.step(filing);
    }
    walk
}

impl Walk {
    /// Passes the field at the offset, or notes its refusal.
    fn step(&mut self, filing: &[u8]) {
        self.refusal = field_at(Sector::Electricity, filing, self.offset).err();
        if self.refusal.is_none() {
            self.fields += 1;
            self.offset = after_field(filing, self.offset);
        }
    }
}

/// Answer to one line of the subcommand `walk`, the bytes of a filing as decimal
/// numbers; an empty line has none.
pub fn answer(line: &str) -> Result<String, String> {
    let filing = match line {
        "" => Vec::new(),
        _ => numbers(line)?,
    };
    let Walk {
        fields,
        offset,
        refusal,
    } = walk(&filing);
    let stands_there = match refusal {
        None => "end".to_string(),
        Some(number) => format!("refused {number}"),
    };
    Ok(format!("{fields} {offset} {stands_there}"))
}

#[cfg(test)]
mod tests {
    use super::*;
    use crate::book::Book;
    use crate::filing::{encode, read, Field};

    /// The walk ends there, after so many fields.
    fn comes_to(filing: &[u8], fields: usize, offset: usize, refusal: Option<u8>) {
        let expected = Walk {
            fields,
            offset,
            refusal,
        };
        assert_eq!(walk(filing), expected, "{filing:?}");
    }

    /// A join that a fresh book refuses.
    fn join() -> Vec<u8> {
        encode(&Field::Join { operator: 16 })
    }

    #[test]
    fn fields_that_a_book_refuses_are_passed() {
        comes_to(&join(), 1, 4, None);
        assert_eq!(read(&mut Book::fresh(), &join()).refusal, Some(4));
        comes_to(&join().repeat(16_384), 16_384, 65_536, None);
    }

    #[test]
    fn walk_ends_at_the_first_refused_field() {
        let damaged: [(&[u8], u8); 3] = [(&[1, 0], 1), (&[99, 0, 0], 2), (&[1, 0, 2, 0, 0], 3)];
        for (field, number) in damaged {
            comes_to(field, 0, 0, Some(number));
            comes_to(&[&join(), field].concat(), 1, 4, Some(number));
        }
        // What follows is not looked at.
        comes_to(&[&[99, 0, 0][..], &join()].concat(), 0, 0, Some(2));
        comes_to(&[&join()[..], &[1, 0, 0], &join()].concat(), 1, 4, Some(3));
    }

    /// A walk goes on after a field of every tag, by the length of its content.
    #[test]
    fn fields_of_every_tag_are_passed() {
        for (tag, length) in (1..=7).zip([1, 10, 24, 12, 3, 8, 5]) {
            let field = [&[tag, 0, length][..], &vec![255; length as usize]].concat();
            comes_to(&field, 1, field.len(), None);
            comes_to(&field[..field.len() - 1], 0, 0, Some(1));
            comes_to(&field.repeat(3), 3, 3 * field.len(), None);
        }
    }

    #[test]
    fn no_bytes() {
        comes_to(&[], 0, 0, None);
        assert_eq!(answer(""), Ok("0 0 end".to_string()));
    }
}
