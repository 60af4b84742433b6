//! The filing: fields as bytes, and the reader that applies a run of them to a
//! book up to the first refusal.

use crate::book::Book;
use crate::calls::{self, Answer, Interruption};
use crate::order::first_that_applies;
use crate::sector::Sector;

/// The bytes of a field before its content: tag and length.
const HEAD: usize = 3;
/// The tag of an interruption.
const INTERRUPTION: u8 = 3;

/// One field: a filing call, its values as filed.
#[derive(Clone, Copy, Debug, PartialEq, Eq)]
pub enum Field {
    Join {
        operator: u8,
    },
    Setting {
        operator: u8,
        which: u8,
        value: u64,
    },
    Interruption(Interruption),
    Amount {
        operator: u8,
        year: u8,
        figure: u8,
        sign: u8,
        value: u64,
    },
    Mark {
        operator: u8,
        indicator: u8,
        mark: u8,
    },
    Rates {
        pot: u32,
        cap: u32,
    },
    Index {
        number: u8,
        value: u32,
    },
}

/// What the reader answers.
#[derive(Clone, Copy, Debug, PartialEq, Eq)]
pub struct Reading {
    /// The number of fields applied.
    pub applied: usize,
    /// The offset of the refused tag, or the filing's length.
    pub offset: usize,
    /// The number in the table of answers, if a field was refused.
    pub refusal: Option<u8>,
}

/// Reads a filing into a book.
/// Follows 01: "The reader applies fields in order up to the first refusal,
/// keeps those before it, and answers with the number applied and the offset of
/// the refused tag (the filing's length if none)." A field whose interruption
/// is left out is applied as well.
pub fn read(book: &mut Book, filing: &[u8]) -> Reading {
    let mut reading = Reading {
        applied: 0,
        offset: 0,
        refusal: None,
    };
    // Before any other check, so also for an empty filing.
    if !book.in_range() {
        reading.refusal = Some(5);
    }
    while reading.refusal.is_none() && reading.offset < filing.len() {
        read_field(book, filing, &mut reading);
    }
    reading
}

/// Applies the field at the offset, or notes its refusal.
fn read_field(book: &mut Book, filing: &[u8], reading: &mut Reading) {
    let answer = match field_at(book.sector, filing, reading.offset) {
        Ok(field) => apply(book, &field),
        Err(number) => Answer::Refused(number),
    };
    if let Answer::Refused(number) = answer {
        reading.refusal = Some(number);
        return;
    }
    reading.applied += 1;
    reading.offset = after_field(filing, reading.offset);
}

/// The field whose tag is at the offset, or the refusal 1, 2 or 3.
/// Follows 01's table of answers: "1 or 2 bytes left, or the length passes the
/// end", "tag unknown", "length wrong for the tag".
pub fn field_at(sector: Sector, filing: &[u8], offset: usize) -> Result<Field, u8> {
    let left = filing.len() - offset;
    if left < HEAD {
        return Err(1);
    }
    let tag = filing[offset];
    let length = length_at(filing, offset);
    let right = content_length(tag).filter(|_| has_tag(sector, tag));
    let refusal = first_that_applies(&[
        (1, length > left - HEAD),
        (2, right.is_none()),
        (3, right.is_some_and(|right| length != right)),
    ]);
    if let Some(number) = refusal {
        return Err(number);
    }
    let start = offset + HEAD;
    Ok(decode(tag, &filing[start..start + length]))
}

/// The offset after the field whose tag is at the offset; the field is well formed.
pub fn after_field(filing: &[u8], offset: usize) -> usize {
    offset + HEAD + length_at(filing, offset)
}

/// The length written after the tag at the offset; its two bytes are there.
fn length_at(filing: &[u8], offset: usize) -> usize {
    unsigned(&filing[offset + 1..offset + HEAD]) as usize
}

/// Whether the sector has fields of that tag, if it is one that 01 names.
fn has_tag(sector: Sector, tag: u8) -> bool {
    tag != INTERRUPTION || sector.has_interruptions()
}

/// The length of the content that each tag has.
pub fn content_length(tag: u8) -> Option<usize> {
    match tag {
        1 => Some(1),
        2 => Some(1 + 1 + 8),
        3 => Some(1 + 1 + 1 + 1 + 8 + 8 + 4),
        4 => Some(1 + 1 + 1 + 1 + 8),
        5 => Some(1 + 1 + 1),
        6 => Some(4 + 4),
        7 => Some(1 + 4),
        _ => None,
    }
}

/// The field with a known tag and a content of the right length.
fn decode(tag: u8, content: &[u8]) -> Field {
    match tag {
        1 => Field::Join {
            operator: content[0],
        },
        2 => Field::Setting {
            operator: content[0],
            which: content[1],
            value: unsigned(&content[2..10]) as u64,
        },
        3 => Field::Interruption(decode_interruption(content)),
        4 => Field::Amount {
            operator: content[0],
            year: content[1],
            figure: content[2],
            sign: content[3],
            value: unsigned(&content[4..12]) as u64,
        },
        5 => Field::Mark {
            operator: content[0],
            indicator: content[1],
            mark: content[2],
        },
        6 => Field::Rates {
            pot: unsigned(&content[0..4]) as u32,
            cap: unsigned(&content[4..8]) as u32,
        },
        7 => Field::Index {
            number: content[0],
            value: unsigned(&content[1..5]) as u32,
        },
        _ => unreachable!("an unknown tag"),
    }
}

fn decode_interruption(content: &[u8]) -> Interruption {
    Interruption {
        operator: content[0],
        sign: content[1],
        level: content[2],
        cause: content[3],
        start: signed(&content[4..12]),
        end: signed(&content[12..20]),
        weight: unsigned(&content[20..24]) as u32,
    }
}

/// Follows 01: "Numbers are big-endian".
fn unsigned(bytes: &[u8]) -> u128 {
    bytes
        .iter()
        .fold(0, |number, &byte| number * 256 + u128::from(byte))
}

/// Eight bytes in two's complement.
fn signed(bytes: &[u8]) -> i64 {
    let number = unsigned(bytes) as i128;
    if number < 1 << 63 {
        number as i64
    } else {
        (number - (1 << 64)) as i64
    }
}

/// Makes the filing call of a field.
/// Follows 01: "Each tag is one filing call."
pub fn apply(book: &mut Book, field: &Field) -> Answer {
    match *field {
        Field::Join { operator } => calls::join(book, operator),
        Field::Setting {
            operator,
            which,
            value,
        } => calls::setting(book, operator, which, value),
        Field::Interruption(filed) => calls::interruption(book, &filed),
        Field::Amount {
            operator,
            year,
            figure,
            sign,
            value,
        } => calls::amount(book, operator, year, figure, sign, value),
        Field::Mark {
            operator,
            indicator,
            mark,
        } => calls::mark(book, operator, indicator, mark),
        Field::Rates { pot, cap } => calls::rates(book, pot, cap),
        Field::Index { number, value } => calls::index(book, number, value),
    }
}

/// The bytes of a field: tag, length, content.
pub fn encode(field: &Field) -> Vec<u8> {
    let content = content(field);
    let length = content.len() as u16;
    [&[tag(field)][..], &length.to_be_bytes(), &content].concat()
}

fn tag(field: &Field) -> u8 {
    match field {
        Field::Join { .. } => 1,
        Field::Setting { .. } => 2,
        Field::Interruption(_) => 3,
        Field::Amount { .. } => 4,
        Field::Mark { .. } => 5,
        Field::Rates { .. } => 6,
        Field::Index { .. } => 7,
    }
}

fn content(field: &Field) -> Vec<u8> {
    match *field {
        Field::Join { operator } => vec![operator],
        Field::Setting {
            operator,
            which,
            value,
        } => [&[operator, which][..], &value.to_be_bytes()].concat(),
        Field::Interruption(filed) => interruption_content(&filed),
        Field::Amount {
            operator,
            year,
            figure,
            sign,
            value,
        } => [&[operator, year, figure, sign][..], &value.to_be_bytes()].concat(),
        Field::Mark {
            operator,
            indicator,
            mark,
        } => vec![operator, indicator, mark],
        Field::Rates { pot, cap } => [pot.to_be_bytes(), cap.to_be_bytes()].concat(),
        Field::Index { number, value } => [&[number][..], &value.to_be_bytes()].concat(),
    }
}

fn interruption_content(filed: &Interruption) -> Vec<u8> {
    [
        &[filed.operator, filed.sign, filed.level, filed.cause][..],
        &filed.start.to_be_bytes(),
        &filed.end.to_be_bytes(),
        &filed.weight.to_be_bytes(),
    ]
    .concat()
}

#[cfg(test)]
mod tests {
    use super::*;

    const JOIN_0: [u8; 4] = [1, 0, 1, 0];
    const JOIN_1: [u8; 4] = [1, 0, 1, 1];

    /// Reads into a fresh book.
    fn fresh(filing: &[u8]) -> (Book, Reading) {
        let mut book = Book::fresh();
        let reading = read(&mut book, filing);
        (book, reading)
    }

    /// The filing is refused there by that number, after so many fields.
    fn refused(filing: &[u8], number: u8, offset: usize, applied: usize) {
        let expected = Reading {
            applied,
            offset,
            refusal: Some(number),
        };
        let (book, reading) = fresh(filing);
        assert_eq!(reading, expected, "{filing:02x?}");
        // The book has the fields before the refused one.
        let (before, reading) = fresh(&filing[..offset]);
        assert_eq!(reading.refusal, None);
        assert_eq!(reading.applied, applied);
        assert_eq!(book, before, "{filing:02x?}");
    }

    /// The filing is taken whole.
    fn taken(filing: &[u8], applied: usize) -> Book {
        let (book, reading) = fresh(filing);
        let expected = Reading {
            applied,
            offset: filing.len(),
            refusal: None,
        };
        assert_eq!(reading, expected, "{filing:02x?}");
        book
    }

    fn joined(parts: &[&[u8]]) -> Vec<u8> {
        parts.concat()
    }

    /// Tag 4 of operator 0, year 0, figure 0.
    fn amount(sign: u8, value: u64) -> Vec<u8> {
        joined(&[&[4, 0, 12, 0, 0, 0, sign], &value.to_be_bytes()])
    }

    #[test]
    fn empty_filing() {
        assert_eq!(taken(&[], 0), Book::fresh());
    }

    #[test]
    fn examples_of_the_table() {
        refused(&[0x01, 0x00], 1, 0, 0);
        refused(&[0x63, 0x00, 0x00], 2, 0, 0);
        refused(&[0x01, 0x00, 0x02, 0x00, 0x00], 3, 0, 0);
        refused(&[0x01, 0x00, 0x01, 0x10], 4, 0, 0);
        refused(&[0x05, 0x00, 0x03, 0x00, 0x06, 0x01], 5, 0, 0);
        refused(&joined(&[&JOIN_0, &JOIN_0]), 6, 4, 1);
        refused(&[0x05, 0x00, 0x03, 0x00, 0x00, 0x01], 7, 0, 0);
        let past = amount(0, 100_000_000_001);
        refused(&joined(&[&JOIN_0, &past]), 8, 4, 1);
        refused(&joined(&[&JOIN_0, &amount(1, 1)]), 9, 4, 1);
        // The same after an accepted field of operator 1.
        refused(&joined(&[&JOIN_1, &[0x01, 0x00]]), 1, 4, 1);
        refused(&joined(&[&JOIN_1, &[0x63, 0x00, 0x00]]), 2, 4, 1);
        let long = [0x01, 0x00, 0x02, 0x00, 0x00];
        refused(&joined(&[&JOIN_1, &long]), 3, 4, 1);
        refused(&joined(&[&JOIN_1, &[0x01, 0x00, 0x01, 0x10]]), 4, 4, 1);
        let mark = [0x05, 0x00, 0x03, 0x00, 0x06, 0x01];
        refused(&joined(&[&JOIN_1, &mark]), 5, 4, 1);
        let mark = [0x05, 0x00, 0x03, 0x00, 0x00, 0x01];
        refused(&joined(&[&JOIN_1, &mark]), 7, 4, 1);
    }

    /// The filing is refused by that number, alone and after a join.
    fn refused_anywhere(filing: &[u8], number: u8) {
        refused(filing, number, 0, 0);
        refused(&joined(&[&JOIN_0, filing]), number, 4, 1);
    }

    /// A field with that tag and length, and so many bytes after them.
    fn field(tag: u8, length: usize, present: usize) -> Vec<u8> {
        let [high, low] = (length as u16).to_be_bytes();
        let mut field = vec![tag, high, low];
        // Operators above 15 and values out of range: 1, 2 and 3 come before them.
        field.resize(3 + present, 255);
        field
    }

    fn has_too_few_bytes(tag: u8) {
        refused_anywhere(&[tag], 1);
        refused_anywhere(&[tag, 0], 1);
        refused_anywhere(&[tag, 255], 1);
    }

    #[test]
    fn one_or_two_bytes_left() {
        (0..=255).for_each(has_too_few_bytes);
    }

    /// 1 for a right and a wrong length.
    fn passes_the_end(tag: u8) {
        for length in [1, 2, 3, 5, 8, 10, 12, 24, 256, 65_535] {
            refused_anywhere(&field(tag, length, length - 1), 1);
        }
    }

    #[test]
    fn length_past_the_end() {
        // For every tag, known or not.
        (0..=255).for_each(passes_the_end);
        // The second byte of a length is the lower one.
        refused(&[1, 1, 0, 0], 1, 0, 0);
    }

    /// The field is refused by that number, with or without another after it.
    fn refused_before_any(field: &[u8], number: u8) {
        refused_anywhere(field, number);
        refused_anywhere(&joined(&[field, &JOIN_1]), number);
    }

    fn is_unknown(tag: u8) {
        assert_eq!(content_length(tag), None);
        for length in [0, 1, 3, 24, 256] {
            refused_before_any(&field(tag, length, length), 2);
        }
    }

    #[test]
    fn unknown_tags() {
        let known = 1..=7;
        (0..=255)
            .filter(|tag| !known.contains(tag))
            .for_each(is_unknown);
    }

    fn has_length(tag: u8, right: usize) {
        assert_eq!(content_length(tag), Some(right));
        let lengths = (0..300).chain([right + 256, right + 512, 65_535]);
        for length in lengths.filter(|&length| length != right) {
            refused_before_any(&field(tag, length, length), 3);
        }
    }

    #[test]
    fn wrong_lengths() {
        for (tag, right) in (1..=7).zip([1, 10, 24, 12, 3, 8, 5]) {
            has_length(tag, right);
        }
    }

    /// Operator 15 with its settings and an interruption from -31,536,000 to 0
    /// of weight 258.
    fn joined_and_set() -> Vec<u8> {
        joined(&[
            &[1, 0, 1, 15],
            &[2, 0, 10, 15, 0, 0, 0, 0, 0, 0, 1, 134, 160],
            &[2, 0, 10, 15, 1, 0, 0, 0, 0, 0, 61, 9, 0],
            &[2, 0, 10, 15, 2, 0, 0, 0, 23, 72, 118, 232, 0],
            &[2, 0, 10, 15, 3, 0, 0, 0, 0, 0, 0, 1, 2],
            &[2, 0, 10, 15, 4, 0, 0, 0, 0, 0, 0, 3, 4],
            &[3, 0, 24, 15, 0, 0, 4],
            &[255, 255, 255, 255, 254, 30, 204, 128],
            &[0, 0, 0, 0, 0, 0, 0, 0],
            &[0, 0, 1, 2],
        ])
    }

    #[test]
    fn amount_of_eight_bytes() {
        let start = joined_and_set();
        let past_most = [4, 0, 12, 15, 2, 7, 0, 1, 2, 3, 4, 5, 6, 7, 8];
        refused(&joined(&[&start, &past_most]), 8, start.len(), 7);
    }

    #[test]
    fn every_field_from_bytes() {
        let filing = joined(&[
            &joined_and_set(),
            &[4, 0, 12, 15, 2, 7, 0, 0, 0, 0, 4, 5, 6, 7, 8],
            &[4, 0, 12, 15, 2, 7, 1, 0, 0, 0, 0, 0, 0, 0, 8],
            &[5, 0, 3, 15, 5, 0],
            &[6, 0, 8, 0, 0, 19, 136, 0, 0, 39, 16],
            &[7, 0, 5, 3, 0, 1, 134, 160],
        ]);
        let mut expected = Book::fresh();
        let operator = &mut expected.operators[15];
        operator.joined = true;
        operator.cabins = [100_000, 258, 772];
        operator.access_points = 4_000_000;
        operator.income = 100_000_000_000;
        operator.figures[0][0] = 258;
        operator.figures[0][1] = 258 * 31_536_000;
        operator.figures[0][8] = 1;
        operator.figures[2][7] = 0x04_0506_0700;
        operator.marks = vec![true, true, true, true, true, false];
        expected.pot_rate = 5000;
        expected.cap_rate = 10_000;
        expected.indices[3] = 100_000;
        assert_eq!(taken(&filing, 12), expected);
    }

    #[test]
    fn setting_past_the_last() {
        let field = |which: u8| [2, 0, 10, 0, which, 0, 0, 0, 0, 0, 0, 0, 1];
        let book = taken(&joined(&[&JOIN_0, &field(4)]), 2);
        assert_eq!(book.operators[0].cabins, [0, 0, 1]);
        refused(&joined(&[&JOIN_0, &field(5)]), 5, 4, 1);
        refused(&joined(&[&JOIN_0, &field(255)]), 5, 4, 1);
    }

    #[test]
    fn times_in_twos_complement() {
        let field = |start: [u8; 8], end: [u8; 8]| {
            joined(&[
                &JOIN_0,
                &[3, 0, 24, 0, 0, 1, 0],
                &start,
                &end,
                &[0, 0, 0, 1],
            ])
        };
        let zero = [0; 8];
        // -181 to 0.
        let start = [255, 255, 255, 255, 255, 255, 255, 75];
        let book = taken(&field(start, zero), 2);
        assert_eq!(book.operators[0].figures[0][2..4], [1, 181]);
        assert_eq!(book.operators[0].figures[0][8..], [1, 0, 0, 0, 0]);
        // The least and the greatest number.
        let least = [128, 0, 0, 0, 0, 0, 0, 0];
        let most = [127, 255, 255, 255, 255, 255, 255, 255];
        refused(&field(least, zero), 15, 4, 1);
        refused(&field(zero, most), 15, 4, 1);
        refused(&field(zero, least), 14, 4, 1);
        refused(&field(most, zero), 14, 4, 1);
        // An end of -1, after a start of -181 and of -1, and before one of 0.
        refused(&field(start, [255; 8]), 15, 4, 1);
        refused(&field([255; 8], [255; 8]), 15, 4, 1);
        refused(&field(zero, [255; 8]), 14, 4, 1);
        assert_eq!(signed(&least), i64::MIN);
        assert_eq!(signed(&most), i64::MAX);
        assert_eq!(signed(&[255; 8]), -1);
        assert_eq!(signed(&zero), 0);
    }

    /// A filing with an interruption that is left out, between two joins: it moves
    /// only that figure.
    fn is_left_out(cause: u8, seconds: u8, figure: usize) {
        let filing = joined(&[
            &JOIN_0,
            &[3, 0, 24, 0, 0, 1, cause],
            &[0; 8],
            &[0, 0, 0, 0, 0, 0, 0, seconds],
            &[0, 0, 0, 1],
            &JOIN_1,
        ]);
        let mut expected = taken(&joined(&[&JOIN_0, &JOIN_1]), 2);
        expected.operators[0].figures[0][figure] = 1;
        assert_eq!(taken(&filing, 3), expected);
    }

    #[test]
    fn interruptions_left_out_are_applied() {
        is_left_out(0, 180, 9);
        is_left_out(1, 181, 10);
        is_left_out(2, 181, 11);
        is_left_out(3, 181, 12);
        is_left_out(4, 0, 9);
    }

    #[test]
    fn fields_after_the_refused_one_are_not_read() {
        let unknown = [99, 0, 0];
        let filing = joined(&[&JOIN_0, &JOIN_1, &unknown, &[1, 0, 1, 2]]);
        refused(&filing, 2, 8, 2);
        let (book, _) = fresh(&filing);
        assert_eq!(book.joined_mask(), 3);
        // Nor after a join refused by the book.
        let filing = joined(&[&JOIN_0, &JOIN_0, &JOIN_1]);
        refused(&filing, 6, 4, 1);
    }

    #[test]
    fn reading_goes_on_with_the_book_lent() {
        let mut book = taken(&JOIN_0, 1);
        let reading = read(&mut book, &JOIN_0);
        let expected = Reading {
            applied: 0,
            offset: 0,
            refusal: Some(6),
        };
        assert_eq!(reading, expected);
        assert_eq!(read(&mut book, &JOIN_1).refusal, None);
        assert_eq!(book.joined_mask(), 3);
    }

    /// The book takes nothing of the filing once it is altered so.
    fn reads_nothing(filing: &[u8], alter: fn(&mut Book)) {
        let expected = Reading {
            applied: 0,
            offset: 0,
            refusal: Some(5),
        };
        let mut book = Book::fresh();
        alter(&mut book);
        let kept = book.clone();
        assert_eq!(read(&mut book, filing), expected);
        assert_eq!(book, kept);
    }

    #[test]
    fn book_out_of_range() {
        let filings: [&[u8]; 9] = [
            &[],
            &[1],
            &[1, 0],
            &[99, 0, 0],
            &[1, 0, 0],
            &[1, 0, 1, 16],
            &JOIN_0,
            &[1, 0, 1, 0, 1, 0, 1, 4],
            // Rates that would bring the book back into range.
            &[6, 0, 8, 0, 0, 0, 0, 0, 0, 0, 0],
        ];
        let alterations: [fn(&mut Book); 2] = [
            |book| book.pot_rate = 20_001,
            |book| book.operators[4].marks[0] = true,
        ];
        let pairs = filings.map(|filing| alterations.map(|alter| (filing, alter)));
        for &(filing, alter) in pairs.as_flattened() {
            reads_nothing(filing, alter);
        }
    }

    /// Reads into a fresh gas book.
    fn read_by_gas(filing: &[u8]) -> (Book, Reading) {
        let mut book = Book::fresh_in(Sector::Gas);
        let reading = read(&mut book, filing);
        (book, reading)
    }

    /// The filing is refused by gas at its first field, and so it is after a join.
    fn refused_by_gas(filing: &[u8], number: u8) {
        for (start, applied) in [(&[][..], 0), (&JOIN_0, 1)] {
            let (book, reading) = read_by_gas(&joined(&[start, filing]));
            let expected = Reading {
                applied,
                offset: start.len(),
                refusal: Some(number),
            };
            assert_eq!(reading, expected, "{filing:02x?}");
            assert_eq!(book, read_by_gas(start).0);
        }
    }

    #[test]
    fn gas_has_no_tag_3() {
        // Of any length, with values in range or not, before another field or not.
        for length in [0, 1, 3, 23, 24, 25, 256] {
            refused_by_gas(&field(3, length, length), 2);
            refused_by_gas(&joined(&[&field(3, length, length), &JOIN_1]), 2);
        }
        let interruption = Interruption {
            operator: 0,
            sign: 0,
            level: 0,
            cause: 0,
            start: 0,
            end: 181,
            weight: 1,
        };
        refused_by_gas(&encode(&Field::Interruption(interruption)), 2);
        // 1 comes before it.
        for length in [1, 24, 65_535] {
            refused_by_gas(&field(3, length, length - 1), 1);
        }
        refused_by_gas(&[3], 1);
        refused_by_gas(&[3, 0], 1);
    }

    #[test]
    fn other_tags_of_gas() {
        for (tag, right) in [(1, 1), (2, 10), (4, 12), (5, 3), (6, 8), (7, 5)] {
            refused_by_gas(&field(tag, right + 1, right + 1), 3);
            refused_by_gas(&field(tag, right, right - 1), 1);
        }
        refused_by_gas(&[0, 0, 0], 2);
        refused_by_gas(&[8, 0, 0], 2);
        refused_by_gas(&[5, 0, 3, 0, 3, 0], 5);
        let (book, reading) = read_by_gas(&joined(&[&JOIN_0, &[5, 0, 3, 0, 4, 0]]));
        assert_eq!((reading.applied, reading.refusal), (2, None));
        assert_eq!((book.mark_mask(4), book.mark_mask(5)), (0, 1));
    }

    #[test]
    fn gas_book_out_of_range() {
        // An electricity join marks what gas has not: no field is looked at.
        let mut book = taken(&JOIN_0, 1);
        book.sector = Sector::Gas;
        let kept = book.clone();
        let expected = Reading {
            applied: 0,
            offset: 0,
            refusal: Some(5),
        };
        for filing in [&[][..], &[1], &[3, 0, 0], &JOIN_1] {
            assert_eq!(read(&mut book, filing), expected);
            assert_eq!(book, kept);
        }
    }

    /// The field is encoded as these bytes, and decoded from them.
    fn is_encoded(field: Field, bytes: &[u8]) {
        assert_eq!(encode(&field), bytes);
        assert_eq!(field_at(Sector::Electricity, bytes, 0), Ok(field));
    }

    #[test]
    fn fields_of_an_operator_as_bytes() {
        is_encoded(Field::Join { operator: 16 }, &[1, 0, 1, 16]);
        let setting = Field::Setting {
            operator: 1,
            which: 2,
            value: 0x0304_0506_0708_090a,
        };
        is_encoded(setting, &[2, 0, 10, 1, 2, 3, 4, 5, 6, 7, 8, 9, 10]);
        let amount = Field::Amount {
            operator: 1,
            year: 2,
            figure: 3,
            sign: 4,
            value: 0x0506_0708_090a_0bff,
        };
        is_encoded(amount, &[4, 0, 12, 1, 2, 3, 4, 5, 6, 7, 8, 9, 10, 11, 255]);
        let mark = Field::Mark {
            operator: 1,
            indicator: 2,
            mark: 3,
        };
        is_encoded(mark, &[5, 0, 3, 1, 2, 3]);
    }

    #[test]
    fn interruption_as_bytes() {
        let interruption = Interruption {
            operator: 1,
            sign: 2,
            level: 3,
            cause: 4,
            start: -2,
            end: i64::MAX,
            weight: 0x0102_0304,
        };
        let bytes = joined(&[
            &[3, 0, 24, 1, 2, 3, 4],
            &[255, 255, 255, 255, 255, 255, 255, 254],
            &[127, 255, 255, 255, 255, 255, 255, 255],
            &[1, 2, 3, 4],
        ]);
        is_encoded(Field::Interruption(interruption), &bytes);
    }

    #[test]
    fn rates_and_index_as_bytes() {
        let rates = Field::Rates {
            pot: 0x0102_0304,
            cap: 0x0506_0708,
        };
        is_encoded(rates, &[6, 0, 8, 1, 2, 3, 4, 5, 6, 7, 8]);
        let index = Field::Index {
            number: 1,
            value: 0x0203_0405,
        };
        is_encoded(index, &[7, 0, 5, 1, 2, 3, 4, 5]);
    }
}
