//! The writer: a book as a filing, put into a lent buffer.

use crate::book::{figure_places, Book, Operator, FRESH_INDEX, INDICES, OPERATORS, SETTINGS};
use crate::filing::{encode, Field};
use crate::sector::Sector;

/// Writes the book into the buffer; answers the number of bytes written, or the
/// number of the refusal, which leaves the buffer.
pub fn write(book: &Book, buffer: &mut [u8]) -> Result<usize, u8> {
    if !book.in_range() {
        return Err(5);
    }
    put(&written(book), buffer)
}

/// The written filing of a book that is in range.
pub fn written(book: &Book) -> Vec<u8> {
    fields(book).iter().flat_map(encode).collect()
}

/// The fields of a book that is in range, in the order of the writer.
/// Follows 01: "The writer writes only what differs from fresh: joins, settings,
/// amounts, marks (by operator, then year, then which, figure or indicator),
/// indices, rates (one field if either isn't 0); amounts with sign 0". All joins
/// come before all settings, these before all amounts, and so on. Of the marks
/// 02, point 1, decides which are written; point 3 has it that "an operator's
/// settings are written by number".
pub fn fields(book: &Book) -> Vec<Field> {
    [
        by_operator(book, joins),
        by_operator(book, settings),
        by_operator(book, amounts),
        by_operator(book, |operator, kept| marks(operator, kept, book.sector)),
        indices(book),
        rates(book),
    ]
    .concat()
}

/// The fields of one sort, by operator.
fn by_operator(book: &Book, fields: impl Fn(u8, &Operator) -> Vec<Field>) -> Vec<Field> {
    (0..OPERATORS)
        .flat_map(|k| fields(k as u8, &book.operators[k]))
        .collect()
}

fn joins(operator: u8, kept: &Operator) -> Vec<Field> {
    if kept.joined {
        vec![Field::Join { operator }]
    } else {
        Vec::new()
    }
}

fn settings(operator: u8, kept: &Operator) -> Vec<Field> {
    let settings = kept.settings();
    let field = |which: usize| Field::Setting {
        operator,
        which: which as u8,
        value: settings[which] as u64,
    };
    (0..SETTINGS)
        .filter(|&which| settings[which] != 0)
        .map(field)
        .collect()
}

fn amounts(operator: u8, kept: &Operator) -> Vec<Field> {
    let field = |(year, figure): (usize, usize)| Field::Amount {
        operator,
        year: year as u8,
        figure: figure as u8,
        sign: 0,
        value: kept.figures[year][figure] as u64,
    };
    figure_places()
        .filter(|&(year, figure)| kept.figures[year][figure] != 0)
        .map(field)
        .collect()
}

/// Follows 02, point 1: "the writer now writes the cleared marks of joined operators
/// and no set ones"; and point 4: "A gas join marks those two, and the gas writer puts
/// out no other mark." The join that is written before them sets all of the sector.
fn marks(operator: u8, kept: &Operator, sector: Sector) -> Vec<Field> {
    let field = |indicator: usize| Field::Mark {
        operator,
        indicator: indicator as u8,
        mark: 0,
    };
    let indicators = sector.indicators();
    indicators
        .filter(|&indicator| kept.joined && !kept.marks[indicator])
        .map(field)
        .collect()
}

fn indices(book: &Book) -> Vec<Field> {
    let field = |number: usize| Field::Index {
        number: number as u8,
        value: book.indices[number] as u32,
    };
    (0..INDICES)
        .filter(|&number| book.indices[number] != FRESH_INDEX)
        .map(field)
        .collect()
}

fn rates(book: &Book) -> Vec<Field> {
    if book.pot_rate == 0 && book.cap_rate == 0 {
        return Vec::new();
    }
    vec![Field::Rates {
        pot: book.pot_rate as u32,
        cap: book.cap_rate as u32,
    }]
}

/// Puts the output at the start of a lent buffer, unless it is too short.
/// Follows 01: "a refused writer or report leaves the buffer. Accepted, these
/// two answer with the number of bytes written and leave all bytes after their
/// output."
pub fn put(output: &[u8], buffer: &mut [u8]) -> Result<usize, u8> {
    if buffer.len() < output.len() {
        return Err(13);
    }
    buffer[..output.len()].copy_from_slice(output);
    Ok(output.len())
}

#[cfg(test)]
mod tests {
    use super::*;
    use crate::calls::{join, mark, Answer};
    use crate::filing::read;
    use crate::generator;

    /// Operator k of which everything is written.
    fn full_operator(k: u128) -> Operator {
        let year = |year: u128| {
            (0..13)
                .map(|figure| 1 + k * 1000 + year * 100 + figure)
                .collect()
        };
        Operator {
            joined: true,
            marks: vec![false; 6],
            cabins: [1 + k, 1001 + k, 2001 + k],
            access_points: 4_000_000 - k,
            income: 100_000_000_000 - k,
            figures: (0..3).map(year).collect(),
        }
    }

    /// A book of which everything is written: every mark is cleared, and every
    /// other value differs from the fresh one.
    fn full() -> Book {
        Book {
            sector: Sector::Electricity,
            operators: (0..16).map(full_operator).collect(),
            pot_rate: 1,
            cap_rate: 20_000,
            indices: vec![1, 9_999, 10_001, 100_000],
        }
    }

    /// Refused by that number, with a buffer of that length left.
    fn leaves_buffer(book: &Book, length: usize, number: u8) {
        let mut buffer = vec![7; length];
        assert_eq!(write(book, &mut buffer), Err(number));
        assert_eq!(buffer, vec![7; length]);
    }

    /// The book is written as these bytes; in a buffer of just their length, in
    /// a longer one, and in none that is shorter.
    fn writes(book: &Book, expected: &[u8]) {
        let length = expected.len();
        let mut buffer = vec![7; length];
        assert_eq!(write(book, &mut buffer), Ok(length));
        assert_eq!(buffer, expected);
        let mut buffer = vec![7; length + 5];
        assert_eq!(write(book, &mut buffer), Ok(length));
        assert_eq!(buffer[..length], *expected);
        assert_eq!(buffer[length..], [7; 5]);
        if length > 0 {
            leaves_buffer(book, 0, 13);
            leaves_buffer(book, length / 2, 13);
            leaves_buffer(book, length - 1, 13);
        }
    }

    /// Reading the written filing gives the book back, which is written the same.
    fn round_trip(book: &Book) {
        let filing = written(book);
        // Follows 02, point 3: "The most a writer needs grows to 11,083 bytes."
        assert!(filing.len() <= 11_083);
        let mut again = Book::fresh_in(book.sector);
        let reading = read(&mut again, &filing);
        assert_eq!(reading.refusal, None);
        assert_eq!(reading.offset, filing.len());
        assert_eq!(reading.applied, fields(book).len());
        assert_eq!(again, *book);
        writes(&again, &filing);
    }

    #[test]
    fn fresh_book_is_written_as_nothing() {
        writes(&Book::fresh(), &[]);
    }

    #[test]
    fn example_of_the_table() {
        let mut book = Book::fresh();
        assert_eq!(join(&mut book, 0), Answer::Yes);
        leaves_buffer(&book, 3, 13);
        writes(&book, &[1, 0, 1, 0]);
    }

    /// Operator 3 joined, then given these marks in turn, is written as its join
    /// and these fields.
    fn writes_after_its_join(marks: &[(u8, u8)], fields: &[[u8; 6]]) {
        let mut book = Book::fresh();
        assert_eq!(join(&mut book, 3), Answer::Yes);
        for &(indicator, value) in marks {
            assert_eq!(mark(&mut book, 3, indicator, value), Answer::Yes);
        }
        writes(&book, &[&[1, 0, 1, 3], fields.as_flattened()].concat());
        round_trip(&book);
    }

    #[test]
    fn only_cleared_marks_are_written() {
        // Freshly joined.
        writes_after_its_join(&[], &[]);
        for indicator in 0..6 {
            let cleared = [5, 0, 3, 3, indicator, 0];
            writes_after_its_join(&[(indicator, 0)], &[cleared]);
            writes_after_its_join(&[(indicator, 1)], &[]);
            writes_after_its_join(&[(indicator, 0), (indicator, 1)], &[]);
        }
        // All cleared, from the last to the first.
        let marks = [5, 4, 3, 2, 1, 0].map(|indicator| (indicator, 0));
        let fields = [0, 1, 2, 3, 4, 5].map(|indicator| [5, 0, 3, 3, indicator, 0]);
        writes_after_its_join(&marks, &fields);
    }

    /// A joined operator with some values of each sort.
    fn some_operator() -> Operator {
        let mut operator = Operator::fresh();
        operator.joined = true;
        operator.cabins = [1, 4, 5];
        operator.access_points = 2;
        operator.income = 3;
        operator.figures[0][7] = 4;
        operator.figures[0][8] = 7;
        operator.figures[0][12] = 8;
        operator.figures[2][0] = 5;
        operator.figures[2][1] = 6;
        operator.figures[2][10] = 9;
        operator.marks = vec![false, true, true, true, true, false];
        operator
    }

    /// The bytes of its settings, which are by number 1, 2, 3, 4 and 5.
    fn some_settings(operator: u8) -> Vec<u8> {
        let setting = |which: u8| [2, 0, 10, operator, which, 0, 0, 0, 0, 0, 0, 0, which + 1];
        [0, 1, 2, 3, 4].map(setting).concat()
    }

    /// The bytes of its amounts.
    fn some_amounts(operator: u8) -> Vec<u8> {
        [
            [4, 0, 12, operator, 0, 7, 0, 0, 0, 0, 0, 0, 0, 0, 4],
            [4, 0, 12, operator, 0, 8, 0, 0, 0, 0, 0, 0, 0, 0, 7],
            [4, 0, 12, operator, 0, 12, 0, 0, 0, 0, 0, 0, 0, 0, 8],
            [4, 0, 12, operator, 2, 0, 0, 0, 0, 0, 0, 0, 0, 0, 5],
            [4, 0, 12, operator, 2, 1, 0, 0, 0, 0, 0, 0, 0, 0, 6],
            [4, 0, 12, operator, 2, 10, 0, 0, 0, 0, 0, 0, 0, 0, 9],
        ]
        .concat()
    }

    #[test]
    fn order_of_the_fields() {
        let mut book = Book::fresh();
        book.operators[3] = some_operator();
        book.operators[12] = some_operator();
        book.pot_rate = 7;
        book.cap_rate = 8;
        book.indices = vec![9, 10_000, 10, 11];
        let expected = [
            vec![1, 0, 1, 3],
            vec![1, 0, 1, 12],
            some_settings(3),
            some_settings(12),
            some_amounts(3),
            some_amounts(12),
            vec![5, 0, 3, 3, 0, 0],
            vec![5, 0, 3, 3, 5, 0],
            vec![5, 0, 3, 12, 0, 0],
            vec![5, 0, 3, 12, 5, 0],
            vec![7, 0, 5, 0, 0, 0, 0, 9],
            vec![7, 0, 5, 2, 0, 0, 0, 10],
            vec![7, 0, 5, 3, 0, 0, 0, 11],
            vec![6, 0, 8, 0, 0, 0, 7, 0, 0, 0, 8],
        ];
        writes(&book, &expected.concat());
        round_trip(&book);
    }

    /// Operator 3 with these settings by number is written as its join and these of
    /// its settings.
    fn writes_settings(settings: [u128; 5], written: &[u8]) {
        let mut operator = Operator::fresh();
        operator.joined = true;
        operator.marks = vec![true; 6];
        operator.cabins = [settings[0], settings[3], settings[4]];
        operator.access_points = settings[1];
        operator.income = settings[2];
        let mut book = Book::fresh();
        book.operators[3] = operator;
        let field = |which: u8| {
            let value = settings[usize::from(which)] as u64;
            [&[2, 0, 10, 3, which][..], &value.to_be_bytes()].concat()
        };
        let fields: Vec<u8> = written.iter().flat_map(|&which| field(which)).collect();
        writes(&book, &[&[1, 0, 1, 3], &fields[..]].concat());
        round_trip(&book);
    }

    #[test]
    fn only_settings_above_0_are_written() {
        writes_settings([0; 5], &[]);
        for which in 0..5 {
            let place = usize::from(which);
            let mut alone = [0; 5];
            alone[place] = 100_000;
            writes_settings(alone, &[which]);
            let mut missing = [1, 2, 3, 4, 5];
            missing[place] = 0;
            let others: Vec<u8> = (0..5).filter(|&other| other != which).collect();
            writes_settings(missing, &others);
        }
    }

    /// The rates are written as these bytes after tag and length.
    fn writes_rates(pot: u128, cap: u128, content: [u8; 8]) {
        let mut book = Book::fresh();
        book.pot_rate = pot;
        book.cap_rate = cap;
        writes(&book, &[&[6, 0, 8][..], &content].concat());
        round_trip(&book);
    }

    #[test]
    fn rates_are_one_field() {
        writes_rates(1, 0, [0, 0, 0, 1, 0, 0, 0, 0]);
        writes_rates(0, 1, [0, 0, 0, 0, 0, 0, 0, 1]);
        writes_rates(20_000, 20_000, [0, 0, 78, 32, 0, 0, 78, 32]);
    }

    #[test]
    fn longest_filing() {
        // 16 joins of 4 bytes, 80 settings of 13, 624 amounts of 15, 96 cleared
        // marks of 6, 4 indices of 8 and the rates of 11.
        let book = full();
        assert!(book.in_range());
        assert_eq!(fields(&book).len(), 16 + 80 + 624 + 96 + 4 + 1);
        let filing = written(&book);
        assert_eq!(filing.len(), 11_083);
        writes(&book, &filing);
        round_trip(&book);
        // Any value back at its fresh one, and any mark set again, makes it shorter.
        let mut other = book.clone();
        other.indices[2] = 10_000;
        assert_eq!(written(&other).len(), 11_083 - 8);
        other.operators[3].marks[2] = true;
        assert_eq!(written(&other).len(), 11_083 - 8 - 6);
        other.operators[15].figures[2][12] = 0;
        assert_eq!(written(&other).len(), 11_083 - 8 - 6 - 15);
        other.operators[0].income = 0;
        assert_eq!(written(&other).len(), 11_083 - 8 - 6 - 15 - 13);
        other.operators[15].cabins[2] = 0;
        assert_eq!(written(&other).len(), 11_083 - 8 - 6 - 15 - 26);
        other.pot_rate = 0;
        assert_eq!(written(&other).len(), 11_083 - 8 - 6 - 15 - 26);
        other.cap_rate = 0;
        assert_eq!(written(&other).len(), 11_083 - 8 - 6 - 15 - 26 - 11);
        round_trip(&other);
    }

    /// A gas book of which everything is written.
    fn full_of_gas() -> Book {
        let mut book = full().lent_to(Sector::Gas);
        for operator in &mut book.operators {
            operator.cabins = [0; 3];
            for year in &mut operator.figures {
                year[..4].fill(0);
                year[8..].fill(0);
            }
        }
        book
    }

    #[test]
    fn longest_filing_of_gas() {
        // 16 joins of 4 bytes, 32 settings of 13, 192 amounts of 15, 32 cleared
        // marks of 6, 4 indices of 8 and the rates of 11.
        let book = full_of_gas();
        assert!(book.in_range());
        assert_eq!(fields(&book).len(), 16 + 32 + 192 + 32 + 4 + 1);
        assert_eq!(written(&book).len(), 3595);
        round_trip(&book);
        // Electricity writes the cleared marks of the other indicators too.
        let lent = book.lent_to(Sector::Electricity);
        assert_eq!(written(&lent).len(), 3595 + 16 * 4 * 6);
    }

    #[test]
    fn only_cleared_marks_of_gas_are_written() {
        let mut book = Book::fresh_in(Sector::Gas);
        assert_eq!(join(&mut book, 3), Answer::Yes);
        writes(&book, &[1, 0, 1, 3]);
        assert_eq!(mark(&mut book, 3, 5, 0), Answer::Yes);
        writes(&book, &[1, 0, 1, 3, 5, 0, 3, 3, 5, 0]);
        round_trip(&book);
        assert_eq!(mark(&mut book, 3, 4, 0), Answer::Yes);
        writes(&book, &[1, 0, 1, 3, 5, 0, 3, 3, 4, 0, 5, 0, 3, 3, 5, 0]);
        round_trip(&book);
    }

    #[test]
    fn gas_book_out_of_range() {
        // An electricity join.
        let mut book = Book::fresh();
        assert_eq!(join(&mut book, 3), Answer::Yes);
        refuses_every_buffer(&book.lent_to(Sector::Gas));
        let mut cabins = full_of_gas();
        cabins.operators[15].cabins[2] = 1;
        refuses_every_buffer(&cabins);
        let mut count = full_of_gas();
        count.operators[0].figures[0][8] = 1;
        refuses_every_buffer(&count);
    }

    #[test]
    fn full_book_with_all_marks_set() {
        let mut book = full();
        for operator in &mut book.operators {
            operator.marks = vec![true; 6];
        }
        assert_eq!(written(&book).len(), 11_083 - 96 * 6);
        round_trip(&book);
    }

    fn refuses_every_buffer(book: &Book) {
        for length in [0, 3, 11_082, 11_083, 12_000] {
            leaves_buffer(book, length, 5);
        }
    }

    #[test]
    fn book_out_of_range() {
        let mut past = full();
        past.operators[15].figures[2][12] = 100_000_000_001;
        let mut past_cabins = full();
        past_cabins.operators[15].cabins[2] = 100_001;
        let mut not_joined = full();
        not_joined.operators[15].joined = false;
        let mut marked = Book::fresh();
        marked.operators[15].marks[5] = true;
        let mut index = Book::fresh();
        index.indices[0] = 0;
        refuses_every_buffer(&past);
        refuses_every_buffer(&past_cabins);
        refuses_every_buffer(&not_joined);
        refuses_every_buffer(&marked);
        refuses_every_buffer(&index);
    }

    /// The book that a sector's filing makes; a refused one leaves a book as well.
    fn made(sector: Sector, number: u64) -> Book {
        let mut book = Book::fresh_in(sector);
        read(&mut book, &generator::filing_in(sector, 1, number));
        book
    }

    /// Many books of a sector make the round trip; the longest filing has more than
    /// so many bytes.
    fn round_trip_of_books(sector: Sector, length: usize) {
        let books: Vec<Book> = (0..1500)
            .map(|number| made(sector, number))
            .filter(|book| *book != Book::fresh_in(sector))
            .collect();
        books.iter().for_each(round_trip);
        assert!(books.len() > 1300, "{}", books.len());
        let longest = books.iter().map(|book| written(book).len()).max();
        assert!(longest > Some(length), "{longest:?}");
    }

    #[test]
    fn round_trip_of_many_books() {
        round_trip_of_books(Sector::Electricity, 8000);
        round_trip_of_books(Sector::Gas, 3300);
    }
}
