//! The report: the printed lines of a settled book, put into a lent buffer.

use crate::book::{joined, Book};
use crate::calls::Answer;
use crate::settlement::{settle, Settlement};
use crate::writer::put;

/// Settles the book and puts its lines into the buffer; answers the number of
/// bytes written, or the number of the refusal, which leaves the buffer.
/// Follows 01: "It refuses by 5, 10, 11, 12 or 13."
pub fn report(book: &Book, buffer: &mut [u8]) -> Result<usize, u8> {
    let (answer, settlement) = settle(book);
    if let Answer::Refused(number) = answer {
        return Err(number);
    }
    put(lines(book, &settlement).as_bytes(), buffer)
}

/// The lines of a settled book.
/// Follows 01: "joined operators rising, single spaces, each line ended by byte
/// 10" and "Points in hundredths, money in cents, "in" and "out" before the
/// limit; the last line sums." Out is the contribution, in the return.
pub fn lines(book: &Book, settlement: &Settlement) -> String {
    let points = settlement.points.totals();
    let money = &settlement.money;
    let row = |k: usize| {
        let out = money.contributions[k];
        let back = money.returns[k];
        let adjustment = money.adjustments[k];
        format!("{k} {} {out} {back} {adjustment}\n", points[k])
    };
    let rows: String = joined(&book.operators).into_iter().map(row).collect();
    // Those not joined have 0 everywhere.
    let all_points: u128 = points.iter().sum();
    let all_out: u128 = money.contributions.iter().sum();
    let all_in: u128 = money.returns.iter().sum();
    let all_adjustments: i128 = money.adjustments.iter().sum();
    format!(
        "operator points out in adjustment\n{rows}\
         all {all_points} {all_out} {all_in} {all_adjustments}\n"
    )
}

#[cfg(test)]
mod tests {
    use super::*;
    use crate::book::Operator;
    use crate::case_m;
    use crate::filing::read;
    use crate::generator;
    use crate::script;

    /// A joined operator with one cabin in every year, all marks cleared.
    fn operator(access_points: u128, income: u128) -> Operator {
        Operator {
            joined: true,
            cabins: [1; 3],
            access_points,
            income,
            ..Operator::fresh()
        }
    }

    fn case_m() -> Book {
        let mut book = Book::fresh();
        for command in case_m::calls() {
            assert_eq!(script::answer(&mut book, command), Ok("yes".to_string()));
        }
        book
    }

    /// The report of a book, in a buffer long enough.
    fn reported(book: &Book) -> String {
        let mut buffer = vec![7; 1000];
        let length = report(book, &mut buffer).unwrap();
        assert_eq!(buffer[length..], vec![7; 1000 - length]);
        buffer.truncate(length);
        String::from_utf8(buffer).unwrap()
    }

    /// Refused by that number, with a buffer of any length left.
    fn refuses(book: &Book, number: u8) {
        for length in [0, 1, 33, 100, 1000] {
            leaves_buffer(book, length, number);
        }
    }

    fn leaves_buffer(book: &Book, length: usize, number: u8) {
        let mut buffer = vec![7; length];
        assert_eq!(report(book, &mut buffer), Err(number));
        assert_eq!(buffer, vec![7; length]);
    }

    #[test]
    fn marked_case_m() {
        assert_eq!(reported(&case_m()), case_m::PRINTED);
    }

    #[test]
    fn marked_case_m_with_cap_rate_50() {
        let mut book = case_m();
        book.cap_rate = 50;
        assert_eq!(reported(&book), case_m::PRINTED.replace("11463", "5000"));
    }

    #[test]
    fn buffers() {
        let book = case_m();
        let length = case_m::PRINTED.len();
        assert_eq!(length, 34 + 28 + 31 + 29);
        let mut buffer = vec![7; length];
        assert_eq!(report(&book, &mut buffer), Ok(length));
        assert_eq!(buffer, case_m::PRINTED.as_bytes());
        let mut buffer = vec![7; length + 3];
        assert_eq!(report(&book, &mut buffer), Ok(length));
        assert_eq!(buffer[..length], *case_m::PRINTED.as_bytes());
        assert_eq!(buffer[length..], [7; 3]);
        for short in 0..length {
            leaves_buffer(&book, short, 13);
        }
    }

    #[test]
    fn refusals() {
        let mut book = Book::fresh();
        refuses(&book, 10);
        book.operators[15].joined = true;
        refuses(&book, 11);
        for year in 0..3 {
            book.operators[15].cabins[year] = 1;
            refuses(&book, 11);
        }
        book.operators[15].access_points = 1;
        book.operators[15].marks = vec![true; 6];
        refuses(&book, 12);
        book.operators[15].cabins[2] = 0;
        refuses(&book, 11);
        book.operators[0].marks[0] = true;
        refuses(&book, 5);
        let mut book = case_m();
        book.indices[1] = 0;
        refuses(&book, 5);
    }

    #[test]
    fn operators_rise() {
        let mut book = Book::fresh();
        for k in [10, 2, 15] {
            book.operators[k] = operator(1, 0);
        }
        let expected = "operator points out in adjustment\n\
            2 42500 0 0 0\n10 42500 0 0 0\n15 42500 0 0 0\n\
            all 127500 0 0 0\n";
        assert_eq!(reported(&book), expected);
    }

    #[test]
    fn marked_points_are_missing_from_the_sum() {
        // A1 is unreliable for operator 0: its pool is 23,100.
        let mut book = case_m();
        book.operators[0].marks[0] = true;
        let text = reported(&book);
        let last = text.lines().last().unwrap();
        assert!(last.starts_with("all 104400 1500000 1500000 0"), "{text}");
    }

    #[test]
    fn longest_report() {
        // 16 operators, the largest pot, one of them unmarked.
        let mut marked = operator(4_000_000, 100_000_000_000);
        marked.marks = vec![true; 6];
        let mut book = Book::fresh();
        book.operators.fill(marked);
        book.operators[0].marks = vec![false; 6];
        book.pot_rate = 20_000;
        book.cap_rate = 20_000;
        let text = reported(&book);
        assert!(text.contains("0 7966 2000000000 32000000000 2000000000\n"));
        assert!(text.contains("15 0 2000000000 0 -133333333\n"));
        assert!(text.ends_with("all 7966 32000000000 32000000000 0\n"));
        assert!(text.len() < 1000);
    }

    /// The words of a line as numbers, but for the first word.
    fn numbers(line: &str) -> Vec<i128> {
        let words = line.split(' ').skip(1);
        words.map(|word| word.parse().unwrap()).collect()
    }

    /// Each line but the first has a number in every column, and the last one
    /// has their sums, of which contributions and returns are the same.
    fn has_sums(text: &str, operators: u32) {
        let rows: Vec<Vec<i128>> = text.lines().skip(1).map(numbers).collect();
        assert_eq!(rows.len(), operators as usize + 1);
        assert!(rows.iter().all(|row| row.len() == 4), "{text}");
        let (last, rows) = rows.split_last().unwrap();
        let sums: Vec<i128> = (0..4)
            .map(|column| rows.iter().map(|row| row[column]).sum())
            .collect();
        assert_eq!(*last, sums, "{text}");
        assert_eq!((last[1], last[3]), (last[2], 0), "{text}");
        assert!(text.lines().last().unwrap().starts_with("all "), "{text}");
    }

    #[test]
    fn last_lines_of_many_reports() {
        let book = |number: u64| {
            let mut book = Book::fresh();
            let reading = read(&mut book, &generator::filing(2, number));
            (reading.refusal.is_none() && settle(&book).0 == Answer::Yes).then_some(book)
        };
        let books: Vec<Book> = (0..1000).filter_map(book).collect();
        assert!(books.len() > 600, "{}", books.len());
        for book in &books {
            has_sums(&reported(book), book.joined_mask().count_ones());
        }
    }
}
