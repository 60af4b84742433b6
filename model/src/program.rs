//! The programs that read `filing.q`: what each makes of its bytes. `None` stands
//! for a missing file.

use crate::book::Book;
use crate::calls::Answer;
use crate::filing::read;
use crate::report::report;
use crate::sector::Sector;
use crate::sheet::{sheet, NAMES};
use crate::writer::written;

/// The longest filing that the programs read, in bytes.
pub const MOST_READ: usize = 65_536;

/// Room for any report: a line has at most 46 bytes, and there are at most 18.
const REPORT_ROOM: usize = 1000;

/// What the program that settles prints.
/// Follows 01: "A refused field prints `refused 4 at 0` (number, offset); a
/// refused settlement `refused 10`. Such a line, and `too long`, ends with byte
/// 10 and nothing else is printed."
pub fn printed(file: Option<&[u8]>) -> Vec<u8> {
    printed_in(Sector::Electricity, file)
}

/// The same of the program for that sector.
pub fn printed_in(sector: Sector, file: Option<&[u8]>) -> Vec<u8> {
    match book_of(sector, file) {
        Ok(book) => reported(&book),
        Err(line) => line,
    }
}

/// The written filing of the book, which the program that rewrites puts on
/// standard output; or the line that it puts on standard error instead.
pub fn rewritten(file: Option<&[u8]>) -> Result<Vec<u8>, Vec<u8>> {
    rewritten_in(Sector::Electricity, file)
}

/// The same of the program for that sector.
pub fn rewritten_in(sector: Sector, file: Option<&[u8]>) -> Result<Vec<u8>, Vec<u8>> {
    Ok(written(&book_of(sector, file)?))
}

/// What the program that prints a sheet puts on standard output. What stops it from
/// reading the file is told as by the program that settles.
pub fn sheet_printed(file: Option<&[u8]>, operator: u8, year: u8) -> Vec<u8> {
    match book_of(Sector::Electricity, file) {
        Ok(book) => sheet_lines(&book, operator, year),
        Err(line) => line,
    }
}

/// The five counts, each on a line with its name; or the line of the refusal.
fn sheet_lines(book: &Book, operator: u8, year: u8) -> Vec<u8> {
    let (answer, counts) = sheet(book, operator, year);
    if let Answer::Refused(number) = answer {
        return refused_line(number);
    }
    let lines = NAMES.iter().zip(counts);
    lines
        .flat_map(|(name, count)| format!("{name} {count}\n").into_bytes())
        .collect()
}

/// The book that a file makes of a fresh one, or the line that tells why not.
/// Follows 01: "The program reads `filing.q`, at most 65,536 bytes (a longer
/// file prints `too long`, a missing one counts as empty)".
fn book_of(sector: Sector, file: Option<&[u8]>) -> Result<Book, Vec<u8>> {
    let filing = file.unwrap_or(&[]);
    if filing.len() > MOST_READ {
        return Err(b"too long\n".to_vec());
    }
    let mut book = Book::fresh_in(sector);
    let reading = read(&mut book, filing);
    match reading.refusal {
        Some(number) => Err(format!("refused {number} at {}\n", reading.offset).into_bytes()),
        None => Ok(book),
    }
}

fn reported(book: &Book) -> Vec<u8> {
    let mut buffer = vec![0; REPORT_ROOM];
    match report(book, &mut buffer) {
        Ok(length) => {
            buffer.truncate(length);
            buffer
        }
        Err(number) => refused_line(number),
    }
}

fn refused_line(number: u8) -> Vec<u8> {
    format!("refused {number}\n").into_bytes()
}

#[cfg(test)]
mod tests {
    use super::*;
    use crate::case_m;
    use crate::script;

    /// An operator with its settings in, and no attestation.
    const FRESHLY_JOINED: [&str; 5] = [
        "join 0",
        "setting 0 0 1",
        "setting 0 1 1",
        "setting 0 3 1",
        "setting 0 4 1",
    ];

    /// The filing of text commands.
    fn encoded(commands: &[&str]) -> Vec<u8> {
        let mut filing = Vec::new();
        for command in commands {
            filing.extend(script::encode(command).unwrap());
        }
        filing
    }

    /// The settlement is printed so; the line of a refused field or of a file
    /// that is too long is also what comes of rewriting, and no other is.
    fn prints(filing: &[u8], expected: &str) {
        let output = String::from_utf8(printed(Some(filing))).unwrap();
        assert_eq!(output, expected);
        let line = expected.as_bytes().to_vec();
        let is_unread = expected.contains(" at ") || expected == "too long\n";
        assert_eq!(rewritten(Some(filing)).err(), is_unread.then_some(line));
    }

    /// The filing of the calls is rewritten as that of the others, which is
    /// rewritten as itself and settles as the first.
    fn rewrites(calls: &[&str], expected: &[&str]) {
        let filing = encoded(calls);
        let expected = encoded(expected);
        assert_eq!(rewritten(Some(&filing)), Ok(expected.clone()), "{calls:?}");
        assert_eq!(rewritten(Some(&expected)), Ok(expected.clone()));
        assert_eq!(printed(Some(&expected)), printed(Some(&filing)));
    }

    #[test]
    fn marked_case_m() {
        prints(&encoded(&case_m::calls()), case_m::PRINTED);
    }

    #[test]
    fn marked_case_m_with_cap_rate_50() {
        let mut filing = encoded(&case_m::calls());
        filing.extend(encoded(&["rates 5000 50"]));
        prints(&filing, &case_m::PRINTED.replace("11463", "5000"));
    }

    #[test]
    fn cabins_in_each_year() {
        // At A1, where alone the marks are cleared, s is 50,000 + 45,000 + 100,000
        // and 200,000; k is 975 and 1000. With settings 3 and 4 exchanged the first
        // s would be 50,000 + 22,500 + 200,000.
        let filing = encoded(&[
            "join 0",
            "setting 0 4 400",
            "setting 0 3 200",
            "setting 0 0 100",
            "setting 0 1 1",
            "amount 0 0 0 0 5",
            "amount 0 1 0 0 9",
            "amount 0 2 0 0 40",
            "mark 0 0 0",
            "join 1",
            "setting 1 0 10",
            "setting 1 1 1",
            "setting 1 3 10",
            "setting 1 4 10",
            "amount 1 1 0 0 2",
            "mark 1 0 0",
        ]);
        prints(
            &filing,
            "operator points out in adjustment\n\
             0 23389 0 0 0\n1 22811 0 0 0\nall 46200 0 0 0\n",
        );
    }

    #[test]
    fn missing_and_empty() {
        assert_eq!(printed(None), b"refused 10\n");
        assert_eq!(printed(Some(&[])), b"refused 10\n");
        assert_eq!(rewritten(None), Ok(Vec::new()));
        assert_eq!(rewritten(Some(&[])), Ok(Vec::new()));
    }

    #[test]
    fn rewritten_in_the_order_of_the_writer() {
        rewrites(
            &[
                "rates 0 7",
                "index 3 1",
                "index 0 2",
                "join 9",
                "join 2",
                "mark 9 5 0",
                "mark 9 0 0",
                "mark 9 1 1",
                "mark 2 3 0",
                "interruption 9 0 0 4 100 300 3",
                "amount 9 2 7 0 5",
                "amount 2 0 6 0 8",
                "setting 9 4 2",
                "setting 9 2 4",
                "setting 9 0 6",
                "setting 2 3 3",
                "setting 2 1 1",
            ],
            &[
                "join 2",
                "join 9",
                "setting 2 1 1",
                "setting 2 3 3",
                "setting 9 0 6",
                "setting 9 2 4",
                "setting 9 4 2",
                "amount 2 0 6 0 8",
                "amount 9 0 0 0 3",
                "amount 9 0 1 0 600",
                "amount 9 0 8 0 1",
                "amount 9 2 7 0 5",
                "mark 2 3 0",
                "mark 9 0 0",
                "mark 9 5 0",
                "index 0 2",
                "index 3 1",
                "rates 0 7",
            ],
        );
    }

    #[test]
    fn fresh_values_and_set_marks_are_not_rewritten() {
        rewrites(&["rates 0 0", "index 2 10000"], &[]);
        rewrites(
            &["rates 5 6", "index 1 1", "rates 0 0", "index 1 10000"],
            &[],
        );
        rewrites(
            &[
                "join 0",
                "setting 0 2 7",
                "setting 0 3 7",
                "mark 0 1 0",
                "amount 0 1 4 0 9",
                "interruption 0 0 1 0 0 181 1",
                "setting 0 2 0",
                "setting 0 3 0",
                "mark 0 1 1",
                "amount 0 1 4 1 9",
                "interruption 0 1 1 0 0 181 1",
                "interruption 0 0 1 0 0 180 1",
                "interruption 0 1 0 1 0 179 7",
            ],
            &["join 0"],
        );
    }

    #[test]
    fn counts_are_rewritten_as_amounts() {
        rewrites(
            &[
                "join 3",
                "interruption 3 0 0 3 0 181 5",
                "interruption 3 0 0 0 31536000 31536181 5",
                "interruption 3 0 1 2 0 181 1",
                "interruption 3 0 0 2 0 181 9",
                "interruption 3 0 0 1 0 181 5",
                "interruption 3 0 0 1 0 180 5",
            ],
            &[
                "join 3",
                "amount 3 0 9 0 1",
                "amount 3 0 10 0 1",
                "amount 3 0 11 0 2",
                "amount 3 0 12 0 1",
                "amount 3 1 0 0 5",
                "amount 3 1 1 0 905",
                "amount 3 1 8 0 1",
            ],
        );
    }

    /// The sheet of operator 3 and that year is printed so.
    fn prints_sheet(filing: &[u8], year: u8, expected: &str) {
        let printed = sheet_printed(Some(filing), 3, year);
        assert_eq!(String::from_utf8(printed).unwrap(), expected);
    }

    #[test]
    fn printed_sheets() {
        let filing = encoded(&[
            "join 3",
            "interruption 3 0 0 0 31535900 31536081 5",
            "interruption 3 0 0 1 31536000 31536180 5",
            "amount 3 1 10 0 100000000000",
            "amount 3 1 12 0 7",
            "interruption 3 0 1 2 0 181 1",
        ]);
        let of_year_1 = "counted 1\nshort 1\nplanned 100000000000\ncoupled 0\nexceptional 7\n";
        prints_sheet(&filing, 1, of_year_1);
        let of_year_0 = "counted 0\nshort 0\nplanned 0\ncoupled 1\nexceptional 0\n";
        prints_sheet(&filing, 0, of_year_0);
        prints_sheet(&filing, 3, "refused 5\n");
        prints_sheet(&filing[..0], 0, "refused 7\n");
        assert_eq!(sheet_printed(None, 3, 0), b"refused 7\n");
        assert_eq!(sheet_printed(Some(&filing), 16, 3), b"refused 4\n");
    }

    #[test]
    fn sheets_of_filings_that_are_not_read() {
        let filing = encoded(&["join 3", "amount 3 0 8 1 1"]);
        prints_sheet(&filing, 0, "refused 9 at 4\n");
        // Before the sheet itself is looked at.
        prints_sheet(&filing, 3, "refused 9 at 4\n");
        prints_sheet(
            &encoded(&["join 3", "amount 3 0 13 0 1"]),
            0,
            "refused 5 at 4\n",
        );
        prints_sheet(&[0; 65_536], 0, "refused 2 at 0\n");
        prints_sheet(&[0; 65_537], 0, "too long\n");
        prints_sheet(&filled(65_536), 0, "refused 7\n");
        prints_sheet(&filled(65_537), 0, "too long\n");
    }

    #[test]
    fn examples_of_the_table() {
        prints(&[0x01, 0x00], "refused 1 at 0\n");
        prints(&[0x63, 0x00, 0x00], "refused 2 at 0\n");
        prints(&[0x01, 0x00, 0x02, 0x00, 0x00], "refused 3 at 0\n");
        prints(&[0x01, 0x00, 0x01, 0x10], "refused 4 at 0\n");
        prints(&[0x05, 0x00, 0x03, 0x00, 0x06, 0x01], "refused 5 at 0\n");
        prints(&encoded(&["join 0", "join 0"]), "refused 6 at 4\n");
        prints(&[0x05, 0x00, 0x03, 0x00, 0x00, 0x01], "refused 7 at 0\n");
        let past = encoded(&["join 0", "amount 0 0 0 0 100000000001"]);
        prints(&past, "refused 8 at 4\n");
        let below = encoded(&["join 0", "amount 0 0 0 1 1"]);
        prints(&below, "refused 9 at 4\n");
        // Six marks without cabins and access points: 11 comes before 12.
        prints(&encoded(&["join 0"]), "refused 11\n");
        prints(&encoded(&FRESHLY_JOINED), "refused 12\n");
        // All but one of the settings.
        for missing in 1..5 {
            let mut calls = FRESHLY_JOINED.to_vec();
            calls.remove(missing);
            prints(&encoded(&calls), "refused 11\n");
        }
    }

    #[test]
    fn which_value_of_an_interruption_was_out_of_range() {
        for (number, call) in [
            (14, "interruption 0 0 0 0 5001 5000 1"),
            (15, "interruption 0 0 0 0 94607000 94608000 1"),
            (15, "interruption 0 0 0 0 -31536001 0 1"),
            (14, "interruption 0 0 0 0 0 -1 1"),
            (5, "interruption 0 0 0 5 5001 5000 1"),
            (14, "interruption 1 0 0 0 5001 5000 1"),
        ] {
            let filing = encoded(&["join 0", "rates 1 1", call, "join 1"]);
            prints(&filing, &format!("refused {number} at 15\n"));
            // What settles is kept from settling.
            let mut filing = encoded(&case_m::calls());
            filing.extend(encoded(&[call]));
            let offset = filing.len() - 27;
            prints(&filing, &format!("refused {number} at {offset}\n"));
        }
        // A start at its end is short and changes no lines.
        let mut filing = encoded(&case_m::calls());
        filing.extend(encoded(&["interruption 0 0 0 0 94607999 94607999 1"]));
        prints(&filing, case_m::PRINTED);
    }

    /// A freshly joined operator settles once this mark is cleared, and not once
    /// it is set again.
    fn settles_once_cleared(indicator: usize, points: u32) {
        let mut filing = encoded(&FRESHLY_JOINED);
        filing.extend(encoded(&[&format!("mark 0 {indicator} 0")[..]]));
        let line = "operator points out in adjustment\n";
        prints(
            &filing,
            &format!("{line}0 {points} 0 0 0\nall {points} 0 0 0\n"),
        );
        filing.extend(encoded(&[&format!("mark 0 {indicator} 1")[..]]));
        prints(&filing, "refused 12\n");
    }

    #[test]
    fn one_cleared_mark_settles() {
        for (indicator, points) in [46_200, 37_800, 19_800, 16_200, 6000, 1500]
            .into_iter()
            .enumerate()
        {
            settles_once_cleared(indicator, points);
        }
    }

    #[test]
    fn filing_of_the_old_default() {
        // Case M without the clearing fields is read, and settles no more.
        let mut calls = case_m::calls();
        calls.retain(|call| !call.starts_with("mark"));
        assert_eq!(calls.len() + 12, case_m::calls().len());
        prints(&encoded(&calls), "refused 12\n");
    }

    #[test]
    fn filing_with_cabins_of_year_0_alone() {
        // Case M as it was before there were settings 3 and 4 is read, and settles
        // no more.
        let is_of_a_later_year = |call: &str| {
            let words: Vec<&str> = call.split(' ').collect();
            words[0] == "setting" && ["3", "4"].contains(&words[2])
        };
        let mut calls = case_m::calls();
        calls.retain(|call| !is_of_a_later_year(call));
        assert_eq!(calls.len() + 4, case_m::calls().len());
        prints(&encoded(&calls), "refused 11\n");
        // With the settings filed afterwards it is case M.
        calls.extend(
            case_m::calls()
                .iter()
                .filter(|call| is_of_a_later_year(call)),
        );
        prints(&encoded(&calls), case_m::PRINTED);
    }

    #[test]
    fn refused_field_prints_nothing_of_the_book() {
        let mut filing = encoded(&case_m::calls());
        let length = filing.len();
        filing.push(1);
        prints(&filing, &format!("refused 1 at {length}\n"));
        filing.extend([0, 1, 1]);
        prints(&filing, &format!("refused 6 at {length}\n"));
    }

    /// Case M, then an index and its rates again and again up to that length.
    fn filled(length: usize) -> Vec<u8> {
        let mut filing = encoded(&case_m::calls());
        let rates = encoded(&["rates 5000 10000"]);
        let index = encoded(&["index 1 10000"]);
        while !(length - filing.len()).is_multiple_of(rates.len()) {
            filing.extend(&index);
        }
        let times = (length - filing.len()) / rates.len();
        filing.extend(rates.repeat(times));
        filing
    }

    #[test]
    fn longest_files() {
        prints(&filled(65_535), case_m::PRINTED);
        prints(&filled(65_536), case_m::PRINTED);
        prints(&filled(65_537), "too long\n");
        prints(&filled(65_538), "too long\n");
        prints(&filled(131_072), "too long\n");
        // A refused field is not looked for in a file that is too long.
        prints(&vec![99; 65_537], "too long\n");
        prints(&vec![0; 65_536], "refused 2 at 0\n");
        // A stray byte at the last place.
        let mut filing = filled(65_535);
        filing.push(1);
        prints(&filing, "refused 1 at 65535\n");
        filing.push(0);
        prints(&filing, "too long\n");
    }
}
