//! The text commands of the subcommands `calls` and `encode`: filing calls, the
//! sector that they are of, raw values put into the book, and the book, its
//! settlement or a sheet of it printed on one line.

use crate::book::{Book, Operator, NUMBERED_SETTINGS};
use crate::book::{FIGURES, INDICATORS, INDICES, OPERATORS, SETTINGS, YEARS};
use crate::calls::{Answer, Interruption, Reason};
use crate::filing::{self, Field};
use crate::numbers::{number, signed_number};
use crate::sector::Sector;
use crate::settlement;
use crate::sheet;
use std::fmt::Display;

/// Answer to one command; filing calls, `fresh` and `store` alter the book. These
/// two and `show` answer with the whole book. After `gas` or `electricity`, which
/// answer with nothing, the filing calls and `settle` are those of that sector.
pub fn answer(book: &mut Book, line: &str) -> Result<String, String> {
    let words: Vec<&str> = line.split(' ').collect();
    match words[0] {
        "fresh" => {
            let [] = after(&words)?;
            *book = Book::fresh_in(book.sector);
            Ok(show(book))
        }
        "gas" => lend_to(Sector::Gas, book, &words),
        "electricity" => lend_to(Sector::Electricity, book, &words),
        "store" => {
            store(book, &words)?;
            Ok(show(book))
        }
        "show" => {
            let [] = after(&words)?;
            Ok(show(book))
        }
        "settle" => {
            let [] = after(&words)?;
            Ok(settle(book))
        }
        "sheet" => {
            let [operator, year] = after(&words)?;
            Ok(show_sheet(book, number(operator)?, number(year)?))
        }
        _ => Ok(answer_words(filing::apply(book, &field(&words)?))),
    }
}

/// From now on the calls are those of that sector; the values of the book stay.
fn lend_to(sector: Sector, book: &mut Book, words: &[&str]) -> Result<String, String> {
    let [] = after(words)?;
    book.sector = sector;
    Ok(String::new())
}

/// The bytes of the field that a filing call's line names.
pub fn encode(line: &str) -> Result<Vec<u8>, String> {
    let words: Vec<&str> = line.split(' ').collect();
    Ok(filing::encode(&field(&words)?))
}

/// The words after the first, which must be just as many as are asked for.
fn after<'a, const COUNT: usize>(words: &[&'a str]) -> Result<[&'a str; COUNT], String> {
    <[&str; COUNT]>::try_from(&words[1..]).map_err(|_| {
        format!(
            "{}: expected {COUNT} words after it, found {}",
            words[0],
            words.len() - 1
        )
    })
}

// Filing calls.

/// The field of the filing call that the words name.
fn field(words: &[&str]) -> Result<Field, String> {
    match words[0] {
        "join" => join(words),
        "setting" => setting(words),
        "interruption" => interruption(words),
        "amount" => amount(words),
        "mark" => mark(words),
        "rates" => rates(words),
        "index" => index(words),
        other => Err(format!("unknown command {other:?}")),
    }
}

fn join(words: &[&str]) -> Result<Field, String> {
    let [operator] = after(words)?;
    Ok(Field::Join {
        operator: number(operator)?,
    })
}

fn setting(words: &[&str]) -> Result<Field, String> {
    let [operator, which, value] = after(words)?;
    Ok(Field::Setting {
        operator: number(operator)?,
        which: number(which)?,
        value: number(value)?,
    })
}

fn interruption(words: &[&str]) -> Result<Field, String> {
    let [operator, sign, level, cause, start, end, weight] = after(words)?;
    Ok(Field::Interruption(Interruption {
        operator: number(operator)?,
        sign: number(sign)?,
        level: number(level)?,
        cause: number(cause)?,
        start: signed_number(start)?,
        end: signed_number(end)?,
        weight: number(weight)?,
    }))
}

fn amount(words: &[&str]) -> Result<Field, String> {
    let [operator, year, figure, sign, value] = after(words)?;
    Ok(Field::Amount {
        operator: number(operator)?,
        year: number(year)?,
        figure: number(figure)?,
        sign: number(sign)?,
        value: number(value)?,
    })
}

fn mark(words: &[&str]) -> Result<Field, String> {
    let [operator, indicator, mark] = after(words)?;
    Ok(Field::Mark {
        operator: number(operator)?,
        indicator: number(indicator)?,
        mark: number(mark)?,
    })
}

fn rates(words: &[&str]) -> Result<Field, String> {
    let [pot, cap] = after(words)?;
    Ok(Field::Rates {
        pot: number(pot)?,
        cap: number(cap)?,
    })
}

fn index(words: &[&str]) -> Result<Field, String> {
    let [which, value] = after(words)?;
    Ok(Field::Index {
        number: number(which)?,
        value: number(value)?,
    })
}

// Raw values.

/// Puts a raw value into the book, whether in its range or not.
fn store(book: &mut Book, words: &[&str]) -> Result<(), String> {
    match words.get(1).copied() {
        Some("joined") => {
            let [_, mask] = after(words)?;
            book.put_joined_mask(number(mask)?);
        }
        Some("marks") => {
            let [_, indicator, mask] = after(words)?;
            book.put_mark_mask(place(indicator, INDICATORS)?, number(mask)?);
        }
        Some("setting") => store_setting(book, words)?,
        Some("figure") => store_figure(book, words)?,
        Some("pot") => {
            let [_, rate] = after(words)?;
            book.pot_rate = u128::from(number::<u32>(rate)?);
        }
        Some("cap") => {
            let [_, rate] = after(words)?;
            book.cap_rate = u128::from(number::<u32>(rate)?);
        }
        Some("index") => {
            let [_, index, value] = after(words)?;
            let index = &mut book.indices[place(index, INDICES)?];
            *index = u128::from(number::<u32>(value)?);
        }
        Some(other) => return Err(format!("store: unknown value {other:?}")),
        None => return Err("store: expected what to store".to_string()),
    }
    Ok(())
}

fn store_setting(book: &mut Book, words: &[&str]) -> Result<(), String> {
    let [_, operator, which, value] = after(words)?;
    let operator = &mut book.operators[place(operator, OPERATORS)?];
    let setting = NUMBERED_SETTINGS[place(which, SETTINGS)?];
    operator.put_setting(setting, u128::from(number::<u64>(value)?));
    Ok(())
}

fn store_figure(book: &mut Book, words: &[&str]) -> Result<(), String> {
    let [_, operator, year, figure, value] = after(words)?;
    let operator = &mut book.operators[place(operator, OPERATORS)?];
    let figure = &mut operator.figures[place(year, YEARS)?][place(figure, FIGURES)?];
    *figure = u128::from(number::<u64>(value)?);
    Ok(())
}

/// A place in the book, below `count`.
fn place(word: &str, count: usize) -> Result<usize, String> {
    let place = number(word)?;
    if place >= count {
        return Err(format!("no such place in the book: {word}"));
    }
    Ok(place)
}

// What is shown.

/// The whole book on one line: the joined operators, pot rate and cap rate, then
/// as lists the marks by indicator, the indices, and by operator the settings and
/// the figures.
fn show(book: &Book) -> String {
    let operators = &book.operators;
    let figures = |operator: &Operator| operator.figures.concat();
    let lists = [
        list((0..INDICATORS).map(|indicator| book.mark_mask(indicator))),
        list(&book.indices),
        list(operators.iter().flat_map(Operator::settings)),
        list(operators.iter().flat_map(figures)),
    ];
    let (joined, pot, cap) = (book.joined_mask(), book.pot_rate, book.cap_rate);
    format!("{joined} {pot} {cap}{}", lists.concat())
}

/// The answer and the whole settlement on one line: the pot, then as lists the
/// pools, the points by indicator and operator, contributions, returns, limits and
/// adjustments.
fn settle(book: &Book) -> String {
    let (answer, settlement) = settlement::settle(book);
    let (points, money) = (&settlement.points, &settlement.money);
    let at_indicator = |indicator: usize| points.points.iter().map(move |of| of[indicator]);
    let lists = [
        list(&points.pools),
        list((0..INDICATORS).flat_map(at_indicator)),
        list(&money.contributions),
        list(&money.returns),
        list(&money.limits),
        list(&money.adjustments),
    ];
    format!("{} {}{}", answer_words(answer), money.pot, lists.concat())
}

/// The answer and the five counts, which are shown even if they are 0.
fn show_sheet(book: &Book, operator: u8, year: u8) -> String {
    let (answer, counts) = sheet::sheet(book, operator, year);
    let counts = counts.map(|count| format!(" {count}"));
    format!("{}{}", answer_words(answer), counts.concat())
}

/// The numbers of a list that are not 0, each with its place.
fn list(numbers: impl IntoIterator<Item = impl Display>) -> String {
    let shown = |(place, number): (usize, String)| match number.as_str() {
        "0" => String::new(),
        _ => format!(" {place}:{number}"),
    };
    let numbers = numbers.into_iter().map(|number| number.to_string());
    format!(" |{}", numbers.enumerate().map(shown).collect::<String>())
}

fn answer_words(answer: Answer) -> String {
    match answer {
        Answer::Yes => "yes".to_string(),
        Answer::Counted { year } => format!("counted {year}"),
        Answer::LeftOut(Reason::Short) => "left out short".to_string(),
        Answer::LeftOut(Reason::Planned) => "left out planned".to_string(),
        Answer::LeftOut(Reason::Coupled) => "left out coupled".to_string(),
        Answer::LeftOut(Reason::Exceptional) => "left out exceptional".to_string(),
        Answer::Refused(number) => format!("refused {number}"),
    }
}

#[cfg(test)]
mod tests {
    use super::*;
    use crate::case_m;

    const FRESH: &str = "0 0 0 | | 0:10000 1:10000 2:10000 3:10000 | |";
    /// In place of the answer to a store: the book afterwards.
    const STORED: &str = "stored";

    /// Gives the commands in order to one book and checks each answer.
    fn run(commands: &[(&str, &str)]) -> Book {
        let mut book = Book::fresh();
        for (command, expected) in commands {
            let answer = answer(&mut book, command);
            let expected = match *expected {
                STORED => show(&book),
                answer => answer.to_string(),
            };
            assert_eq!(answer, Ok(expected), "{command}");
        }
        book
    }

    #[test]
    fn every_answer() {
        run(&[
            ("mark 0 0 1", "refused 7"),
            ("join 0", "yes"),
            ("join 0", "refused 6"),
            ("join 16", "refused 4"),
            ("join 255", "refused 4"),
            ("mark 0 6 1", "refused 5"),
            ("interruption 0 0 0 0 0 180 1", "left out short"),
            ("interruption 0 0 0 1 0 181 1", "left out planned"),
            ("interruption 0 0 0 2 0 181 1", "left out coupled"),
            ("interruption 0 0 0 3 0 181 1", "left out exceptional"),
            ("interruption 0 0 0 4 0 181 1", "counted 0"),
            ("interruption 0 0 0 0 -181 0 1", "counted 0"),
            ("interruption 0 0 0 0 31535000 31536000 1", "counted 1"),
            ("interruption 0 0 0 0 94607000 94607999 1", "counted 2"),
            ("interruption 0 0 0 0 94607000 94608000 1", "refused 15"),
            ("interruption 0 0 0 0 -31536001 0 1", "refused 15"),
            ("interruption 0 0 0 0 1 0 1", "refused 14"),
            (
                "interruption 0 0 0 0 -9223372036854775808 9223372036854775807 1",
                "refused 15",
            ),
            (
                "interruption 0 0 0 0 9223372036854775807 -9223372036854775808 1",
                "refused 14",
            ),
            (
                "interruption 0 0 0 0 -9223372036854775808 9223372036854775807 4294967295",
                "refused 5",
            ),
            ("amount 0 0 4 0 100000000000", "yes"),
            ("amount 0 0 4 0 18446744073709551615", "refused 8"),
            ("amount 0 0 4 1 18446744073709551615", "refused 9"),
            ("amount 0 0 4 0 1", "refused 8"),
            ("amount 0 0 5 1 1", "refused 9"),
            ("fresh", FRESH),
            ("show", FRESH),
        ]);
    }

    #[test]
    fn shown_book() {
        run(&[
            ("show", FRESH),
            ("join 2", "yes"),
            ("join 15", "yes"),
            ("setting 2 0 7", "yes"),
            ("setting 2 1 8", "yes"),
            ("setting 2 2 9", "yes"),
            ("setting 2 3 5", "yes"),
            ("setting 2 4 6", "yes"),
            ("setting 15 4 3", "yes"),
            ("amount 2 0 0 0 11", "yes"),
            ("amount 2 0 7 0 12", "yes"),
            ("amount 2 1 0 0 13", "yes"),
            ("amount 2 2 7 0 14", "yes"),
            ("amount 2 0 8 0 15", "yes"),
            ("amount 2 0 12 0 16", "yes"),
            ("amount 2 2 12 0 17", "yes"),
            ("mark 15 0 0", "yes"),
            ("mark 2 5 0", "yes"),
            ("mark 2 4 0", "yes"),
            ("mark 2 4 1", "yes"),
            ("rates 5000 10000", "yes"),
            ("index 0 1", "yes"),
            ("index 3 4", "yes"),
            (
                "show",
                "32772 5000 10000 | 0:4 1:32772 2:32772 3:32772 4:32772 5:32768 \
                 | 0:1 1:10000 2:10000 3:4 | 10:7 11:8 12:9 13:5 14:6 79:3 \
                 | 78:11 85:12 86:15 90:16 91:13 111:14 116:17",
            ),
        ]);
    }

    #[test]
    fn stored_values() {
        let book = run(&[
            ("store joined 3", STORED),
            ("store marks 4 65535", STORED),
            ("store setting 1 0 18446744073709551615", STORED),
            ("store setting 1 1 2", STORED),
            ("store setting 1 2 3", STORED),
            ("store setting 1 3 7", STORED),
            ("store setting 1 4 8", STORED),
            ("store setting 15 4 18446744073709551615", STORED),
            ("store figure 1 2 7 4", STORED),
            ("store figure 14 0 0 5", STORED),
            ("store figure 14 1 12 18446744073709551615", STORED),
            ("store pot 4294967295", STORED),
            ("store cap 6", STORED),
            ("store index 2 0", STORED),
            ("rates 0 0", "refused 5"),
            ("join 200", "refused 5"),
        ]);
        let mut expected = Book::fresh();
        expected.operators[0].joined = true;
        expected.operators[1].joined = true;
        for k in 0..16 {
            expected.operators[k].marks[4] = true;
        }
        expected.operators[1].cabins = [18_446_744_073_709_551_615, 7, 8];
        expected.operators[15].cabins = [0, 0, 18_446_744_073_709_551_615];
        expected.operators[1].access_points = 2;
        expected.operators[1].income = 3;
        expected.operators[1].figures[2][7] = 4;
        expected.operators[14].figures[0][0] = 5;
        expected.operators[14].figures[1][12] = 18_446_744_073_709_551_615;
        expected.pot_rate = 4_294_967_295;
        expected.cap_rate = 6;
        expected.indices[2] = 0;
        assert_eq!(book, expected);
    }

    #[test]
    fn all_operators_are_shown() {
        run(&[
            (
                "store setting 1 0 5",
                "0 0 0 | | 0:10000 1:10000 2:10000 3:10000 | 5:5 |",
            ),
            (
                "store marks 3 8",
                "0 0 0 | 3:8 | 0:10000 1:10000 2:10000 3:10000 | 5:5 |",
            ),
            (
                "store figure 15 2 12 6",
                "0 0 0 | 3:8 | 0:10000 1:10000 2:10000 3:10000 | 5:5 | 623:6",
            ),
            (
                "store joined 2",
                "2 0 0 | 3:8 | 0:10000 1:10000 2:10000 3:10000 | 5:5 | 623:6",
            ),
            (
                "store setting 15 4 7",
                "2 0 0 | 3:8 | 0:10000 1:10000 2:10000 3:10000 | 5:5 79:7 | 623:6",
            ),
            (
                "store setting 15 4 0",
                "2 0 0 | 3:8 | 0:10000 1:10000 2:10000 3:10000 | 5:5 | 623:6",
            ),
        ]);
    }

    #[test]
    fn shown_sheets() {
        run(&[
            ("sheet 0 0", "refused 7 0 0 0 0 0"),
            ("sheet 16 3", "refused 4 0 0 0 0 0"),
            ("sheet 255 255", "refused 4 0 0 0 0 0"),
            ("sheet 0 3", "refused 5 0 0 0 0 0"),
            ("join 0", "yes"),
            ("sheet 0 0", "yes 0 0 0 0 0"),
            ("sheet 0 255", "refused 5 0 0 0 0 0"),
            ("interruption 0 0 0 0 0 181 9", "counted 0"),
            ("interruption 0 0 0 0 0 180 9", "left out short"),
            ("interruption 0 0 0 1 0 181 9", "left out planned"),
            ("amount 0 0 11 0 100000000000", "yes"),
            ("amount 0 1 12 0 5", "yes"),
            ("amount 0 0 13 0 5", "refused 5"),
            ("interruption 0 0 0 2 0 181 9", "refused 8"),
            ("interruption 0 1 0 3 0 181 9", "refused 9"),
            ("sheet 0 0", "yes 1 1 1 100000000000 0"),
            ("sheet 0 1", "yes 0 0 0 0 5"),
            ("interruption 0 1 1 4 0 20 1", "left out short"),
            ("sheet 0 0", "yes 1 0 1 100000000000 0"),
            ("store pot 20001", STORED),
            ("sheet 0 0", "refused 5 0 0 0 0 0"),
            ("sheet 16 0", "refused 5 0 0 0 0 0"),
        ]);
    }

    #[test]
    fn settled_book() {
        let mut commands: Vec<_> = case_m::calls().iter().map(|&call| (call, "yes")).collect();
        let book = run(&commands);
        commands.push((
            "settle",
            "yes 1500000 | 0:46200 1:37800 2:19800 3:16200 4:6000 5:1500 \
             | 0:23100 1:23100 16:18900 17:18900 32:9900 33:9900 48:8100 49:8100 \
             64:4286 65:1714 80:750 81:750 | 0:375000 1:1125000 | 0:386463 1:1113537 \
             | 0:1000000 1:2000000 | 0:11463 1:-11463",
        ));
        assert_eq!(run(&commands), book);
        commands.push(("rates 5000 50", "yes"));
        commands.push((
            "settle",
            "yes 1500000 | 0:46200 1:37800 2:19800 3:16200 4:6000 5:1500 \
             | 0:23100 1:23100 16:18900 17:18900 32:9900 33:9900 48:8100 49:8100 \
             64:4286 65:1714 80:750 81:750 | 0:375000 1:1125000 | 0:386463 1:1113537 \
             | 0:5000 1:10000 | 0:5000 1:-5000",
        ));
        run(&commands);
    }

    #[test]
    fn settled_operators_rise() {
        run(&[
            ("join 15", "yes"),
            ("setting 15 0 1", "yes"),
            ("setting 15 1 1", "yes"),
            ("setting 15 3 1", "yes"),
            ("setting 15 4 1", "yes"),
            ("join 2", "yes"),
            ("setting 2 0 1", "yes"),
            ("setting 2 1 1", "yes"),
            ("setting 2 3 1", "yes"),
            ("setting 2 4 1", "yes"),
            ("mark 2 0 0", "yes"),
            ("mark 15 0 0", "yes"),
            ("mark 15 5 0", "yes"),
            (
                "settle",
                "yes 0 | 0:46200 5:750 | 2:23100 15:23100 95:750 | | | |",
            ),
        ]);
    }

    #[test]
    fn refused_settlements() {
        let book = run(&[
            ("settle", "refused 10 0 | | | | | |"),
            ("join 3", "yes"),
            ("settle", "refused 11 0 | | | | | |"),
            ("setting 3 0 1", "yes"),
            ("settle", "refused 11 0 | | | | | |"),
            ("setting 3 1 1", "yes"),
            ("settle", "refused 11 0 | | | | | |"),
            ("setting 3 4 1", "yes"),
            ("settle", "refused 11 0 | | | | | |"),
            ("setting 3 3 1", "yes"),
            ("settle", "refused 12 0 | | | | | |"),
            ("mark 3 4 0", "yes"),
            ("settle", "yes 0 | 4:6000 | 67:6000 | | | |"),
            ("mark 3 4 1", "yes"),
            ("settle", "refused 12 0 | | | | | |"),
            ("store index 0 0", STORED),
            ("settle", "refused 5 0 | | | | | |"),
        ]);
        let mut expected = Book::fresh();
        expected.operators[3].joined = true;
        expected.operators[3].cabins = [1; 3];
        expected.operators[3].access_points = 1;
        expected.operators[3].marks = vec![true; 6];
        expected.indices[0] = 0;
        assert_eq!(book, expected);
    }

    #[test]
    fn a_book_made_sound_again_is_taken() {
        run(&[
            ("store pot 20001", STORED),
            ("join 0", "refused 5"),
            ("store pot 20000", STORED),
            ("join 0", "yes"),
            ("store joined 0", STORED),
            // The marks of the join are left.
            ("index 0 5", "refused 5"),
            ("store joined 1", STORED),
            ("index 0 5", "yes"),
            ("store setting 1 3 1", STORED),
            ("index 0 6", "refused 5"),
            ("store joined 3", STORED),
            ("index 0 6", "yes"),
            ("store setting 1 4 100001", STORED),
            ("index 0 7", "refused 5"),
            ("store setting 1 4 100000", STORED),
            ("index 0 7", "yes"),
        ]);
    }

    #[test]
    fn calls_of_gas() {
        let book = run(&[
            ("gas", ""),
            ("show", FRESH),
            ("settle", "refused 10 0 | | | | | |"),
            ("join 3", "yes"),
            ("setting 3 0 0", "refused 5"),
            ("amount 3 0 8 0 0", "refused 5"),
            ("mark 3 3 0", "refused 5"),
            ("interruption 3 0 0 0 0 181 1", "refused 2"),
            ("interruption 4 0 0 0 0 181 1", "refused 2"),
            ("interruption 16 0 0 0 0 181 1", "refused 2"),
            ("interruption 3 0 0 0 1 0 1", "refused 2"),
            ("interruption 3 0 0 0 0 94608000 1", "refused 2"),
            ("store cap 20001", STORED),
            ("interruption 3 0 0 0 0 181 1", "refused 5"),
            ("interruption 16 0 0 0 0 181 1", "refused 5"),
            ("interruption 3 0 0 0 1 0 1", "refused 5"),
            ("store cap 0", STORED),
            ("settle", "refused 11 0 | | | | | |"),
            ("setting 3 1 1", "yes"),
            ("settle", "refused 12 0 | | | | | |"),
            ("mark 3 5 0", "yes"),
            ("settle", "yes 0 | 5:1500 | 83:1500 | | | |"),
            ("fresh", FRESH),
            // Still gas.
            ("join 3", "yes"),
            (
                "show",
                "8 0 0 | 4:8 5:8 | 0:10000 1:10000 2:10000 3:10000 | |",
            ),
        ]);
        assert_eq!(book.sector, Sector::Gas);
    }

    #[test]
    fn one_book_for_both_sectors() {
        let book = run(&[
            ("join 3", "yes"),
            ("gas", ""),
            ("gas", ""),
            ("rates 1 2", "refused 5"),
            ("interruption 3 0 0 0 0 181 1", "refused 5"),
            // The sheet is electricity's.
            ("sheet 3 0", "yes 0 0 0 0 0"),
            ("electricity", ""),
            ("rates 1 2", "yes"),
            ("interruption 3 0 0 0 0 181 1", "counted 0"),
            ("gas", ""),
            ("settle", "refused 5 0 | | | | | |"),
            ("sheet 3 0", "yes 1 0 0 0 0"),
            ("store pot 20001", STORED),
            ("sheet 3 0", "refused 5 0 0 0 0 0"),
            ("fresh", FRESH),
            ("join 4", "yes"),
            ("electricity", ""),
            ("join 5", "yes"),
            (
                "show",
                "48 0 0 | 0:32 1:32 2:32 3:32 4:48 5:48 | 0:10000 1:10000 2:10000 3:10000 | |",
            ),
        ]);
        assert_eq!(book.sector, Sector::Electricity);
    }

    #[test]
    fn encoded_commands() {
        for (command, bytes) in [
            ("join 16", vec![1, 0, 1, 16]),
            (
                "setting 1 2 258",
                vec![2, 0, 10, 1, 2, 0, 0, 0, 0, 0, 0, 1, 2],
            ),
            (
                "interruption 1 0 1 4 -1 772 16909060",
                vec![
                    3, 0, 24, 1, 0, 1, 4, 255, 255, 255, 255, 255, 255, 255, 255, 0, 0, 0, 0, 0, 0,
                    3, 4, 1, 2, 3, 4,
                ],
            ),
            (
                "amount 1 2 3 0 18446744073709551615",
                vec![4, 0, 12, 1, 2, 3, 0, 255, 255, 255, 255, 255, 255, 255, 255],
            ),
            ("mark 1 2 1", vec![5, 0, 3, 1, 2, 1]),
            ("rates 256 1", vec![6, 0, 8, 0, 0, 1, 0, 0, 0, 0, 1]),
            ("index 3 10000", vec![7, 0, 5, 3, 0, 0, 39, 16]),
        ] {
            assert_eq!(encode(command), Ok(bytes), "{command}");
        }
    }

    #[test]
    fn only_filing_calls_are_fields() {
        for command in [
            "fresh",
            "show",
            "settle",
            "store pot 1",
            "sheet 0 0",
            "gas",
            "electricity",
        ] {
            assert!(encode(command).is_err(), "{command}");
        }
    }

    const MALFORMED: &[&str] = &[
        "",
        " ",
        "joins 0",
        "Join 0",
        "join",
        "join ",
        "join  0",
        " join 0",
        "join 0 ",
        "join 0 0",
        "join 256",
        "join -1",
        "join +1",
        "join x",
        "join\t0",
        "fresh 0",
        "show 0",
        "gas 0",
        "gas ",
        "Gas",
        "electricity 0",
        "sheet",
        "sheet 0",
        "sheet 0 0 0",
        "sheet 256 0",
        "sheet 0 256",
        "sheet 0 -1",
        "Sheet 0 0",
        "settle 0",
        "settle ",
        "Settle",
        "setting 0 0",
        "setting 0 0 18446744073709551616",
        "setting 0 256 0",
        "setting 0 0 -1",
        "interruption 0 0 0 0 0 0",
        "interruption 0 0 0 0 0 0 1 1",
        "interruption 0 0 0 0 0 0 4294967296",
        "interruption 0 0 0 0 9223372036854775808 0 1",
        "interruption 0 0 0 0 -9223372036854775809 0 1",
        "interruption 0 0 0 0 - 0 1",
        "interruption 0 0 0 0 --1 0 1",
        "interruption 0 0 0 0 +1 0 1",
        "interruption 0 0 0 0 0 0 -1",
        "amount 0 0 0 0",
        "amount 0 0 0 256 0",
        "mark 0 0",
        "mark 0 0 256",
        "rates 0",
        "rates 0 4294967296",
        "index 0",
        "index 0 4294967296",
        "store",
        "store joined",
        "store joined 65536",
        "store joined 0 0",
        "store marks 6 0",
        "store marks 0 65536",
        "store setting",
        "store setting 0",
        "store setting 0 0",
        "store setting 0 0 0 0",
        "store setting 16 0 0",
        "store setting 0 5 0",
        "store setting 0 255 0",
        "store setting 0 4 18446744073709551616",
        "store setting 0 -1 0",
        "store cabins 0 0",
        "store access 0 0",
        "store income 0 0",
        "store cabins 0 0 0",
        "store figure 0 3 0 0",
        "store figure 0 0 13 0",
        "store figure 16 0 0 0",
        "store figure 0 0 0",
        "store pot 4294967296",
        "store cap -1",
        "store index 4 0",
        "store index 0",
        "store rates 0 0",
    ];

    /// Refused by both subcommands, with the book left.
    fn is_malformed(command: &str) {
        let mut book = Book::fresh();
        assert!(answer(&mut book, command).is_err(), "{command:?}");
        assert_eq!(book, Book::fresh(), "{command:?}");
        assert!(encode(command).is_err(), "{command:?}");
    }

    #[test]
    fn malformed_commands() {
        MALFORMED.iter().for_each(|command| is_malformed(command));
    }
}
