//! Decimal numbers in the words of the command line and of the text commands.

use std::str::FromStr;

/// A decimal number without a sign that fits its type.
pub fn number<T: FromStr>(word: &str) -> Result<T, String> {
    parsed(word, word)
}

/// A decimal number of 64 bits that may have a minus sign.
pub fn signed_number(word: &str) -> Result<i64, String> {
    parsed(word, word.strip_prefix('-').unwrap_or(word))
}

/// Decimal numbers that fit their type, with single spaces between them.
pub fn numbers<T: FromStr>(line: &str) -> Result<Vec<T>, String> {
    line.split(' ').map(number).collect()
}

/// The word as a number; the digits are the word without its sign. They are
/// judged here because parsing would take a plus sign too.
fn parsed<T: FromStr>(word: &str, digits: &str) -> Result<T, String> {
    if digits.is_empty() || !digits.bytes().all(|byte| byte.is_ascii_digit()) {
        return Err(format!("not a decimal number: {word:?}"));
    }
    word.parse()
        .map_err(|_| format!("past the width of its place: {word}"))
}

#[cfg(test)]
mod tests {
    use super::*;

    #[test]
    fn numbers_are_plain_decimals() {
        assert_eq!(
            numbers("0 7 18446744073709551615"),
            Ok(vec![0, 7, u64::MAX])
        );
        for line in [
            "18446744073709551616",
            "-1",
            "+1",
            "1  2",
            " 1",
            "1 ",
            "a",
            "1\t2",
        ] {
            assert!(numbers::<u64>(line).is_err(), "{line:?}");
        }
    }

    #[test]
    fn a_word_without_digits_is_no_number() {
        let refused = |word: &str| format!("not a decimal number: {word:?}");
        assert_eq!(number::<u8>(""), Err(refused("")));
        assert_eq!(signed_number("-"), Err(refused("-")));
    }

    #[test]
    fn numbers_fit_their_type() {
        assert_eq!(number("255"), Ok(255_u8));
        assert!(number::<u8>("256").is_err());
        assert_eq!(numbers("0 255"), Ok(vec![0_u8, 255]));
        assert!(numbers::<u8>("0 256").is_err());
    }

    #[test]
    fn signed_numbers() {
        assert_eq!(signed_number("-9223372036854775808"), Ok(i64::MIN));
        assert_eq!(signed_number("9223372036854775807"), Ok(i64::MAX));
        for word in [
            "-9223372036854775809",
            "9223372036854775808",
            "-",
            "--1",
            "+1",
            "",
        ] {
            assert!(signed_number(word).is_err(), "{word:?}");
        }
    }
}
