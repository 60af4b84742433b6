//! A filing in the making: its bytes, the book it makes, and the single fields
//! that are drawn for it.

use crate::book::{joined, Book, INDICATORS, INDICES, MOST_FIGURE, OPERATORS, YEARS};
use crate::book::{Setting, NUMBERED_SETTINGS};
use crate::calls::{Answer, Interruption, EARLIEST_START, LATEST_END, YEAR_SECONDS};
use crate::filing::{apply, encode, Field};
use crate::random::Random;
use crate::sector::Sector;

/// 10^11, the most of a figure.
pub const MOST: u64 = MOST_FIGURE as u64;
/// The ends at which something changes: the first and last second of each year.
const YEAR_ENDS: [i64; 6] = [
    0,
    YEAR_SECONDS - 1,
    YEAR_SECONDS,
    2 * YEAR_SECONDS - 1,
    2 * YEAR_SECONDS,
    LATEST_END,
];

/// How values are drawn.
#[derive(Clone, Copy, Debug, PartialEq, Eq)]
pub enum Style {
    Small,
    Wide,
    Digits,
    Ends,
    /// One of the few values of the draft.
    Equal,
}

pub struct Draft {
    pub random: Random,
    /// What the fields so far make of a fresh book.
    pub book: Book,
    pub bytes: Vec<u8>,
    /// The offsets of the tags.
    pub tags: Vec<usize>,
    /// The interruptions filed, to withdraw them.
    filed: Vec<Interruption>,
    /// The values of the style `Equal`.
    equal: [u64; 3],
}

/// An amount of the figure at a place: its year and its number.
pub fn amount(operator: u8, (year, figure): (usize, usize), sign: u8, value: u64) -> Field {
    Field::Amount {
        operator,
        year: year as u8,
        figure: figure as u8,
        sign,
        value,
    }
}

pub fn setting(operator: u8, which: usize, value: u64) -> Field {
    Field::Setting {
        operator,
        which: which as u8,
        value,
    }
}

pub fn mark(operator: u8, indicator: usize, mark: u8) -> Field {
    Field::Mark {
        operator,
        indicator: indicator as u8,
        mark,
    }
}

/// All six marks of an operator, set or cleared; gas takes two of them.
pub fn six_marks(operator: u8, value: u8) -> Vec<Field> {
    (0..INDICATORS)
        .map(|indicator| mark(operator, indicator, value))
        .collect()
}

pub fn most_setting(which: usize) -> u64 {
    NUMBERED_SETTINGS[which].most() as u64
}

/// The least with which a book settles: only the income may be 0.
pub fn least_setting(which: usize) -> u64 {
    u64::from(NUMBERED_SETTINGS[which] != Setting::Income)
}

impl Draft {
    /// A draft for a sector, whose book takes the fields.
    pub fn new(sector: Sector, mut random: Random) -> Draft {
        let equal = [(); 3].map(|()| random.of_bits(36));
        Draft {
            random,
            book: Book::fresh_in(sector),
            bytes: Vec::new(),
            tags: Vec::new(),
            filed: Vec::new(),
            equal,
        }
    }

    /// Adds a field if the book takes it.
    pub fn file(&mut self, field: Field) {
        if let Answer::Refused(_) = apply(&mut self.book, &field) {
            return;
        }
        self.put(field);
    }

    /// Adds those of the fields that the book takes.
    pub fn file_all(&mut self, fields: Vec<Field>) {
        for field in fields {
            self.file(field);
        }
    }

    /// Adds a field, whether the book takes it or not.
    pub fn add(&mut self, field: Field) {
        apply(&mut self.book, &field);
        self.put(field);
    }

    fn put(&mut self, field: Field) {
        self.tags.push(self.bytes.len());
        self.bytes.extend(encode(&field));
    }

    pub fn repeat(&mut self, times: u64, step: fn(&mut Draft)) {
        for _ in 0..times {
            step(self);
        }
    }

    // Values and places.

    pub fn value(&mut self, style: Style, least: u64, most: u64) -> u64 {
        let value = match style {
            Style::Small => least + self.random.up_to(9),
            Style::Wide => least + self.random.up_to(most - least),
            Style::Digits => self.random.of_bits(37),
            Style::Ends => self.random.pick(&[least, least + 1, most - 1, most]),
            Style::Equal => self.random.pick(&self.equal),
        };
        if value < least {
            return least;
        }
        if value > most {
            return least + value % (most - least + 1);
        }
        value
    }

    /// Any year and figure of the sector.
    pub fn figure_place(&mut self) -> (usize, usize) {
        let year = self.random.place(YEARS);
        (year, self.random.within(self.book.sector.figures()))
    }

    /// Any indicator of the sector.
    pub fn indicator(&mut self) -> usize {
        self.random.within(self.book.sector.indicators())
    }

    /// The number of any setting of the sector.
    pub fn setting_number(&mut self) -> usize {
        self.random.pick(&self.book.sector.settings())
    }

    /// What the book has at the place.
    pub fn figure(&self, operator: u8, (year, figure): (usize, usize)) -> u64 {
        self.book.operators[usize::from(operator)].figures[year][figure] as u64
    }

    /// A joined operator, or any if none is joined.
    pub fn joined_operator(&mut self) -> u8 {
        let joined = joined(&self.book.operators);
        if joined.is_empty() {
            return self.random.place(OPERATORS) as u8;
        }
        self.random.pick(&joined) as u8
    }

    /// An operator that has not joined; there must be one.
    pub fn other_operator(&mut self) -> u8 {
        let others: Vec<usize> = (0..OPERATORS)
            .filter(|&k| !self.book.operators[k].joined)
            .collect();
        self.random.pick(&others) as u8
    }

    /// Mostly an operator that has joined; else one that has not, or none.
    pub fn operator_or_none(&mut self) -> u8 {
        match self.random.up_to(7) {
            0 => self.other_operator(),
            1 => self.random.edge(16, 255) as u8,
            _ => self.joined_operator(),
        }
    }

    // Rates and indices.

    /// Rates and indices, mostly.
    pub fn common_fields(&mut self) -> Vec<Field> {
        let mut fields = Vec::new();
        if !self.random.one_in(12) {
            fields.push(self.rates());
        }
        if self.random.one_in(2) {
            fields.extend((0..INDICES as u8).filter_map(|number| self.some_index(number)));
        }
        fields
    }

    pub fn rate(&mut self) -> u32 {
        let rate = match self.random.up_to(11) {
            0 => 0,
            1 => 1 + self.random.up_to(9),
            2 | 3 => 1 + self.random.up_to(199),
            4 | 5 => 1 + self.random.up_to(1999),
            6 => 19_999,
            7 | 8 => 20_000,
            _ => self.random.up_to(20_000),
        };
        rate as u32
    }

    pub fn rates(&mut self) -> Field {
        Field::Rates {
            pot: self.rate(),
            cap: self.rate(),
        }
    }

    /// The index in most cases.
    fn some_index(&mut self, number: u8) -> Option<Field> {
        if self.random.percent(70) {
            Some(self.index(number))
        } else {
            None
        }
    }

    fn index(&mut self, number: u8) -> Field {
        let value = match self.random.up_to(7) {
            0 | 1 => 1,
            2 | 3 => 100_000,
            4 => self.random.pick(&[2, 9_999, 10_000, 10_001, 99_999]),
            _ => 1 + self.random.up_to(99_999),
        };
        Field::Index {
            number,
            value: value as u32,
        }
    }

    // Interruptions and withdrawals.

    /// An interruption of a joined operator, all of its values in range.
    pub fn interruption(&mut self) -> Interruption {
        let end = self.end();
        let seconds = self.seconds(end);
        let level = self.random.place(2) as u8;
        let weight = self.weight(level);
        Interruption {
            operator: self.joined_operator(),
            sign: u8::from(self.random.one_in(10)),
            level,
            cause: self.random.pick(&[0, 0, 0, 1, 2, 3, 4, 4]),
            start: (end - seconds).max(EARLIEST_START),
            end,
            weight,
        }
    }

    /// The weight of an interruption of that level, which only at MV is drawn.
    pub fn weight(&mut self, level: u8) -> u32 {
        let weight = match self.random.up_to(5) {
            _ if level == 1 => 1,
            0 => 1,
            1 => 100_000,
            2 => 1 + self.random.up_to(99_999),
            _ => 1 + self.random.up_to(300),
        };
        weight as u32
    }

    /// The end of an interruption, often at or near the end of a year.
    pub fn end(&mut self) -> i64 {
        match self.random.up_to(2) {
            0 => self.random.pick(&YEAR_ENDS),
            1 => {
                let near = self.random.pick(&YEAR_ENDS) + self.random.between(-400, 400);
                near.clamp(0, LATEST_END)
            }
            _ => self.random.between(0, LATEST_END),
        }
    }

    /// The length of an interruption with that end, often near the longest short
    /// one.
    fn seconds(&mut self, end: i64) -> i64 {
        let most = end - EARLIEST_START;
        match self.random.up_to(9) {
            0 => self.random.between(0, 3),
            1 => 180,
            2 => 181,
            3 | 4 => self.random.between(170, 190),
            5 => self.random.between(0, most),
            6 => self.random.pick(&[1_000_000, end, most]),
            _ => self.random.between(181, 259_200),
        }
    }

    pub fn file_any_interruption(&mut self) {
        let filed = self.interruption();
        self.file_interruption(filed);
    }

    /// Files an interruption if the book takes it, and remembers it.
    pub fn file_interruption(&mut self, filed: Interruption) {
        self.filed.push(filed);
        self.file(Field::Interruption(filed));
    }

    /// Withdraws an earlier interruption, or a part or the whole of a figure.
    pub fn withdrawal(&mut self) {
        if !self.filed.is_empty() && self.random.one_in(3) {
            let twin = Interruption {
                sign: 1,
                ..self.random.pick(&self.filed)
            };
            self.file(Field::Interruption(twin));
            return;
        }
        let operator = self.joined_operator();
        let place = self.figure_place();
        let total = self.figure(operator, place);
        let value = match self.random.up_to(4) {
            0 => total,
            1 => total.min(1),
            2 => total.saturating_sub(1),
            _ => self.random.up_to(total),
        };
        self.file(amount(operator, place, 1, value));
    }

    // Corrections.

    /// Brings a figure to a value by one amount.
    pub fn bring_to(&mut self, operator: u8, place: (usize, usize), wanted: u64) {
        let total = self.figure(operator, place);
        let sign = u8::from(total > wanted);
        self.file(amount(operator, place, sign, total.abs_diff(wanted)));
    }

    /// Brings a figure to exactly 10^11.
    pub fn fill_figure(&mut self) {
        let operator = self.joined_operator();
        let place = self.figure_place();
        self.bring_to(operator, place, MOST);
    }

    pub fn file_correction(&mut self) {
        let field = self.correction();
        self.file(field);
    }

    pub fn add_correction(&mut self) {
        let field = self.correction();
        self.add(field);
    }

    /// A field that replaces a value, or adds little.
    fn correction(&mut self) -> Field {
        let operator = self.joined_operator();
        match self.random.up_to(6) {
            0 => self.rates(),
            1 => {
                let number = self.random.place(INDICES) as u8;
                self.index(number)
            }
            2 => {
                let indicator = self.indicator();
                mark(operator, indicator, u8::from(self.random.one_in(3)))
            }
            3 => self.interruption_of(operator),
            4 => {
                let place = self.figure_place();
                let sign = self.random.place(2) as u8;
                amount(operator, place, sign, self.value(Style::Digits, 0, MOST))
            }
            _ => {
                let which = self.setting_number();
                let value = self.value(Style::Digits, least_setting(which), most_setting(which));
                setting(operator, which, value)
            }
        }
    }

    pub fn interruption_of(&mut self, operator: u8) -> Field {
        Field::Interruption(Interruption {
            operator,
            ..self.interruption()
        })
    }

    // Marks.

    pub fn clear_mark(&mut self) {
        let operator = self.joined_operator();
        let indicator = self.indicator();
        self.file(mark(operator, indicator, 0));
    }

    /// Sets a mark, whether it was cleared or not; for a while only, or for good.
    pub fn set_mark_again(&mut self) {
        let operator = self.joined_operator();
        let indicator = self.indicator();
        self.file(mark(operator, indicator, 1));
        if self.random.one_in(2) {
            self.file(mark(operator, indicator, 0));
        }
    }
}
