//! Sound filings: what each kind of them has, and the making of it.

use super::draft::{amount, mark, setting, six_marks, Draft, Style, MOST};
use super::Kind;
use crate::book::{figure_places, Operator, Setting, MOST_ACCESS_POINTS, MOST_INCOME};
use crate::book::{INDICATORS, NUMBERED_SETTINGS, OPERATORS, SETTINGS, YEARS};
use crate::filing::Field;

/// What a filing has.
pub struct Plan {
    pub operators: usize,
    settings: Style,
    incomes: Style,
    figures: Style,
    /// How many of a hundred figures have an amount.
    filled: u64,
    /// Whether the MV weights are suited to the cabins.
    suited_weights: bool,
    /// Whether the fees are suited to the connections, of which some years have none.
    suited_fees: bool,
    /// How many of a hundred operators have cabins of year 0 alone, as all had before
    /// there was a setting for each year.
    pub later_cabins_missing: u64,
    /// So many sets of values are shared by the operators; 0: each has its own.
    patterns: usize,
    /// How many of a hundred marks are kept; the others are cleared.
    marked: u64,
    /// How many of a hundred operators keep all six.
    unattested: u64,
    /// How many marks are set again, some of them for a while only.
    set_again: u64,
    interruptions: u64,
    withdrawals: u64,
    /// How many times the connections of a year with fees are withdrawn.
    connections_withdrawn: u64,
    /// How many steps move a count.
    counts: u64,
    pub corrections: u64,
}

/// The first fields of a filing, before they are put in an order.
struct Parts {
    joins: Vec<Field>,
    /// The other fields of each operator, in the order of the joins.
    by_operator: Vec<Vec<Field>>,
    common: Vec<Field>,
}

/// What all operators of a filing have.
struct Alike {
    settings: [u64; SETTINGS],
    /// The amount at every figure.
    base: u64,
    /// How much more the next operator has at one place.
    step: u64,
    place: (usize, usize),
}

impl Alike {
    /// A join, the settings, the same amount at every figure, the steps, and
    /// every mark cleared.
    fn fields(&self, operator: u8, steps: u64) -> Vec<Field> {
        let join = vec![Field::Join { operator }];
        let settings = (0..SETTINGS)
            .map(|which| setting(operator, which, self.settings[which]))
            .collect();
        let amounts = figure_places()
            .map(|place| amount(operator, place, 0, self.base))
            .collect();
        let higher = vec![amount(operator, self.place, 0, self.step * steps)];
        let marks = six_marks(operator, 0);
        [join, settings, amounts, higher, marks].concat()
    }
}

/// Whether the field sets the cabins of a year after year 0.
fn sets_later_cabins(field: &Field) -> bool {
    let Field::Setting { which, .. } = *field else {
        return false;
    };
    matches!(NUMBERED_SETTINGS[usize::from(which)], Setting::Cabins(1..))
}

impl Draft {
    /// A filing of a kind that settles; now and then one that just doesn't.
    pub fn sound(&mut self, kind: Kind) {
        let mut plan = self.plan(kind);
        // Drawn here, because the fees show only where a book settles. Wide values and
        // those at the ends stay what they are.
        plan.suited_fees = !matches!(kind, Kind::Wide | Kind::Ends) && self.random.one_in(3);
        plan.connections_withdrawn = self.random.pick(&[0, 0, 2]);
        self.make(&plan);
        // With all of them kept nothing would settle.
        if kind == Kind::NearlyAllMarked {
            let places = 1 + self.random.up_to(2);
            self.repeat(places, Draft::clear_mark);
        }
        if self.random.one_in(60) {
            self.take_size();
        }
    }

    // Plans.

    fn operator_count(&mut self) -> usize {
        match self.random.up_to(5) {
            0 => OPERATORS,
            1 => 1 + self.random.place(3),
            _ => 1 + self.random.place(OPERATORS),
        }
    }

    /// The plan of a kind that settles.
    fn plan(&mut self, kind: Kind) -> Plan {
        let mut plan = Plan {
            operators: self.operator_count(),
            settings: Style::Digits,
            incomes: self.random.pick(&[Style::Digits, Style::Wide]),
            figures: Style::Digits,
            filled: self.random.pick(&[10, 50, 80, 100]),
            suited_weights: self.random.one_in(3),
            suited_fees: false,
            later_cabins_missing: 0,
            patterns: 0,
            marked: 0,
            unattested: 0,
            set_again: self.random.pick(&[0, 0, 0, 2]),
            interruptions: 0,
            withdrawals: self.random.pick(&[0, 0, 2]),
            connections_withdrawn: 0,
            counts: self.random.pick(&[0, 0, 2]),
            corrections: self.random.pick(&[0, 0, 3]),
        };
        self.suit(&mut plan, kind);
        if !self.book.sector.has_interruptions() {
            plan.interruptions = 0;
            plan.counts = 0;
        }
        plan
    }

    /// Brings into a plan what its kind is about.
    fn suit(&mut self, plan: &mut Plan, kind: Kind) {
        match kind {
            Kind::Small => {
                plan.settings = self.random.pick(&[Style::Small, Style::Equal]);
                plan.figures = Style::Small;
            }
            Kind::Wide => {
                plan.settings = Style::Wide;
                plan.figures = Style::Wide;
                plan.suited_weights = false;
            }
            Kind::Ends => {
                plan.settings = Style::Ends;
                plan.incomes = Style::Ends;
                plan.figures = Style::Ends;
                plan.suited_weights = false;
                plan.interruptions = self.random.pick(&[0, 10]);
            }
            Kind::Ties => self.suit_ties(plan),
            Kind::Interruptions | Kind::Withdrawals | Kind::LeftOut => self.suit_moved(plan, kind),
            Kind::Marked => {
                plan.marked = self.random.pick(&[5, 20, 50, 80]);
                plan.unattested = self.random.pick(&[0, 30]);
                plan.set_again = self.random.pick(&[0, 5]);
            }
            Kind::NearlyAllMarked => plan.marked = self.random.pick(&[90, 97, 100]),
            _ => {
                plan.marked = self.random.pick(&[0, 0, 0, 10]);
                plan.unattested = self.random.pick(&[0, 0, 0, 20]);
                plan.interruptions = self.random.pick(&[0, 0, 10]);
            }
        }
    }

    /// The kinds whose figures are moved, again and again.
    fn suit_moved(&mut self, plan: &mut Plan, kind: Kind) {
        match kind {
            Kind::Interruptions => {
                plan.filled = self.random.pick(&[0, 20]);
                plan.interruptions = 1 + self.random.up_to(120);
                plan.withdrawals = self.random.up_to(20);
            }
            Kind::Withdrawals => {
                plan.withdrawals = 10 + self.random.up_to(60);
                plan.interruptions = self.random.pick(&[0, 30]);
            }
            _ => {
                plan.filled = self.random.pick(&[0, 20]);
                plan.counts = 5 + self.random.up_to(60);
                plan.withdrawals = self.random.up_to(10);
            }
        }
    }

    fn suit_ties(&mut self, plan: &mut Plan) {
        let style = self.random.pick(&[Style::Equal, Style::Small, Style::Wide]);
        plan.settings = style;
        plan.figures = style;
        plan.patterns = 1 + self.random.place(3);
        plan.incomes = self.random.pick(&[Style::Equal, Style::Wide]);
    }

    /// A plan of few operators and few fields, now and then of any size.
    pub fn small_plan(&mut self) -> Plan {
        let kind = self.random.pick(&[
            Kind::Digits,
            Kind::Interruptions,
            Kind::Marked,
            Kind::LeftOut,
        ]);
        let mut plan = self.plan(kind);
        if !self.random.one_in(5) {
            plan.operators = 1 + self.random.place(3);
            plan.filled = plan.filled.min(10);
            plan.interruptions = plan.interruptions.min(5);
            plan.withdrawals = plan.withdrawals.min(2);
            plan.counts = plan.counts.min(5);
        }
        plan
    }

    // The making.

    /// Now and then nothing; mostly a sound filing.
    pub fn start(&mut self) {
        if !self.random.one_in(5) {
            let mut plan = self.small_plan();
            plan.operators = plan.operators.min(OPERATORS - 1);
            self.make(&plan);
        }
    }

    /// Up to three fields that a sound filing could have.
    pub fn go_on(&mut self) {
        let others = self.random.up_to(3);
        self.repeat(others, Draft::add_correction);
    }

    /// Makes a filing by the plan; every field is taken.
    pub fn make(&mut self, plan: &Plan) {
        let parts = self.parts(plan);
        let fields = self.in_an_order(parts);
        self.file_all(fields);
        self.repeat(plan.interruptions, Draft::file_any_interruption);
        self.repeat(plan.counts, Draft::move_count);
        self.repeat(plan.withdrawals, Draft::withdrawal);
        self.repeat(plan.connections_withdrawn, Draft::withdraw_connections);
        self.repeat(plan.corrections, Draft::file_correction);
        self.repeat(plan.set_again, Draft::set_mark_again);
        if plan.figures == Style::Ends && self.random.one_in(3) {
            self.fill_figure();
        }
    }

    fn parts(&mut self, plan: &Plan) -> Parts {
        let operators = self.some_operators(plan.operators);
        let patterns: Vec<Operator> = (0..plan.patterns).map(|_| self.pattern(plan)).collect();
        Parts {
            joins: operators
                .iter()
                .map(|&operator| Field::Join { operator })
                .collect(),
            by_operator: operators
                .iter()
                .map(|&operator| self.operator_fields(operator, plan, &patterns))
                .collect(),
            common: self.common_fields(),
        }
    }

    /// So many operators, in any order.
    pub fn some_operators(&mut self, count: usize) -> Vec<u8> {
        let mut numbers: Vec<u8> = (0..OPERATORS as u8).collect();
        self.random.shuffle(&mut numbers);
        numbers.truncate(count);
        numbers
    }

    /// All joins first, each operator by itself, or the rest mixed.
    fn in_an_order(&mut self, parts: Parts) -> Vec<Field> {
        let Parts {
            joins,
            by_operator,
            common,
        } = parts;
        match self.random.up_to(2) {
            0 => [joins, by_operator.concat(), common].concat(),
            1 => {
                let each = joins.into_iter().zip(by_operator);
                let rest = each.flat_map(|(join, fields)| [vec![join], fields].concat());
                common.into_iter().chain(rest).collect()
            }
            _ => {
                let mut rest = [common, by_operator.concat()].concat();
                self.random.shuffle(&mut rest);
                [joins, rest].concat()
            }
        }
    }

    // The values and fields of one operator.

    fn pattern(&mut self, plan: &Plan) -> Operator {
        let mut values = Operator::fresh();
        values.cabins = self.cabins_by_year(plan.settings);
        let access_points = self.value(plan.settings, 1, MOST_ACCESS_POINTS as u64);
        values.access_points = u128::from(access_points);
        values.income = self.planned_income(plan);
        for (year, figure) in figure_places() {
            values.figures[year][figure] = u128::from(self.planned_figure(plan));
        }
        if plan.suited_weights {
            self.suit_weights(&mut values);
        }
        if plan.suited_fees {
            self.suit_fees(&mut values);
        }
        values
    }

    fn planned_income(&mut self, plan: &Plan) -> u128 {
        u128::from(self.value(plan.incomes, 0, MOST_INCOME as u64))
    }

    fn planned_figure(&mut self, plan: &Plan) -> u64 {
        if self.random.percent(plan.filled) {
            self.value(plan.figures, 0, MOST)
        } else {
            0
        }
    }

    /// A new pattern, or a shared one that may differ in one value.
    fn values(&mut self, plan: &Plan, patterns: &[Operator]) -> Operator {
        if patterns.is_empty() {
            return self.pattern(plan);
        }
        let mut values = patterns[self.random.place(patterns.len())].clone();
        if self.random.one_in(4) {
            let (year, figure) = self.figure_place();
            values.figures[year][figure] = u128::from(self.value(plan.figures, 0, MOST));
        }
        if self.random.one_in(6) {
            values.income = self.planned_income(plan);
        }
        if self.random.one_in(4) {
            self.turn_years(&mut values);
        }
        values
    }

    /// The settings, amounts and marks of one operator.
    fn operator_fields(&mut self, operator: u8, plan: &Plan, patterns: &[Operator]) -> Vec<Field> {
        let values = self.values(plan, patterns);
        let mut settings = self.setting_fields(operator, values.settings());
        if self.random.percent(plan.later_cabins_missing) {
            settings.retain(|field| !sets_later_cabins(field));
        }
        let amounts = figure_places()
            .flat_map(|(year, figure)| {
                let total = values.figures[year][figure] as u64;
                self.amount_fields(operator, (year, figure), total)
            })
            .collect();
        let marks = self.mark_fields(operator, plan);
        [settings, amounts, marks].concat()
    }

    /// All settings but some of those that are 0.
    fn setting_fields(&mut self, operator: u8, settings: [u128; SETTINGS]) -> Vec<Field> {
        (0..SETTINGS)
            .filter(|&which| settings[which] != 0 || self.random.one_in(2))
            .map(|which| setting(operator, which, settings[which] as u64))
            .collect()
    }

    /// The total in one amount or in two, rarely if it is 0.
    fn amount_fields(&mut self, operator: u8, place: (usize, usize), total: u64) -> Vec<Field> {
        if total == 0 && !self.random.one_in(20) {
            return Vec::new();
        }
        let first = if self.random.one_in(8) {
            self.random.up_to(total)
        } else {
            total
        };
        [first, total - first]
            .into_iter()
            .filter(|&value| value != 0 || total == 0)
            .map(|value| amount(operator, place, 0, value))
            .collect()
    }

    /// The marks of one operator that are cleared, and few of those that are kept.
    fn mark_fields(&mut self, operator: u8, plan: &Plan) -> Vec<Field> {
        let marked = if self.random.percent(plan.unattested) {
            100
        } else {
            plan.marked
        };
        (0..INDICATORS)
            .filter_map(|indicator| self.mark_field(operator, indicator, marked))
            .collect()
    }

    /// A mark that is cleared; rarely one that is kept, because the join has set
    /// it.
    fn mark_field(&mut self, operator: u8, indicator: usize, marked: u64) -> Option<Field> {
        let kept = self.random.percent(marked);
        if !kept || self.random.one_in(20) {
            Some(mark(operator, indicator, u8::from(kept)))
        } else {
            None
        }
    }

    // Filings without a plan.

    /// Operators alike but for one figure, which is a step higher from each to
    /// the next; the yearly values have nothing to round.
    pub fn mean(&mut self) {
        let count = 3 + self.random.place(OPERATORS - 2);
        // Electricity: one of those that the A indicators read.
        let first_figure = self.book.sector.figures().start;
        let alike = Alike {
            settings: NUMBERED_SETTINGS.map(|setting| self.even_setting(setting)),
            base: self.random.pick(&[1, 2, 5, 10, 100]),
            step: 1 + self.random.up_to(9),
            place: (
                self.random.place(YEARS),
                first_figure + self.random.place(4),
            ),
        };
        for (steps, operator) in (0..).zip(self.some_operators(count)) {
            self.file_all(alike.fields(operator, steps));
        }
        let common = self.common_fields();
        self.file_all(common);
        // Limits that nearly all differences pass.
        if self.random.one_in(3) {
            let cap = 1 + self.random.up_to(99) as u32;
            self.file(Field::Rates { pot: 20_000, cap });
        }
    }

    /// A setting by which a million is divided without a remainder, or any income.
    fn even_setting(&mut self, setting: Setting) -> u64 {
        match setting {
            Setting::Cabins(_) => self.random.pick(&[1, 8, 100, 1000, 100_000]),
            Setting::AccessPoints => self.random.pick(&[1, 8, 100, 1000, 1_000_000]),
            Setting::Income => self.value(Style::Digits, 0, MOST_INCOME as u64),
        }
    }

    /// A filing of exactly that many bytes; now and then the last one or two
    /// are no field.
    pub fn long(&mut self, length: usize) {
        let stray = if self.random.one_in(4) {
            1 + self.random.place(2)
        } else {
            0
        };
        let plan = self.plan(Kind::Digits);
        self.make(&plan);
        while length - stray - self.bytes.len() > 100 {
            self.file_correction();
        }
        self.fill_up(length - stray);
        self.bytes.extend(&[1, 0][..stray]);
    }

    /// Fills the last bytes with fields. Rates have 11 bytes, a mark 6: these
    /// reach every length from 50 on.
    fn fill_up(&mut self, length: usize) {
        let operator = self.joined_operator();
        while self.bytes.len() < length {
            self.file_filler(operator, length - self.bytes.len());
        }
    }

    fn file_filler(&mut self, operator: u8, left: usize) {
        let field = if left.is_multiple_of(6) {
            mark(operator, self.book.sector.indicators().start, 0)
        } else {
            self.rates()
        };
        self.file(field);
    }

    // Books that don't settle.

    pub fn incomplete(&mut self) {
        let plan = self.small_plan();
        match self.random.up_to(4) {
            0 => {
                // None joined.
                let common = self.common_fields();
                self.file_all(common);
            }
            1 => {
                self.make(&plan);
                self.take_size();
            }
            2 => self.join_without_size(plan),
            _ => {
                self.all_marked(plan);
                // Refused by 11 and 12 at once.
                if self.random.one_in(6) {
                    self.take_size();
                }
            }
        }
    }

    /// A join with the cabins of a year or access points at most, after a sound
    /// filing.
    fn join_without_size(&mut self, mut plan: Plan) {
        plan.operators = plan.operators.min(OPERATORS - 1);
        self.make(&plan);
        let operator = self.other_operator();
        self.file(Field::Join { operator });
        if self.random.one_in(2) {
            let which = self.random.pick(&self.size_settings());
            self.file(setting(operator, which, 1));
        }
    }

    /// Every mark is set: none was ever cleared, or all are set again.
    fn all_marked(&mut self, plan: Plan) {
        if self.random.one_in(2) {
            self.none_cleared(plan);
        } else {
            self.make(&plan);
            self.set_all_marks();
        }
    }

    /// Operators freshly joined, but for settings, amounts and interruptions.
    fn none_cleared(&mut self, mut plan: Plan) {
        plan.unattested = 100;
        // These may clear a mark.
        plan.corrections = 0;
        plan.set_again = 0;
        self.make(&plan);
    }

    fn set_all_marks(&mut self) {
        let marks = (0..OPERATORS as u8)
            .flat_map(|operator| six_marks(operator, 1))
            .collect();
        self.file_all(marks);
    }
}
