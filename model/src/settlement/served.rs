//! For tests: settlements in which one of the four sharings serves its places in
//! another order, to see that a mistake in that order shows.

use super::Settlement;
use crate::book::{joined, sizes, Book, INDICATORS, OPERATORS};
use crate::indicators::{indicators, pool, unmarked, value_sums, weights, Points};
use crate::money::{cut, money, Money};
use std::cmp::Reverse;

/// All operators: in money those that have not joined weigh nothing and have no size,
/// so that no order serves them.
const ALL: [usize; OPERATORS] = [0, 1, 2, 3, 4, 5, 6, 7, 8, 9, 10, 11, 12, 13, 14, 15];

/// What is shared.
#[derive(Clone, Copy, Debug, PartialEq, Eq)]
pub enum Sharing {
    Points,
    Contributions,
    Returns,
    AfterLimit,
}

pub const SHARINGS: [Sharing; 4] = [
    Sharing::Points,
    Sharing::Contributions,
    Sharing::Returns,
    Sharing::AfterLimit,
];

/// What an order may look at in one place of a sharing.
pub struct Claim {
    number: i128,
    remainder: i128,
    weight: i128,
    size: i128,
    income: i128,
}

/// The place with the larger list is served first.
pub type Order = fn(&Claim) -> [i128; 3];

/// Follows 01: "to the largest remainders"; and 02, point 7: "to the operator with more
/// access points, and only then to the lower number".
pub const RIGHT: Order = |one| [one.remainder, one.size, -one.number];

/// Another order than the right one, and the sharings in which it is another.
pub struct Mistake {
    pub name: &'static str,
    pub order: Order,
    pub sharings: &'static [Sharing],
}

const MISTAKES: [Mistake; 6] = [
    // As it was before; and what a list of equal sizes would give.
    Mistake {
        name: "by number alone",
        order: |one| [one.remainder, 0, -one.number],
        sharings: &SHARINGS,
    },
    Mistake {
        name: "fewer access points first",
        order: |one| [one.remainder, -one.size, -one.number],
        sharings: &SHARINGS,
    },
    Mistake {
        name: "the higher of equal size first",
        order: |one| [one.remainder, one.size, one.number],
        sharings: &SHARINGS,
    },
    Mistake {
        name: "size before remainder",
        order: |one| [one.size, one.remainder, -one.number],
        sharings: &SHARINGS,
    },
    // The size is the weight of a contribution.
    Mistake {
        name: "the weight as size",
        order: |one| [one.remainder, one.weight, -one.number],
        sharings: &[Sharing::Points, Sharing::Returns, Sharing::AfterLimit],
    },
    Mistake {
        name: "the income as size",
        order: |one| [one.remainder, one.income, -one.number],
        sharings: &SHARINGS,
    },
];

/// Each mistake in each of its sharings.
pub fn mistakes() -> impl Iterator<Item = (&'static Mistake, Sharing)> {
    let each = |mistake: &'static Mistake| mistake.sharings.iter().map(move |&one| (mistake, one));
    MISTAKES.iter().flat_map(each)
}

/// The pool of one indicator, and what its unmarked operators share it by.
struct Pool {
    number: usize,
    pool: u128,
    operators: Vec<usize>,
    weights: Vec<u128>,
}

/// The pool of an indicator.
fn pool_at(book: &Book, number: usize) -> Pool {
    let indicator = &indicators()[number];
    let operators = unmarked(book, number);
    let joined = joined(&book.operators).len() as u128;
    Pool {
        number,
        pool: pool(indicator, joined, operators.len() as u128),
        weights: weights(indicator, &value_sums(book, indicator, &operators)),
        operators,
    }
}

/// A book that settles, with all that hangs on no order.
pub struct Served<'a> {
    book: &'a Book,
    pools: Vec<Pool>,
}

impl Served<'_> {
    pub fn new(book: &Book) -> Served<'_> {
        let numbers = book.sector.indicators();
        let pools = numbers.map(|number| pool_at(book, number)).collect();
        Served { book, pools }
    }

    /// The settlement with that order in that sharing, and the right one elsewhere.
    pub fn settled(&self, sharing: Sharing, order: Order) -> Settlement {
        let orders = SHARINGS.map(|one| if one == sharing { order } else { RIGHT });
        let [points, contributions, returns, after_limit] = orders;
        let points = self.points(points);
        let mut money = self.money(&points.totals(), contributions, returns);
        money.adjustments = self.adjustments(&money, after_limit);
        Settlement { points, money }
    }

    fn points(&self, order: Order) -> Points {
        let mut points = Points::zero(INDICATORS);
        for one in &self.pools {
            points.pools[one.number] = one.pool;
            let shares = self.share(order, one.pool, &one.operators, &one.weights);
            for (k, share) in shares.into_iter().enumerate() {
                points.points[k][one.number] = share;
            }
        }
        points
    }

    /// The money but for its adjustments.
    fn money(&self, points: &[u128], contributions: Order, returns: Order) -> Money {
        let book = self.book;
        let operators = &book.operators;
        // Pot and limits are those of any order.
        let money = money(operators, points, book.pot_rate, book.cap_rate);
        let sizes = sizes(operators, &ALL);
        let weights: Vec<u128> = ALL.iter().map(|&k| sizes[k] * points[k]).collect();
        Money {
            contributions: self.share(contributions, money.pot, &ALL, &sizes),
            returns: self.share(returns, money.pot, &ALL, &weights),
            ..money
        }
    }

    /// Shares both sides to the smaller sum: the side that has it stays as it is.
    fn adjustments(&self, money: &Money, order: Order) -> Vec<i128> {
        let cut_of = |k: usize| {
            let difference = money.returns[k] as i128 - money.contributions[k] as i128;
            cut(difference, money.limits[k])
        };
        let sides = [1, -1].map(|sign: i128| ALL.map(|k| (sign * cut_of(k)).max(0) as u128));
        let smaller = sides.iter().map(|side| side.iter().sum()).min();
        let [bonuses, maluses] =
            sides.map(|side| self.share(order, smaller.unwrap_or(0), &ALL, &side));
        ALL.map(|k| bonuses[k] as i128 - maluses[k] as i128)
            .to_vec()
    }

    /// The shares by operator; 0 for those that are not named.
    fn share(&self, order: Order, t: u128, operators: &[usize], weights: &[u128]) -> Vec<u128> {
        let mut shares = vec![0; OPERATORS];
        let sum: u128 = weights.iter().sum();
        if sum == 0 {
            return shares;
        }
        let mut claims = Vec::new();
        for (&k, &weight) in operators.iter().zip(weights) {
            shares[k] = t * weight / sum;
            claims.push(self.claim(k, weight, t * weight % sum));
        }
        claims.sort_by_key(|claim| Reverse(order(claim)));
        let left_over = t - shares.iter().sum::<u128>();
        for claim in &claims[..left_over as usize] {
            shares[claim.number as usize] += 1;
        }
        shares
    }

    fn claim(&self, k: usize, weight: u128, remainder: u128) -> Claim {
        let operator = &self.book.operators[k];
        Claim {
            number: k as i128,
            remainder: remainder as i128,
            weight: weight as i128,
            size: operator.access_points as i128,
            income: operator.income as i128,
        }
    }
}
