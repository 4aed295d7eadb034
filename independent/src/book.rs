//! A lender's year: investees, positions, and what falls to each branch (docs/PLAIN-BOOK.md).

use std::collections::HashMap;

use crate::faults::{Fault, Refusal};
use crate::rules::{Base, InvesteeFields, Kind, Profile, Reason, Rule};
use crate::sources::Source;
use crate::units::{Branch, InvesteeId, Kilograms, Wan};

const MONTHS: usize = 12;
const MOST_INVESTEES: usize = 200;
const MOST_POSITIONS: usize = 500;
const MOST_EXPOSURE: i128 = 9_000_000;

/// A month's balance of one branch with one investee, as it was sent, right or wrong.
#[derive(Clone, Debug)]
pub struct Post {
    pub branch: i128,
    pub investee: i128,
    pub month: i128,
    pub balance: i128,
}

/// What one branch has lent to one investee, month by month.
type Position = [Option<Wan>; MONTHS];

pub struct Investee {
    pub profile: Profile,
    pub kilograms: Kilograms,
    pub grade: i128,
    pub reduction: Kilograms,
    base: Base,
    /// In the order of their first posts, in which running sums go through them.
    positions: Vec<(Branch, Position)>,
}

impl Investee {
    fn exposure_of(&self, position: &Position) -> Wan {
        let balances: Wan = position.iter().flatten().copied().sum();
        Wan(balances.0 * self.times_counted())
    }

    /// A bond's one balance stands for all twelve months.
    fn times_counted(&self) -> i128 {
        if self.profile.kind == Kind::Bond { MONTHS as i128 } else { 1 }
    }

    pub fn exposure(&self) -> Wan {
        self.positions.iter().map(|(_, position)| self.exposure_of(position)).sum()
    }

    fn closing_balance(&self) -> Wan {
        self.positions.iter().filter_map(|(_, position)| position[MONTHS - 1]).sum()
    }

    /// Twelve times the rule's amount; none for "whole".
    fn denominator(&self) -> Option<Wan> {
        match self.base {
            Base::Amount(amount) => Some(Wan(amount.0 * MONTHS as i128)),
            Base::Whole => None,
        }
    }

    /// What running exposures are divided by: the cap takes all branches together.
    fn divisor(&self) -> Wan {
        let exposure = self.exposure();
        self.denominator().map_or(exposure, |denominator| denominator.max(exposure)).max(Wan(1))
    }

    fn position_of(&self, branch: Branch) -> Option<usize> {
        self.positions.iter().position(|(holder, _)| *holder == branch)
    }

    fn enter(&mut self, branch: Branch, month: usize, balance: Wan) {
        let place = self.position_of(branch).unwrap_or_else(|| {
            self.positions.push((branch, Position::default()));
            self.positions.len() - 1
        });
        self.positions[place].1[month] = Some(balance);
    }

    /// Whether a post by this branch for this month (from 0) would make a new position.
    fn may_take(&self, branch: Branch, month: usize) -> Result<bool, Refusal> {
        let position = self.position_of(branch);
        if self.profile.kind == Kind::Bond && month != MONTHS - 1 {
            Err(Refusal::BondOutsideDecember)
        } else if position.is_some_and(|place| self.positions[place].1[month].is_some()) {
            Err(Refusal::MonthPosted)
        } else {
            Ok(position.is_none())
        }
    }

    /// Whether the exposure stays within its limits with one more balance.
    fn has_room_for(&self, balance: Wan) -> Result<(), Refusal> {
        let exposure = self.exposure() + Wan(balance.0 * self.times_counted());
        let is_bond = self.profile.kind == Kind::Bond;
        if exposure > Wan(MOST_EXPOSURE) {
            Err(Refusal::ExposureTooLarge)
        } else if is_bond && self.denominator().is_some_and(|denominator| exposure > denominator) {
            Err(Refusal::BondAboveDenominator)
        } else {
            Ok(())
        }
    }
}

pub struct Book {
    rule: Rule,
    investees: Vec<Investee>,
    place_of: HashMap<InvesteeId, usize>,
    positions_held: usize,
}

impl Book {
    pub fn new(rule: Rule) -> Book {
        Book { rule, investees: Vec::new(), place_of: HashMap::new(), positions_held: 0 }
    }

    /// In the order of their openings.
    pub fn investees(&self) -> &[Investee] {
        &self.investees
    }

    pub fn open(&mut self, fields: &InvesteeFields, source: &Source) -> Result<(), Fault> {
        let profile = fields.checked()?;
        if self.place_of.contains_key(&profile.id) {
            return Err(Refusal::IdOpen.into());
        }
        if self.investees.len() >= MOST_INVESTEES {
            return Err(Refusal::BookFull.into());
        }
        let base = self.rule.base(&profile)?;
        let reading = source.read()?;
        if reading.kilograms < Kilograms(0) {
            return Err(Refusal::ReadingBelowZero.into());
        }
        self.place_of.insert(profile.id, self.investees.len());
        self.investees.push(Investee {
            profile,
            kilograms: reading.kilograms,
            grade: reading.grade,
            reduction: Kilograms(0),
            base,
            positions: Vec::new(),
        });
        Ok(())
    }

    pub fn reduce(&mut self, id: InvesteeId, source: &Source) -> Result<(), Fault> {
        let place = self.find(id)?;
        self.investees[place].reduction = source.read()?.kilograms;
        Ok(())
    }

    pub fn post(&mut self, post: &Post) -> Result<(), Fault> {
        let in_range = (1..=40).contains(&post.branch)
            && (1..=MONTHS as i128).contains(&post.month)
            && (0..=MOST_EXPOSURE).contains(&post.balance);
        if !in_range {
            return Err(Refusal::PostOutOfRange.into());
        }
        let place = self.find(InvesteeId(post.investee))?;
        let (branch, month) = (Branch(post.branch), post.month as usize - 1);
        let balance = Wan(post.balance);
        let is_new = self.investees[place].may_take(branch, month)?;
        if is_new && self.positions_held >= MOST_POSITIONS {
            return Err(Refusal::PositionsFull.into());
        }
        self.investees[place].has_room_for(balance)?;
        self.investees[place].enter(branch, month, balance);
        self.positions_held += usize::from(is_new);
        Ok(())
    }

    fn find(&self, id: InvesteeId) -> Result<usize, Refusal> {
        self.place_of.get(&id).copied().ok_or(Refusal::IdNotOpen)
    }

    pub fn left_out(&self, investee: &Investee) -> Option<Reason> {
        self.rule.reason(&investee.profile, investee.exposure(), investee.closing_balance())
    }

    /// `figure` parted among the branches that have a position on the investee: what the running
    /// exposure up to and with a branch gives, less what the one before it gives.
    pub fn parts(&self, investee: &Investee, figure: Kilograms) -> Vec<(Branch, Kilograms)> {
        let counted = self.left_out(investee).is_none();
        let figure = if counted { figure } else { Kilograms(0) };
        let divisor = investee.divisor();
        let cut_toward_zero = |running: Wan| Kilograms(figure.0 * running.0 / divisor.0);
        let mut running = Wan(0);
        let mut parts = Vec::new();
        for (branch, position) in &investee.positions {
            let before = cut_toward_zero(running);
            running = running + investee.exposure_of(position);
            parts.push((*branch, cut_toward_zero(running) - before));
        }
        parts
    }
}

/// The mean of grades by weight, in hundredths, to the nearest, half up; none without weight.
pub fn mean_grade(weights_and_grades: &[(i128, i128)]) -> Option<i128> {
    let weight: i128 = weights_and_grades.iter().map(|(weight, _)| weight).sum();
    let weighted: i128 = weights_and_grades.iter().map(|(weight, grade)| weight * grade).sum();
    (weight > 0).then(|| (200 * weighted + weight) / (2 * weight))
}

#[cfg(test)]
mod tests {
    use super::*;

    fn open(book: &mut Book, id: i128, kind: i128, amount: i128) -> Result<(), Fault> {
        let fields = InvesteeFields {
            id,
            kind,
            sector: 0,
            size: 1,
            days: 366,
            investment: amount,
            revenue: amount,
            total_assets: amount,
            initial_value: amount,
        };
        book.open(&fields, &Source::Report { kilograms: 1_000, mark: 1 })
    }

    fn post(book: &mut Book, key: (i128, i128, i128), balance: i128) -> Option<Refusal> {
        let (branch, investee, month) = key;
        book.post(&Post { branch, investee, month, balance }).err().map(|fault| fault.refusal)
    }

    #[test]
    fn parts_go_by_the_order_of_first_posts() {
        let mut book = Book::new(Rule::Pudong);
        open(&mut book, 1, 1, 10_000).unwrap();
        for branch in [3, 1, 2] {
            assert_eq!(post(&mut book, (branch, 1, 12), 40_000), None);
        }
        let parts = book.parts(&book.investees[0], Kilograms(1_000));
        let expected = [(3, 333), (1, 333), (2, 334)];
        assert_eq!(parts, expected.map(|(branch, part)| (Branch(branch), Kilograms(part))));
    }

    #[test]
    fn a_bond_counts_its_balance_twelve_times() {
        let mut book = Book::new(Rule::Pudong);
        open(&mut book, 1, 6, 1_000).unwrap();
        assert_eq!(post(&mut book, (1, 1, 11), 1), Some(Refusal::BondOutsideDecember));
        assert_eq!(post(&mut book, (1, 1, 12), 1_001), Some(Refusal::BondAboveDenominator));
        assert_eq!(post(&mut book, (1, 1, 12), 750_001), Some(Refusal::ExposureTooLarge));
        assert_eq!(post(&mut book, (1, 1, 12), 1_000), None);
        assert_eq!(book.investees[0].exposure(), Wan(12_000));
    }

    #[test]
    fn the_first_refusal_of_a_post_is_given() {
        let mut book = Book::new(Rule::National);
        open(&mut book, 1, 1, 1).unwrap();
        assert_eq!(post(&mut book, (41, 2, 1), 0), Some(Refusal::PostOutOfRange));
        assert_eq!(post(&mut book, (40, 2, 1), 0), Some(Refusal::IdNotOpen));
        assert_eq!(post(&mut book, (40, 1, 1), 9_000_000), None);
        assert_eq!(post(&mut book, (40, 1, 1), 1), Some(Refusal::MonthPosted));
        assert_eq!(post(&mut book, (40, 1, 2), 1), Some(Refusal::ExposureTooLarge));
    }

    #[test]
    fn the_book_holds_its_limits_and_no_more() {
        let mut book = Book::new(Rule::National);
        for id in 1..=200 {
            open(&mut book, id, 1, 1).unwrap();
        }
        assert_eq!(open(&mut book, 200, 1, 1).unwrap_err(), Refusal::IdOpen.into());
        assert_eq!(open(&mut book, 201, 1, 0).unwrap_err(), Refusal::BookFull.into());
        for place in 0..500 {
            assert_eq!(post(&mut book, (1 + place / 200, 1 + place % 200, 1), 0), None);
        }
        assert_eq!(post(&mut book, (40, 1, 1), 0), Some(Refusal::PositionsFull));
        assert_eq!(post(&mut book, (1, 1, 2), 0), None);
    }

    #[test]
    fn half_a_hundredth_goes_up() {
        assert_eq!(mean_grade(&[(199, 1), (1, 2)]), Some(101));
        assert_eq!(mean_grade(&[(0, 3)]), None);
    }
}
