//! Investees and the two guides' attribution rules (docs/RULES.md).

use crate::faults::Refusal;
use crate::units::{InvesteeId, Wan};

const MOST_ID: i128 = 4_294_967_295;
const MOST_FIGURE: i128 = 500_000_000;

#[derive(Clone, Copy, Debug, PartialEq, Eq)]
pub enum Kind {
    Project,
    PropertyDevelopment,
    PropertyPurchase,
    Vehicle,
    GeneralLoan,
    Bond,
}

#[derive(Clone, Copy, Debug, PartialEq, Eq)]
pub enum Size {
    Large,
    Medium,
    Small,
    Micro,
    Person,
}

/// The numbers of an investee as they were sent, right or wrong.
#[derive(Clone, Debug)]
pub struct InvesteeFields {
    pub id: i128,
    pub kind: i128,
    pub sector: i128,
    pub size: i128,
    pub days: i128,
    pub investment: i128,
    pub revenue: i128,
    pub total_assets: i128,
    pub initial_value: i128,
}

/// An investee whose numbers are all within their ranges. No rule looks at the sector.
#[derive(Clone, Debug)]
pub struct Profile {
    pub id: InvesteeId,
    pub kind: Kind,
    pub size: Size,
    pub days: i128,
    pub investment: Wan,
    pub revenue: Wan,
    pub total_assets: Wan,
    pub initial_value: Wan,
}

impl InvesteeFields {
    pub fn checked(&self) -> Result<Profile, Refusal> {
        let in_range = (1..=MOST_ID).contains(&self.id)
            && (0..=8).contains(&self.sector)
            && (0..=366).contains(&self.days);
        if !in_range {
            return Err(Refusal::FieldOutOfRange);
        }
        Ok(Profile {
            id: InvesteeId(self.id),
            kind: kind(self.kind)?,
            size: size(self.size)?,
            days: self.days,
            investment: figure(self.investment)?,
            revenue: figure(self.revenue)?,
            total_assets: figure(self.total_assets)?,
            initial_value: figure(self.initial_value)?,
        })
    }
}

fn kind(number: i128) -> Result<Kind, Refusal> {
    Ok(match number {
        1 => Kind::Project,
        2 => Kind::PropertyDevelopment,
        3 => Kind::PropertyPurchase,
        4 => Kind::Vehicle,
        5 => Kind::GeneralLoan,
        6 => Kind::Bond,
        _ => return Err(Refusal::FieldOutOfRange),
    })
}

fn size(number: i128) -> Result<Size, Refusal> {
    Ok(match number {
        1 => Size::Large,
        2 => Size::Medium,
        3 => Size::Small,
        4 => Size::Micro,
        5 => Size::Person,
        _ => return Err(Refusal::FieldOutOfRange),
    })
}

fn figure(number: i128) -> Result<Wan, Refusal> {
    if (0..=MOST_FIGURE).contains(&number) {
        Ok(Wan(number))
    } else {
        Err(Refusal::FieldOutOfRange)
    }
}

/// What the exposures to an investee are divided by, before the twelve months are counted in.
#[derive(Clone, Copy, Debug, PartialEq, Eq)]
pub enum Base {
    Amount(Wan),
    /// Whatever the exposures add up to.
    Whole,
}

/// Why a rule leaves an investee out. The numbers are those that are printed.
#[derive(Clone, Copy, Debug, PartialEq, Eq)]
pub enum Reason {
    FewDays = 1,
    LittleLent = 2,
    SmallSize = 3,
    NothingAtClose = 4,
}

#[derive(Clone, Copy, Debug, PartialEq, Eq)]
pub enum Rule {
    National,
    Pudong,
}

impl Rule {
    pub fn base(self, investee: &Profile) -> Result<Base, Refusal> {
        let figure = match (self, investee.kind) {
            (_, Kind::Project) => investee.investment,
            (Rule::National, Kind::GeneralLoan) => investee.revenue,
            (Rule::National, _) => return Err(Refusal::KindNotInRule),
            (Rule::Pudong, Kind::PropertyDevelopment) => investee.investment,
            (Rule::Pudong, Kind::PropertyPurchase | Kind::Vehicle) => investee.initial_value,
            (Rule::Pudong, Kind::GeneralLoan | Kind::Bond) => investee.total_assets,
        };
        match (figure, investee.kind) {
            (Wan(0), Kind::Vehicle) => Ok(Base::Whole),
            (Wan(0), _) => Err(Refusal::FigureNotGiven),
            (amount, _) => Ok(Base::Amount(amount)),
        }
    }

    /// The first reason to leave the investee out, or none if it is counted.
    pub fn reason(self, investee: &Profile, exposure: Wan, closing: Wan) -> Option<Reason> {
        let pudong = self == Rule::Pudong;
        let loan = investee.kind == Kind::GeneralLoan;
        let small = matches!(investee.size, Size::Small | Size::Micro | Size::Person);
        if self.never_leaves_out(investee.kind) {
            None
        } else if investee.days < 30 {
            Some(Reason::FewDays)
        } else if loan && exposure < Wan(6_000) {
            Some(Reason::LittleLent)
        } else if (loan || pudong) && small {
            Some(Reason::SmallSize)
        } else if pudong && closing == Wan(0) {
            Some(Reason::NothingAtClose)
        } else {
            None
        }
    }

    fn never_leaves_out(self, kind: Kind) -> bool {
        match self {
            Rule::National => !matches!(kind, Kind::Project | Kind::GeneralLoan),
            Rule::Pudong => kind == Kind::Bond,
        }
    }
}

#[cfg(test)]
mod tests {
    use super::*;

    fn investee(kind: i128, size: i128, days: i128) -> Profile {
        let fields = InvesteeFields {
            id: 1,
            kind,
            sector: 0,
            size,
            days,
            investment: 10,
            revenue: 20,
            total_assets: 30,
            initial_value: 0,
        };
        fields.checked().unwrap()
    }

    #[test]
    fn each_rule_divides_by_its_own_figure() {
        let loan = investee(5, 1, 30);
        assert_eq!(Rule::National.base(&loan), Ok(Base::Amount(Wan(20))));
        assert_eq!(Rule::Pudong.base(&loan), Ok(Base::Amount(Wan(30))));
        assert_eq!(Rule::National.base(&investee(6, 1, 30)), Err(Refusal::KindNotInRule));
        assert_eq!(Rule::Pudong.base(&investee(3, 1, 30)), Err(Refusal::FigureNotGiven));
        assert_eq!(Rule::Pudong.base(&investee(4, 1, 30)), Ok(Base::Whole));
    }

    #[test]
    fn the_first_reason_is_kept() {
        let nothing = Wan(0);
        let reason = |rule: Rule, kind, size, days, exposure| {
            rule.reason(&investee(kind, size, days), Wan(exposure), nothing)
        };
        assert_eq!(reason(Rule::National, 5, 5, 29, 5_999), Some(Reason::FewDays));
        assert_eq!(reason(Rule::National, 5, 5, 30, 5_999), Some(Reason::LittleLent));
        assert_eq!(reason(Rule::National, 5, 5, 30, 6_000), Some(Reason::SmallSize));
        assert_eq!(reason(Rule::National, 1, 5, 30, 0), None);
        assert_eq!(reason(Rule::Pudong, 1, 5, 30, 0), Some(Reason::SmallSize));
        assert_eq!(reason(Rule::Pudong, 1, 2, 30, 1), Some(Reason::NothingAtClose));
        assert_eq!(reason(Rule::Pudong, 6, 5, 0, 0), None);
    }
}
