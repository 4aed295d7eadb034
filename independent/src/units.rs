//! Whole numbers with their meaning, so that money, emissions and names are not mixed up.

use std::fmt;
use std::iter::Sum;
use std::ops::{Add, Sub};

/// Ten thousand yuan.
#[derive(Clone, Copy, Debug, PartialEq, Eq, PartialOrd, Ord)]
pub struct Wan(pub i128);

/// Kilograms of CO2 equivalent; below 0 only for estimates and reductions.
#[derive(Clone, Copy, Debug, PartialEq, Eq, PartialOrd, Ord)]
pub struct Kilograms(pub i128);

/// The number by which a file names an investee.
#[derive(Clone, Copy, Debug, PartialEq, Eq, Hash)]
pub struct InvesteeId(pub i128);

/// The number of a branch; branches stand in the order of their numbers.
#[derive(Clone, Copy, Debug, PartialEq, Eq, PartialOrd, Ord)]
pub struct Branch(pub i128);

macro_rules! amount {
    ($name:ident) => {
        impl Add for $name {
            type Output = $name;
            fn add(self, other: $name) -> $name {
                $name(self.0 + other.0)
            }
        }

        impl Sub for $name {
            type Output = $name;
            fn sub(self, other: $name) -> $name {
                $name(self.0 - other.0)
            }
        }

        impl Sum for $name {
            fn sum<I: Iterator<Item = $name>>(amounts: I) -> $name {
                amounts.fold($name(0), $name::add)
            }
        }
    };
}

amount!(Wan);
amount!(Kilograms);

impl fmt::Display for Kilograms {
    fn fmt(&self, out: &mut fmt::Formatter) -> fmt::Result {
        self.0.fmt(out)
    }
}

impl fmt::Display for InvesteeId {
    fn fmt(&self, out: &mut fmt::Formatter) -> fmt::Result {
        self.0.fmt(out)
    }
}

impl fmt::Display for Branch {
    fn fmt(&self, out: &mut fmt::Formatter) -> fmt::Result {
        self.0.fmt(out)
    }
}
