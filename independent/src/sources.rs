//! Emission sources and the layers over them (docs/SOURCES.md).

use crate::faults::{Fault, Refusal};
use crate::units::Kilograms;

const REPORTED: u8 = 1;
const PHYSICAL: u8 = 2;
const ECONOMIC: u8 = 3;
const ESTIMATE: u8 = 4;
const OVERSEAS: u8 = 5;
const OFFSET: u8 = 6;

const MOST_KILOGRAMS: i128 = 1_000_000_000_000;
const MOST_TERMS: usize = 16;
const MOST_QUANTITY: i128 = 10_000_000_000;
const MOST_SECTOR_OUTPUT: i128 = 500_000_000;
const MOST_SECTOR_MEAN: i128 = 1_000_000;
const MOST_ESTIMATE_OUTPUT: i128 = 9_000_000;
const MOST_OFFSET: i128 = 1_000_000_000;

/// Tenths of a gram for one unit of rows 1 to 6.
const FACTORS: [i128; 6] = [21_989_700, 22_200, 27_000, 21_600, 4_200, 5_703];

/// What a source says, where it has no fault.
#[derive(Clone, Copy, Debug, PartialEq, Eq)]
pub struct Reading {
    pub kilograms: Kilograms,
    pub grade: i128,
}

/// A row of the factor table and a quantity in the row's unit.
#[derive(Clone, Debug, PartialEq, Eq)]
pub struct Term {
    pub row: i128,
    pub quantity: i128,
}

/// A source with the figures that it was given, right or wrong.
#[derive(Clone, Debug, PartialEq, Eq)]
pub enum Source {
    Report { kilograms: i128, mark: i128 },
    EnergyBill { terms: Vec<Term> },
    SectorMean { output: i128, mean: i128 },
    Estimate { report_output: i128, base_output: i128, base_kilograms: i128, below: Box<Source> },
    OverseasCut { part: i128, below: Box<Source> },
    Offset { green_power: i128, ccer: i128, tickets: i128, below: Box<Source> },
}

impl Source {
    pub fn read(&self) -> Result<Reading, Fault> {
        match self {
            Source::Report { kilograms, mark } => report(*kilograms, *mark),
            Source::EnergyBill { terms } => energy_bill(terms),
            Source::SectorMean { output, mean } => sector_mean(*output, *mean),
            Source::Estimate { report_output, base_output, base_kilograms, below } => {
                estimate(*report_output, *base_output, *base_kilograms, below)
            }
            Source::OverseasCut { part, below } => overseas_cut(*part, below),
            Source::Offset { green_power, ccer, tickets, below } => {
                offset(*green_power, *ccer, *tickets, below)
            }
        }
    }
}

/// Refuses on behalf of a source unless `holds`.
fn require(holds: bool, source: u8, refusal: Refusal) -> Result<(), Fault> {
    if holds { Ok(()) } else { Err(Fault::in_source(source, refusal)) }
}

fn within(most: i128, figure: i128) -> bool {
    (0..=most).contains(&figure)
}

fn report(kilograms: i128, mark: i128) -> Result<Reading, Fault> {
    let in_range = within(MOST_KILOGRAMS, kilograms) && within(2, mark);
    require(in_range, REPORTED, Refusal::SourceOutOfRange)?;
    require(mark != 0, REPORTED, Refusal::ReportUnmarked)?;
    Ok(Reading { kilograms: Kilograms(kilograms), grade: 1 })
}

fn energy_bill(terms: &[Term]) -> Result<Reading, Fault> {
    let count_fits = (1..=MOST_TERMS).contains(&terms.len());
    require(count_fits, PHYSICAL, Refusal::WrongTermCount)?;
    let mut tenths_of_grams = 0;
    for (index, term) in terms.iter().enumerate() {
        let in_range = (1..=6).contains(&term.row) && within(MOST_QUANTITY, term.quantity);
        require(in_range, PHYSICAL, Refusal::SourceOutOfRange)
            .map_err(|fault| fault.at(index + 1))?;
        tenths_of_grams += FACTORS[term.row as usize - 1] * term.quantity;
    }
    let kilograms = (tenths_of_grams + 9_999) / 10_000;
    require(kilograms <= MOST_KILOGRAMS, PHYSICAL, Refusal::TooManyKilograms)?;
    Ok(Reading { kilograms: Kilograms(kilograms), grade: 3 })
}

fn sector_mean(output: i128, mean: i128) -> Result<Reading, Fault> {
    let in_range = within(MOST_SECTOR_OUTPUT, output) && within(MOST_SECTOR_MEAN, mean);
    require(in_range, ECONOMIC, Refusal::SourceOutOfRange)?;
    let kilograms = output * mean;
    require(kilograms <= MOST_KILOGRAMS, ECONOMIC, Refusal::TooManyKilograms)?;
    Ok(Reading { kilograms: Kilograms(kilograms), grade: 5 })
}

/// What the base period would have emitted at the report's output, less the reading below.
fn estimate(
    report_output: i128,
    base_output: i128,
    base_kilograms: i128,
    below: &Source,
) -> Result<Reading, Fault> {
    let in_range = within(MOST_ESTIMATE_OUTPUT, report_output)
        && (1..=MOST_ESTIMATE_OUTPUT).contains(&base_output)
        && within(MOST_KILOGRAMS, base_kilograms);
    require(in_range, ESTIMATE, Refusal::SourceOutOfRange)?;
    let below = below.read()?;
    let kilograms = report_output * base_kilograms / base_output - below.kilograms.0;
    require(kilograms.abs() <= MOST_KILOGRAMS, ESTIMATE, Refusal::TooManyKilograms)?;
    Ok(Reading { kilograms: Kilograms(kilograms), ..below })
}

fn overseas_cut(part: i128, below: &Source) -> Result<Reading, Fault> {
    require(within(MOST_KILOGRAMS, part), OVERSEAS, Refusal::SourceOutOfRange)?;
    let below = below.read()?;
    require(part <= below.kilograms.0, OVERSEAS, Refusal::OverseasAboveReading)?;
    Ok(Reading { kilograms: below.kilograms - Kilograms(part), ..below })
}

fn offset(green_power: i128, ccer: i128, tickets: i128, below: &Source) -> Result<Reading, Fault> {
    let in_range = [green_power, ccer, tickets].iter().all(|figure| within(MOST_OFFSET, *figure));
    require(in_range, OFFSET, Refusal::SourceOutOfRange)?;
    let below = below.read()?;
    let taken_off = green_power * 5_703 / 10 + 1_000 * (ccer + tickets);
    require(taken_off <= below.kilograms.0, OFFSET, Refusal::OffsetsAboveReading)?;
    Ok(Reading { kilograms: below.kilograms - Kilograms(taken_off), ..below })
}

#[cfg(test)]
mod tests {
    use super::*;

    fn reported(kilograms: i128) -> Box<Source> {
        Box::new(Source::Report { kilograms, mark: 1 })
    }

    fn bill(terms: &[(i128, i128)]) -> Result<Reading, Fault> {
        let terms = terms.iter().map(|&(row, quantity)| Term { row, quantity }).collect();
        Source::EnergyBill { terms }.read()
    }

    #[test]
    fn a_bill_is_rounded_up_once() {
        assert_eq!(bill(&[(6, 1_000), (3, 1)]).unwrap().kilograms, Kilograms(573));
        assert_eq!(bill(&[(3, 1), (3, 1)]).unwrap().kilograms, Kilograms(6));
        assert_eq!(bill(&[(5, 0)]).unwrap().kilograms, Kilograms(0));
    }

    #[test]
    fn a_bill_names_its_first_wrong_term() {
        let fault = bill(&[(1, 0), (7, 0), (0, 0)]).unwrap_err();
        assert_eq!(fault, Fault::in_source(2, Refusal::SourceOutOfRange).at(2));
        assert_eq!(bill(&[(1, 454_758_365)]).unwrap_err().refusal, Refusal::TooManyKilograms);
        assert_eq!(bill(&[(1, 454_758_364)]).unwrap().kilograms, Kilograms(999_999_999_686));
    }

    #[test]
    fn a_layer_tries_its_own_figures_before_it_reads_below() {
        let unmarked = Box::new(Source::Report { kilograms: 1, mark: 0 });
        let cut = |part| Source::OverseasCut { part, below: unmarked.clone() }.read().unwrap_err();
        assert_eq!(cut(MOST_KILOGRAMS + 1), Fault::in_source(5, Refusal::SourceOutOfRange));
        assert_eq!(cut(2), Fault::in_source(1, Refusal::ReportUnmarked));
    }

    #[test]
    fn offsets_are_cut_toward_zero() {
        let offset = Source::Offset { green_power: 1, ccer: 1, tickets: 0, below: reported(1_570) };
        assert_eq!(offset.read().unwrap().kilograms, Kilograms(0));
    }
}
