//! The fixing and the settlement of document 01 and the sheet of W-209 in plain Rust: the baseline of the benchmark.
//!
//!     rustc --edition 2021 -O -C opt-level=3 plain.rs
//!     ./plain even|mixed fix|settle|both|sheet COUNT

use std::borrow::Cow;
use std::cmp::{Ordering, Reverse};
use std::hint::black_box;
use std::ops::RangeInclusive;

const MAX_DISTRIBUTORS: usize = 40;
const SECTORS: usize = 8;
const MAX_PLACES: usize = SECTORS * MAX_DISTRIBUTORS;
/// The readings of a distributor, and the bits of its map in a sheet.
const READINGS: usize = 4 * SECTORS;
/// A map or a reading in a sheet.
const NUMBER_BYTES: usize = 4;
/// A distributor's part of a sheet at its longest: the map and every reading.
const MAX_PART_BYTES: usize = NUMBER_BYTES * (1 + READINGS);
const MAX_LINES: usize = 256;
const LINE_WORDS: usize = 30;
const TERM_WORDS: usize = 5;
const TERMS: usize = 4;
const POWER_WORDS: usize = 4;
const SERIES: usize = 5;
const SERIES_MONTHS: usize = 48;
const CPI: u64 = 3;

const LAST_MONTH: u64 = 1_199;
const MAX_SERIES_VALUE: u64 = 99_999_999;
const MAX_SECTOR_FACTOR: u64 = 50_000;
const MAX_READING: u64 = 2_000_000_000;
const MAX_INDEX_FACTOR: u64 = 100_000_000;

/// One, in ten-thousandths.
const UNIT: u64 = 10_000;
/// One, in the millionths of means, ratios and index factors.
const MILLION: u64 = 1_000_000;
/// Millionths in a ten-thousandth.
const MILLIONTHS: u64 = MILLION / UNIT;

const FACTOR_RANGE: RangeInclusive<u64> = 5_000..=20_000;
const DOLLAR_RANGE: RangeInclusive<u64> = 1..=200_000;
const CONTRACT_PRICE_RANGE: RangeInclusive<u64> = 1..=1_000_000;
const POWER_PRICE_RANGE: RangeInclusive<u64> = 1..=100_000_000;
const ENERGY_RANGE: RangeInclusive<u64> = 1..=10_000_000;
const REFERENCE_RANGE: RangeInclusive<u64> = 1_000..=2_000_000;
const LOSS_RANGE: RangeInclusive<u64> = 10_000..=20_000;
const CHARGE_RANGE: RangeInclusive<i64> = -10_500_000..=10_500_000;
const BALANCE_RANGE: RangeInclusive<i64> = -1_000_000_000_000_000..=1_000_000_000_000_000;

#[derive(Debug, Clone, Copy, PartialEq, Eq)]
enum Refusal {
    DistributorCount,
    UnsoundLedger,
    WrongLength,
    OutOfTurn,
    FirstDay,
    NoFixing,
    BadInput,
    SeriesValue,
    Sector,
    DistributorWithoutLine,
    MonthMissing { line: usize, term: usize },
    OutOfBounds { line: usize },
    Reading,
    Position,
    SheetLength,
    ZeroReading,
}

/// `numerator / denominator`, a half upwards.
fn half_up(numerator: u64, denominator: u64) -> u64 {
    (numerator + denominator / 2) / denominator
}

/// `numerator / denominator`, a half away from zero.
fn half_away(numerator: i64, denominator: u64) -> i64 {
    let size = half_up(numerator.unsigned_abs(), denominator) as i64;
    if numerator < 0 {
        -size
    } else {
        size
    }
}

/// The days of a month, of which number 0 is January 2000.
fn days_in(month: u64) -> u64 {
    let year = 2_000 + month / 12;
    match month % 12 {
        1 if year % 4 == 0 && (year % 100 != 0 || year % 400 == 0) => 29,
        1 => 28,
        3 | 5 | 8 | 10 => 30,
        _ => 31,
    }
}

/// What a fixing leaves in the ledger for each sector.
#[derive(Debug, Clone, PartialEq, Eq)]
struct Sectors {
    present: [bool; MAX_PLACES],
    charges: [i64; MAX_PLACES],
}

impl Sectors {
    const NONE: Sectors = Sectors { present: [false; MAX_PLACES], charges: [0; MAX_PLACES] };

    /// `places` is how many of them may be present.
    fn are_sound(&self, places: usize) -> bool {
        let charge_is_sound = |(&present, charge): (&bool, &i64)| {
            if present {
                CHARGE_RANGE.contains(charge)
            } else {
                *charge == 0
            }
        };
        // Charges past these places are zero too, because their sectors are absent.
        !self.present[places..].contains(&true) && self.present.iter().zip(&self.charges).all(charge_is_sound)
    }
}

#[derive(Debug, Clone, PartialEq, Eq)]
struct Ledger {
    distributors: usize,
    last_month: u64,
    has_fixing: bool,
    fixing_month: u64,
    first_day: u64,
    has_older: bool,
    in_force: Sectors,
    older: Sectors,
    balances: [i64; MAX_DISTRIBUTORS],
    /// The settled months of each distributor.
    counts: [u64; MAX_DISTRIBUTORS],
}

impl Ledger {
    fn open(distributors: usize) -> Result<Ledger, Refusal> {
        if !(1..=MAX_DISTRIBUTORS).contains(&distributors) {
            return Err(Refusal::DistributorCount);
        }
        Ok(Ledger {
            distributors,
            last_month: 0,
            has_fixing: false,
            fixing_month: 0,
            first_day: 0,
            has_older: false,
            in_force: Sectors::NONE,
            older: Sectors::NONE,
            balances: [0; MAX_DISTRIBUTORS],
            counts: [0; MAX_DISTRIBUTORS],
        })
    }

    fn has_settled_month(&self) -> bool {
        self.counts.iter().any(|&count| count != 0)
    }

    fn is_sound(&self) -> bool {
        let n = self.distributors;
        if !(1..=MAX_DISTRIBUTORS).contains(&n) {
            return false;
        }
        let places = |is_kept| if is_kept { SECTORS * n } else { 0 };
        if !self.in_force.are_sound(places(self.has_fixing)) || !self.older.are_sound(places(self.has_older)) {
            return false;
        }
        // Balances past n are zero too, because their counts are zero.
        if self.counts[n..].iter().any(|&count| count != 0) {
            return false;
        }
        if self.last_month > LAST_MONTH || self.fixing_month > LAST_MONTH {
            return false;
        }
        let fixing_is_sound = if self.has_fixing {
            day_is_allowed(self.first_day, self.fixing_month, self.has_older)
        } else {
            self.fixing_month == 0 && self.first_day == 0 && !self.has_older
        };
        if !fixing_is_sound {
            return false;
        }
        if self.balances.iter().zip(&self.counts).any(|(&balance, &count)| count == 0 && balance != 0) {
            return false;
        }
        if !self.has_settled_month() {
            return self.last_month == 0;
        }
        self.counts.iter().all(|&count| count <= self.last_month + 1)
            && self.fixing_month <= self.last_month + 1
            && self.balances.iter().all(|b| BALANCE_RANGE.contains(b))
            && !(self.balances.iter().any(|&b| b > 0) && self.balances.iter().any(|&b| b < 0))
    }

    /// Whether an older fixing stands beside a new one for a month, and what it leaves.
    fn older_beside(&self, month: u64) -> (bool, &Sectors) {
        match month.cmp(&self.fixing_month) {
            Ordering::Greater if self.has_fixing => (true, &self.in_force),
            Ordering::Equal if self.has_fixing => (self.has_older, &self.older),
            _ => (false, &Sectors::NONE),
        }
    }

    /// What a month is billed under: in a month that is split by days both fixings, else the one in force.
    fn billed_under(&self, month: u64) -> Cow<'_, Sectors> {
        if month != self.fixing_month || self.first_day == 1 {
            return Cow::Borrowed(&self.in_force);
        }
        let days = days_in(month);
        let before = self.first_day as i64 - 1;
        let remaining = days as i64 - before;
        let mut sectors = self.in_force.clone();
        for place in 0..SECTORS * self.distributors {
            sectors.present[place] |= self.older.present[place];
            let sum = self.older.charges[place] * before + self.in_force.charges[place] * remaining;
            sectors.charges[place] = half_away(sum, days);
        }
        Cow::Owned(sectors)
    }
}

/// Whether a fixing may start on a day: one of its month, and the first where no older fixing has the days before.
fn day_is_allowed(day: u64, month: u64, has_older: bool) -> bool {
    (1..=days_in(month)).contains(&day) && (day == 1 || has_older)
}

/// The lent words of a fixing.
struct FixingInput {
    month: u64,
    dollar: u64,
    reference_factor: u64,
    first_month: u64,
    first_day: u64,
    series: Vec<u64>,
    lines: Vec<u64>,
    sector_factors: Vec<u64>,
}

/// The lent words of a settlement.
struct SettlementInput {
    month: u64,
    readings: Vec<u64>,
    loss_factors: Vec<u64>,
}

/// The published index values and the number of their first month.
struct SeriesTable<'a> {
    rows: &'a [[u64; SERIES_MONTHS]],
    first_month: u64,
}

impl SeriesTable<'_> {
    /// The ratio of the mean over the term's window to its base value, or `None` if one of its months is missing.
    fn ratio(&self, month: u64, term: &Term) -> Option<u64> {
        let end = (month + 1).checked_sub(term.lag)?;
        let start = end.checked_sub(term.window)?.checked_sub(self.first_month)?;
        let values = self.rows[term.series as usize].get(start as usize..(start + term.window) as usize)?;
        if values.contains(&0) {
            return None;
        }
        let mean = half_up(values.iter().sum::<u64>() * MILLIONTHS, term.window);
        Some(half_up(mean * MILLION, term.base_value * MILLIONTHS))
    }
}

struct Term {
    series: u64,
    weight: u64,
    lag: u64,
    window: u64,
    base_value: u64,
}

impl Term {
    fn new(words: &[u64; TERM_WORDS]) -> Term {
        let &[series, weight, lag, window, base_value] = words;
        Term { series, weight, lag, window, base_value }
    }

    fn is_valid(&self) -> bool {
        self.series < SERIES as u64
            && (1..=UNIT).contains(&self.weight)
            && (1..=12).contains(&self.lag)
            && matches!(self.window, 1 | 6 | 9)
            && (1..=MAX_SERIES_VALUE).contains(&self.base_value)
    }
}

/// What moves a line's prices, in millionths: the index factor of energy and the ratio of power.
struct Factors {
    energy: u64,
    power: u64,
}

/// A supply line, read from its words.
struct Line<'a> {
    distributor: u64,
    base_price: u64,
    offer_factor: u64,
    purchase_factor: u64,
    energy: u64,
    term_count: u64,
    term_words: &'a [[u64; TERM_WORDS]],
    power_base_price: u64,
    power_term: Term,
}

impl<'a> Line<'a> {
    fn new(words: &'a [u64; LINE_WORDS]) -> Line<'a> {
        let &[distributor, base_price, offer_factor, purchase_factor, energy, term_count, ref rest @ ..] = words;
        let (term_words, power_words) = rest.as_chunks();
        let &[power_base_price, lag, window, base_value] = power_words else { unreachable!() };
        // A line has one power term, so its weight is the whole.
        let power_term = Term { series: CPI, weight: UNIT, lag, window, base_value };
        Line {
            distributor,
            base_price,
            offer_factor,
            purchase_factor,
            energy,
            term_count,
            term_words,
            power_base_price,
            power_term,
        }
    }

    fn terms(&self) -> impl Iterator<Item = Term> + 'a {
        self.term_words[..self.term_count as usize].iter().map(Term::new)
    }

    fn is_valid(&self, distributors: usize) -> bool {
        if self.distributor >= distributors as u64
            || !CONTRACT_PRICE_RANGE.contains(&self.base_price)
            || !FACTOR_RANGE.contains(&self.offer_factor)
            || !FACTOR_RANGE.contains(&self.purchase_factor)
            || !ENERGY_RANGE.contains(&self.energy)
            || self.term_count > self.term_words.len() as u64
            || !POWER_PRICE_RANGE.contains(&self.power_base_price)
            || !self.power_term.is_valid()
        {
            return false;
        }
        let mut weights = 0;
        for term in self.terms() {
            if !term.is_valid() {
                return false;
            }
            weights += term.weight;
        }
        let unused = &self.term_words[self.term_count as usize..];
        (self.term_count == 0 || weights == UNIT) && unused.iter().flatten().all(|&word| word == 0)
    }

    /// The factors, or the number of the first term with a missing month; the power term comes last.
    fn factors(&self, month: u64, table: &SeriesTable) -> Result<Factors, usize> {
        let mut sum = 0;
        for (number, term) in self.terms().enumerate() {
            sum += term.weight * table.ratio(month, &term).ok_or(number)?;
        }
        let energy = if self.term_count == 0 { MILLION } else { half_up(sum, UNIT) };
        let power = table.ratio(month, &self.power_term).ok_or(TERMS)?;
        Ok(Factors { energy, power })
    }

    /// A base price moved by a factor, then by purchase over offer factor, or `None` if one of them is out of bounds.
    fn purchase(&self, base_price: u64, factor: u64, range: &RangeInclusive<u64>) -> Option<u64> {
        if factor > MAX_INDEX_FACTOR {
            return None;
        }
        let indexed = half_up(base_price * factor, MILLION);
        if !range.contains(&indexed) {
            return None;
        }
        let purchase = half_up(indexed * self.purchase_factor, self.offer_factor);
        range.contains(&purchase).then_some(purchase)
    }

    /// The reference price, or `None` if the index factor or a price is out of bounds.
    fn reference(&self, index_factor: u64, dollar: u64, reference_factor: u64) -> Option<u64> {
        let purchase = self.purchase(self.base_price, index_factor, &CONTRACT_PRICE_RANGE)?;
        let peso = half_up(purchase * dollar, 100_000);
        let reference = half_up(peso * reference_factor, self.purchase_factor);
        REFERENCE_RANGE.contains(&reference).then_some(reference)
    }

    /// The power price in thousandths of $/kW/month, or `None` if the ratio or a price is out of bounds.
    fn power_price(&self, ratio: u64, dollar: u64) -> Option<u64> {
        let purchase = self.purchase(self.power_base_price, ratio, &POWER_PRICE_RANGE)?;
        Some(half_up(purchase * dollar, 100))
    }
}

/// What the limit makes of the average prices.
struct Adjustment {
    limit: u64,
    surcharge: u64,
    rounds: u64,
    residue: u64,
    finals: [u64; MAX_DISTRIBUTORS],
}

fn adjust(averages: &[u64], energies: &[u64]) -> Adjustment {
    let total: u64 = averages.iter().zip(energies).map(|(p, e)| p * e).sum();
    let energy: u64 = energies.iter().sum();
    let limit = 105 * total / (100 * energy);

    let mut capped = [false; MAX_DISTRIBUTORS];
    for (capped, &average) in capped.iter_mut().zip(averages) {
        *capped = average > limit;
    }
    let mut surcharge = 0;
    let mut rounds = 0;
    let mut joined = capped.contains(&true);
    while joined {
        rounds += 1;
        let mut excess = 0;
        let mut outside = 0;
        for ((&capped, &average), &energy) in capped.iter().zip(averages).zip(energies) {
            if capped {
                // Signed, since those that joined later have averages up to the limit; the sum stays positive.
                excess += (average as i64 - limit as i64) * energy as i64;
            } else {
                outside += energy;
            }
        }
        surcharge = (excess as u64).div_ceil(outside);
        joined = false;
        for (capped, &average) in capped.iter_mut().zip(averages) {
            if !*capped && average + surcharge > limit {
                *capped = true;
                joined = true;
            }
        }
    }

    let mut finals = [0; MAX_DISTRIBUTORS];
    let mut collected = 0;
    for (i, (&average, &energy)) in averages.iter().zip(energies).enumerate() {
        finals[i] = if capped[i] { limit } else { average + surcharge };
        collected += finals[i] * energy;
    }
    Adjustment { limit, surcharge, rounds, residue: collected - total, finals }
}

struct Fixing {
    limit: u64,
    surcharge: u64,
    rounds: u64,
    residue: u64,
    ledger: Ledger,
}

/// Fixes the prices of a month; `prices` takes average, final and charge of each distributor, `power` its average power
/// price.
fn fix(ledger: &Ledger, input: &FixingInput, prices: &mut [i64], power: &mut [u64]) -> Result<Fixing, Refusal> {
    if !ledger.is_sound() {
        return Err(Refusal::UnsoundLedger);
    }
    let n = ledger.distributors;
    let month = input.month;
    let (lines, rest) = input.lines.as_chunks::<LINE_WORDS>();
    if !rest.is_empty()
        || !(1..=MAX_LINES).contains(&lines.len())
        || input.series.len() != SERIES * SERIES_MONTHS
        || input.sector_factors.len() != SECTORS * n
        || prices.len() != 3 * n
        || power.len() != n
    {
        return Err(Refusal::WrongLength);
    }
    if month > LAST_MONTH || (ledger.has_settled_month() && month != ledger.last_month + 1) {
        return Err(Refusal::OutOfTurn);
    }
    let (has_older, older) = ledger.older_beside(month);
    if !day_is_allowed(input.first_day, month, has_older) {
        return Err(Refusal::FirstDay);
    }
    if !DOLLAR_RANGE.contains(&input.dollar)
        || !FACTOR_RANGE.contains(&input.reference_factor)
        || input.first_month > LAST_MONTH
        || !lines.iter().all(|words| Line::new(words).is_valid(n))
    {
        return Err(Refusal::BadInput);
    }
    if input.series.iter().any(|&value| value > MAX_SERIES_VALUE) {
        return Err(Refusal::SeriesValue);
    }
    let (sector_factors, _) = input.sector_factors.as_chunks::<SECTORS>();
    if sector_factors.iter().any(|own| *own == [0; SECTORS] || own.iter().any(|&f| f > MAX_SECTOR_FACTOR)) {
        return Err(Refusal::Sector);
    }
    let mut energies = [0; MAX_DISTRIBUTORS];
    for line in lines.iter().map(Line::new) {
        energies[line.distributor as usize] += line.energy;
    }
    let energies = &energies[..n];
    // A line's energy is at least 1.
    if energies.contains(&0) {
        return Err(Refusal::DistributorWithoutLine);
    }

    // A missing month in any line goes before a price out of bounds in any other.
    let table = SeriesTable { rows: input.series.as_chunks().0, first_month: input.first_month };
    let mut factors = Vec::with_capacity(lines.len());
    for (number, line) in lines.iter().map(Line::new).enumerate() {
        match line.factors(month, &table) {
            Ok(both) => factors.push(both),
            Err(term) => return Err(Refusal::MonthMissing { line: number, term }),
        }
    }
    let mut amounts = [0; MAX_DISTRIBUTORS];
    // Up to 5.12 * 10^20, past 64 bits.
    let mut power_amounts = [0; MAX_DISTRIBUTORS];
    for (number, (line, factors)) in lines.iter().map(Line::new).zip(&factors).enumerate() {
        let out_of_bounds = Refusal::OutOfBounds { line: number };
        let reference = line.reference(factors.energy, input.dollar, input.reference_factor).ok_or(out_of_bounds)?;
        let power_price = line.power_price(factors.power, input.dollar).ok_or(out_of_bounds)?;
        amounts[line.distributor as usize] += reference * line.energy;
        power_amounts[line.distributor as usize] += power_price as u128 * line.energy as u128;
    }
    let mut averages = [0; MAX_DISTRIBUTORS];
    for (average, (&amount, &energy)) in averages.iter_mut().zip(amounts.iter().zip(energies)) {
        *average = half_up(amount, energy);
    }

    let Adjustment { limit, surcharge, rounds, residue, finals } = adjust(&averages[..n], energies);
    let mut ledger = Ledger { older: older.clone(), ..ledger.clone() };
    ledger.has_fixing = true;
    ledger.fixing_month = month;
    ledger.first_day = input.first_day;
    ledger.has_older = has_older;
    for i in 0..n {
        let average = averages[i] as i64;
        let final_price = finals[i] as i64;
        let charge = final_price - average;
        prices[3 * i..3 * i + 3].copy_from_slice(&[average, final_price, charge]);
        let energy = energies[i] as u128;
        power[i] = ((power_amounts[i] + energy / 2) / energy) as u64;
        for (sector, &factor) in sector_factors[i].iter().enumerate() {
            let place = SECTORS * i + sector;
            ledger.in_force.present[place] = factor != 0;
            ledger.in_force.charges[place] = half_away(charge * factor as i64, UNIT);
        }
    }
    Ok(Fixing { limit, surcharge, rounds, residue, ledger })
}

/// The shares of one side, those who owe or those who are owed, in the transferred sum: rounded down, and what is left
/// goes out one peso each to the largest remainders, the lower number first among equals.
fn shares(sizes: &[u64], transferred: u64) -> [u64; MAX_DISTRIBUTORS] {
    let mut shares = [0; MAX_DISTRIBUTORS];
    let total = sizes.iter().sum::<u64>() as u128;
    if total == 0 {
        return shares;
    }
    let mut order = [(Reverse(0), 0); MAX_DISTRIBUTORS];
    let order = &mut order[..sizes.len()];
    for (i, &size) in sizes.iter().enumerate() {
        let product = transferred as u128 * size as u128;
        shares[i] = (product / total) as u64;
        order[i] = (Reverse((product % total) as u64), i);
    }
    let left = transferred - shares.iter().sum::<u64>();
    order.sort_unstable();
    for &(_, i) in &order[..left as usize] {
        shares[i] += 1;
    }
    shares
}

/// What a distributor collected in a month by its charges.
fn collected(charges: &[i64], readings: &[[u64; 4]], peat: u64, pebt: u64) -> i64 {
    let (peat, pebt) = (peat as i64, pebt as i64);
    let mut sum = 0;
    for (charge, reading) in charges.iter().zip(readings) {
        let [billed_at, injected_at, billed_bt, injected_bt] = reading.map(|word| word as i64);
        let net_at = billed_at - injected_at;
        let net_bt = billed_bt - injected_bt;
        let energy = half_away(net_at * peat * UNIT as i64 + net_bt * peat * pebt, UNIT * UNIT);
        sum += charge * energy;
    }
    half_away(sum, 1_000)
}

/// Settles a month and hands back the new ledger; `transfers` takes what each distributor receives.
fn settle(ledger: &Ledger, input: &SettlementInput, transfers: &mut [i64]) -> Result<Ledger, Refusal> {
    if !ledger.is_sound() {
        return Err(Refusal::UnsoundLedger);
    }
    let n = ledger.distributors;
    let month = input.month;
    if input.readings.len() != READINGS * n || input.loss_factors.len() != 2 * n || transfers.len() != n {
        return Err(Refusal::WrongLength);
    }
    let out_of_turn = if ledger.has_settled_month() {
        month != ledger.last_month + 1
    } else {
        ledger.has_fixing && month != ledger.fixing_month
    };
    if month > LAST_MONTH || out_of_turn {
        return Err(Refusal::OutOfTurn);
    }
    if !ledger.has_fixing {
        return Err(Refusal::NoFixing);
    }
    let billed = ledger.billed_under(month);
    let (readings, _) = input.readings.as_chunks::<4>();
    let reading_is_valid = |(reading, &present): (&[u64; 4], &bool)| {
        if present {
            reading.iter().all(|&word| word <= MAX_READING)
        } else {
            *reading == [0; 4]
        }
    };
    if !readings.iter().zip(&billed.present).all(reading_is_valid)
        || !input.loss_factors.iter().all(|factor| LOSS_RANGE.contains(factor))
    {
        return Err(Refusal::Reading);
    }

    let mut positions = [0; MAX_DISTRIBUTORS];
    let (loss_factors, _) = input.loss_factors.as_chunks::<2>();
    for (i, &[peat, pebt]) in loss_factors.iter().enumerate() {
        let places = SECTORS * i..SECTORS * (i + 1);
        let amount = collected(&billed.charges[places.clone()], &readings[places], peat, pebt);
        positions[i] = ledger.balances[i] + amount;
    }
    let positions = &positions[..n];
    if !positions.iter().all(|position| BALANCE_RANGE.contains(position)) {
        return Err(Refusal::Position);
    }

    let (mut owing, mut owed) = ([0; MAX_DISTRIBUTORS], [0; MAX_DISTRIBUTORS]);
    for (i, &position) in positions.iter().enumerate() {
        let side = if position > 0 { &mut owing } else { &mut owed };
        side[i] = position.unsigned_abs();
    }
    let transferred = owing.iter().sum::<u64>().min(owed.iter().sum());
    let paid = shares(&owing[..n], transferred);
    let received = shares(&owed[..n], transferred);
    let mut ledger = ledger.clone();
    for (i, &position) in positions.iter().enumerate() {
        transfers[i] = received[i] as i64 - paid[i] as i64;
        ledger.balances[i] = position + transfers[i];
    }
    for count in &mut ledger.counts[..n] {
        *count += 1;
    }
    ledger.last_month = month;
    Ok(ledger)
}

/// Takes the number at the front of a sheet, low byte first.
fn take_number(sheet: &mut &[u8]) -> Result<u32, Refusal> {
    let (number, rest) = sheet.split_first_chunk().ok_or(Refusal::SheetLength)?;
    *sheet = rest;
    Ok(u32::from_le_bytes(*number))
}

/// Reads a month sheet: for each distributor a map of its readings, then those whose bit is set.
fn read_sheet(distributors: usize, sheet: &[u8], readings: &mut [u64]) -> Result<(), Refusal> {
    if !(1..=MAX_DISTRIBUTORS).contains(&distributors) {
        return Err(Refusal::DistributorCount);
    }
    if readings.len() != READINGS * distributors {
        return Err(Refusal::WrongLength);
    }
    // A refused sheet leaves the lent list as it was, so the readings are kept here till the end is reached.
    let mut found = [[0; READINGS]; MAX_DISTRIBUTORS];
    let found = &mut found[..distributors];
    let mut rest = sheet;
    for own in found.iter_mut() {
        let map = take_number(&mut rest)?;
        for (bit, reading) in own.iter_mut().enumerate() {
            if map >> bit & 1 == 1 {
                *reading = u64::from(take_number(&mut rest)?);
                if *reading == 0 {
                    return Err(Refusal::ZeroReading);
                }
            }
        }
    }
    if !rest.is_empty() {
        return Err(Refusal::SheetLength);
    }
    readings.copy_from_slice(found.as_flattened());
    Ok(())
}

/// Puts a number into a sheet, low byte first.
fn put_number(sheet: &mut [u8], place: usize, number: u32) {
    sheet[place..place + NUMBER_BYTES].copy_from_slice(&number.to_le_bytes());
}

/// Writes a month sheet and says how many bytes it took; those after them stay as they were.
fn write_sheet(distributors: usize, readings: &[u64], sheet: &mut [u8]) -> Result<usize, Refusal> {
    if !(1..=MAX_DISTRIBUTORS).contains(&distributors) {
        return Err(Refusal::DistributorCount);
    }
    if readings.len() != READINGS * distributors || sheet.len() < MAX_PART_BYTES * distributors {
        return Err(Refusal::WrongLength);
    }
    if readings.iter().any(|&reading| reading > MAX_READING) {
        return Err(Refusal::Reading);
    }
    let mut used = 0;
    for own in readings.chunks_exact(READINGS) {
        let map_place = used;
        used += NUMBER_BYTES;
        let mut map = 0;
        for (bit, &reading) in own.iter().enumerate() {
            if reading != 0 {
                map |= 1 << bit;
                put_number(sheet, used, reading as u32);
                used += NUMBER_BYTES;
            }
        }
        put_number(sheet, map_place, map);
    }
    Ok(used)
}

/// A line's words: the six at its head, then its terms, of which unused ones stay zero, then power.
fn line_words(head: [u64; 6], terms: &[[u64; TERM_WORDS]], power: [u64; POWER_WORDS]) -> Vec<u64> {
    let mut words = head.to_vec();
    words.extend(terms.iter().flatten());
    words.resize(LINE_WORDS - POWER_WORDS, 0);
    words.extend(power);
    words
}

/// Every distributor alike but for its base prices and energies, four full terms in each line.
fn even_load() -> (FixingInput, SettlementInput) {
    let line = |j: u64| {
        let terms: Vec<_> = (0..4).map(|k| [k, 2_500, 1, 9, 10_000]).collect();
        line_words([j % 40, 50_000 + 390 * j, 10_000, 10_000, 1_000 + j, 4], &terms, [10_000, 1, 9, 10_000])
    };
    let fixing = FixingInput {
        month: 20,
        dollar: 100_000,
        reference_factor: 10_000,
        first_month: 0,
        first_day: 1,
        series: vec![10_000; 240],
        lines: (0..256).flat_map(line).collect(),
        sector_factors: vec![10_000; 320],
    };
    let settlement = SettlementInput { month: 20, readings: vec![1_000; 1_280], loss_factors: vec![10_500; 80] };
    (fixing, settlement)
}

/// Words of every size, all counts of terms, absent sectors.
fn mixed_load() -> (FixingInput, SettlementInput) {
    let line = |j: u64| {
        let count = j % 5;
        let window = |place: u64| [1, 6, 9][place as usize % 3];
        let term = |k: u64| {
            let weight = 10_000 / count + if k == 0 { 10_000 % count } else { 0 };
            [(j + k) % 5, weight, 1 + (5 * j + 3 * k) % 12, window(j + k), 9_000 + (37 * j + 101 * k) % 2_001]
        };
        let head = [
            7 * j % 40,
            40_000 + 977 * j % 60_001,
            9_000 + 131 * j % 2_001,
            9_500 + 57 * j % 1_001,
            1 + 7_919 * j % 500_000,
            count,
        ];
        let power = [5_000 + 811 * j % 20_001, 1 + j % 12, window(j), 9_500 + 37 * j % 1_001];
        line_words(head, &(0..count).map(term).collect::<Vec<_>>(), power)
    };
    let series_value = |place: u64| {
        let (series, column) = (place / 48, place % 48);
        9_500 + (1_000 * series + 13 * column * column) % 1_001
    };
    let sector_factor = |place: u64| if place % 4 == 3 { 0 } else { 5_000 + 613 * place % 10_001 };
    let reading = |word: u64| if sector_factor(word / 4) == 0 { 0 } else { 104_729 * word % 1_000_001 };
    let fixing = FixingInput {
        month: 30,
        dollar: 85_000,
        reference_factor: 10_000,
        first_month: 0,
        first_day: 1,
        series: (0..240).map(series_value).collect(),
        lines: (0..256).flat_map(line).collect(),
        sector_factors: (0..320).map(sector_factor).collect(),
    };
    let settlement = SettlementInput {
        month: 30,
        readings: (0..1_280).map(reading).collect(),
        loss_factors: (0..80).map(|word| 10_000 + 97 * word % 1_501).collect(),
    };
    (fixing, settlement)
}

fn usage() -> ! {
    eprintln!("usage: plain even|mixed fix|settle|both|sheet COUNT");
    std::process::exit(2)
}

/// Writes the sheet of a month's readings and reads it back, as often as asked.
fn make_sheets(readings: &[u64], count: u64) {
    let mut sheet = vec![0; MAX_PART_BYTES * MAX_DISTRIBUTORS];
    let mut found = vec![0; READINGS * MAX_DISTRIBUTORS];
    let mut used = 0;
    for _ in 0..count {
        used = write_sheet(MAX_DISTRIBUTORS, black_box(readings), black_box(&mut sheet)).expect("the load is accepted");
        let written = black_box(&sheet[..used]);
        read_sheet(MAX_DISTRIBUTORS, written, black_box(&mut found)).expect("what is written can be read");
    }
    println!("used {used}");
    println!("sum {}", found.iter().fold(0, |sum: u64, &reading| sum.wrapping_add(reading)));
}

fn main() {
    let arguments: Vec<String> = std::env::args().skip(1).collect();
    let [load, call, count] = &arguments[..] else { usage() };
    let (fixing_input, settlement_input) = match load.as_str() {
        "even" => even_load(),
        "mixed" => mixed_load(),
        _ => usage(),
    };
    let Ok(count) = count.parse::<u64>() else { usage() };
    let (with_fixings, with_settlements) = match call.as_str() {
        "fix" => (true, false),
        "settle" => (false, true),
        "both" => (true, true),
        "sheet" => return make_sheets(&settlement_input.readings, count),
        _ => usage(),
    };

    let opened = Ledger::open(MAX_DISTRIBUTORS).expect("40 distributors are allowed");
    let mut prices = vec![0; 3 * MAX_DISTRIBUTORS];
    let mut power = vec![0; MAX_DISTRIBUTORS];
    let mut transfers = vec![0; MAX_DISTRIBUTORS];
    let fixed = fix(&opened, &fixing_input, &mut prices, &mut power).expect("the load is accepted").ledger;

    let (mut fixings, mut settlements) = (0, 0);
    let mut last_fixing = None;
    let mut last_settlement = None;
    for _ in 0..count {
        if with_fixings {
            let (opened, input) = (black_box(&opened), black_box(&fixing_input));
            let answer = fix(opened, input, black_box(&mut prices), black_box(&mut power));
            // No power price is printed, and still each is to be worked.
            black_box(&power);
            fixings += u64::from(answer.is_ok());
            last_fixing = Some(answer);
        }
        if with_settlements {
            let answer = settle(black_box(&fixed), black_box(&settlement_input), black_box(&mut transfers));
            settlements += u64::from(answer.is_ok());
            last_settlement = Some(answer);
        }
    }

    println!("fixings {fixings} settlements {settlements}");
    match last_fixing {
        Some(Ok(Fixing { limit, surcharge, rounds, residue, .. })) => {
            println!("limit {limit} surcharge {surcharge} rounds {rounds} residue {residue}");
            for (i, row) in prices.chunks(3).enumerate() {
                println!("{i} {} {} {}", row[0], row[1], row[2]);
            }
        }
        Some(Err(refusal)) => println!("fixing refused: {refusal:?}"),
        None => {}
    }
    match last_settlement {
        Some(Ok(ledger)) => {
            for (i, (transfer, balance)) in transfers.iter().zip(ledger.balances).enumerate() {
                println!("{i} {transfer} {balance}");
            }
        }
        Some(Err(refusal)) => println!("settlement refused: {refusal:?}"),
        None => {}
    }
}

#[cfg(test)]
mod tests {
    use super::*;

    /// Document 01's `classroom`: three distributors, one line without terms each.
    fn classroom() -> (Ledger, FixingInput) {
        let lines = [(100_000, 10), (83_000, 10), (60_000, 11)];
        let line = |(i, (price, energy)): (u64, &(u64, u64))| {
            line_words([i, *price, 10_000, 10_000, *energy, 0], &[], [9_000 + i, 1, 9, 10_000])
        };
        let input = FixingInput {
            month: 30,
            dollar: 100_000,
            reference_factor: 10_000,
            first_month: 0,
            first_day: 1,
            series: vec![10_000; 240],
            lines: (0..).zip(&lines).flat_map(line).collect(),
            sector_factors: [10_000, 0, 0, 0, 0, 0, 0, 0].repeat(3),
        };
        (Ledger::open(3).unwrap(), input)
    }

    fn month_of(month: u64, billed_at: [u64; 3]) -> SettlementInput {
        let mut readings = vec![0; 96];
        for (i, billed) in billed_at.into_iter().enumerate() {
            readings[32 * i] = billed;
        }
        SettlementInput { month, readings, loss_factors: vec![10_000; 6] }
    }

    fn refusal_of(change: impl Fn(&mut FixingInput)) -> Option<Refusal> {
        let (ledger, mut input) = classroom();
        change(&mut input);
        let (mut prices, mut power) = (vec![-7; 9], vec![7; 3]);
        let refusal = fix(&ledger, &input, &mut prices, &mut power).err();
        assert!(refusal.is_none() || (prices == [-7; 9] && power == [7; 3]));
        refusal
    }

    #[test]
    fn classroom_and_two_months() {
        let (ledger, input) = classroom();
        let (mut prices, mut power) = (vec![0; 9], vec![0; 3]);
        let fixing = fix(&ledger, &input, &mut prices, &mut power).ok().unwrap();
        assert_eq!((fixing.limit, fixing.surcharge, fixing.rounds, fixing.residue), (84_338, 13_022, 2, 2));
        assert_eq!(prices, [100_000, 84_338, -15_662, 83_000, 84_338, 1_338, 60_000, 73_022, 13_022]);
        assert_eq!(power, [9_000_000, 9_001_000, 9_002_000]);
        let mut transfers = vec![0; 3];
        let first = settle(&fixing.ledger, &month_of(30, [1_000; 3]), &mut transfers).unwrap();
        assert_eq!(first.balances[..3], [-1_302, 0, 0]);
        let second = settle(&first, &month_of(31, [0, 1_000, 1_000]), &mut transfers).unwrap();
        assert_eq!(transfers, [1_302, -121, -1_181]);
        assert_eq!(second.balances[..3], [0, 1_217, 11_841]);
        assert_eq!(second.counts[..4], [2, 2, 2, 0]);
        let again = settle(&second, &month_of(31, [0; 3]), &mut transfers);
        assert_eq!(again, Err(Refusal::OutOfTurn));
        assert_eq!(fix(&second, &input, &mut prices, &mut power).err(), Some(Refusal::OutOfTurn));
    }

    #[test]
    fn odd_pesos_go_to_the_largest_remainders() {
        assert_eq!(shares(&[1, 1, 1, 0], 2)[..4], [1, 1, 0, 0]);
        assert_eq!(shares(&[0, 5, 2, 1], 5)[..4], [0, 3, 1, 1]);
        assert_eq!(shares(&[0, 0], 0)[..2], [0, 0]);
    }

    #[test]
    fn fixings_are_refused_by_the_first_cause() {
        assert_eq!(refusal_of(|_| ()), None);
        assert_eq!(refusal_of(|input| input.lines.truncate(89)), Some(Refusal::WrongLength));
        assert_eq!(refusal_of(|input| input.lines.clear()), Some(Refusal::WrongLength));
        assert_eq!(refusal_of(|input| input.month = 1_200), Some(Refusal::OutOfTurn));
        assert_eq!(refusal_of(|input| input.lines[25] = 1), Some(Refusal::BadInput));
        assert_eq!(refusal_of(|input| input.series[239] = 100_000_000), Some(Refusal::SeriesValue));
        assert_eq!(refusal_of(|input| input.sector_factors[8] = 0), Some(Refusal::Sector));
        assert_eq!(refusal_of(|input| input.lines[30] = 0), Some(Refusal::DistributorWithoutLine));
        assert_eq!(refusal_of(|input| input.lines[31] = 999), Some(Refusal::OutOfBounds { line: 1 }));
        assert_eq!(refusal_of(|input| input.lines[31] = 1_000), None);
        let missing = |input: &mut FixingInput| {
            input.lines[1] = 999;
            let terms = [[0, 5_000, 1, 1, 10_000], [1, 5_000, 12, 9, 10_000]];
            let line = line_words([2, 60_000, 10_000, 10_000, 11, 2], &terms, [1, 1, 1, 1]);
            input.lines[60..].copy_from_slice(&line);
            input.series[48 + 10] = 0;
        };
        assert_eq!(refusal_of(missing), Some(Refusal::MonthMissing { line: 2, term: 1 }));
    }

    #[test]
    fn power_is_refused_by_the_first_cause() {
        let set = |word: usize, value: u64| refusal_of(move |input| input.lines[word] = value);
        for (word, least, most) in [(26, 1, 100_000_000), (27, 1, 12), (29, 1_000, 99_999_999)] {
            assert_eq!(set(word, least), None);
            assert_eq!(set(word, most), None);
        }
        for (word, value) in
            [(26, 0), (26, 100_000_001), (27, 0), (27, 13), (28, 0), (28, 7), (29, 0), (29, 100_000_000)]
        {
            assert_eq!(set(word, value), Some(Refusal::BadInput));
        }
        let (ledger, input) = classroom();
        for length in [2, 4] {
            let refusal = fix(&ledger, &input, &mut [0; 9], &mut vec![0; length]).err();
            assert_eq!(refusal, Some(Refusal::WrongLength));
        }
        let missing = |input: &mut FixingInput| {
            input.lines[1] = 999;
            input.lines[57..60].copy_from_slice(&[12, 9, 10_000]);
            input.series[3 * 48 + 10] = 0;
        };
        assert_eq!(refusal_of(missing), Some(Refusal::MonthMissing { line: 1, term: 4 }));
        // Ratio 100 and above, indexed 0 and 100,000,001, purchase 0 and 100,000,001.
        let priced = |price: u64, ratio: u64, offer_factor: u64, purchase_factor: u64| {
            let words = line_words([0, 1, offer_factor, purchase_factor, 1, 0], &[], [price, 1, 1, 1]);
            Line::new(words.first_chunk().unwrap()).power_price(ratio, 100_000)
        };
        assert_eq!(priced(1, 100_000_000, 10_000, 10_000), Some(100_000));
        assert_eq!(priced(1, 100_000_001, 10_000, 10_000), None);
        assert_eq!(priced(1, 500_000, 10_000, 10_000), Some(1_000));
        assert_eq!(priced(1, 499_999, 10_000, 10_000), None);
        assert_eq!(priced(99_999_900, 1_000_001, 10_000, 5_000), Some(50_000_000_000));
        assert_eq!(priced(99_999_901, 1_000_001, 10_000, 5_000), None);
        assert_eq!(priced(1, MILLION, 10_000, 5_000), Some(1_000));
        assert_eq!(priced(1, MILLION, 20_000, 9_999), None);
        assert_eq!(priced(66_666_667, MILLION, 10_000, 15_000), None);
        assert_eq!(refusal_of(|input| input.lines[56] = 100_000_000), None);
        let first = Some(Refusal::OutOfBounds { line: 0 });
        assert_eq!(refusal_of(|input| (input.lines[29], input.lines[31]) = (1, 999)), first);
        assert_eq!(refusal_of(|input| (input.lines[1], input.lines[59]) = (999, 1)), first);
        assert_eq!(refusal_of(|input| input.lines[59] = 1), Some(Refusal::OutOfBounds { line: 1 }));
    }

    #[test]
    fn power_is_weighted_by_energy_and_rounded_once() {
        let (ledger, mut input) = classroom();
        let (mut prices, mut power) = (vec![0; 9], vec![0; 3]);
        let widest = line_words([0, 100_000, 10_000, 10_000, 10_000_000, 0], &[], [100_000_000, 1, 9, 10_000]);
        let uneven = [(1, 1_000, 3), (1, 2_000, 1), (2, 1, 1), (2, 1, 1), (2, 1, 1)];
        input.lines = widest.repeat(20);
        for (distributor, price, energy) in uneven {
            let head = [distributor, 60_000, 10_000, 10_000, energy, 0];
            input.lines.extend(line_words(head, &[], [price, 1, 9, 10_000]));
        }
        fix(&ledger, &input, &mut prices, &mut power).ok().unwrap();
        assert_eq!(power, [100_000_000_000, 1_250_000, 1_000]);
    }

    #[test]
    fn settlements_are_refused_by_the_first_cause() {
        let (opened, input) = classroom();
        let fixed = fix(&opened, &input, &mut [0; 9], &mut [0; 3]).ok().unwrap().ledger;
        let mut transfers = vec![-7; 3];
        let mut refusal = |ledger: &Ledger, input: &SettlementInput| settle(ledger, input, &mut transfers).err();
        assert_eq!(refusal(&opened, &month_of(30, [1; 3])), Some(Refusal::NoFixing));
        assert_eq!(refusal(&opened, &month_of(1_200, [1; 3])), Some(Refusal::OutOfTurn));
        assert_eq!(refusal(&fixed, &month_of(31, [1; 3])), Some(Refusal::OutOfTurn));
        assert_eq!(refusal(&fixed, &month_of(30, [2_000_000_001; 3])), Some(Refusal::Reading));
        let mut absent = month_of(30, [1; 3]);
        absent.readings[7] = 1;
        assert_eq!(refusal(&fixed, &absent), Some(Refusal::Reading));
        let mut short = month_of(30, [1; 3]);
        short.loss_factors.pop();
        assert_eq!(refusal(&fixed, &short), Some(Refusal::WrongLength));
        let mut full = fixed.clone();
        full.last_month = 30;
        full.counts[..3].fill(1);
        full.balances[2] = 1_000_000_000_000_000;
        assert_eq!(refusal(&full, &month_of(31, [0, 0, 1_000])), Some(Refusal::Position));
        full.balances[1] = -1;
        assert_eq!(refusal(&full, &month_of(31, [0; 3])), Some(Refusal::UnsoundLedger));
        assert_eq!(transfers, [-7; 3]);
    }

    #[test]
    fn counts_decide_what_is_settled() {
        let mut settled = Ledger::open(3).unwrap();
        (settled.last_month, settled.counts[2], settled.balances[2]) = (30, 31, 7);
        let refusal = |ledger: &Ledger, month| settle(ledger, &month_of(month, [0; 3]), &mut [0; 3]).err();
        assert_eq!(refusal(&settled, 31), Some(Refusal::NoFixing));
        assert_eq!(refusal(&settled, 30), Some(Refusal::OutOfTurn));
        let unsound = |change: fn(&mut Ledger)| {
            let mut ledger = settled.clone();
            change(&mut ledger);
            !ledger.is_sound()
        };
        assert!(unsound(|ledger| ledger.counts[2] = 0));
        assert!(unsound(|ledger| ledger.counts[2] = 32));
        assert!(unsound(|ledger| ledger.counts[3] = 1));
        assert!(unsound(|ledger| ledger.balances[1] = 7));
        assert!(unsound(|ledger| ledger.balances[3] = 7));
        assert!(unsound(|ledger| (ledger.counts, ledger.balances) = ([0; 40], [0; 40])));
        assert!(!unsound(|ledger| (ledger.counts[1], ledger.balances[1]) = (1, 7)));
    }

    #[test]
    fn days_follow_the_calendar() {
        let days_of_2000 = (0..12).map(days_in).collect::<Vec<_>>();
        assert_eq!(days_of_2000, [31, 29, 31, 30, 31, 30, 31, 31, 30, 31, 30, 31]);
        assert_eq!([13, 49, 1_153, 1_189, 1_199, 1_201].map(days_in), [28, 29, 29, 28, 31, 28]);
    }

    #[test]
    fn a_month_is_split_by_days() {
        let (opened, mut input) = classroom();
        let (mut prices, mut power) = (vec![0; 9], vec![0; 3]);
        let mut fixed = |ledger: &Ledger, month, day, sectors: &[u64]| {
            (input.month, input.first_day, input.sector_factors) = (month, day, sectors.repeat(3));
            fix(ledger, &input, &mut prices, &mut power).map(|fixing| fixing.ledger)
        };
        let (first, second) = ([10_000, 0, 5_000, 0, 0, 0, 0, 0], [0, 10_000, 10_000, 0, 0, 0, 0, 0]);
        // No older fixing stands beside the first one.
        assert_eq!(fixed(&opened, 30, 2, &first), Err(Refusal::FirstDay));
        let older = fixed(&opened, 30, 1, &first).unwrap();
        assert_eq!(fixed(&older, 30, 2, &second), Err(Refusal::FirstDay));
        assert_eq!(fixed(&older, 29, 2, &second), Err(Refusal::FirstDay));
        // Month 32 is September 2002.
        for day in [0, 31, u64::MAX] {
            assert_eq!(fixed(&older, 32, day, &second), Err(Refusal::FirstDay));
        }
        let split = fixed(&older, 32, 16, &second).unwrap();
        assert_eq!((split.first_day, split.has_older, &split.older), (16, true, &older.in_force));
        let again = fixed(&split, 32, 30, &first).unwrap();
        assert_eq!((again.first_day, again.has_older, &again.older), (30, true, &older.in_force));
        let dropped = fixed(&split, 31, 1, &first).unwrap();
        assert_eq!((dropped.first_day, dropped.has_older, &dropped.older), (1, false, &Sectors::NONE));

        // Distributor 0: -15,662 and nothing, nothing and -15,662, -7,831 and -15,662, 15 days each.
        assert_eq!(split.billed_under(32).charges[..4], [-7_831, -7_831, -11_747, 0]);
        assert_eq!(split.billed_under(32).present[..4], [true, true, true, false]);
        assert_eq!(*split.billed_under(33), split.in_force);
        let mut transfers = vec![0; 3];
        let old_alone = |month| month_of(month, [1_000, 0, 0]);
        let next = settle(&split, &old_alone(32), &mut transfers).unwrap();
        assert_eq!(next.balances[..3], [-7_831, 0, 0]);
        assert_eq!(settle(&next, &old_alone(33), &mut transfers), Err(Refusal::Reading));

        let unsound = |change: fn(&mut Ledger)| {
            let mut ledger = split.clone();
            change(&mut ledger);
            !ledger.is_sound()
        };
        assert!(!unsound(|_| ()));
        assert!(unsound(|ledger| ledger.first_day = 0));
        assert!(unsound(|ledger| ledger.first_day = 31));
        assert!(unsound(|ledger| ledger.has_older = false));
        assert!(unsound(|ledger| (ledger.has_older, ledger.older) = (false, Sectors::NONE)));
        assert!(unsound(|ledger| ledger.older.present[24] = true));
        assert!(unsound(|ledger| ledger.older.charges[1] = 1));
        assert!(unsound(|ledger| ledger.older.charges[0] = 10_500_001));
        let mut older_alone = opened.clone();
        assert!(older_alone.is_sound());
        older_alone.has_older = true;
        assert!(!older_alone.is_sound());
    }

    /// Two distributors: 5 kWh billed AT in sector 0 and 258 kWh injected BT in sector 1, then the most that a reading
    /// may be, injected BT in sector 7.
    fn sheet_of_two() -> (Vec<u64>, Vec<u8>) {
        let mut readings = vec![0; 64];
        (readings[0], readings[7], readings[63]) = (5, 258, 2_000_000_000);
        (readings, vec![129, 0, 0, 0, 5, 0, 0, 0, 2, 1, 0, 0, 0, 0, 0, 128, 0, 148, 53, 119])
    }

    /// The answer of the reader, which writes all of the lent list or nothing.
    fn read_into(distributors: usize, sheet: &[u8], length: usize) -> Result<Vec<u64>, Refusal> {
        let mut readings = vec![7; length];
        let answer = read_sheet(distributors, sheet, &mut readings);
        assert!(answer.is_ok() || readings.iter().all(|&reading| reading == 7));
        answer.map(|()| readings)
    }

    /// The refusal of the writer, which leaves the lent buffer as it was.
    fn write_refusal(distributors: usize, readings: &[u64], length: usize) -> Option<Refusal> {
        let mut sheet = vec![255; length];
        let refusal = write_sheet(distributors, readings, &mut sheet).err();
        assert!(refusal.is_none() || sheet.iter().all(|&byte| byte == 255));
        refusal
    }

    #[test]
    fn what_is_written_is_read_back() {
        let (readings, bytes) = sheet_of_two();
        for length in [264, 265, 8_192] {
            let mut sheet = vec![255; length];
            assert_eq!(write_sheet(2, &readings, &mut sheet), Ok(20));
            assert_eq!(sheet[..20], bytes);
            assert!(sheet[20..].iter().all(|&byte| byte == 255));
        }
        assert_eq!(read_into(2, &bytes, 64), Ok(readings));

        let (even, mixed) = (even_load().1.readings, mixed_load().1.readings);
        let largest = vec![MAX_READING; 1_280];
        let present = mixed.iter().filter(|&&reading| reading != 0).count();
        let months = [(vec![0; 1_280], 160), (even, 5_280), (largest, 5_280), (mixed, 160 + 4 * present)];
        for (readings, length) in months {
            let mut sheet = vec![255; 5_280];
            assert_eq!(write_sheet(40, &readings, &mut sheet), Ok(length));
            assert!(sheet[length..].iter().all(|&byte| byte == 255));
            assert_eq!(read_into(40, &sheet[..length], 1_280), Ok(readings));
        }
        for bit in 0..32 {
            let mut readings = vec![0; 32];
            readings[bit] = 1 + bit as u64;
            let mut sheet = vec![255; 132];
            assert_eq!(write_sheet(1, &readings, &mut sheet), Ok(8));
            assert_eq!(sheet[..4], (1u32 << bit).to_le_bytes());
            assert_eq!(read_into(1, &sheet[..8], 32), Ok(readings));
        }
    }

    #[test]
    fn sheets_are_refused_by_the_first_cause() {
        let (mut readings, bytes) = sheet_of_two();
        assert_eq!(write_refusal(2, &readings, 264), None);
        assert_eq!(write_refusal(2, &readings, 263), Some(Refusal::WrongLength));
        assert_eq!(write_refusal(2, &readings[..63], 264), Some(Refusal::WrongLength));
        assert_eq!(write_refusal(1, &readings, 264), Some(Refusal::WrongLength));
        for length in [63, 65] {
            assert_eq!(read_into(2, &bytes, length), Err(Refusal::WrongLength));
        }
        for place in [0, 31, 63] {
            readings[place] = 2_000_000_001;
            assert_eq!(write_refusal(2, &readings, 264), Some(Refusal::Reading));
            assert_eq!(write_refusal(2, &readings, 263), Some(Refusal::WrongLength));
            readings[place] = 2_000_000_000;
            assert_eq!(write_refusal(2, &readings, 264), None);
        }
        for distributors in [0, 41, usize::MAX] {
            assert_eq!(write_refusal(distributors, &[2_000_000_001], 0), Some(Refusal::DistributorCount));
            assert_eq!(read_into(distributors, &[1], 1), Err(Refusal::DistributorCount));
        }
        // Cut off, and with a zero reading.
        assert_eq!(read_into(1, &[1], 31), Err(Refusal::WrongLength));
        assert_eq!(read_into(1, &[1, 0, 0, 0, 0, 0, 0, 0], 33), Err(Refusal::WrongLength));
        // The limit of a reading is for the settlement to check.
        assert_eq!(read_into(1, &[1, 0, 0, 0, 255, 255, 255, 255], 32).unwrap()[0], 4_294_967_295);
    }

    #[test]
    fn the_earlier_place_of_a_sheet_goes_first() {
        let (_, bytes) = sheet_of_two();
        for length in 0..bytes.len() {
            assert_eq!(read_into(2, &bytes[..length], 64), Err(Refusal::SheetLength));
        }
        for left in [&[0][..], &[1], &[0; 4], &[1, 0, 0, 0, 5, 0, 0, 0]] {
            assert_eq!(read_into(2, &[&bytes, left].concat(), 64), Err(Refusal::SheetLength));
        }
        assert_eq!(read_into(1, &bytes, 32), Err(Refusal::SheetLength));
        assert_eq!(read_into(3, &bytes, 96), Err(Refusal::SheetLength));
        for place in [4, 8, 16] {
            let mut zero = bytes.clone();
            zero[place..place + 4].fill(0);
            // Cut off in the zero reading or before it, and then after it.
            for length in 0..place + 4 {
                assert_eq!(read_into(2, &zero[..length], 64), Err(Refusal::SheetLength));
            }
            for length in place + 4..=zero.len() {
                assert_eq!(read_into(2, &zero[..length], 64), Err(Refusal::ZeroReading));
            }
            zero.push(1);
            assert_eq!(read_into(2, &zero, 64), Err(Refusal::ZeroReading));
        }
    }
}
