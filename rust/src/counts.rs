//! Lists of what is to be seen, with how often it was.

use std::fmt;
use std::ops::RangeInclusive;

pub type Counted = (String, u64);

/// A titled list in so many columns of such a width.
pub fn columns(
    f: &mut fmt::Formatter<'_>,
    title: &str,
    across: usize,
    width: usize,
    counts: Vec<Counted>,
) -> fmt::Result {
    writeln!(f, "{title}")?;
    for line in counts.chunks(across) {
        for (name, count) in line {
            write!(f, "  {name:<width$}{:>11}", grouped(*count))?;
        }
        writeln!(f)?;
    }
    Ok(())
}

/// What was seen fewer times than the least.
pub fn seldom(counts: Vec<Counted>, least: u64) -> Vec<String> {
    let short = counts.into_iter().filter(|(_, count)| *count < least);
    short.map(|(name, count)| format!("{name}: {count} times, not {least}")).collect()
}

/// A number with its thousands apart.
pub fn grouped(number: u64) -> String {
    let digits = number.to_string();
    let mut text = String::new();
    for (i, digit) in digits.chars().enumerate() {
        if i > 0 && (digits.len() - i).is_multiple_of(3) {
            text.push(',');
        }
        text.push(digit);
    }
    text
}

/// A name for some numbers in a row.
pub type Stretch = (&'static str, RangeInclusive<u64>);

/// The name of the stretch in which a number lies.
pub fn stretch(stretches: &[Stretch], number: u64) -> &'static str {
    let named = stretches.iter().find(|(_, stretch)| stretch.contains(&number));
    named.unwrap_or_else(|| panic!("{number} lies in no stretch")).0
}

/// A list whose names are known before anything is seen.
pub struct Named {
    what: &'static str,
    counts: Vec<Counted>,
}

impl Named {
    pub fn new<N: ToString>(what: &'static str, names: impl IntoIterator<Item = N>) -> Named {
        Named { what, counts: names.into_iter().map(|name| (name.to_string(), 0)).collect() }
    }

    pub fn saw(&mut self, name: impl ToString) {
        let name = name.to_string();
        let count = self.counts.iter_mut().find(|(known, _)| *known == name);
        count.unwrap_or_else(|| panic!("{} has no {name}", self.what)).1 += 1;
    }

    pub fn counts(&self) -> Vec<Counted> {
        self.counts.clone()
    }

    pub fn seldom(&self, least: u64) -> Vec<String> {
        let named = self.counts.iter().map(|(name, count)| (format!("{}: {name}", self.what), *count));
        seldom(named.collect(), least)
    }

    pub fn print(&self, f: &mut fmt::Formatter<'_>, across: usize, width: usize) -> fmt::Result {
        columns(f, self.what, across, width, self.counts())
    }
}

#[cfg(test)]
mod tests {
    use super::*;

    #[test]
    fn what_was_not_seen_is_seldom() {
        let mut named = Named::new("birds", ["crow", "gull"]);
        named.saw("gull");
        assert_eq!(named.seldom(1), ["birds: crow: 0 times, not 1"]);
        assert!(named.seldom(0).is_empty());
    }

    #[test]
    fn thousands_stand_apart() {
        assert_eq!([7, 1_000, 1_234_567].map(grouped), ["7", "1,000", "1,234,567"]);
    }
}
