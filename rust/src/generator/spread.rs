//! How the locations that a trace uses stand to the cache lines.

use super::Random;

/// The number of locations of a line, and of lines.
const LINE: u16 = 8;
const LINES: u16 = 32;

/// How locations are spread over the lines.
#[derive(Clone, Copy)]
pub enum Spread {
    /// All on one line.
    OneLine,
    /// Neighbours on both sides of the border between two lines, if there are two of them.
    Border,
    /// Each on a line of its own; these stand evenly apart, often next to each other.
    OwnLines,
}

impl Spread {
    /// Some spread. Stores to one location are on one line in any of them.
    pub fn draw(random: &Random) -> Self {
        random.pick(&[Spread::OneLine, Spread::Border, Spread::Border, Spread::OwnLines, Spread::OwnLines])
    }

    /// So many locations, at least one and at most eight.
    pub fn locations(self, count: u16, random: &Random) -> Vec<u16> {
        let (place, apart) = (random.between(0, LINE - 1), random.pick(&[1, 3, 5, 7]));
        let within = |number: u16| (place + number * apart) % LINE;
        let numbers = 0..count;
        match self {
            Spread::OneLine => {
                let line = some_line(LINES - 1, random);
                numbers.map(|number| LINE * line + within(number)).collect()
            }
            Spread::Border => {
                let border = LINE * (1 + some_line(LINES - 2, random));
                let first = border - random.between(1, count.max(2) - 1);
                numbers.map(|number| first + number).collect()
            }
            Spread::OwnLines => {
                let steps = count.max(2) - 1;
                let step = random.pick(&[1, random.between(1, (LINES - 1) / steps)]);
                let line = some_line(LINES - 1 - step * steps, random);
                numbers.map(|number| LINE * (line + number * step) + within(number)).collect()
            }
        }
    }
}

/// A line up to the last one given, often the first or the last.
fn some_line(last: u16, random: &Random) -> u16 {
    random.pick(&[0, 0, last, random.between(0, last)])
}

#[cfg(test)]
mod tests {
    use super::*;

    /// The number of lines of some locations, which are all different and exist.
    fn lines(mut locations: Vec<u16>) -> usize {
        assert!(locations.iter().all(|&location| location < 256), "{locations:?}");
        let count = locations.len();
        locations.sort_unstable();
        locations.dedup();
        assert_eq!(locations.len(), count, "{locations:?}");
        locations.iter_mut().for_each(|location| *location /= 8);
        locations.dedup();
        locations.len()
    }

    #[test]
    fn locations_are_on_so_many_lines() {
        for number in 0..500 {
            let random = Random::new(1, number);
            for count in 1..=8 {
                let on = |spread: Spread| lines(spread.locations(count, &random));
                let expected = (1, usize::from(count.min(2)), usize::from(count));
                assert_eq!((on(Spread::OneLine), on(Spread::Border), on(Spread::OwnLines)), expected);
            }
        }
    }
}
