//! The Rattle crates and what each rests on, as `crates.txt` has them, and their
//! picture: crates in layers, each above all that it rests on.

mod draw;
mod layout;

/// The crates by number, in the sequence of the file.
pub struct Crates {
    names: Vec<String>,
    /// For each crate, those that it rests on.
    rests_on: Vec<Vec<usize>>,
}

impl Crates {
    /// Reads lines `NAME: NAME...`, in which the word `staticlib` may follow the first
    /// name. Libraries that are not in the list, which are the toolchain's, are left out.
    pub fn parse(text: &str) -> Self {
        let lines = text.lines().filter(|line| !line.starts_with('#'));
        let rows: Vec<(&str, &str)> = lines.filter_map(|line| line.split_once(':')).collect();
        let first = |(head, _): &(&str, &str)| head.split_whitespace().next().map(str::to_string);
        let names: Vec<String> = rows.iter().filter_map(first).collect();
        let number = |name: &str| names.iter().position(|known| known == name);
        let below = |row: &(&str, &str)| row.1.split_whitespace().filter_map(number).collect();
        let rests_on = rows.iter().map(below).collect();
        Crates { names, rests_on }
    }

    /// Whether a crate rests on another, directly or through others.
    fn reaches(&self, from: usize, to: usize) -> bool {
        let mut below = self.rests_on[from].iter();
        below.any(|&next| next == to || self.reaches(next, to))
    }

    /// What each crate rests on, without what follows through others.
    fn direct(&self) -> Vec<Vec<usize>> {
        let direct = |below: &Vec<usize>| {
            let follows = |to: usize| below.iter().any(|&next| self.reaches(next, to));
            below.iter().copied().filter(|&to| !follows(to)).collect()
        };
        self.rests_on.iter().map(direct).collect()
    }

    /// The layer of a crate: one above the highest that it rests on.
    fn layer(&self, of: usize) -> usize {
        let below = self.rests_on[of].iter();
        below.map(|&next| self.layer(next) + 1).max().unwrap_or(0)
    }

    /// Whether no crate rests on this one.
    fn is_last(&self, of: usize) -> bool {
        !self.rests_on.iter().any(|below| below.contains(&of))
    }

    /// The picture, as SVG.
    pub fn picture(&self) -> String {
        draw::picture(self, &layout::Layout::new(self))
    }
}

#[cfg(test)]
mod tests {
    use super::Crates;

    fn example() -> Crates {
        Crates::parse("# a list\na:\nb: a\nc staticlib: b a anyhow\nd: a\n")
    }

    #[test]
    fn what_follows_is_left_out() {
        let crates = example();
        assert_eq!(crates.rests_on[2], [1, 0]);
        assert_eq!(crates.direct()[2], [1]);
    }

    #[test]
    fn each_stands_above_what_it_rests_on() {
        let crates = example();
        let layers: Vec<usize> = (0..4).map(|of| crates.layer(of)).collect();
        assert_eq!(layers, [0, 1, 2, 1]);
        let last: Vec<bool> = (0..4).map(|of| crates.is_last(of)).collect();
        assert_eq!(last, [false, false, true, true]);
    }

    #[test]
    fn every_crate_is_drawn() {
        let picture = example().picture();
        for name in ["a", "b", "c", "d"] {
            assert!(picture.contains(&format!(">{name}</text>")), "{name}");
        }
    }
}
