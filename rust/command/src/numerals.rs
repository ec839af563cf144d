//! Counts as people write them.

/// A count with a comma between thousands: 12,345.
pub fn grouped(count: u64) -> String {
    let digits = count.to_string();
    let mut written = String::new();
    for (at, digit) in digits.chars().enumerate() {
        if at > 0 && (digits.len() - at).is_multiple_of(3) {
            written.push(',');
        }
        written.push(digit);
    }
    written
}

/// A count with what it counts: "1 step", "2 steps".
pub fn counted(count: u64, thing: &str) -> String {
    match count {
        0 => format!("no {thing}s"),
        1 => format!("1 {thing}"),
        _ => format!("{} {thing}s", grouped(count)),
    }
}

#[cfg(test)]
mod tests {
    use super::*;

    #[test]
    fn commas_stand_between_thousands() {
        let written = [0, 12, 999, 1_000, 65_536, 1_000_000].map(grouped);
        assert_eq!(written, ["0", "12", "999", "1,000", "65,536", "1,000,000"]);
    }

    #[test]
    fn one_thing_is_no_things() {
        let written = [0, 1, 2, 1_500].map(|count| counted(count, "value"));
        assert_eq!(
            written,
            ["no values", "1 value", "2 values", "1,500 values"]
        );
    }
}
