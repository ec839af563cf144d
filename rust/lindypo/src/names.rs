//! How names are compared. Half the practices type SPHERE, half sphere; a name
//! is shown as it is written, and compared here alone.

/// Whether two names are one, the case of ASCII letters aside; so with paths.
/// Every other byte stands for itself.
///
/// ```
/// use lindypo::same_name;
///
/// assert!(same_name("Sphere2", "SPHERE2"));
/// assert!(same_name("RIGHT.lens", "right.Lens"));
/// assert!(!same_name("sphere", "sphere2"));
/// assert!(!same_name("[", "{"));
/// assert!(!same_name("é", "É"));
/// ```
pub fn same_name(a: &str, b: &str) -> bool {
    a.eq_ignore_ascii_case(b)
}

/// What all names have in common that are one.
pub fn lowercase(name: &str) -> String {
    name.to_ascii_lowercase()
}

/// Whether a full name is this path, or ends with it after a dot.
pub fn ends_with(full_name: &str, path: &str) -> bool {
    let mut names = full_name.rsplit('.');
    path.rsplit('.')
        .all(|name| names.next().is_some_and(|other| same_name(other, name)))
}

#[cfg(test)]
mod tests {
    use super::*;

    /// Of all pairs of bytes, names of one byte are one where the bytes are, or
    /// where they are 65 to 90 and the one that is 32 more.
    #[test]
    fn bytes_are_compared() {
        let letter = |byte: u8| String::from(char::from(byte));
        let small = |byte: u8| match byte {
            65..=90 => byte + 32,
            _ => byte,
        };
        for a in 0..128 {
            for b in 0..128 {
                let is_same = small(a) == small(b);
                let names = [letter(a), letter(b)];
                assert_eq!(same_name(&names[0], &names[1]), is_same, "{a} {b}");
                let names = names.map(|name| lowercase(&name));
                assert_eq!(names[0] == names[1], is_same, "{a} {b}");
            }
        }
    }

    #[test]
    fn ends_of_full_names() {
        for (path, wanted) in [
            ("prism", true),
            ("RIGHT.prism", true),
            ("left.Right.PRISM", true),
            ("ism", false),
            ("left.prism", false),
            ("top.left.right.prism", false),
            (".right.prism", false),
            ("", false),
        ] {
            assert_eq!(ends_with("left.right.Prism", path), wanted, "{path}");
        }
    }
}
