//! Files without the imports that they do not use.

use crate::graph::Graph;

/// The files that have such imports, each with its text without them.
pub fn tidied(graph: &Graph) -> Vec<(&str, String)> {
    let mut tidied = vec![];
    for (at, file) in graph.files.iter().enumerate() {
        let unused = graph.unused.iter().filter(|unused| unused.file == at);
        let unused: Vec<(usize, &str)> = unused.map(|of| (of.line, &of.name[..])).collect();
        if !unused.is_empty() {
            tidied.push((&file.path[..], without(&file.text, &unused)));
        }
    }
    tidied
}

/// A text without the names that are brought in on these lines.
fn without(text: &str, unused: &[(usize, &str)]) -> String {
    let mut kept = String::new();
    for (number, line) in (1..).zip(text.split_inclusive('\n')) {
        let here = unused.iter().filter(|(line, _)| *line == number);
        let names: Vec<&str> = here.map(|(_, name)| *name).collect();
        match names.is_empty() {
            true => kept.push_str(line),
            false => kept.push_str(&thinned(line, &names)),
        }
    }
    kept
}

/// A line of imports without these names; nothing where none is left.
fn thinned(line: &str, names: &[&str]) -> String {
    let Some((head, rest)) = line.split_once('{') else {
        return String::new();
    };
    let (items, tail) = rest.split_once('}').unwrap_or((rest, ""));
    let called = |item: &&str| {
        item.rsplit(" as ")
            .next()
            .unwrap_or(item)
            .trim()
            .to_string()
    };
    let is_kept = |item: &&str| !item.is_empty() && !names.contains(&&called(item)[..]);
    let items: Vec<&str> = items.split(',').map(str::trim).filter(is_kept).collect();
    match items.is_empty() {
        true => String::new(),
        false => format!("{head}{{{}}}{tail}", items.join(", ")),
    }
}

#[cfg(test)]
mod tests {
    use super::*;

    #[test]
    fn what_is_not_used_goes() {
        let text = "use a.{x, y as z, w}\nuse b as c\nghost use d.{e};\nuse f.g.{}\nx w\n";
        let unused = [(1, "z"), (2, "c"), (3, "e"), (4, "f.g")];
        assert_eq!(without(text, &unused), "use a.{x, w}\nx w\n");
    }
}
