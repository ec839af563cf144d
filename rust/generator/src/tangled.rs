//! Fixed sheets of Groups that need each other round a circle.

use crate::builder::Builder;
use crate::shapes::long_name;

/// Two Groups of values that read each other crosswise: mixed.
pub fn tangled(values: usize) -> Vec<u8> {
    let mut builder = Builder::new();
    crosswise(&mut builder, 1, values);
    builder.text()
}

/// Two Groups, right and left, whose values read each other crosswise.
fn crosswise(builder: &mut Builder, around: usize, values: usize) {
    let groups = ["right", "left"].map(|name| builder.group(name, around));
    for value in 0..values {
        let other = ["left", "right"][value % 2];
        let body = match value + 1 {
            next if next < values => format!("R:{other}.{}", long_name(next)),
            _ => "1".to_string(),
        };
        builder.value(&long_name(value), groups[value % 2], &body);
    }
}

/// A Group by its name and label.
type Named = (String, usize);

/// So many Groups g0, g1, ...
fn groups(builder: &mut Builder, around: usize, count: usize) -> Vec<Named> {
    let names = (0..count).map(|number| format!("g{number}"));
    let group = |name: String| {
        let label = builder.group(&name, around);
        (name, label)
    };
    names.map(group).collect()
}

/// In each ring every Group gets a value that reads that of the next, and the
/// last one's reads a second value of the first, so that no value reaches itself.
/// These second values come first: with every Group opened, a plan would begin
/// with them.
fn tie(builder: &mut Builder, rings: &[Vec<Named>]) {
    for ring in rings {
        builder.value("end", ring[0].1, "1");
    }
    for ring in rings {
        for (at, (_, group)) in ring.iter().enumerate() {
            let body = match ring.get(at + 1) {
                Some((next, _)) => format!("R:{next}.v"),
                None => format!("R:{}.end", ring[0].0),
            };
            builder.value("v", *group, &body);
        }
    }
}

/// Groups in one ring. 340 fill a sheet.
pub fn ring(count: usize) -> Vec<u8> {
    let mut builder = Builder::new();
    let ring = groups(&mut builder, 1, count);
    tie(&mut builder, &[ring]);
    builder.text()
}

/// Rings of two Groups each, whose labels take turns. 127 fill a sheet.
pub fn rings(count: usize) -> Vec<u8> {
    let mut builder = Builder::new();
    let firsts = groups(&mut builder, 1, 2 * count);
    let (firsts, seconds) = firsts.split_at(count);
    let pairs = firsts.iter().zip(seconds);
    let rings: Vec<Vec<Named>> = pairs.map(|(a, b)| vec![a.clone(), b.clone()]).collect();
    tie(&mut builder, &rings);
    builder.text()
}

/// Two tangled Groups amid so many others with a value each, which reads that of
/// the next.
pub fn ring_among(others: usize) -> Vec<u8> {
    let mut builder = Builder::new();
    let mut others = groups(&mut builder, 1, others + 2);
    let middle = others.len() / 2;
    let pair = others.drain(middle..middle + 2).collect();
    for (at, (_, group)) in others.iter().enumerate() {
        let next = others.get(at + 1);
        let body = next.map_or("1".to_string(), |(next, _)| format!("R:{next}.v"));
        builder.value("v", *group, &body);
    }
    tie(&mut builder, &[pair]);
    builder.text()
}

/// So many Groups, every second one of them in one ring; each of the others has
/// a value that reads that of the one before. 340 fill a sheet.
pub fn every_second_in_ring(count: usize) -> Vec<u8> {
    let mut builder = Builder::new();
    let groups = groups(&mut builder, 1, count);
    for pair in groups.chunks_exact(2) {
        builder.value("v", pair[1].1, &format!("R:{}.v", pair[0].0));
    }
    let ring = groups.into_iter().step_by(2).collect();
    tie(&mut builder, &[ring]);
    builder.text()
}

/// So many Groups, every second one of them with a ring of two inside; each of
/// the others has a value. 170 fill a sheet.
pub fn rings_in_every_second(count: usize) -> Vec<u8> {
    let mut builder = Builder::new();
    let outer = groups(&mut builder, 1, count);
    let tangled = outer.iter().step_by(2);
    let rings: Vec<Vec<Named>> = tangled
        .map(|(_, group)| groups(&mut builder, *group, 2))
        .collect();
    tie(&mut builder, &rings);
    for pair in outer.chunks_exact(2) {
        builder.value("v", pair[1].1, &format!("R:{}.g1.v", pair[0].0));
    }
    builder.text()
}

/// Groups in each other, each with a value, and in the innermost two tangled
/// Groups, which have a fifth as many: the values of an inner Group come before
/// that of the one around it.
pub fn nested_tangle(groups: usize) -> Vec<u8> {
    let mut builder = Builder::new();
    let mut group = 1;
    for _ in 0..groups {
        group = builder.group("inner", group);
    }
    for around in 2..=group {
        builder.value("v", around, "1");
    }
    crosswise(&mut builder, group, groups / 5);
    builder.text()
}
