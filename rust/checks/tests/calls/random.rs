//! Random sheets, and random bytes.

use checks::Trial;
use generator::{buffer_length, line_count, Rng, FIRST_LINES};

use crate::setting;

#[test]
fn random_sheets() {
    let first = setting("LINDYPO_SEED", 0);
    let count = setting("LINDYPO_COUNT", 10_000);
    let tally =
        checks::check_seeds(first, count).unwrap_or_else(|difference| panic!("{difference}"));
    println!("{tally}");
    assert!(tally.is_complete(), "not everything was met\n{tally}");
}

/// Bytes as they come, and bytes of a sheet in any sequence, with and without
/// either first line.
#[test]
fn random_bytes() {
    let rng = &mut Rng::new(setting("LINDYPO_SEED", 0));
    for _ in 0..20_000 {
        let length = rng.below(80);
        let any = rng.chance(30);
        let mut text = Vec::new();
        if rng.chance(70) {
            text.extend([*rng.pick(&FIRST_LINES), b"\n"].concat());
        }
        if rng.chance(50) {
            text.extend(b"G - 0 - -\n");
        }
        text.extend((0..length).map(|_| match any {
            true => rng.word() as u8,
            false => *rng.pick(b"GVFNPRCASMDI-  \n\n.a10-"),
        }));
        if rng.chance(80) {
            text.push(b'\n');
        }
        let lines = line_count(&text);
        let trial = Trial {
            table: buffer_length(rng, 8 * lines),
            plan: buffer_length(rng, lines),
            results: buffer_length(rng, 3 * lines),
            ..Trial::new(&text, &[2])
        };
        trial.expect();
    }
}
