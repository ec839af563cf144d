//! Names that fall into one slot of the library's hash: the worst that a sender
//! can do to a lookup. The hash is the library's own, which `checks` holds to the
//! constants of the crate `paths`.

/// The factors of the low and of the high half of a word.
pub const LOW_FACTOR: u64 = 877_249_963;
pub const HIGH_FACTOR: u64 = 1_567_245_785;

/// The letters that all names in one slot begin with; four more make them 16 bytes
/// long, and among the 36 to the fourth power of these a slot has enough.
const SHARED: &[u8] = b"decentration";
const FREE: u32 = 4;
const ALPHABET: &[u8; 36] = b"abcdefghijklmnopqrstuvwxyz0123456789";

/// The hash of a name, of 16 bytes at most: eight bytes at a time, of each its low
/// five bits, which both cases of a letter share.
pub fn hash(name: &[u8]) -> u64 {
    name.chunks(8).fold(0, |hash, piece| {
        let word = word(piece);
        let [low, high] = [word % (1 << 32), word >> 32];
        ((hash + low) * LOW_FACTOR + high * HIGH_FACTOR) / 16 % (1 << 32)
    })
}

/// The low five bits of up to eight bytes as a number, the first byte lowest.
fn word(piece: &[u8]) -> u64 {
    let bits = piece.iter().rev().map(|byte| u64::from(byte % 32));
    bits.fold(0, |word, bits| word << 8 | bits)
}

/// The slot of a hash in a Group with so many members, which has two for each.
pub fn slot(hash: u64, members: usize) -> u64 {
    (hash * 2 * members as u64) >> 32
}

/// So many names, 511 at most, of 16 bytes that fall into one slot of a Group that
/// has no other members.
pub fn names_in_one_slot(count: usize) -> Vec<String> {
    let slot_of = |name: &[u8; 16]| slot(hash(name), count);
    let wanted = slot_of(&name(0));
    let all = (0..ALPHABET.len().pow(FREE)).map(name);
    let found = all.filter(|name| slot_of(name) == wanted).take(count);
    let names: Vec<String> = found
        .map(|name| String::from_utf8_lossy(&name).into_owned())
        .collect();
    assert_eq!(names.len(), count, "a slot has fewer names");
    names
}

/// The shared letters, and a number in digits of the alphabet.
fn name(mut number: usize) -> [u8; 16] {
    let mut name = [ALPHABET[0]; 16];
    let (shared, free) = name.split_at_mut(SHARED.len());
    shared.copy_from_slice(SHARED);
    for byte in free.iter_mut().rev() {
        *byte = ALPHABET[number % ALPHABET.len()];
        number /= ALPHABET.len();
    }
    name
}

/// A name of 16 bytes, its first eight always the same and the others `p` or `0` by
/// the bits of a number below 256. These two have the same low five bits, so all
/// such names have one hash, whatever is made of these bits.
pub fn name_of_one_hash(number: usize) -> String {
    let bits = (0..8).rev().map(|bit| number >> bit & 1);
    let bytes = bits.map(|bit| ['p', '0'][bit]);
    "decentra".chars().chain(bytes).collect()
}
