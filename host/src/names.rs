//! Names that look alike: a disk takes the capitals A to Z for the small letters a to z, and no other byte for another.

use std::collections::HashSet;

use crate::rng::Rng;

/// A name with its capitals A to Z as small letters.
pub fn folded(name: &[u8]) -> Vec<u8> {
    name.to_ascii_lowercase()
}

/// Does a disk take them for one name?
pub fn alike(one: &[u8], other: &[u8]) -> bool {
    one.eq_ignore_ascii_case(other)
}

/// The first of these names that looks like one before it.
pub fn first_alike<'a>(names: impl IntoIterator<Item = &'a [u8]>) -> Option<&'a [u8]> {
    let mut seen = HashSet::new();
    names.into_iter().find(|name| !seen.insert(folded(name)))
}

/// The name with some of its letters in the other case; at least one is, if it has any.
#[doc(hidden)]
pub fn recased(name: &[u8], rng: &mut Rng) -> Vec<u8> {
    let letters: Vec<usize> = (0..name.len()).filter(|&place| name[place].is_ascii_alphabetic()).collect();
    let mut other = name.to_vec();
    let Some(&first) = rng.pick(&letters) else {
        return other;
    };
    for &place in &letters {
        if place == first || rng.percent(50) {
            other[place] ^= 0x20;
        }
    }
    other
}

/// The name with a byte in which capital and small letters differ changed where the two are no letters, so that it is
/// another name: `[` and `{`, 196 and 228. Nothing if it has no such byte.
#[doc(hidden)]
pub fn near(name: &[u8], rng: &mut Rng) -> Option<Vec<u8>> {
    let changed = |place: usize| name[place] ^ 0x20;
    let fits =
        |&place: &usize| !name[place].is_ascii_alphabetic() && ![0, b':', b'/'].contains(&changed(place));
    let places: Vec<usize> = (0..name.len()).filter(fits).collect();
    let place = *rng.pick(&places)?;
    let mut other = name.to_vec();
    other[place] = changed(place);
    Some(other)
}

/// Are they different names that differ only as [`near`] makes them differ?
#[doc(hidden)]
pub fn is_near(one: &[u8], other: &[u8]) -> bool {
    let blurred = |name: &[u8]| name.iter().map(|byte| byte | 0x20).collect::<Vec<u8>>();
    !alike(one, other) && blurred(one) == blurred(other)
}

#[cfg(test)]
mod tests {
    use super::*;

    #[test]
    fn only_a_to_z_fold() {
        for byte in 0..=255u8 {
            let small = if (65..=90).contains(&byte) { byte + 32 } else { byte };
            assert_eq!(folded(&[byte]), [small]);
            for other in 0..=255u8 {
                assert_eq!(alike(&[byte], &[other]), folded(&[byte]) == folded(&[other]));
            }
        }
        assert!(alike(b"BATCH7", b"Batch7") && !alike(b"Batch7", b"Batch8") && !alike(b"a", b"aa"));
        assert!(!alike(b"[", b"{") && !alike(&[196], &[228]) && !alike(b"@", b"`") && !alike(b"Z", b"["));
        assert_eq!(first_alike([&b"a"[..], b"b", b"A", b"B"]), Some(&b"A"[..]));
        assert_eq!(first_alike([&b"["[..], b"{", b"a", b"aa"]), None);
    }

    #[test]
    fn names_in_another_case_and_near_ones() {
        let rng = &mut Rng::new(5);
        for _ in 0..1_000 {
            let length = rng.within(1..=6);
            let mut name = rng.bytes(length);
            name.iter_mut().filter(|byte| [0, b':', b'/'].contains(byte)).for_each(|byte| *byte = b'x');
            let other = recased(&name, rng);
            assert!(alike(&name, &other) && (name != other) == name.iter().any(u8::is_ascii_alphabetic));
            if let Some(near) = near(&name, rng) {
                assert!(is_near(&name, &near) && !near.iter().any(|byte| [0, b':', b'/'].contains(byte)));
            }
        }
        assert_eq!(near(b"Abc", rng), None);
    }
}
