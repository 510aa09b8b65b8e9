//! Pairs whose numbers are alike in part, so that it shows if one is taken for another.

use crate::definition::values::Definition;

/// What pairs are alike in, and some that are.
const GROUPS: [(&str, &[usize]); 13] = [
    ("pairs with the same low byte", &[1, 257, 513, 1_025, 2_049, 3_841, 4_097, 32_769, 61_441, 65_281]),
    ("pairs of the same two bytes", &[258, 513, 272, 4_097, 4_352, 255, 65_280, 4_080, 61_455]),
    (
        "pairs that differ in one bit",
        &[0, 1, 2, 4, 8, 16, 32, 64, 128, 256, 512, 1_024, 2_048, 4_096, 8_192, 16_384, 32_768, 4_095, 65_535],
    ),
    ("pairs equal modulo 4,096", &[5, 4_101, 8_197, 20_485, 32_773, 61_445]),
    ("the first and the last of 4,096 pairs", &[0, 4_096, 8_192, 61_440, 4_095, 8_191, 61_439, 65_535]),
    ("pairs equal in the lower 15 bits", &[0, 32_768, 7, 32_775, 4_096, 36_864, 32_767, 65_535]),
    ("pairs of the same digits", &[12, 21, 102, 120, 201, 210, 1_002, 2_001, 1_020, 2_010, 10_002, 20_001, 10_020, 20_100, 12_000]),
    (
        "pairs of which one begins another",
        &[4, 40, 409, 4_095, 40_950, 40_959, 1, 10, 100, 1_000, 10_000, 6, 65, 655, 6_553, 65_530, 65_535],
    ),
    ("pairs of which one ends another", &[5, 35, 535, 5_535, 15_535, 25_535, 65_535]),
    ("pairs round powers of ten", &[9, 10, 99, 100, 999, 1_000, 9_999, 10_000]),
    ("pairs near each other", &[0, 1, 2, 4_093, 4_094, 4_095, 4_096, 4_097, 65_533, 65_534, 65_535]),
    ("one pair", &[4_095]),
    ("the last pair", &[65_535]),
];

/// The groups, each without the numbers that are no pairs, if any pair is left.
pub fn alike_pairs(definition: &Definition) -> Vec<(&'static str, Vec<usize>)> {
    let pairs_of = |group: &[usize]| group.iter().copied().filter(|pair| *pair < definition.most_pairs).collect();
    let groups: Vec<(&str, Vec<usize>)> = GROUPS.iter().map(|(how, group)| (*how, pairs_of(group))).collect();
    groups.into_iter().filter(|(_, pairs)| !pairs.is_empty()).collect()
}

#[cfg(test)]
mod tests {
    use super::*;

    /// The groups are alike in what they say, and before Q-6 fewer of their numbers were pairs.
    #[test]
    fn groups() {
        let alike = alike_pairs(&Definition::now());
        let group = |name: &str| alike.iter().find(|(how, _)| *how == name).map(|(_, pairs)| pairs.clone()).unwrap();
        let all_equal = |name: &str, modulus: usize| group(name).iter().all(|pair| pair % modulus == group(name)[0] % modulus);
        assert!(all_equal("pairs with the same low byte", 256) && all_equal("pairs equal modulo 4,096", 4_096));
        assert!(group("pairs equal in the lower 15 bits").chunks(2).all(|two| two[1] - two[0] == 32_768));
        let ends = group("the first and the last of 4,096 pairs");
        assert_eq!(ends.iter().map(|pair| pair % 4_096).collect::<Vec<usize>>(), [0, 0, 0, 0, 4_095, 4_095, 4_095, 4_095]);
        assert_eq!(alike.len(), GROUPS.len());
        let before = alike_pairs(&Definition::at_stage(5).unwrap());
        assert_eq!(before.len(), GROUPS.len() - 1);
        assert!(before.iter().flat_map(|(_, pairs)| pairs).all(|pair| *pair < 4_096));
    }
}
