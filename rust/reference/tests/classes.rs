//! The numbers of classes without a root: the published ones, and those that listing gives.
use reference::*;

/// Document 000, Table 7, of sizes 1, 2, 3 and so on.
const CLASSES: [u64; 50] = [
    1, 1, 2, 2, 1, 8, 6, 7, 14, 27, 26, 80, 133, 170, 348, 765, 1002, 2176, 4682, 6931, 13740, 31085, 48652, 96682, 217152, 362779,
    707590, 1597130, 2789797, 5449439, 12233848, 22245655, 43480188, 97330468, 182619250, 358968639, 800299302, 1542254973, 3051310056,
    6783358130, 13362733296, 26648120027, 59101960412, 118628268978, 238533003938, 528281671324, 1077341937144, 2184915316390,
    4835392099548, 9997568771074,
];

#[test]
fn kept_counts_are_the_published_ones() {
    for (size, classes) in (1..).zip(CLASSES) {
        assert_eq!(kept_count(size), Ok(classes), "size {size}");
    }
    for size in [0, 51, 52, 1 << 32 | 3, u64::MAX] {
        assert_eq!(kept_count(size), Err(31));
    }
}

#[test]
fn kept_counts_are_those_of_the_listing() {
    for size in 1..=13 {
        let keeps = |word: &Vec<u16>| read_word(word, [50, 50]).and_then(|(s0, s1)| kept(&s0, &s1, 1)) == Ok(true);
        assert_eq!(kept_count(size), Ok(all_words(size as usize).iter().filter(|word| keeps(word)).count() as u64), "size {size}");
    }
}
