//! The static tables of counts, and the sizes that are listed.

/// The largest size of a given diagram, and of a listed one.
pub const MAX_SIZE: usize = 1024;
pub const MAX_LISTED: usize = 50;

/// The heights and numbers of free labels that sizes up to 50 need have 3 h + f at most 56.
const BOUND: usize = 56;
const ROWS: usize = BOUND / 3 + 1;

pub type Table = [[u64; BOUND + 1]; ROWS];

/// How many ways there are to go on from a stack of height h with f labels free, using all of them.
pub static WAYS: Table = sums(1, 0);

/// How many beginnings of words there are from there on, this one counted, with labels left free or not.
pub static BRANCHES: Table = sums(0, 1);

/// What the states with a label pending sum to, from a state on, each of them counting `each`, and the end with no label free `end`.
const fn sums(end: u64, each: u64) -> Table {
    let mut table = [[0; BOUND + 1]; ROWS];
    table[0][0] = end;
    let mut f = 0;
    while f <= BOUND {
        let mut h = 1;
        while 3 * h + f <= BOUND {
            let mut sum = each + table[h - 1][f];
            if f >= 3 {
                sum += table[h + 1][f - 3];
            }
            if f >= 1 {
                sum += table[h - 1][f - 1];
            }
            if h >= 2 {
                sum += (h as u64 - 1) * table[h - 2][f];
            }
            table[h][f] = sum;
            h += 1;
        }
        f += 1;
    }
    table
}

pub fn listed(size: u64) -> bool {
    size.wrapping_sub(1) < MAX_LISTED as u64
}

/// The count of a listed size.
#[inline(always)]
pub fn count_of(n: usize) -> u64 {
    WAYS[1][n - 1] + if n >= 3 { WAYS[3][n - 3] } else { 0 }
}

/// How many beginnings of words there are of the sizes up to a listed one.
#[inline(always)]
pub fn branches_of(n: usize) -> u64 {
    BRANCHES[1][n - 1] + if n >= 3 { BRANCHES[3][n - 3] } else { 0 }
}

/// Whether a word can be ended: apart from an emptied stack, one pending label with two labels left is the only dead end.
#[inline(always)]
pub fn ends(h: usize, f: usize) -> bool {
    match h {
        0 => f == 0,
        1 => f != 2,
        _ => true,
    }
}
