//! Words in letters, and decimals.

/// Writes the decimal of m at the beginning of out and returns how many digits it has; out has room.
#[inline(always)]
pub fn put_decimal(out: &mut [u8], mut m: u64) -> usize {
    if m < 10 {
        out[0] = b'0' + m as u8;
        return 1;
    }
    if m < 100 {
        out[0] = b'0' + (m / 10) as u8;
        out[1] = b'0' + (m % 10) as u8;
        return 2;
    }
    let mut digits = [0u8; 20];
    let mut at = 20;
    while m != 0 {
        at -= 1;
        digits[at] = b'0' + (m % 10) as u8;
        m /= 10;
    }
    out[..20 - at].copy_from_slice(&digits[at..]);
    20 - at
}

#[inline(always)]
fn event_length(x: u16) -> usize {
    match x {
        0..=2 => 1,
        3..=12 => 2,
        13..=102 => 3,
        103..=1002 => 4,
        1003..=10002 => 5,
        _ => 6,
    }
}

pub fn letters(word: &[u16], out: &mut [u8]) -> Result<usize, u16> {
    let Some((&first, items)) = word.split_first() else {
        return Ok(0);
    };
    if first > 1 {
        return Err(22);
    }
    let length = 1 + items.iter().map(|&x| event_length(x)).sum::<usize>();
    if out.len() < length {
        return Err(9);
    }
    let out = &mut out[..length];
    out[0] = b"UT"[first as usize];
    let mut at = 1;
    for &x in items {
        if x < 3 {
            out[at] = b"WFB"[x as usize];
            at += 1;
        } else {
            out[at] = b'J';
            at += 1 + put_decimal(&mut out[at + 1..], x as u64 - 3);
        }
    }
    Ok(length)
}
