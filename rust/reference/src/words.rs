//! Reading a word, the order of words, and words in letters.

/// A diagram in the making: entry i - 1 of each list is edge i's.
struct Growing {
    s0: Vec<u16>,
    s1: Vec<u16>,
    stack: Vec<u16>,
}

impl Growing {
    /// A black vertex of one edge, whose label is returned. Its white partner is itself until it gets another.
    fn single(&mut self) -> Result<u16, u16> {
        if self.s0.len() + 1 > 1024 {
            return Err(24);
        }
        let c = self.s0.len() as u16 + 1;
        self.s0.push(c);
        self.s1.push(c);
        Ok(c)
    }

    /// A black vertex of three edges, whose first label is returned.
    fn triple(&mut self) -> Result<u16, u16> {
        if self.s0.len() + 3 > 1024 {
            return Err(24);
        }
        let c = self.s0.len() as u16 + 1;
        self.s0.extend([c + 1, c + 2, c]);
        self.s1.extend([c, c + 1, c + 2]);
        Ok(c)
    }

    fn join(&mut self, k: u16, p: u16) {
        self.s1[usize::from(k) - 1] = p;
        self.s1[usize::from(p) - 1] = k;
    }

    /// The first item: 22.
    fn begin(&mut self, item: u16) -> Result<(), u16> {
        match item {
            0 => {
                let c = self.single()?;
                self.stack.push(c);
            }
            1 => {
                let c = self.triple()?;
                self.stack.extend([c, c + 1, c + 2]);
            }
            _ => return Err(22),
        }
        Ok(())
    }

    /// A later item: 26, 23, 24.
    fn event(&mut self, item: u16) -> Result<(), u16> {
        let k = self.stack.pop().ok_or(26_u16)?;
        match item {
            0 => (),
            1 => {
                let c = self.triple()?;
                self.join(k, c);
                self.stack.extend([c + 1, c + 2]);
            }
            2 => {
                let c = self.single()?;
                self.join(k, c);
            }
            _ => {
                let d = usize::from(item - 3);
                if d >= self.stack.len() {
                    return Err(23);
                }
                let p = self.stack.remove(self.stack.len() - 1 - d);
                self.join(k, p);
            }
        }
        Ok(())
    }
}

/// The diagram that a word spells: 21; item by item 26, 22, 23, 24; 25.
pub(crate) fn spelled(word: &[u16]) -> Result<(Vec<u16>, Vec<u16>), u16> {
    if word.is_empty() || word.len() > 1025 {
        return Err(21);
    }
    let mut growing = Growing { s0: vec![], s1: vec![], stack: vec![] };
    growing.begin(word[0])?;
    for item in &word[1..] {
        growing.event(*item)?;
    }
    if !growing.stack.is_empty() {
        return Err(25);
    }
    Ok((growing.s0, growing.s1))
}

/// Read word: what is written to s0 and s1, lists of the lengths told. 21; 26, 22, 23, 24; 25; 9.
pub fn read_word(word: &[u16], rooms: [usize; 2]) -> Result<(Vec<u16>, Vec<u16>), u16> {
    let (s0, s1) = spelled(word)?;
    if rooms[0] < s0.len() || rooms[1] < s0.len() {
        return Err(9);
    }
    Ok((s0, s1))
}

/// Whether the second of two words comes before the first in dictionary order, so that it is the one handed back.
pub fn second_is_less(first: &[u16], second: &[u16]) -> bool {
    for place in 0..first.len().max(second.len()) {
        match (first.get(place), second.get(place)) {
            (Some(a), Some(b)) if a == b => (),
            (Some(a), Some(b)) => return b < a,
            (_, other) => return other.is_none(),
        }
    }
    false
}

/// A word in its event letters: 22 the first item is not 0 or 1; 9.
pub fn letters(word: &[u16], room: usize) -> Result<Vec<u8>, u16> {
    let mut text = String::new();
    for (place, item) in word.iter().enumerate() {
        match (place, item) {
            (0, 0) => text.push('U'),
            (0, 1) => text.push('T'),
            (0, _) => return Err(22),
            (_, 0) => text.push('W'),
            (_, 1) => text.push('F'),
            (_, 2) => text.push('B'),
            (_, item) => text += &format!("J{}", item - 3),
        }
    }
    if room < text.len() {
        return Err(9);
    }
    Ok(text.into_bytes())
}
