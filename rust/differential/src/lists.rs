//! Random words and lists, and output lists with something in them.
use crate::diagrams::{event, size, texture, EVERY};
use crate::random::Random;
use reference::Written;

/// A word that spells a diagram of n edges, or n - 1.
pub fn word(random: &mut Random, n: usize) -> Vec<u16> {
    let weights = texture(random);
    let triple = n >= 3 && random.percent(70);
    let (mut word, mut height, mut free) = if triple { (vec![1], 3, n - 3) } else { (vec![0], 1, n - 1) };
    while height > 0 {
        height -= 1;
        match event(random, weights, free, height == 0) {
            0 => word.push(0),
            1 => {
                word.push(1);
                height += 2;
                free -= 3;
            }
            2 => {
                word.push(2);
                free -= 1;
            }
            _ => {
                let d = if random.percent(50) { random.below(height) } else { random.below(height.min(3)) };
                word.push(3 + d as u16);
                height -= 1;
            }
        }
    }
    word
}

/// Where all joins of a tall word reach, of h labels below the one that is popped: the first place below the top, the last, one beside the middle, or any.
pub const REACHES: [&str; 5] = ["top", "bottom", "above middle", "below middle", "any place"];

/// A word of many edges that first forks up to many pending labels and then mostly joins them, and where its joins reach; now and then its first join
/// reaches just past the bottom.
pub fn tall_word(random: &mut Random) -> (Vec<u16>, &'static str) {
    let n = if random.percent(10) { 400 + random.below(625) } else { 65 + random.below(150) };
    let forks = (n - 3) / 3 - random.below(10);
    let (mut word, mut height) = (vec![1; 1 + forks], 3 + forks);
    let reach = random.choose(&REACHES);
    while height > 1 {
        let h = height - 1;
        let d = match reach {
            "top" => 0,
            "bottom" => h - 1,
            "above middle" => (h - 1) / 2,
            "below middle" => h / 2,
            _ => random.below(h),
        };
        word.push(3 + d as u16);
        height -= 2;
        // A label that stays alone changes whether the height is even.
        if height > 0 && random.percent(10) {
            word.push(0);
            height -= 1;
        }
    }
    word.extend(vec![0; height]);
    if random.percent(10) {
        word[1 + forks] = 3 + 2 + forks as u16;
    }
    (word, reach)
}

/// A word, right or damaged, with the labels at and past their limit and lengths at and past theirs.
pub fn any_word(random: &mut Random) -> Vec<u16> {
    let n = if random.percent(8) { 1020 + random.below(12) } else { size(random, EVERY) };
    let mut items = word(random, n);
    if random.percent(50) {
        for _ in 0..1 + random.weighted(&[6, 3, 1]) {
            damage(random, &mut items);
        }
    }
    items
}

fn damage(random: &mut Random, items: &mut Vec<u16>) {
    let place = random.below(items.len() + 1);
    let item = if random.percent(70) { random.below(6) as u16 } else { random.near(&[0, 3, 65_535]) as u16 };
    match random.below(10) {
        0 | 1 => items.insert(place, item),
        2 | 3 if place < items.len() => drop(items.remove(place)),
        4 => items.truncate(place),
        5 => items.push(item),
        6 if !items.is_empty() => items[0] = item,
        7 if random.percent(50) => {
            let length = random.choose(&[1024, 1025, 1026, 1027, 1300, 65_536, 65_540]);
            items.resize(length, item);
        }
        8 if place < items.len() => items[place] = items[place].wrapping_add(random.choose(&[1, u16::MAX])),
        9 if random.percent(10) => items.clear(),
        _ if place < items.len() => items[place] = item,
        _ => (),
    }
}

/// Two lists, often equal as far as the shorter goes, or but for one item.
pub fn pair(random: &mut Random) -> (Vec<u16>, Vec<u16>) {
    let length = if random.percent(95) { random.below(12) } else { random.below(2000) };
    let few = random.percent(50);
    let first: Vec<u16> = (0..length).map(|_| if few { random.below(4) as u16 } else { random.bits() as u16 }).collect();
    let mut second = first.clone();
    match random.below(5) {
        0 => (),
        1 => second.truncate(random.below(length + 1)),
        2 if length > 0 => second[random.below(length)] = random.bits() as u16,
        3 if length > 0 => {
            let place = random.below(length);
            second[place] = second[place].wrapping_add(random.choose(&[1, u16::MAX]));
        }
        _ => {
            let length = random.below(12);
            second = (0..length).map(|_| random.below(4) as u16).collect();
        }
    }
    if random.percent(50) { (first, second) } else { (second, first) }
}

/// A length for a list that needs so many places: mostly enough, often exactly or one less.
pub fn room(random: &mut Random, needed: usize) -> usize {
    match random.below(30) {
        0 => needed.saturating_sub(1),
        1 => random.below(needed + 1),
        2 => 0,
        3..=14 => needed,
        15..=22 => needed + 1,
        _ => needed + random.below(20),
    }
}

/// The three output lists of a diagram and its word.
#[derive(Clone, Debug, PartialEq)]
pub struct Lists {
    pub s0: Vec<u16>,
    pub s1: Vec<u16>,
    pub word: Vec<u16>,
}

impl Lists {
    /// Lists for a diagram of size n, with anything in them.
    pub fn any(random: &mut Random, n: usize) -> Lists {
        let rooms = [room(random, n), room(random, n), room(random, n + 1)];
        Lists { s0: random.list(rooms[0]), s1: random.list(rooms[1]), word: random.list(rooms[2]) }
    }

    pub fn rooms(&self) -> reference::Rooms {
        [self.s0.len(), self.s1.len(), self.word.len()]
    }

    /// The lists with a diagram in their first places.
    pub fn with(&self, written: &Written) -> Lists {
        Lists { s0: overwritten(&self.s0, &written.s0), s1: overwritten(&self.s1, &written.s1), word: overwritten(&self.word, &written.word) }
    }

    /// The lists after an operation that answered: with the diagram, or as they were.
    pub fn after<E>(&self, answer: &Result<Option<&Written>, E>) -> Lists {
        match answer {
            Ok(Some(written)) => self.with(written),
            _ => self.clone(),
        }
    }
}

/// A list with others in its first places.
pub fn overwritten<T: Copy>(list: &[T], first: &[T]) -> Vec<T> {
    let mut list = list.to_vec();
    list[..first.len()].copy_from_slice(first);
    list
}
