//! Random diagrams, valid and damaged.
use crate::random::Random;

#[derive(Clone, Debug)]
pub struct Diagram {
    pub s0: Vec<u16>,
    pub s1: Vec<u16>,
    pub root: u64,
}

/// How likely large diagrams are: per thousand of 51 to 200 edges and of 201 to 1,024. Operations that go through all rootings get few.
#[derive(Clone, Copy)]
pub struct Mix {
    pub middling: usize,
    pub large: usize,
}

pub const EVERY: Mix = Mix { middling: 100, large: 40 };
pub const FEW_LARGE: Mix = Mix { middling: 80, large: 12 };

/// A size from 1 to 1,024, mostly small; its upper edge comes often among the large ones, and 64, up to which the library labels in small arrays, among
/// the middling.
pub fn size(random: &mut Random, mix: Mix) -> usize {
    let share = random.below(1000);
    if share < mix.large {
        return if random.percent(25) { 1022 + random.below(3) } else { 201 + random.below(824) };
    }
    if share < mix.large + mix.middling {
        return if random.percent(30) { 63 + random.below(4) } else { 51 + random.below(150) };
    }
    if random.percent(70) { 1 + random.below(9) } else { 10 + random.below(41) }
}

/// A diagram that check accepts, or now and then one that is not connected.
pub fn any(random: &mut Random, mix: Mix) -> Diagram {
    let n = size(random, mix);
    match random.below(20) {
        0 | 1 => listed(random),
        2 | 3 => cover(random, n),
        4 => scattered(random, n),
        5 => beside(random, n),
        6 | 7 => grown(random, n),
        _ => {
            let diagram = grown(random, n);
            carried(random, &diagram).0
        }
    }
}

/// A diagram of the listing in characteristic labelling, with any root.
fn listed(random: &mut Random) -> Diagram {
    let n = 1 + random.below(20) as u64;
    let position = random.between(1, reference::count(n).expect("a size in range"));
    let written = reference::diagram_at(n, position, [50, 50, 51]).expect("a position in range");
    Diagram { s0: written.s0, s1: written.s1, root: random.between(1, n) }
}

/// A diagram of n edges, or n - 1 where the last is left over, grown vertex by vertex from any pending edge; a weight for each event gives each
/// diagram a texture of its own.
pub fn grown(random: &mut Random, n: usize) -> Diagram {
    let weights = texture(random);
    let (mut s0, mut s1, mut pending): (Vec<u16>, Vec<u16>, Vec<u16>) = (vec![], vec![], vec![]);
    if n >= 3 && random.percent(85) {
        triple(&mut s0, &mut s1);
        pending.extend([1, 2, 3]);
    } else {
        single(&mut s0, &mut s1);
        pending.push(1);
    }
    while !pending.is_empty() {
        let k = pending.swap_remove(random.below(pending.len()));
        match event(random, weights, n - s0.len(), pending.is_empty()) {
            0 => (),
            1 => {
                let c = triple(&mut s0, &mut s1);
                join(&mut s1, k, c);
                pending.extend([c + 1, c + 2]);
            }
            2 => {
                let c = single(&mut s0, &mut s1);
                join(&mut s1, k, c);
            }
            _ => {
                let p = pending.swap_remove(random.below(pending.len()));
                join(&mut s1, k, p);
            }
        }
    }
    let root = random.between(1, s0.len() as u64);
    Diagram { s0, s1, root }
}

/// Weights of the events W, F, B and J.
pub fn texture(random: &mut Random) -> [usize; 4] {
    [random.below(4), 1 + random.below(8), random.below(4), random.below(4)]
}

/// An event that so many free labels allow, 3 for J, after a pop; while labels are free the last pending edge is not spent without a new one.
pub fn event(random: &mut Random, weights: [usize; 4], free: usize, last: bool) -> usize {
    let ending = usize::from(!last || free == 0);
    let spent = usize::from(free == 0);
    random.weighted(&[
        ending * (weights[0] + spent),
        if free >= 3 { weights[1] } else { 0 },
        if free >= 1 { weights[2] + usize::from(last || free < 3) } else { 0 },
        if last { 0 } else { weights[3] + spent },
    ])
}

fn single(s0: &mut Vec<u16>, s1: &mut Vec<u16>) -> u16 {
    let c = s0.len() as u16 + 1;
    s0.push(c);
    s1.push(c);
    c
}

fn triple(s0: &mut Vec<u16>, s1: &mut Vec<u16>) -> u16 {
    let c = s0.len() as u16 + 1;
    s0.extend([c + 1, c + 2, c]);
    s1.extend([c, c + 1, c + 2]);
    c
}

fn join(s1: &mut [u16], k: u16, p: u16) {
    s1[usize::from(k) - 1] = p;
    s1[usize::from(p) - 1] = k;
}

/// The diagram under a random renaming of its edges, root and all, and the new names.
pub fn carried(random: &mut Random, diagram: &Diagram) -> (Diagram, Vec<usize>) {
    let n = diagram.s0.len();
    let name = random.order(n);
    let list = |from: &[u16]| {
        let mut to = vec![0; n];
        for (place, entry) in from.iter().enumerate() {
            to[name[place]] = name[usize::from(*entry) - 1] as u16 + 1;
        }
        to
    };
    let root = name[diagram.root as usize - 1] as u64 + 1;
    (Diagram { s0: list(&diagram.s0), s1: list(&diagram.s1), root }, name)
}

/// The mirror image: the other way round each black vertex.
pub fn mirror(diagram: &Diagram) -> Diagram {
    let mut s0 = diagram.s0.clone();
    for (place, entry) in diagram.s0.iter().enumerate() {
        s0[usize::from(*entry) - 1] = place as u16 + 1;
    }
    Diagram { s0, ..diagram.clone() }
}

/// A diagram over a smaller one, each of whose edges it has m times: where it is connected it has symmetries, m of them at least.
fn cover(random: &mut Random, n: usize) -> Diagram {
    let fold = 1 + random.below(n.min(12));
    let base = grown(random, (n / fold).max(1));
    let sheets = Sheets { fold, size: base.s0.len() };
    let (mut s0, mut s1) = (vec![0; sheets.size * fold], vec![0; sheets.size * fold]);
    for place in 0..sheets.size {
        let next = usize::from(base.s0[place]) - 1;
        let last = usize::from(base.s0[next]) - 1;
        let partner = usize::from(base.s1[place]) - 1;
        if next == place {
            let shift = sheets.fixed(random, 3);
            sheets.lift(&mut s0, place, 0, place, shift);
        } else if place < next && place < last {
            let (v, w) = (random.below(fold), random.below(fold));
            sheets.lift(&mut s0, place, 0, next, v);
            sheets.lift(&mut s0, next, v, last, w);
            sheets.lift(&mut s0, last, w, place, 0);
        }
        if partner == place {
            let shift = sheets.fixed(random, 2);
            sheets.lift(&mut s1, place, 0, place, shift);
        } else if place < partner {
            let v = random.below(fold);
            sheets.lift(&mut s1, place, 0, partner, v);
            sheets.lift(&mut s1, partner, v, place, 0);
        }
    }
    let root = random.between(1, s0.len() as u64);
    Diagram { s0, s1, root }
}

/// The sheets of a cover, numbered round: edge e of sheet number i.
struct Sheets {
    fold: usize,
    size: usize,
}

impl Sheets {
    fn place(&self, edge: usize, sheet: usize) -> usize {
        edge + self.size * (sheet % self.fold)
    }

    /// On every sheet, `from` shifted by v sheets goes to `to` shifted by w.
    fn lift(&self, list: &mut [u16], from: usize, v: usize, to: usize, w: usize) {
        for sheet in 0..self.fold {
            list[self.place(from, sheet + v)] = self.place(to, sheet + w) as u16 + 1;
        }
    }

    /// By how many sheets an edge that the base fixes may shift, so that so many times give it back.
    fn fixed(&self, random: &mut Random, times: usize) -> usize {
        if self.fold.is_multiple_of(times) { self.fold / times * random.below(times) } else { 0 }
    }
}

/// Random black and white vertices; often not connected.
fn scattered(random: &mut Random, n: usize) -> Diagram {
    let (mut s0, mut s1): (Vec<u16>, Vec<u16>) = ((1..=n as u16).collect(), (1..=n as u16).collect());
    let fixed = random.below(40);
    for three in random.order(n).chunks_exact(3) {
        if !random.percent(fixed) {
            (s0[three[0]], s0[three[1]], s0[three[2]]) = (three[1] as u16 + 1, three[2] as u16 + 1, three[0] as u16 + 1);
        }
    }
    for two in random.order(n).chunks_exact(2) {
        if !random.percent(fixed) {
            join(&mut s1, two[0] as u16 + 1, two[1] as u16 + 1);
        }
    }
    Diagram { s0, s1, root: random.between(1, n as u64) }
}

/// Two diagrams side by side, which are not connected with one another.
fn beside(random: &mut Random, n: usize) -> Diagram {
    let (first, second) = (grown(random, n.div_ceil(2)), grown(random, (n / 2).max(1)));
    side_by_side(first, second)
}

/// A diagram of n edges or somewhat less, two at least, in two parts or more, its root in any. Some are numbered outward in each part, so that a single
/// edge besides 1 has no neighbour with a smaller number: the library takes a diagram without such an edge for connected.
pub fn in_parts(random: &mut Random, n: usize) -> Diagram {
    let first = 1 + random.below(n - 1);
    if random.percent(30) {
        let both = side_by_side(grown(random, first), grown(random, n - first));
        return Diagram { root: random.between(1, both.s0.len() as u64), ..both };
    }
    let (first, second) = (scattered(random, first), scattered(random, n - first));
    let both = side_by_side(first, second);
    carried(random, &both).0
}

fn side_by_side(mut first: Diagram, second: Diagram) -> Diagram {
    let shift = first.s0.len() as u16;
    first.s0.extend(second.s0.iter().map(|entry| entry + shift));
    first.s1.extend(second.s1.iter().map(|entry| entry + shift));
    first
}

/// Alters a diagram in one to three places; what comes out may still be valid.
pub fn damage(random: &mut Random, diagram: &mut Diagram) {
    for _ in 0..1 + random.weighted(&[6, 3, 1]) {
        match random.below(12) {
            0 | 1 => alter_entry(random, &mut diagram.s0),
            2 | 3 => alter_entry(random, &mut diagram.s1),
            4 => swap_entries(random, &mut diagram.s0),
            5 => swap_entries(random, &mut diagram.s1),
            6 | 7 => alter_root(random, diagram),
            8 | 9 => alter_lengths(random, diagram),
            10 => reconnect(random, diagram),
            _ if random.percent(30) => make_too_long(random, diagram),
            _ => shorten(random, diagram),
        }
    }
}

fn alter_entry(random: &mut Random, list: &mut [u16]) {
    if !list.is_empty() {
        let n = list.len() as u64;
        let place = random.below(list.len());
        list[place] = if random.percent(50) { random.between(1, n) as u16 } else { random.near(&[0, 1, n]) as u16 };
    }
}

fn swap_entries(random: &mut Random, list: &mut [u16]) {
    if !list.is_empty() {
        let (a, b) = (random.below(list.len()), random.below(list.len()));
        list.swap(a, b);
    }
}

fn alter_root(random: &mut Random, diagram: &mut Diagram) {
    let n = diagram.s0.len() as u64;
    diagram.root = if random.percent(30) { random.between(0, n) } else { random.near(&[0, n, diagram.root]) };
}

fn alter_lengths(random: &mut Random, diagram: &mut Diagram) {
    let (black, white) = random.choose(&[(true, false), (false, true), (true, true)]);
    for (list, altered) in [(&mut diagram.s0, black), (&mut diagram.s1, white)] {
        if altered && random.percent(50) {
            list.push(list.len() as u16 + 1);
        } else if altered {
            list.pop();
        }
    }
}

/// Two edges get one another as white partners, and their old partners too: s1 twice still gives every edge back.
pub fn reconnect(random: &mut Random, diagram: &mut Diagram) {
    let n = diagram.s1.len();
    if n == 0 || diagram.s1.iter().any(|entry| usize::from(*entry) == 0 || usize::from(*entry) > n) {
        return;
    }
    let (a, b) = (random.below(n), random.below(n));
    let (p, q) = (diagram.s1[a], diagram.s1[b]);
    let (a, b) = (a as u16 + 1, b as u16 + 1);
    if random.percent(30) {
        join(&mut diagram.s1, a, a);
        join(&mut diagram.s1, p, p);
    } else if a != b && p != b {
        match (p != a, q != b) {
            (true, true) => join(&mut diagram.s1, p, q),
            (true, false) => join(&mut diagram.s1, p, p),
            (false, true) => join(&mut diagram.s1, q, q),
            (false, false) => (),
        }
        join(&mut diagram.s1, a, b);
    }
}

/// More than 1,024 edges: a diagram that would be valid, or lists whose lengths look small in their low 16 bits.
fn make_too_long(random: &mut Random, diagram: &mut Diagram) {
    if random.percent(5) {
        let length = 65_536 + random.below(20);
        diagram.s0.resize(length, 1);
        diagram.s1.resize(length, 1);
    } else {
        let n = 1025 + random.weighted(&[3, 2, 1]) + random.below(2) * random.below(100);
        *diagram = grown(random, n);
    }
}

fn shorten(random: &mut Random, diagram: &mut Diagram) {
    let length = if random.percent(60) { 0 } else { random.below(diagram.s0.len() + 1) };
    let (black, white) = random.choose(&[(true, false), (false, true), (true, true)]);
    if black {
        diagram.s0.truncate(length);
    }
    if white {
        diagram.s1.truncate(length);
    }
}
