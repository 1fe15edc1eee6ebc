//! The list of a size, one word changed in place: events are taken back from the end to the last item that can be raised, it is raised, and the least
//! ending is drawn.
use super::drawing::Drawing;
use super::run::{above, start};
use crate::table::ends;

/// A word with its drawing, and the label that each of its items popped.
struct Lister<'a> {
    size: usize,
    word: &'a mut [u16; 64],
    popped: &'a mut [u16; 64],
    length: usize,
    drawing: Drawing<'a>,
}

/// Calls `output` with s0, s1 and the word of each diagram of the size, in dictionary order.
#[inline(always)]
pub fn list(size: usize, mut output: impl FnMut(&[u16], &[u16], &[u16])) {
    let [mut s0, mut s1, mut stack, mut word, mut popped] = [[0; 64]; 5];
    for root in 0..2 {
        if !start(size, root).is_some_and(|(h, f)| ends(h, f)) {
            continue;
        }
        let drawing = Drawing::begin(root, &mut s0, &mut s1, &mut stack);
        word[0] = root;
        let mut lister = Lister { size, word: &mut word, popped: &mut popped, length: 1, drawing };
        loop {
            lister.end();
            output(&lister.drawing.s0[..size], &lister.drawing.s1[..size], &lister.word[..lister.length]);
            if !lister.raise() {
                break;
            }
        }
    }
}

impl Lister<'_> {
    #[inline(always)]
    fn add(&mut self, item: u16) {
        self.word[self.length] = item;
        self.popped[self.length] = self.drawing.event(item);
        self.length += 1;
    }

    /// The least event above an item from where the drawing is, if one leads to an end.
    #[inline(always)]
    fn above(&self, item: u16) -> Option<u16> {
        above(self.drawing.height, self.size - self.drawing.used, item).map(|(event, ..)| event)
    }

    /// Takes events back until one can be raised, and raises it; false where there is none.
    #[inline(always)]
    fn raise(&mut self) -> bool {
        while self.length > 1 {
            self.length -= 1;
            let item = self.word[self.length];
            self.drawing.take_back(item, self.popped[self.length]);
            if let Some(event) = self.above(item) {
                self.add(event);
                return true;
            }
        }
        false
    }

    /// Draws the least way to end.
    #[inline(always)]
    fn end(&mut self) {
        while self.drawing.height != 0 {
            let least = if ends(self.drawing.height - 1, self.size - self.drawing.used) { Some(0) } else { self.above(0) };
            self.add(least.expect("the word can be ended"));
        }
    }
}
