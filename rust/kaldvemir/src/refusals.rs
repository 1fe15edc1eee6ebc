//! The refusals of 01, by their numbers.
use std::error::Error;
use std::fmt;

/// Why a call was turned away: the conditions of 01, each with its number.
#[derive(Clone, Copy, Debug, PartialEq, Eq, Hash)]
#[repr(u16)]
pub enum Refusal {
    /// 1: the length of s0 is 0 or above 1,024.
    SizeOutside = 1,
    /// 2: the lengths of s0 and s1 differ.
    LengthsDiffer = 2,
    /// 3: the root is outside 1..n.
    RootOutside = 3,
    /// 4: an entry of s0 is outside 1..n.
    BlackEntryOutside = 4,
    /// 5: an entry of s1 is outside 1..n.
    WhiteEntryOutside = 5,
    /// 6: s0 applied three times moves an edge.
    BlackThriceMoves = 6,
    /// 7: s1 applied twice moves an edge.
    WhiteTwiceMoves = 7,
    /// 8: some edge cannot be reached from edge 1.
    NotConnected = 8,
    /// 9: an output list is short.
    OutputShort = 9,
    /// 21: the word is empty or has more than 1,025 items.
    WordLengthOutside = 21,
    /// 22: the first item is not 0 or 1.
    FirstItemUnknown = 22,
    /// 23: Jd with d not below the height of the stack after the pop.
    JoinTooDeep = 23,
    /// 24: a label above 1,024.
    LabelOutside = 24,
    /// 25: edges are pending at the word's end.
    EdgesPending = 25,
    /// 26: an item after the stack has emptied.
    ItemAfterEnd = 26,
    /// 31: the size, or the bound of sizes, is outside 1..50.
    ListedSizeOutside = 31,
    /// 32: the position is 0 or above the count.
    PositionOutside = 32,
    /// 34: the run is neither fresh, nor at a diagram of its size (of a size up to its bound), nor finished, or its branch visits are not its own.
    RunInvalid = 34,
    /// 35: the size is outside 1..9.
    WalkSizeOutside = 35,
    /// 50: the book is not valid.
    BookInvalid = 50,
    /// 51: the number of shares is outside 1..32.
    SharesOutside = 51,
    /// 52: the tick is below the latest, or 2^48 or above.
    TickOutside = 52,
    /// 53: the share is outside 1..k.
    ShareOutside = 53,
    /// 54: the length of the ticket is outside 1..65,535.
    LengthOutside = 54,
    /// 55: the share is finished.
    ShareFinished = 55,
    /// 56: the share is held, and its ticket has not lapsed.
    ShareHeld = 56,
    /// 57: 65,535 tickets have been issued.
    TicketsIssued = 57,
    /// 58: the ticket stands at no share.
    TicketAbsent = 58,
    /// 59: the ticket has lapsed.
    TicketLapsed = 59,
    /// 60: the position is not the next one of the ticket's share.
    PositionNotNext = 60,
    /// 61: the sheet's length is no multiple of 52, or a cell's length is above 51 or a number after its word is not 0.
    CellInvalid = 61,
    /// 62: the level is 2^64 or more.
    LevelOutside = 62,
}

use Refusal::*;

/// Every refusal with the words that tell it.
const REFUSALS: [(Refusal, &str); 32] = [
    (SizeOutside, "the length of s0 is 0 or above 1,024"),
    (LengthsDiffer, "the lengths of s0 and s1 differ"),
    (RootOutside, "the root is not an edge"),
    (BlackEntryOutside, "an entry of s0 is not an edge"),
    (WhiteEntryOutside, "an entry of s1 is not an edge"),
    (BlackThriceMoves, "s0 applied three times moves an edge"),
    (WhiteTwiceMoves, "s1 applied twice moves an edge"),
    (NotConnected, "the diagram is not connected"),
    (OutputShort, "an output list is short"),
    (WordLengthOutside, "the word is empty or has more than 1,025 items"),
    (FirstItemUnknown, "the first item is not 0 or 1"),
    (JoinTooDeep, "a join reaches below the stack"),
    (LabelOutside, "a label above 1,024"),
    (EdgesPending, "edges are pending at the word's end"),
    (ItemAfterEnd, "an item after the stack has emptied"),
    (ListedSizeOutside, "the size or bound is outside 1..50"),
    (PositionOutside, "the position is 0 or above the count"),
    (RunInvalid, "the run is neither fresh, nor at a diagram, nor finished"),
    (WalkSizeOutside, "the size is outside 1..9"),
    (BookInvalid, "the book is not valid"),
    (SharesOutside, "the number of shares is outside 1..32"),
    (TickOutside, "the tick is below the latest, or 2^48 or above"),
    (ShareOutside, "the book has no such share"),
    (LengthOutside, "the length is outside 1..65,535"),
    (ShareFinished, "the share is finished"),
    (ShareHeld, "the share is held"),
    (TicketsIssued, "65,535 tickets have been issued"),
    (TicketAbsent, "the ticket stands at no share"),
    (TicketLapsed, "the ticket has lapsed"),
    (PositionNotNext, "the position is not the next one of the share"),
    (CellInvalid, "the sheet's length is no multiple of 52, or a cell's length is above 51 or its tail is not zero"),
    (LevelOutside, "the level, the least common multiple of the cycles' lengths, is 2^64 or more"),
];

impl Refusal {
    /// 01's number of the condition.
    pub fn number(self) -> u16 {
        self as u16
    }

    /// The refusal that has a number, such as [`sheet_positions`](crate::sheet_positions) writes for a cell; `None` where none has it, as of 0.
    pub fn from_number(number: u16) -> Option<Refusal> {
        REFUSALS.iter().map(|(refusal, _)| *refusal).find(|refusal| refusal.number() == number)
    }

    /// The refusal of a number that the library answered. The library answers none but 01's; any other is a bug of the binding.
    pub(crate) fn of(number: u16) -> Refusal {
        match Refusal::from_number(number) {
            Some(refusal) => refusal,
            None => panic!("the library answered {number}, which is no refusal of 01"),
        }
    }
}

impl fmt::Display for Refusal {
    fn fmt(&self, out: &mut fmt::Formatter<'_>) -> fmt::Result {
        let words = REFUSALS.iter().find(|(refusal, _)| refusal == self).map_or("", |(_, words)| words);
        write!(out, "refused {}: {}", self.number(), words)
    }
}

impl Error for Refusal {}

/// Which of the two diagrams of a compare.
#[derive(Clone, Copy, Debug, PartialEq, Eq, Hash)]
pub enum Side {
    /// The diagram given first.
    First,
    /// The diagram given second.
    Second,
}

/// A refusal of compare: which diagram was turned away, and why.
#[derive(Clone, Copy, Debug, PartialEq, Eq, Hash)]
pub struct Sided {
    /// The diagram that was turned away.
    pub side: Side,
    /// Why.
    pub refusal: Refusal,
}

impl fmt::Display for Sided {
    fn fmt(&self, out: &mut fmt::Formatter<'_>) -> fmt::Result {
        let side = match self.side {
            Side::First => "first",
            Side::Second => "second",
        };
        write!(out, "{} ({} diagram)", self.refusal, side)
    }
}

impl Error for Sided {}

#[cfg(test)]
mod tests {
    use super::*;

    #[test]
    fn every_number_of_01_has_its_refusal() {
        let numbers: Vec<u16> = (1..=9).chain(21..=26).chain([31, 32, 34, 35]).chain(50..=62).collect();
        assert_eq!(numbers.len(), REFUSALS.len());
        for number in 0..=u16::MAX {
            assert_eq!(Refusal::from_number(number).map(Refusal::number), numbers.contains(&number).then_some(number));
        }
        assert_eq!((Refusal::of(61), Refusal::of(62)), (CellInvalid, LevelOutside));
        assert_eq!(Refusal::of(59).to_string(), "refused 59: the ticket has lapsed");
    }

    #[test]
    #[should_panic(expected = "answered 33")]
    fn another_number_is_a_bug() {
        Refusal::of(33);
    }
}
