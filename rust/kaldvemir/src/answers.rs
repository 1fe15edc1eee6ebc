//! From the numbers of the boundary to results. Out-values begin as a sentinel, which a refused call leaves.
use crate::Refusal;

/// What an out-value holds before the call: no size, position or ticket, and no answer yes or no.
pub(crate) const UNWRITTEN: u64 = 0x5EA1_ED5E_A1ED_5EA1;

/// Acceptance or the refusal of a number.
#[inline]
pub(crate) fn answered(number: u16) -> Result<(), Refusal> {
    match number {
        0 => Ok(()),
        number => Err(Refusal::of(number)),
    }
}

/// The numbers that a call gives.
#[inline]
pub(crate) fn numbers<const N: usize>(call: impl FnOnce(&mut [u64; N]) -> u16) -> Result<[u64; N], Refusal> {
    let mut values = [UNWRITTEN; N];
    let answer = answered(call(&mut values));
    left(answer, values == [UNWRITTEN; N])?;
    Ok(values)
}

/// The one number that a call gives.
#[inline]
pub(crate) fn given(call: impl FnOnce(&mut u64) -> u16) -> Result<u64, Refusal> {
    numbers(|[value]| call(value)).map(|[value]| value)
}

/// The length or size that a call gives.
#[inline]
pub(crate) fn length(call: impl FnOnce(&mut u64) -> u16) -> Result<usize, Refusal> {
    given(call).map(places)
}

/// A length or size, by its number.
#[inline]
pub(crate) fn places(value: u64) -> usize {
    usize::try_from(value).expect("a length of a list")
}

/// The run that a beginning writes over another; a refused one leaves it.
#[inline]
pub(crate) fn begun<R: Clone + PartialEq>(before: R, begin: impl FnOnce(&mut R) -> u16) -> Result<R, Refusal> {
    let mut run = before.clone();
    let answer = answered(begin(&mut run));
    left(answer, run == before)?;
    Ok(run)
}

/// The yes or no that a call gives.
#[inline]
pub(crate) fn yes(call: impl FnOnce(&mut u64) -> u16) -> Result<bool, Refusal> {
    given(call).map(truth)
}

/// Yes or no, by its number.
#[inline]
pub(crate) fn truth(value: u64) -> bool {
    match value {
        0 => false,
        1 => true,
        value => panic!("the library answered {value} for yes or no"),
    }
}

/// The answer, once it is seen that a refused call has left its out-values as they were.
#[inline]
pub(crate) fn left(answer: Result<(), Refusal>, untouched: bool) -> Result<(), Refusal> {
    if let Err(refusal) = answer {
        assert!(untouched, "a call that was refused {} wrote", refusal.number());
    }
    answer
}
