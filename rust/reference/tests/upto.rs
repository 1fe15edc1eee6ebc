//! All sizes up to a bound: the run against the list made straight from the request, numbers made elsewhere, and each condition of 34.
use reference::*;

const ROOMY: Rooms = [50, 50, 51];

/// Diagrams and branch visits of the bounds 1, 2, 3 and so on.
const TOTALS: [(usize, u64); 12] =
    [(1, 1), (2, 1), (6, 6), (14, 11), (19, 13), (41, 36), (83, 69), (123, 87), (243, 213), (508, 426), (794, 591), (1558, 1341)];

#[test]
fn diagrams_and_visits() {
    for (bound, (diagrams, visits)) in (1..).zip(TOTALS) {
        let list = list_upto(bound);
        assert_eq!((list.len(), list.last().map(|(_, visits)| *visits)), (diagrams, Some(visits)));
        assert_eq!(UptoRun::finished(bound as u16).visits, visits);
        assert!(list.windows(2).all(|pair| pair[0].0 < pair[1].0));
    }
    assert_eq!(UptoRun::finished(50).visits, 813_900_822_725_207);
}

#[test]
fn the_list_of_bound_3() {
    let words: [(&[u16], u64); 6] = [(&[0, 0], 1), (&[0, 2], 1), (&[1, 0, 0, 0], 4), (&[1, 0, 3], 4), (&[1, 3, 0], 5), (&[1, 4, 0], 6)];
    assert_eq!(list_upto(3), words.map(|(word, visits)| (word.to_vec(), visits)));
}

/// The first diagrams of bound 15, as size, visits and word.
#[test]
fn the_first_of_bound_15() {
    let mut run = UptoRun::begin(15).unwrap();
    let first: [(usize, u64, &[u16]); 7] = [
        (1, 1, &[0, 0]),
        (4, 3, &[0, 1, 0, 0]),
        (7, 5, &[0, 1, 0, 1, 0, 0]),
        (10, 7, &[0, 1, 0, 1, 0, 1, 0, 0]),
        (13, 9, &[0, 1, 0, 1, 0, 1, 0, 1, 0, 0]),
        (14, 9, &[0, 1, 0, 1, 0, 1, 0, 1, 0, 2]),
        (14, 10, &[0, 1, 0, 1, 0, 1, 0, 1, 2, 0]),
    ];
    for (size, visits, word) in first {
        let written = run.step(ROOMY).unwrap().unwrap();
        assert_eq!((written.s0.len(), run.visits, &written.word[..]), (size, visits, word));
    }
}

#[test]
fn a_run_gives_the_list_and_ends() {
    for bound in 1..=9 {
        let mut run = UptoRun::begin(bound).unwrap();
        for (word, visits) in list_upto(bound as usize) {
            let (s0, s1) = read_word(&word, [50, 50]).unwrap();
            let n = s0.len();
            for rooms in [[n - 1, n, n + 1], [n, n - 1, n + 1], [n, n, n]] {
                let before = run.clone();
                assert_eq!((run.step(rooms), &run), (Err(9), &before));
            }
            assert_eq!(run.step([n, n, n + 1]), Ok(Some(Written { s0, s1, word: word.clone() })));
            assert_eq!((&run, run.visits), (&UptoRun::at(bound as u16, &word), visits));
        }
        assert_eq!((run.step([0, 0, 0]), &run), (Ok(None), &UptoRun::finished(bound as u16)));
        assert_eq!((run.step([0, 0, 0]), &run), (Ok(None), &UptoRun::finished(bound as u16)));
    }
}

#[test]
fn refusals() {
    assert_eq!((UptoRun::begin(0), UptoRun::begin(51), UptoRun::begin(1 << 32 | 3)), (Err(31), Err(31), Err(31)));
    let refused = |run: &UptoRun| {
        let mut after = run.clone();
        assert_eq!((after.step([0, 0, 0]), &after), (Err(34), run));
    };
    // U F W F B W, of 8 edges. Visits depend on the bound.
    let word = [0, 1, 0, 1, 2, 0];
    for bound in 8..=12 {
        let (_, visits) = list_upto(bound.into()).into_iter().find(|(listed, _)| *listed == word).unwrap();
        assert_eq!(UptoRun::at(bound, &word).visits, visits);
    }
    let run = UptoRun::at(9, &word);
    // The bound, the stage, the length, and an item at a place.
    let damages = [
        (0, 1, 6, 0, 0),
        (7, 1, 6, 0, 0),
        (51, 1, 6, 0, 0),
        (9, 0, 6, 0, 0),
        (9, 2, 6, 0, 0),
        (9, 3, 6, 0, 0),
        (9, 1, 0, 0, 0),
        (9, 1, 5, 0, 0),
        (9, 1, 7, 0, 0),
        (9, 1, 52, 0, 0),
        (9, 1, 6, 0, 2),
        (9, 1, 6, 2, 5),
        (9, 1, 6, 4, 1),
        (9, 1, 6, 50, 1),
    ];
    for (size, stage, length, place, item) in damages {
        let mut damaged = UptoRun { run: Run { size, stage, length, items: run.run.items }, visits: run.visits };
        damaged.run.items[place] = item;
        refused(&damaged);
    }
    for at in [run, UptoRun::begin(9).unwrap(), UptoRun::finished(9)] {
        assert!(at.clone().step(ROOMY).is_ok());
        for visits in [0, at.visits.wrapping_sub(1), at.visits + 1, at.visits + (1 << 32), 213, u64::MAX] {
            if visits != at.visits {
                refused(&UptoRun { visits, ..at.clone() });
            }
        }
    }
}
