//! All sizes up to a bound in one run, and runs as iterators.
use kaldvemir::*;

/// A diagram as its size, visits, s0, s1 and word.
fn line(UptoListed { diagram: Listed { s0, s1, word }, size, visits }: &UptoListed) -> String {
    let list = |list: &[u16]| list.iter().map(u16::to_string).collect::<Vec<_>>().join(",");
    format!("{size} {visits} {} {} {}", list(s0), list(s1), list(word))
}

/// The diagrams of a bound, in lists of their own.
fn listed(bound: u64) -> Vec<UptoListed> {
    UptoRun::begin(bound).unwrap().into_iter().collect::<Result<_, _>>().unwrap()
}

/// Diagrams and branch visits of the bounds 1, 2, 3 and so on.
const DIAGRAMS: [usize; 12] = [1, 2, 6, 14, 19, 41, 83, 123, 243, 508, 794, 1558];
const VISITS: [u64; 12] = [1, 1, 6, 11, 13, 36, 69, 87, 213, 426, 591, 1341];

#[test]
fn all_of_bound_3() {
    let whole = [
        "1 1 1 1 0,0",
        "2 1 1,2 2,1 0,2",
        "3 4 2,3,1 1,2,3 1,0,0,0",
        "3 4 2,3,1 2,1,3 1,0,3",
        "3 5 2,3,1 1,3,2 1,3,0",
        "3 6 2,3,1 3,2,1 1,4,0",
    ];
    assert_eq!(listed(3).iter().map(line).collect::<Vec<_>>(), whole);
}

#[test]
fn the_first_of_bound_9() {
    let first = [
        "1 1 1 1 0,0",
        "4 3 1,3,4,2 2,1,3,4 0,1,0,0",
        "7 5 1,3,4,2,6,7,5 2,1,5,4,3,6,7 0,1,0,1,0,0",
        "8 5 1,3,4,2,6,7,5,8 2,1,5,4,3,8,7,6 0,1,0,1,0,2",
        "8 6 1,3,4,2,6,7,5,8 2,1,5,4,3,6,8,7 0,1,0,1,2,0",
        "9 6 1,3,4,2,6,7,5,8,9 2,1,5,4,3,9,8,7,6 0,1,0,1,2,2",
        "7 6 1,3,4,2,6,7,5 2,1,5,4,3,7,6 0,1,0,1,3",
        "5 6 1,3,4,2,5 2,1,5,4,3 0,1,0,2",
        "7 9 1,3,4,2,6,7,5 2,1,3,5,4,6,7 0,1,1,0,0,0",
        "8 9 1,3,4,2,6,7,5,8 2,1,8,5,4,6,7,3 0,1,1,0,0,2",
    ];
    assert_eq!(listed(9)[..10].iter().map(line).collect::<Vec<_>>(), first);
}

/// Each size's part is the run of that size; words increase; visits never fall, and end where they should.
#[test]
fn whole_lists() {
    for (bound, (diagrams, visits)) in (1..).zip(DIAGRAMS.into_iter().zip(VISITS)) {
        let list = listed(bound);
        assert_eq!((list.len(), list.last().map(|last| last.visits)), (diagrams, Some(visits)));
        assert!(visits < 2 * diagrams as u64);
        assert!(list.windows(2).all(|pair| pair[0].diagram.word < pair[1].diagram.word && pair[0].visits <= pair[1].visits));
        for size in 1..=bound {
            let own = list.iter().filter(|listed| listed.size as u64 == size).map(|listed| Ok(listed.diagram.clone()));
            assert!(own.eq(Run::begin(size).unwrap()));
        }
    }
}

#[test]
fn beginnings_refused() {
    for bound in [0, 51, 1 << 16, 1 << 32 | 3, u64::MAX] {
        assert_eq!(UptoRun::begin(bound), Err(Refusal::ListedSizeOutside));
    }
    assert_eq!(UptoRun::begin(50), Ok(UptoRun { bound: 50, stage: 0, length: 0, items: [0; 51], visits: 0 }));
}

/// An answer to a step, and the lists after it, which hold 9 in every place before.
type Answer = (Result<Option<Stepped>, Refusal>, [Vec<u16>; 3]);

fn step(run: &mut UptoRun, rooms: [usize; 3]) -> Answer {
    let mut lists = rooms.map(|room| vec![9; room]);
    let [s0, s1, word] = &mut lists;
    (run.step(s0, s1, word), lists)
}

/// Asserts that a run is refused so in such lists, and that nothing is written.
fn assert_refused(run: &UptoRun, rooms: [usize; 3], refusal: Refusal) {
    let mut after = run.clone();
    assert_eq!((step(&mut after, rooms), &after), ((Err(refusal), rooms.map(|room| vec![9; room])), run));
}

/// The run of a bound that has given so many diagrams, the end counted as one.
fn after(bound: u64, steps: usize) -> UptoRun {
    let mut run = UptoRun::begin(bound).unwrap();
    for _ in 0..steps {
        step(&mut run, [50, 50, 51]).0.unwrap();
    }
    run
}

#[test]
fn lists_are_measured_on_the_diagram_that_comes() {
    let sizes = listed(9).iter().map(|listed| listed.size).collect::<Vec<_>>();
    let mut run = UptoRun::begin(9).unwrap();
    for n in sizes {
        for rooms in [[n - 1, 60, 60], [60, n - 1, 60], [60, 60, n], [0, 0, 0]] {
            assert_refused(&run, rooms, Refusal::OutputShort);
        }
        let (answer, [s0, s1, word]) = step(&mut run, [n, n + 1, n + 1]);
        let stepped = answer.unwrap().unwrap();
        assert_eq!((stepped.size, stepped.visits, s0.contains(&9)), (n, run.visits, n == 9));
        assert_eq!((s1[n], word[..stepped.length].to_vec()), (9, run.items[..stepped.length].to_vec()));
        assert!(word[stepped.length..].iter().all(|item| *item == 9));
    }
}

#[test]
fn the_end_asks_for_no_room() {
    for (bound, (diagrams, visits)) in (1..).zip(DIAGRAMS.into_iter().zip(VISITS)) {
        let mut run = after(bound, diagrams);
        assert_eq!((run.stage, run.visits), (1, visits));
        let finished = UptoRun { bound: bound as u16, stage: 2, length: 0, items: [0; 51], visits };
        for rooms in [[0, 0, 0], [60, 60, 60], [1, 0, 2]] {
            assert_eq!((step(&mut run, rooms), &run), ((Ok(None), rooms.map(|room| vec![9; room])), &finished));
        }
    }
}

type Damage = fn(&mut UptoRun);

/// Each field of a run at a diagram; 34 comes before 9.
#[test]
fn damaged_runs() {
    // The fifth diagram of bound 9: U F W F B W, of 8 edges, after 6 visits.
    let run = after(9, 5);
    assert_eq!((run.stage, run.length, &run.items[..7], run.visits), (1, 6, &[0, 1, 0, 1, 2, 0, 0][..], 6));
    let damages: [(&str, Damage); 21] = [
        ("bound 0", |run| run.bound = 0),
        ("bound below the size", |run| run.bound = 7),
        ("another bound, with other visits", |run| run.bound = 10),
        ("bound 51", |run| run.bound = 51),
        ("fresh at a word", |run| run.stage = 0),
        ("finished at a word", |run| run.stage = 2),
        ("no stage", |run| run.stage = 3),
        ("no word", |run| run.length = 0),
        ("a beginning", |run| run.length = 5),
        ("an item more", |run| run.length = 7),
        ("too long", |run| run.length = 52),
        ("first item", |run| run.items[0] = 2),
        ("a join too deep", |run| run.items[2] = 5),
        ("more labels than the bound has", |run| run.items[4] = 1),
        ("another word, with other visits", |run| run.items[4] = 0),
        ("an item behind the word", |run| run.items[6] = 1),
        ("the last item behind the word", |run| run.items[50] = 1),
        ("no visits", |run| run.visits = 0),
        ("a visit less", |run| run.visits -= 1),
        ("a visit more", |run| run.visits += 1),
        ("visits that agree in 32 bits", |run| run.visits += 1 << 32),
    ];
    for (name, damage) in damages {
        let mut damaged = run.clone();
        damage(&mut damaged);
        for rooms in [[60, 60, 60], [0, 0, 0]] {
            assert_refused(&damaged, rooms, Refusal::RunInvalid);
        }
        // An iterator gives the refusal once, and nothing after it.
        let mut diagrams = damaged.clone().into_iter();
        assert_eq!((diagrams.next(), diagrams.next(), diagrams.run()), (Some(Err(Refusal::RunInvalid)), None, &damaged), "{name}");
    }
}

#[test]
fn visits_of_fresh_and_finished_runs() {
    for (bound, visits) in (1..).zip(VISITS) {
        for (stage, own) in [(0, 0), (2, visits)] {
            let run = |visits| UptoRun { bound, stage, length: 0, items: [0; 51], visits };
            assert!(step(&mut run(own), [60, 60, 60]).0.is_ok());
            for other in [0, 1, own.wrapping_sub(1), own + 1, visits, own + (1 << 32), u64::MAX] {
                if other != own {
                    assert_refused(&run(other), [0, 0, 0], Refusal::RunInvalid);
                }
            }
            assert_refused(&UptoRun { length: 1, ..run(own) }, [60, 60, 60], Refusal::RunInvalid);
            assert_refused(&UptoRun { items: [1; 51], ..run(own) }, [60, 60, 60], Refusal::RunInvalid);
        }
    }
}

/// A run of zeros has no bound.
#[test]
fn a_blank_run() {
    assert_refused(&UptoRun { bound: 0, stage: 0, length: 0, items: [0; 51], visits: 0 }, [60, 60, 60], Refusal::RunInvalid);
}

/// The first diagrams and the end of the largest bound, with the visits of all its 937,289,979,036,221 diagrams.
#[test]
fn the_largest_bound() {
    let first = UptoRun::begin(50).unwrap().into_iter().take(20_000).collect::<Result<Vec<_>, _>>().unwrap();
    let largest = first.iter().map(|listed| listed.size).max();
    assert_eq!((first.len(), largest, first[0].visits), (20_000, Some(50), 1));
    // T J1 B is the last word.
    let mut run = UptoRun { bound: 50, stage: 1, length: 3, items: [0; 51], visits: 813_900_822_725_207 };
    run.items[..3].copy_from_slice(&[1, 4, 2]);
    assert_eq!((step(&mut run, [0, 0, 0]).0, run.stage, run.visits), (Ok(None), 2, 813_900_822_725_207));
}

#[test]
fn a_plain_run_as_an_iterator() {
    let mut diagrams = Run::begin(4).unwrap().into_iter();
    for position in 1..=8 {
        let Listed { s0, s1, word } = diagrams.next().unwrap().unwrap();
        let (mut t0, mut t1, mut written) = ([0; 4], [0; 4], [0; 5]);
        let length = diagram_at(4, position, &mut t0, &mut t1, &mut written).unwrap();
        assert_eq!((&s0[..], &s1[..], &word[..]), (&t0[..], &t1[..], &written[..length]));
        assert_eq!(diagrams.run(), &Run::begin_at(4, position).unwrap());
    }
    assert_eq!((diagrams.next(), diagrams.next(), diagrams.run().stage), (None, None, 2));
    // From any place, and for every listed size without a list of the caller's.
    assert_eq!(Run::begin_at(4, 6).unwrap().into_iter().count(), 2);
    let last = Run::begin_at(50, count(50).unwrap() - 1).unwrap().into_iter().collect::<Result<Vec<_>, _>>().unwrap();
    assert_eq!((last.len(), last[0].s0.len()), (1, 50));
    // A refused step is the last item.
    let invalid = Run { size: 4, stage: 3, length: 0, items: [0; 51] };
    assert_eq!(invalid.into_iter().collect::<Vec<_>>(), [Err(Refusal::RunInvalid)]);
}
