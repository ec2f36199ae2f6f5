//! The turn-giver against a second reading of document 02: a list of readers in the order in which they come next, the one served last at its
//! end, and a set of those that want. Random lists of calls, lies included; wild states; and the promise that no wait is longer than sixteen
//! turns.
use std::collections::{BTreeSet, VecDeque};
use terrain::{raw, Call, Turns, READERS};
use terrain_tests::random::Random;
use terrain_tests::{refusal, UNSET};

/// The readers in the order in which the next turn looks at them, and those that want.
struct Queue {
    order: VecDeque<usize>,
    wanting: BTreeSet<usize>,
}

impl Queue {
    fn new() -> Self {
        Queue { order: (0..READERS).collect(), wanting: BTreeSet::new() }
    }

    /// The first that wants, and the order turned until it stands last.
    fn turn(&mut self) -> Option<usize> {
        let place = self.order.iter().position(|n| self.wanting.contains(n))?;
        self.order.rotate_left(place + 1);
        self.order.back().copied()
    }

    /// The four numbers: kind, marks, the one served last, 0.
    fn numbers(&self) -> [u64; 4] {
        let marks = self.wanting.iter().map(|n| 1 << n).sum();
        [3, marks, *self.order.back().expect("sixteen") as u64, 0]
    }
}

#[test]
fn random_lists() {
    for seed in 0..300 {
        let (mut random, mut turns, mut queue) = (Random::new(seed), Turns::new(), Queue::new());
        let often = random.below(5);
        for _ in 0..400 {
            let reader = if random.below(20) == 0 { random.bits() as usize } else { random.below(READERS + 1) };
            match random.below(3 + often) {
                0 if reader < READERS => {
                    assert_eq!(turns.mark(reader), Ok(()));
                    queue.wanting.insert(reader);
                }
                1 if reader < READERS => {
                    assert_eq!(turns.clear(reader), Ok(()));
                    queue.wanting.remove(&reader);
                }
                0 => assert_eq!(turns.mark(reader), refusal(Call::Mark, 21)),
                1 => assert_eq!(turns.clear(reader), refusal(Call::Clear, 21)),
                _ => assert_eq!(turns.give(), Ok(queue.turn())),
            }
            assert_eq!(turns.state(), queue.numbers());
        }
    }
}

/// Every set of marks with every reader served last: 2^20 turns.
#[test]
fn every_state() {
    for last in 0..READERS {
        let mut queue = Queue::new();
        queue.order.rotate_left(last + 1);
        for marks in 0..1_u64 << READERS {
            queue.wanting = (0..READERS).filter(|n| marks >> n & 1 == 1).collect();
            let mut turns = Turns::resume([3, marks, last as u64, 0]);
            let mut order = queue.order.clone();
            assert_eq!(turns.give(), Ok(queue.turn()));
            assert_eq!(turns.state(), queue.numbers());
            std::mem::swap(&mut queue.order, &mut order);
        }
    }
}

/// A reader that stays marked is served within sixteen turns, and sixteen it can be.
#[test]
fn within_sixteen() {
    let mut longest = 0;
    for seed in 0..200 {
        let (mut random, mut turns, mut waits) = (Random::new(1_000 + seed), Turns::new(), [None; READERS]);
        let dense = random.below(4);
        for _ in 0..2_000 {
            let reader = random.below(READERS);
            if random.below(4) <= dense {
                turns.mark(reader).expect("a reader");
                waits[reader].get_or_insert(0);
            } else if random.below(3) == 0 {
                turns.clear(reader).expect("a reader");
                waits[reader] = None;
            }
            if random.below(2) == 0 {
                let served = turns.give().expect("a turn-giver");
                assert_eq!(served.is_none(), waits.iter().all(Option::is_none));
                waits.iter_mut().flatten().for_each(|wait| *wait += 1);
                if let Some(n) = served {
                    longest = longest.max(waits[n].expect("it is marked"));
                    waits[n] = Some(0);
                }
                assert!(waits.iter().flatten().all(|wait| *wait < 16));
            }
        }
    }
    assert_eq!(longest, 16);
}

/// Numbers that are no turn-giver: 1, and nothing is changed, whatever the reader's number.
#[test]
fn wild_states() {
    let mut random = Random::new(7);
    let edges = |random: &mut Random, bound: u64| match random.below(4) {
        0 => random.bits(),
        1 => bound + random.below(3) as u64,
        _ => random.bits() % (bound + 1),
    };
    let (mut passed, mut turned_away) = (0, 0);
    for _ in 0..200_000 {
        let kind = if random.below(3) == 0 { random.below(5) as u64 } else { 3 };
        let wild = [kind, edges(&mut random, 65_535), edges(&mut random, 15), if random.below(3) == 0 { random.bits() % 3 } else { 0 }];
        let good = wild[0] == 3 && wild[1] <= 65_535 && wild[2] <= 15 && wild[3] == 0;
        let reader = edges(&mut random, 15) as usize;
        let change = |question: u32| if !good { 1 } else { question };
        for call in [raw::turns_mark, raw::turns_clear] {
            let mut turns = wild;
            let answer = call(&mut turns, reader);
            assert_eq!(answer, change(if reader < READERS { 0 } else { 21 }));
            assert!(answer == 0 || turns == wild, "a call turned away has changed the state");
            assert_eq!((turns[0], turns[2], turns[3]), (wild[0], wild[2], wild[3]));
        }
        let (mut turns, mut served) = (wild, UNSET);
        let answer = raw::turns_give(&mut turns, &mut served);
        assert_eq!(answer, change(0));
        if answer == 0 {
            assert_eq!(turns[1], wild[1], "a turn clears no mark");
            assert_eq!(turns[2], if served == READERS { wild[2] } else { served as u64 });
            passed += 1;
        } else {
            assert_eq!((turns, served), (wild, UNSET));
            turned_away += 1;
        }
    }
    assert!(passed > 10_000 && turned_away > 10_000);
}
