//! The line calls against the reference: from one area to another, and in place in halves.
use terrain::{Call::Line, Question};
use terrain_tests::areas::{lengths, lines, unset, Guarded};
use terrain_tests::{test_exports, reference, refusal};

type Call = fn(&[i32], &mut [i32]) -> Result<(), Question>;

/// Lines that start at coordinate 0; those that start elsewhere have their tests in grid.rs.
fn line_forward(line: &[i32], out: &mut [i32]) -> Result<(), Question> {
    terrain::line_forward(line, 0, out)
}

fn line_backward(coefficients: &[i32], out: &mut [i32]) -> Result<(), Question> {
    terrain::line_backward(coefficients, 0, out)
}

/// What the call leaves at the front of `out`.
type Gives = fn(&[i32]) -> Vec<i32>;

fn coefficients(line: &[i32]) -> Vec<i32> {
    reference::in_halves(&reference::forward(line))
}

fn samples(coefficients: &[i32]) -> Vec<i32> {
    reference::backward(&reference::interleaved(coefficients))
}

const CALLS: [(Call, Gives); 2] = [(line_forward, coefficients), (line_backward, samples)];

#[test]
fn the_samples_of_the_scope() {
    for (samples, values) in [(&[1, 4, 2, 7, 3][..], &[3, 4, 6, 3, 5][..]), (&[2, 0], &[1, -2]), (&[5, 0], &[3, -5]), (&[9], &[9])] {
        let mut out = vec![0; samples.len()];
        assert_eq!(line_forward(samples, &mut out), Ok(()));
        assert_eq!(out, values);
        assert_eq!(line_backward(values, &mut out), Ok(()));
        assert_eq!(out, samples);
    }
}

#[test]
fn an_area_of_the_line_s_length_or_longer_gets_the_reference_s_values() {
    for n in lengths() {
        for lent in lines(n) {
            for (call, gives) in CALLS {
                for surplus in [0, 1, 9] {
                    let source = Guarded::new(&lent);
                    let mut out = Guarded::unset(n + surplus);
                    assert_eq!(call(source.content(), out.lent()), Ok(()));
                    assert_eq!(out.content()[..n], gives(&lent), "{n} numbers");
                    assert!((n..n + surplus).all(|i| out.content()[i] == unset(i)), "the surplus is touched");
                    assert_eq!(source.content(), lent, "the line is changed");
                }
            }
        }
    }
}

#[test]
fn an_area_too_short_gives_5_and_stays() {
    for n in 1..=70 {
        for short in 0..n {
            for (call, _) in CALLS {
                let mut out = Guarded::unset(short);
                assert_eq!(call(&vec![i32::MAX; n], out.lent()), refusal(Line, 5));
                assert_eq!(out.content(), Guarded::unset(short).content());
            }
        }
    }
    for (call, _) in CALLS {
        let mut out = Guarded::unset(4_999);
        assert_eq!(call(&[7; 5_000], out.lent()), refusal(Line, 5));
        assert_eq!(out.content(), Guarded::unset(4_999).content());
    }
}

#[test]
fn an_empty_line_passes_and_changes_nothing() {
    for (call, _) in CALLS {
        for len in [0, 1, 5] {
            let mut out = Guarded::unset(len);
            assert_eq!(call(&[], out.lent()), Ok(()));
            assert_eq!(out.content(), Guarded::unset(len).content());
        }
    }
}

#[test]
fn there_and_back_gives_the_line_and_back_and_there_the_coefficients() {
    for n in lengths() {
        for lent in lines(n) {
            let (mut between, mut again) = (vec![0; n], vec![0; n]);
            assert_eq!(line_forward(&lent, &mut between), Ok(()));
            assert_eq!(line_backward(&between, &mut again), Ok(()));
            assert_eq!(again, lent);
            assert_eq!(line_backward(&lent, &mut between), Ok(()));
            assert_eq!(line_forward(&between, &mut again), Ok(()));
            assert_eq!(again, lent);
        }
    }
}

#[test]
fn a_line_of_heights_at_most_doubles() {
    for n in lengths() {
        for lent in lines(n).into_iter().filter(|l| l.iter().all(|v| (0..=65_535).contains(v))) {
            let mut out = vec![0; n];
            assert_eq!(line_forward(&lent, &mut out), Ok(()));
            assert!(out.iter().all(|v| v.unsigned_abs() <= 2 * 65_535));
        }
    }
}

#[test]
fn in_place_a_line_in_halves_gets_the_reference_s_values() {
    for n in lengths() {
        for lent in lines(n) {
            let mut area = Guarded::new(&reference::in_halves(&lent));
            test_exports::lift(area.lent(), 0);
            assert_eq!(area.content(), coefficients(&lent));
            assert_eq!(test_exports::unlift(area.lent(), 0), 0);
            assert_eq!(area.content(), reference::in_halves(&lent));
            let mut area = Guarded::new(&lent);
            assert_eq!(test_exports::unlift(area.lent(), 0), 0);
            assert_eq!(area.content(), reference::in_halves(&samples(&lent)));
        }
    }
}
