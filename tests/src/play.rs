//! A reader beside what it must answer, over one plane, a map's or not: every call is held to the second transform (`maps`) and to the steps
//! that documents 01 and 02 tell (`order`).
use crate::areas::Guarded;
use crate::maps::{self, Rebuilt, MAX_HEIGHT};
use crate::order::{self, BandRow, Step, Turn};
use crate::random::Random;
use crate::reader::{self, Want};
use crate::{filter, tolerant};
use terrain::raw::State;
use terrain::Shape;

/// Numbers lent beyond what a line store needs.
pub const SURPLUS: usize = 5;

/// Where docs/STATE.md has the flag of a reader that 14 ended.
pub const ENDED: usize = 7;

/// The number that says whether it limits what it rebuilds.
pub const ADMISSION: usize = 14;

/// And the height and the number of rows drawn.
pub const HEIGHT: usize = 2;
pub const DRAWN: usize = 4;

/// A reader beside what it must answer, over one plane, a map's or not.
pub struct Play<'a> {
    pub shape: Shape,
    /// the level at which it stops; 0: none
    pub stop: usize,
    /// whether it limits what it rebuilds, and never asks 14
    pub tolerant: bool,
    pub plane: &'a [i32],
    /// what the plane makes of each level over 32-bit words
    pub grids: Vec<Rebuilt>,
    /// the rows that it hands out, before they are limited
    pub rows: Vec<Vec<i32>>,
    pub turns: Vec<Turn>,
    pub at: usize,
    pub ended: bool,
    /// rows that the state says were drawn before the map's own, in rows of the map
    skipped: usize,
    /// what was drawn
    pub drawn: Vec<u16>,
    pub state: State,
    pub store: Guarded,
}

impl<'a> Play<'a> {
    pub fn new(plane: &'a [i32], shape: Shape) -> Self {
        Play::to(plane, shape, 0)
    }

    /// One that stops at a level.
    pub fn to(plane: &'a [i32], shape: Shape, stop: usize) -> Self {
        let (state, store) = begun(shape, |state, store| match stop {
            0 => reader::set_up(state, shape, store),
            _ => reader::set_up_at(state, shape, stop, store),
        });
        let (grids, turns) = (maps::rebuilt(plane, shape), order::steps_to(shape, stop));
        let rows = if stop < shape.levels { grids[stop].rows.clone() } else { maps::corner(plane, shape, stop) };
        let tolerant = false;
        Play { shape, stop, tolerant, plane, grids, rows, turns, at: 0, ended: false, skipped: 0, drawn: Vec::new(), state, store }
    }

    /// A tolerant one, over a plane whose numbers are in their levels' ranges or not.
    pub fn tolerant(plane: &'a [i32], shape: Shape) -> Self {
        let (state, store) = begun(shape, |state, store| reader::tolerant_set_up(state, shape, store));
        let (rows, turns) = (tolerant::rebuilt(plane, shape).swap_remove(0), order::steps(shape));
        let (stop, tolerant, grids) = (0, true, Vec::new());
        Play { shape, stop, tolerant, plane, grids, rows, turns, at: 0, ended: false, skipped: 0, drawn: Vec::new(), state, store }
    }

    /// How many heights a row has that is drawn.
    pub fn width(&self) -> usize {
        maps::across(self.shape).at(self.stop).length
    }

    pub fn step(&self) -> Option<Step> {
        self.turns.get(self.at).map(|t| t.step)
    }

    pub fn row(&self, r: BandRow) -> Vec<i32> {
        self.plane[order::place(self.shape, r)].to_vec()
    }

    /// Question 14 of the next step: whether all rows fit that its call makes.
    pub fn fits(&self) -> bool {
        self.tolerant || self.turns[self.at].made.iter().all(|m| {
            let grid = &self.grids[m.level];
            let fits = grid.rows[m.first..m.end].iter().flatten().all(|&v| maps::fits(self.shape, m.level, v));
            fits && grid.even[m.own.clone()].iter().all(|&even| even)
        })
    }

    pub fn want(&self) {
        let wanted = match self.step() {
            _ if self.ended => Want::Ended,
            Some(Step::Feed(r)) => Want::Row(BandRow { row: r.row + (self.skipped >> r.level), ..r }),
            Some(Step::Draw(_)) => Want::Draw,
            None => Want::Done,
        };
        assert_eq!(reader::want(&self.state), Ok(wanted), "{:?} at step {}", self.shape, self.at);
    }

    /// Makes a call that must be answered by `answer`: the surplus stays, and where it is turned away the whole store; but 14 zeroes the
    /// needed part and ends the reader.
    pub fn call<T: PartialEq + std::fmt::Debug>(&mut self, answer: Result<T, u32>, run: impl FnOnce(&mut State, &mut [i32]) -> Result<T, u32>) {
        let mut state = self.state;
        let before = if answer.is_err() { self.store.content().to_vec() } else { Vec::new() };
        assert_eq!(run(&mut self.state, self.store.lent()), answer, "{:?} at step {}", self.shape, self.at);
        let needed = self.store.content().len() - SURPLUS;
        assert!(self.store.is_unset_from(needed), "the surplus of the store is touched");
        if answer == Err(14) {
            self.ended = true;
            state[ENDED] = 1;
            assert_eq!(self.state, state, "14 ends the reader, and its other numbers stay");
            assert!(self.store.content()[..needed].iter().all(|&v| v == 0), "14 zeroes the needed part");
        } else {
            assert!(answer.is_ok() || self.store.content() == before, "a refusal changes nothing");
        }
    }

    pub fn feed(&mut self, run: &[i32]) -> Result<(), u32> {
        let answer = match self.step() {
            _ if self.ended => Err(9),
            Some(Step::Feed(r)) if run.len() != r.length => Err(13),
            Some(Step::Feed(r)) if run.iter().any(|&v| i64::from(v).abs() > maps::range(self.shape, r.level)) => Err(7),
            Some(Step::Feed(_)) if !self.fits() => Err(14),
            Some(Step::Feed(_)) => Ok(()),
            _ => Err(8),
        };
        self.call(answer, |state, store| reader::feed(state, store, run));
        self.at += usize::from(answer.is_ok());
        answer
    }

    pub fn draw(&mut self, room: usize) -> Result<usize, u32> {
        let width = self.width();
        let answer = match self.step() {
            _ if self.ended => Err(9),
            Some(Step::Draw(_)) if room < width => Err(12),
            Some(Step::Draw(_)) if !self.fits() => Err(14),
            Some(Step::Draw(_)) => Ok(width),
            _ => Ok(0),
        };
        let mut out = Guarded::<u16>::unset(room);
        self.call(answer, |state, store| reader::draw(state, store, out.lent()));
        if let (Ok(1..), Some(Step::Draw(row))) = (answer, self.step()) {
            // a height fits; what a stop hands out is "limited to 0 to 65,535"
            let limited = |&v: &i32| u16::try_from(if self.stop > 0 { v.clamp(0, 65_535) } else { v }).unwrap();
            let expected: Vec<u16> = self.rows[row].iter().map(limited).collect();
            assert_eq!(out.content()[..width], expected, "{:?} to {}: row {row}", self.shape, self.stop);
            self.drawn.extend(expected);
            self.at += 1;
        }
        assert!(out.is_unset_from(answer.unwrap_or(0)), "the surplus of the output area is touched");
        answer
    }

    /// Calls at a wrong moment, of a wrong length, with an area too short or with a number out of range.
    pub fn wrongly(&mut self, random: &mut Random) {
        let short = self.store.content().len() - SURPLUS - 1;
        match random.below(6) {
            0 => {
                let mut out = Guarded::<u16>::unset(self.width());
                self.call(Err(5), |state, store| reader::feed(state, &mut store[..short], &[1]));
                self.call(Err(5), |state, store| reader::draw(state, &mut store[..short], out.lent()));
                assert!(out.is_unset_from(0));
            }
            1 if !matches!(self.step(), Some(Step::Draw(_))) => {
                let _ = self.draw(self.width() + random.below(3));
            }
            1 | 2 => {
                // of an LL that is empty none is drawn
                let _ = self.draw(random.below(self.width().max(1)));
            }
            3 => match self.step() {
                Some(Step::Feed(r)) if !self.ended => {
                    for len in [0, r.length - 1, r.length + 1, self.shape.width + 7] {
                        if len != r.length {
                            assert_eq!(self.feed(&vec![0; len]), Err(13));
                        }
                    }
                }
                _ => {
                    let _ = self.feed(&vec![0; random.below(4)]);
                }
            },
            4 => {
                if let (Some(Step::Feed(r)), false) = (self.step(), self.ended) {
                    let mut run = vec![0; r.length];
                    let reach = maps::range(self.shape, r.level) as i32;
                    run[random.below(r.length)] = [reach + 1, -reach - 1, i32::MIN, i32::MAX][random.below(4)];
                    assert_eq!(self.feed(&run), Err(7));
                }
            }
            _ => self.want(),
        }
    }

    /// Feeds and draws as wanted until Done or until a question says no: its number, or 0.
    pub fn run(&mut self, random: &mut Random) -> u32 {
        loop {
            self.want();
            if random.below(4) == 0 {
                self.wrongly(random);
                self.want();
            }
            let answer = match self.step() {
                Some(Step::Feed(r)) => self.feed(&self.row(r)),
                Some(Step::Draw(_)) => self.draw(self.width() + [0, 0, 3][random.below(3)]).map(|_| ()),
                None => break,
            };
            if let Err(number) = answer {
                for _ in 0..4 {
                    self.wrongly(random);
                }
                self.want();
                return number;
            }
        }
        for _ in 0..4 {
            self.wrongly(random);
        }
        self.want();
        0
    }

    /// The same reader a few rows below the limit: it goes on to the middle of the map, and its state is told that the map is the longest there is
    /// and that as many more rows are drawn. What it answers then is what it answers without, but for the row numbers.
    pub fn near_the_limit(mut self) -> Self {
        let period = (filter::of(self.shape).rows << self.shape.levels) as u64;
        while self.state[DRAWN] < period >> self.stop {
            match self.step() {
                Some(Step::Feed(r)) => assert_eq!(self.feed(&self.row(r)), Ok(())),
                _ => assert_eq!(self.draw(self.width()), Ok(self.width())),
            }
        }
        self.skipped = MAX_HEIGHT - self.shape.height;
        assert_eq!(self.skipped as u64 % period, 0);
        // a stop's state has the rows of its level
        self.state[HEIGHT] += (self.skipped >> self.stop) as u64;
        self.state[DRAWN] += (self.skipped >> self.stop) as u64;
        self
    }
}

/// State and store after a set-up that must pass: it zeroes the needed part.
fn begun(shape: Shape, set_up: impl FnOnce(&mut State, &mut [i32]) -> Result<(), u32>) -> (State, Guarded) {
    let needed = order::store_length(shape);
    let (mut state, mut store) = ([u64::MAX; 16], Guarded::unset(needed + SURPLUS));
    assert_eq!(set_up(&mut state, store.lent()), Ok(()), "{shape:?}");
    assert!(store.content()[..needed].iter().all(|&v| v == 0), "set-up zeroes the needed part");
    (state, store)
}

/// A plane with one to three numbers changed: to the ends of their range, past them, a little, or to anything.
pub fn damaged(s: Shape, random: &mut Random) -> Vec<i32> {
    let all = maps::maps(s.width, s.height);
    let mut plane = maps::forward(&all[random.below(all.len())], s);
    for _ in 0..1 + random.below(3) {
        let i = random.below(plane.len());
        let reach = maps::range(s, maps::level_at(s, i)) as i32;
        plane[i] = match random.below(8) {
            0 => reach,
            1 => -reach,
            2 => reach + 1,
            3 => random.word(),
            4 => plane[i].wrapping_add(1),
            5 => plane[i].wrapping_sub(1),
            _ => plane[i].wrapping_add(random.below(9) as i32 - 4),
        };
    }
    plane
}
