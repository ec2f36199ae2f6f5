//! The writer against the independent transform and the independent order, by each filter.
use std::sync::{Condvar, Mutex};
use terrain::raw::{self, State};
use terrain::{reader_store_length, store_length, Band, OwnedWriter, Shape, Writer};
use terrain_tests::areas::Guarded;
use terrain_tests::filter::{self, FILTERS, NINE_SEVEN};
use terrain_tests::maps::{self, MAX_HEIGHT, MAX_LEVELS, MAX_WIDTH};
use terrain_tests::order::{self, BandRow};
use terrain_tests::random::Random;
use terrain_tests::writer;

/// Numbers lent beyond what a line store needs.
const SURPLUS: usize = 5;

/// Where docs/STATE.md has the number of rows taken.
const ROWS: usize = 3;

/// A writer beside what it must answer, over the heights of one map.
struct Play<'a> {
    shape: Shape,
    heights: &'a [u16],
    plane: Vec<i32>,
    state: State,
    store: Guarded,
    model: order::Writer,
    taken: usize,
    drawn: usize,
    /// rows that the state says were taken before the map's own
    skipped: usize,
}

impl<'a> Play<'a> {
    fn new(heights: &'a [u16], shape: Shape) -> Self {
        let plane = maps::forward(heights, shape);
        let needed = order::writer_store_length(shape);
        let mut store = Guarded::unset(needed + SURPLUS);
        let mut state = [u64::MAX; 16];
        assert_eq!(writer::set_up(&mut state, shape, store.lent()), Ok(()), "{shape:?}");
        assert!(store.content()[..needed].iter().all(|&v| v == 0), "set-up zeroes the needed part");
        let model = order::Writer::new(shape);
        Play { shape, heights, plane, state, store, model, taken: 0, drawn: 0, skipped: 0 }
    }

    /// Makes a call that must be answered by `answer`: the surplus stays, and where it is turned away the whole store.
    fn call<T: PartialEq + std::fmt::Debug>(&mut self, answer: Result<T, u32>, run: impl FnOnce(&mut State, &mut [i32]) -> Result<T, u32>) {
        let before = if answer.is_err() { self.store.content().to_vec() } else { Vec::new() };
        assert_eq!(run(&mut self.state, self.store.lent()), answer, "{:?} after {} heights and {} rows", self.shape, self.taken, self.drawn);
        assert!(self.store.is_unset_from(self.store.content().len() - SURPLUS), "the surplus of the store is touched");
        assert!(answer.is_ok() || self.store.content() == before, "a refusal changes nothing");
    }

    /// Offers the next heights of the map, at most `run`.
    fn offer(&mut self, run: usize) {
        let end = self.heights.len().min(self.taken + run);
        let offered = &self.heights[self.taken..end];
        let levels = order::store_length(self.shape);
        let before = self.model.waits().map(|_| self.store.content()[..levels].to_vec());
        let answer = self.model.offer(offered.len());
        self.call(answer, |state, store| writer::offer(state, store, offered));
        assert!(before.is_none_or(|levels_before| self.store.content()[..levels] == levels_before), "with rows waiting the levels' stretches stay");
        self.taken += answer.unwrap_or(0);
    }

    fn draw(&mut self, room: usize) {
        let answer = self.model.draw(room);
        let mut out = Guarded::unset(room);
        let row = answer.ok().flatten();
        let later = answer.map(|r| r.map(|r| BandRow { row: r.row + (self.skipped >> r.level), ..r }));
        self.call(later, |state, store| writer::draw(state, store, out.lent()));
        if let Some(r) = row {
            let place = order::place(self.shape, r);
            assert_eq!(out.content()[..r.length], self.plane[place], "{:?} {r:?}", self.shape);
            self.drawn += 1;
        }
        assert!(out.is_unset_from(row.map_or(0, |r| r.length)), "the surplus of the output area is touched");
    }

    fn finish(&mut self) {
        let answer = self.model.finish();
        self.call(answer, writer::finish);
    }

    /// Each call on a store that is one too short.
    fn lend_too_little(&mut self) {
        let short = order::writer_store_length(self.shape) - 1;
        let mut out = Guarded::unset(self.shape.width);
        self.call(Err(5), |state, store| writer::offer(state, &mut store[..short], &[1]));
        self.call(Err(5), |state, store| writer::draw(state, &mut store[..short], out.lent()));
        self.call(Err(5), |state, store| writer::finish(state, &mut store[..short]));
        assert!(out.is_unset_from(0));
    }

    fn out_of_order(&mut self, random: &mut Random) {
        match random.below(5) {
            0 => self.offer([random.below(3), random.below(2 * self.shape.width + 2)][random.below(2)]),
            1 => self.draw(random.below(1 + self.shape.width)),
            2 => self.lend_too_little(),
            // a finish that passes would end the map before its last row
            _ if self.taken == self.heights.len() || self.model.begun() > 0 || self.model.rows() == 0 => self.finish(),
            _ => {}
        }
    }

    /// The whole map, cut at random, every so often a call out of order.
    fn run(&mut self, random: &mut Random, most: usize) {
        self.run_ahead(random, most, 0);
    }

    /// The same, with `often` of four calls that find rows waiting an offer.
    fn run_ahead(&mut self, random: &mut Random, most: usize, often: usize) {
        loop {
            if random.below(6) == 0 {
                self.out_of_order(random);
            }
            if self.model.waits().is_some() && random.below(4) < often {
                self.offer([1, random.below(self.shape.width + 1), self.shape.width, most][random.below(4)]);
            } else if let Some(r) = self.model.waits() {
                self.draw(r.length + [0, 0, 1, 40][random.below(4)]);
            } else if self.taken < self.heights.len() {
                let row = self.shape.width;
                self.offer([0, 1, 1 + random.below(5), row, row * (1 + random.below(4)), most][random.below(6)]);
            } else if !self.model.finished() {
                self.finish();
            } else {
                break;
            }
        }
        self.after();
    }

    /// After the last row: Nothing however short the area, and 9.
    fn after(&mut self) {
        self.draw(0);
        self.draw(self.shape.width);
        self.offer(0);
        self.finish();
        let rows: usize = order::steps(self.shape).iter().filter(|t| matches!(t.step, order::Step::Feed(_))).count();
        assert_eq!(self.drawn, rows, "{:?}: every band row is drawn", self.shape);
    }
}

#[test]
fn every_small_size_at_every_origin() {
    let mut random = Random::new(11);
    for width in 1..=9 {
        for height in 1..=9 {
            for (number, levels) in filter::kinds() {
                for heights in maps::maps(width, height) {
                    for (x, y) in maps::origins() {
                        Play::new(&heights, Shape::new(width, height, levels).at(x, y).by(number)).run(&mut random, 9);
                    }
                }
            }
        }
    }
}

#[test]
fn larger_and_odd_sizes() {
    let mut random = Random::new(12);
    let mut shapes: Vec<(usize, usize)> = (0..100).map(|_| (1 + random.below(130), 1 + random.below(70))).collect();
    shapes.extend((0..24).map(|_| (1 + random.below(MAX_WIDTH), 1 + random.below(12))));
    shapes.extend([(1, 333), (2, 200), (3, 1_001), (333, 1), (2_049, 1), (2_049, 2), (2_049, 9), (2_048, 6), (2_047, 5), (1_025, 34)]);
    for (width, height) in shapes {
        for (number, levels) in filter::few_kinds(&mut random) {
            let mut all = maps::maps(width, height);
            let heights = all.swap_remove(random.below(all.len()));
            let (x, y) = maps::origin(&mut random);
            Play::new(&heights, Shape::new(width, height, levels).at(x, y).by(number)).run(&mut random, 3 * width);
        }
    }
}

/// Offers while band rows wait, most of the time and now and then.
#[test]
fn offers_while_rows_wait() {
    let mut random = Random::new(15);
    for width in 1..=9 {
        for height in 1..=9 {
            for (number, levels) in filter::kinds() {
                for heights in maps::maps(width, height) {
                    for (x, y) in maps::origins() {
                        let often = 1 + random.below(3);
                        Play::new(&heights, Shape::new(width, height, levels).at(x, y).by(number)).run_ahead(&mut random, 2 * width + 1, often);
                    }
                }
            }
        }
    }
    for _ in 0..60 {
        let (width, height) = [(1 + random.below(130), 1 + random.below(70)), (1 + random.below(MAX_WIDTH), 1 + random.below(12))][random.below(2)];
        for (number, levels) in filter::few_kinds(&mut random) {
            let mut all = maps::maps(width, height);
            let heights = all.swap_remove(random.below(all.len()));
            let (x, y) = maps::origin(&mut random);
            Play::new(&heights, Shape::new(width, height, levels).at(x, y).by(number)).run_ahead(&mut random, 3 * width, 2);
        }
    }
}

/// A writer with nothing between the test and the library, and what it has handed out.
struct Plain {
    writer: OwnedWriter,
    drawn: Vec<(BandRow, Vec<i32>)>,
}

impl Plain {
    fn new(s: Shape) -> Self {
        Plain { writer: OwnedWriter::new(s).unwrap(), drawn: Vec::new() }
    }

    fn waits(&mut self) -> bool {
        self.writer.with(|w| w.waits()).unwrap().is_some()
    }

    /// Whether a row was drawn.
    fn draw(&mut self) -> bool {
        let Some((r, values)) = self.writer.draw().unwrap() else { return false };
        self.drawn.push((BandRow { level: r.level, band: r.band as usize, row: r.row, length: r.length }, values.to_vec()));
        true
    }
}

/// 02: "What is drawn must be what it would have been had those heights come after the draws." Two lists, by answers and values alone: the other one
/// leaves out the offers that found rows waiting, and after each draw that empties the wait stands one offer of the heights held, which takes
/// them all. Every draw and every finish answers alike.
#[test]
fn what_is_drawn_is_that_of_the_list_with_those_heights_after_the_draws() {
    let mut random = Random::new(16);
    let (mut draws, mut moved) = (0, 0);
    for _ in 0..3_000 {
        let ((x, y), (number, levels)) = (maps::origin(&mut random), filter::kind(&mut random));
        let s = Shape::new(1 + random.below(9), 1, levels).at(x, y).by(number);
        let (mut one, mut other) = (Plain::new(s), Plain::new(s));
        let mut held: Vec<u16> = Vec::new();
        for _ in 0..80 {
            let waits = one.waits();
            assert_eq!(waits, other.waits(), "{s:?}");
            match random.below(if waits { 8 } else { 40 }) {
                0 | 1 => {
                    draws += usize::from(waits);
                    assert_eq!((one.draw(), other.draw()), (waits, waits));
                    assert_eq!(one.drawn.last(), other.drawn.last(), "{s:?}");
                    if waits && !other.waits() && !held.is_empty() {
                        assert_eq!(other.writer.offer(&held), Ok(held.len()), "{s:?}");
                        moved += held.len();
                        held.clear();
                    }
                }
                2 => assert_eq!(one.writer.finish(), other.writer.finish(), "{s:?}"),
                _ => {
                    let run: Vec<u16> = (0..random.below(2 * s.width + 2)).map(|_| random.bits() as u16).collect();
                    let taken = one.writer.offer(&run);
                    if !waits {
                        assert_eq!(taken, other.writer.offer(&run), "{s:?}");
                    } else if let Ok(taken) = taken {
                        held.extend_from_slice(&run[..taken]);
                        assert_eq!(taken, run.len().min(s.width - (held.len() - taken)), "{s:?}");
                    }
                }
            }
        }
    }
    assert!(draws > 10_000 && moved > 10_000, "{draws} draws, {moved} heights moved on");
}

/// One thread offers and one draws, under one lock: an editor that paints while the disk is slow.
#[test]
fn two_threads_under_one_lock() {
    let mut random = Random::new(17);
    for _ in 0..40 {
        let ((x, y), (number, levels)) = (maps::origin(&mut random), filter::kind(&mut random));
        let s = Shape::new(1 + random.below(60), 1 + random.below(60), levels).at(x, y).by(number);
        let heights: Vec<u16> = (0..s.width * s.height).map(|_| random.bits() as u16).collect();
        let shared = (Mutex::new((Plain::new(s), false)), Condvar::new());
        std::thread::scope(|threads| {
            threads.spawn(|| {
                let (lock, went_on) = &shared;
                let mut rest = &heights[..];
                let mut open = lock.lock().unwrap();
                while !rest.is_empty() || open.0.writer.finish().is_err() {
                    let taken = if rest.is_empty() { 0 } else { open.0.writer.offer(&rest[..rest.len().min(7)]).unwrap() };
                    rest = &rest[taken..];
                    // 0 taken, or a finish that gives 8: rows wait
                    open = if taken == 0 { went_on.wait_while(open, |open| open.0.waits()).unwrap() } else { open };
                    went_on.notify_one();
                }
                open.1 = true;
                went_on.notify_one();
            });
            threads.spawn(|| {
                let (lock, went_on) = &shared;
                let mut open = lock.lock().unwrap();
                loop {
                    open = went_on.wait_while(open, |open| !open.1 && !open.0.waits()).unwrap();
                    if !open.0.draw() {
                        break;
                    }
                    went_on.notify_one();
                    // the disk: the other thread has the lock meanwhile
                    drop(open);
                    std::thread::yield_now();
                    open = lock.lock().unwrap();
                }
            });
        });
        let (plane, mut drawn) = (maps::forward(&heights, s), shared.0.into_inner().unwrap().0.drawn);
        assert_eq!(drawn.iter().map(|(r, _)| r.length).sum::<usize>(), plane.len(), "{s:?}: every coefficient");
        drawn.retain(|(r, values)| plane[order::place(s, *r)] != values[..]);
        assert_eq!(drawn, [], "{s:?}");
    }
}

/// Rows in which every level's slots and sets come round again.
fn period(number: u32, levels: usize) -> usize {
    FILTERS[number as usize].rows << levels
}

/// Filters, widths and levels to try the row limit at.
fn at_the_limit() -> impl Iterator<Item = (u32, usize, usize)> {
    let kinds = [(1, 1), (1, MAX_LEVELS), (2, 3), (5, 2), (9, MAX_LEVELS)];
    (0..).zip(&FILTERS).flat_map(move |(number, filter)| kinds.map(|(width, levels)| (number, width, levels.min(filter.levels))))
}

/// A writer a few rows below the limit: one in the middle of a map, whose state is told that it has taken many more rows. What it answers
/// then is what it answers without, but for the row numbers, up to the limit.
fn near_the_limit<'a>(heights: &'a [u16], shape: Shape, random: &mut Random) -> Play<'a> {
    let (Shape { width, height, levels, .. }, number) = (shape, shape.filter);
    let mut play = Play::new(heights, shape);
    while play.model.rows() < period(number, levels) || play.model.waits().is_some() {
        if play.model.waits().is_some() {
            play.draw(width);
        } else {
            play.offer(1 + random.below(3 * width));
        }
    }
    play.skipped = MAX_HEIGHT - height;
    assert_eq!(play.skipped % period(number, levels), 0);
    play.state[ROWS] += play.skipped as u64;
    play.model.limit = height;
    play
}

#[test]
fn the_row_limit() {
    let mut random = Random::new(13);
    for (number, width, levels) in at_the_limit() {
        for y in 0..4 {
            the_row_limit_of(Shape::new(width, 3 * period(number, levels) - 1, levels).at(0, y).by(number), &mut random);
        }
    }
}

/// By offers with none waiting and, half the time, with rows waiting.
fn the_row_limit_of(shape: Shape, random: &mut Random) {
    let (width, height) = (shape.width, shape.height);
    let heights: Vec<u16> = (0..width * height + 1).map(|_| random.below(65_536) as u16).collect();
    let mut play = near_the_limit(&heights[..width * height], shape, random);
    // one height more than the map has: the limit stops the offer before it
    play.heights = &heights;
    while play.model.rows() < height || play.model.waits().is_some() {
        if play.model.waits().is_some() && random.below(2) == 0 {
            play.draw(width);
        } else {
            play.offer(random.below(2 * width + 2));
        }
    }
    play.heights = &heights[..width * height];
    assert_eq!((play.taken, play.state[ROWS]), (width * height, MAX_HEIGHT as u64));
    for (run, answer) in [(&[7][..], Err(10)), (&[], Ok(0))] {
        assert_eq!(play.model.offer(run.len()), answer);
        play.call(answer, |state, store| writer::offer(state, store, run));
    }
    play.finish();
    while play.model.waits().is_some() {
        play.draw(width);
    }
    play.after();
}

/// The last row there can be, offered while rows wait: 10 for one height more, 0 taken of none, and the finish must wait.
#[test]
fn the_last_row_offered_while_rows_wait() {
    let s = Shape::new(2, 1, 1).at(0, 1);
    let mut store = vec![0; order::writer_store_length(s)];
    let (mut state, mut out) = ([0; 16], [0; 2]);
    assert_eq!(writer::set_up(&mut state, s, &mut store), Ok(()));
    state[ROWS] = MAX_HEIGHT as u64 - 2;
    assert_eq!(writer::offer(&mut state, &mut store, &[1, 2, 3, 4, 5]), Ok(2), "one row makes rows wait");
    assert_eq!(writer::offer(&mut state, &mut store, &[3, 4, 5]), Ok(2), "the last one is held");
    for _ in 0..2 {
        assert_eq!(writer::offer(&mut state, &mut store, &[5]), Err(10));
        assert_eq!(writer::offer(&mut state, &mut store, &[]), Ok(0));
        assert_eq!(writer::finish(&mut state, &mut store), Err(8));
    }
    while writer::draw(&mut state, &mut store, &mut out).unwrap().is_some() {}
    assert_eq!(state[ROWS], MAX_HEIGHT as u64);
    assert_eq!(writer::offer(&mut state, &mut store, &[5]), Err(10));
    assert_eq!(writer::offer(&mut state, &mut store, &[]), Ok(0));
    assert_eq!(writer::finish(&mut state, &mut store), Ok(()));
}

#[test]
fn past_the_row_limit() {
    let mut random = Random::new(14);
    for number in [0, 1] {
        let heights: Vec<u16> = (0..3 * (3 * period(number, 2) - 1)).map(|i| i as u16).collect();
        let mut play = near_the_limit(&heights, Shape::new(3, heights.len() / 3, 2).by(number), &mut random);
        for (rows, answers) in [(MAX_HEIGHT - 1, [0, 0, 0]), (MAX_HEIGHT, [10, 0, 0]), (MAX_HEIGHT + 1, [1, 1, 1]), (usize::MAX, [1, 1, 1])] {
            play.state[ROWS] = rows as u64;
            play.state[4] = 0;
            let state = play.state;
            let (mut store, mut out) = (play.store.content().to_vec(), [0; 3]);
            let given = [
                writer::offer(&mut state.clone(), &mut store.clone(), &[1, 2, 3]).err().unwrap_or(0),
                writer::draw(&mut state.clone(), &mut store.clone(), &mut out).err().unwrap_or(0),
                writer::finish(&mut state.clone(), &mut store).err().unwrap_or(0),
            ];
            assert_eq!(given, answers, "{rows} rows");
        }
    }
}

#[test]
fn a_run_is_taken_up_to_the_first_row_that_waits() {
    let heights: Vec<u16> = (0..40).map(|i| i * i).collect();
    let mut play = Play::new(&heights, Shape::new(4, 10, 2));
    play.offer(40);
    assert_eq!(play.taken, 12, "the third row makes set 0");
    let mut far = Play::new(&heights, Shape::new(4, 10, 2).by(NINE_SEVEN));
    far.offer(40);
    assert_eq!(far.taken, 20, "by the 9/7 the fifth row does");
    play.offer(0);
    play.finish();
    for _ in 0..3 {
        play.draw(4);
    }
    play.offer(3);
    play.finish();
    assert_eq!(play.taken, 15);
}

/// With rows waiting the spare row takes up to a row, and the offer that makes rows wait does not go on into it.
#[test]
fn the_spare_row_takes_one_row() {
    let heights: Vec<u16> = (0..60).map(|i| i * i).collect();
    let mut play = Play::new(&heights, Shape::new(4, 15, 2));
    for (run, taken) in [(40, 12), (1, 13), (40, 16), (1, 16), (0, 16)] {
        play.offer(run);
        assert_eq!(play.taken, taken);
    }
    play.finish();
    play.draw(4);
    play.draw(4);
    play.offer(7);
    assert_eq!((play.taken, play.model.rows()), (16, 3), "one row still waits");
    play.draw(4);
    assert_eq!((play.taken, play.model.rows()), (16, 4), "the row has gone on, and made nothing");
    play.offer(40);
    assert_eq!((play.taken, play.model.waits().is_some()), (20, true));
    play.offer(40);
    for _ in 0..3 {
        play.draw(4);
    }
    assert_eq!((play.taken, play.model.rows()), (24, 6));
}

/// A state that was kept before writers had a spare row, rows waiting: it goes on, with the longer store that 5 asks for.
#[test]
fn a_state_kept_before_goes_on() {
    let kept = [1, 2, 2, 3, 0, 0, 0, 1, 2, 0, 0, 0, 0, 0, 0, 0];
    let mut store = vec![4, 2, 3, 6, 2, 3, 5, 3, 0, 0, 0, 0];
    let (mut state, mut out) = (kept, [0; 2]);
    assert_eq!(writer::draw(&mut state, &mut store, &mut out), Err(5));
    store.extend([0; 2]);
    assert_eq!(writer::offer(&mut state, &mut store, &[7, 9]), Ok(2));
    for (band, value) in [(order::LH, 5), (order::HH, 3)] {
        let row = BandRow { level: 1, band, row: 0, length: 1 };
        assert_eq!(writer::draw(&mut state, &mut store, &mut out), Ok(Some(row)));
        assert_eq!(out[0], value);
    }
    assert_eq!((state[ROWS], writer::finish(&mut state, &mut store)), (4, Ok(())));
}

/// The band rows of a map, drawn as they come due after each height and after the finish: level, band, number, values.
fn all_drawn(heights: &[u16], s: Shape) -> [Vec<(usize, Band, usize, Vec<i32>)>; 2] {
    let mut store = vec![9; store_length(s)];
    let mut out = vec![0; s.width];
    let mut writer = Writer::new(s, &mut store).unwrap();
    let mut drawn = [vec![], vec![]];
    let mut draw = |writer: &mut Writer, drawn: &mut Vec<_>| {
        while let Some((r, values)) = writer.draw(&mut out).unwrap() {
            drawn.push((r.level, r.band, r.row, values.to_vec()));
        }
    };
    for &height in heights {
        assert_eq!(writer.offer(&[height]), Ok(1));
        draw(&mut writer, &mut drawn[0]);
    }
    assert_eq!(writer.finish(), Ok(()));
    draw(&mut writer, &mut drawn[1]);
    drawn
}

#[test]
fn the_column_of_the_scope() {
    let drawn = all_drawn(&[1, 4, 2, 7], Shape::new(1, 4, 2)).concat();
    let expected = [(1, Band::Lh, 0, 3), (1, Band::Lh, 1, 5), (2, Band::Ll, 0, 4), (2, Band::Lh, 0, 1)];
    assert_eq!(drawn, expected.map(|(level, band, row, value)| (level, band, row, vec![value])));
}

/// Document 02, Q-8: "a set is made when row 2n+4 is complete, or at the finish, in order".
#[test]
fn the_order_at_the_finish_by_the_nine_seven() {
    use Band::{Hh, Hl, Lh, Ll};
    let heights: Vec<u16> = (0..24).map(|i| i * i).collect();
    let s = Shape::new(2, 12, 2).by(NINE_SEVEN);
    let [before, after] = all_drawn(&heights, s).map(|rows| rows.into_iter().map(|(level, band, row, _)| (level, band, row)).collect::<Vec<_>>());
    let sets: Vec<_> = (0..4).flat_map(|n| [Hl, Lh, Hh].map(|band| (1, band, n))).collect();
    assert_eq!(before, sets, "set 3 with row 10, and nothing of level 2");
    let of_level_1 = |n| [Hl, Lh, Hh].map(|band| (1, band, n)).to_vec();
    let of_level_2 = |n| [Ll, Lh].map(|band| (2, band, n)).to_vec();
    assert_eq!(after, [of_level_1(4), of_level_2(0), of_level_1(5), of_level_2(1), of_level_2(2)].concat());
}

#[test]
fn the_questions_of_set_up() {
    // a writer does not read the height
    let shape = |number: u32, width: usize, levels: usize| Shape::new(width, 0, levels).by(number);
    let refused = |s: Shape, len: usize, number: u32| {
        let mut store = Guarded::unset(len);
        assert_eq!(writer::set_up(&mut [7; 16], s, store.lent()), Err(number), "{s:?} {len}");
        assert!(store.is_unset_from(0));
    };
    for width in [0, MAX_WIDTH + 1, 1 << 32, usize::MAX] {
        for number in [0, 1].into_iter().chain(filter::UNKNOWN) {
            for levels in [0, 1, 6, usize::MAX] {
                refused(shape(number, width, levels), 0, 2);
                assert_eq!(store_length(shape(number, width, levels)), 0);
            }
        }
    }
    for width in [1, 9, MAX_WIDTH] {
        for number in filter::UNKNOWN {
            for levels in [0, 1, 4, 5, 6, usize::MAX] {
                refused(shape(number, width, levels), 0, 18);
                assert_eq!(store_length(shape(number, width, levels)), 0);
            }
        }
        for (number, filter) in (0..).zip(&FILTERS) {
            for levels in [0, filter.levels + 1, MAX_LEVELS + 1, 1 << 32, usize::MAX] {
                refused(shape(number, width, levels), 0, 4);
                assert_eq!(store_length(shape(number, width, levels)), 0);
            }
        }
    }
    for width in (1..=40).chain([1_024, 1_025, MAX_WIDTH]) {
        for (number, levels) in filter::kinds() {
            let needed = order::writer_store_length(shape(number, width, levels));
            refused(shape(number, width, levels), needed - 1, 5);
            // a store sized for a reader
            refused(shape(number, width, levels), needed - width, 5);
            refused(shape(number, width, levels), 0, 5);
            for (x, y) in maps::origins() {
                let s = shape(number, width, levels).at(x, y);
                let needed = order::writer_store_length(s);
                assert_eq!((store_length(s), reader_store_length(s)), (needed, order::store_length(s)));
                let mut store = Guarded::unset(needed);
                assert_eq!(writer::set_up(&mut [7; 16], s, store.lent()), Ok(()));
                assert!(store.content().iter().all(|&v| v == 0));
                assert_eq!(writer::set_up(&mut [7; 16], s, &mut store.lent()[1..]), Err(5));
            }
        }
    }
}

/// How many bands can be left of a set of that level.
fn most_left(levels: u64, level: u64) -> u64 {
    match level {
        0 => 0,
        level if level < levels => 3,
        _ => 4,
    }
}

/// Where the stretch of a level begins in the line store; 0 where there is no level.
fn start_of(number: u64, width: u64, x: u64, level: u64) -> u64 {
    if level < 2 {
        0
    } else {
        order::store_length(Shape::new(width as usize, 1, level as usize - 1).at(x as u16, 0).by(number as u32)) as u64
    }
}

/// The most that `column` can be: heights of the row begun, or, while rows wait, of the spare row; none where no height can come.
fn most_column(width: u64, rows: u64, finished: u64, level: u64) -> u64 {
    match level {
        0 => width.wrapping_sub(1),
        _ if finished == 1 || rows >= MAX_HEIGHT as u64 => 0,
        _ => width,
    }
}

/// The counts of a writer, as docs/STATE.md lists them: whether question 1 passes.
fn counts_fit(s: &State) -> bool {
    let [kind, width, levels, rows, column, finished, closed, level, left, offset, x, y, number, ..] = *s;
    kind == 1
        && number < FILTERS.len() as u64
        && (1..=2_049).contains(&width)
        && (1..=FILTERS[number as usize].levels as u64).contains(&levels)
        && rows <= MAX_HEIGHT as u64
        && column <= most_column(width, rows, finished, level)
        && finished <= 1
        && closed <= FILTERS[number as usize].ahead as u64 * levels
        && level <= levels
        && left <= most_left(levels, level)
        && x <= 65_535
        && y <= 65_535
        && offset == start_of(number, width, x, level)
        && s[13..].iter().all(|&n| n == 0)
}

/// The numbers of the line store that the counts of a writer speak of, or 0.
fn needed_by(s: &State) -> usize {
    let [_, width, levels, ..] = s.map(|n| n as usize);
    if counts_fit(s) {
        order::writer_store_length(Shape::new(width, 1, levels).at(s[10] as u16, 0).by(s[12] as u32))
    } else {
        0
    }
}

/// All calls on a state and a store, whatever they hold: each returns, answers 1 or 5 exactly where it must, and stays in its areas.
fn bear(state: &State, store: &[i32], random: &mut Random) {
    let needed = needed_by(state);
    let first = if !counts_fit(state) {
        Some(1)
    } else if store.len() < needed {
        Some(5)
    } else {
        None
    };
    let run: Vec<u16> = (0..random.below(40)).map(|_| random.below(65_536) as u16).collect();
    let room = [0, 1, 5, 40, 2_049][random.below(5)];
    for call in 0..3 {
        let mut kept = *state;
        let mut lent = Guarded::new(store);
        let mut out = Guarded::unset(room);
        let mut length = 0;
        let answer = match call {
            0 => writer::offer(&mut kept, lent.lent(), &run).map(|n| assert!(n <= run.len())),
            1 => writer::draw(&mut kept, lent.lent(), out.lent()).map(|row| {
                assert_eq!(row.is_some(), state[7] > 0);
                if let Some(r) = row {
                    assert!(r.level <= state[2] as usize && r.band <= 3 && r.length <= state[1] as usize);
                    length = r.length;
                }
            }),
            _ => writer::finish(&mut kept, lent.lent()),
        };
        assert!(out.is_unset_from(length));
        assert_eq!(lent.content()[needed.min(store.len())..], store[needed.min(store.len())..], "the surplus is touched");
        if let Err(number) = answer {
            assert_eq!(lent.content(), store, "a refusal changes nothing");
            let others: &[u32] = [&[9, 10][..], &[12], &[8, 9, 11]][call];
            assert!(first == Some(number) || (first.is_none() && others.contains(&number)), "{number} of {state:?}");
        } else {
            assert_eq!(first, None, "{state:?}");
        }
    }
}

#[test]
fn states_nobody_reached_and_scribbled_stores() {
    let mut random = Random::new(13);
    let mut passed = 0;
    for _ in 0..60_000 {
        let width = [1, 1, 2, 3, 5, 8, 17, 2_049][random.below(8)] as u64;
        let (number, levels) = filter::kind(&mut random);
        let (ahead, number, levels) = (FILTERS[number as usize].ahead as u64, number as u64, levels as u64);
        let rows = [random.below(12), random.below(MAX_HEIGHT), MAX_HEIGHT][random.below(3)] as u64;
        let up_to = |random: &mut Random, n: u64| random.below(n as usize + 1) as u64;
        let level = up_to(&mut random, levels);
        let most = if random.below(6) == 0 { 4 } else { most_left(levels, level) };
        let finished = up_to(&mut random, 1);
        let columns = if random.below(6) == 0 { width } else { most_column(width, rows, finished, level) };
        let (x, y) = maps::origin(&mut random);
        let mut state = [0; 16];
        state[..13].copy_from_slice(&[
            1,
            width,
            levels,
            rows,
            up_to(&mut random, columns),
            finished,
            up_to(&mut random, ahead * levels),
            level,
            up_to(&mut random, most),
            if random.below(6) == 0 { up_to(&mut random, 8 * width) } else { start_of(number, width, x.into(), level) },
            x.into(),
            y.into(),
            // the other filter's, now and then: its levels, its closing and its stretches are not the same
            if random.below(12) == 0 { 1 - number } else { number },
        ]);
        if random.below(3) == 0 {
            let i = random.below(16);
            state[i] = [0, 1, 2, 6, 2_050, 65_536, 1 << 32, u64::MAX][random.below(8)];
        }
        passed += usize::from(counts_fit(&state));
        let needed = order::writer_store_length(Shape::new(width as usize, 1, levels as usize).at(x, y).by(number as u32));
        let len = needed + [0, 3, 11][random.below(3)] - usize::from(random.below(5) == 0);
        let store: Vec<i32> =
            if random.below(2) == 0 { vec![[i32::MIN, i32::MAX, -1][random.below(3)]; len] } else { (0..len).map(|_| random.word()).collect() };
        bear(&state, &store, &mut random);
    }
    assert!(passed > 30_000, "{passed} states pass question 1");
}

/// A number that no filter has, levels that the 9/7 has not, and a closing longer than the 5/3's.
#[test]
fn states_with_a_wrong_filter_give_1() {
    let mut store = vec![0; order::writer_store_length(Shape::new(3, 1, 4).by(NINE_SEVEN))];
    for (number, levels) in filter::kinds() {
        let mut state = [0; 16];
        assert_eq!(writer::set_up(&mut state, Shape::new(3, 1, levels).by(number), &mut store), Ok(()));
        assert_eq!(state[12], u64::from(number), "the set-up keeps the filter's number");
        let ahead = FILTERS[number as usize].ahead as u64;
        for (place, value, fits) in [
            (12, 2, false),
            (12, 1 << 32, false),
            (12, u64::MAX, false),
            (12, 1, levels < 5),
            (12, 0, true),
            (2, 5, number == 0),
            (6, ahead * levels as u64, true),
            (6, ahead * levels as u64 + 1, false),
        ] {
            let mut other = state;
            other[place] = value;
            assert_eq!(counts_fit(&other), fits);
            assert_eq!(writer::waits(&other), if fits { Ok(None) } else { Err(1) }, "{other:?}");
            if !fits {
                assert_eq!(writer::offer(&mut other, &mut store, &[1]), Err(1));
                assert_eq!(writer::draw(&mut other, &mut store, &mut [0; 3]), Err(1));
                assert_eq!(writer::finish(&mut other, &mut store), Err(1));
            }
        }
    }
}

#[test]
fn a_store_scribbled_in_between_two_calls() {
    let mut random = Random::new(14);
    for _ in 0..2_000 {
        let (x, y) = maps::origin(&mut random);
        let (number, levels) = filter::kind(&mut random);
        let s = Shape::new(1 + random.below(20), 1, levels).at(x, y).by(number);
        let (width, needed) = (s.width, order::writer_store_length(s));
        let mut store = Guarded::unset(needed + SURPLUS);
        let mut state = [0; 16];
        assert_eq!(writer::set_up(&mut state, s, store.lent()), Ok(()));
        let mut model = order::Writer::new(s);
        for _ in 0..60 {
            store.lent()[..needed].iter_mut().for_each(|v| *v = random.word());
            // answers never depend on what the store holds
            let mut out = Guarded::unset(width);
            assert_eq!(writer::draw(&mut state, store.lent(), out.lent()), model.draw(width));
            let run = vec![u16::MAX; random.below(3 * width)];
            assert_eq!(writer::offer(&mut state, store.lent(), &run), model.offer(run.len()));
            if random.below(20) == 0 {
                assert_eq!(writer::finish(&mut state, store.lent()), model.finish());
            }
            assert!(out.content().len() == width && store.is_unset_from(needed));
        }
    }
}

/// What is lent to a run of many rows, what it leaves there, and what it answers.
#[derive(Clone, Debug, PartialEq)]
struct Lent {
    state: State,
    store: Vec<i32>,
    out: Vec<i32>,
    names: Vec<u64>,
    answer: Result<[usize; 3], u32>,
}

impl Lent {
    /// By one call.
    fn run(mut self, heights: &[u16]) -> Lent {
        let mut counts = [7; 3];
        let number = raw::writer_run(&mut self.state, &mut self.store, heights, &mut self.out, &mut self.names, &mut counts);
        assert!(number == 0 || counts == [7; 3], "a refusal changes nothing");
        self.answer = if number == 0 { Ok(counts.map(|n| n as usize)) } else { Err(number) };
        self
    }

    /// By single calls: draws while a row waits and has room, as its name has, else offers up to the end of the row begun.
    fn row_by_row(mut self, heights: &[u16], width: usize) -> Lent {
        let [mut taken, mut rows, mut put] = [0; 3];
        let (finished, column) = (self.state[5] == 1, 4);
        if finished && !heights.is_empty() {
            return Lent { answer: Err(9), ..self };
        }
        let none = loop {
            match writer::waits(&self.state) {
                Ok(Some(row)) if row.length <= self.out.len() - put && 4 * rows + 4 <= self.names.len() => {
                    let drawn = writer::draw(&mut self.state, &mut self.store, &mut self.out[put..]);
                    assert_eq!(drawn, Ok(Some(row)));
                    self.names[4 * rows..4 * rows + 4].copy_from_slice(&[row.level, row.band, row.row, row.length].map(|n| n as u64));
                    (rows, put) = (rows + 1, put + row.length);
                }
                Ok(Some(_)) => break 12,
                Ok(None) if taken < heights.len() => {
                    let end = heights.len().min(taken + width - self.state[column] as usize);
                    let answer = writer::offer(&mut self.state, &mut self.store, &heights[taken..end]);
                    assert_eq!(answer, Ok(end - taken), "up to the end of the row all are taken");
                    taken = end;
                }
                other => break if other == Ok(None) { 0 } else { panic!("{other:?}") },
            }
        };
        let answer = if taken + rows == 0 && none > 0 { Err(none) } else { Ok([taken, rows, put]) };
        Lent { answer, ..self }
    }
}

/// A call for many rows does what single calls do, wherever the runs and the areas are cut, and mixed with these: answer, counts, state, store,
/// areas with their surplus.
#[test]
fn many_rows_at_once() {
    let mut random = Random::new(41);
    let mut seen = [0; 3];
    for _ in 0..400 {
        let filter = random.below(2) as u32;
        let (width, height) = (1 + random.below(24), 1 + random.below(24));
        let shape = Shape::new(width, height, 1 + random.below(4)).by(filter).at(random.below(4) as u16, random.below(4) as u16);
        let heights: Vec<u16> = (0..width * height).map(|_| random.below(65_536) as u16).collect();
        let (mut state, mut store) = ([0; 16], vec![0; store_length(shape) + SURPLUS]);
        assert_eq!(writer::set_up(&mut state, shape, &mut store), Ok(()));
        let (mut taken, mut done) = (0, false);
        for _ in 0..200 {
            // after the finish, sometimes heights that can no longer come
            let from = if done && random.below(4) == 0 { 0 } else { taken };
            let cut = from + random.below(heights.len() - from + 1).min(random.below(4 * width + 1));
            let (out, names) = (random.below(3 * width + 2), 4 * random.below(9) + random.below(4));
            let lent = Lent { state, store, out: vec![-7; out], names: vec![9; names], answer: Err(0) };
            let run = lent.clone().run(&heights[from..cut]);
            assert_eq!(run, lent.row_by_row(&heights[from..cut], width), "{shape:?}");
            (state, store) = (run.state, run.store);
            seen[run.answer.map_or_else(|q| if q == 9 { 1 } else { 2 }, |_| 0)] += 1;
            taken += run.answer.map_or(0, |[heights, ..]| heights);
            // and single calls between
            if random.below(3) == 0 {
                let end = taken + random.below(heights.len() - taken + 1).min(width);
                taken += writer::offer(&mut state, &mut store, &heights[taken..end]).unwrap_or(0);
            }
            if random.below(3) == 0 {
                writer::draw(&mut state, &mut store, &mut vec![0; width]).expect("room for any row");
            }
            done = done || taken == heights.len() && writer::finish(&mut state, &mut store).is_ok();
        }
        assert!(done || taken < heights.len() || writer::waits(&state).is_ok());
    }
    assert!(seen.iter().all(|&n| n > 100), "{seen:?}: runs that passed, that came after the finish and that had no room");
}
