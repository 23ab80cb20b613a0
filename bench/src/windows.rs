//! The rolling hour in plain Rust, with the same checks, compared with the proved one, and a total into a window timed beside it.

use crate::rounds::{least, line, BAR};
use crate::tally::{counted, Seeded};
use crate::{proved, Code};
use std::hint::black_box;

/// The places of a window, which is also the longest span.
pub const PLACES: usize = 96;

#[derive(Clone, Copy, PartialEq, Debug)]
pub struct Window {
    pub span: usize,
    pub held: usize,
    pub sum: i64,
    pub totals: [i32; PLACES],
}

impl Window {
    fn empty(span: usize) -> Window {
        Window { span, held: 0, sum: 0, totals: [0; PLACES] }
    }
}

/// Whether all are 0: by the first that is not, or by all of them put together.
fn none(places: &[i32]) -> bool {
    places.iter().all(|&t| t == 0)
}

fn none_together(places: &[i32]) -> bool {
    places.iter().fold(0, |all, t| all | t) == 0
}

/// "17, first of all, when n is outside 1 to 96 or a window handed in is one that no run of totals leaves." With such a test for zeros.
fn is_left(w: &Window, none: impl Fn(&[i32]) -> bool) -> bool {
    (1..=PLACES).contains(&w.span)
        && w.held <= w.span
        && none(&w.totals[w.held..])
        && w.totals[..w.held].iter().map(|&t| t as i64).sum::<i64>() == w.sum
}

fn code(number: u16) -> Code {
    Code(number, 0, 0)
}

/// Makes the window of this span empty.
pub fn open(w: &mut Window) -> Code {
    if !(1..=PLACES).contains(&w.span) {
        return code(17);
    }
    *w = Window::empty(w.span);
    code(0)
}

#[inline(always)]
fn step(w: &mut Window, total: i32, none: impl Fn(&[i32]) -> bool) -> Code {
    if !is_left(w, none) {
        return code(17);
    }
    if w.held < w.span {
        w.totals[w.held] = total;
        w.held += 1;
        w.sum += total as i64;
        return code(0);
    }
    w.sum += total as i64 - w.totals[0] as i64;
    w.totals.copy_within(1..w.held, 0);
    w.totals[w.held - 1] = total;
    code(0)
}

#[inline(never)]
pub fn push(w: &mut Window, total: i32) -> Code {
    step(w, total, none)
}

#[inline(never)]
fn push_together(w: &mut Window, total: i32) -> Code {
    step(w, total, none_together)
}

pub fn sum(w: &Window, out: &mut i64) -> Code {
    if !is_left(w, none) {
        return code(17);
    }
    *out = w.totals[..w.held].iter().map(|&t| t as i64).sum();
    code(0)
}

pub fn largest(w: &Window, out: &mut i32) -> Code {
    if !is_left(w, none) {
        return code(17);
    }
    let Some(&most) = w.totals[..w.held].iter().max() else { return code(12) };
    *out = most;
    code(0)
}

/// A total by chance, at times one from either end of 32 bits.
fn total(s: &mut Seeded) -> i32 {
    match s.below(8) {
        0 => i32::MIN,
        1 => i32::MAX,
        _ => (s.next() as i32) << 1 ^ s.next() as i32,
    }
}

/// What a run of n totals leaves.
fn filled(s: &mut Seeded, span: usize, n: usize) -> Window {
    let mut w = Window::empty(span);
    for _ in 0..n {
        assert_eq!(push(&mut w, total(s)), code(0));
    }
    w
}

/// A window as it is, or with one thing wrong.
fn spoiled(s: &mut Seeded, mut w: Window) -> Window {
    match s.below(12) {
        0 => w.span = s.one_of(&[0, PLACES + 1, usize::MAX]),
        1 => w.held = s.one_of(&[w.span + 1, PLACES + 1, usize::MAX]),
        2 => w.totals[s.below(PLACES)] ^= 1,
        3 => w.sum = s.one_of(&[w.sum + 1, w.sum - 1, i64::MAX, i64::MIN]),
        4 => w.totals[PLACES - 1] = 1,
        _ => {}
    }
    w
}

/// How many windows the two judge otherwise or leave otherwise: a total more, the sum, the largest, and an opening on the same places.
/// A refused call must leave the window and the lent number as they were.
pub fn compare(s: &mut Seeded, windows: usize) -> usize {
    let (mut differ, mut numbers) = (0, [0usize; 18]);
    for _ in 0..windows {
        let (span, run) = (1 + s.below(PLACES), s.one_of(&[0, 1, 3, 95, 96, 97, 200]));
        let filled = filled(s, span, run);
        let given = spoiled(s, filled);
        let (more, old) = (total(s), total(s));
        let (mut a, mut b) = (given, given);
        let (mut sums, mut most) = ([old as i64; 2], [old; 2]);
        let mut answers = vec![
            (proved::window_push(&mut a, more), push(&mut b, more)),
            (proved::window_sum(&given, &mut sums[0]), sum(&given, &mut sums[1])),
            (proved::window_largest(&given, &mut most[0]), largest(&given, &mut most[1])),
        ];
        let same = a == b && sums[0] == sums[1] && most[0] == most[1];
        (a, b) = (given, given);
        answers.push((proved::window_open(&mut a), open(&mut b)));
        answers.iter().for_each(|(_, two)| numbers[two.0 as usize] += 1);
        if !same || a != b || answers.iter().any(|(one, two)| one != two) {
            differ += 1;
            println!("window: {answers:?}: {given:?}");
        }
    }
    println!("windows: {windows}, four calls each; {}; {differ} differ", counted(&numbers));
    differ
}

/// Totals into a window, one after the other.
fn pushes(w: &mut Window, n: usize, totals: &[i32; 1024], push: impl Fn(&mut Window, i32) -> Code) {
    for k in 0..n {
        assert_eq!(black_box(push(black_box(w), black_box(totals[k % 1024]))), code(0));
    }
}

/// A window within one page of memory. One that reaches into the next takes a step of 96 places half as long again or more, proved or
/// plain, so that where chance puts them would decide the ratio.
#[repr(align(512))]
#[derive(Clone, Copy, PartialEq, Debug)]
struct Placed(Window);

/// From an opening to a full window of the longest span, again and again.
fn fills(n: usize, totals: &[i32; 1024], push: impl Fn(&mut Window, i32) -> Code) {
    for k in 0..n / PLACES {
        let mut w = Placed(Window::empty(PLACES));
        for j in 0..PLACES {
            assert_eq!(black_box(push(black_box(&mut w.0), black_box(totals[(k + j) % 1024]))), code(0));
        }
    }
}

/// The row and, for a window of 96, whether its bar is met.
fn row(name: &str, span: usize, proved: f64, plain: f64) -> bool {
    line(&format!("{name}, ns"), 1e9, proved, plain) || span != PLACES
}

/// Whether the bar of a window of 96 is met, against both tests for zeros.
pub fn measure() -> bool {
    let mut s = Seeded(17);
    let totals: [i32; 1024] = std::array::from_fn(|_| total(&mut s));
    let mut met = true;
    println!("{:54}{:>12}{:>11}{:>8}", "", "proved", "plain", "ratio");
    for span in [PLACES, 4] {
        let w = Placed(filled(&mut s, span, span));
        let (mut a, mut b, mut c) = (w, w, w);
        let [x, y, z] = least(20_000, 31, [
            &mut |n| pushes(&mut a.0, n, &totals, proved::window_push),
            &mut |n| pushes(&mut b.0, n, &totals, push),
            &mut |n| pushes(&mut c.0, n, &totals, push_together),
        ]);
        assert_eq!((a, a), (b, c));
        met &= row(&format!("into a full window of {span}"), span, x, y);
        met &= row("the same, plain with zeros tested together", span, x, z);
    }
    let [x, y, z] = least(PLACES * 200, 31, [
        &mut |n| fills(n, &totals, proved::window_push),
        &mut |n| fills(n, &totals, push),
        &mut |n| fills(n, &totals, push_together),
    ]);
    met &= row(&format!("into one of {PLACES}, from none to full"), PLACES, x, y);
    met &= row("the same, plain with zeros tested together", PLACES, x, z);
    println!("bar (ratio at most {BAR} in a window of {PLACES}): {}", if met { "met" } else { "NOT met" });
    met
}
