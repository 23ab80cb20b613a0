//! Windows, held to the whole run of totals: the model keeps all of it, and works everything out afresh.

use crate::seeded::Seeded;
use crate::tally::{first, safe, unpacked, Tally, Verdict};
use kortyghai::{raw, Window};

const OTHER: i64 = -77;

/// Some total, often at an end.
fn some_total(s: &mut Seeded) -> i32 {
    if s.below(4) == 0 {
        s.one_of(&[0, 1, -1, i32::MIN, i32::MAX, 5])
    } else {
        s.next() as i32 >> s.below(24)
    }
}

/// The window of a span after a run of totals.
fn left_by(span: usize, run: &[i32]) -> Window {
    let last = &run[run.len().saturating_sub(span)..];
    let mut totals = [0; 96];
    totals[..last.len()].copy_from_slice(last);
    Window { span, held: last.len(), sum: last.iter().map(|&t| t as i64).sum(), totals }
}

/// Is it one that some run leaves? Then the totals that it says it holds are such a run.
fn is_left(window: &Window) -> bool {
    let fits = (1..=96).contains(&window.span) && window.held <= window.span;
    fits && left_by(window.span, &window.totals[..window.held]) == *window
}

fn damage(s: &mut Seeded, window: &mut Window) {
    let place = s.below(96);
    match s.below(6) {
        0 => window.span = s.one_of(&[0, 97, 96, 1, usize::MAX, window.held.saturating_sub(1), window.span + 1]),
        1 => window.held = s.one_of(&[97, usize::MAX, 1 << 40, window.held + 1, window.held.saturating_sub(1), window.span + 1, 96]),
        2 => window.sum = window.sum.wrapping_add(s.one_of(&[1, -1, i64::MAX, i64::MIN, 1 << 32])),
        3 => window.totals[place] = window.totals[place].wrapping_add(s.one_of(&[1, -1, i32::MIN])),
        4 => {
            // both change, and fit together again
            window.totals[place] = window.totals[place].wrapping_add(1);
            window.sum = window.totals.iter().map(|&t| t as i64).sum();
        }
        _ => *window = Window { span: s.below(98), held: s.below(98), sum: s.below(3) as i64, totals: [s.below(2) as i32; 96] },
    }
}

/// All calls on a window that is handed in.
fn attempt(s: &mut Seeded, window: &Window, tally: &mut Tally) -> Window {
    let told = || format!("{window:?}");
    let wrong: Verdict = first(&[(17, !is_left(window))]);
    let held = || &window.totals[..window.held];
    let value = if wrong.is_ok() { held().iter().map(|&t| t as i64).sum() } else { OTHER };
    let mut out = OTHER;
    let answer = unsafe { raw::kortyghai_window_sum(window.span, window.held, window.sum, &window.totals, &mut out) };
    tally.compare("window_sum", &(wrong, value), &(unpacked(answer), out), told);
    let given = window.sum();
    tally.also("window_sum", &(wrong, value), &(safe(given), given.unwrap_or(OTHER)), told);

    let none = wrong.and_then(|()| first(&[(12, window.held == 0)]));
    let value = if none.is_ok() { *held().iter().max().unwrap() } else { OTHER as i32 };
    let mut out = OTHER as i32;
    let answer = unsafe { raw::kortyghai_window_largest(window.span, window.held, window.sum, &window.totals, &mut out) };
    tally.compare("window_largest", &(none, value), &(unpacked(answer), out), told);
    let given = window.largest();
    tally.also("window_largest", &(none, value), &(safe(given), given.unwrap_or(OTHER as i32)), told);

    let total = some_total(s);
    let pushed = match wrong {
        Ok(()) => left_by(window.span, &[held(), &[total]].concat()),
        Err(_) => window.clone(),
    };
    let mut after = window.clone();
    let answer = unsafe { raw::kortyghai_window_push(window.span, &mut after.held, &mut after.sum, &mut after.totals, total) };
    tally.compare("window_push", &(wrong, pushed.clone()), &(unpacked(answer), after), told);
    let mut after = window.clone();
    let answer = safe(after.push(total));
    tally.also("window_push", &(wrong, pushed), &(answer, after.clone()), told);
    after
}

fn open(span: usize, tally: &mut Tally) -> Option<Window> {
    let verdict = first(&[(17, span == 0 || span > 96)]);
    let old = Window { span, held: 9, sum: OTHER, totals: [3; 96] };
    let wanted = (verdict, if verdict.is_ok() { left_by(span, &[]) } else { old.clone() });
    let mut window = old;
    let answer = unsafe { raw::kortyghai_window_open(span, &mut window.held, &mut window.sum, &mut window.totals) };
    tally.compare("window_open", &wanted, &(unpacked(answer), window), || format!("span {span}"));
    let opened = Window::open(span);
    tally.also(
        "window_open",
        &(verdict, Some(left_by(span, &[])).filter(|_| verdict.is_ok())),
        &(safe(opened.clone()), opened.clone().ok()),
        || format!("span {span}"),
    );
    opened.ok()
}

fn some_span(s: &mut Seeded) -> usize {
    if s.below(6) > 0 {
        1 + s.below(96)
    } else {
        s.one_of(&[0, 97, 1, 96, 1 << 32, (1 << 32) + 5, usize::MAX])
    }
}

pub fn run(s: &mut Seeded, count: usize, tally: &mut Tally) {
    let mut left = count as i64;
    while left > 0 {
        let span = some_span(s);
        left -= 4;
        (0..3).for_each(|_| {
            open(some_span(s), tally);
        });
        let Some(mut window) = open(span, tally) else { continue };
        // a run that may be longer than the span; each window on the way is the run's
        let mut run = Vec::new();
        for _ in 0..s.below(2 * span + 2).min(20) {
            let mut damaged = window.clone();
            damage(s, &mut damaged);
            attempt(s, &damaged, tally);
            let before = window.clone();
            window = attempt(s, &before, tally);
            run.push(*window.totals[..window.held].last().unwrap());
            left -= 6;
        }
        // the rest of the run in one go
        for _ in 0..s.below(120) {
            let total = some_total(s);
            run.push(total);
            window.push(total).unwrap();
        }
        tally.also("window_push", &(Ok(()), left_by(span, &run)), &(Ok(()), window), || format!("a run of {}", run.len()));
    }
}
