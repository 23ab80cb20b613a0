//! A second vet, written from document 01 alone.
//!
//! The leak test takes no ranks of rows. A view is A N + B x, for source symbols N and readings x. The source keys that show a
//! given view are the solutions of A N = view − B x: where there are some, they are as many as those of A N = 0. So two sets of
//! readings have equal numbers for every view exactly where A N = B d can be solved for their difference d. Products are taken
//! by the two halves of a factor, so that none needs more than 49 bits.

use crate::reader::{self, Code, Form, Plan};
use kortyghai::Symbol;

/// What a program says: "input above 65,535 bytes is 4, before all else", then the reader's, then the vet's; and the form of the
/// record, where that was looked at and there is one.
pub fn vet_record(bytes: &[u8], leaks: fn(&Plan, usize, usize) -> bool) -> (Code, Option<Form>) {
    if bytes.len() > 65_535 {
        return ((4, 0, 0), None);
    }
    let reading = reader::read(bytes, 256);
    let code = reading.plan.as_ref().map_or_else(|found| found.code(), |plan| vet(plan, leaks));
    (code, reading.form)
}

/// 6, then 7, for a plan that was read.
fn vet(plan: &Plan, leaks: fn(&Plan, usize, usize) -> bool) -> Code {
    let mut sums = vec![0u64; plan.rate];
    for row in plan.table.chunks(plan.rate) {
        for (sum, &x) in sums.iter_mut().zip(row) {
            *sum += x as u64;
        }
    }
    if let Some(column) = sums.iter().position(|&sum| sum % plan.q as u64 != 0) {
        return (6, column as u16 + 1, 0);
    }
    let coalitions = (0..1usize << (plan.clusters * plan.size)).filter(|g| g.count_ones() as usize <= plan.limit);
    for coalition in coalitions {
        for observer in (1..=plan.clusters).chain([0]) {
            if leaks(plan, coalition, observer) {
                return (7, coalition as u16, observer as u16);
            }
        }
    }
    (0, 0, 0)
}

fn inside(coalition: usize, user: usize) -> bool {
    coalition >> user & 1 == 1
}

/// The rows of A: what source symbols add to the parts of a view. First the uploads of a relay, or the sums of all relays for
/// the server (0), then the coalition's keys.
fn view_rows(plan: &Plan, coalition: usize, observer: usize) -> Vec<Vec<i64>> {
    let q = plan.q as i64;
    let rows: Vec<Vec<i64>> = plan.table.chunks(plan.rate).map(|row| row.iter().map(|&x| x as i64).collect()).collect();
    let clusters: Vec<&[Vec<i64>]> = rows.chunks(plan.size).collect();
    let mut view: Vec<Vec<i64>> = if observer > 0 {
        clusters[observer - 1].to_vec()
    } else {
        clusters.iter().map(|c| (0..plan.rate).map(|k| c.iter().map(|row| row[k]).sum::<i64>() % q).collect()).collect()
    };
    view.extend((0..rows.len()).filter(|&i| inside(coalition, i)).map(|i| rows[i].clone()));
    view
}

/// The differences B d that the observer must not see, one for each way in which readings may differ: at a relay one user
/// outside the coalition, at the server one such user up and another down.
fn hidden(plan: &Plan, coalition: usize, observer: usize, parts: usize) -> Vec<Vec<i64>> {
    let outside: Vec<usize> = (0..plan.clusters * plan.size).filter(|&i| !inside(coalition, i)).collect();
    let mut differences = Vec::new();
    for &i in &outside {
        let mut d = vec![0; parts];
        if observer > 0 {
            if i / plan.size == observer - 1 {
                d[i % plan.size] = 1;
            }
        } else {
            d[i / plan.size] += 1;
            d[outside[0] / plan.size] -= 1;
        }
        differences.push(d);
    }
    differences
}

/// The product of two numbers below q, by the halves of the second.
fn times(a: i64, b: i64, q: i64) -> i64 {
    let high = a * (b >> 16) % q;
    ((high << 16) + a * (b & 0xFFFF)) % q
}

/// The inverse, by Euclid's steps.
fn inverse(a: i64, q: i64) -> i64 {
    let (mut r, mut s) = ((q, a), (0, 1));
    while r.1 != 0 {
        let k = r.0 / r.1;
        r = (r.1, r.0 - k * r.1);
        s = (s.1, s.0 - k * s.1);
    }
    s.0.rem_euclid(q)
}

/// Columns, each with 1 at a place where those after it have 0.
struct Columns {
    q: i64,
    kept: Vec<(usize, Vec<i64>)>,
}

impl Columns {
    /// What is left of a column once those kept are taken off.
    fn rest(&self, mut column: Vec<i64>) -> Vec<i64> {
        for x in &mut column {
            *x = x.rem_euclid(self.q);
        }
        for (place, above) in &self.kept {
            let by = column[*place];
            if by != 0 {
                for (x, a) in column.iter_mut().zip(above) {
                    *x = (*x - times(by, *a, self.q)).rem_euclid(self.q);
                }
            }
        }
        column
    }

    fn keep(&mut self, column: Vec<i64>) {
        let mut column = self.rest(column);
        if let Some(place) = column.iter().position(|&x| x != 0) {
            let by = inverse(column[place], self.q);
            for x in &mut column {
                *x = times(*x, by, self.q);
            }
            self.kept.push((place, column));
        }
    }
}

/// Can A N = B d be solved for every d?
pub fn leaks_by_solving(plan: &Plan, coalition: usize, observer: usize) -> bool {
    let rows = view_rows(plan, coalition, observer);
    let mut columns = Columns { q: plan.q as i64, kept: Vec::new() };
    for k in 0..plan.rate {
        columns.keep(rows.iter().map(|row| row[k]).collect());
    }
    hidden(plan, coalition, observer, rows.len()).into_iter().any(|d| columns.rest(d).iter().any(|&x| x != 0))
}

/// All lists of n symbols.
fn all(q: Symbol, n: usize) -> impl Iterator<Item = Vec<Symbol>> {
    (0..(q as usize).pow(n as u32)).map(move |m| (0..n).map(|i| (m / (q as usize).pow(i as u32) % q as usize) as Symbol).collect())
}

/// The same by counting, for plans of very few readings and source keys, with blocks of one position: all readings, all source
/// keys, all views, as document 01 has it.
pub fn leaks_by_counting(plan: &Plan, coalition: usize, observer: usize) -> bool {
    let q = plan.q;
    let users = plan.clusters * plan.size;
    let keys: Vec<Vec<u32>> = all(plan.q, plan.rate)
        .map(|n| plan.table.chunks(plan.rate).map(|row| row.iter().zip(&n).map(|(&a, &b)| a * b).sum::<u32>() % q).collect())
        .collect();
    let mut seen: std::collections::HashMap<Vec<u32>, Vec<Vec<u32>>> = Default::default();
    for readings in all(plan.q, users) {
        let mut views: Vec<Vec<u32>> = keys.iter().map(|key| view(plan, coalition, observer, &readings, key)).collect();
        views.sort();
        let mut known: Vec<u32> = (0..users).filter(|&i| inside(coalition, i)).map(|i| readings[i]).collect();
        if observer == 0 {
            known.push(readings.iter().sum::<u32>() % q);
        }
        if *seen.entry(known).or_insert_with(|| views.clone()) != views {
            return true;
        }
    }
    false
}

/// What the observer sees: uploads or sums, and the coalition's keys. (Its readings are the same in all that are compared.)
fn view(plan: &Plan, coalition: usize, observer: usize, readings: &[Symbol], key: &[u32]) -> Vec<u32> {
    let q = plan.q;
    let uploads: Vec<u32> = readings.iter().zip(key).map(|(&x, k)| (x + k) % q).collect();
    let mut view: Vec<u32> = if observer > 0 {
        uploads[(observer - 1) * plan.size..observer * plan.size].to_vec()
    } else {
        uploads.chunks(plan.size).map(|c| c.iter().sum::<u32>() % q).collect()
    };
    view.extend((0..key.len()).filter(|&i| inside(coalition, i)).map(|i| key[i]));
    view
}
