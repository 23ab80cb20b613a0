//! How often each number was answered to each entry, and how often something differed.

use kortyghai::Refusal;
use std::collections::BTreeMap;
use std::fmt::Debug;

/// Number and details.
pub type Code = (u16, u16, u16);

/// What the model says: nothing is refused, or the number and details.
pub type Verdict = Result<(), Code>;

/// A number without details.
pub fn plain(number: u16) -> Code {
    (number, 0, 0)
}

/// The first condition that holds, by its number.
pub fn first(conditions: &[(u16, bool)]) -> Verdict {
    conditions.iter().find(|(_, holds)| *holds).map_or(Ok(()), |(number, _)| Err(plain(*number)))
}

/// What an answer of the archive says.
pub fn unpacked(answer: u64) -> Verdict {
    let part = |shift: u32| (answer >> shift) as u16;
    match (part(0), part(16), part(32), part(48)) {
        (0, 0, 0, 0) => Ok(()),
        (number, a, b, 0) => Err((number, a, b)),
        (number, ..) => panic!("the answer {answer:#x} to {number} has bits past its details"),
    }
}

/// What the safe crate says.
pub fn safe<T>(answer: Result<T, Refusal>) -> Verdict {
    answer.map(drop).map_err(|refusal| (refusal.number(), refusal.details().0, refusal.details().1))
}

/// A lent buffer, between marks that a call must leave.
pub struct Lent<T> {
    all: Vec<T>,
    mark: T,
}

impl<T: Copy + PartialEq> Lent<T> {
    /// So many places, each with the mark in it.
    pub fn new(mark: T, room: usize) -> Lent<T> {
        Lent { all: vec![mark; room + 2], mark }
    }

    pub fn of(mark: T, inside: &[T]) -> Lent<T> {
        Lent { all: [&[mark], inside, &[mark]].concat(), mark }
    }

    pub fn ptr(&mut self) -> *mut T {
        self.all[1..].as_mut_ptr()
    }

    /// What the places hold after the call.
    pub fn left(self) -> Vec<T> {
        let [before, inside @ .., behind] = &self.all[..] else { unreachable!("there are two marks") };
        assert!([*before, *behind] == [self.mark; 2], "a place was written that was not lent");
        inside.to_vec()
    }
}

/// The numbers that an entry can answer.
const ENTRIES: [(&str, &[u16]); 27] = [
    ("check_prime", &[0, 2]),
    ("vet", &[0, 1, 2, 3, 4, 6, 7]),
    ("vet_joint", &[0, 1, 2, 3, 4, 6, 7, 8, 19]),
    ("count_pairs", &[0, 1]),
    ("rate", &[0, 1, 10]),
    ("make_table", &[0, 1, 2, 3, 4, 7, 10]),
    ("write_record", &[0, 1, 2, 3, 4]),
    ("derive_keys", &[0, 1, 2, 3, 4, 6, 7, 9]),
    ("upload", &[0, 2, 3, 4, 9]),
    ("unmask", &[0, 2, 3, 4, 9]),
    ("signed_upload", &[0, 1, 2, 3, 4, 9, 15, 16]),
    ("signed_unmask", &[0, 1, 2, 3, 4, 9, 16]),
    ("show_totals", &[0, 1, 2, 3, 4, 9, 16]),
    ("draw", &[0, 4, 9, 13]),
    ("stock_open", &[0, 1, 4, 21]),
    ("stock_draw", &[0, 1, 4, 8, 9, 13, 20, 21]),
    ("server_open", &[0, 1, 2, 9]),
    ("server_count", &[0, 1, 2, 3, 4, 8, 9, 11, 14]),
    ("server_give", &[0, 1, 2, 3, 4, 8, 9, 12]),
    ("window_open", &[0, 17]),
    ("window_push", &[0, 17]),
    ("window_sum", &[0, 17]),
    ("window_largest", &[0, 12, 17]),
    ("relay_open", &[0, 1, 2, 8, 9]),
    ("relay_save", &[0, 1, 2, 3, 4, 8, 9]),
    ("relay_restore", &[0, 1, 2, 3, 4, 5, 8, 9]),
    ("network_vet", &[0, 1, 2, 3, 4, 7, 22]),
];

/// The rest of them.
const OTHER_ENTRIES: [(&str, &[u16]); 5] = [
    ("network_upload", &[0, 1, 2, 3, 4, 8, 22]),
    ("network_sum", &[0, 1, 2, 3, 4, 22]),
    ("network_decode", &[0, 1, 2, 3, 4, 8, 22, 23]),
    ("paper_open", &[0, 1, 2, 3, 4, 5, 6, 7, 16, 18]),
    ("paper_line", &[0, 1, 2, 3, 16, 18]),
];

#[derive(Default)]
pub struct Tally {
    answers: BTreeMap<(&'static str, u16), usize>,
    pub differ: usize,
}

impl Tally {
    /// One call: what the model wants and what was left, the verdict with all lent memory. `what` tells of the input.
    pub fn compare<T: PartialEq + Debug>(
        &mut self,
        entry: &'static str,
        wanted: &(Verdict, T),
        left: &(Verdict, T),
        what: impl Fn() -> String,
    ) {
        let number = wanted.0.map_or_else(|code| code.0, |()| 0);
        *self.answers.entry((entry, number)).or_default() += 1;
        if wanted != left {
            self.complain(|| format!("{entry} left {left:?}, the model {wanted:?}: {}", what()));
        }
    }

    /// The same of the safe crate's method, which is not counted.
    pub fn also<T: PartialEq + Debug>(
        &mut self,
        entry: &'static str,
        wanted: &(Verdict, T),
        left: &(Verdict, T),
        what: impl Fn() -> String,
    ) {
        if wanted != left {
            self.complain(|| format!("{entry} of the safe crate left {left:?}, the model {wanted:?}: {}", what()));
        }
    }

    fn complain(&mut self, what: impl Fn() -> String) {
        self.differ += 1;
        if self.differ <= 8 {
            println!("{}", what());
        }
    }

    pub fn tried(&self) -> usize {
        self.answers.values().sum()
    }

    fn entries() -> impl Iterator<Item = (&'static str, &'static [u16])> {
        ENTRIES.into_iter().chain(OTHER_ENTRIES)
    }

    /// The numbers that were never answered, and entries that were called fewer than a thousand times.
    pub fn unmet(&self) -> Vec<String> {
        let met = |name, number| self.answers.get(&(name, number)).copied().unwrap_or(0);
        let mut unmet = Vec::new();
        for (name, numbers) in Tally::entries() {
            unmet.extend(numbers.iter().filter(|&&number| met(name, number) == 0).map(|number| format!("{name} {number}")));
            if self.answers.iter().filter(|((entry, _), _)| *entry == name).map(|(_, n)| n).sum::<usize>() < 1_000 {
                unmet.push(format!("{name}, called too seldom"));
            }
        }
        unmet
    }

    pub fn print(&self) {
        for (name, _) in Tally::entries() {
            let answers: Vec<String> =
                self.answers.iter().filter(|((entry, _), _)| *entry == name).map(|((_, number), n)| format!("{number}: {n}")).collect();
            println!("{name:16}{}", answers.join("  "));
        }
        self.unmet().iter().for_each(|what| println!("not met: {what}"));
    }
}
