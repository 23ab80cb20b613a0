//! Throws seeded buffers at the archive's vet and reader of records, and compares every answer and every lent buffer with a
//! model of its own. `hostile [COUNT] [SEED]`; a million and 7 where nothing is said. The exit status is 1 where one differs.

mod buffers;
mod model;
mod reader;
mod seeded;

use kortyghai::{raw, Symbol};
use reader::{Code, Form, Found, Plan, Reading, FINDINGS, FORMS};
use seeded::Seeded;
use std::time::Instant;

type Leaks = fn(&Plan, usize, usize) -> bool;

/// What a kind of damage makes of a record.
type Damage = fn(&mut Seeded, Vec<u8>) -> Vec<u8>;

/// What the lent buffers hold before a call, and the places after them that are not lent.
const MARK: Symbol = 0xABCD_ABCD;

/// How often the model answered each number, and how often the archive's function answered or wrote another thing.
#[derive(Default)]
struct Tally {
    numbers: [usize; 8],
    differ: usize,
}

impl Tally {
    fn add(&mut self, number: u16, right: bool) {
        self.numbers[number as usize] += 1;
        self.differ += !right as usize;
    }

    fn join(&mut self, other: &Tally) {
        self.numbers.iter_mut().zip(other.numbers).for_each(|(n, m)| *n += m);
        self.differ += other.differ;
    }

    fn print(&self, name: &str) {
        let numbers: String = self.numbers.iter().map(|n| format!("{n:8}")).collect();
        println!("{name:34}{:8}{numbers}{:8}", self.numbers.iter().sum::<usize>(), self.differ);
    }
}

/// What the model's vet can say of a plan that was read.
const VERDICTS: [(u16, &str); 3] = [(6, "rows that don't sum to zero"), (7, "a plan that leaks"), (0, "an accepted plan")];

/// How often the model's reader found each thing, and its vet said each: of no record, of an old one, of a wide one.
#[derive(Clone, Copy, Default)]
struct Findings {
    read: [[usize; 3]; FINDINGS.len()],
    vetted: [[usize; 3]; VERDICTS.len()],
}

fn column(form: Option<Form>) -> usize {
    form.map_or(0, |form| 1 + form as usize)
}

impl Findings {
    fn add_read(&mut self, reading: &Reading) {
        self.read[reading.found() as usize][column(reading.form)] += 1;
    }

    fn add_vetted(&mut self, number: u16, form: Option<Form>) {
        let verdict = VERDICTS.iter().position(|verdict| verdict.0 == number);
        verdict.into_iter().for_each(|verdict| self.vetted[verdict][column(form)] += 1);
    }

    fn join(&mut self, other: &Findings) {
        let theirs = other.read.iter().chain(&other.vetted).flatten();
        self.read.iter_mut().chain(&mut self.vetted).flatten().zip(theirs).for_each(|(n, m)| *n += m);
    }

    /// Whether everything was met in each form that can have it: two findings come before there is a form, and one is of a wide
    /// record alone.
    fn all_met(&self) -> bool {
        let both = |met: &[usize; 3]| FORMS.iter().all(|&form| met[column(Some(form))] > 0);
        let read = self.read.iter().zip(FINDINGS).all(|(met, (found, ..))| match found {
            Found::UnderFourBytes | Found::NeitherMark => met[0] > 0,
            Found::OtherFormsPrime => met[column(Some(Form::Wide))] > 0,
            _ => both(met),
        });
        read && self.vetted.iter().all(both)
    }

    fn print(&self) {
        let line = |number: u16, name: &str, met: &[usize; 3]| {
            println!("{:46}{:9}{:9}{:9}", format!("{number}: {name}"), met[0], met[1], met[2]);
        };
        println!("{:46}{:>9}{:>9}{:>9}", "read_record, what the model found first", "neither", "old", "wide");
        self.read.iter().zip(FINDINGS).for_each(|(met, (_, number, name))| line(number, name, met));
        println!("vet_record, what it found then");
        self.vetted.iter().zip(VERDICTS).for_each(|(met, (number, name))| line(number, name, met));
        println!("each was {}met in each form that can have it", if self.all_met() { "" } else { "NOT " });
    }
}

struct Kind {
    name: &'static str,
    vetted: Tally,
    read: Tally,
    findings: Findings,
    /// Leaks whose first pair has some user in its coalition, and those whose observer is the server.
    joined: usize,
    server: usize,
}

fn code(answer: Result<(), kortyghai::Refusal>) -> Code {
    answer.map_or_else(|r| (r.number(), r.details().0, r.details().1), |()| (0, 0, 0))
}

/// What is read and written again is the record that was read; the safe crate reads the same plan.
fn written_again(bytes: &[u8], plan: &Plan) -> bool {
    let Ok(table) = kortyghai::KeyTable::read_record(bytes) else { return false };
    let read = table.plan();
    let numbers = [read.clusters, read.size, read.limit, read.rate].map(|n| n as usize);
    let mut record = vec![0; read.record_size()];
    table.write_record(&mut record) == Ok(())
        && bytes.ends_with(&record)
        && (numbers, read.q, table.symbols()) == ([plan.clusters, plan.size, plan.limit, plan.rate], plan.q, &plan.table[..])
}

fn hex(bytes: &[u8]) -> String {
    let shown: Vec<String> = bytes.iter().rev().take(80).rev().map(|b| format!("{b:02X}")).collect();
    format!("{} bytes, the last: {}", bytes.len(), shown.join(" "))
}

impl Kind {
    fn named(name: &'static str) -> Kind {
        Kind { name, vetted: Tally::default(), read: Tally::default(), findings: Findings::default(), joined: 0, server: 0 }
    }

    fn tried(&self) -> usize {
        self.vetted.numbers.iter().sum()
    }

    /// The vet of a record, then the reader with lent buffers that are mostly of the right lengths.
    fn attempt(&mut self, s: &mut Seeded, bytes: &[u8], leaks: Leaks) {
        self.vet_one(bytes, leaks);
        let lent = if s.below(8) > 0 { 256 } else { s.one_of(&[0, 1, 12, 255, 257, 299]) };
        self.read_one(bytes, lent);
    }

    fn vet_one(&mut self, bytes: &[u8], leaks: Leaks) {
        let (wanted, form) = model::vet_record(bytes, leaks);
        let got = code(kortyghai::vet_record(bytes));
        if got != wanted && self.vetted.differ < 5 {
            println!("{}: vet_record says {got:?}, the model {wanted:?}: {}", self.name, hex(bytes));
        }
        self.vetted.add(wanted.0, got == wanted);
        self.findings.add_vetted(wanted.0, form);
        self.joined += (wanted.0 == 7 && wanted.1 > 0) as usize;
        self.server += (wanted.0 == 7 && wanted.2 == 0) as usize;
    }

    /// A refused read leaves both lent buffers as they were; an accepted one writes them, and nothing past them.
    fn read_one(&mut self, bytes: &[u8], lent: usize) {
        let (mut table, mut counts) = ([MARK; 300], [[MARK; 5]; 3]);
        // between two others that are not lent
        let [_, lent_counts, _] = &mut counts;
        let answer = unsafe { raw::kortyghai_read_record(bytes.as_ptr(), bytes.len(), lent_counts, table.as_mut_ptr(), lent) };
        let got = code(kortyghai::Refusal::unpack(answer));
        let (mut full, mut five) = ([MARK; 300], [[MARK; 5]; 3]);
        let reading = reader::read(bytes, lent);
        let wanted = reading.code();
        if let Ok(plan) = &reading.plan {
            full[..256].fill(0);
            full[..plan.table.len()].copy_from_slice(&plan.table);
            five[1][..4].copy_from_slice(&[plan.clusters, plan.size, plan.limit, plan.rate].map(|n| n as Symbol));
            five[1][4] = plan.q;
        }
        let again = reading.plan.as_ref().map_or(true, |plan| written_again(bytes, plan));
        let written = table == full && counts == five && again;
        let right = got == wanted && written;
        if !right && self.read.differ < 5 {
            let buffers = if written { "the same buffers" } else { "other buffers" };
            println!("{}: read_record says {got:?}, the model {wanted:?}, {buffers} ({lent}): {}", self.name, hex(bytes));
        }
        self.read.add(wanted.0, right);
        self.findings.add_read(&reading);
    }
}

/// Every length from 0 to 40 and from 65,530 to 65,540: zeros, chance, a record at the end, and a trailer of either form whose
/// distance is the buffer's length or the least.
fn edges(s: &mut Seeded) -> Kind {
    let mut kind = Kind::named("every length near the edges");
    for n in (0..=40).chain(65_530..=65_540) {
        for round in 0..40 {
            let mut bytes = if round == 0 { vec![0; n] } else { s.bytes(n) };
            let form = FORMS[round / 5 % 2];
            let end = match round % 5 {
                1 | 2 => buffers::record(&buffers::plan(s)),
                3 => buffers::trailer(n, form).to_vec(),
                4 => buffers::trailer(form.distance(0), form).to_vec(),
                _ => Vec::new(),
            };
            let put = end.len().min(n);
            bytes[n - put..].copy_from_slice(&end[end.len() - put..]);
            kind.attempt(s, &bytes, model::leaks_by_solving);
        }
    }
    kind
}

/// Every part and every change of one byte of a record.
fn each_byte(s: &mut Seeded, name: &'static str, record: &[u8]) -> Kind {
    let mut kind = Kind::named(name);
    for place in 0..record.len() {
        for byte in 0..=255 {
            let mut bytes = record.to_vec();
            bytes[place] = byte;
            kind.attempt(s, &bytes, model::leaks_by_solving);
        }
    }
    for from in 0..=record.len() {
        for to in from..=record.len() {
            kind.attempt(s, &record[from..to], model::leaks_by_solving);
        }
    }
    kind
}

/// `count` buffers of one kind.
fn seeded(s: &mut Seeded, name: &'static str, count: usize, leaks: Leaks, make: impl Fn(&mut Seeded) -> Vec<u8>) -> Kind {
    let mut kind = Kind::named(name);
    for _ in 0..count {
        let bytes = make(s);
        kind.attempt(s, &bytes, leaks);
    }
    kind
}

fn all_kinds(s: &mut Seeded, count: usize) -> Vec<Kind> {
    let damaged: [(&'static str, Damage); 10] = [
        ("records as they are", |_, bytes| bytes),
        ("bytes changed", buffers::changed),
        ("truncated", buffers::truncated),
        ("extended in front", buffers::extended_in_front),
        ("extended behind", buffers::extended_behind),
        ("trailer damaged", buffers::trailer_damaged),
        ("distance damaged", buffers::distance_damaged),
        ("count damaged", buffers::count_damaged),
        ("symbol damaged", buffers::symbol_damaged),
        ("joined", buffers::joined),
    ];
    let mut kinds = vec![edges(s)];
    kinds.push(each_byte(s, "small pool: each byte, each part", &buffers::SMALL));
    kinds.push(each_byte(s, "wide pool: each byte, each part", &buffers::WIDE));
    let (tiny, large) = (count / 50, count / 100);
    kinds.push(seeded(s, "tiny plans, views counted", tiny, model::leaks_by_counting, |s| buffers::record(&buffers::tiny(s))));
    kinds.push(seeded(s, "plans of up to 16 users", large, model::leaks_by_solving, |s| buffers::record(&buffers::large(s))));
    let left = count.saturating_sub(kinds.iter().map(Kind::tried).sum());
    let each = left / 13;
    for (name, damage) in damaged {
        kinds.push(seeded(s, name, each, model::leaks_by_solving, |s| {
            let bytes = buffers::record(&buffers::plan(s));
            damage(s, bytes)
        }));
    }
    kinds.push(seeded(s, "written in the other form", each, model::leaks_by_solving, buffers::other_form));
    kinds.push(seeded(s, "small numbers, right trailer", each, model::leaks_by_solving, buffers::small_noise));
    kinds.push(seeded(s, "bytes by chance", left - 12 * each, model::leaks_by_solving, buffers::noise));
    kinds
}

/// Prints what was tried, kind by kind, and what was found, form by form. Gives back how many answers differ, and what was found.
fn tell(kinds: &[Kind]) -> (usize, Findings) {
    let numbers: String = (0..8).map(|n| format!("{n:8}")).collect();
    println!("{:34}{:>8}{numbers}{:>8}", "vet_record, kind of buffer", "tried", "differ");
    let (mut vetted, mut read, mut findings) = (Tally::default(), Tally::default(), Findings::default());
    for kind in kinds {
        kind.vetted.print(kind.name);
        vetted.join(&kind.vetted);
        read.join(&kind.read);
        findings.join(&kind.findings);
    }
    vetted.print("vet_record, all");
    read.print("read_record, the same buffers");
    let (joined, server): (usize, usize) = (kinds.iter().map(|kind| kind.joined).sum(), kinds.iter().map(|kind| kind.server).sum());
    println!("of the leaks (7), {joined} need a coalition of some users, and {server} are to the server");
    findings.print();
    (vetted.differ + read.differ, findings)
}

fn main() {
    let mut arguments = std::env::args().skip(1).map(|word| word.parse().expect("a whole number"));
    let count = arguments.next().unwrap_or(1_000_000);
    let seed = arguments.next().unwrap_or(7);
    let start = Instant::now();
    let kinds = all_kinds(&mut Seeded(seed as u64), count);
    let (differ, _) = tell(&kinds);
    let tried: usize = kinds.iter().map(Kind::tried).sum();
    println!("seed {seed}, {:.0} s: {tried} buffers, {differ} differ", start.elapsed().as_secs_f64());
    if differ > 0 {
        std::process::exit(1);
    }
}

#[cfg(test)]
mod tests {
    use super::*;

    #[test]
    fn the_models_agree_on_the_small_pool() {
        let mut bytes = buffers::SMALL;
        for (limit, wanted) in [(0, (0, 0, 0)), (1, (0, 0, 0)), (2, (7, 3, 2))] {
            bytes[2] = limit;
            assert_eq!(model::vet_record(&bytes, model::leaks_by_solving), (wanted, Some(Form::Old)));
            assert_eq!(model::vet_record(&bytes, model::leaks_by_counting), (wanted, Some(Form::Old)));
        }
    }

    #[test]
    fn the_model_reads_both_forms() {
        let numbers = |bytes: &[u8]| reader::read(bytes, 256).plan.map(|plan| (plan.q, plan.table));
        let q = 4_294_967_291;
        let table = vec![1, 0, 0, 1, 65_536, 5, 1, 5, 25, q - 3, q - 65_541, q - 30];
        assert_eq!(numbers(&buffers::WIDE), Ok((q, table)));
        assert_eq!(numbers(&buffers::SMALL), Ok((5, vec![1, 0, 0, 1, 2, 4, 1, 4, 1, 2, 4, 0])));
        assert_eq!(model::vet_record(&buffers::WIDE, model::leaks_by_solving), ((0, 0, 0), Some(Form::Wide)));
        let with = |place: usize, by: &[u8]| {
            let mut bytes = buffers::WIDE;
            bytes[place..place + by.len()].copy_from_slice(by);
            reader::read(&bytes, 256).found()
        };
        assert_eq!([with(56, &[11]), with(56, &[12])], [Found::DistanceTooSmall, Found::OutOfBounds]);
        assert_eq!([with(59, &[0x50]), with(59, &[0x52])], [Found::DistanceNotThePlans, Found::NeitherMark]);
        assert_eq!([with(4, &[0xF1, 0xFF, 0, 0]), with(4, &[5, 0, 1, 0])], [Found::OtherFormsPrime, Found::NoPrime]);
        assert_eq!(with(8, &[0xFB, 0xFF, 0xFF, 0xFF]), Found::NotASymbol);
    }

    #[test]
    fn none_of_sixty_thousand_differs() {
        let (differ, findings) = tell(&all_kinds(&mut Seeded(1), 60_000));
        assert_eq!((differ, findings.all_met()), (0, true));
    }
}
