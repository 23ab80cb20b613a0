//! A second reader of records, written from documents 01 and 02 alone.

use kortyghai::Symbol;
use std::sync::OnceLock;

/// Number and details.
pub type Code = (u16, u16, u16);

#[derive(Clone, PartialEq, Eq, Debug)]
pub struct Plan {
    pub clusters: usize,
    pub size: usize,
    pub limit: usize,
    pub rate: usize,
    pub q: Symbol,
    pub table: Vec<Symbol>,
}

/// All primes below 65,536, by crossing out.
fn primes() -> &'static [Symbol] {
    static FOUND: OnceLock<Vec<Symbol>> = OnceLock::new();
    FOUND.get_or_init(|| {
        let mut crossed = vec![false; 65_536];
        (2..256).for_each(|d| (d * d..65_536).step_by(d).for_each(|m| crossed[m] = true));
        (2..65_536).filter(|&n| !crossed[n as usize]).collect()
    })
}

/// Does no prime up to the root divide q?
fn is_prime(q: Symbol) -> bool {
    q >= 2 && primes().iter().take_while(|&&p| p as u64 * p as u64 <= q as u64).all(|&p| q % p != 0)
}

/// A number, low byte first.
fn number(bytes: &[u8]) -> Symbol {
    bytes.iter().rev().fold(0, |sum, &byte| sum << 8 | byte as Symbol)
}

/// The two forms of a record, by its last byte and by how many bytes q and each symbol have.
#[derive(Clone, Copy, PartialEq, Eq, Debug)]
pub enum Form {
    Old,
    Wide,
}

pub const FORMS: [Form; 2] = [Form::Old, Form::Wide];

impl Form {
    pub fn mark(self) -> u8 {
        if self == Form::Old {
            0x50
        } else {
            0x51
        }
    }

    pub fn width(self) -> usize {
        if self == Form::Old {
            2
        } else {
            4
        }
    }

    /// D of a plan with so many symbols: the counts, q, the symbols, the distance and the marks.
    pub fn distance(self, symbols: usize) -> usize {
        4 + self.width() + self.width() * symbols + 4
    }

    /// Is this the form that a plan with such a q has?
    fn is_form_of(self, q: Symbol) -> bool {
        (self == Form::Wide) == (q >= 65_536)
    }
}

/// What the reader finds first, in the order of its checks.
#[derive(Clone, Copy, PartialEq, Eq, Debug)]
pub enum Found {
    /// 5, four times
    UnderFourBytes,
    NeitherMark,
    DistanceTooSmall,
    BeyondTheBytes,
    /// 1
    OutOfBounds,
    /// 4, twice
    DistanceNotThePlans,
    LentWrongly,
    /// 2, twice
    NoPrime,
    OtherFormsPrime,
    /// 3
    NotASymbol,
    Plan,
}

pub const FINDINGS: [(Found, u16, &str); 11] = [
    (Found::UnderFourBytes, 5, "under four bytes"),
    (Found::NeitherMark, 5, "neither mark"),
    (Found::DistanceTooSmall, 5, "D under 10, or 12 of a wide one"),
    (Found::BeyondTheBytes, 5, "D beyond the bytes"),
    (Found::OutOfBounds, 1, "a count outside its bounds"),
    (Found::DistanceNotThePlans, 4, "D not the plan's"),
    (Found::LentWrongly, 4, "lent length"),
    (Found::NoPrime, 2, "q no prime"),
    (Found::OtherFormsPrime, 2, "a prime below 65,536 in a wide one"),
    (Found::NotASymbol, 3, "a symbol not below q"),
    (Found::Plan, 0, "a plan"),
];

impl Found {
    pub fn code(self) -> Code {
        (FINDINGS[self as usize].1, 0, 0)
    }
}

/// The form that the last bytes say, where they say one.
fn form_of(bytes: &[u8]) -> Result<Form, Found> {
    let [.., _, _, first, last] = *bytes else { return Err(Found::UnderFourBytes) };
    FORMS.into_iter().find(|form| (first, last) == (0x4B, form.mark())).ok_or(Found::NeitherMark)
}

/// The bytes from the record's first one to its last symbol.
fn body(bytes: &[u8], form: Form) -> Result<&[u8], Found> {
    let trailer = bytes.len() - 4;
    let distance = number(&bytes[trailer..trailer + 2]) as usize;
    if distance < form.distance(0) {
        return Err(Found::DistanceTooSmall);
    }
    let start = bytes.len().checked_sub(distance).ok_or(Found::BeyondTheBytes)?;
    Ok(&bytes[start..trailer])
}

/// The plan of a record's body. `lent` says whether the lent table has its exact length.
fn plan_of(body: &[u8], form: Form, lent: bool) -> Result<Plan, Found> {
    let [clusters, size, limit, rate] = [body[0], body[1], body[2], body[3]].map(usize::from);
    let users = clusters * size;
    let fits = (1..=8).contains(&clusters) && (1..=8).contains(&size) && users <= 16 && limit <= users && (1..=16).contains(&rate);
    if !fits {
        return Err(Found::OutOfBounds);
    }
    if body.len() + 4 != form.distance(users * rate) {
        return Err(Found::DistanceNotThePlans);
    }
    if !lent {
        return Err(Found::LentWrongly);
    }
    let mut numbers = body[4..].chunks(form.width()).map(number);
    let q = numbers.next().unwrap();
    if !is_prime(q) {
        return Err(Found::NoPrime);
    }
    if !form.is_form_of(q) {
        return Err(Found::OtherFormsPrime);
    }
    let table: Vec<Symbol> = numbers.collect();
    if table.iter().any(|&x| x >= q) {
        return Err(Found::NotASymbol);
    }
    Ok(Plan { clusters, size, limit, rate, q, table })
}

/// A reading: the form of the record, where there is one, and the plan, or what is found first.
pub struct Reading {
    pub form: Option<Form>,
    pub plan: Result<Plan, Found>,
}

impl Reading {
    pub fn found(&self) -> Found {
        self.plan.as_ref().map_or_else(|found| *found, |_| Found::Plan)
    }

    pub fn code(&self) -> Code {
        self.found().code()
    }
}

/// "Reading a record: 5, 1, 4, 2, 3"; `lent` is how many symbols the lent table has.
pub fn read(bytes: &[u8], lent: usize) -> Reading {
    let form = form_of(bytes);
    let plan = form.and_then(|form| plan_of(body(bytes, form)?, form, lent == 256));
    Reading { form: form.ok(), plan }
}
