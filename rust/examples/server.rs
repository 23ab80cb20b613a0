//! The server (the papers' duty desk): it hears relays' sums, shows the total of each round with its sign, and keeps a window over the last totals.
//!
//!     cargo run --release --example server
//!
//! It prints a line for what it refuses and a line a round, and compares all that it shows with what the users really read. The exit status is 0 where all is
//! the same, and 1 where something differs. The server itself is the struct `Server`; what is behind it, `Field`, stands for the users and relays out there.

use kortyghai::{Counts, KeyTable, Plan, Refusal, RelayRound, ServerRound, Symbol, Window};
use std::process::ExitCode;

/// The pool: three clusters of two users, coalitions of at most one, blocks of two positions, and readings from −CAP to CAP, which all parts have to know.
const POOL: Counts = Counts { clusters: 3, size: 2, limit: 1 };
const Q: Symbol = 65_521;
const GENERATOR: Symbol = 2;
const LENGTH: usize = 2;
const CAP: u32 = 1_000;

/// The day: rounds 40 to 45, and a window over the last four.
const FIRST: u32 = 40;
const ROUNDS: u32 = 6;
const SPAN: usize = 4;

type Block = [Symbol; LENGTH];
type Shown = [i32; LENGTH];

/// The server: the plan, the round that is open, and a window for each position.
struct Server {
    plan: Plan,
    round: ServerRound,
    windows: [Window; LENGTH],
}

impl Server {
    fn new(plan: Plan) -> Result<Server, Refusal> {
        let round = ServerRound::open(&plan, LENGTH as u32, FIRST)?;
        Ok(Server { plan, round, windows: [Window::open(SPAN)?, Window::open(SPAN)?] })
    }

    /// A relay's sums. A refused frame has changed nothing, so the server says which it was and goes on.
    fn hear(&mut self, relay: usize, said: u32, block: &[Symbol]) -> Result<(), Refusal> {
        let answer = self.round.count(relay, said, block);
        if let Err(refusal) = answer {
            println!("    round {}, relay {relay}: {refusal}", self.round.number);
        }
        answer
    }

    /// The totals of a round in which every relay has reported, with their signs. They go into the windows, and the next round is opened: a server's
    /// round has no frames held for the next, so what came early is heard again.
    fn close(&mut self) -> Result<Shown, Refusal> {
        let (mut total, mut shown) = ([0; LENGTH], [0; LENGTH]);
        self.round.give(&mut total)?;
        self.plan.show_totals(CAP, &total, &mut shown)?;
        for (window, &total) in self.windows.iter_mut().zip(&shown) {
            window.push(total)?;
        }
        self.round = ServerRound::open(&self.plan, LENGTH as u32, self.round.number + 1)?;
        Ok(shown)
    }
}

/// The users and relays: a table to deal keys from, and a toy generator. Real source keys are drawn evenly by a good one, and used once.
struct Field {
    table: KeyTable,
    seed: u32,
}

impl Field {
    fn symbol(&mut self) -> Symbol {
        self.seed = self.seed.wrapping_mul(1_664_525).wrapping_add(1_013_904_223);
        (self.seed >> 8) % Q
    }

    /// What each relay sends in a round.
    fn sums(&mut self, round: u32) -> Result<Vec<Block>, Refusal> {
        let plan = *self.table.plan();
        let source: Vec<Symbol> = (0..plan.rate as usize * LENGTH).map(|_| self.symbol()).collect();
        let mut keys = vec![0; plan.users() * LENGTH];
        self.table.derive_keys(LENGTH, &source, &mut keys)?;
        let mut users = keys.chunks(LENGTH).zip(0..);
        let mut relay = |cluster| {
            let mut relay = RelayRound::open(&plan, LENGTH as u32, cluster, round)?;
            for (sender, (key, index)) in (1..=plan.size as usize).zip(&mut users) {
                let mut upload = [0; LENGTH];
                plan.signed_upload(CAP, &reading(round, index), key, &mut upload)?;
                relay.count(sender, round, &upload)?;
            }
            let mut sums = [0; LENGTH];
            relay.give(&mut sums).map(|()| sums)
        };
        (1..=plan.clusters).map(&mut relay).collect()
    }
}

/// What a user reads: some draw power, some feed it in.
fn reading(round: u32, index: u32) -> Shown {
    let cap = CAP as i32;
    [1, 2].map(|position| (round * 7_919 + index * 613 * position + position * 97) as i32 % (2 * cap + 1) - cap)
}

/// What the users of a round really read, all together: nobody in the pool knows it but by the server's total.
fn truth(round: u32) -> Shown {
    let users = POOL.clusters * POOL.size;
    (0..users).map(|index| reading(round, index)).fold([0; LENGTH], |sum, one| [sum[0] + one[0], sum[1] + one[1]])
}

/// One round's frames in an order of its own, and after each something that must be refused; how many answers were wrong.
fn deliver(server: &mut Server, round: u32, sums: &[Block]) -> u32 {
    let relays = sums.len();
    let mut wrong = 0;
    for turn in 0..relays {
        wrong += u32::from(server.close() != Err(Refusal::NotFull));
        let relay = (turn + round as usize) % relays + 1;
        let block = sums[relay - 1];
        wrong += u32::from(server.hear(relay, round, &block) != Ok(()));
        let (answer, expected) = match (round + turn as u32) % 5 {
            0 => (server.hear(relay, round, &block), Refusal::AlreadyReported),
            1 => (server.hear(relay, round - 1, &block), Refusal::OtherRound),
            2 => (server.hear(relays + 1, round, &block), Refusal::UnknownNumber),
            3 => (server.hear(relay, round, &block[1..]), Refusal::WrongLength),
            _ => (server.hear(relay, round, &[Q, 0]), Refusal::NotASymbol),
        };
        wrong += u32::from(answer != Err(expected));
    }
    wrong
}

/// The day, and how many things differed.
pub fn run() -> Result<u32, Refusal> {
    let mut field = Field { table: POOL.make_table(Q, GENERATOR)?, seed: 1 };
    let mut server = Server::new(*field.table.plan())?;
    let (mut differ, mut past) = (0, Vec::new());
    for round in FIRST..FIRST + ROUNDS {
        differ += deliver(&mut server, round, &field.sums(round)?);
        let shown = server.close()?;
        past.push(truth(round));
        let last = &past[past.len().saturating_sub(SPAN)..];
        let (mut sums, mut largest) = ([0; LENGTH], [0; LENGTH]);
        for (position, window) in server.windows.iter().enumerate() {
            (sums[position], largest[position]) = (window.sum()?, window.largest()?);
            let of_position = || last.iter().map(|totals| totals[position]);
            differ += u32::from(shown[position] != truth(round)[position]);
            differ += u32::from(sums[position] != of_position().map(i64::from).sum());
            differ += u32::from(Some(largest[position]) != of_position().max());
        }
        println!("round {round}: totals {shown:5?}; of the last {}: sums {sums:5?}, largest {largest:5?}", last.len());
    }
    Ok(differ)
}

pub fn main() -> ExitCode {
    match run() {
        Ok(differ) => {
            println!("{ROUNDS} rounds: {differ} differ");
            ExitCode::from(u8::from(differ != 0))
        }
        Err(refusal) => {
            println!("refused where nothing should be: {refusal}");
            ExitCode::FAILURE
        }
    }
}
