//! A pool from end to end, on one machine: a planner, sixteen users (meters), four relays (gateways) and the server (the desk). Run it by
//!
//!     cargo run --release --example pool
//!
//! In a real pool each of the five parts below runs somewhere else, and what goes from one to the other goes over a wire: the planner's record, a
//! user's keys, its frames, a relay's sums.

use kortyghai::{Counts, KeyStream, KeyTable, Plan, Refusal, RelayRound, ServerRound, Symbol, Window};
use std::collections::VecDeque;

/// Four clusters of four users; a relay, or the server, together with any three users must learn nothing more.
const COUNTS: Counts = Counts { clusters: 4, size: 4, limit: 3 };

/// Readings are whole watts from −CAP (feeding in) to CAP. All sixteen together must not reach q, so that totals don't wrap: 2 × 16 × CAP is below q. A
/// cap that is too large is refused.
const CAP: u32 = 100_000;
const Q: Symbol = 4_294_967_291;

/// A block has three positions: three quantities that are read at once.
const LENGTH: usize = 3;

const ROUNDS: u32 = 8;

/// Numbers for the example alone. **Never draw keys like this**: a source key must be drawn evenly from 0 to q − 1 by a generator made for secrets, be
/// fresh, and be used once.
struct Dice(u64);

impl Dice {
    fn below(&mut self, n: u64) -> u64 {
        self.0 = self.0.wrapping_mul(6_364_136_223_846_793_005).wrapping_add(1_442_695_040_888_963_407);
        (self.0 >> 32) % n
    }
}

// ---- the planner

/// Makes a table, vets it, and writes the record that goes to all others.
fn plan_the_pool() -> Result<Vec<u8>, Refusal> {
    println!("the vet will look at {} pairs of coalition and observer", COUNTS.pairs()?);
    let table = COUNTS.make_table(Q, 65_536)?;
    let report = table.vet_joint(None);
    println!("it looked at {}, and accepts the table: {:?}", report.looked, report.verdict);
    // a table that hides from three colluding users need not hide from more
    let wider = KeyTable::new(Plan { limit: 9, ..*table.plan() }, table.symbols())?;
    println!("for coalitions of nine it would not do: {}", wider.vet().unwrap_err());
    let mut record = vec![0; table.plan().record_size()];
    table.write_record(&mut record)?;
    println!("the plan's record has {} bytes\n", record.len());
    Ok(record)
}

// ---- whoever deals keys

/// Each user's keys of one round: U × V blocks of L symbols. The source symbols come from a stream whose position only goes forward, so that none is used
/// twice; a draw gives up to 64.
fn deal(table: &KeyTable, stream: &mut KeyStream) -> Result<Vec<Symbol>, Refusal> {
    let mut source = vec![0; table.plan().rate as usize * LENGTH];
    for block in source.chunks_mut(kortyghai::MAX_LENGTH) {
        stream.draw(block)?;
    }
    let mut keys = vec![0; table.plan().users() * LENGTH];
    // this vets the table once more: keys are never dealt from one that leaks
    table.derive_keys(LENGTH, &source, &mut keys)?;
    Ok(keys)
}

// ---- a user

/// What a user sends: sender, round number, and the readings under the round's key.
struct Frame {
    cluster: usize,
    sender: usize,
    round: u32,
    block: [Symbol; LENGTH],
}

/// The frame of a user, by its index.
fn frame(plan: &Plan, index: usize, round: u32, readings: &[i32; LENGTH], keys: &[Symbol]) -> Result<Frame, Refusal> {
    let mut block = [0; LENGTH];
    plan.signed_upload(CAP, readings, &keys[index * LENGTH..(index + 1) * LENGTH], &mut block)?;
    let size = plan.size as usize;
    Ok(Frame { cluster: index / size, sender: index % size + 1, round, block })
}

// ---- a relay

/// A relay with the memory that outlives a power cut: saves, one after the other.
struct Relay {
    round: RelayRound,
    saves: Vec<u8>,
    used: usize,
}

impl Relay {
    fn open(plan: &Plan, cluster: usize) -> Result<Relay, Refusal> {
        let round = RelayRound::open(plan, LENGTH as u32, cluster as u32 + 1, 1)?;
        Ok(Relay { round, saves: vec![0; 4_096], used: 0 })
    }

    /// A frame of this round is counted, one of the next is held; a repeated or late one is refused, and nothing has changed then.
    fn hear(&mut self, frame: &Frame) -> Result<(), Refusal> {
        self.round.count(frame.sender, frame.round, &frame.block)
    }

    /// Once all have reported: the sums for the server, and on to the next round with the frames that came early.
    fn sums(&mut self) -> Result<[Symbol; LENGTH], Refusal> {
        let mut sums = [0; LENGTH];
        self.round.give(&mut sums)?;
        self.round.advance()?;
        Ok(sums)
    }

    fn save(&mut self) -> Result<(), Refusal> {
        self.round.save(&mut self.saves, &mut self.used)
    }

    /// The power is back: the round of the last save. What was counted since has to come again.
    fn restore(&mut self) -> Result<(), Refusal> {
        self.round = RelayRound::restore(&self.saves[..self.used], 0)?;
        Ok(())
    }
}

// ---- the server

struct Server {
    plan: Plan,
    window: Window,
}

impl Server {
    /// A round from its opening to the shown totals: exact sums of all readings, and nothing else is known here.
    fn total(&mut self, number: u32, sums: &[[Symbol; LENGTH]]) -> Result<[i32; LENGTH], Refusal> {
        let mut round = ServerRound::open(&self.plan, LENGTH as u32, number)?;
        for (relay, block) in sums.iter().enumerate() {
            round.count(relay + 1, number, block)?;
        }
        let (mut totals, mut shown) = ([0; LENGTH], [0; LENGTH]);
        round.give(&mut totals)?;
        self.plan.show_totals(CAP, &totals, &mut shown)?;
        self.window.push(shown[0])?;
        Ok(shown)
    }
}

/// The frames of all rounds in the order in which they arrive: a fast user sends round r + 1 while a slow one still owes round r.
fn mixed(mut frames: VecDeque<Frame>, dice: &mut Dice) -> VecDeque<Frame> {
    for _ in 0..20_000 {
        let i = dice.below(frames.len() as u64 - 1) as usize;
        let (a, b) = (&frames[i], &frames[i + 1]);
        // one user's frames stay in order
        if (a.cluster, a.sender) != (b.cluster, b.sender) {
            frames.swap(i, i + 1);
        }
    }
    frames
}

/// What a user read in a round.
type Reading = (u32, [i32; LENGTH]);

/// The frames of all users in all rounds, and what they read, to compare with.
fn read_and_sent(table: &KeyTable, dice: &mut Dice) -> Result<(VecDeque<Frame>, Vec<Reading>), Refusal> {
    let plan = table.plan();
    // the key stream: see `Dice`
    let symbols: Vec<Symbol> = (0..plan.rate as u64 * LENGTH as u64 * ROUNDS as u64).map(|_| dice.below(Q as u64) as Symbol).collect();
    let mut stream = KeyStream::new(&symbols);
    let (mut frames, mut readings) = (VecDeque::new(), Vec::new());
    for round in 1..=ROUNDS {
        let keys = deal(table, &mut stream)?;
        for index in 0..plan.users() {
            let read = [(); LENGTH].map(|()| dice.below(2 * CAP as u64 + 1) as i32 - CAP as i32);
            frames.push_back(frame(plan, index, round, &read, &keys)?);
            readings.push((round, read));
        }
    }
    println!("user 1 reads {:?} in round 1 and sends {:?}", readings[0].1, frames[0].block);
    println!("the key stream has {} symbols left\n", stream.left());
    Ok((frames, readings))
}

/// The relays, the wires to the server, and the server.
struct Day {
    relays: Vec<Relay>,
    /// What relay 1 has counted since its last save.
    since_the_save: Vec<Frame>,
    /// The sums that each relay has sent, round by round.
    sums: Vec<Vec<[Symbol; LENGTH]>>,
    server: Server,
    /// The round that the server is in.
    round: u32,
    early: usize,
}

impl Day {
    fn new(plan: Plan) -> Result<Day, Refusal> {
        let relays = (0..4).map(|cluster| Relay::open(&plan, cluster)).collect::<Result<_, _>>()?;
        let server = Server { plan, window: Window::open(4)? };
        Ok(Day { relays, since_the_save: Vec::new(), sums: vec![Vec::new(); 4], server, round: 1, early: 0 })
    }

    /// A frame at its relay. One that is much too early, of the round after the next, is given back.
    fn deliver(&mut self, frame: Frame) -> Result<Option<Frame>, Refusal> {
        let relay = &mut self.relays[frame.cluster];
        match relay.hear(&frame) {
            Err(Refusal::OtherRound) => return Ok(Some(frame)),
            answer => answer?,
        }
        self.early += (frame.round > relay.round.number) as usize;
        // a frame that is repeated changes nothing
        assert_eq!(relay.hear(&frame), Err(Refusal::AlreadyReported));
        if frame.cluster == 0 {
            self.since_the_save.push(frame);
        }
        Ok(None)
    }

    /// A power cut at relay 1: it comes back from its last save, and hears again, in the same order, what it counted since.
    fn cut_the_power(&mut self) -> Result<(), Refusal> {
        let relay = &mut self.relays[0];
        let before = relay.round.clone();
        relay.restore()?;
        for frame in &self.since_the_save {
            relay.hear(frame)?;
        }
        assert_eq!(relay.round, before);
        println!("relay 1 lost its power in round {}, and is where it was", before.number);
        Ok(())
    }

    /// Whoever has all of its round sends the sums and moves on. Relay 1 is saved then.
    fn collect(&mut self) -> Result<(), Refusal> {
        for (cluster, relay) in self.relays.iter_mut().enumerate() {
            let Ok(block) = relay.sums() else { continue };
            self.sums[cluster].push(block);
            if cluster == 0 {
                relay.save()?;
                self.since_the_save.clear();
            }
        }
        Ok(())
    }

    /// The server has its total as soon as all four have sent their sums of its round.
    fn settle(&mut self, readings: &[Reading]) -> Result<(), Refusal> {
        while self.sums.iter().all(|sent| sent.len() >= self.round as usize) {
            let blocks: Vec<_> = self.sums.iter().map(|sent| sent[self.round as usize - 1]).collect();
            let shown = self.server.total(self.round, &blocks)?;
            let of_round = || readings.iter().filter(|read| read.0 == self.round);
            assert_eq!(shown, [0, 1, 2].map(|p| of_round().map(|read| read.1[p]).sum::<i32>()));
            let (sum, most) = (self.server.window.sum()?, self.server.window.largest()?);
            println!("round {}: totals {shown:?}; the last four first ones are {sum} in sum and {most} at most", self.round);
            self.round += 1;
        }
        Ok(())
    }
}

pub fn main() -> Result<(), Refusal> {
    let mut dice = Dice(29);
    let record = plan_the_pool()?;
    // everyone reads the record
    let table = KeyTable::read_record(&record)?;
    let (frames, readings) = read_and_sent(&table, &mut dice)?;
    let mut waiting = mixed(frames, &mut dice);

    let mut day = Day::new(*table.plan())?;
    let (mut sent_again, mut powered) = (0, true);
    while let Some(frame) = waiting.pop_front() {
        if let Some(frame) = day.deliver(frame)? {
            // it comes again later
            waiting.push_back(frame);
            sent_again += 1;
        }
        if powered && (day.relays[0].round.number, day.since_the_save.len()) == (2, 3) {
            day.cut_the_power()?;
            powered = false;
        }
        day.collect()?;
        day.settle(&readings)?;
    }
    println!("\n{} frames came early and were held, {sent_again} came too early and were sent again", day.early);
    assert_eq!(day.round, ROUNDS + 1);
    Ok(())
}
