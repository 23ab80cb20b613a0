//! Worked cases: the small pool, a pool of the same shape with the largest prime of 32 bits, and what the papers say by example. The programs `hostile`,
//! `hostile_frames` and `hostile_states` hold every entry to a model.

use crate::*;
use std::string::ToString;
use std::vec;
use std::vec::Vec;

const SMALL: Plan = Plan { clusters: 2, size: 2, limit: 1, rate: 3, q: 5 };

const TABLE: [Symbol; 12] = [1, 0, 0, 1, 2, 4, 1, 4, 1, 2, 4, 0];

const RECORD: [u8; 34] = [
    0x02, 0x02, 0x01, 0x03, 0x05, 0x00, 0x01, 0x00, 0x00, 0x00, 0x00, 0x00, 0x01, 0x00, 0x02, 0x00, 0x04, 0x00, 0x01, 0x00, 0x04, 0x00,
    0x01, 0x00, 0x02, 0x00, 0x04, 0x00, 0x00, 0x00, 0x22, 0x00, 0x4B, 0x50,
];

fn small() -> KeyTable {
    KeyTable::new(SMALL, &TABLE).unwrap()
}

fn vet(plan: Plan, table: &[Symbol]) -> Result<(), Refusal> {
    KeyTable::new(plan, table)?.vet()
}

/// Any record with some of its bytes changed.
fn other(record: &[u8], place: usize, by: &[u8]) -> Vec<u8> {
    let mut bytes = record.to_vec();
    bytes[place..place + by.len()].copy_from_slice(by);
    bytes
}

#[test]
fn vet_small_pool() {
    assert_eq!(vet(SMALL, &TABLE), Ok(()));
    assert_eq!(vet(Plan { limit: 2, ..SMALL }, &TABLE), Err(Refusal::Leaks { coalition: 3, observer: 2 }));
    assert_eq!(vet(Plan { q: 9, ..SMALL }, &TABLE), Err(Refusal::NotPrime));
    assert_eq!(vet(Plan { q: 3, ..SMALL }, &TABLE), Err(Refusal::NotASymbol));
    assert_eq!(vet(Plan { clusters: 9, ..SMALL }, &TABLE), Err(Refusal::OutOfBounds));
    assert_eq!(vet(SMALL, &TABLE[..11]), Err(Refusal::WrongLength));
    assert_eq!(vet(SMALL, &[]), Err(Refusal::WrongLength));
}

#[test]
fn vet_bare_plans() {
    let bare = Plan { clusters: 2, size: 1, limit: 0, rate: 1, q: 5 };
    assert_eq!(vet(bare, &[0, 0]), Err(Refusal::Leaks { coalition: 0, observer: 1 }));
    assert_eq!(vet(bare, &[1, 1]), Err(Refusal::NotZeroSum { column: 1 }));
    assert_eq!(vet(Plan { clusters: 1, ..bare }, &[0]), Err(Refusal::Leaks { coalition: 0, observer: 1 }));
}

#[test]
fn counts_of_any_size_are_refused() {
    let most = Symbol::MAX;
    let huge = Plan { clusters: most, size: most, limit: most, rate: most, q: 5 };
    assert_eq!(vet(huge, &TABLE), Err(Refusal::OutOfBounds));
    assert_eq!(vet(huge, &[0; 2000]), Err(Refusal::OutOfBounds));
    assert_eq!(Counts { clusters: most, size: 2, limit: 1 }.make_table(5, 2), Err(Refusal::OutOfBounds));
    assert_eq!(Counts { clusters: 2, size: 2, limit: most }.pairs(), Err(Refusal::OutOfBounds));
    assert_eq!(small().derive_keys(usize::MAX, &[], &mut []), Err(Refusal::BadBlockLength));
    assert_eq!(RelayRound::open(&huge, 1, 1, 1), Err(Refusal::OutOfBounds));
    assert_eq!(ServerRound::open(&huge, 1, 1), Err(Refusal::OutOfBounds));
}

#[test]
fn reports_of_the_vet() {
    assert_eq!(SMALL.counts().pairs(), Ok(15));
    assert_eq!(small().vet_joint(None), Report { verdict: Ok(()), looked: 15 });
    // coalitions 0, 1, 2 have three observers each, and 3 leaks to its second
    let wider = KeyTable::new(Plan { limit: 2, ..SMALL }, &TABLE).unwrap();
    assert_eq!(wider.vet_joint(None), Report { verdict: Err(Refusal::Leaks { coalition: 3, observer: 2 }), looked: 11 });
    // "With U 2 every pair leaks."
    assert_eq!(small().vet_joint(Some((1, 2))), Report { verdict: Err(Refusal::JointLeaks { coalition: 0 }), looked: 0 });
    for pair in [(0, 0), (1, 1), (2, 1), (0, 1), (1, 3), (usize::MAX, usize::MAX)] {
        assert_eq!(small().vet_joint(Some(pair)), Report { verdict: Err(Refusal::UnknownNumber), looked: 0 }, "{pair:?}");
    }
}

#[test]
fn vet_records() {
    assert_eq!(vet_record(&RECORD), Ok(()));
    assert_eq!(vet_record(&other(&RECORD, 2, &[2])), Err(Refusal::Leaks { coalition: 3, observer: 2 }));
    assert_eq!(vet_record(&[]), Err(Refusal::BadTrailer));
    assert_eq!(vet_record(&RECORD[..33]), Err(Refusal::BadTrailer));
    let mut long = vec![0; MAX_BYTES + 1 - 34];
    long.extend(RECORD);
    assert_eq!(vet_record(&long[1..]), Ok(()));
    assert_eq!(vet_record(&long), Err(Refusal::WrongLength));
}

#[test]
fn records_there_and_back() {
    assert_eq!(KeyTable::read_record(&RECORD), Ok(small()));
    let mut bytes = [7; 34];
    assert_eq!(small().write_record(&mut bytes), Ok(()));
    assert_eq!(bytes, RECORD);
    assert_eq!(small().write_record(&mut bytes[..33]), Err(Refusal::WrongLength));
    assert_eq!(bytes, RECORD);
    // the reader doesn't vet
    assert_eq!(KeyTable::read_record(&other(&RECORD, 2, &[2])).map(|table| table.plan().limit), Ok(2));
    let refused = |place, byte| KeyTable::read_record(&other(&RECORD, place, &[byte])).unwrap_err();
    assert_eq!([refused(33, 0), refused(2, 5), refused(3, 2)], [Refusal::BadTrailer, Refusal::OutOfBounds, Refusal::WrongLength]);
    assert_eq!([refused(4, 9), refused(4, 3)], [Refusal::NotPrime, Refusal::NotASymbol]);
}

#[test]
fn make_tables() {
    let made = |limit, q, generator| Counts { clusters: 2, size: 2, limit }.make_table(q, generator);
    assert_eq!(made(1, 5, 2), Ok(small()));
    assert_eq!(made(2, 5, 2), Err(Refusal::LimitTooLarge));
    assert_eq!(made(1, 9, 2), Err(Refusal::NotPrime));
    assert_eq!(made(1, 5, 5), Err(Refusal::NotASymbol));
    assert_eq!(made(2, 9, 2), Err(Refusal::NotPrime));
    assert!(matches!(made(1, 5, 1), Err(Refusal::Leaks { .. })));
}

/// Every plan that the maker can make has the rate that it is said to need, and is accepted.
#[test]
fn every_shape_is_made() {
    for (clusters, size) in (1..=8).flat_map(|u| (1..=8).map(move |v| (u, v))).filter(|(u, v)| u * v <= 12) {
        for limit in 0..=clusters * size {
            let counts = Counts { clusters, size, limit };
            for (q, generator) in [(65_521, 17), (MAX_Q, 65_536)] {
                match counts.make_table(q, generator) {
                    Ok(table) => {
                        assert_eq!(Ok(table.plan().rate as usize), counts.rate(), "{counts:?}");
                        assert_eq!(table.vet_joint(None), Report { verdict: Ok(()), looked: counts.pairs().unwrap() }, "{counts:?}");
                    }
                    Err(refusal) => {
                        assert!(limit >= (clusters - 1) * size && refusal == Refusal::LimitTooLarge, "{counts:?} {q} {refusal}")
                    }
                }
            }
        }
    }
}

#[test]
fn derive_small_keys() {
    let mut keys = [9; 8];
    assert_eq!(small().derive_keys(1, &[1, 2, 3], &mut keys[..4]), Ok(()));
    assert_eq!(keys[..4], [1, 2, 2, 0]);
    assert_eq!(small().derive_keys(2, &[1, 2, 3, 0, 0, 0], &mut keys), Ok(()));
    assert_eq!(keys, [1, 0, 2, 0, 2, 0, 0, 0]);
    let wider = KeyTable::new(Plan { limit: 2, ..SMALL }, &TABLE).unwrap();
    assert_eq!(wider.derive_keys(0, &[], &mut keys), Err(Refusal::Leaks { coalition: 3, observer: 2 }));
    assert_eq!(small().derive_keys(0, &[], &mut []), Err(Refusal::BadBlockLength));
    assert_eq!(small().derive_keys(65, &[0; 195], &mut [0; 260]), Err(Refusal::BadBlockLength));
    assert_eq!(small().derive_keys(1, &[1, 5], &mut keys), Err(Refusal::WrongLength));
    assert_eq!(small().derive_keys(2, &[1, 2, 5, 0, 0, 0], &mut keys), Err(Refusal::NotASymbol));
    assert_eq!(keys, [1, 0, 2, 0, 2, 0, 0, 0]);
    assert_eq!(small().derive_keys(64, &[1; 192], &mut [0; 256]), Ok(()));
}

/// Readings 3, 4, 0, 2 through the small pool, to the total 4.
#[test]
fn the_small_pools_day() {
    let mut keys = [0; 4];
    small().derive_keys(1, &[1, 2, 3], &mut keys).unwrap();
    let mut server = ServerRound::open(&SMALL, 1, 1).unwrap();
    let mut relay_sums = Vec::new();
    for cluster in 1..=2 {
        let mut relay = RelayRound::open(&SMALL, 1, cluster, 1).unwrap();
        for user in 1..=2 {
            let index = (cluster as usize - 1) * 2 + user - 1;
            let mut sent = [0];
            upload(5, &[[3, 4, 0, 2][index]], &[keys[index]], &mut sent).unwrap();
            assert_eq!(sent[0], [4, 1, 2, 2][index]);
            relay.count(user, 1, &sent).unwrap();
        }
        let mut sums = [0];
        relay.give(&mut sums).unwrap();
        server.count(cluster as usize, 1, &sums).unwrap();
        relay_sums.push(sums[0]);
    }
    let mut total = [0];
    server.give(&mut total).unwrap();
    assert_eq!((&relay_sums[..], total), (&[0, 4][..], [4]));
}

#[test]
fn blocks_there_and_back() {
    let (readings, key, mut out) = ([3, 4, 0, 2], [1, 2, 2, 0], [7; 4]);
    assert_eq!(upload(9, &readings, &key, &mut out), Err(Refusal::NotPrime));
    assert_eq!(upload(5, &[], &[], &mut []), Err(Refusal::BadBlockLength));
    assert_eq!(upload(5, &readings, &key[..3], &mut out), Err(Refusal::WrongLength));
    assert_eq!(upload(5, &readings, &key, &mut out[..3]), Err(Refusal::WrongLength));
    assert_eq!(upload(5, &readings, &[1, 2, 2, 5], &mut out), Err(Refusal::NotASymbol));
    assert_eq!(out, [7; 4]);
    assert_eq!((upload(5, &readings, &key, &mut out), out), (Ok(()), [4, 1, 2, 2]));
    let sent = out;
    assert_eq!((unmask(5, &sent, &key, &mut out), out), (Ok(()), readings));
}

/// "With q 65,521 and 16 meters m may be 2,047 and not 2,048."
#[test]
fn caps_at_their_ends() {
    let plan = Plan { clusters: 8, size: 2, limit: 1, rate: 8, q: 65_521 };
    let (key, mut out) = ([0, 65_520], [9; 2]);
    assert_eq!(plan.signed_upload(2_048, &[0, 0], &key, &mut out), Err(Refusal::BadCap));
    assert_eq!(plan.signed_upload(0, &[0, 0], &key, &mut out), Err(Refusal::BadCap));
    assert_eq!(plan.signed_upload(2_047, &[2_048, 0], &[65_521, 0], &mut out), Err(Refusal::OutsideCap));
    assert_eq!(plan.signed_upload(2_047, &[0, -2_048], &key, &mut out), Err(Refusal::OutsideCap));
    assert_eq!(plan.signed_upload(2_047, &[i32::MIN, 0], &key, &mut out), Err(Refusal::OutsideCap));
    assert_eq!(plan.signed_upload(2_047, &[0, 0], &[0, 65_521], &mut out), Err(Refusal::NotASymbol));
    assert_eq!(out, [9; 2]);
    assert_eq!(plan.signed_upload(2_047, &[-2_047, 2_047], &key, &mut out), Ok(()));
    assert_eq!(out, [65_521 - 2_047, 2_046]);
    let (sent, mut back) = (out, [9; 2]);
    assert_eq!((plan.signed_unmask(2_047, &sent, &key, &mut back), back), (Ok(()), [-2_047, 2_047]));
    // all sixteen at an end of the cap; and around the middle of q
    assert_eq!((plan.show_totals(2_047, &[32_752, 65_521 - 32_752], &mut back), back), (Ok(()), [32_752, -32_752]));
    assert_eq!((plan.show_totals(2_047, &[32_760, 32_761], &mut back), back), (Ok(()), [32_760, -32_760]));
    assert_eq!(plan.show_totals(2_047, &[0, 65_521], &mut back), Err(Refusal::NotASymbol));
    assert_eq!(back, [32_760, -32_760]);
}

/// Cluster 1 of the small pool in round 9, blocks of two symbols: nobody has reported.
fn opened() -> RelayRound {
    RelayRound::open(&SMALL, 2, 1, 9).unwrap()
}

/// The first places of a row of sums, and 0 past them.
fn row(first: &[Symbol]) -> [Symbol; MAX_LENGTH] {
    let mut row = [0; MAX_LENGTH];
    row[..first.len()].copy_from_slice(first);
    row
}

#[test]
fn frames_into_a_round() {
    let mut round = opened();
    assert_eq!(round.count(2, 9, &[4, 1]), Ok(()));
    let before = round.clone();
    assert_eq!(round.count(2, 9, &[1, 1]), Err(Refusal::AlreadyReported));
    assert_eq!(round.count(2, 9, &[1, 5]), Err(Refusal::NotASymbol));
    assert_eq!(round.count(2, 9, &[5]), Err(Refusal::WrongLength));
    assert_eq!(round.count(3, 8, &[5]), Err(Refusal::UnknownNumber));
    // a late user is called late, whatever its block
    assert_eq!(round.count(2, 8, &[5]), Err(Refusal::OtherRound));
    assert_eq!((round.give(&mut [0; 2]), round.advance()), (Err(Refusal::NotFull), Err(Refusal::NotFull)));
    assert_eq!(round, before);
    assert_eq!(round.count(1, 9, &[3, 3]), Ok(()));
    assert_eq!((round.reported, &round.sums[..3]), (3, &[2, 4, 0][..]));
}

#[test]
fn frames_for_the_next_round() {
    let mut round = opened();
    assert_eq!(round.count(2, 10, &[4, 1]), Ok(()));
    assert_eq!(round, RelayRound { ahead: 2, held: row(&[4, 1]), ..opened() });
    assert_eq!(round.count(2, 10, &[1, 1]), Err(Refusal::AlreadyReported));
    assert_eq!(round.count(1, 11, &[1, 1]), Err(Refusal::OtherRound));
    // who is ahead may still report here
    assert_eq!((round.count(2, 9, &[1, 1]), round.count(1, 10, &[2, 2])), (Ok(()), Ok(())));
    // and the next round's being full doesn't make this one so
    assert_eq!(round.advance(), Err(Refusal::NotFull));
    assert_eq!(round.count(1, 9, &[1, 1]), Ok(()));
    assert_eq!(round.advance(), Ok(()));
    assert_eq!(round, RelayRound { number: 10, reported: 3, sums: row(&[1, 3]), ..opened() });
}

#[test]
fn no_round_after_the_last() {
    let mut round = RelayRound { number: u32::MAX, reported: 1, sums: row(&[1, 1]), ..opened() };
    assert_eq!(round.count(2, 0, &[1, 1]), Err(Refusal::OtherRound));
    // 14 before 12, and where everyone has reported
    assert_eq!(round.advance(), Err(Refusal::OtherRound));
    assert_eq!(round.count(2, u32::MAX, &[1, 1]), Ok(()));
    assert_eq!(round.advance(), Err(Refusal::OtherRound));
}

#[test]
fn damaged_rounds_stay_as_they_are() {
    let full = RelayRound { reported: 3, sums: row(&[2, 4]), ahead: 2, held: row(&[4, 1]), ..opened() };
    let damages = [
        (Refusal::OutOfBounds, RelayRound { clusters: 9, ..full.clone() }),
        (Refusal::NotPrime, RelayRound { q: 9, ..full.clone() }),
        (Refusal::BadBlockLength, RelayRound { length: 65, ..full.clone() }),
        (Refusal::UnknownNumber, RelayRound { cluster: 3, ..full.clone() }),
        (Refusal::UnknownNumber, RelayRound { reported: 7, ..full.clone() }),
        (Refusal::UnknownNumber, RelayRound { ahead: 4, sums: [5; 64], ..full.clone() }),
        (Refusal::NotASymbol, RelayRound { sums: row(&[2, 5]), ..full.clone() }),
        (Refusal::NotASymbol, RelayRound { held: row(&[2, 4, 1]), ..full.clone() }),
    ];
    for (refusal, damaged) in damages {
        let (mut round, mut bytes, mut used) = (damaged.clone(), [7; MAX_SAVE], 0);
        assert_eq!(round.advance(), Err(refusal));
        assert_eq!(round.count(1, 10, &[0, 0]), Err(refusal));
        assert_eq!(round.give(&mut [0; 2]), Err(refusal));
        assert_eq!(round.save(&mut bytes, &mut used), Err(refusal));
        assert_eq!((round, bytes, used), (damaged, [7; MAX_SAVE], 0));
    }
}

#[test]
fn saves_in_bytes() {
    let round = RelayRound { number: 0x0102_0304, reported: 1, sums: row(&[2, 4]), ahead: 2, held: row(&[4, 1]), ..opened() };
    #[rustfmt::skip]
    let save = [
        2, 2, 1, 2, 5, 0, 0, 0, 4, 3, 2, 1, 1, 0, 2, 0,
        2, 0, 0, 0, 4, 0, 0, 0, 4, 0, 0, 0, 1, 0, 0, 0,
        36, 0, 0x4B, 0x52,
    ];
    assert_eq!((round.save_size(), opened().save_size()), (36, 36));
    let (mut bytes, mut used) = ([7; 80], 3);
    assert_eq!(round.save(&mut bytes, &mut used), Ok(()));
    assert_eq!((used, &bytes[..3], &bytes[3..39], &bytes[39..]), (39, &[7; 3][..], &save[..], &[7; 41][..]));
    assert_eq!(opened().save(&mut bytes, &mut used), Ok(()));
    // five bytes are free
    assert_eq!((round.save(&mut bytes, &mut used), used), (Err(Refusal::WrongLength), 75));
    assert_eq!(RelayRound::restore(&bytes[..used], 0), Ok(opened()));
    assert_eq!(RelayRound::restore(&bytes[..used], 1), Ok(round));
    assert_eq!(RelayRound::restore(&bytes[..used], 2), Err(Refusal::BadTrailer));
    assert_eq!(RelayRound::restore(&bytes[..used], usize::MAX), Err(Refusal::BadTrailer));
    assert_eq!(RelayRound::restore(&bytes, 0), Err(Refusal::BadTrailer));
    assert_eq!(RelayRound::restore(&[], 0), Err(Refusal::BadTrailer));
}

#[test]
fn the_servers_round() {
    let mut round = ServerRound::open(&SMALL, 1, 9).unwrap();
    assert_eq!((round.count(2, 9, &[4]), round.count(2, 9, &[4])), (Ok(()), Err(Refusal::AlreadyReported)));
    // the server hears no next round
    assert_eq!(round.count(1, 10, &[4]), Err(Refusal::OtherRound));
    assert_eq!(round.count(3, 9, &[4]), Err(Refusal::UnknownNumber));
    assert_eq!(round.give(&mut [0]), Err(Refusal::NotFull));
    assert_eq!(round.count(1, 9, &[3]), Ok(()));
    let mut total = [9];
    assert_eq!((round.give(&mut total), total), (Ok(()), [2]));
    assert_eq!(round.give(&mut [0; 2]), Err(Refusal::WrongLength));
}

#[test]
fn streams_end() {
    let mut stream = KeyStream::new(&[1, 2, 3]);
    let mut out = [0; 2];
    assert_eq!((stream.draw(&mut out), out, stream.left()), (Ok(()), [1, 2], 1));
    assert_eq!((stream.draw(&mut out), out, stream.position()), (Err(Refusal::StreamTooShort), [1, 2], 2));
    assert_eq!((stream.draw(&mut out[..1]), out), (Ok(()), [3, 2]));
    assert_eq!((stream.draw(&mut []), stream.draw(&mut [0; 65])), (Err(Refusal::BadBlockLength), Err(Refusal::BadBlockLength)));
    let mut beyond = KeyStream::at(&[1, 2, 3], usize::MAX);
    assert_eq!((beyond.draw(&mut out), beyond.left()), (Err(Refusal::StreamTooShort), 0));
}

#[test]
fn stocks_of_several_pools() {
    let stream = [1, 2, 3, 4, 5, 6];
    assert_eq!(Stock::open(&[], &[], &stream), Err(Refusal::OutOfBounds));
    assert_eq!(Stock::open(&[0; 9], &[0; 9], &stream), Err(Refusal::OutOfBounds));
    assert_eq!(Stock::open(&[1], &[1, 2], &stream), Err(Refusal::WrongLength));
    assert_eq!(Stock::open(&[2], &[1], &stream), Err(Refusal::BadStock));
    assert_eq!(Stock::open(&[3, 4], &[3, 4], &stream), Err(Refusal::BadStock));
    let mut stock = Stock::open(&[2, 3], &[3, 9], &stream).unwrap();
    assert_eq!(stock.draw(&stream, 3, &mut [0]), Err(Refusal::UnknownNumber));
    assert_eq!(stock.draw(&stream, 1, &mut [0; 4]), Err(Refusal::PastLimit));
    assert_eq!(stock.draw(&stream, 2, &mut [0; 5]), Err(Refusal::StreamTooShort));
    assert_eq!(stock.draw(&stream[..4], 2, &mut [0]), Err(Refusal::BadStock));
    let mut out = [0; 4];
    assert_eq!((stock.draw(&stream, 2, &mut out), out), (Ok(()), [1, 2, 3, 4]));
    assert_eq!((stock.draw(&stream, 1, &mut out[..2]), out, stock.position()), (Ok(()), [5, 6, 3, 4], 6));
}

#[test]
fn windows_hold_the_last() {
    assert_eq!((Window::open(0), Window::open(97)), (Err(Refusal::BadWindow), Err(Refusal::BadWindow)));
    let mut window = Window::open(MAX_SPAN).unwrap();
    for _ in 0..100 {
        window.push(i32::MIN).unwrap();
    }
    assert_eq!((window.sum(), window.largest()), (Ok(96 * i32::MIN as i64), Ok(i32::MIN)));
    let damaged = Window { sum: 0, ..window.clone() };
    let mut after = damaged.clone();
    assert_eq!((after.push(1), after.sum(), after.largest()), (Err(Refusal::BadWindow), Err(Refusal::BadWindow), Err(Refusal::BadWindow)));
    assert_eq!(after, damaged);
}

#[test]
fn refusals_and_their_numbers() {
    // 1 to 23, each its own, and back
    for number in 1..=23 {
        let refusal = Refusal::unpack(number).unwrap_err();
        assert_eq!((refusal.number() as u64, refusal.details()), (number, (0, 0)));
        assert!(!matches!(refusal, Refusal::Other { .. }) && !refusal.meaning().is_empty(), "{number}");
        assert!(refusal.to_string().starts_with(&std::format!("{number}: ")));
    }
    let told = |refusal: Refusal| refusal.to_string();
    assert_eq!(told(Refusal::Leaks { coalition: 4, observer: 0 }), "7: the plan leaks (coalition 4, the users of index 2, to the server)");
    assert_eq!(told(Refusal::Leaks { coalition: 0, observer: 1 }), "7: the plan leaks (coalition 0, no users, to relay 1)");
    assert_eq!(told(Refusal::NotZeroSum { column: 3 }), "6: the key table's rows don't sum to zero (column 3)");
    assert_eq!(Refusal::unpack(77 + (5 << 16)), Err(Refusal::Other { number: 77, first: 5, second: 0 }));
    assert_eq!(Refusal::unpack(6 + (3 << 16)), Err(Refusal::NotZeroSum { column: 3 }));
    assert_eq!(Refusal::unpack(19 + (9 << 16)), Err(Refusal::JointLeaks { coalition: 9 }));
}

/// C's header has the same version, and the same words in the order of the numbers.
#[test]
fn one_wording_with_c() {
    let header = include_str!("../../c/kortyghai.h");
    assert!(header.contains(concat!("#define KORTYGHAI_VERSION \"", env!("CARGO_PKG_VERSION"), "\"\n")));
    let (_, behind) = header.split_once("texts[KORTYGHAI_REFUSALS] = {\n").unwrap();
    let (texts, _) = behind.split_once("    };").unwrap();
    let said = texts.lines().skip(1).map(|line| line.trim().trim_end_matches(',').trim_matches('"'));
    assert!(said.eq((1..=23).map(|number| Refusal::unpack(number).unwrap_err().meaning())));
}

/// A plan of the same shape with the largest prime of 32 bits. Modulo it 65,536 times 65,536 is 5, so the powers in the table are easily followed.
const WIDE: Plan = Plan { q: MAX_Q, ..SMALL };

const WIDE_TABLE: [Symbol; 12] = [1, 0, 0, 1, 65_536, 5, 1, 5, 25, MAX_Q - 3, MAX_Q - 65_541, MAX_Q - 30];

/// The record of that plan: its counts and q, four rows, the distance and the marks.
#[rustfmt::skip]
const WIDE_RECORD: [u8; 60] = [
    0x02, 0x02, 0x01, 0x03, 0xFB, 0xFF, 0xFF, 0xFF,
    0x01, 0x00, 0x00, 0x00, 0x00, 0x00, 0x00, 0x00, 0x00, 0x00, 0x00, 0x00,
    0x01, 0x00, 0x00, 0x00, 0x00, 0x00, 0x01, 0x00, 0x05, 0x00, 0x00, 0x00,
    0x01, 0x00, 0x00, 0x00, 0x05, 0x00, 0x00, 0x00, 0x19, 0x00, 0x00, 0x00,
    0xF8, 0xFF, 0xFF, 0xFF, 0xF6, 0xFF, 0xFE, 0xFF, 0xDD, 0xFF, 0xFF, 0xFF,
    0x3C, 0x00, 0x4B, 0x51,
];

#[test]
fn wide_tables_and_records() {
    let wide = WIDE.counts().make_table(MAX_Q, 65_536).unwrap();
    assert_eq!((wide.plan(), wide.symbols()), (&WIDE, &WIDE_TABLE[..]));
    let mut bytes = [7; 60];
    assert_eq!((wide.write_record(&mut bytes), bytes), (Ok(()), WIDE_RECORD));
    assert_eq!(KeyTable::read_record(&WIDE_RECORD), Ok(wide));
    assert_eq!((vet_record(&WIDE_RECORD), wide.vet()), (Ok(()), Ok(())));
    // no prime, and one whose record is an old one
    for q in [u32::MAX, 65_541, 65_521] {
        assert_eq!(KeyTable::read_record(&other(&WIDE_RECORD, 4, &q.to_le_bytes())), Err(Refusal::NotPrime));
    }
    // both marks over the same bytes
    assert_eq!(KeyTable::read_record(&other(&WIDE_RECORD, 59, &[0x50])), Err(Refusal::WrongLength));
    assert_eq!(KeyTable::read_record(&other(&RECORD, 33, &[0x51])), Err(Refusal::WrongLength));
}

/// A test for primes is made before the length of a block: 9 where q is one, 2 where it is none.
#[test]
fn primes_of_32_bits() {
    for q in [2, 3, 5, 65_521, 65_537, 1_048_573, 2_147_483_647, 4_294_967_279, MAX_Q] {
        assert_eq!(upload(q, &[], &[], &mut []), Err(Refusal::BadBlockLength), "{q}");
    }
    // 65,541 has the low 16 bits of 5; then the square of 65,521, and two that pass Fermat's test with 2: 3,511 squared and another
    for q in [0, 1, 4, 65_536, 65_541, 4_293_001_441, 12_327_121, 3_215_031_751, 4_294_967_293, 4_294_967_295] {
        assert_eq!(upload(q, &[], &[], &mut []), Err(Refusal::NotPrime), "{q}");
    }
}

/// The largest of everything: the lengths that have names are those of the archive.
#[test]
fn bounds_have_names() {
    let (u, v) = (MAX_CLUSTERS as u32, MAX_SIZE as u32);
    assert!(Counts { clusters: u, size: 2, limit: 0 }.pairs().is_ok() && Counts { clusters: 2, size: v, limit: 0 }.pairs().is_ok());
    assert!(
        Counts { clusters: u + 1, size: 1, limit: 0 }.pairs().is_err() && Counts { clusters: 1, size: v + 1, limit: 0 }.pairs().is_err()
    );
    let largest = Plan { clusters: 4, size: 4, limit: 0, rate: MAX_RATE as u32, q: MAX_Q };
    assert_eq!((largest.users(), largest.symbols(), largest.record_size()), (MAX_USERS, MAX_TABLE, MAX_RECORD));
    assert!(KeyTable::new(largest, &[0; MAX_TABLE]).is_ok());
    assert_eq!(KeyTable::new(Plan { rate: 17, ..largest }, &[0; 272]), Err(Refusal::OutOfBounds));
    let round = RelayRound::open(&largest, MAX_LENGTH as u32, 4, 1).unwrap();
    assert_eq!(round.save_size(), MAX_SAVE);
    assert_eq!(RelayRound::open(&largest, MAX_LENGTH as u32 + 1, 4, 1), Err(Refusal::BadBlockLength));
    assert!(Window::open(MAX_SPAN).is_ok() && Window::open(MAX_SPAN + 1).is_err());
    assert!(
        Stock::open(&[0; MAX_POOLS], &[0; MAX_POOLS], &[]).is_ok() && Stock::open(&[0; MAX_POOLS + 1], &[0; MAX_POOLS + 1], &[]).is_err()
    );
    let ring = |size: usize, parts: usize| Ring { size: size as u32, links: 1, parts: parts as u32, rate: 1, q: 5 };
    let summed = |ring| Network { ring, table: &[], weights: &[] }.sum(&[3]);
    assert_eq!(summed(ring(MAX_RING, MAX_PARTS)), Ok(3));
    assert_eq!(summed(ring(MAX_RING + 1, MAX_PARTS)), Err(Refusal::OutOfBounds));
    assert_eq!(summed(ring(MAX_RING, MAX_PARTS + 1)), Err(Refusal::BadPattern));
}

/// From a source key to the total, all worked out by hand: 4,000,000,000 is q − 294,967,291, and q − 1 is the opposite of 1.
#[test]
fn wide_uploads_sum_to_the_total() {
    let wide = KeyTable::new(WIDE, &WIDE_TABLE).unwrap();
    let mut keys = [0; 4];
    wide.derive_keys(1, &[MAX_Q - 1, 65_536, 4_000_000_000], &mut keys).unwrap();
    assert_eq!(keys, [MAX_Q - 1, 2_820_130_840, 1_216_079_986, 258_756_466]);
    let (readings, mut uploads, mut back) = ([4_000_000_000, 3_000_000_000, 65_536, MAX_Q - 1], [0; 4], [0; 4]);
    upload(MAX_Q, &readings, &keys, &mut uploads).unwrap();
    assert_eq!(uploads, [3_999_999_999, 1_525_163_549, 1_216_145_522, 258_756_465]);
    unmask(MAX_Q, &uploads, &keys, &mut back).unwrap();
    assert_eq!(back, readings);
    let mut server = ServerRound::open(&WIDE, 1, 9).unwrap();
    for (cluster, wanted) in [(1, 1_230_196_257), (2, 1_474_901_987)] {
        let mut relay = RelayRound::open(&WIDE, 1, cluster, 9).unwrap();
        let own = &uploads[2 * cluster as usize - 2..];
        assert_eq!((relay.count(1, 9, &own[..1]), relay.count(2, 9, &own[1..2])), (Ok(()), Ok(())));
        let mut sum = [0];
        relay.give(&mut sum).unwrap();
        assert_eq!(sum, [wanted]);
        server.count(cluster as usize, 9, &sum).unwrap();
    }
    let mut total = [0];
    server.give(&mut total).unwrap();
    assert_eq!(total, [2_705_098_244]);
}

/// What a wide record and an old one are refused for.
#[test]
fn trailers_refused() {
    let says = |bytes: &[u8], refusal| {
        assert_eq!((vet_record(bytes), KeyTable::read_record(bytes).map(drop)), (Err(refusal), Err(refusal)), "{bytes:?}");
    };
    says(&WIDE_RECORD[..59], Refusal::BadTrailer);
    says(&WIDE_RECORD[1..], Refusal::BadTrailer);
    // neither kind's marks; then D beyond the bytes, and under 12, or of an old record under 10
    for (place, by) in [(58, [0x4B, 0x52]), (58, [0x4A, 0x51]), (56, [61, 0]), (56, [11, 0]), (56, [10, 0])] {
        says(&other(&WIDE_RECORD, place, &by), Refusal::BadTrailer);
    }
    says(&other(&RECORD, 30, &[9]), Refusal::BadTrailer);
    // the least distances pass on to 1: no plan has such counts
    says(&other(&WIDE_RECORD, 56, &[12]), Refusal::OutOfBounds);
    says(&other(&RECORD, 30, &[10]), Refusal::OutOfBounds);
    // a symbol that is q, and those of the largest prime under a smaller one
    says(&other(&WIDE_RECORD, 8, &MAX_Q.to_le_bytes()), Refusal::NotASymbol);
    says(&other(&WIDE_RECORD, 4, &65_537_u32.to_le_bytes()), Refusal::NotASymbol);
}

/// The small pool's shape modulo 31: two rounds followed by hand, from the values 16,838, 5,758, 10,113 and so on.
#[test]
fn two_rounds_on_paper() {
    let table = SMALL.counts().make_table(31, 3).unwrap();
    let mut run = PaperRun::new(&table, 3, 2).unwrap();
    assert_eq!((run.plan, &run.table[..12], run.table[12]), (*table.plan(), table.symbols(), 0));
    assert_eq!((run.cap, run.rounds, run.number, run.state, run.is_over()), (3, 2, 1, 1, false));
    assert_eq!(run.next_line().unwrap().as_bytes(), b"1 2 24 11 11\n");
    let second = run.next_line().unwrap();
    assert_eq!((second.as_str(), second.to_string().len()), ("2 3 6 8 8\n", 10));
    let over = run.clone();
    assert_eq!((run.next_line(), &run, run.is_over()), (Err(Refusal::BadRounds), &over, true));
    // what is no run is refused, and stays
    for (other, refusal) in [
        (PaperRun { number: 0, ..over.clone() }, Refusal::BadRounds),
        (PaperRun { rounds: 10_001, number: 1, ..over.clone() }, Refusal::BadRounds),
        (PaperRun { number: 1, plan: Plan { size: 9, ..over.plan }, ..over.clone() }, Refusal::OutOfBounds),
        (PaperRun { number: 1, plan: Plan { q: 33, ..over.plan }, ..over.clone() }, Refusal::NotPrime),
        (PaperRun { number: 1, plan: Plan { q: 23, ..over.plan }, ..over.clone() }, Refusal::NotASymbol),
        (PaperRun { number: 1, cap: 4, ..over.clone() }, Refusal::BadCap),
    ] {
        let mut left = other.clone();
        assert_eq!((left.next_line(), left), (Err(refusal), other));
    }
}

#[test]
fn runs_on_paper_refused() {
    let table = SMALL.counts().make_table(31, 3).unwrap();
    assert_eq!(PaperRun::new(&table, 4, 2), Err(Refusal::BadCap));
    assert_eq!(PaperRun::new(&table, 0, 2), Err(Refusal::BadCap));
    assert_eq!((PaperRun::new(&table, 3, 0), PaperRun::new(&table, 0, 10_001)), (Err(Refusal::BadRounds), Err(Refusal::BadRounds)));
    let wider = KeyTable::new(Plan { limit: 2, ..*table.plan() }, table.symbols()).unwrap();
    assert_eq!(PaperRun::new(&wider, 3, 2), Err(Refusal::Leaks { coalition: 3, observer: 2 }));
    assert_eq!(PaperRun::new(&wider, 4, 2), Err(Refusal::BadCap));
    assert_eq!((PaperRun::open(&[]), PaperRun::open(&[1; 7])), (Err(Refusal::WrongLength), Err(Refusal::WrongLength)));
    assert_eq!(PaperRun::open(&[3, 0, 0, 0, 2, 0, 0, 0]), Err(Refusal::BadTrailer));
    assert_eq!(PaperRun::open(&vec![1; MAX_BYTES + 1]), Err(Refusal::WrongLength));
}
