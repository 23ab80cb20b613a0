//! The files of examples/: plan records, and inputs for a pool on paper.

use crate::{paper, plain, proved, Code, Plan};
use std::fs;
use std::path::Path;

fn small() -> Plan {
    Plan { clusters: 2, size: 2, limit: 1, rate: 3, q: 5, table: vec![1, 0, 0, 1, 2, 4, 1, 4, 1, 2, 4, 0] }
}

fn named() -> Vec<(String, Plan, Code)> {
    let mut two = small();
    two.limit = 2;
    let mut unequal = small();
    unequal.table[11] = 1;
    let mut all = vec![
        ("small".to_string(), small(), Code(0, 0, 0)),
        ("small-limit-2".to_string(), two, Code(7, 3, 2)),
        ("not-zero-sum".to_string(), unequal, Code(6, 3, 0)),
    ];
    for (u, v, t) in [(8, 2, 13), (4, 4, 11), (2, 8, 7), (4, 4, 6), (8, 2, 1)] {
        all.push((format!("made-{u}-{v}-{t}"), Plan::made(u, v, t, 65_521, 2), Code(0, 0, 0)));
    }
    all.push(("wide".to_string(), Plan::made(2, 2, 1, 4_294_967_291, 65_536), Code(0, 0, 0)));
    all
}

/// Largest reading, rounds and plan of each pool on paper.
fn trials() -> Vec<(&'static str, u32, u32, Plan)> {
    let mut leaking = Plan { limit: 2, q: 101, ..small() };
    for k in 0..leaking.rate {
        let sum: u32 = (0..3).map(|i| leaking.table[i * leaking.rate + k]).sum();
        leaking.table[3 * leaking.rate + k] = leaking.q - sum;
    }
    vec![
        ("day", 2_000, 96, Plan::made(4, 4, 6, 65_521, 2)),
        ("wide", 536_870_911, 10, Plan::made(2, 2, 1, 4_294_967_291, 65_536)),
        ("no-room", 1, 1, small()),
        ("leaking", 1, 1, leaking),
    ]
}

/// Writes them; each plan is vetted twice before.
pub fn write(folder: &Path) {
    for (name, plan, code) in named() {
        assert_eq!(proved::vet(&plan), code, "{name}");
        assert_eq!(plain::vet(&plan), code, "{name}");
        let bytes = paper::written(&plan);
        println!("{name}.plan: {} bytes, {} {} {}", bytes.len(), code.0, code.1, code.2);
        fs::write(folder.join(format!("{name}.plan")), bytes).expect("a folder to write in");
    }    for (name, cap, rounds, plan) in trials() {
        let bytes = paper::input(cap, rounds, &paper::written(&plan));
        let text = paper::printed(&bytes);
        println!("{name}.trial: {} bytes, {}", bytes.len(), text.lines().next().unwrap());
        fs::write(folder.join(format!("{name}.trial")), bytes).expect("a folder to write in");
    }
}
