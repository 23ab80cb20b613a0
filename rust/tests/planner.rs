//! The planner's example: its exit statuses, and the records that it writes, old and wide.

// the test calls what `main` calls
#[allow(dead_code)]
#[path = "../examples/planner.rs"]
mod planner;

use planner::{run, ACCEPTED, REFUSED, USAGE};

fn words(line: &str) -> Vec<String> {
    line.split_whitespace().map(String::from).collect()
}

fn status(line: &str) -> u8 {
    run(&words(line))
}

#[test]
fn plans_are_accepted_and_refused() {
    assert_eq!(status(""), ACCEPTED);
    assert_eq!(status("5 2 1 65521 2 - 1 2"), ACCEPTED);
    // γ 1 leaks, and the next is taken
    assert_eq!(status("2 2 1 5 1"), ACCEPTED);
    assert_eq!(status("2 2 1 2 0"), REFUSED);
    // with two clusters every pair leaks; and a pair has its lower number first
    assert_eq!(status("2 2 1 5 2 - 1 2"), REFUSED);
    assert_eq!(status("5 2 1 65521 2 - 2 1"), REFUSED);
    for wrong in ["9 2 1 5 2", "2 2 1 6 2", "2 2 1 5 7", "2 2 2 5 2"] {
        assert_eq!(status(wrong), REFUSED, "{wrong}");
    }
    for wrong in ["2", "2 2 1 5 two", "2 2 1 5 2 - 1", "2 2 1 5 2 no/such/folder/new.plan"] {
        assert_eq!(status(wrong), USAGE, "{wrong}");
    }
}

#[test]
fn records_of_both_kinds_are_written() {
    let made = |order: &str, name: &str| {
        let file = format!("{}/{name}", env!("CARGO_TARGET_TMPDIR"));
        let mut args = words(order);
        args.push(file.clone());
        assert_eq!(run(&args), ACCEPTED);
        std::fs::read(file).unwrap()
    };
    assert_eq!(made("4 4 6 65521 2", "old.plan"), include_bytes!("../../examples/made-4-4-6.plan"));
    assert_eq!(made("2 2 1 4294967291 65536", "wide.plan"), include_bytes!("../../examples/wide.plan"));
}
