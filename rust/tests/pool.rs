//! The example runs, and what it shows is right: it compares totals and rounds itself.

#[path = "../examples/pool.rs"]
mod pool;

#[test]
fn the_example_runs() {
    assert_eq!(pool::main(), Ok(()));
}
