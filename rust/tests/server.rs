//! The server's example runs, and what it shows is right: it compares totals and windows itself.

// the test calls what `main` calls
#[allow(dead_code)]
#[path = "../examples/server.rs"]
mod server;

#[test]
fn the_example_runs() {
    assert_eq!(server::run(), Ok(0));
}
