//! The tool `kortyghai`: what it prints, where, and with which exit status.

use std::io::Write;
use std::path::PathBuf;
use std::process::{Command, Output, Stdio};

const SMALL: [u8; 34] = [
    0x02, 0x02, 0x01, 0x03, 0x05, 0x00, 0x01, 0x00, 0x00, 0x00, 0x00, 0x00, 0x01, 0x00, 0x02, 0x00, 0x04, 0x00, 0x01, 0x00, 0x04, 0x00,
    0x01, 0x00, 0x02, 0x00, 0x04, 0x00, 0x00, 0x00, 0x22, 0x00, 0x4B, 0x50,
];

fn run(words: &[&str], input: &[u8]) -> Output {
    let mut tool = Command::new(env!("CARGO_BIN_EXE_kortyghai"));
    let mut child = tool.args(words).stdin(Stdio::piped()).stdout(Stdio::piped()).stderr(Stdio::piped()).spawn().unwrap();
    // the tool may end before it has read all
    let _ = child.stdin.take().unwrap().write_all(input);
    child.wait_with_output().unwrap()
}

/// Exit status, standard output, standard error.
fn told(words: &[&str], input: &[u8]) -> (i32, String, String) {
    let output = run(words, input);
    let text = |bytes: &[u8]| String::from_utf8(bytes.to_vec()).unwrap();
    (output.status.code().unwrap(), text(&output.stdout), text(&output.stderr))
}

fn with(place: usize, byte: u8) -> [u8; 34] {
    let mut bytes = SMALL;
    bytes[place] = byte;
    bytes
}

/// The path of a file in the repository's examples.
fn example(name: &str) -> String {
    let path = PathBuf::from(env!("CARGO_MANIFEST_DIR")).join("../examples").join(name);
    path.to_str().unwrap().to_string()
}

#[test]
fn vet_accepts() {
    let words = "accepted: no relay, and not the server, learns more than it may, alone or with any one user\n";
    assert_eq!(told(&["vet", "-"], &SMALL), (0, words.to_string(), String::new()));
    assert_eq!(told(&["vet", &example("small.plan")], &[]), (0, words.to_string(), String::new()));
    for name in ["wide.plan", "made-8-2-1.plan", "made-4-4-6.plan", "made-2-8-7.plan"] {
        let (status, out, err) = told(&["vet", &example(name)], &[]);
        assert_eq!((status, &err[..]), (0, ""), "{name}");
        assert!(out.starts_with("accepted: ") && out.lines().count() == 1, "{name}: {out}");
    }
}

#[test]
fn vet_refuses_in_words() {
    let said = |input: &[u8]| {
        let (status, out, err) = told(&["vet", "-"], input);
        assert_eq!((status, &err[..]), (1, ""), "{out}");
        out
    };
    assert_eq!(said(&with(2, 2)), "refused (7): users 1 and 2 of cluster 1, together with relay 2, learn more than they may\n");
    assert_eq!(said(&[2, 1, 0, 1, 5, 0, 0, 0, 0, 0, 14, 0, 0x4B, 0x50]), "refused (7): relay 1 alone learns more than it may\n");
    assert_eq!(
        said(&[2, 1, 0, 1, 5, 0, 1, 0, 1, 0, 14, 0, 0x4B, 0x50]),
        "refused (6): the key table's rows don't sum to zero, first in column 1\n"
    );
    assert_eq!(said(&with(2, 5)), "refused (1): a count is outside its bounds\n");
    assert!(said(&with(4, 9)).starts_with("refused (2): "));
    assert!(said(&with(4, 3)).starts_with("refused (3): "));
    assert!(said(&with(3, 2)).starts_with("refused (4): "));
    assert!(said(&[]).starts_with("refused (5): "));
    // 65,535 bytes may stand before a record's end, and no more
    let mut long = vec![0; 65_536 - 34];
    long.extend(SMALL);
    assert_eq!(told(&["vet", "-"], &long[1..]).0, 0);
    assert!(said(&long).starts_with("refused (4): "));
    assert_eq!(told(&["vet", &example("small-limit-2.plan")], &[]).0, 1);
    assert_eq!(told(&["vet", &example("not-zero-sum.plan")], &[]).0, 1);
}

#[test]
fn make_writes_a_record() {
    let output = run(&["make", "2", "2", "1", "5", "2"], &[]);
    assert_eq!((output.status.code(), &output.stdout[..], &output.stderr[..]), (Some(0), &SMALL[..], &[][..]));
    let wide = run(&["make", "2", "2", "1", "4294967291", "65536"], &[]);
    assert_eq!(wide.stdout, std::fs::read(example("wide.plan")).unwrap());
    // a record that was made is accepted
    assert_eq!(told(&["vet", "-"], &wide.stdout).0, 0);
    for (words, number) in [
        (["make", "9", "2", "1", "5", "2"], 1),
        (["make", "2", "2", "1", "9", "2"], 2),
        (["make", "2", "2", "1", "5", "5"], 3),
        (["make", "2", "2", "2", "5", "2"], 10),
        (["make", "2", "2", "1", "5", "1"], 7),
    ] {
        let (status, out, err) = told(&words, &[]);
        assert_eq!((status, &out[..]), (1, ""), "{words:?}");
        assert!(err.starts_with(&format!("kortyghai: refused ({number}): ")), "{words:?}: {err}");
    }
}

#[test]
fn pairs_are_counted() {
    assert_eq!(told(&["pairs", "2", "2", "1"], &[]), (0, "15\n".to_string(), String::new()));
    assert_eq!(told(&["pairs", "8", "2", "16"], &[]).1, "589824\n");
    let (status, out, err) = told(&["pairs", "9", "2", "1"], &[]);
    assert_eq!((status, &out[..], &err[..]), (1, "", "kortyghai: refused (1): a count is outside its bounds\n"));
}

#[test]
fn show_prints_the_plan() {
    let wanted = "clusters 2\nusers in each 2\ncoalition limit 1\nrate 3\nq 5\nrecord old, 34 bytes\ncluster 1 user 1: 1 0 0\n\
                  cluster 1 user 2: 1 2 4\ncluster 2 user 1: 1 4 1\ncluster 2 user 2: 2 4 0\n";
    assert_eq!(told(&["show", "-"], &SMALL), (0, wanted.to_string(), String::new()));
    // it doesn't vet
    assert_eq!(told(&["show", "-"], &with(2, 2)).0, 0);
    let (status, out, err) = told(&["show", "-"], &SMALL[..33]);
    assert_eq!((status, &out[..]), (1, ""));
    assert!(err.starts_with("kortyghai: refused (5): "), "{err}");
    // a record in the midst of a file that is too long for the vet is none at its end
    let mut long = vec![0; 65_536 - 34];
    long.extend(SMALL);
    assert_eq!(told(&["show", "-"], &long[1..]), (0, wanted.to_string(), String::new()));
    for behind in [0, 100] {
        let (status, out, err) = told(&["show", "-"], &[&long[..], &vec![0; behind]].concat());
        assert_eq!((status, &out[..]), (1, ""));
        assert!(err.starts_with("kortyghai: refused (4): "), "{err}");
    }
}

/// A file of the repository.
fn stored(name: &str) -> Vec<u8> {
    std::fs::read(PathBuf::from(env!("CARGO_MANIFEST_DIR")).join("../crates").join(name)).unwrap()
}

/// The tool on what the program `simulate` reads: cap and rounds, four bytes each, and a record.
fn simulated(input: &[u8]) -> (i32, String, String) {
    let number = |place: usize| u32::from_le_bytes(input[place..place + 4].try_into().unwrap()).to_string();
    told(&["simulate", "-", &number(0), &number(4)], &input[8..])
}

/// The lines of the program `simulate`, ten thousand of them.
#[test]
fn simulate_prints_what_the_program_does() {
    let wanted = String::from_utf8(stored("simulate/stdout")).unwrap();
    assert_eq!(wanted.lines().count(), 10_000);
    assert!(simulated(&stored("simulate/stdin")) == (0, wanted, String::new()));
    let (status, out, err) = told(&["simulate", &example("made-8-2-1.plan"), "2047", "3"], &[]);
    assert_eq!((status, out.lines().count(), &err[..]), (0, 3, ""));
    // of small.plan no cap is small enough
    let (status, out, err) = told(&["simulate", &example("small.plan"), "1", "3"], &[]);
    assert_eq!((status, &out[..], &err[..]), (1, "", "kortyghai: refused (16): the cap is 0, or too large for q\n"));
}

/// All stored inputs of the program, accepted and refused. Those under eight bytes have no cap and no rounds, and can't be asked of the tool.
#[test]
fn simulate_answers_stored_cases() {
    let (names, texts) = (stored("simulate_cases/args"), stored("simulate_cases/stdout"));
    let (names, texts) = (String::from_utf8(names).unwrap(), String::from_utf8(texts).unwrap());
    let mut tried = 0;
    for name in names.lines() {
        let input = stored(&format!("simulate_cases/data/{name}"));
        if input.len() < 8 {
            continue;
        }
        let (_, behind) = texts.split_once(&format!("{name}:\n")).unwrap();
        let wanted: String = behind.lines().take_while(|line| !line.ends_with(':')).map(|line| format!("{line}\n")).collect();
        let (status, out, err) = simulated(&input);
        if status == 0 {
            assert_eq!((out, &err[..]), (wanted, ""), "{name}");
        } else {
            assert_eq!((status, &out[..]), (1, ""), "{name}");
            assert!(err.starts_with(&format!("kortyghai: refused ({}): ", wanted.trim_end())), "{name}: {err}");
        }
        tried += 1;
    }
    assert!(tried > 20, "{tried}");
}

#[test]
fn simulate_says_who_learns_more() {
    let closed = run(&["make", "2", "2", "1", "31", "3"], &[]).stdout;
    let mut wider = closed.clone();
    wider[2] = 2;
    let (status, out, err) = told(&["simulate", "-", "3", "2"], &wider);
    let words = "kortyghai: refused (7): users 1 and 2 of cluster 1, together with relay 2, learn more than they may\n";
    assert_eq!((status, &out[..], &err[..]), (1, "", words));
    assert_eq!(told(&["simulate", "-", "3", "2"], &closed), (0, "1 2 24 11 11\n2 3 6 8 8\n".to_string(), String::new()));
    assert!(told(&["simulate", "-", "3", "0"], &closed).2.starts_with("kortyghai: refused (18): "));
    assert!(told(&["simulate", "-", "3", "10001"], &closed).2.starts_with("kortyghai: refused (18): "));
}

#[test]
fn help_and_version() {
    let (status, out, err) = told(&["--help"], &[]);
    assert_eq!((status, &err[..]), (0, ""));
    assert!(
        ["vet FILE", "make U V T q γ", "pairs U V T", "show FILE", "simulate FILE CAP ROUNDS", "Exit status"]
            .iter()
            .all(|part| out.contains(part)),
        "{out}"
    );
    assert_eq!(told(&["--version"], &[]), (0, concat!("kortyghai ", env!("CARGO_PKG_VERSION"), "\n").to_string(), String::new()));
}

#[test]
fn wrong_usage_is_2() {
    let wrong: [&[&str]; 14] = [
        &[],
        &["dance"],
        &["vet"],
        &["vet", "-", "-"],
        &["vet", "no/such/file"],
        &["show", "no/such/file"],
        &["make", "2", "2", "1", "5"],
        &["make", "2", "2", "one", "5", "2"],
        &["pairs", "2", "-2", "1"],
        &["pairs", "4294967296", "2", "1"],
        &["simulate", "-", "3"],
        &["simulate", "-", "3", "2", "1"],
        &["simulate", "-", "-3", "2"],
        &["simulate", "no/such/file", "3", "2"],
    ];
    for words in wrong {
        let (status, out, err) = told(words, &SMALL);
        assert_eq!((status, &out[..]), (2, ""), "{words:?}");
        assert!(err.starts_with("kortyghai: "), "{words:?}: {err}");
    }
}

/// Exit statuses where standard output, or standard error, takes nothing.
#[test]
fn statuses_where_nothing_can_be_written() {
    let full = || Stdio::from(std::fs::OpenOptions::new().write(true).open("/dev/full").unwrap());
    let tool = || Command::new(env!("CARGO_BIN_EXE_kortyghai"));
    for (words, status) in [(&["dance"][..], 2), (&["pairs", "9", "2", "1"], 1), (&["pairs", "2", "2", "1"], 0)] {
        assert_eq!(tool().args(words).stderr(full()).output().unwrap().status.code(), Some(status), "{words:?}");
    }
    for words in [&["--help"][..], &["vet", &example("small-limit-2.plan")], &["simulate", &example("made-4-4-6.plan"), "2000", "10000"]] {
        let output = tool().args(words).stdout(full()).output().unwrap();
        assert_eq!(output.status.code(), Some(2), "{words:?}");
        assert!(output.stderr.starts_with(b"kortyghai: standard output can't be written: "), "{words:?}");
    }
}

/// Nothing of a progress line where standard error is no terminal, also of a vet that lasts.
#[test]
fn no_progress_line_in_a_file() {
    let (status, _, err) = told(&["vet", &example("made-8-2-13.plan")], &[]);
    assert_eq!((status, &err[..]), (0, ""));
}
