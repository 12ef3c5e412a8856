use std::io::Write;
use std::process::{Command, Stdio};

fn listing(input: &[u8]) -> Vec<u8> {
    let mut child =
        Command::new(env!("CARGO_BIN_EXE_listing")).stdin(Stdio::piped()).stdout(Stdio::piped()).spawn().unwrap();
    // It may end before it has read all: a refusal prints and ends.
    let _ = child.stdin.take().unwrap().write_all(input);
    let out = child.wait_with_output().unwrap();
    assert!(out.status.success());
    out.stdout
}

// The stored inputs of test_listing: its standard input has their names, its output each name and the listing.
#[test]
fn files() {
    let folder = concat!(env!("CARGO_MANIFEST_DIR"), "/../../crates/test_listing");
    let names = std::fs::read_to_string(format!("{folder}/stdin")).unwrap();
    let mut out = Vec::new();
    for name in names.lines() {
        out.extend_from_slice(name.as_bytes());
        out.push(b'\n');
        out.extend(listing(&std::fs::read(format!("{folder}/data/{name}.in")).unwrap()));
    }
    assert!(out == std::fs::read(format!("{folder}/stdout")).unwrap());
}

const TEXT: &str =
    "(program 1 0\n(table 1 8\n(1 1 5 7 28 1 1 0)\n(86 10)\n(70 1 1)\n)\n(table 2 0\n)\n(table 3\n)\n)\n";

#[test]
fn longest_lines() {
    let longest = format!("{TEXT}(reading 0000196 -1234.5)\n(tick 0000366 6911992)\n");
    assert_eq!(listing(longest.as_bytes()), b"102,-1235\n");
    let longer = format!("{TEXT}(reading 00000196 -1234.5)\n(tick 1 0)\n");
    assert_eq!(listing(longer.as_bytes()), b"E 1 0 0\n");
    let later = format!("{TEXT}(tick 1 6912000)\n");
    assert_eq!(listing(later.as_bytes()), b"E 33 0 0\n");
}
