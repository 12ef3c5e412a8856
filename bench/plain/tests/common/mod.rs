//! Lists of cases in the form of crate `test_cases`: a case's lines, and the text that they make.

pub struct Case {
    pub name: String,
    pub lines: Vec<Vec<u8>>,
}

pub fn cases(path: &str) -> Vec<Case> {
    let all = std::fs::read(path).unwrap();
    let mut cases: Vec<Case> = Vec::new();
    let all = all.strip_suffix(b"\n").unwrap_or(&all);
    for line in all.split(|&b| b == b'\n') {
        if let Some(name) = line.strip_prefix(b"@case ") {
            cases.push(Case { name: String::from_utf8(name.to_vec()).unwrap(), lines: Vec::new() });
        } else {
            cases.last_mut().unwrap().lines.push(line.to_vec());
        }
    }
    cases
}

/// The words of an `@` line.
pub fn words(line: &[u8]) -> Vec<&str> {
    if line.first() == Some(&b'@') {
        std::str::from_utf8(line).unwrap().split(' ').collect()
    } else {
        Vec::new()
    }
}

fn tables(from: u32, upto: u32, text: &mut Vec<u8>) {
    for t in from..upto {
        let next: &[u8] = match t {
            1 => b")\n(table 2 0\n",
            2 => b")\n(table 3\n",
            _ => b")\n)\n",
        };
        text.extend_from_slice(next);
    }
}

pub fn text(case: &Case) -> Vec<u8> {
    let mut text = Vec::new();
    let mut times = 1;
    for line in &case.lines {
        let w = words(line);
        let next = if w.first() == Some(&"@times") { w[1].parse().unwrap() } else { 1 };
        match w.first().copied() {
            None => {
                for _ in 0..times {
                    text.extend_from_slice(line);
                    text.push(b'\n');
                }
            }
            Some("@byte") => text.push(w[1].parse().unwrap()),
            Some("@fill") => {
                let n: usize = w[1].parse().unwrap();
                if text.len() < n {
                    text.resize(n, b'x');
                }
            }
            Some("@open") => {
                // Behind the table's number the line is taken as it stands.
                let rest = line.splitn(3, |&b| b == b' ').nth(2).unwrap();
                text.extend_from_slice(b"(program ");
                text.extend_from_slice(rest);
                text.extend_from_slice(b"\n(table 1 0\n");
                tables(1, w[1].parse().unwrap(), &mut text);
            }
            Some("@end") => tables(w[1].parse().unwrap(), 4, &mut text),
            Some("@drop") => {
                text.pop();
            }
            Some(_) => {}
        }
        times = next;
    }
    text
}

pub fn verdict(v: plain::Verdict) -> String {
    match v {
        plain::Verdict::Pass(a, b) => format!("pass {a} {b}"),
        plain::Verdict::Fault { number, table, entry } => format!("E {number} {table} {entry}"),
    }
}

/// Compares line by line and fails with the first differing lines.
pub fn compare(what: &str, ours: &[String], path: &str) {
    let theirs = std::fs::read_to_string(path).unwrap();
    let theirs: Vec<&str> = theirs.lines().collect();
    let mut differing = 0;
    for (n, (a, b)) in ours.iter().zip(&theirs).enumerate() {
        if a != b {
            differing += 1;
            if differing <= 20 {
                eprintln!("{what} line {}:\n  ours   {a}\n  theirs {b}", n + 1);
            }
        }
    }
    assert_eq!((differing, ours.len()), (0, theirs.len()), "{what}: differing lines, lines");
    eprintln!("{what}: {} lines agree", ours.len());
}
