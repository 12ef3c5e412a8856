//! The tables that are timed.

fn program(head: &str, first: &str, third: &str) -> Vec<u8> {
    format!("(program {head}\n(table 1 8\n{first})\n(table 2 0\n)\n(table 3\n{third})\n)\n").into_bytes()
}

/// 10 entries: two channels, processing, an average and a sample every third scan.
pub fn small() -> Vec<u8> {
    let entries = "(1 2 5 1 1 1 0.5 1.0)\n(33 1 2 3)\n(37 3 0.1 4)\n(32 5)\n(89 5 3 3 30)\n(30 0 5)\n(86 10)\n(95)\n\
                   (71 2 3)\n(70 1 4)\n";
    program("8 2", entries, "")
}

/// 99 entries: 28 channels, 84 of processing, averages, maxima and minima, and output once a minute.
pub fn large() -> Vec<u8> {
    let mut entries = String::from("(1 28 5 1 1 1 0.5 1.0)\n");
    for i in 1..=28 {
        entries += &format!("(37 {i} 0.25 {})\n", 28 + i);
    }
    for i in 1..=28 {
        entries += &format!("(33 {} {i} {})\n", 28 + i, 56 + i);
    }
    for i in 1..=28 {
        entries += &format!("(35 {} {i} {})\n", 56 + i, 84 + i);
    }
    entries += "(92 0 1 30)\n(86 10)\n(95)\n(32 120)\n(32 120)\n(32 120)\n(32 120)\n(91 11 10)\n(71 28 57)\n\
                (71 28 85)\n(73 28 57)\n(74 28 57)\n(70 28 29)\n(77 110)\n";
    program("120 112", &entries, "")
}

/// A loop with a stated count of 60,000.
pub fn long_loop() -> Vec<u8> {
    let increments = "(32 1)\n".repeat(8);
    program("1 0", &format!("(87 0 6666)\n{increments}(95)\n(32 1)\n(32 1)\n(32 1)\n(32 1)\n(32 1)\n"), "")
}

/// Seven subroutines, each called by the one before.
pub fn deep() -> Vec<u8> {
    let mut third = String::new();
    for k in 1..=7 {
        let call = if k < 7 { format!("(86 {})\n", k + 1) } else { String::new() };
        third += &format!("(85 {k})\n(32 {k})\n(33 {k} 8 9)\n{call}(95)\n");
    }
    program("9 0", "(32 9)\n(86 1)\n(34 9 1.0 9)\n", &third)
}

/// 30 values stored in every scan.
pub fn output() -> Vec<u8> {
    program("30 0", "(1 28 5 1 1 1 0.5 1.0)\n(86 10)\n(77 110)\n(70 28 1)\n", "")
}

/// A loop of indexed entries, inside Then Dos or none.
pub fn indexed_loop(then_dos: usize) -> Vec<u8> {
    let (open, close) = ("(91 21 30)\n".repeat(then_dos), "(95)\n".repeat(then_dos));
    program("200 0", &format!("(87 0 200)\n{open}{}{close}(95)\n", "(32 1--)\n".repeat(8)), "")
}
