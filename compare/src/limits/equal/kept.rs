//! Files of version 2 that were written before C-18, with every pick, kept as they were then, with what reading, showing and
//! running them printed then: `data/version_2.cas` is a conformance stream, `data/version_2.txt` has its lines. They rest on
//! no writer of today.

use super::super::List;
use crate::stream::{cases, lines};

const STREAM: &[u8] = include_bytes!("../../../data/version_2.cas");
const LINES: &str = include_str!("../../../data/version_2.txt");

pub fn add(list: &mut List) {
    let mut printed = Vec::new();
    lines(STREAM, |line| printed.push(line.to_string()));
    let kept: Vec<&str> = LINES.lines().collect();
    assert_eq!(printed, kept, "what was printed before C-18");
    for case in cases(STREAM).expect("whole cases") {
        list.put(case);
    }
}
