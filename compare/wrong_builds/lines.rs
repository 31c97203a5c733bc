//! What `conform` prints, of a wrong build: where a case stops it, its line is `stops` and the next case follows.

use std::panic::{catch_unwind, set_hook};

fn main() {
    set_hook(Box::new(|_| {}));
    let path = std::env::args().nth(1).expect("a stream");
    let stream = std::fs::read(path).expect("a stream that can be read");
    for case in compare::stream::cases(&stream).expect("whole cases") {
        match catch_unwind(|| case.work()) {
            Ok(Some((answer, after))) => println!("{}{after}", answer.line()),
            Ok(None) => println!("refused"),
            Err(_) => println!("stops"),
        }
    }
}
