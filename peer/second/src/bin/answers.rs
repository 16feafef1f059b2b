//! The second program's own record program: records from standard input, answers to standard output. With the word `fast` it takes
//! packets by the call that is made for speed.

use std::io::{self, Read, Write};

use second::records::{answers, answers_by};

fn main() -> io::Result<()> {
    let mut input = Vec::new();
    io::stdin().read_to_end(&mut input)?;
    let text = match std::env::args().nth(1).as_deref() {
        Some("fast") => answers_by(second::fast::packet, &input),
        _ => answers(&input),
    };
    io::stdout().write_all(text.as_bytes())
}
