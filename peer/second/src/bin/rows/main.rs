//! Reads the rows that the library's own programs `calls` and `mapcalls` are run on, and holds this implementation to them.
//!
//! `rows calls < crates/calls/stdin` prints each row that is not answered as it says, and how many rows there were; it ends with an
//! error where one failed. With the word `fill` behind it, the same rows are printed with what this implementation answers.

mod calls;
mod mapcalls;
mod row;

use std::io;
use std::process::ExitCode;

use row::Row;

/// What rows are run on.
trait Machine {
    /// What a call answers; none if there is no such call, or not with so many arguments.
    fn answer(&mut self, name: &str, args: &[u64]) -> Option<Vec<u64>>;
}

fn main() -> ExitCode {
    let words: Vec<String> = std::env::args().skip(1).collect();
    let mut machine: Box<dyn Machine> = match words.first().map(String::as_str) {
        Some("calls") => Box::new(calls::Calls::new()),
        Some("mapcalls") => Box::new(mapcalls::MapCalls::new()),
        _ => panic!("rows calls [fill], or rows mapcalls [fill]"),
    };
    let text = io::read_to_string(io::stdin().lock()).expect("rows are text");
    if words.get(1).is_some_and(|word| word == "fill") {
        text.lines().for_each(|line| println!("{}", filled(machine.as_mut(), line)));
        return ExitCode::SUCCESS;
    }
    let failed = (1..).zip(text.lines()).filter(|&(number, line)| !passes(machine.as_mut(), number, line)).count();
    let rows = text.lines().filter(|line| Row::parse(line).is_some()).count();
    println!("{rows} rows, {} passed", rows - failed);
    if failed == 0 && rows > 0 { ExitCode::SUCCESS } else { ExitCode::FAILURE }
}

fn passes(machine: &mut dyn Machine, number: usize, line: &str) -> bool {
    let Some(row) = Row::parse(line) else {
        return true;
    };
    let came = machine.answer(row.name, &row.args);
    let good = came.as_ref() == Some(&row.wants);
    if !good {
        println!("line {number}: {line}\n  came {came:x?}, awaited {:x?}", row.wants);
    }
    good
}

fn filled(machine: &mut dyn Machine, line: &str) -> String {
    let Some(row) = Row::parse(line) else {
        return line.to_string();
    };
    let came = machine.answer(row.name, &row.args).unwrap_or_else(|| panic!("no such call: {line}"));
    row.with(&came)
}
