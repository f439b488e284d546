//! The commands.

use reference::{examples, files, gate, text, with_big_stack};
use std::io::{Read, Write};
use std::process::ExitCode;

fn main() -> ExitCode {
    with_big_stack(|| {
        let arguments: Vec<String> = std::env::args().skip(1).collect();
        let words: Vec<&str> = arguments.iter().map(String::as_str).collect();
        match words[..] {
            ["sheetrun"] => print(text::sheetrun(&read_all()).as_bytes()),
            ["sheetop"] => print(text::sheetop(&read_all()).as_bytes()),
            ["sheetlist"] => print(&text::sheetlist(&read_all())),
            ["sheetread"] => print(&text::sheetread(&read_all())),
            ["write", dir] => files::write(dir),
            ["compare", dir] => files::compare(dir),
            ["write-gate", crates] => gate::write(crates),
            ["compare-gate", crates] => gate::compare(crates),
            ["histogram"] => files::histogram(),
            ["check-examples"] => examples::report(),
            _ => {
                eprintln!("commands: sheetrun, sheetop, sheetlist, sheetread, write DIR, compare DIR, write-gate CRATES, compare-gate CRATES, histogram, check-examples");
                ExitCode::from(2)
            }
        }
    })
}

fn read_all() -> Vec<u8> {
    let mut input = Vec::new();
    std::io::stdin()
        .read_to_end(&mut input)
        .expect("the input can be read");
    input
}

fn print(output: &[u8]) -> ExitCode {
    std::io::stdout()
        .write_all(output)
        .expect("the output can be written");
    ExitCode::SUCCESS
}
