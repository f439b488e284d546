//! The inputs and expected outputs of the program crates that the gate runs.

use crate::files::joined;
use crate::requests::{all_requests, bad_inputs};
use crate::runs::{list_inputs, read_inputs, run_inputs};
use crate::text::{sheetlist, sheetop, sheetread, sheetrun};
use std::fs;
use std::path::Path;
use std::process::ExitCode;

/// A crate's name, its standard input and what it must print.
type Case = (&'static str, Vec<u8>, Vec<u8>);

/// Inputs one after the other, each behind its length in four bytes.
fn bundle(inputs: &[Vec<u8>]) -> Vec<u8> {
    let mut bytes = Vec::new();
    for input in inputs {
        bytes.extend((input.len() as u32).to_be_bytes());
        bytes.extend(input);
    }
    bytes
}

fn cases() -> Vec<Case> {
    let requests = |name, input: Vec<u8>| {
        let output = sheetop(&input).into_bytes();
        (name, input, output)
    };
    let bad = bad_inputs();
    let runs = run_inputs();
    let lists = list_inputs();
    let reads = read_inputs();
    vec![
        requests("sheetop", joined(&all_requests())),
        requests("sheetop_letter", bad[1].clone()),
        requests("sheetop_cut", bad[5].clone()),
        requests("sheetop_over", bad[8].clone()),
        ("sheetrun", runs[0].clone(), sheetrun(&runs[0]).into_bytes()),
        (
            "sheetruns",
            bundle(&runs),
            runs.iter()
                .flat_map(|run| sheetrun(run).into_bytes())
                .collect(),
        ),
        ("sheetlist", lists[0].clone(), sheetlist(&lists[0])),
        ("sheetread", reads[0].clone(), sheetread(&reads[0])),
    ]
}

/// The files, by their paths below the folder of crates.
fn files() -> Vec<(String, Vec<u8>)> {
    cases()
        .into_iter()
        .flat_map(|(name, input, output)| {
            [
                (format!("{name}/stdin"), input),
                (format!("{name}/stdout"), output),
            ]
        })
        .collect()
}

/// Puts them into the folder of crates.
pub fn write(crates: &str) -> ExitCode {
    for (name, contents) in files() {
        let path = Path::new(crates).join(&name);
        fs::create_dir_all(path.parent().expect("it lies in a crate"))
            .expect("the folder can be made");
        fs::write(path, contents).expect("the file can be written");
    }
    ExitCode::SUCCESS
}

/// Says whether any of them differs from the folder of crates.
pub fn compare(crates: &str) -> ExitCode {
    let mut differing = 0;
    for (name, contents) in files() {
        let same = fs::read(Path::new(crates).join(&name)).is_ok_and(|found| found == contents);
        differing += usize::from(!same);
        println!("{} {name}", if same { "same" } else { "DIFFERS" });
    }
    println!("{differing} files differ");
    ExitCode::from(u8::from(differing > 0))
}
