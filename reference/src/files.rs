//! The files of expected output: writing them and comparing them.

use crate::requests::{all_requests, bad_inputs};
use crate::runs::{list_inputs, read_inputs, run_inputs};
use crate::text::{sheetlist, sheetop, sheetread, sheetrun, Request};
use std::collections::BTreeMap;
use std::fs;
use std::path::Path;
use std::process::ExitCode;

/// A file's name and its contents.
pub type File = (String, Vec<u8>);

/// The whole input that the requests make.
pub fn joined(requests: &[Request]) -> Vec<u8> {
    requests.iter().flat_map(Request::bytes).collect()
}

/// Every file, made in memory.
pub fn all_files() -> Vec<File> {
    let mut files = Vec::new();
    let mut add = |name: String, input: Vec<u8>, output: Vec<u8>| {
        files.push((format!("{name}.in"), input));
        files.push((format!("{name}.out"), output));
    };
    let input = joined(&all_requests());
    let output = sheetop(&input).into_bytes();
    add("sheetop".to_string(), input, output);
    for (k, input) in bad_inputs().into_iter().enumerate() {
        let output = sheetop(&input).into_bytes();
        add(format!("sheetop-bad-{k}"), input, output);
    }
    for (k, input) in run_inputs().into_iter().enumerate() {
        let output = sheetrun(&input).into_bytes();
        add(format!("sheetrun-{k}"), input, output);
    }
    for (k, input) in list_inputs().into_iter().enumerate() {
        let output = sheetlist(&input);
        add(format!("sheetlist-{k}"), input, output);
    }
    for (k, input) in read_inputs().into_iter().enumerate() {
        let output = sheetread(&input);
        add(format!("sheetread-{k}"), input, output);
    }
    files
}

/// Writes every file into a folder.
pub fn write(dir: &str) -> ExitCode {
    fs::create_dir_all(dir).expect("the folder can be made");
    let files = all_files();
    let mut total = 0;
    for (name, contents) in &files {
        fs::write(Path::new(dir).join(name), contents).expect("the file can be written");
        total += contents.len();
    }
    println!("{} files written, {} bytes", files.len(), total);
    ExitCode::SUCCESS
}

/// Makes every file again and compares it with the folder.
pub fn compare(dir: &str) -> ExitCode {
    let files = all_files();
    let mut differing = 0;
    for (name, contents) in &files {
        let state = match fs::read(Path::new(dir).join(name)) {
            Ok(found) if found == *contents => "same",
            Ok(_) => "DIFFERS",
            Err(_) => "MISSING",
        };
        if state != "same" {
            differing += 1;
        }
        println!("{state} {name}");
    }
    for name in names_in(dir) {
        let programs = ["sheetop", "sheetrun", "sheetlist", "sheetread"];
        let ours = programs.iter().any(|program| name.starts_with(program));
        let form = name.ends_with(".in") || name.ends_with(".out");
        if ours && form && !files.iter().any(|(known, _)| *known == name) {
            differing += 1;
            println!("EXTRA {name}");
        }
    }
    println!("{differing} of {} files differ", files.len());
    if differing == 0 {
        ExitCode::SUCCESS
    } else {
        ExitCode::from(1)
    }
}

fn names_in(dir: &str) -> Vec<String> {
    let mut names: Vec<String> = match fs::read_dir(dir) {
        Ok(entries) => entries
            .flatten()
            .map(|entry| entry.file_name().to_string_lossy().into_owned())
            .collect(),
        Err(_) => Vec::new(),
    };
    names.sort();
    names
}

/// Counts the answers by letter and by refusal number.
pub fn counts(requests: &[Request]) -> BTreeMap<(u32, char), usize> {
    let mut counts = BTreeMap::new();
    for request in requests {
        let letter = request.letter as char;
        let reply = crate::text::reply(request.clone());
        let mut words = reply.split_whitespace();
        let number = match words.next() {
            Some("refused") => words.next().and_then(|n| n.parse().ok()).unwrap_or(0),
            _ => 0,
        };
        *counts.entry((number, letter)).or_insert(0) += 1;
    }
    counts
}

/// Prints the counts; number 0 stands for ok.
pub fn histogram() -> ExitCode {
    let requests = all_requests();
    let counts = counts(&requests);
    println!("{} requests", requests.len());
    println!("number      c     h     s     t     r     w     l   all");
    for number in 0..=16 {
        let row: Vec<usize> = "chstrwl"
            .chars()
            .map(|letter| *counts.get(&(number, letter)).unwrap_or(&0))
            .collect();
        let cells: Vec<String> = row.iter().map(|count| format!("{count:6}")).collect();
        let name = match number {
            0 => "ok".to_string(),
            _ => number.to_string(),
        };
        println!("{name:6}{}{:6}", cells.concat(), row.iter().sum::<usize>());
    }
    ExitCode::SUCCESS
}
