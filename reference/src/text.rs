//! The printed output of the programs.

use crate::eval::{check_rows, history, run, start, tick, Answer, MAX_ROWS};
use crate::listing::{read, read_into, write, write_into};
use crate::order::write_house_order;
use crate::sheet::{check, refuse, Refusal, Sheet};
use std::fmt::Write;

/// The most bytes of input that sheetrun looks at.
pub const MAX_INPUT: usize = 32768;

/// The whole output of sheetrun for this input.
pub fn sheetrun(input: &[u8]) -> String {
    match sheetrun_lines(input) {
        Ok(text) => text,
        Err(refusal) => refused_line(refusal),
    }
}

fn sheetrun_lines(input: &[u8]) -> Result<String, Refusal> {
    if input.len() > MAX_INPUT {
        return refuse(1, 0);
    }
    let mut cut = input.len();
    if input.len() >= 2 {
        cut = cut.min(usize::from(input[0]) * 256 + usize::from(input[1]));
    }
    let (bytes, rest) = input.split_at(cut);
    let sheet = check(bytes)?;
    let columns = sheet.columns.len();
    let ticks = if columns == 0 {
        if !rest.is_empty() {
            return refuse(12, 1);
        }
        1
    } else {
        if rest.len() % (4 * columns) != 0 {
            return refuse(12, 1);
        }
        rest.len() / (4 * columns)
    };
    if ticks > MAX_ROWS {
        return refuse(12, 5);
    }
    let rows: Vec<i32> = rest.chunks(4).map(read_int).collect();
    check_rows(&sheet, &rows)?;
    let mut text = accepted_line(&sheet);
    for (t, answer) in history(&sheet, &rows, ticks).iter().enumerate() {
        let _ = writeln!(text, "{} {} {}", t, answer.root, verdict_words(answer));
    }
    Ok(text)
}

/// The whole output of sheetlist for this input.
pub fn sheetlist(input: &[u8]) -> Vec<u8> {
    match write(input) {
        Ok(listing) => [&listing[..], b"\n"].concat(),
        Err(refusal) => refused_line(refusal).into_bytes(),
    }
}

/// The whole output of sheetread for this input.
pub fn sheetread(input: &[u8]) -> Vec<u8> {
    match read(input.strip_suffix(b"\n").unwrap_or(input)) {
        Ok(bytes) => bytes,
        Err(refusal) => refused_line(refusal).into_bytes(),
    }
}

fn refused_line(refusal: Refusal) -> String {
    format!("refused {} {}\n", refusal.number, refusal.place)
}

fn accepted_line(sheet: &Sheet) -> String {
    format!(
        "ok {} {} {} {}\n",
        sheet.nodes().len(),
        sheet.columns.len(),
        sheet.delays().len(),
        sheet.root_type().name()
    )
}

fn verdict_words(answer: &Answer) -> String {
    match answer.lowest {
        None => "pass".to_string(),
        Some((node, verdict)) => format!("{} {}", verdict.name(), node),
    }
}

fn read_int(bytes: &[u8]) -> i32 {
    i32::from_be_bytes([bytes[0], bytes[1], bytes[2], bytes[3]])
}

/// The contents of a lent slice that only takes results.
pub const UNTOUCHED: i32 = -1431655766;

/// The contents of a lent room for a listing, and of one for a sheet.
pub const UNTOUCHED_TEXT: u8 = 35;
pub const UNTOUCHED_BYTE: u8 = 170;

pub const MAX_SHEET_BYTES: usize = 16384;
pub const MAX_ROW_INTS: usize = 8192;
pub const MAX_CELLS: usize = 1024;
pub const MAX_ORDER: usize = 1024;
pub const MAX_RESULTS: usize = 16384;

/// One request of sheetop. For `l` the listing stands in the sheet's place.
#[derive(Clone, Debug, PartialEq, Eq)]
pub struct Request {
    pub letter: u8,
    pub sheet: Vec<u8>,
    pub rows: Vec<i32>,
    pub cells: Vec<i32>,
    pub order: Vec<u16>,
    pub results: usize,
}

impl Request {
    /// The bytes of the request.
    pub fn bytes(&self) -> Vec<u8> {
        let mut bytes = vec![self.letter];
        let lengths = [
            self.sheet.len(),
            self.rows.len(),
            self.cells.len(),
            self.order.len(),
            self.results,
        ];
        for length in lengths {
            bytes.extend((length as u16).to_be_bytes());
        }
        bytes.extend(&self.sheet);
        for value in self.rows.iter().chain(&self.cells) {
            bytes.extend(value.to_be_bytes());
        }
        for entry in &self.order {
            bytes.extend(entry.to_be_bytes());
        }
        bytes
    }
}

/// Takes bytes from the front of the input.
fn take<'a>(input: &mut &'a [u8], count: usize) -> Option<&'a [u8]> {
    if input.len() < count {
        return None;
    }
    let (front, rest) = input.split_at(count);
    *input = rest;
    Some(front)
}

/// The next request, or nothing where it is a bad one.
fn read_request(input: &mut &[u8]) -> Option<Request> {
    let letter = take(input, 1)?[0];
    // Which of L, R, K, O and W the operation uses.
    let uses = match letter {
        b'c' => [true, false, false, false, false],
        b'h' => [true, false, false, true, false],
        b's' => [true, false, true, false, false],
        b't' => [true, true, true, true, true],
        b'r' => [true, true, false, false, true],
        b'w' | b'l' => [true, false, false, false, true],
        _ => return None,
    };
    let limits = [
        MAX_SHEET_BYTES,
        MAX_ROW_INTS,
        MAX_CELLS,
        MAX_ORDER,
        MAX_RESULTS,
    ];
    let header = take(input, 10)?;
    let mut lengths = [0; 5];
    for i in 0..5 {
        lengths[i] = usize::from(header[2 * i]) * 256 + usize::from(header[2 * i + 1]);
        if lengths[i] > limits[i] || (!uses[i] && lengths[i] != 0) {
            return None;
        }
    }
    let sheet = take(input, lengths[0])?.to_vec();
    let rows = take(input, 4 * lengths[1])?.chunks(4).map(read_int);
    let cells = take(input, 4 * lengths[2])?.chunks(4).map(read_int);
    let order = take(input, 2 * lengths[3])?
        .chunks(2)
        .map(|pair| u16::from_be_bytes([pair[0], pair[1]]));
    Some(Request {
        letter,
        sheet,
        rows: rows.collect(),
        cells: cells.collect(),
        order: order.collect(),
        results: lengths[4],
    })
}

/// The whole output of sheetop for this input.
pub fn sheetop(mut input: &[u8]) -> String {
    let mut text = String::new();
    while !input.is_empty() {
        match read_request(&mut input) {
            Some(request) => text.push_str(&reply(request)),
            None => {
                text.push_str("bad request\n");
                break;
            }
        }
    }
    text
}

/// The lines that answer one request.
pub fn reply(request: Request) -> String {
    let Request {
        letter,
        sheet,
        rows,
        mut cells,
        mut order,
        results: room,
    } = request;
    let mut results = vec![UNTOUCHED; room];
    let (answer, lent) = match letter {
        b'c' => (check(&sheet).map(|sheet| accepted_line(&sheet)), vec![]),
        b'h' => {
            let done = write_house_order(&sheet, &mut order);
            let lent = vec![slice_line("order", &order)];
            (done.map(|()| "ok\n".to_string()), lent)
        }
        b's' => {
            let done = start(&sheet, &mut cells);
            let lent = vec![slice_line("cells", &cells)];
            (done.map(|()| "ok\n".to_string()), lent)
        }
        b't' => {
            let done = tick(&sheet, &rows, &mut cells, &order, &mut results);
            let lent = vec![slice_line("cells", &cells), slice_line("values", &results)];
            let words = |a: Answer| format!("ok {} {} {}\n", a.root, a.failing, verdict_words(&a));
            (done.map(words), lent)
        }
        b'r' => {
            let done = run(&sheet, &rows, &mut results);
            let lent = vec![slice_line("outputs", &results)];
            (done.map(|failing| format!("ok {failing}\n")), lent)
        }
        b'w' => {
            let mut text = vec![UNTOUCHED_TEXT; room];
            let done = write_into(&sheet, &mut text);
            (done.map(length_line), vec![text_line(&text)])
        }
        b'l' => {
            let mut bytes = vec![UNTOUCHED_BYTE; room];
            let done = read_into(&sheet, &mut bytes);
            let entries: Vec<String> = bytes.iter().map(|byte| format!("{byte:02x}")).collect();
            (done.map(length_line), vec![slice_line("bytes", &entries)])
        }
        _ => unreachable!("the letter was looked at before"),
    };
    let first = answer.unwrap_or_else(refused_line);
    first + &lent.concat()
}

fn length_line(length: usize) -> String {
    format!("ok {length}\n")
}

/// A room that holds text, as it stands.
fn text_line(text: &[u8]) -> String {
    let text = String::from_utf8(text.to_vec()).expect("a listing is plain text");
    let space = if text.is_empty() { "" } else { " " };
    format!("text{space}{text}\n")
}

fn slice_line<T: std::fmt::Display>(name: &str, entries: &[T]) -> String {
    let mut line = name.to_string();
    for entry in entries {
        let _ = write!(line, " {entry}");
    }
    line.push('\n');
    line
}
