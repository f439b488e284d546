//! The inputs of sheetrun, sheetlist and sheetread.

use crate::examples::{sheet_a, sheet_b, sheet_d};
use crate::gen::*;
use crate::listing::write;

/// A sheet and its rows as one input.
fn input_of(sheet: &[u8], rows: &[i32]) -> Vec<u8> {
    let mut bytes = sheet.to_vec();
    for value in rows {
        bytes.extend(value.to_be_bytes());
    }
    bytes
}

/// Whole inputs of sheetrun, in the order of their numbers.
pub fn run_inputs() -> Vec<Vec<u8>> {
    let mut dice = Dice::new(0x5EED_1001);
    let a = sheet_a().bytes();
    let seven = Draft::new(&[], &[constant(INT, 7)]).bytes();
    let bools = Draft::new(
        &[BOOL, BOOL],
        &[op(OR), input(0), fby(BOOL, 1), op(XOR), input(0), input(1)],
    )
    .bytes();
    // All verdicts, by the row: 0 fail, 1 caller, 2 body, else pass.
    let all_verdicts = Draft::new(
        &[INT],
        &[
            op(ADD),
            plain(CHECK),
            op(LT),
            constant(INT, 0),
            input(0),
            fby(INT, 100),
            input(0),
            plain(CONTRACT),
            op(NOT),
            op(EQ),
            input(0),
            constant(INT, 1),
            op(MUL),
            input(0),
            input(0),
            op(NOT),
            op(EQ),
            var(7),
            constant(INT, 4),
        ],
    )
    .bytes();
    let full = grow(
        &mut dice,
        Plan {
            style: STYLES[0],
            columns: 3,
            size: 512,
            levels: 32,
            delays: 64,
            slim: false,
        },
    );
    let full_rows = rows(&mut dice, &full.types, 30);
    let many: Vec<i32> = (0..257).map(|_| dice.int()).collect();
    // 32 bytes of sheet and 32736 bytes of rows: exactly 32768 bytes.
    let mut exact = Draft::new(&[INT; 4], &[op(ADD), input(0), op(NEG), input(3)]).bytes();
    exact.resize(32768, 0);
    let mut over = exact.clone();
    over.push(0);
    let mut one_sheet = vec![0; 32768];
    one_sheet[..4].copy_from_slice(&[0x80, 0, 1, 0]);
    let mut damaged = a.clone();
    damaged[2] = 9;
    let deep = Draft::new(&[INT], &[vec![op(NEG); 511], vec![input(0)]].concat()).bytes();
    let faulty = |records: &[Record]| Draft::new(&[INT, BOOL], records).bytes();
    let slots = {
        let mut records = Vec::new();
        for _ in 0..13 {
            records.push(op(ADD));
            records.extend(vec![fby(INT, 1); 5]);
            records.push(input(0));
        }
        records.push(input(0));
        Draft::new(&[INT], &records).bytes()
    };
    vec![
        // 0 to 4: the settled examples.
        input_of(&a, &[1, 2, 3]),
        seven.clone(),
        vec![0, 4, 1, 0],
        input_of(&sheet_d().bytes(), &[-1, 0, 5]),
        sheet_b().bytes(),
        // 5 to 8: long inputs.
        exact,
        over,
        one_sheet,
        vec![0; 40000],
        // 9 to 14: no rows, row faults, C = 0 with a rest.
        a.clone(),
        [input_of(&a, &[1, 2]), vec![0, 0, 0]].concat(),
        input_of(&a, &many),
        [input_of(&a, &many), vec![1]].concat(),
        input_of(&seven, &[1]),
        [seven.clone(), vec![9]].concat(),
        // 15 to 18: a bool root, a bad bool in a late row, every verdict.
        input_of(&bools, &[0, 0, 0, 1, 0, 0, 1, 1, 0, 1]),
        input_of(&bools, &[0, 0, 0, 1, 0, 2, -1, 1]),
        input_of(&bools, &[0, 0, 0]),
        input_of(&all_verdicts, &[5, 0, 1, 2, -1, -2, i32::MAX, i32::MIN]),
        // 19 to 24: first lengths that do not fit, and short inputs.
        vec![],
        vec![0],
        vec![0, 0],
        [vec![0, 3], a[2..].to_vec()].concat(),
        [vec![0, 36], a[2..].to_vec()].concat(),
        [vec![255, 255], a[2..].to_vec()].concat(),
        // 25 to 27: 256 rows, 512 nodes, 512 levels.
        input_of(&a, &many[..256]),
        input_of(&full.bytes(), &full_rows),
        input_of(&deep, &[1]),
        // 28 and on: refused sheets, most with row faults behind them.
        input_of(&damaged, &[1]),
        [Draft::new(&[INT, 2, 3], &[input(0)]).bytes(), vec![1]].concat(),
        [faulty(&[op(ADD), input(0), input(2)]), vec![1]].concat(),
        input_of(&faulty(&[op(ADD), input(0)]), &[1, 1]),
        input_of(&faulty(&[plain(LET), var(0), var(0)]), &[1, 5]),
        input_of(&faulty(&[op(ADD), input(0), input(1)]), &[1, 5]),
        [faulty(&[rec_of(INT), op(NEG), var(0)]), vec![1]].concat(),
        input_of(&slots, &[1]),
        // A sheet of C = 0 with a failing check.
        Draft::new(&[], &[plain(CHECK), constant(BOOL, 0), constant(BOOL, 1)]).bytes(),
    ]
}

/// Whole inputs of sheetlist.
pub fn list_inputs() -> Vec<Vec<u8>> {
    let mut dice = Dice::new(0x5EED_1002);
    let a = sheet_a().bytes();
    let deep = [vec![fby(INT, i32::MIN); 511], vec![constant(INT, i32::MIN)]].concat();
    vec![
        a.clone(),
        Draft::new(&[], &[constant(BOOL, 1)]).bytes(),
        wild_sheet(&mut dice, 60).bytes(),
        // The longest listing, and one node more.
        Draft::new(&[BOOL; 16], &deep).bytes(),
        Draft::new(&[BOOL; 16], &[vec![op(NEG)], deep].concat()).bytes(),
        // Nothing, a byte less, a line feed behind, a broken record.
        vec![],
        a[..a.len() - 1].to_vec(),
        [&a[..], b"\n"].concat(),
        Draft::new(&[INT], &[op(NEG), input(1)]).bytes(),
    ]
}

/// Whole inputs of sheetread.
pub fn read_inputs() -> Vec<Vec<u8>> {
    let listings = list_inputs()
        .into_iter()
        .filter_map(|sheet| write(&sheet).ok());
    let mut inputs: Vec<Vec<u8>> = listings.map(|text| [&text[..], b"\n"].concat()).collect();
    let a = inputs[0].clone();
    // No line feed, two, one with a carriage return, one in front.
    inputs.push(a[..a.len() - 1].to_vec());
    inputs.push([&a[..], b"\n"].concat());
    inputs.push([&a[..a.len() - 1], b"\r\n"].concat());
    inputs.push([b"\n", &a[..]].concat());
    // Nothing, a line feed alone, two listings, far too much.
    inputs.push(vec![]);
    inputs.push(b"\n".to_vec());
    inputs.push([&a[..], &a[..]].concat());
    inputs.push(vec![b'('; 30000]);
    inputs
}
