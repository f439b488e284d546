//! The settled examples of document 01, and the one of request P1.

use crate::eval::{apply, history, run, start, tick, Verdict};
use crate::gen::*;
use crate::listing::{read, write};
use crate::order::{house_order, write_house_order};
use crate::sheet::{check, Operator, Refusal};
use crate::text::sheetrun;
use std::fmt::Debug;
use std::process::ExitCode;

/// Sheet A, a running sum.
pub fn sheet_a() -> Draft {
    Draft::new(
        &[INT],
        &[rec_of(INT), op(ADD), fby(INT, 0), var(0), input(0)],
    )
}

/// Sheet B, with two slots.
pub fn sheet_b() -> Draft {
    Draft::new(
        &[],
        &[
            rec_of(INT),
            fby(INT, 0),
            rec_of(INT),
            op(ADD),
            fby(INT, 1),
            var(2),
            var(0),
        ],
    )
}

/// Sheet D, a contract.
pub fn sheet_d() -> Draft {
    Draft::new(
        &[INT],
        &[
            plain(CONTRACT),
            op(LE),
            constant(INT, 0),
            input(0),
            op(SUB),
            input(0),
            constant(INT, 1),
            op(LE),
            constant(INT, 0),
            var(0),
        ],
    )
}

/// The example of a strict guard.
pub fn strict_sheet() -> Draft {
    Draft::new(
        &[],
        &[
            rec_of(INT),
            plain(LET),
            op(ADD),
            var(0),
            constant(INT, 1),
            fby(INT, 0),
            var(1),
        ],
    )
}

/// Collects what was compared: a name, and what differs if anything does.
struct Table {
    rows: Vec<(String, Option<String>)>,
}

impl Table {
    fn compare<T: PartialEq + Debug>(&mut self, name: &str, expected: T, found: T) {
        let differs = if expected == found {
            None
        } else {
            Some(format!("expected {expected:?}, found {found:?}"))
        };
        self.rows.push((name.to_string(), differs));
    }

    fn refused(&mut self, name: &str, number: u32, place: usize, found: Option<Refusal>) {
        self.compare(name, Some(Refusal { number, place }), found);
    }
}

/// N, C, S and the root's type, or the refusal.
fn accepted(bytes: &[u8]) -> Result<(usize, usize, usize, &'static str), Refusal> {
    check(bytes).map(|sheet| {
        (
            sheet.nodes().len(),
            sheet.columns.len(),
            sheet.delays().len(),
            sheet.root_type().name(),
        )
    })
}

fn outputs(bytes: &[u8], rows: &[i32], ticks: usize) -> Result<(usize, Vec<i32>), Refusal> {
    let mut outputs = vec![0; ticks];
    run(bytes, rows, &mut outputs).map(|failing| (failing, outputs))
}

fn house(bytes: &[u8]) -> Result<Vec<u16>, Refusal> {
    let mut order = vec![0; check(bytes)?.nodes().len()];
    write_house_order(bytes, &mut order).map(|()| order)
}

/// A tick of sheet A, from Start, with row 1 and this order.
fn tick_a(order: [u16; 5]) -> Option<Refusal> {
    let bytes = sheet_a().bytes();
    let mut cells = [9];
    start(&bytes, &mut cells).ok()?;
    tick(&bytes, &[1], &mut cells, &order, &mut [0; 5]).err()
}

/// A chain of NEG over a constant, of this depth.
pub fn chain(depth: usize) -> Vec<u8> {
    let mut records = vec![op(NEG); depth - 1];
    records.push(constant(INT, 1));
    Draft::new(&[], &records).bytes()
}

/// LETs whose definitions are `count` times this many nodes.
pub fn many_lets(definition: &[Record], count: usize) -> Vec<Record> {
    if count == 0 {
        return vec![constant(INT, 3)];
    }
    if count == 1 {
        return definition.to_vec();
    }
    let mut records = vec![plain(LET)];
    records.extend(many_lets(definition, count / 2));
    records.extend(many_lets(definition, count - count / 2));
    records
}

/// Every settled example: its name, and what differs if anything does.
pub fn all_examples() -> Vec<(String, Option<String>)> {
    let mut table = Table { rows: Vec::new() };
    let a = sheet_a().bytes();
    let written: Vec<u8> = vec![
        0x00, 0x23, 0x01, 0x01, 0x01, //
        0x05, 0x01, 0x00, 0x00, 0x00, 0x00, //
        0x03, 0x08, 0x00, 0x00, 0x00, 0x00, //
        0x04, 0x01, 0x00, 0x00, 0x00, 0x00, //
        0x02, 0x00, 0x00, 0x00, 0x00, 0x00, //
        0x01, 0x00, 0x00, 0x00, 0x00, 0x00,
    ];
    table.compare("the bytes of A", written, a.clone());
    table.compare("* A is accepted", Ok((5, 1, 1, "int")), accepted(&a));
    table.compare("* house order of A", Ok(vec![2, 4, 1, 0, 3]), house(&a));
    table.compare(
        "* A with rows 1, 2, 3",
        Ok((0, vec![1, 3, 6])),
        outputs(&a, &[1, 2, 3], 3),
    );
    table.compare(
        "* A with rows 2147483647, 1",
        Ok(-2147483648),
        outputs(&a, &[2147483647, 1], 2).map(|(_, outputs)| outputs[1]),
    );
    table.compare("* order 4 2 1 0 3", None, tick_a([4, 2, 1, 0, 3]));
    table.refused("* order 2 1 4 0 3", 15, 1, tick_a([2, 1, 4, 0, 3]));
    table.refused("order 2 4 1 0 0", 15, 4, tick_a([2, 4, 1, 0, 0]));

    let seven = [0x00, 0x0A, 0x01, 0x00, 0x00, 0x01, 0x00, 0x00, 0x00, 0x07];
    table.compare(
        "the constant sheet gives 7 at every tick",
        Ok((0, vec![7; 256])),
        outputs(&seven, &[], 256),
    );
    table.refused("00 04 01 00", 4, 0, check(&[0, 4, 1, 0]).err());
    let bare = Draft::new(&[], &[rec_of(INT), var(0)]).bytes();
    table.refused("* REC int, VAR 0", 10, 1, check(&bare).err());
    let strict = strict_sheet().bytes();
    table.refused("* the example of strictness", 10, 3, check(&strict).err());

    let b = sheet_b().bytes();
    table.compare(
        "* B gives 0, 1, 2, 4, 8",
        Ok((0, vec![0, 1, 2, 4, 8])),
        outputs(&b, &[], 5),
    );
    table.compare(
        "* house order of B",
        Ok(vec![1, 0, 4, 6, 3, 2, 5]),
        house(&b),
    );

    let d = sheet_d().bytes();
    let sheet = check(&d).expect("D is accepted");
    let answers = history(&sheet, &[-1, 0, 5], 3);
    let found: Vec<_> = answers.iter().map(|a| (a.root, a.lowest)).collect();
    let expected = vec![
        (-2, Some((0, Verdict::Caller))),
        (-1, Some((0, Verdict::Body))),
        (4, None),
    ];
    table.compare(
        "* D with rows -1, 0, 5, by Run's meaning",
        expected.clone(),
        found,
    );
    let order = house_order(&sheet);
    let mut by_tick = Vec::new();
    for row in [-1, 0, 5] {
        if let Ok(answer) = tick(&d, &[row], &mut [], &order, &mut [0; 10]) {
            by_tick.push((answer.root, answer.lowest));
        }
    }
    table.compare("* D with rows -1, 0, 5, by Tick", expected, by_tick);

    table.compare("depth 32", Ok((32, 0, 0, "int")), accepted(&chain(32)));
    table.refused("depth 33", 7, 32, check(&chain(33)).err());
    let delay = [fby(INT, 0), constant(INT, 0)];
    let fits = Draft::new(&[], &many_lets(&delay, 64)).bytes();
    table.compare("64 FBY", Ok((191, 0, 64, "int")), accepted(&fits));
    let over = Draft::new(&[], &many_lets(&delay, 65));
    let last = over.find(|record| record.kind == FBY)[64];
    table.refused("65 FBY", 11, last, check(&over.bytes()).err());
    let columns = |count: usize| Draft::new(&vec![INT; count], &[constant(INT, 0)]).bytes();
    table.compare("16 columns", Ok((1, 16, 0, "int")), accepted(&columns(16)));
    table.refused("17 columns", 3, 3, check(&columns(17)).err());
    let mut nodes = many_lets(&[constant(INT, 0)], 256);
    nodes.insert(0, op(NEG));
    let full = Draft::new(&[], &nodes).bytes();
    table.compare("512 nodes", Ok((512, 0, 0, "int")), accepted(&full));
    nodes.insert(0, op(NEG));
    let over = Draft::new(&[], &nodes).bytes();
    table.refused("513 nodes", 4, 0, check(&over).err());
    table.compare(
        "256 rows",
        Ok((0, (1..=256).collect())),
        outputs(&a, &[1; 256], 256),
    );
    table.refused("257 rows", 12, 5, outputs(&a, &[1; 257], 257).err());

    let mut input = a.clone();
    for row in [1, 2, 3] {
        input.extend(i32::to_be_bytes(row));
    }
    let expected = "ok 5 1 1 int\n0 1 pass\n1 3 pass\n2 6 pass\n";
    table.compare("sheetrun of A", expected.to_string(), sheetrun(&input));

    // The example of P1.
    let listing = b"sheet int (rec int (add (fby 0 v0) i0))".to_vec();
    table.compare("the listing of A", Ok(listing.clone()), write(&a));
    table.compare("A from its listing", Ok(a.clone()), read(&listing));

    // The numbers that stand with the operators.
    let of = |operator, a, b| apply(operator, &[a, b]);
    table.compare("-7 DIV 2", -3, of(Operator::Div, -7, 2));
    table.compare("-7 MOD 2", -1, of(Operator::Mod, -7, 2));
    table.compare("9 DIV 0", 0, of(Operator::Div, 9, 0));
    table.compare("9 MOD 0", 9, of(Operator::Mod, 9, 0));
    let low = -2147483648;
    table.compare("-2147483648 DIV -1", low, of(Operator::Div, low, -1));
    table.compare("-2147483648 MOD -1", 0, of(Operator::Mod, low, -1));
    table.rows
}

/// Prints every example; the status is 1 if any differs.
pub fn report() -> ExitCode {
    let rows = all_examples();
    let mut differing = 0;
    for (name, differs) in &rows {
        match differs {
            None => println!("same    {name}"),
            Some(how) => {
                differing += 1;
                println!("DIFFERS {name}: {how}");
            }
        }
    }
    println!("{differing} of {} examples differ", rows.len());
    if differing == 0 {
        ExitCode::SUCCESS
    } else {
        ExitCode::from(1)
    }
}
