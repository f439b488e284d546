//! The requests of sheetop.in, section by section.
//! Every section has a seed of its own.

mod damage;
mod lent;
mod limits;
mod listings;
mod orders;
mod right;
mod sheets;

use crate::examples::{sheet_a, sheet_b, sheet_d, strict_sheet};
use crate::gen::*;
use crate::order::house_order;
use crate::sheet::check;
use crate::text::Request;

/// A list of requests, and the dice for its section.
struct Book {
    dice: Dice,
    list: Vec<Request>,
}

impl Book {
    fn add(
        &mut self,
        letter: u8,
        sheet: &[u8],
        rows: &[i32],
        cells: &[i32],
        order: &[u16],
        results: usize,
    ) {
        self.list.push(Request {
            letter,
            sheet: sheet.to_vec(),
            rows: rows.to_vec(),
            cells: cells.to_vec(),
            order: order.to_vec(),
            results,
        });
    }

    fn c(&mut self, sheet: &[u8]) {
        self.add(b'c', sheet, &[], &[], &[], 0);
    }

    fn h(&mut self, sheet: &[u8], order: &[u16]) {
        self.add(b'h', sheet, &[], &[], order, 0);
    }

    fn s(&mut self, sheet: &[u8], cells: &[i32]) {
        self.add(b's', sheet, &[], cells, &[], 0);
    }

    fn t(&mut self, sheet: &[u8], row: &[i32], cells: &[i32], order: &[u16], values: usize) {
        self.add(b't', sheet, row, cells, order, values);
    }

    fn r(&mut self, sheet: &[u8], rows: &[i32], outputs: usize) {
        self.add(b'r', sheet, rows, &[], &[], outputs);
    }

    /// House order into a slice that holds entries by chance.
    fn house(&mut self, sheet: &[u8], length: usize) {
        let order: Vec<u16> = (0..length).map(|_| self.dice.roll() as u16).collect();
        self.h(sheet, &order);
    }

    /// Start into cells that hold ints by chance.
    fn begin(&mut self, sheet: &[u8], length: usize) {
        let cells = self.ints(length);
        self.s(sheet, &cells);
    }

    fn ints(&mut self, length: usize) -> Vec<i32> {
        (0..length).map(|_| self.dice.int()).collect()
    }

    /// A right tick, from cells by chance, in a right order by chance.
    fn right_tick(&mut self, draft: &Draft) {
        let sheet = tree(draft);
        let row = rows(&mut self.dice, &draft.types, 1);
        let cells = cells(&mut self.dice, &sheet);
        let order = right_order(&mut self.dice, &sheet);
        self.t(&draft.bytes(), &row, &cells, &order, order.len());
    }

    /// A right run of this many ticks.
    fn right_run(&mut self, draft: &Draft, ticks: usize) {
        let rows = rows(&mut self.dice, &draft.types, ticks);
        self.r(&draft.bytes(), &rows, ticks);
    }

    /// An operation by chance, mostly Check, on bytes that may be refused.
    /// The lent slices have right lengths if there are such.
    fn any(&mut self, bytes: &[u8]) {
        let (nodes, columns, slots) = match check(bytes) {
            Ok(sheet) => (
                sheet.nodes().len(),
                sheet.columns.len(),
                sheet.delays().len(),
            ),
            Err(_) => (
                self.dice.range(1, 9),
                self.dice.below(4),
                self.dice.below(3),
            ),
        };
        match self.dice.below(9) {
            0 => self.house(bytes, nodes),
            1 => self.begin(bytes, slots),
            2 | 3 => {
                let row: Vec<i32> = (0..columns).map(|_| self.dice.value(BOOL)).collect();
                let cells: Vec<i32> = (0..slots).map(|_| self.dice.value(BOOL)).collect();
                let order = match check(bytes) {
                    Ok(sheet) => right_order(&mut self.dice, &sheet),
                    Err(_) => (0..nodes as u16).rev().collect(),
                };
                self.t(bytes, &row, &cells, &order, nodes);
            }
            4 => {
                let ticks = self.dice.below(4);
                let rows: Vec<i32> = (0..ticks * columns)
                    .map(|_| self.dice.value(BOOL))
                    .collect();
                self.r(bytes, &rows, ticks);
            }
            _ => self.c(bytes),
        }
    }
}

/// All requests, in the order of the file.
pub fn all_requests() -> Vec<Request> {
    let sections: [fn(&mut Book); 30] = [
        settled,
        right::operators,
        sheets::single_records,
        right::right_sheets,
        right::large_sheets,
        right::sequences,
        orders::nearly_right_orders,
        sheets::every_name,
        sheets::hostile_names,
        sheets::type_faults,
        sheets::guard_faults,
        sheets::slot_faults,
        sheets::loose_sheets,
        sheets::damaged_bytes,
        limits::column_ceiling,
        limits::node_and_row_ceilings,
        limits::chains,
        lent::wrong_lengths,
        lent::wrong_bools,
        sheets::many_faults,
        sheets::large_faults,
        right::verdicts,
        listings::settled_listings,
        listings::rooms,
        listings::forms_and_numbers,
        listings::long_listings,
        listings::refused_sheets,
        listings::random_listings,
        listings::damaged_texts,
        listings::wrong_texts,
    ];
    let mut list = Vec::new();
    for (number, section) in sections.iter().enumerate() {
        let mut book = Book {
            dice: Dice::new(0x5EED_0001 + 7919 * number as u64),
            list: Vec::new(),
        };
        section(&mut book);
        list.append(&mut book.list);
    }
    list
}

/// The settled examples.
fn settled(book: &mut Book) {
    let a = sheet_a().bytes();
    book.c(&a);
    book.house(&a, 5);
    book.begin(&a, 1);
    book.r(&a, &[1, 2, 3], 3);
    book.r(&a, &[i32::MAX, 1], 2);
    for order in [
        [4, 2, 1, 0, 3],
        [2, 1, 4, 0, 3],
        [2, 4, 1, 0, 0],
        [2, 4, 1, 0, 3],
        [2, 4, 1, 3, 0],
        [2, 1, 2, 0, 3],
    ] {
        book.t(&a, &[5], &[10], &order, 5);
    }
    let seven = Draft::new(&[], &[constant(INT, 7)]).bytes();
    book.c(&seven);
    book.house(&seven, 1);
    book.begin(&seven, 0);
    book.t(&seven, &[], &[], &[0], 1);
    book.r(&seven, &[], 5);
    book.c(&[0, 4, 1, 0]);
    book.c(&Draft::new(&[], &[rec_of(INT), var(0)]).bytes());
    book.c(&strict_sheet().bytes());
    let b = sheet_b().bytes();
    book.c(&b);
    book.house(&b, 7);
    book.begin(&b, 2);
    book.r(&b, &[], 5);
    book.r(&b, &[], 40);
    let d = sheet_d().bytes();
    book.c(&d);
    book.house(&d, 10);
    book.r(&d, &[-1, 0, 5], 3);
    let house = house_order(&check(&d).expect("D is accepted"));
    for row in [-1, 0, 5] {
        book.t(&d, &[row], &[], &house, 10);
    }
}

/// Inputs of sheetop that end in a bad request.
pub fn bad_inputs() -> Vec<Vec<u8>> {
    let a = sheet_a().bytes();
    let good = Request {
        letter: b'c',
        sheet: a.clone(),
        rows: vec![],
        cells: vec![],
        order: vec![],
        results: 0,
    };
    let first = good.bytes();
    let after = |rest: &[u8]| -> Vec<u8> { [&first[..], rest].concat() };
    let header = |letter: u8, lengths: [u16; 5]| -> Vec<u8> {
        let mut bytes = vec![letter];
        for length in lengths {
            bytes.extend(length.to_be_bytes());
        }
        bytes
    };
    let tick = Request {
        letter: b't',
        sheet: a.clone(),
        rows: vec![4],
        cells: vec![5],
        order: vec![2, 4, 1, 0, 3],
        results: 5,
    }
    .bytes();
    let with = |lengths: [u16; 5], letter: u8, more: usize| -> Vec<u8> {
        let mut bytes = header(letter, lengths);
        bytes.extend(&a);
        bytes.extend(vec![0; more]);
        bytes
    };
    let l = a.len() as u16;
    vec![
        // An unknown letter, alone and with a right request behind it.
        b"x".to_vec(),
        after(&[header(b'C', [0; 5]), first.clone()].concat()),
        // Cut short: in the letter's header, in the sheet, in the last entry.
        after(&first[..1]),
        after(&first[..10]),
        after(&first[..20]),
        after(&tick[..tick.len() - 1]),
        after(&tick[..11]),
        // Over a limit: L, R, K, O, W.
        [header(b'c', [16385, 0, 0, 0, 0]), vec![0; 16385]].concat(),
        with([l, 8193, 0, 0, 0], b'r', 4 * 8193),
        with([l, 0, 1025, 0, 0], b's', 4 * 1025),
        with([l, 0, 0, 1025, 0], b'h', 2 * 1025),
        with([l, 0, 0, 0, 16385], b'r', 0),
        // A length that the operation does not use.
        with([l, 1, 0, 0, 0], b'c', 4),
        with([l, 0, 0, 5, 1], b'h', 10),
        with([l, 0, 1, 1, 0], b's', 6),
        with([l, 3, 1, 0, 3], b'r', 16),
        after(&with([l, 0, 1, 0, 0], b'h', 4)),
        // A line feed behind the last request.
        after(b"\n"),
        // Nothing at all is no bad request.
        vec![],
        // Listings: a length that is not used, over a limit, cut short.
        with([l, 1, 0, 0, 50], b'w', 4),
        with([l, 0, 1, 0, 50], b'l', 4),
        with([l, 0, 0, 1, 50], b'w', 2),
        with([l, 0, 0, 0, 16385], b'w', 0),
        with([l, 0, 0, 0, 16385], b'l', 0),
        [header(b'l', [16385, 0, 0, 0, 0]), vec![32; 16385]].concat(),
        after(&header(b'l', [3, 0, 0, 0, 5])),
        after(b"w"),
    ]
}
