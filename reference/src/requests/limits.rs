//! The ceilings, and deep chains.

use super::Book;
use crate::examples::{sheet_a, sheet_b};
use crate::gen::*;
use crate::order::house_order;
use crate::sheet::{check, MAX_NODES};
use crate::text::{MAX_CELLS, MAX_ORDER, MAX_RESULTS, MAX_ROW_INTS, MAX_SHEET_BYTES};

/// 0, 16 and 17 columns, missing type bytes, bad type bytes.
pub(super) fn column_ceiling(book: &mut Book) {
    for columns in [0, 1, 2, 15, 16, 17, 18, 32, 128, 255] {
        let types: Vec<u8> = (0..columns).map(|i| (i % 2) as u8).collect();
        let last = (columns as u32).max(1) - 1;
        let draft = Draft::new(&types, &[op(NEG), input(last)]);
        book.any(&draft.bytes());
        let draft = Draft::new(&types, &[op(NOT), input(last)]);
        book.c(&draft.bytes());
        // A column one too far.
        let draft = Draft::new(&types, &[op(NOT), input(columns as u32)]);
        book.c(&draft.bytes());
    }
    // Sixteen columns, all used.
    let types: Vec<u8> = (0..16).map(|i| (i % 3 != 0) as u8).collect();
    let mut records = Vec::new();
    for column in 0..15 {
        records.push(plain(LET));
        records.push(input(column));
    }
    records.push(input(15));
    let wide = Draft::new(&types, &records);
    book.c(&wide.bytes());
    book.right_tick(&wide);
    book.right_run(&wide, 4);
    // Type bytes missing: the sheet ends within them or right behind them.
    for stated in [1, 2, 5, 16, 17, 255] {
        for present in [0, 1, 2, 5, 15, 16] {
            let mut bytes = vec![0, 0, 1, stated];
            bytes.extend(vec![1; present]);
            restate(&mut bytes);
            book.c(&bytes);
        }
    }
    // Type bytes over 1, in one place or several.
    for _ in 0..40 {
        let columns = book.dice.range(1, 16);
        let mut types: Vec<u8> = (0..columns).map(|_| book.dice.below(2) as u8).collect();
        for _ in 0..book.dice.range(1, 2) {
            let at = book.dice.below(columns);
            types[at] = book.dice.pick(&[2, 3, 128, 255]);
        }
        let mut records = vec![input(0)];
        if book.dice.chance(1, 3) {
            records.push(rec(77, 0, 0));
        }
        book.any(&Draft::new(&types, &records).bytes());
    }
}

/// A sum of this many nodes, with small depth.
fn wide_sum(size: usize) -> Vec<Record> {
    match size {
        1 => vec![constant(INT, 1)],
        2 => vec![op(NEG), constant(INT, 1)],
        _ => {
            let left = (size - 1) / 2;
            let mut records = vec![op(ADD)];
            records.extend(wide_sum(left));
            records.extend(wide_sum(size - 1 - left));
            records
        }
    }
}

/// 512 and 513 nodes, 256 and 257 rows, T = 0, C = 0.
pub(super) fn node_and_row_ceilings(book: &mut Book) {
    let full = Draft::new(&[], &wide_sum(MAX_NODES)).bytes();
    book.c(&full);
    book.house(&full, MAX_NODES);
    let order = house_order(&check(&full).expect("512 nodes are accepted"));
    book.t(&full, &[], &[], &order, MAX_NODES);
    book.r(&full, &[], 3);
    book.house(&full, MAX_NODES - 1);
    let over = Draft::new(&[], &wide_sum(MAX_NODES + 1)).bytes();
    book.c(&over);
    book.r(&over, &[], 1);
    // 513 records with other faults in them.
    let mut broken = Draft::new(&[], &wide_sum(MAX_NODES + 1));
    broken.records[3] = rec(99, 0, 0);
    book.c(&broken.bytes());
    // As many bytes as a request may have.
    let mut bytes = vec![0; MAX_SHEET_BYTES];
    bytes[2] = 1;
    restate(&mut bytes);
    book.c(&bytes);
    // Bodies that are not whole records.
    for extra in 1..6 {
        let mut bytes = sheet_a().bytes();
        bytes.extend(vec![0; extra]);
        restate(&mut bytes);
        book.any(&bytes);
        let mut bytes = sheet_a().bytes();
        bytes.truncate(35 - extra);
        restate(&mut bytes);
        book.any(&bytes);
    }
    // No body at all, with 0 to 16 columns.
    for columns in [0, 1, 2, 16] {
        book.any(&Draft::new(&vec![1; columns], &[]).bytes());
    }

    let a = sheet_a();
    let b = sheet_b().bytes();
    for ticks in [0, 1, 2, 255, 256] {
        book.right_run(&a, ticks);
        book.r(&b, &[], ticks);
    }
    let a = a.bytes();
    for ticks in [257, 258] {
        let rows = vec![1; ticks];
        book.r(&a, &rows, ticks);
        book.r(&a, &rows[1..], ticks);
        book.r(&a, &rows[..256], ticks);
        book.r(&b, &[], ticks);
        book.r(&b, &[1], ticks);
    }
    book.r(&a, &vec![1; 257], 256);
    book.r(&a, &[], 0);
    book.r(&a, &[7], 0);
    book.r(&b, &[7], 0);
    // As many outputs as a request may have.
    book.r(&b, &[], MAX_RESULTS);
    // 256 rows of two columns, some of them bools.
    let two = Draft::new(
        &[BOOL, INT],
        &[op(IF), input(0), input(1), fby(INT, -1), input(1)],
    );
    book.right_run(&two, 256);
    // A row fault behind a length fault, and the last of 256 rows bad.
    let mut rows = vec![0; 512];
    rows[510] = 2;
    book.r(&two.bytes(), &rows, 256);
    book.r(&two.bytes(), &rows, 255);
    rows.extend([3, 3]);
    book.r(&two.bytes(), &rows, 257);
    // As many ints as a request may have: 512 rows of 16 columns.
    let wide = Draft::new(&[INT; 16], &[input(15)]).bytes();
    book.r(&wide, &vec![5; MAX_ROW_INTS], 512);
    // As many cells and order entries as a request may have.
    let ones = vec![1; MAX_CELLS];
    book.s(&b, &ones);
    let order = vec![3; MAX_ORDER];
    book.h(&b, &order);
}

/// Deep chains: 31 to 34 levels, up to 512, ended and not.
pub(super) fn chains(book: &mut Book) {
    for depth in [1, 2, 31, 32, 33, 34, 64, 255, 256, 511, 512] {
        for form in [op(NEG), fby(INT, 3), rec_of(INT)] {
            let mut records = vec![form; depth - 1];
            records.push(constant(INT, 5));
            let draft = Draft::new(&[], &records);
            if depth <= 64 || form.kind == OP {
                book.any(&draft.bytes());
            }
        }
    }
    // Chains that never end: records run out.
    for (form, size) in [
        (op(NEG), 512),
        (op(ADD), 512),
        (op(IF), 512),
        (plain(CONTRACT), 511),
        (plain(LET), 40),
        (plain(CHECK), 3),
        (fby(BOOL, 1), 33),
        (rec_of(INT), 1),
    ] {
        book.any(&Draft::new(&[], &vec![form; size]).bytes());
    }
    // Chains to the right: the leaf of each level comes first.
    for (form, leaf) in [
        (op(ADD), constant(INT, 1)),
        (plain(LET), constant(BOOL, 0)),
        (plain(CHECK), constant(BOOL, 1)),
    ] {
        for levels in [31, 32, 255] {
            let mut records = Vec::new();
            for _ in 0..levels {
                records.extend([form, leaf]);
            }
            records.push(constant(INT, 9));
            book.any(&Draft::new(&[], &records).bytes());
            records.pop();
            book.any(&Draft::new(&[], &records).bytes());
        }
    }
    // Chains to the left: all leaves come last.
    for levels in [31, 32, 255] {
        let mut records = vec![op(MUL); levels];
        records.extend(vec![constant(INT, -3); levels + 1]);
        book.any(&Draft::new(&[], &records).bytes());
        records.push(constant(INT, 0));
        book.any(&Draft::new(&[], &records).bytes());
    }
    // The first expression ends early, at many places.
    for end in [1, 2, 5, 100, 510, 511] {
        let mut records = wide_sum(end);
        records.resize((end + 4).min(512), constant(INT, 0));
        book.any(&Draft::new(&[], &records).bytes());
        let mut records = vec![op(NEG); end - 1];
        records.resize((end + 2).min(512), constant(INT, 0));
        book.any(&Draft::new(&[], &records).bytes());
    }
    // Chains of all forms around the ceiling.
    for round in 0..60 {
        let depth = [30, 31, 32, 33, 34, 40][round % 6];
        let draft = bool_chain(&mut book.dice, depth);
        if depth <= 32 {
            book.right_tick(&draft);
            book.right_run(&draft, 4);
        } else {
            book.any(&draft.bytes());
        }
    }
    // Slim sheets of all types that grow past the ceiling or nearly.
    for round in 0..40 {
        let plan = Plan {
            style: STYLES[round % STYLES.len()],
            columns: 2,
            size: book.dice.range(40, 70),
            levels: book.dice.range(31, 40),
            delays: 64,
            slim: true,
        };
        let draft = grow(&mut book.dice, plan);
        book.any(&draft.bytes());
    }
}
