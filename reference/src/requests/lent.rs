//! Lent slices of wrong lengths and with wrong contents.

use super::damage::{break_draft, bush};
use super::Book;
use crate::examples::{sheet_a, sheet_b};
use crate::gen::*;
use crate::order::house_order;

/// Every mix of right, short and long slices.
pub(super) fn wrong_lengths(book: &mut Book) {
    let two = Draft::new(
        &[BOOL, INT],
        &[
            op(IF),
            fby(BOOL, 1),
            input(0),
            fby(INT, 3),
            input(1),
            constant(INT, -4),
        ],
    );
    let sheets = [two.clone(), sheet_a(), sheet_b()];
    for (which, draft) in sheets.iter().enumerate() {
        let bytes = draft.bytes();
        let sheet = tree(draft);
        let (c, s, n) = (draft.types.len(), sheet.delays().len(), draft.records.len());
        let near = |right: usize| -> Vec<usize> {
            if right == 0 {
                vec![0, 1]
            } else {
                vec![right - 1, right, right + 1]
            }
        };
        let order = house_order(&sheet);
        for rows in near(c) {
            for cells in near(s) {
                for orders in near(n) {
                    for values in near(n) {
                        let wrong = (rows != c) as usize
                            + (cells != s) as usize
                            + (orders != n) as usize
                            + (values != n) as usize;
                        if which > 0 && wrong != 1 && book.dice.chance(4, 5) {
                            continue;
                        }
                        let mut given = order.clone();
                        given.resize(orders, 0);
                        let row: Vec<i32> = (0..rows).map(|i| i as i32).collect();
                        book.t(&bytes, &row, &vec![1; cells], &given, values);
                    }
                }
            }
        }
        for length in near(n).into_iter().chain([0, 2 * n]) {
            book.house(&bytes, length);
        }
        for length in near(s).into_iter().chain([0, 5]) {
            book.begin(&bytes, length);
        }
        for ticks in [0, 1, 3] {
            for rows in near(ticks * c).into_iter().chain([ticks * c + 2, 9]) {
                book.r(&bytes, &vec![1; rows], ticks);
            }
        }
    }
    // Lengths far from right.
    let bytes = two.bytes();
    book.t(&bytes, &[], &[], &[], 0);
    book.t(&bytes, &[0, 1], &[1, 1], &[], 0);
    book.t(&bytes, &[0, 1], &[1, 1, 1, 1, 1, 1], &[1, 3], 100);
    book.t(&bytes, &[0, 1], &[1, 1], &[1, 3, 5, 0, 2, 4], 0);
    book.t(&bytes, &[0, 1], &[1, 1], &[1, 3, 5, 0, 2, 4], 6);
}

/// Bool columns and bool slots that hold something else.
pub(super) fn wrong_bools(book: &mut Book) {
    for round in 0..120 {
        let style = STYLES[[2, 3, 0][round % 3]];
        let mut draft = styled_sheet(&mut book.dice, style, 16);
        let mut slots = slot_types(&tree(&draft));
        while !draft.types.contains(&BOOL) || (round % 2 == 0 && !slots.contains(&BOOL)) {
            draft = styled_sheet(&mut book.dice, style, 16);
            slots = slot_types(&tree(&draft));
        }
        let bytes = draft.bytes();
        let sheet = tree(&draft);
        if round % 5 == 4 {
            let ticks = book.dice.range(1, 9);
            let mut rows = rows(&mut book.dice, &draft.types, ticks);
            spoil(&mut book.dice, &draft.types, &mut rows, 2);
            book.r(&bytes, &rows, ticks);
            continue;
        }
        let mut row = rows(&mut book.dice, &draft.types, 1);
        let mut cells = cells(&mut book.dice, &sheet);
        if round % 2 == 1 || round % 4 == 0 {
            spoil(&mut book.dice, &draft.types, &mut row, 1);
        }
        if round % 2 == 0 {
            spoil(&mut book.dice, &slots, &mut cells, 2);
        }
        let mut order = right_order(&mut book.dice, &sheet);
        if round % 3 == 0 {
            order.reverse();
        }
        book.t(&bytes, &row, &cells, &order, order.len());
    }
    // All 16 columns and all 64 slots, each bad place in its turn.
    let types: Vec<u8> = (0..16).map(|i| (i % 4 == 3) as u8).collect();
    let mut records = vec![plain(LET)];
    records.extend(bush(&mut book.dice, BOOL, 33));
    records.extend(bush(&mut book.dice, INT, 31));
    let draft = Draft::new(&types, &records);
    let bytes = draft.bytes();
    let sheet = tree(&draft);
    let order = house_order(&sheet);
    for at in 0..24 {
        let mut row = rows(&mut book.dice, &types, 1);
        let mut cells = cells(&mut book.dice, &sheet);
        if at < 8 {
            row[2 * at] = book.dice.not_bool();
        } else {
            cells[3 * (at - 8)] = book.dice.not_bool();
            cells[40] = 2;
        }
        book.t(&bytes, &row, &cells, &order, order.len());
    }
}

/// Puts up to `most` wrong values where bools belong.
fn spoil(dice: &mut Dice, types: &[u8], values: &mut [i32], most: usize) {
    let places: Vec<usize> = (0..values.len())
        .filter(|&i| types[i % types.len()] == BOOL)
        .collect();
    for _ in 0..dice.range(1, most) {
        let at = dice.pick(&places);
        values[at] = dice.not_bool();
    }
}

/// A tick with faults picked by the bits of `set`.
pub(super) fn lent_faults(book: &mut Book, set: usize) {
    let has = |bit: usize| set >> bit & 1 == 1;
    let mut draft = styled_sheet(&mut book.dice, STYLES[2], 14);
    let usable = |draft: &Draft| {
        draft.types.contains(&BOOL)
            && slot_types(&tree(draft)).contains(&BOOL)
            && draft.records.len() >= 4
    };
    while !usable(&draft) {
        draft = styled_sheet(&mut book.dice, STYLES[2], 14);
    }
    let sheet = tree(&draft);
    let slots = slot_types(&sheet);
    let dice = &mut book.dice;
    let mut row = rows(dice, &draft.types, 1);
    let mut cells = cells(dice, &sheet);
    let mut order = right_order(dice, &sheet);
    let mut values = order.len();
    let mut bytes = draft.bytes();
    if has(0) {
        spoil(dice, &draft.types, &mut row, 2);
    }
    if has(1) {
        spoil(dice, &slots, &mut cells, 2);
    }
    if has(2) {
        let at = dice.below(order.len());
        order[at] = dice.pick(&[order[0], 65535, order[order.len() - 1]]);
        order[values - 1] = order[0];
    }
    if has(3) {
        match dice.below(4) {
            0 => row.push(2),
            1 => cells.push(2),
            2 => order.push(0),
            _ => values -= 1,
        }
    }
    if has(4) {
        let rule = dice.range(5, 10) as u32;
        break_draft(dice, rule, &mut draft);
        bytes = draft.bytes();
    }
    book.t(&bytes, &row, &cells, &order, values);
}
