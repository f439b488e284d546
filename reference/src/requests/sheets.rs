//! Sheets that break rules, one at a time and several.

use super::damage::*;
use super::lent::lent_faults;
use super::Book;
use crate::examples::sheet_a;
use crate::gen::*;
use crate::sheet::{check, Refusal};

/// Sheets of one record, of every kind and code.
pub(super) fn single_records(book: &mut Book) {
    for kind in [0, 1, 2, 3, 4, 5, 6, 7, 8, 9, 255] {
        let codes: &[u8] = match kind {
            OP => &[0, 1, 2, 3, 4, 5, 6, 7, 8, 9, 10, 11, 12, 13, 14, 255],
            _ => &[0, 1, 2],
        };
        let arguments: &[u32] = match kind {
            OP => &[0, 1],
            9 | 255 => &[0],
            _ => &[0, 1, 0x0100_0000, u32::MAX],
        };
        for &code in codes {
            for &argument in arguments {
                let sheet = Draft::new(&[INT], &[rec(kind, code, argument)]);
                book.c(&sheet.bytes());
            }
        }
    }
}

/// A sheet with all three binders and a leaf in each of their operands.
/// Every leaf in turn names every node.
pub(super) fn every_name(book: &mut Book) {
    let base = Draft::new(
        &[BOOL],
        &[
            plain(LET),
            rec_of(BOOL),
            op(XOR),
            input(0),
            fby(BOOL, 1),
            input(0),
            plain(CONTRACT),
            input(0),
            plain(LET),
            input(0),
            input(0),
            rec_of(BOOL),
            fby(BOOL, 0),
            input(0),
        ],
    );
    for leaf in base.find(Record::is_leaf) {
        for binder in (0..15).chain([511, 512, 65535, 65536, u32::MAX]) {
            let mut draft = base.clone();
            draft.records[leaf] = var(binder);
            let bytes = draft.bytes();
            match check(&bytes) {
                Ok(_) if binder % 2 == 0 => book.right_run(&draft, 5),
                Ok(_) => book.right_tick(&draft),
                Err(_) => book.c(&bytes),
            }
        }
    }
}

/// Right sheets in which a leaf gets a number it must not have.
pub(super) fn hostile_names(book: &mut Book) {
    for round in 0..150 {
        let style = STYLES[[3, 2, 0, 5][round % 4]];
        let mut draft = styled_sheet(&mut book.dice, style, 18);
        let count = draft.records.len();
        let leaves = draft.find(|record| record.is_leaf());
        let binders = draft.find(|record| matches!(record.kind, REC | LET | CONTRACT));
        for _ in 0..book.dice.range(1, 2) {
            let leaf = book.dice.pick(&leaves);
            let numbers = [
                leaf,
                leaf + 1,
                count - 1,
                count,
                0,
                511,
                512,
                65535,
                65536 + leaf,
                u32::MAX as usize,
                0x8000_0000,
                book.dice.below(count),
                book.dice.below(count),
            ];
            let number = if !binders.is_empty() && book.dice.chance(1, 2) {
                book.dice.pick(&binders)
            } else {
                book.dice.pick(&numbers)
            };
            draft.records[leaf] = var(number as u32);
        }
        book.any(&draft.bytes());
    }
}

/// Tries a change again and again until the sheet is refused so.
fn until(
    book: &mut Book,
    number: u32,
    most: usize,
    styles: &[Style],
    change: fn(&mut Dice, &mut Draft),
) -> Draft {
    loop {
        let style = book.dice.pick(styles);
        let mut draft = styled_sheet(&mut book.dice, style, most);
        change(&mut book.dice, &mut draft);
        if matches!(check(&draft.bytes()), Err(Refusal { number: n, .. }) if n == number) {
            return draft;
        }
    }
}

/// Every form over operands of every mix of types.
fn every_mix_of_types(book: &mut Book) {
    let mut forms: Vec<Record> = (NOT..=MOD).map(op).collect();
    forms.extend([fby(BOOL, 1), fby(INT, 1), rec_of(BOOL), rec_of(INT)]);
    forms.extend([plain(LET), plain(CHECK), plain(CONTRACT)]);
    for form in forms {
        for mix in 0..1 << form.operands() {
            let mut records = vec![form];
            for which in 0..form.operands() {
                let ty = (mix >> which & 1) as u8;
                records.push(constant(ty, book.dice.value(ty)));
            }
            // Names of the types that the form gives them.
            if form.kind == LET && mix % 2 == 0 {
                records[2] = var(0);
            }
            if form.kind == CONTRACT && mix % 4 >= 2 {
                records[3] = var(0);
            }
            let draft = Draft::new(&[], &records);
            book.c(&draft.bytes());
        }
    }
}

pub(super) fn type_faults(book: &mut Book) {
    every_mix_of_types(book);
    for round in 0..90 {
        let most = if round % 5 == 0 { 60 } else { 20 };
        let mut draft = until(book, 9, most, &STYLES, change_type);
        if check(&draft.bytes()).is_err_and(|refusal| refusal.place == 0) {
            // Most faults should be below the root.
            draft = until(book, 9, most, &STYLES, change_type);
        }
        if round % 4 == 0 {
            change_type(&mut book.dice, &mut draft);
        }
        book.any(&draft.bytes());
    }
}

pub(super) fn guard_faults(book: &mut Book) {
    for round in 0..100 {
        let styles = [STYLES[2], STYLES[3]];
        let draft = match round % 2 {
            0 => until(book, 10, 24, &styles, remove_guard),
            _ => until(book, 10, 16, &STYLES, add_unguarded),
        };
        book.any(&draft.bytes());
    }
}

/// Around 64 FBY nodes, spread over a sheet.
pub(super) fn slot_faults(book: &mut Book) {
    for round in 0..56 {
        let wanted = [63, 64, 65, 65, 66, 70][round % 6];
        let mut draft = styled_sheet(&mut book.dice, STYLES[0], 20);
        let have = draft.find(|record| record.kind == FBY).len();
        let leaves = draft.find(|record| record.kind <= INPUT);
        if leaves.is_empty() {
            continue;
        }
        let at = book.dice.pick(&leaves);
        let ty = leaf_type(&draft, at);
        let records = bush(&mut book.dice, ty, wanted - have);
        draft.replace_leaf(at, &records);
        let bytes = draft.bytes();
        match check(&bytes) {
            Ok(sheet) if round % 3 == 0 => {
                book.begin(&bytes, sheet.delays().len());
                book.right_tick(&draft);
                book.right_run(&draft, 6);
            }
            _ => book.any(&bytes),
        }
    }
}

/// Sheets of the right shape with names and types by chance.
pub(super) fn loose_sheets(book: &mut Book) {
    for round in 0..110 {
        let size = if round % 3 == 0 { 14 } else { 6 };
        let draft = loose_sheet(&mut book.dice, size);
        book.any(&draft.bytes());
    }
}

/// Bytes changed, cut or added, and the stated length set right or not.
pub(super) fn damaged_bytes(book: &mut Book) {
    for round in 0..253 {
        let draft = right_sheet(&mut book.dice, 14);
        let mut bytes = draft.bytes();
        let dice = &mut book.dice;
        match round % 11 {
            0 => {
                let length = dice.below(bytes.len());
                bytes.truncate(length);
            }
            1 => {
                for _ in 0..dice.range(1, 9) {
                    bytes.push(dice.roll() as u8);
                }
            }
            2 => {
                let length = dice.range(4, bytes.len() - 1);
                bytes.truncate(length);
                restate(&mut bytes);
            }
            3 => {
                for _ in 0..dice.range(1, 12) {
                    bytes.push(dice.pick(&[0, 0, 0, 1, 2, 3]));
                }
                restate(&mut bytes);
            }
            4 => {
                // The stated length alone.
                let length = bytes.len() as u16;
                let stated = dice.pick(&[
                    0,
                    3,
                    4,
                    length - 1,
                    length + 1,
                    length ^ 256,
                    length.swap_bytes(),
                    65535,
                ]);
                bytes[..2].copy_from_slice(&stated.to_be_bytes());
            }
            5 => {
                // Only the first four bytes.
                let at = dice.below(4);
                bytes[at] = dice.pick(&[0, 1, 2, 3, 16, 17, 255]);
            }
            6 => {
                // One whole record less or twice.
                let first = 4 + draft.types.len();
                let at = first + 6 * dice.below(draft.records.len());
                if dice.chance(1, 2) {
                    bytes.drain(at..at + 6);
                } else {
                    let copy = bytes[at..at + 6].to_vec();
                    bytes.splice(at..at, copy);
                }
                restate(&mut bytes);
            }
            7 => {
                // A kind or a code.
                let first = 4 + draft.types.len();
                let at = first + 6 * dice.below(draft.records.len()) + dice.below(2);
                bytes[at] = dice.range(0, 15) as u8;
            }
            8 => {
                // An argument.
                let first = 4 + draft.types.len();
                let at = first + 6 * dice.below(draft.records.len()) + dice.range(2, 5);
                bytes[at] = dice.pick(&[0, 1, 2, 127, 128, 255]);
            }
            _ => {
                for _ in 0..dice.range(1, 4) {
                    let at = dice.range(2, bytes.len() - 1);
                    bytes[at] = if dice.chance(1, 2) {
                        dice.roll() as u8
                    } else {
                        bytes[at] ^ (1 << dice.below(8))
                    };
                }
            }
        }
        book.any(&bytes);
    }
    // Every length under 5, with the stated length right and wrong.
    for length in 0..5u8 {
        let bytes = [0, length, 1, 0, 0];
        book.c(&bytes[..length as usize]);
        let bytes = [0, length + 1, 1, 0, 0];
        book.c(&bytes[..length as usize]);
        let bytes = [length, 0, 1, 0, 0];
        book.c(&bytes[..length as usize]);
    }
    // The version alone, and with other faults behind it.
    for version in [0, 2, 3, 128, 255] {
        for mut bytes in [sheet_a().bytes(), vec![0, 4, 1, 0], vec![0, 6, 1, 17, 2, 2]] {
            bytes[2] = version;
            book.c(&bytes);
        }
    }
}

/// One fault, two faults and more, so that the order of the rules shows.
pub(super) fn many_faults(book: &mut Book) {
    // One rule at a time.
    for round in 0..11 * 6 {
        let faults = vec![round % 11 + 1];
        faulty(book, &faults);
    }
    // Every pair of rules.
    for first in 1..=11 {
        for second in first + 1..=11 {
            for _ in 0..4 {
                faulty(book, &[first, second]);
            }
        }
    }
    // Three or four.
    for _ in 0..50 {
        let mut rules: Vec<u32> = (1..=11).collect();
        book.dice.shuffle(&mut rules);
        rules.truncate(book.dice.range(3, 4));
        faulty(book, &rules);
    }
    // Every set of faults in what is lent, with and without a bad sheet.
    for set in 0..32 {
        for _ in 0..3 {
            lent_faults(book, set);
        }
    }
}

/// A sheet with these faults, in an operation by chance.
fn faulty(book: &mut Book, rules: &[u32]) {
    let mut draft = with_faults(&mut book.dice, rules);
    while draft.is_none() {
        draft = with_faults(&mut book.dice, rules);
    }
    let mut bytes = draft.expect("a draft was made").bytes();
    for rule in [4, 3, 2, 1] {
        if rules.contains(&rule) {
            break_bytes(&mut book.dice, rule, &mut bytes);
        }
    }
    book.any(&bytes);
}

/// A draft with those faults that records can have, or nothing.
/// The last rule is broken first, and each fault must hide those made earlier.
fn with_faults(dice: &mut Dice, rules: &[u32]) -> Option<Draft> {
    let most = if dice.chance(1, 3) { 40 } else { 16 };
    let mut draft = right_sheet(dice, most);
    for rule in (5..=11).rev() {
        if rules.contains(&rule) {
            break_draft(dice, rule, &mut draft);
            if check(&draft.bytes()).err()?.number != rule {
                return None;
            }
        }
    }
    Some(draft)
}

/// One fault in a sheet of some hundred nodes.
pub(super) fn large_faults(book: &mut Book) {
    for round in 0..21 {
        let plan = Plan {
            style: STYLES[round % 5],
            columns: 3,
            size: book.dice.range(250, 440),
            levels: 24,
            delays: 50,
            slim: false,
        };
        let mut draft = grow(&mut book.dice, plan);
        let rule = [5, 6, 7, 8, 9, 10, 11][round % 7];
        while !matches!(check(&draft.bytes()), Err(Refusal { number, .. }) if number == rule) {
            draft = grow(&mut book.dice, plan);
            break_draft(&mut book.dice, rule, &mut draft);
        }
        book.any(&draft.bytes());
    }
}
