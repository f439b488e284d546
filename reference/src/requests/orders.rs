//! Orders that are nearly right.

use super::Book;
use crate::gen::*;
use crate::order::{check_order, house_order, needs};
use crate::sheet::{Sheet, What};

/// Right orders with a small change.
pub(super) fn nearly_right_orders(book: &mut Book) {
    for round in 0..52 {
        let most = match round % 12 {
            0 => 250,
            3 | 6 | 9 => 60,
            _ => 16,
        };
        let draft = right_sheet(&mut book.dice, most);
        let sheet = tree(&draft);
        let count = draft.records.len();
        for change in 0..6 {
            let mut order = right_order(&mut book.dice, &sheet);
            let at = book.dice.below(count);
            match change {
                0 => {
                    let other = book.dice.below(count);
                    order.swap(at, other);
                }
                1 => move_before_a_need(&mut book.dice, &sheet, &mut order, false),
                2 => order[at] = order[book.dice.below(count)],
                3 => {
                    let n = count as u16;
                    order[at] = book.dice.pick(&[n, n + 1, 511, 512, 1024, 32768, 65535]);
                }
                4 => {
                    // One entry moves to another place.
                    let entry = order.remove(at);
                    let to = book.dice.below(count);
                    order.insert(to, entry);
                }
                _ => {
                    // Several changes at once.
                    for _ in 0..3 {
                        let at = book.dice.below(count);
                        order[at] = book
                            .dice
                            .pick(&[0, at as u16, 65535, order[count - 1 - at]]);
                    }
                }
            }
            // Most changes that leave the order right are passed over.
            if check_order(&sheet, &order).is_ok() && !book.dice.chance(1, 8) {
                continue;
            }
            let row = rows(&mut book.dice, &draft.types, 1);
            let cells = cells(&mut book.dice, &sheet);
            book.t(&draft.bytes(), &row, &cells, &order, count);
        }
    }
    // A VAR right before what it needs.
    for round in 0..40 {
        let style = STYLES[2 + round % 2];
        let mut draft = styled_sheet(&mut book.dice, style, 20);
        while draft.find(|record| record.kind == VAR).is_empty() {
            draft = styled_sheet(&mut book.dice, style, 20);
        }
        let sheet = tree(&draft);
        let mut order = house_order(&sheet);
        move_before_a_need(&mut book.dice, &sheet, &mut order, true);
        let row = rows(&mut book.dice, &draft.types, 1);
        let cells = cells(&mut book.dice, &sheet);
        book.t(&draft.bytes(), &row, &cells, &order, order.len());
    }
    // Many orders of four entries on a sheet of four nodes.
    let small = Draft::new(
        &[],
        &[op(ADD), constant(INT, 1), fby(INT, 2), constant(INT, 3)],
    );
    let bytes = small.bytes();
    for code in 0..256usize {
        let order: Vec<u16> = (0..4)
            .map(|place| (code >> (2 * place) & 3) as u16)
            .collect();
        let mut sorted = order.clone();
        sorted.sort();
        sorted.dedup();
        if sorted.len() == 4 || code % 16 == 5 {
            book.t(&bytes, &[], &[9], &order, 4);
        }
    }
}

/// Moves one entry to right before one of its needs, if it finds one.
/// With `names` the entry is a VAR.
fn move_before_a_need(dice: &mut Dice, sheet: &Sheet, order: &mut Vec<u16>, names: bool) {
    let needs = needs(sheet);
    let nodes = sheet.nodes();
    let is_var = |node: usize| matches!(nodes[node].what, What::Var { .. });
    let waiting: Vec<usize> = (0..needs.len())
        .filter(|&node| !needs[node].is_empty() && (is_var(node) || !names))
        .collect();
    if waiting.is_empty() {
        return;
    }
    let node = dice.pick(&waiting);
    let need = dice.pick(&needs[node]);
    order.retain(|&entry| usize::from(entry) != node);
    let at = order.iter().position(|&entry| usize::from(entry) == need);
    order.insert(at.expect("the need has a place"), node as u16);
}
