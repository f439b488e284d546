//! Right sheets: operators, all operations, ticks in a row, verdicts.

use super::Book;
use crate::eval::{first_cells, tick};
use crate::gen::*;

/// Every operator on every pair of extreme values.
pub(super) fn operators(book: &mut Book) {
    let mut pairs = Vec::new();
    for a in EXTREMES {
        for b in EXTREMES {
            pairs.extend([a, b]);
        }
    }
    for operator in [EQ, LT, LE, ADD, SUB, MUL, DIV, MOD] {
        let sheet = Draft::new(&[INT, INT], &[op(operator), input(0), input(1)]);
        book.r(&sheet.bytes(), &pairs, pairs.len() / 2);
        // The operator on what a slot holds.
        let held = Draft::new(
            &[INT],
            &[op(operator), fby(INT, i32::MIN), input(0), input(0)],
        );
        book.right_tick(&held);
        book.right_run(&held, 10);
        for _ in 0..6 {
            let (a, b) = (book.dice.int(), book.dice.pick(&EXTREMES));
            let fixed = Draft::new(&[], &[op(operator), constant(INT, a), constant(INT, b)]);
            book.right_tick(&fixed);
        }
    }
    for operator in [AND, OR, XOR, EQ] {
        let sheet = Draft::new(&[BOOL, BOOL], &[op(operator), input(0), input(1)]);
        book.r(&sheet.bytes(), &[0, 0, 0, 1, 1, 0, 1, 1], 4);
    }
    book.r(
        &Draft::new(&[BOOL], &[op(NOT), input(0)]).bytes(),
        &[0, 1],
        2,
    );
    book.r(
        &Draft::new(&[INT], &[op(NEG), input(0)]).bytes(),
        &EXTREMES,
        EXTREMES.len(),
    );
    for ty in [BOOL, INT] {
        let sheet = Draft::new(&[BOOL, ty, ty], &[op(IF), input(0), input(1), input(2)]);
        for _ in 0..4 {
            book.right_run(&sheet, 8);
        }
    }
    // Products that need all 64 bits, squared and squared again.
    let powers = Draft::new(
        &[INT],
        &[
            plain(LET),
            op(MUL),
            input(0),
            input(0),
            op(MUL),
            var(0),
            var(0),
        ],
    );
    let mut values = EXTREMES.to_vec();
    values.extend([3, 255, 256, 257, 65535, 65537, 92681, -92681, -46341]);
    book.r(&powers.bytes(), &values, values.len());
}

/// Right sheets, with each of the five operations.
pub(super) fn right_sheets(book: &mut Book) {
    for round in 0..165 {
        let most = match round % 10 {
            0 => 120,
            1..=3 => 45,
            _ => 20,
        };
        let draft = right_sheet(&mut book.dice, most);
        let bytes = draft.bytes();
        let sheet = tree(&draft);
        book.c(&bytes);
        book.house(&bytes, draft.records.len());
        if round % 2 == 0 {
            book.begin(&bytes, sheet.delays().len());
        }
        book.right_tick(&draft);
        let ticks = book.dice.range(1, 12);
        book.right_run(&draft, ticks);
    }
}

/// Larger sheets, up to 512 nodes.
pub(super) fn large_sheets(book: &mut Book) {
    for (round, size) in [150, 200, 256, 300, 511, 512, 512].into_iter().enumerate() {
        let plan = Plan {
            style: STYLES[round % STYLES.len()],
            columns: 1 + round % 4,
            size,
            levels: 32,
            delays: 64,
            slim: round % 3 == 2,
        };
        let draft = grow(&mut book.dice, plan);
        let bytes = draft.bytes();
        book.c(&bytes);
        book.house(&bytes, size);
        let slots = tree(&draft).delays().len();
        book.begin(&bytes, slots);
        book.right_tick(&draft);
        book.right_tick(&draft);
        book.right_run(&draft, 20);
    }
}

/// Ticks in a row: the cells of one answer are the cells of the next.
pub(super) fn sequences(book: &mut Book) {
    for round in 0..40 {
        let style = STYLES[[2, 3, 0, 4][round % 4]];
        let mut draft = styled_sheet(&mut book.dice, style, 30);
        while tree(&draft).delays().len() < 1 + round % 3 {
            draft = styled_sheet(&mut book.dice, style, 30);
        }
        let bytes = draft.bytes();
        let sheet = tree(&draft);
        let mut now = if round % 4 == 0 {
            cells(&mut book.dice, &sheet)
        } else {
            book.begin(&bytes, sheet.delays().len());
            first_cells(&sheet)
        };
        for _ in 0..5 {
            let row = rows(&mut book.dice, &draft.types, 1);
            let order = right_order(&mut book.dice, &sheet);
            book.t(&bytes, &row, &now, &order, order.len());
            let mut values = vec![0; order.len()];
            tick(&bytes, &row, &mut now, &order, &mut values).expect("the tick is right");
        }
    }
}

/// Checks and contracts that fail in several places.
pub(super) fn verdicts(book: &mut Book) {
    for round in 0..75 {
        let most = if round % 5 == 0 { 50 } else { 20 };
        let mut draft = styled_sheet(&mut book.dice, STYLES[4], most);
        while draft
            .find(|r| matches!(r.kind, CHECK | CONTRACT))
            .is_empty()
        {
            draft = styled_sheet(&mut book.dice, STYLES[4], most);
        }
        book.right_tick(&draft);
        if round % 2 == 0 {
            book.right_tick(&draft);
        }
        let ticks = book.dice.range(1, 16);
        book.right_run(&draft, ticks);
    }
    // Verdicts in a branch not chosen and in a definition nobody uses.
    let hidden = Draft::new(
        &[BOOL, BOOL],
        &[
            plain(LET),
            plain(CHECK),
            input(0),
            constant(INT, 4),
            op(IF),
            constant(BOOL, 1),
            constant(INT, 5),
            plain(CONTRACT),
            input(0),
            fby(INT, 0),
            constant(INT, 6),
            input(1),
        ],
    );
    // Verdicts under a FBY, and a rely and a guarantee that look back.
    let delayed = Draft::new(
        &[INT],
        &[
            fby(INT, -5),
            plain(CONTRACT),
            op(LE),
            fby(INT, 0),
            input(0),
            input(0),
            op(SUB),
            input(0),
            constant(INT, 2),
            plain(CHECK),
            op(LT),
            var(1),
            fby(INT, 3),
            var(1),
            op(NOT),
            op(EQ),
            var(1),
            constant(INT, 0),
        ],
    );
    for (draft, ticks) in [(&hidden, 8), (&delayed, 12)] {
        book.c(&draft.bytes());
        for _ in 0..8 {
            book.right_tick(draft);
        }
        for _ in 0..3 {
            book.right_run(draft, ticks);
        }
    }
}
