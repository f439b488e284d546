//! Changes that break a rule of a sheet.

use crate::gen::*;

/// The type of a leaf, as far as its record shows it.
pub(super) fn leaf_type(draft: &Draft, at: usize) -> u8 {
    let record = draft.records[at];
    match record.kind {
        CONST => record.code,
        INPUT => *draft.types.get(record.argument as usize).unwrap_or(&INT),
        _ => INT,
    }
}

/// Gives one node another type.
pub(super) fn change_type(dice: &mut Dice, draft: &mut Draft) {
    let at = dice.below(draft.records.len());
    let record = &mut draft.records[at];
    match record.kind {
        CONST | FBY => {
            record.code ^= 1;
            record.argument &= 1;
        }
        REC => record.code ^= 1,
        INPUT => record.argument = dice.below(draft.types.len()) as u32,
        OP => {
            record.code = match record.operands() {
                1 => dice.pick(&[NOT, NEG]),
                2 => dice.pick(&[AND, OR, XOR, EQ, LT, LE, ADD, SUB, MUL, DIV, MOD]),
                _ => IF,
            }
        }
        // Two operands each: a condition or a definition comes first.
        LET => record.kind = CHECK,
        _ => {}
    }
}

/// Takes a FBY away, so that a VAR may lose its guard.
pub(super) fn remove_guard(dice: &mut Dice, draft: &mut Draft) {
    let delays = draft.find(|record| record.kind == FBY);
    if delays.is_empty() {
        return;
    }
    let at = dice.pick(&delays);
    let ty = draft.records[at].code;
    draft.records[at] = match dice.below(3) {
        0 => rec_of(ty),
        _ => op(if ty == BOOL { NOT } else { NEG }),
    };
}

/// Puts a REC around a VAR that names it, with or without a FBY above it.
pub(super) fn add_unguarded(dice: &mut Dice, draft: &mut Draft) {
    let leaves = draft.find(Record::is_leaf);
    let at = dice.pick(&leaves);
    let ty = leaf_type(draft, at);
    let here = at as u32;
    let forms = [
        vec![rec_of(ty), var(here)],
        vec![fby(ty, 0), rec_of(ty), var(here + 1)],
        vec![rec_of(ty), plain(LET), var(here), fby(ty, 1), var(here + 1)],
        vec![rec_of(ty), plain(LET), fby(ty, 0), var(here), var(here)],
        vec![
            rec_of(ty),
            plain(CHECK),
            constant(BOOL, 1),
            op(IF),
            constant(BOOL, 0),
            fby(ty, 0),
            var(here),
            var(here),
        ],
        vec![
            rec_of(ty),
            fby(ty, 1),
            rec_of(ty),
            op(IF),
            constant(BOOL, 0),
            var(here),
            var(here + 2),
        ],
    ];
    let form = forms[dice.below(forms.len())].clone();
    draft.replace_leaf(at, &form);
}

/// An expression with exactly this many FBY nodes.
pub(super) fn bush(dice: &mut Dice, ty: u8, delays: usize) -> Vec<Record> {
    if delays <= 5 {
        let mut records: Vec<Record> = (0..delays).map(|_| fby(ty, dice.value(ty))).collect();
        records.push(constant(ty, dice.value(ty)));
        return records;
    }
    let left = dice.range(delays / 3, delays - delays / 3);
    let operator = if ty == BOOL { XOR } else { ADD };
    let mut records = vec![op(operator)];
    records.extend(bush(dice, ty, left));
    records.extend(bush(dice, ty, delays - left));
    records
}

/// Breaks one of the rules 5 to 11 in a draft, if it can.
pub(super) fn break_draft(dice: &mut Dice, rule: u32, draft: &mut Draft) {
    let leaves = draft.find(Record::is_leaf);
    if leaves.is_empty() {
        return;
    }
    let leaf = dice.pick(&leaves);
    let ty = leaf_type(draft, leaf) & 1;
    let columns = draft.types.len() as u32;
    match rule {
        5 => {
            let at = dice.below(draft.records.len());
            draft.records[at] = dice.pick(&[
                rec(9, 0, 0),
                rec(255, 1, 0),
                rec(OP, 14, 0),
                rec(OP, 0, 1),
                rec(CONST, 2, 0),
                rec(CONST, BOOL, 2),
                rec(FBY, BOOL, u32::MAX),
                rec(FBY, 2, 0),
                rec(REC, 2, 0),
                rec(REC, 0, 1),
                rec(INPUT, 0, columns),
                rec(INPUT, 0, 16),
                rec(INPUT, 1, 0),
                rec(VAR, 1, 0),
                rec(LET, 1, 0),
                rec(CHECK, 0, 256),
                rec(CONTRACT, 0, 1 << 24),
            ]);
        }
        6 => match dice.below(4) {
            0 => {
                draft.records.pop();
            }
            1 => {
                for _ in 0..dice.range(1, 3) {
                    draft.records.push(constant(INT, 0));
                }
            }
            2 => draft.records[leaf] = op(dice.pick(&[NOT, ADD, IF])),
            _ => {
                let at = dice.below(draft.records.len());
                draft.records[at] = constant(BOOL, 0);
            }
        },
        7 => {
            let mut records: Vec<Record> = (0..dice.range(32, 36))
                .map(|_| {
                    if dice.chance(1, 2) {
                        rec_of(ty)
                    } else {
                        op(if ty == BOOL { NOT } else { NEG })
                    }
                })
                .collect();
            records.push(constant(ty, 0));
            draft.replace_leaf(leaf, &records);
        }
        8 => {
            let numbers = [leaf as u32, leaf as u32 + 1, 511, 512, 65535, u32::MAX];
            draft.records[leaf] = var(dice.pick(&numbers));
        }
        9 => {
            let at = dice.below(draft.records.len());
            let record = draft.records[at];
            draft.records[at] = match record.kind {
                CONST | FBY => rec(record.kind, record.code ^ 1, record.argument & 1),
                REC => rec_of(record.code ^ 1),
                OP if record.operands() == 2 => op(dice.pick(&[AND, ADD, LT])),
                _ => record,
            };
        }
        10 => add_unguarded(dice, draft),
        _ => {
            let delays = dice.range(60, 66);
            let records = bush(dice, ty, delays);
            draft.replace_leaf(leaf, &records);
        }
    }
}

/// Breaks one of the rules 1 to 4 in the bytes.
pub(super) fn break_bytes(dice: &mut Dice, rule: u32, bytes: &mut Vec<u8>) {
    match rule {
        1 => {
            if dice.chance(1, 2) {
                bytes.push(0);
            } else {
                bytes[1] = bytes[1].wrapping_add(dice.range(1, 255) as u8);
            }
        }
        2 => bytes[2] = dice.pick(&[0, 2, 255]),
        3 => {
            if bytes[3] > 0 && dice.chance(1, 2) {
                let at = 4 + dice.below(usize::from(bytes[3]));
                bytes[at] = 2;
            } else {
                bytes[3] = dice.pick(&[17, 64, 255]);
            }
        }
        _ => {
            for _ in 0..dice.range(1, 5) {
                bytes.push(dice.roll() as u8);
            }
            restate(bytes);
        }
    }
}
