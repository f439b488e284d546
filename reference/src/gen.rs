//! The generator's parts: numbers by chance, sheets, rows, cells and orders.
//! Everything follows from a fixed seed.

use crate::order::{house_order, needs};
use crate::sheet::{check, Sheet, Type};

/// A small source of numbers (splitmix64).
pub struct Dice {
    state: u64,
}

impl Dice {
    pub fn new(seed: u64) -> Dice {
        Dice { state: seed }
    }

    pub fn roll(&mut self) -> u64 {
        self.state = self.state.wrapping_add(0x9E37_79B9_7F4A_7C15);
        let mut z = self.state;
        z = (z ^ (z >> 30)).wrapping_mul(0xBF58_476D_1CE4_E5B9);
        z = (z ^ (z >> 27)).wrapping_mul(0x94D0_49BB_1331_11EB);
        z ^ (z >> 31)
    }

    /// A number under `bound`.
    pub fn below(&mut self, bound: usize) -> usize {
        ((self.roll() >> 11) % bound as u64) as usize
    }

    /// A number from `low` to `high`, both included.
    pub fn range(&mut self, low: usize, high: usize) -> usize {
        low + self.below(high - low + 1)
    }

    /// True in `part` of `whole` cases.
    pub fn chance(&mut self, part: usize, whole: usize) -> bool {
        self.below(whole) < part
    }

    pub fn pick<T: Copy>(&mut self, list: &[T]) -> T {
        list[self.below(list.len())]
    }

    pub fn shuffle<T>(&mut self, list: &mut [T]) {
        for i in (1..list.len()).rev() {
            let j = self.below(i + 1);
            list.swap(i, j);
        }
    }

    /// An int, often one of the extremes.
    pub fn int(&mut self) -> i32 {
        match self.below(6) {
            0 => self.pick(&EXTREMES),
            1 => self.roll() as i32,
            2 => self.range(0, 200_000) as i32 - 100_000,
            _ => self.range(0, 20) as i32 - 8,
        }
    }

    /// A value of a type given by its code.
    pub fn value(&mut self, ty: u8) -> i32 {
        if ty == BOOL {
            self.below(2) as i32
        } else {
            self.int()
        }
    }

    /// A value that no bool may hold.
    pub fn not_bool(&mut self) -> i32 {
        self.pick(&[
            2,
            3,
            -1,
            -2,
            255,
            256,
            257,
            65536,
            16777216,
            i32::MAX,
            i32::MIN,
            i32::MIN + 1,
        ])
    }
}

pub const EXTREMES: [i32; 12] = [
    i32::MIN,
    i32::MIN + 1,
    -65536,
    -7,
    -1,
    0,
    1,
    2,
    7,
    46341,
    i32::MAX - 1,
    i32::MAX,
];

pub const BOOL: u8 = 0;
pub const INT: u8 = 1;

pub const CONST: u8 = 0;
pub const INPUT: u8 = 1;
pub const VAR: u8 = 2;
pub const OP: u8 = 3;
pub const FBY: u8 = 4;
pub const REC: u8 = 5;
pub const LET: u8 = 6;
pub const CHECK: u8 = 7;
pub const CONTRACT: u8 = 8;

pub const NOT: u8 = 0;
pub const AND: u8 = 1;
pub const OR: u8 = 2;
pub const XOR: u8 = 3;
pub const IF: u8 = 4;
pub const EQ: u8 = 5;
pub const LT: u8 = 6;
pub const LE: u8 = 7;
pub const ADD: u8 = 8;
pub const SUB: u8 = 9;
pub const MUL: u8 = 10;
pub const DIV: u8 = 11;
pub const NEG: u8 = 12;
pub const MOD: u8 = 13;

/// One record before it is bytes.
#[derive(Clone, Copy, Debug, PartialEq, Eq)]
pub struct Record {
    pub kind: u8,
    pub code: u8,
    pub argument: u32,
}

pub fn rec(kind: u8, code: u8, argument: u32) -> Record {
    Record {
        kind,
        code,
        argument,
    }
}

pub fn constant(ty: u8, value: i32) -> Record {
    rec(CONST, ty, value as u32)
}

pub fn input(column: u32) -> Record {
    rec(INPUT, 0, column)
}

pub fn var(binder: u32) -> Record {
    rec(VAR, 0, binder)
}

pub fn op(operator: u8) -> Record {
    rec(OP, operator, 0)
}

pub fn fby(ty: u8, first: i32) -> Record {
    rec(FBY, ty, first as u32)
}

pub fn rec_of(ty: u8) -> Record {
    rec(REC, ty, 0)
}

pub fn plain(kind: u8) -> Record {
    rec(kind, 0, 0)
}

impl Record {
    pub fn is_leaf(self) -> bool {
        self.kind <= VAR
    }

    /// How many operands the record takes; an unknown one takes none.
    pub fn operands(self) -> usize {
        match self.kind {
            OP => match self.code {
                NOT | NEG => 1,
                IF => 3,
                _ => 2,
            },
            FBY | REC => 1,
            LET | CHECK => 2,
            CONTRACT => 3,
            _ => 0,
        }
    }
}

/// A sheet before it is bytes. It may break any rule.
#[derive(Clone, Debug)]
pub struct Draft {
    pub types: Vec<u8>,
    pub records: Vec<Record>,
}

impl Draft {
    pub fn new(types: &[u8], records: &[Record]) -> Draft {
        Draft {
            types: types.to_vec(),
            records: records.to_vec(),
        }
    }

    /// The bytes, with the stated length set right.
    pub fn bytes(&self) -> Vec<u8> {
        let mut bytes = vec![0, 0, 1, self.types.len() as u8];
        bytes.extend(&self.types);
        for record in &self.records {
            bytes.push(record.kind);
            bytes.push(record.code);
            bytes.extend(record.argument.to_be_bytes());
        }
        restate(&mut bytes);
        bytes
    }

    /// Puts records in the place of the leaf `at`.
    /// VARs that name a node behind it follow that node.
    pub fn replace_leaf(&mut self, at: usize, with: &[Record]) {
        let shift = with.len() as u32 - 1;
        for record in &mut self.records {
            if record.kind == VAR && record.argument > at as u32 && record.argument < 512 {
                record.argument += shift;
            }
        }
        self.records.splice(at..at + 1, with.iter().copied());
    }

    /// The numbers of all records that `wanted` picks.
    pub fn find(&self, wanted: impl Fn(Record) -> bool) -> Vec<usize> {
        (0..self.records.len())
            .filter(|&i| wanted(self.records[i]))
            .collect()
    }
}

/// Makes bytes 0 and 1 state the length that there is.
pub fn restate(bytes: &mut [u8]) {
    let length = (bytes.len() as u16).to_be_bytes();
    bytes[..2].copy_from_slice(&length);
}

/// How often each form is taken when a sheet grows.
#[derive(Clone, Copy)]
pub struct Style {
    pub op: usize,
    pub fby: usize,
    pub rec: usize,
    pub bind: usize,
    pub check: usize,
    pub contract: usize,
}

pub const STYLES: [Style; 6] = [
    // A bit of all.
    Style {
        op: 10,
        fby: 3,
        rec: 3,
        bind: 3,
        check: 1,
        contract: 2,
    },
    // Operators alone.
    Style {
        op: 1,
        fby: 0,
        rec: 0,
        bind: 0,
        check: 0,
        contract: 0,
    },
    // Much memory.
    Style {
        op: 6,
        fby: 8,
        rec: 7,
        bind: 2,
        check: 0,
        contract: 0,
    },
    // Many names.
    Style {
        op: 4,
        fby: 5,
        rec: 5,
        bind: 6,
        check: 1,
        contract: 5,
    },
    // Many verdicts.
    Style {
        op: 7,
        fby: 2,
        rec: 1,
        bind: 2,
        check: 6,
        contract: 6,
    },
    // Definitions and operators.
    Style {
        op: 8,
        fby: 0,
        rec: 0,
        bind: 6,
        check: 0,
        contract: 0,
    },
];

/// A name that may be in scope.
#[derive(Clone, Copy)]
struct Name {
    binder: usize,
    ty: u8,
    usable: bool,
}

/// Grows sheets that keep rules 1 to 11.
struct Grower<'a> {
    dice: &'a mut Dice,
    types: Vec<u8>,
    style: Style,
    /// True where one operand mostly gets all the nodes.
    slim: bool,
    delays_left: usize,
    records: Vec<Record>,
}

/// The most nodes that fit surely under this many levels.
fn room(levels: usize) -> usize {
    if levels >= 12 {
        4095
    } else {
        (1 << levels) - 1
    }
}

impl Grower<'_> {
    /// Writes an expression of this type with exactly `size` nodes.
    fn grow(&mut self, ty: u8, size: usize, levels: usize, names: &[Name]) {
        assert!(size >= 1 && size <= room(levels));
        let number = self.records.len();
        let below = size - 1;
        if below == 0 {
            let leaf = self.leaf(ty, names);
            self.records.push(leaf);
            return;
        }
        let style = self.style;
        let one = below <= room(levels - 1);
        let fby_weight = if one && self.delays_left > 0 {
            style.fby
        } else {
            0
        };
        let weights = [
            style.op.max(1),
            fby_weight,
            if one { style.rec } else { 0 },
            if below >= 2 { style.bind } else { 0 },
            if below >= 2 { style.check } else { 0 },
            if below >= 3 { style.contract } else { 0 },
        ];
        let mut left = self.dice.below(weights.iter().sum());
        let mut choice = 0;
        while left >= weights[choice] {
            left -= weights[choice];
            choice += 1;
        }
        match choice {
            0 => self.grow_op(ty, below, levels, names),
            1 => {
                self.delays_left -= 1;
                let first = self.dice.value(ty);
                self.records.push(fby(ty, first));
                let guarded: Vec<Name> = names
                    .iter()
                    .map(|name| Name {
                        usable: true,
                        ..*name
                    })
                    .collect();
                self.grow(ty, below, levels - 1, &guarded);
            }
            2 => {
                self.records.push(rec_of(ty));
                let inner = with_name(names, number, ty, false);
                self.grow(ty, below, levels - 1, &inner);
            }
            3 => {
                self.records.push(plain(LET));
                let defined = self.dice.below(2) as u8;
                let sizes = self.split(below, 2, levels - 1);
                self.grow(defined, sizes[0], levels - 1, names);
                let inner = with_name(names, number, defined, true);
                self.grow(ty, sizes[1], levels - 1, &inner);
            }
            4 => {
                self.records.push(plain(CHECK));
                let sizes = self.split(below, 2, levels - 1);
                self.grow(BOOL, sizes[0], levels - 1, names);
                self.grow(ty, sizes[1], levels - 1, names);
            }
            _ => {
                self.records.push(plain(CONTRACT));
                let sizes = self.split(below, 3, levels - 1);
                self.grow(BOOL, sizes[0], levels - 1, names);
                self.grow(ty, sizes[1], levels - 1, names);
                let inner = with_name(names, number, ty, true);
                self.grow(BOOL, sizes[2], levels - 1, &inner);
            }
        }
    }

    fn grow_op(&mut self, ty: u8, below: usize, levels: usize, names: &[Name]) {
        let one = below <= room(levels - 1);
        let mut choices: Vec<u8> = Vec::new();
        if ty == BOOL {
            if one {
                choices.push(NOT);
            }
            if below >= 2 {
                choices.extend([AND, OR, XOR, EQ, EQ, LT, LE]);
            }
        } else {
            if one {
                choices.push(NEG);
            }
            if below >= 2 {
                choices.extend([ADD, SUB, MUL, DIV, MOD]);
            }
        }
        if below >= 3 {
            choices.push(IF);
        }
        let operator = self.dice.pick(&choices);
        self.records.push(op(operator));
        let types = match operator {
            NOT => vec![BOOL],
            NEG => vec![INT],
            AND | OR | XOR => vec![BOOL; 2],
            EQ => vec![self.dice.below(2) as u8; 2],
            IF => vec![BOOL, ty, ty],
            _ => vec![INT; 2],
        };
        let sizes = self.split(below, types.len(), levels - 1);
        for (ty, size) in types.into_iter().zip(sizes) {
            self.grow(ty, size, levels - 1, names);
        }
    }

    /// Cuts `total` into parts of 1 up to the room below.
    fn split(&mut self, total: usize, parts: usize, levels: usize) -> Vec<usize> {
        let most = room(levels);
        let mut sizes = vec![1; parts];
        let mut left = total - parts;
        if self.slim {
            let favoured = self.dice.below(parts);
            let given = left.min(most - 1);
            sizes[favoured] += given;
            left -= given;
        }
        while left > 0 {
            let part = self.dice.below(parts);
            let free = most - sizes[part];
            if free > 0 {
                let given = self.dice.range(1, free.min(left));
                sizes[part] += given;
                left -= given;
            }
        }
        sizes
    }

    fn leaf(&mut self, ty: u8, names: &[Name]) -> Record {
        let fitting: Vec<Name> = names
            .iter()
            .copied()
            .filter(|name| name.usable && name.ty == ty)
            .collect();
        if !fitting.is_empty() && self.dice.chance(3, 5) {
            return var(self.dice.pick(&fitting).binder as u32);
        }
        let columns: Vec<usize> = (0..self.types.len())
            .filter(|&column| self.types[column] == ty)
            .collect();
        if !columns.is_empty() && self.dice.chance(2, 3) {
            return input(self.dice.pick(&columns) as u32);
        }
        constant(ty, self.dice.value(ty))
    }
}

fn with_name(names: &[Name], binder: usize, ty: u8, usable: bool) -> Vec<Name> {
    let mut inner = names.to_vec();
    inner.push(Name { binder, ty, usable });
    inner
}

/// What a grown sheet should look like.
#[derive(Clone, Copy)]
pub struct Plan {
    pub style: Style,
    pub columns: usize,
    pub size: usize,
    pub levels: usize,
    pub delays: usize,
    pub slim: bool,
}

/// A sheet that keeps scope, type and guard.
/// It keeps depth and slots too if the plan does.
pub fn grow(dice: &mut Dice, plan: Plan) -> Draft {
    let types: Vec<u8> = (0..plan.columns).map(|_| dice.below(2) as u8).collect();
    let ty = dice.below(2) as u8;
    let mut grower = Grower {
        dice,
        types,
        style: plan.style,
        slim: plan.slim,
        delays_left: plan.delays,
        records: Vec::new(),
    };
    grower.grow(ty, plan.size, plan.levels, &[]);
    Draft {
        types: grower.types,
        records: grower.records,
    }
}

/// A right sheet with up to `most` nodes, in a style taken by chance.
pub fn right_sheet(dice: &mut Dice, most: usize) -> Draft {
    let style = dice.pick(&STYLES);
    styled_sheet(dice, style, most)
}

pub fn styled_sheet(dice: &mut Dice, style: Style, most: usize) -> Draft {
    let plan = Plan {
        style,
        columns: if dice.chance(1, 6) {
            0
        } else {
            dice.range(1, 4)
        },
        size: dice.range(1, most),
        levels: 32,
        delays: 64,
        slim: false,
    };
    let slim = plan.size < 32 && dice.chance(1, 4);
    grow(dice, Plan { slim, ..plan })
}

/// A sheet of the right shape, with names and types by chance.
pub fn loose_sheet(dice: &mut Dice, size: usize) -> Draft {
    let types: Vec<u8> = (0..dice.range(1, 3)).map(|_| dice.below(2) as u8).collect();
    let mut draft = Draft::new(&types, &[]);
    let mut open = 1;
    // The binders met so far.
    let mut binders: Vec<u32> = Vec::new();
    while open > 0 {
        let number = draft.records.len() as u32;
        let ending = draft.records.len() + open >= size;
        let ty = dice.chance(3, 4) as u8;
        let record = if ending || dice.chance(1, 4) {
            match dice.below(4) {
                0 => constant(ty, dice.value(ty)),
                1 => input(dice.below(types.len()) as u32),
                _ if !binders.is_empty() => var(dice.pick(&binders)),
                _ => constant(ty, dice.value(ty)),
            }
        } else {
            match dice.below(9) {
                0 | 1 => op(dice.pick(&[AND, OR, NOT, LT, LE, EQ, IF, XOR])),
                2 | 3 => op(dice.pick(&[ADD, SUB, MUL, NEG, MOD, DIV])),
                4 => fby(ty, dice.value(ty)),
                5 => rec_of(ty),
                6 => plain(LET),
                7 => plain(CHECK),
                _ => plain(CONTRACT),
            }
        };
        if matches!(record.kind, REC | LET | CONTRACT) {
            binders.push(number);
        }
        open = open + record.operands() - 1;
        draft.records.push(record);
    }
    draft
}

/// A sheet of exactly `size` nodes that keeps rules 1 to 6, and others by chance alone.
pub fn wild_sheet(dice: &mut Dice, size: usize) -> Draft {
    let columns = match dice.below(5) {
        0 => 0,
        1 => 16,
        _ => dice.range(1, 15),
    };
    let types: Vec<u8> = (0..columns).map(|_| dice.below(2) as u8).collect();
    let mut draft = Draft::new(&types, &[]);
    let mut open = 1;
    while open > 0 {
        // The nodes to come, apart from one at each open place.
        let spare = size - draft.records.len() - open;
        let record = if spare == 0 || (open > 1 && dice.chance(1, 3)) {
            wild_leaf(dice, columns)
        } else {
            wild_form(dice, spare)
        };
        open = open + record.operands() - 1;
        draft.records.push(record);
    }
    draft
}

fn wild_leaf(dice: &mut Dice, columns: usize) -> Record {
    let ty = dice.below(2) as u8;
    match dice.below(4) {
        0 if columns > 0 => input(dice.below(columns) as u32),
        1 => var(dice.range(0, 600) as u32),
        2 => var(dice.pick(&[0, 9, 10, 511, 512, 65536, 1 << 31, u32::MAX])),
        _ => constant(ty, dice.value(ty)),
    }
}

/// Any record with 1 to `most` operands.
fn wild_form(dice: &mut Dice, most: usize) -> Record {
    let ty = dice.below(2) as u8;
    loop {
        let record = match dice.below(9) {
            0..=3 => op(dice.below(14) as u8),
            4 => fby(ty, dice.value(ty)),
            5 => rec_of(ty),
            6 => plain(LET),
            7 => plain(CHECK),
            _ => plain(CONTRACT),
        };
        if record.operands() <= most {
            return record;
        }
    }
}

/// A chain of exactly this depth: every form takes bools alone, so types fit.
pub fn bool_chain(dice: &mut Dice, depth: usize) -> Draft {
    // What is still to be written: leaves, and one chain of some depth.
    enum Todo {
        Leaf,
        Chain(usize),
    }
    let mut draft = Draft::new(&[BOOL], &[]);
    let mut todo = vec![Todo::Chain(depth)];
    while let Some(next) = todo.pop() {
        let left = match next {
            Todo::Chain(left) if left > 1 => left,
            _ => {
                let leaf = if dice.chance(1, 2) {
                    input(0)
                } else {
                    constant(BOOL, dice.value(BOOL))
                };
                draft.records.push(leaf);
                continue;
            }
        };
        let record = match dice.below(8) {
            0 => op(NOT),
            1 => op(dice.pick(&[AND, OR, XOR, EQ])),
            2 => op(IF),
            3 => fby(BOOL, dice.value(BOOL)),
            4 => rec_of(BOOL),
            5 => plain(LET),
            6 => plain(CHECK),
            _ => plain(CONTRACT),
        };
        let favoured = dice.below(record.operands());
        for which in (0..record.operands()).rev() {
            todo.push(if which == favoured {
                Todo::Chain(left - 1)
            } else {
                Todo::Leaf
            });
        }
        draft.records.push(record);
    }
    draft
}

/// Rows that fit the columns, laid end to end.
pub fn rows(dice: &mut Dice, types: &[u8], count: usize) -> Vec<i32> {
    let mut rows = Vec::new();
    for _ in 0..count {
        for &ty in types {
            rows.push(dice.value(ty));
        }
    }
    rows
}

/// The types of the slots as codes.
pub fn slot_types(sheet: &Sheet) -> Vec<u8> {
    (0..sheet.delays().len())
        .map(|slot| (sheet.slot_type(slot) == Type::Int) as u8)
        .collect()
}

/// Cells that fit the slots, not reached from Start.
pub fn cells(dice: &mut Dice, sheet: &Sheet) -> Vec<i32> {
    slot_types(sheet).iter().map(|&ty| dice.value(ty)).collect()
}

/// A right order, made in one of several ways.
pub fn right_order(dice: &mut Dice, sheet: &Sheet) -> Vec<u16> {
    let way = dice.below(6);
    if way == 0 {
        return house_order(sheet);
    }
    let needs = needs(sheet);
    let mut placed = vec![false; needs.len()];
    let mut order: Vec<u16> = Vec::new();
    if way == 1 {
        // Each node right behind its needs, from a chance start.
        let mut starts: Vec<usize> = (0..needs.len()).collect();
        dice.shuffle(&mut starts);
        for node in starts {
            place_with_needs(node, &needs, &mut placed, &mut order);
        }
        return order;
    }
    while order.len() < needs.len() {
        let ready: Vec<usize> = (0..needs.len())
            .filter(|&node| !placed[node] && needs[node].iter().all(|&need| placed[need]))
            .collect();
        let next = match way {
            2 => ready[ready.len() - 1],
            3 if dice.chance(1, 2) => ready[0],
            3 => ready[ready.len() - 1],
            _ => dice.pick(&ready),
        };
        placed[next] = true;
        order.push(next as u16);
    }
    order
}

fn place_with_needs(node: usize, needs: &[Vec<usize>], placed: &mut [bool], order: &mut Vec<u16>) {
    if placed[node] {
        return;
    }
    for &need in &needs[node] {
        place_with_needs(need, needs, placed, order);
    }
    placed[node] = true;
    order.push(node as u16);
}

/// The tree of a draft that is surely right.
pub fn tree(draft: &Draft) -> Sheet {
    check(&draft.bytes()).expect("a grown sheet is accepted")
}
