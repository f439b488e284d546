//! The meaning of a sheet, and Start, Tick and Run.

use crate::order::check_order;
use crate::sheet::{check, refuse, Node, Operator, Refusal, Sheet, Type, What};

pub const MAX_ROWS: usize = 256;

#[derive(Clone, Copy, Debug, PartialEq, Eq)]
pub enum Verdict {
    Fail,
    Caller,
    Body,
}

impl Verdict {
    pub fn name(self) -> &'static str {
        match self {
            Verdict::Fail => "fail",
            Verdict::Caller => "caller",
            Verdict::Body => "body",
        }
    }
}

/// What one tick answers.
#[derive(Clone, Copy, Debug, PartialEq, Eq)]
pub struct Answer {
    pub root: i32,
    pub failing: usize,
    pub lowest: Option<(usize, Verdict)>,
}

/// Brings a result into the range of an int by multiples of 2^32.
fn wrap(exact: i64) -> i32 {
    let mut value = exact.rem_euclid(1 << 32);
    if value > 2147483647 {
        value -= 1 << 32;
    }
    value as i32
}

/// DIV: rounds toward zero, and division by 0 gives 0.
fn div(a: i64, b: i64) -> i64 {
    if b == 0 {
        0
    } else {
        i64::from(wrap(a / b))
    }
}

/// An operator on the values of its operands.
pub fn apply(operator: Operator, values: &[i32]) -> i32 {
    let v: Vec<i64> = values.iter().map(|&value| i64::from(value)).collect();
    match operator {
        Operator::Not => i32::from(v[0] == 0),
        Operator::And => i32::from(v[0] != 0 && v[1] != 0),
        Operator::Or => i32::from(v[0] != 0 || v[1] != 0),
        Operator::Xor => i32::from(v[0] != v[1]),
        Operator::If => values[if v[0] != 0 { 1 } else { 2 }],
        Operator::Eq => i32::from(v[0] == v[1]),
        Operator::Lt => i32::from(v[0] < v[1]),
        Operator::Le => i32::from(v[0] <= v[1]),
        Operator::Add => wrap(v[0] + v[1]),
        Operator::Sub => wrap(v[0] - v[1]),
        Operator::Mul => wrap(v[0] * v[1]),
        Operator::Div => wrap(div(v[0], v[1])),
        Operator::Neg => wrap(-v[0]),
        Operator::Mod => wrap(v[0] - div(v[0], v[1]) * v[1]),
    }
}

/// One tick's values, found by walking the tree.
/// A value found once in this tick is remembered.
struct Walk<'a> {
    nodes: &'a [&'a Node],
    row: &'a [i32],
    /// The value of a FBY at this tick.
    delayed: &'a dyn Fn(&Node) -> i32,
    known: Vec<Option<i32>>,
}

impl Walk<'_> {
    fn value(&mut self, node: &Node) -> i32 {
        if let Some(value) = self.known[node.number] {
            return value;
        }
        let value = match node.what {
            What::Const { value, .. } => value,
            What::Input { column } => self.row[column],
            What::Fby { .. } => (self.delayed)(node),
            What::Rec { .. } => self.value(&node.operands[0]),
            What::Let | What::Check | What::Contract => self.value(&node.operands[1]),
            What::Var { binder } => {
                let binder = self.nodes[binder as usize];
                match binder.what {
                    What::Rec { .. } | What::Let => self.value(&binder.operands[0]),
                    What::Contract => self.value(&binder.operands[1]),
                    _ => unreachable!("a VAR in scope names a REC, a LET or a CONTRACT"),
                }
            }
            What::Op { operator } => {
                let values: Vec<i32> = node.operands.iter().map(|o| self.value(o)).collect();
                apply(operator, &values)
            }
        };
        self.known[node.number] = Some(value);
        value
    }
}

/// The values of all nodes at one tick.
fn values_of(nodes: &[&Node], row: &[i32], delayed: &dyn Fn(&Node) -> i32) -> Vec<i32> {
    let known = vec![None; nodes.len()];
    let mut walk = Walk {
        nodes,
        row,
        delayed,
        known,
    };
    nodes.iter().map(|node| walk.value(node)).collect()
}

/// The verdict of one node, or nothing for PASS.
fn verdict(node: &Node, values: &[i32]) -> Option<Verdict> {
    let holds = |which: usize| values[node.operands[which].number] != 0;
    match node.what {
        What::Check if !holds(0) => Some(Verdict::Fail),
        What::Contract if !holds(0) => Some(Verdict::Caller),
        What::Contract if !holds(2) => Some(Verdict::Body),
        _ => None,
    }
}

fn answer(nodes: &[&Node], values: &[i32]) -> Answer {
    let mut answer = Answer {
        root: values[0],
        failing: 0,
        lowest: None,
    };
    for node in nodes {
        if let Some(verdict) = verdict(node, values) {
            answer.failing += 1;
            if answer.lowest.is_none() {
                answer.lowest = Some((node.number, verdict));
            }
        }
    }
    answer
}

fn fits(ty: Type, value: i32) -> bool {
    ty == Type::Int || value == 0 || value == 1
}

/// Rule 13, for rows laid end to end.
pub fn check_rows(sheet: &Sheet, rows: &[i32]) -> Result<(), Refusal> {
    for (index, &value) in rows.iter().enumerate() {
        if !fits(sheet.columns[index % sheet.columns.len()], value) {
            return refuse(13, index);
        }
    }
    Ok(())
}

/// Rule 14.
fn check_cells(sheet: &Sheet, cells: &[i32]) -> Result<(), Refusal> {
    for (slot, &value) in cells.iter().enumerate() {
        if !fits(sheet.slot_type(slot), value) {
            return refuse(14, slot);
        }
    }
    Ok(())
}

/// The first contents of the cells.
pub fn first_cells(sheet: &Sheet) -> Vec<i32> {
    let first = |node: &&Node| match node.what {
        What::Fby { first, .. } => first,
        _ => unreachable!("a slot belongs to a FBY"),
    };
    sheet.delays().iter().map(first).collect()
}

/// The operation Start.
pub fn start(bytes: &[u8], cells: &mut [i32]) -> Result<(), Refusal> {
    let sheet = check(bytes)?;
    let first = first_cells(&sheet);
    if cells.len() != first.len() {
        return refuse(12, 2);
    }
    cells.copy_from_slice(&first);
    Ok(())
}

/// The operation Tick. A FBY's value is read from its slot.
pub fn tick(
    bytes: &[u8],
    row: &[i32],
    cells: &mut [i32],
    order: &[u16],
    values: &mut [i32],
) -> Result<Answer, Refusal> {
    let sheet = check(bytes)?;
    let nodes = sheet.nodes();
    let delays = sheet.delays();
    if row.len() != sheet.columns.len() {
        return refuse(12, 1);
    }
    if cells.len() != delays.len() {
        return refuse(12, 2);
    }
    if order.len() != nodes.len() {
        return refuse(12, 3);
    }
    if values.len() != nodes.len() {
        return refuse(12, 4);
    }
    check_rows(&sheet, row)?;
    check_cells(&sheet, cells)?;
    check_order(&sheet, order)?;

    let before = cells.to_vec();
    let slot_of = |node: &Node| {
        let slot = delays.iter().position(|delay| delay.number == node.number);
        slot.expect("every FBY has a slot")
    };
    let found = values_of(&nodes, row, &|node| before[slot_of(node)]);
    values.copy_from_slice(&found);
    for (slot, delay) in delays.iter().enumerate() {
        cells[slot] = found[delay.operands[0].number];
    }
    Ok(answer(&nodes, &found))
}

/// The answers at ticks 0 to T-1, by the equations over ticks and nodes.
/// No slot and no order is used here.
pub fn history(sheet: &Sheet, rows: &[i32], ticks: usize) -> Vec<Answer> {
    let nodes = sheet.nodes();
    let columns = sheet.columns.len();
    let mut before: Option<Vec<i32>> = None;
    let mut answers = Vec::new();
    for t in 0..ticks {
        let row = &rows[t * columns..(t + 1) * columns];
        let found = values_of(&nodes, row, &|node| match (&before, node.what) {
            (None, What::Fby { first, .. }) => first,
            (Some(values), _) => values[node.operands[0].number],
            _ => unreachable!("only a FBY is delayed"),
        });
        answers.push(answer(&nodes, &found));
        before = Some(found);
    }
    answers
}

/// The operation Run: the number of ticks with a verdict other than PASS.
pub fn run(bytes: &[u8], rows: &[i32], outputs: &mut [i32]) -> Result<usize, Refusal> {
    let sheet = check(bytes)?;
    if rows.len() != outputs.len() * sheet.columns.len() {
        return refuse(12, 1);
    }
    if outputs.len() > MAX_ROWS {
        return refuse(12, 5);
    }
    check_rows(&sheet, rows)?;
    let answers = history(&sheet, rows, outputs.len());
    for (output, answer) in outputs.iter_mut().zip(&answers) {
        *output = answer.root;
    }
    Ok(answers.iter().filter(|answer| answer.failing > 0).count())
}
