//! Sheet bytes, the tree of nodes, and rules 1 to 11.

pub const MAX_COLUMNS: usize = 16;
pub const MAX_NODES: usize = 512;
pub const MAX_DEPTH: usize = 32;
pub const MAX_SLOTS: usize = 64;

/// A refusal: its number and its place.
#[derive(Clone, Copy, Debug, PartialEq, Eq)]
pub struct Refusal {
    pub number: u32,
    pub place: usize,
}

pub fn refuse<T>(number: u32, place: usize) -> Result<T, Refusal> {
    Err(Refusal { number, place })
}

#[derive(Clone, Copy, Debug, PartialEq, Eq)]
pub enum Type {
    Bool,
    Int,
}

impl Type {
    pub fn from_code(code: u8) -> Option<Type> {
        match code {
            0 => Some(Type::Bool),
            1 => Some(Type::Int),
            _ => None,
        }
    }

    pub fn name(self) -> &'static str {
        match self {
            Type::Bool => "bool",
            Type::Int => "int",
        }
    }
}

#[derive(Clone, Copy, Debug, PartialEq, Eq)]
pub enum Operator {
    Not,
    And,
    Or,
    Xor,
    If,
    Eq,
    Lt,
    Le,
    Add,
    Sub,
    Mul,
    Div,
    Neg,
    Mod,
}

impl Operator {
    pub fn from_code(code: u8) -> Option<Operator> {
        use Operator::*;
        let all = [
            Not, And, Or, Xor, If, Eq, Lt, Le, Add, Sub, Mul, Div, Neg, Mod,
        ];
        all.get(code as usize).copied()
    }

    pub fn operands(self) -> usize {
        match self {
            Operator::Not | Operator::Neg => 1,
            Operator::If => 3,
            _ => 2,
        }
    }
}

/// What one node is, apart from its operands.
#[derive(Clone, Copy, Debug, PartialEq, Eq)]
pub enum What {
    Const { ty: Type, value: i32 },
    Input { column: usize },
    Var { binder: u32 },
    Op { operator: Operator },
    Fby { ty: Type, first: i32 },
    Rec { ty: Type },
    Let,
    Check,
    Contract,
}

impl What {
    pub fn operands(self) -> usize {
        match self {
            What::Const { .. } | What::Input { .. } | What::Var { .. } => 0,
            What::Op { operator } => operator.operands(),
            What::Fby { .. } | What::Rec { .. } => 1,
            What::Let | What::Check => 2,
            What::Contract => 3,
        }
    }

    pub fn is_fby(self) -> bool {
        matches!(self, What::Fby { .. })
    }
}

#[derive(Debug)]
pub struct Node {
    pub number: usize,
    pub depth: usize,
    pub what: What,
    pub operands: Vec<Node>,
}

/// An accepted sheet, or one on its way through the rules.
#[derive(Debug)]
pub struct Sheet {
    pub columns: Vec<Type>,
    pub root: Node,
}

impl Sheet {
    /// All nodes in prefix order: entry i is node i.
    pub fn nodes(&self) -> Vec<&Node> {
        fn walk<'a>(node: &'a Node, list: &mut Vec<&'a Node>) {
            list.push(node);
            for operand in &node.operands {
                walk(operand, list);
            }
        }
        let mut list = Vec::new();
        walk(&self.root, &mut list);
        list
    }

    /// The FBY nodes in rising order: entry j owns slot j.
    pub fn delays(&self) -> Vec<&Node> {
        let mut list = self.nodes();
        list.retain(|node| node.what.is_fby());
        list
    }

    pub fn slot_type(&self, slot: usize) -> Type {
        match self.delays()[slot].what {
            What::Fby { ty, .. } => ty,
            _ => unreachable!("a slot belongs to a FBY"),
        }
    }

    pub fn root_type(&self) -> Type {
        type_of(self, &self.nodes(), &self.root)
    }
}

/// Check: the sheet as a tree, or the first refusal.
pub fn check(bytes: &[u8]) -> Result<Sheet, Refusal> {
    let sheet = read_sheet(bytes)?;
    check_depth(&sheet)?;
    check_scope(&sheet)?;
    check_types(&sheet)?;
    check_guards(&sheet)?;
    check_slots(&sheet)?;
    Ok(sheet)
}

/// Rules 1 to 6: the tree of a sheet that may still break the others.
pub fn read_sheet(bytes: &[u8]) -> Result<Sheet, Refusal> {
    // Rule 1.
    if bytes.len() < 4 || usize::from(bytes[0]) * 256 + usize::from(bytes[1]) != bytes.len() {
        return refuse(1, 0);
    }
    // Rule 2.
    if bytes[2] != 1 {
        return refuse(2, 2);
    }
    let columns = read_columns(bytes)?;
    let records = read_records(&bytes[4 + columns.len()..], columns.len())?;
    let root = read_tree(&records)?;
    Ok(Sheet { columns, root })
}

/// Rule 3.
fn read_columns(bytes: &[u8]) -> Result<Vec<Type>, Refusal> {
    let count = usize::from(bytes[3]);
    if count > MAX_COLUMNS || bytes.len() < 4 + count {
        return refuse(3, 3);
    }
    let mut columns = Vec::new();
    for (column, &code) in bytes[4..4 + count].iter().enumerate() {
        match Type::from_code(code) {
            Some(ty) => columns.push(ty),
            None => return refuse(3, 4 + column),
        }
    }
    Ok(columns)
}

/// Rules 4 and 5.
fn read_records(body: &[u8], columns: usize) -> Result<Vec<What>, Refusal> {
    if body.is_empty() || !body.len().is_multiple_of(6) || body.len() / 6 > MAX_NODES {
        return refuse(4, 0);
    }
    let mut records = Vec::new();
    for (number, record) in body.chunks(6).enumerate() {
        match read_record(record, columns) {
            Some(what) => records.push(what),
            None => return refuse(5, number),
        }
    }
    Ok(records)
}

/// One record, or nothing where rule 5 is broken.
fn read_record(record: &[u8], columns: usize) -> Option<What> {
    let (kind, code) = (record[0], record[1]);
    let argument = u32::from_be_bytes([record[2], record[3], record[4], record[5]]);
    let no_code = code == 0;
    let no_argument = argument == 0;
    let typed = |ty: Type| -> Option<i32> {
        if ty == Type::Bool && argument > 1 {
            None
        } else {
            Some(argument as i32)
        }
    };
    match kind {
        0 => {
            let ty = Type::from_code(code)?;
            let value = typed(ty)?;
            Some(What::Const { ty, value })
        }
        1 if no_code && (argument as usize) < columns => Some(What::Input {
            column: argument as usize,
        }),
        2 if no_code => Some(What::Var { binder: argument }),
        3 if no_argument => {
            let operator = Operator::from_code(code)?;
            Some(What::Op { operator })
        }
        4 => {
            let ty = Type::from_code(code)?;
            let first = typed(ty)?;
            Some(What::Fby { ty, first })
        }
        5 if no_argument => {
            let ty = Type::from_code(code)?;
            Some(What::Rec { ty })
        }
        6 if no_code && no_argument => Some(What::Let),
        7 if no_code && no_argument => Some(What::Check),
        8 if no_code && no_argument => Some(What::Contract),
        _ => None,
    }
}

/// Rule 6.
fn read_tree(records: &[What]) -> Result<Node, Refusal> {
    let mut next = 0;
    match read_expression(records, &mut next, 1) {
        None => refuse(6, records.len()),
        Some(_) if next < records.len() => refuse(6, next),
        Some(root) => Ok(root),
    }
}

/// One expression from the next record on, or nothing where they run out.
fn read_expression(records: &[What], next: &mut usize, depth: usize) -> Option<Node> {
    let number = *next;
    let what = *records.get(number)?;
    *next += 1;
    let mut operands = Vec::new();
    for _ in 0..what.operands() {
        operands.push(read_expression(records, next, depth + 1)?);
    }
    Some(Node {
        number,
        depth,
        what,
        operands,
    })
}

/// Rule 7.
fn check_depth(sheet: &Sheet) -> Result<(), Refusal> {
    for node in sheet.nodes() {
        if node.depth > MAX_DEPTH {
            return refuse(7, node.number);
        }
    }
    Ok(())
}

/// A step of a path: a node above, and which of its operands the path takes.
type Step<'a> = (&'a Node, usize);

/// Calls `see` with every node, in prefix order, and its path from the root.
fn walk_paths<'a>(
    node: &'a Node,
    path: &mut Vec<Step<'a>>,
    see: &mut dyn FnMut(&'a Node, &[Step<'a>]),
) {
    see(node, path);
    for (which, operand) in node.operands.iter().enumerate() {
        path.push((node, which));
        walk_paths(operand, path, see);
        path.pop();
    }
}

/// The lowest VAR for which `bad` holds, given its binder's number and its path.
fn lowest_var(sheet: &Sheet, bad: &dyn Fn(u32, &[Step]) -> bool) -> Option<usize> {
    let mut found = None;
    walk_paths(&sheet.root, &mut Vec::new(), &mut |node, path| {
        if let What::Var { binder } = node.what {
            if found.is_none() && bad(binder, path) {
                found = Some(node.number);
            }
        }
    });
    found
}

/// Rule 8.
fn check_scope(sheet: &Sheet) -> Result<(), Refusal> {
    let out_of_scope = |binder: u32, path: &[Step]| {
        !path.iter().any(|(above, which)| {
            above.number as u64 == u64::from(binder)
                && match above.what {
                    What::Rec { .. } => *which == 0,
                    What::Let => *which == 1,
                    What::Contract => *which == 2,
                    _ => false,
                }
        })
    };
    match lowest_var(sheet, &out_of_scope) {
        Some(node) => refuse(8, node),
        None => Ok(()),
    }
}

/// The type of a node of a sheet that keeps the scope rule.
pub fn type_of(sheet: &Sheet, nodes: &[&Node], node: &Node) -> Type {
    let operand = |which: usize| type_of(sheet, nodes, &node.operands[which]);
    match node.what {
        What::Const { ty, .. } | What::Fby { ty, .. } | What::Rec { ty } => ty,
        What::Input { column } => sheet.columns[column],
        What::Var { binder } => {
            let binder = nodes[binder as usize];
            match binder.what {
                What::Rec { ty } => ty,
                What::Let => type_of(sheet, nodes, &binder.operands[0]),
                What::Contract => type_of(sheet, nodes, &binder.operands[1]),
                _ => unreachable!("a VAR in scope names a REC, a LET or a CONTRACT"),
            }
        }
        What::Op { operator } => match operator {
            Operator::If => operand(1),
            Operator::Not | Operator::And | Operator::Or | Operator::Xor => Type::Bool,
            Operator::Eq | Operator::Lt | Operator::Le => Type::Bool,
            _ => Type::Int,
        },
        What::Let | What::Check | What::Contract => operand(1),
    }
}

/// Rule 9.
fn check_types(sheet: &Sheet) -> Result<(), Refusal> {
    let nodes = sheet.nodes();
    for node in &nodes {
        let types: Vec<Type> = node
            .operands
            .iter()
            .map(|operand| type_of(sheet, &nodes, operand))
            .collect();
        let all = |ty: Type| types.iter().all(|found| *found == ty);
        let right = match node.what {
            What::Const { .. } | What::Input { .. } | What::Var { .. } => true,
            What::Op { operator } => match operator {
                Operator::Not | Operator::And | Operator::Or | Operator::Xor => all(Type::Bool),
                Operator::If => types[0] == Type::Bool && types[1] == types[2],
                Operator::Eq => types[0] == types[1],
                _ => all(Type::Int),
            },
            What::Fby { ty, .. } | What::Rec { ty } => types[0] == ty,
            What::Let => true,
            What::Check => types[0] == Type::Bool,
            What::Contract => types[0] == Type::Bool && types[2] == Type::Bool,
        };
        if !right {
            return refuse(9, node.number);
        }
    }
    Ok(())
}

/// Rule 10.
fn check_guards(sheet: &Sheet) -> Result<(), Refusal> {
    let unguarded = |binder: u32, path: &[Step]| {
        let at = path
            .iter()
            .position(|(above, _)| above.number as u64 == u64::from(binder))
            .expect("the scope rule holds");
        let is_rec = matches!(path[at].0.what, What::Rec { .. });
        is_rec && !path[at + 1..].iter().any(|(above, _)| above.what.is_fby())
    };
    match lowest_var(sheet, &unguarded) {
        Some(node) => refuse(10, node),
        None => Ok(()),
    }
}

/// Rule 11.
fn check_slots(sheet: &Sheet) -> Result<(), Refusal> {
    match sheet.delays().get(MAX_SLOTS) {
        Some(node) => refuse(11, node.number),
        None => Ok(()),
    }
}
