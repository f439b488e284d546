//! The listing of a sheet (request P1): its writer and its reader.
//! Both go by rules 1 to 6 alone.

use crate::sheet::{read_sheet, refuse, Node, Operator, Refusal, Type, What};
use crate::sheet::{MAX_COLUMNS, MAX_NODES};

/// The names of the operators, by their codes.
pub const OPERATORS: [&str; 14] = [
    "not", "and", "or", "xor", "if", "eq", "lt", "le", "add", "sub", "mul", "div", "neg", "mod",
];

/// The listing of a sheet.
pub fn write(bytes: &[u8]) -> Result<Vec<u8>, Refusal> {
    let sheet = read_sheet(bytes)?;
    let mut words = vec!["sheet".to_string()];
    words.extend(sheet.columns.iter().map(|ty| ty.name().to_string()));
    words.push(expression(&sheet.root));
    Ok(words.join(" ").into_bytes())
}

/// One expression as text, with its operands.
fn expression(node: &Node) -> String {
    let name = match node.what {
        What::Const { ty, value } => return constant(ty, value),
        What::Input { column } => return format!("i{column}"),
        What::Var { binder } => return format!("v{binder}"),
        What::Op { operator } => OPERATORS[operator as usize].to_string(),
        What::Fby { ty, first } => format!("fby {}", constant(ty, first)),
        What::Rec { ty } => format!("rec {}", ty.name()),
        What::Let => "let".to_string(),
        What::Check => "check".to_string(),
        What::Contract => "contract".to_string(),
    };
    let mut words = vec![name];
    words.extend(node.operands.iter().map(expression));
    format!("({})", words.join(" "))
}

fn constant(ty: Type, value: i32) -> String {
    match ty {
        Type::Bool => (value == 1).to_string(),
        Type::Int => value.to_string(),
    }
}

/// The bytes of the sheet that has this listing.
pub fn read(text: &[u8]) -> Result<Vec<u8>, Refusal> {
    let mut reader = Reader {
        rest: text,
        columns: Vec::new(),
        records: Vec::new(),
    };
    match reader.sheet() {
        Some(bytes) => Ok(bytes),
        None => refuse(16, 0),
    }
}

/// What is left of the text, and what was read from it.
/// Every step answers nothing where the text is no listing.
struct Reader<'a> {
    rest: &'a [u8],
    columns: Vec<u8>,
    records: Vec<[u8; 6]>,
}

impl<'a> Reader<'a> {
    /// The whole text.
    fn sheet(&mut self) -> Option<Vec<u8>> {
        self.eat(b"sheet")?;
        self.eat(b" ")?;
        while let Some(code) = type_code(self.next_word()) {
            self.word();
            self.eat(b" ")?;
            self.columns.push(code);
        }
        if self.columns.len() > MAX_COLUMNS {
            return None;
        }
        self.expression()?;
        if !self.rest.is_empty() {
            return None;
        }
        let length = 4 + self.columns.len() + 6 * self.records.len();
        let mut bytes = (length as u16).to_be_bytes().to_vec();
        bytes.push(1);
        bytes.push(self.columns.len() as u8);
        bytes.extend(&self.columns);
        bytes.extend(self.records.concat());
        Some(bytes)
    }

    /// Takes exactly these bytes.
    fn eat(&mut self, bytes: &[u8]) -> Option<()> {
        self.rest = self.rest.strip_prefix(bytes)?;
        Some(())
    }

    /// What comes before the next space or bracket.
    fn next_word(&self) -> &'a [u8] {
        let ends = |byte: &u8| b" ()".contains(byte);
        let length = self.rest.iter().position(ends).unwrap_or(self.rest.len());
        &self.rest[..length]
    }

    /// Takes that word.
    fn word(&mut self) -> &'a [u8] {
        let word = self.next_word();
        self.rest = &self.rest[word.len()..];
        word
    }

    fn record(&mut self, kind: u8, code: u8, argument: u32) {
        let [a, b, c, d] = argument.to_be_bytes();
        self.records.push([kind, code, a, b, c, d]);
    }

    fn expression(&mut self) -> Option<()> {
        if self.records.len() == MAX_NODES {
            return None;
        }
        if self.eat(b"(").is_none() {
            return self.leaf();
        }
        let operands = self.head()?;
        for _ in 0..operands {
            self.eat(b" ")?;
            self.expression()?;
        }
        self.eat(b")")
    }

    fn leaf(&mut self) -> Option<()> {
        let word = self.word();
        if let Some(binder) = word.strip_prefix(b"v") {
            self.record(2, 0, number(binder, u32::MAX)?);
        } else if let Some(column) = word.strip_prefix(b"i") {
            let last = self.columns.len().checked_sub(1)?;
            self.record(1, 0, number(column, last as u32)?);
        } else {
            let (code, value) = value(word)?;
            self.record(0, code, value);
        }
        Some(())
    }

    /// What stands between the bracket and the operands; answers their number.
    fn head(&mut self) -> Option<usize> {
        match self.word() {
            b"fby" => {
                self.eat(b" ")?;
                let (code, first) = value(self.word())?;
                self.record(4, code, first);
                Some(1)
            }
            b"rec" => {
                self.eat(b" ")?;
                let code = type_code(self.word())?;
                self.record(5, code, 0);
                Some(1)
            }
            b"let" => {
                self.record(6, 0, 0);
                Some(2)
            }
            b"check" => {
                self.record(7, 0, 0);
                Some(2)
            }
            b"contract" => {
                self.record(8, 0, 0);
                Some(3)
            }
            word => {
                let code = OPERATORS.iter().position(|name| name.as_bytes() == word)?;
                self.record(3, code as u8, 0);
                Some(Operator::from_code(code as u8)?.operands())
            }
        }
    }
}

fn type_code(word: &[u8]) -> Option<u8> {
    match word {
        b"bool" => Some(0),
        b"int" => Some(1),
        _ => None,
    }
}

/// A constant's type code and its argument.
fn value(word: &[u8]) -> Option<(u8, u32)> {
    match word {
        b"false" => Some((0, 0)),
        b"true" => Some((0, 1)),
        _ => match word.strip_prefix(b"-") {
            None => Some((1, number(word, i32::MAX as u32)?)),
            Some(digits) => match number(digits, 1 << 31)? {
                0 => None,
                size => Some((1, size.wrapping_neg())),
            },
        },
    }
}

/// A number in decimal with no leading zero, at most `last`.
fn number(digits: &[u8], last: u32) -> Option<u32> {
    if digits.is_empty() || digits.len() > 10 || (digits[0] == b'0' && digits.len() > 1) {
        return None;
    }
    let mut number: u64 = 0;
    for digit in digits {
        if !digit.is_ascii_digit() {
            return None;
        }
        number = 10 * number + u64::from(digit - b'0');
    }
    if number > u64::from(last) {
        return None;
    }
    Some(number as u32)
}

/// Writes the listing to the front of a lent room; answers its length.
pub fn write_into(bytes: &[u8], room: &mut [u8]) -> Result<usize, Refusal> {
    put(&write(bytes)?, room)
}

/// Writes the bytes of the listed sheet to the front of a lent room; answers their count.
pub fn read_into(text: &[u8], room: &mut [u8]) -> Result<usize, Refusal> {
    put(&read(text)?, room)
}

/// Rule 12 for a lent room.
fn put(result: &[u8], room: &mut [u8]) -> Result<usize, Refusal> {
    if room.len() < result.len() {
        return refuse(12, 7);
    }
    room[..result.len()].copy_from_slice(result);
    Ok(result.len())
}
