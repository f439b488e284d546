//! Listings: sheets written, listings read, rooms, and texts that are no listing.

use super::damage::{break_bytes, break_draft};
use super::Book;
use crate::examples::{chain, many_lets, sheet_a, sheet_b, sheet_d, strict_sheet};
use crate::gen::*;
use crate::listing::write;
use crate::sheet::read_sheet;

impl Book {
    /// Writes into a room of this size.
    fn w(&mut self, sheet: &[u8], room: usize) {
        self.add(b'w', sheet, &[], &[], &[], room);
    }

    /// Reads into a room of this size.
    fn l(&mut self, text: &[u8], room: usize) {
        self.add(b'l', text, &[], &[], &[], room);
    }

    /// Writes a sheet and reads its listing, each into `more` than the room that it takes.
    fn there_and_back(&mut self, sheet: &[u8], more: usize) {
        let text = listing(sheet);
        self.w(sheet, text.len() + more);
        self.l(&text, sheet.len() + more);
    }
}

fn listing(sheet: &[u8]) -> Vec<u8> {
    write(sheet).expect("the sheet keeps rules 1 to 6")
}

fn bytes_of(types: &[u8], records: &[Record]) -> Vec<u8> {
    Draft::new(types, records).bytes()
}

/// A sheet with every kind, three columns and long numbers.
fn every_kind() -> Vec<u8> {
    bytes_of(
        &[BOOL, INT, BOOL],
        &[
            plain(CONTRACT),
            op(LE),
            constant(INT, -17),
            input(1),
            plain(LET),
            constant(INT, 300),
            plain(CHECK),
            constant(BOOL, 1),
            op(IF),
            fby(BOOL, 0),
            input(2),
            fby(INT, i32::MIN),
            var(4),
            op(NEG),
            constant(INT, 5),
            rec_of(BOOL),
            op(NOT),
            var(u32::MAX),
        ],
    )
}

/// The settled examples.
pub(super) fn settled_listings(book: &mut Book) {
    let delay = [fby(INT, 0), constant(INT, 0)];
    for sheet in [
        sheet_a().bytes(),
        sheet_b().bytes(),
        sheet_d().bytes(),
        strict_sheet().bytes(),
        bytes_of(&[], &[constant(INT, 7)]),
        bytes_of(&[], &[rec_of(INT), var(0)]),
        chain(32),
        chain(33),
        bytes_of(&[], &many_lets(&delay, 64)),
        bytes_of(&[], &many_lets(&delay, 65)),
        bytes_of(&[INT; 16], &[constant(INT, 0)]),
        every_kind(),
    ] {
        book.there_and_back(&sheet, 0);
    }
    book.w(&[0, 4, 1, 0], 20);
}

/// Rooms of every size around the right one.
pub(super) fn rooms(book: &mut Book) {
    let seven = bytes_of(&[], &[constant(INT, 7)]);
    for sheet in [sheet_a().bytes(), every_kind()] {
        let text = listing(&sheet);
        let (w, l) = (text.len(), sheet.len());
        for room in [0, 1, w / 2, w - 1, w, w + 1, w + 300] {
            book.w(&sheet, room);
        }
        for room in [0, 1, l / 2, l - 1, l, l + 1, l + 100] {
            book.l(&text, room);
        }
        // A text that is no listing comes before the room.
        for room in [0, l - 1, l + 6] {
            book.l(&text[..w - 1], room);
        }
        // A refused sheet comes before the room.
        for room in [0, w - 1] {
            book.w(&sheet[..l - 1], room);
        }
    }
    book.w(&sheet_d().bytes(), 16384);
    book.l(&listing(&seven), 16384);
    book.l(b"", 0);
    book.w(b"", 0);
}

/// Every kind and operator, and numbers at their edges.
pub(super) fn forms_and_numbers(book: &mut Book) {
    let mut forms: Vec<Record> = (NOT..=MOD).map(op).collect();
    forms.extend([fby(BOOL, 0), fby(BOOL, 1), fby(INT, 0), fby(INT, 1)]);
    forms.extend([rec_of(BOOL), rec_of(INT)]);
    forms.extend([plain(LET), plain(CHECK), plain(CONTRACT)]);
    for form in forms {
        let mut records = vec![form];
        let leaves = [constant(INT, 10), constant(BOOL, 1), input(0)];
        records.extend(&leaves[..form.operands()]);
        book.there_and_back(&bytes_of(&[BOOL], &records), 3);
    }
    // Each edge alone, as a constant.
    for value in [0, -1, 9, 10, i32::MAX, i32::MIN] {
        book.there_and_back(&bytes_of(&[], &[constant(INT, value)]), 1);
    }
    for value in [0, 1] {
        book.there_and_back(&bytes_of(&[], &[constant(BOOL, value)]), 0);
    }
    for binder in [0, 9, 10, 1 << 31, u32::MAX] {
        book.there_and_back(&bytes_of(&[], &[var(binder)]), 0);
    }
    // Every number of digits, as constants, first values and binders.
    let mut records = Vec::new();
    let mut power: i64 = 1;
    while power < 1 << 31 {
        for value in [power, power - 1, -power, 1 - power] {
            records.extend([op(ADD), constant(INT, value as i32)]);
            records.push(fby(INT, value as i32));
        }
        records.extend([
            plain(LET),
            var(power as u32),
            plain(LET),
            var(power as u32 - 1),
        ]);
        power *= 10;
    }
    for value in EXTREMES {
        records.extend([op(SUB), constant(INT, value), fby(INT, value)]);
    }
    records.push(var(u32::MAX - 1));
    book.there_and_back(&bytes_of(&[], &records), 0);
    // Every column.
    for types in [[BOOL, INT].repeat(8), [INT, BOOL].repeat(8), vec![BOOL; 11]] {
        let mut records = vec![op(AND); types.len() - 1];
        records.extend((0..types.len() as u32).map(input));
        book.there_and_back(&bytes_of(&types, &records), 2);
    }
}

/// The ceilings: columns, nodes, levels, and the longest texts.
pub(super) fn long_listings(book: &mut Book) {
    let with = |form: Record, count: usize, leaf: Record| -> Vec<Record> {
        [
            vec![form; count],
            vec![leaf; 1 + count * (form.operands() - 1)],
        ]
        .concat()
    };
    // 512 nodes: deep in the only operand, in the first and in the last.
    let longest = bytes_of(
        &[BOOL; 16],
        &with(fby(INT, i32::MIN), 511, constant(INT, i32::MIN)),
    );
    let lasts: Vec<Record> = (0..255)
        .flat_map(|_| [plain(CHECK), constant(BOOL, 0)])
        .collect();
    let firsts = [vec![op(NEG)], with(plain(LET), 255, var(u32::MAX))].concat();
    for sheet in [
        longest.clone(),
        bytes_of(&[], &with(rec_of(INT), 511, var(0))),
        bytes_of(&[INT; 16], &firsts),
        bytes_of(
            &[],
            &[vec![op(NOT)], lasts, vec![constant(BOOL, 1)]].concat(),
        ),
        bytes_of(
            &[INT],
            &[vec![op(NEG)], with(plain(CONTRACT), 170, input(0))].concat(),
        ),
        bytes_of(
            &[],
            &[vec![op(NEG)], many_lets(&[constant(INT, -1)], 256)].concat(),
        ),
        chain(512),
    ] {
        book.there_and_back(&sheet, 0);
    }
    let text = listing(&longest);
    book.w(&longest, text.len() - 1);
    book.l(&text, longest.len() - 1);
    // One byte more, and as many as fit.
    book.l(&[&text[..], b")"].concat(), 3100);
    book.l(&[&text[..], &[b' '; 7089]].concat(), 100);
    // One node too many, one column too many.
    book.w(&chain(513), 4000);
    for form in ["(neg ", "(fby -2147483648 ", "(add 1 "] {
        let count = if form == "(add 1 " { 256 } else { 512 };
        let text = format!("sheet {}7{}", form.repeat(count), ")".repeat(count));
        book.l(text.as_bytes(), 3200);
    }
    book.w(&bytes_of(&[INT; 17], &[constant(INT, 0)]), 100);
    for (count, last) in [(16, "i15"), (16, "i16"), (17, "0"), (17, "i16"), (17, "")] {
        let text = format!("sheet {}{last}", "int ".repeat(count));
        book.l(text.as_bytes(), 40);
    }
    book.l(format!("sheet {}0", "bool ".repeat(272)).as_bytes(), 40);
    // Texts without an end.
    book.l(&[b"sheet ".to_vec(), vec![b'('; 16378]].concat(), 10);
    book.l(&[b"sheet ".to_vec(), b"(not ".repeat(3275)].concat(), 10);
    book.l(&[b"sheet ".to_vec(), vec![b'1'; 16378]].concat(), 10);
    // Records without an end, and more than one expression.
    book.w(&bytes_of(&[], &vec![plain(CONTRACT); 512]), 30);
    book.w(&bytes_of(&[], &vec![constant(INT, 0); 512]), 30);
}

/// Sheets that break rules 1 to 6.
pub(super) fn refused_sheets(book: &mut Book) {
    // Each rule by chance, in sheets that may break the later rules too.
    for round in 0..24 {
        let rule = round % 6 + 1;
        let room = [0, 40, 400][round as usize % 3];
        loop {
            let size = book.dice.range(1, 30);
            let mut draft = wild_sheet(&mut book.dice, size);
            if rule >= 5 {
                break_draft(&mut book.dice, rule, &mut draft);
            }
            let mut bytes = draft.bytes();
            if rule <= 4 {
                break_bytes(&mut book.dice, rule, &mut bytes);
            }
            if read_sheet(&bytes).is_err_and(|refusal| refusal.number == rule) {
                book.w(&bytes, room);
                break;
            }
        }
    }
    // Rule 5, in the last of three records.
    for last in [
        constant(BOOL, 2),
        rec(CONST, 2, 0),
        input(2),
        rec(INPUT, 1, 0),
        rec(VAR, 1, 0),
        rec(OP, 14, 0),
        rec(OP, NEG, 1),
        fby(BOOL, -1),
        rec(FBY, 2, 0),
        rec(REC, INT, 1),
        rec(REC, 2, 0),
        rec(LET, 1, 0),
        rec(CHECK, 0, 1),
        rec(CONTRACT, 0, 1),
        rec(9, 0, 0),
    ] {
        book.w(&bytes_of(&[INT, BOOL], &[op(ADD), input(1), last]), 60);
    }
    // Rule 6: one record too few, one too many.
    let full = every_kind();
    let mut few = full[..full.len() - 6].to_vec();
    restate(&mut few);
    book.w(&few, 200);
    let mut many = [&full[..], &full[full.len() - 6..]].concat();
    restate(&mut many);
    book.w(&many, 200);
}

/// Sheets by chance.
pub(super) fn random_listings(book: &mut Book) {
    for round in 0..28 {
        let size = match round % 10 {
            0 => book.dice.range(60, 140),
            _ => book.dice.range(1, 24),
        };
        let draft = match round % 4 {
            0 => right_sheet(&mut book.dice, size),
            1 => loose_sheet(&mut book.dice, size),
            _ => wild_sheet(&mut book.dice, size),
        };
        let more = book.dice.pick(&[0, 0, 1, 7]);
        book.there_and_back(&draft.bytes(), more);
    }
    for size in [511, 512, 512] {
        let draft = wild_sheet(&mut book.dice, size);
        book.there_and_back(&draft.bytes(), 0);
    }
    let deep = bool_chain(&mut book.dice, 200).bytes();
    book.there_and_back(&deep, 0);
}

/// A text with one byte dropped, doubled, changed, or swapped with the next.
fn damaged(dice: &mut Dice, text: &[u8], at: usize, way: usize) -> Vec<u8> {
    let mut damaged = text.to_vec();
    match way {
        0 => {
            damaged.remove(at);
        }
        1 => damaged.insert(at, text[at]),
        2 => {
            while damaged[at] == text[at] {
                damaged[at] = match dice.below(3) {
                    0 => text[at] ^ (1 << dice.below(8)),
                    1 => dice.pick(b" ()-0123456789"),
                    _ => dice.pick(b"abcdefilmnoprtuvxA\t\n\0"),
                };
            }
        }
        _ => damaged.swap(at, (at + 1) % text.len()),
    }
    damaged
}

/// Listings with a damaged byte. Some are listings again, of other sheets.
pub(super) fn damaged_texts(book: &mut Book) {
    let a = listing(&sheet_a().bytes());
    for at in 0..a.len() {
        for way in [at % 2, 2 + at % 2] {
            let text = damaged(&mut book.dice, &a, at, way);
            book.l(&text, 38);
        }
    }
    let numbers = b"sheet bool bool (let 10 (xor i1 (fby -2147483648 (sub v4294967295 -1))))";
    let listings = [
        listing(&sheet_d().bytes()),
        listing(&every_kind()),
        numbers.to_vec(),
    ];
    for (which, listing) in listings.iter().enumerate() {
        for round in 0..20 {
            let at = book.dice.below(listing.len());
            let text = damaged(&mut book.dice, listing, at, (round + which) % 4);
            book.l(&text, 120);
        }
    }
    // Two and more.
    for round in 0..9 {
        let mut text = listings[round % 3].clone();
        for _ in 0..book.dice.range(2, 4) {
            let (at, way) = (book.dice.below(text.len()), book.dice.below(4));
            text = damaged(&mut book.dice, &text, at, way);
        }
        book.l(&text, 120);
    }
}

/// Names with too few and too many operands.
fn operand_counts() -> Vec<String> {
    let mut texts = Vec::new();
    for (name, operands) in [
        ("not", 1),
        ("neg", 1),
        ("eq", 2),
        ("mod", 2),
        ("if", 3),
        ("fby 4", 1),
        ("rec int", 1),
        ("let", 2),
        ("check", 2),
        ("contract", 3),
    ] {
        for count in [operands - 1, operands + 1] {
            texts.push(format!("sheet ({name}{})", " 1".repeat(count)));
        }
    }
    texts
}

/// Texts that are nearly listings, and some that are.
pub(super) fn wrong_texts(book: &mut Book) {
    for text in operand_counts() {
        book.l(text.as_bytes(), 40);
    }
    for text in SPACES.iter().chain(&WORDS).chain(&NUMBERS).chain(&BRACKETS) {
        book.l(text.as_bytes(), 40);
    }
    // Bytes outside plain text.
    for text in [
        &b"sheet 7\xff"[..],
        b"\xef\xbb\xbfsheet 7",
        b"sheet\xa07",
        b"\xf3heet 7",
        b"sheet \xb7",
        b"sheet (not\xa0true)",
        b"sheet (neg 7\xa9",
    ] {
        book.l(text, 40);
    }
}

const SPACES: [&str; 32] = [
    " ",
    "sheet",
    "sheet ",
    "sheet  7",
    " sheet 7",
    "sheet 7 ",
    "sheet 7\n",
    "sheet 7\r\n",
    "sheet\t7",
    "sheet 7\0",
    "sheet7",
    "sheet int",
    "sheet int ",
    "sheet int int",
    "sheet  int i0",
    "sheet int  i0",
    "sheet inti0",
    "sheetint i0",
    "sheet(neg 7)",
    "sheet ( neg 7)",
    "sheet (neg  7)",
    "sheet (neg 7 )",
    "sheet (neg\t7)",
    "sheet (neg 7)\n",
    "sheet (neg 7) ",
    "sheet (add 1  2)",
    "sheet (add (neg 1)2)",
    "sheet (add(neg 1) 2)",
    "sheet (fby  1 2)",
    "sheet (fby 1(neg 2))",
    "sheet (rec int(neg 2))",
    "sheet - 5",
];

const WORDS: [&str; 52] = [
    "7",
    "(neg 7)",
    "int i0",
    "Sheet 7",
    "shee 7",
    "sheets 7",
    "sheet2 7",
    "sheet Int i0",
    "sheet BOOL i0",
    "sheet in i0",
    "sheet real i0",
    "sheet i0 int",
    "sheet 7 int",
    "sheet (ADD 1 2)",
    "sheet (Neg 7)",
    "sheet (nott true)",
    "sheet (pow 1 2)",
    "sheet (+ 1 2)",
    "sheet (- 5)",
    "sheet (var 0)",
    "sheet (op 1 2)",
    "sheet (fbye 1 2)",
    "sheet (1 add 2)",
    "sheet (1 2 add)",
    "sheet True",
    "sheet FALSE",
    "sheet tru",
    "sheet truee",
    "sheet -true",
    "sheet vtrue",
    "sheet int itrue",
    "sheet (true)",
    "sheet (true 1 2)",
    "sheet true 7",
    "sheet (fby 5)",
    "sheet (fby v0 5)",
    "sheet int (fby i0 5)",
    "sheet (fby (neg 1) 5)",
    "sheet (fby int 5)",
    "sheet (fby int 0 5)",
    "sheet (fby True 5)",
    "sheet (fby true 5)",
    "sheet (fby 5 true)",
    "sheet (rec v0)",
    "sheet (rec true v0)",
    "sheet (rec 1 v0)",
    "sheet (rec int bool v0)",
    "sheet (rec bool 5)",
    "sheet (let int 5 v0)",
    "sheet x",
    "sheet v",
    "sheet int i",
];

const NUMBERS: [&str; 54] = [
    "sheet 0",
    "sheet 00",
    "sheet 07",
    "sheet -0",
    "sheet -07",
    "sheet +5",
    "sheet --5",
    "sheet -",
    "sheet 5-",
    "sheet 2147483647",
    "sheet 2147483648",
    "sheet -2147483648",
    "sheet -2147483649",
    "sheet 3000000000",
    "sheet 4294967295",
    "sheet 4294967296",
    "sheet 4294967301",
    "sheet -4294967291",
    "sheet 9999999999",
    "sheet 18446744073709551616",
    "sheet 18446744073709551621",
    "sheet -18446744073709551611",
    "sheet 0000000005",
    "sheet 1e3",
    "sheet 0x7",
    "sheet 5a",
    "sheet 5:",
    "sheet 5/",
    "sheet (neg -5)",
    "sheet (neg -0)",
    "sheet (fby 00 1)",
    "sheet (fby -0 1)",
    "sheet (fby +1 1)",
    "sheet (fby 2147483648 1)",
    "sheet (fby -2147483649 1)",
    "sheet v00",
    "sheet v01",
    "sheet v+1",
    "sheet v-1",
    "sheet v4294967295",
    "sheet v4294967296",
    "sheet v10000000000",
    "sheet v18446744073709551616",
    "sheet v5a",
    "sheet i0",
    "sheet int i1",
    "sheet int bool i1",
    "sheet int bool i2",
    "sheet int i00",
    "sheet int i-0",
    "sheet int i256",
    "sheet int i65536",
    "sheet int i4294967296",
    "sheet int i18446744073709551616",
];

const BRACKETS: [&str; 37] = [
    "sheet (7)",
    "sheet ((7))",
    "sheet (v0)",
    "sheet int (i0)",
    "sheet (add (1) 2)",
    "sheet (add 1 (2))",
    "sheet (fby (0) 1)",
    "sheet (rec (int) 1)",
    "sheet (int) i0",
    "(sheet 7)",
    "sheet (sheet 7)",
    "sheet neg 7",
    "sheet add 1 2",
    "sheet fby 0 1",
    "sheet rec int 1",
    "sheet (add 1 neg 2)",
    "sheet (neg neg 7)",
    "sheet (neg 7",
    "sheet (neg (neg 7)",
    "sheet (add 1 2",
    "sheet add 1 2)",
    "sheet 7)",
    "sheet (neg 7))",
    "sheet ((neg 7))",
    "sheet (add (1 2))",
    "sheet (",
    "sheet )",
    "sheet ()",
    "sheet (neg 7(",
    "sheet [neg 7]",
    "sheet (add 1, 2)",
    "sheet 7 7",
    "sheet 7 (neg 7)",
    "sheet (neg 7) 7",
    "sheet (neg 7)7",
    "sheet (neg 7)(neg 7)",
    "sheet 7 sheet 7",
];
