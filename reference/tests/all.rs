//! The reference against the documents' examples and against itself.

use reference::eval::{first_cells, history, start, tick};
use reference::examples::{all_examples, sheet_a, sheet_b, sheet_d};
use reference::files::{all_files, counts, joined};
use reference::gen::*;
use reference::listing::{read, read_into, write, write_into};
use reference::order::{check_order, house_order, needs};
use reference::requests::all_requests;
use reference::sheet::{check, read_sheet, Node, Refusal, Sheet, What};
use reference::text::{reply, sheetlist, sheetop, sheetread, sheetrun, Request, UNTOUCHED};
use reference::with_big_stack;

#[test]
fn settled_examples() {
    for (name, differs) in all_examples() {
        assert_eq!(differs, None, "{name}");
    }
}

/// Values found by working the nodes in the given order and nothing else.
fn by_order(sheet: &Sheet, row: &[i32], cells: &[i32], order: &[u16]) -> Vec<i32> {
    let nodes = sheet.nodes();
    let mut values: Vec<Option<i32>> = vec![None; nodes.len()];
    let mut slots: Vec<Option<usize>> = vec![None; nodes.len()];
    for (slot, node) in sheet.delays().iter().enumerate() {
        slots[node.number] = Some(slot);
    }
    for &entry in order {
        let node: &Node = nodes[usize::from(entry)];
        let read = |number: usize| values[number].expect("each node comes after its needs");
        let value = match node.what {
            What::Const { value, .. } => value,
            What::Input { column } => row[column],
            What::Fby { .. } => cells[slots[node.number].expect("a FBY has a slot")],
            What::Rec { .. } => read(node.operands[0].number),
            What::Let | What::Check | What::Contract => read(node.operands[1].number),
            What::Var { binder } => {
                let binder = nodes[binder as usize];
                match binder.what {
                    What::Rec { .. } => read(binder.number),
                    What::Let => read(binder.operands[0].number),
                    _ => read(binder.operands[1].number),
                }
            }
            What::Op { operator } => {
                let operands: Vec<i32> = node.operands.iter().map(|o| read(o.number)).collect();
                reference::eval::apply(operator, &operands)
            }
        };
        values[node.number] = Some(value);
    }
    values.into_iter().flatten().collect()
}

#[test]
fn run_is_start_and_ticks_in_any_right_order() {
    let mut dice = Dice::new(11);
    for round in 0..400 {
        let draft = right_sheet(&mut dice, if round % 20 == 0 { 300 } else { 40 });
        let bytes = draft.bytes();
        let sheet = tree(&draft);
        let columns = draft.types.len();
        let ticks = 6;
        let rows = rows(&mut dice, &draft.types, ticks);
        let answers = history(&sheet, &rows, ticks);
        let mut cells = vec![UNTOUCHED; sheet.delays().len()];
        start(&bytes, &mut cells).expect("Start is right");
        assert_eq!(cells, first_cells(&sheet));
        for t in 0..ticks {
            let order = right_order(&mut dice, &sheet);
            let row = &rows[t * columns..(t + 1) * columns];
            let before = cells.clone();
            let mut values = vec![UNTOUCHED; order.len()];
            let answer = tick(&bytes, row, &mut cells, &order, &mut values);
            assert_eq!(answer, Ok(answers[t]));
            assert_eq!(values, by_order(&sheet, row, &before, &order));
        }
    }
}

#[test]
fn house_order_is_the_least_right_order() {
    let mut dice = Dice::new(12);
    for _ in 0..300 {
        let draft = right_sheet(&mut dice, 30);
        let sheet = tree(&draft);
        let house = house_order(&sheet);
        assert_eq!(check_order(&sheet, &house), Ok(()));
        let other = right_order(&mut dice, &sheet);
        assert_eq!(check_order(&sheet, &other), Ok(()));
        assert!(house <= other);
        assert_eq!(needs(&sheet).len(), house.len());
    }
}

#[test]
fn deep_chains_end() {
    with_big_stack(|| {
        let mut records = vec![op(NEG); 511];
        records.push(constant(INT, 1));
        let deep = Draft::new(&[], &records).bytes();
        assert_eq!(
            check(&deep).err(),
            Some(Refusal {
                number: 7,
                place: 32
            })
        );
        let endless = Draft::new(&[], &vec![plain(CONTRACT); 512]).bytes();
        let out = Some(Refusal {
            number: 6,
            place: 512,
        });
        assert_eq!(check(&endless).err(), out);
    });
}

/// The lines of the lent slices as they were before the request.
fn untouched(request: &Request) -> String {
    fn line<T: ToString>(name: &str, entries: &[T]) -> String {
        let mut words = vec![name.to_string()];
        words.extend(entries.iter().map(T::to_string));
        words.join(" ") + "\n"
    }
    let results = vec![UNTOUCHED; request.results];
    match request.letter {
        b'h' => line("order", &request.order),
        b's' => line("cells", &request.cells),
        b't' => line("cells", &request.cells) + &line("values", &results),
        b'r' => line("outputs", &results),
        b'w' if request.results > 0 => format!("text {}\n", "#".repeat(request.results)),
        b'w' => "text\n".to_string(),
        b'l' => line("bytes", &vec!["aa"; request.results]),
        _ => String::new(),
    }
}

#[test]
fn a_refusal_changes_nothing() {
    for request in all_requests() {
        let before = untouched(&request);
        let text = reply(request);
        if text.starts_with("refused") {
            let (_, lent) = text.split_once('\n').expect("a line ends");
            assert_eq!(lent, before);
        }
    }
}

#[test]
fn the_requests_cover_every_number() {
    let requests = all_requests();
    assert!((4000..=5000).contains(&requests.len()));
    let counts = counts(&requests);
    for number in 0..=16 {
        let all: usize = counts
            .iter()
            .filter(|((found, _), _)| *found == number)
            .map(|(_, count)| count)
            .sum();
        assert!(all >= 30, "number {number} comes {all} times");
    }
}

#[test]
fn the_accepted_ticks_cover_every_kind_and_operator() {
    let mut kinds = [0; 9];
    let mut operators = [0; 14];
    for request in all_requests() {
        if request.letter != b't' || !reply(request.clone()).starts_with("ok") {
            continue;
        }
        let columns = usize::from(request.sheet[3]);
        for record in request.sheet[4 + columns..].chunks(6) {
            kinds[usize::from(record[0])] += 1;
            if record[0] == OP {
                operators[usize::from(record[1])] += 1;
            }
        }
    }
    assert!(kinds.iter().all(|&count| count >= 50), "{kinds:?}");
    assert!(operators.iter().all(|&count| count >= 50), "{operators:?}");
}

#[test]
fn files_are_the_same_each_time_and_small() {
    let files = all_files();
    assert_eq!(files, all_files());
    let size = |name: &str| {
        let file = files.iter().find(|(known, _)| known == name);
        file.expect("the file is there").1.len()
    };
    assert!(size("sheetop.in") < 2_500_000);
    assert!(size("sheetop.out") < 1_500_000);
    for (name, contents) in &files {
        if name.starts_with("sheetop-bad") && name.ends_with(".out") && !contents.is_empty() {
            assert!(contents.ends_with(b"bad request\n"), "{name}");
        }
    }
}

#[test]
fn sheetop_reads_back_what_the_requests_write() {
    let requests = all_requests();
    let one_by_one: String = requests.iter().cloned().map(reply).collect();
    assert_eq!(sheetop(&joined(&requests)), one_by_one);
}

#[test]
fn sheetrun_limits() {
    assert_eq!(sheetrun(&[]), "refused 1 0\n");
    assert_eq!(sheetrun(&vec![0; 32769]), "refused 1 0\n");
    let seven = [0, 10, 1, 0, 0, 1, 0, 0, 0, 7];
    assert_eq!(sheetrun(&seven), "ok 1 0 0 int\n0 7 pass\n");
    assert_eq!(sheetrun(&[&seven[..], &[0]].concat()), "refused 12 1\n");
    let no_rows = Draft::new(&[BOOL], &[input(0)]).bytes();
    assert_eq!(sheetrun(&no_rows), "ok 1 1 0 bool\n");
    let rows = |count: usize| [no_rows.clone(), vec![0; 4 * count]].concat();
    assert_eq!(sheetrun(&rows(257)), "refused 12 5\n");
    assert_eq!(sheetrun(&rows(256)).lines().count(), 257);
    // Not whole rows comes before too many rows.
    assert_eq!(sheetrun(&[rows(300), vec![0]].concat()), "refused 12 1\n");
}

#[test]
fn listings_of_the_examples() {
    let listings = [
        (sheet_a(), "sheet int (rec int (add (fby 0 v0) i0))"),
        (
            sheet_b(),
            "sheet (rec int (fby 0 (rec int (add (fby 1 v2) v0))))",
        ),
        (
            sheet_d(),
            "sheet int (contract (le 0 i0) (sub i0 1) (le 0 v0))",
        ),
        (Draft::new(&[], &[constant(INT, 7)]), "sheet 7"),
        (
            Draft::new(&[BOOL], &[constant(INT, i32::MIN)]),
            "sheet bool -2147483648",
        ),
        (
            Draft::new(&[], &[op(NEG), constant(INT, 5)]),
            "sheet (neg 5)",
        ),
        (
            Draft::new(&[], &[fby(BOOL, 1), var(u32::MAX)]),
            "sheet (fby true v4294967295)",
        ),
    ];
    for (draft, text) in listings {
        assert_eq!(write(&draft.bytes()), Ok(text.as_bytes().to_vec()));
        assert_eq!(read(text.as_bytes()), Ok(draft.bytes()));
    }
}

#[test]
fn reading_undoes_writing() {
    let mut dice = Dice::new(13);
    for round in 0..2000 {
        let size = if round % 50 == 0 {
            500
        } else {
            dice.range(1, 60)
        };
        let bytes = match round % 3 {
            0 => right_sheet(&mut dice, size).bytes(),
            1 => loose_sheet(&mut dice, size).bytes(),
            _ => wild_sheet(&mut dice, size).bytes(),
        };
        let text = write(&bytes).expect("the sheet keeps rules 1 to 6");
        assert_eq!(read(&text), Ok(bytes));
    }
}

#[test]
fn the_longest_listing() {
    let records = [vec![fby(INT, i32::MIN); 511], vec![constant(INT, i32::MIN)]].concat();
    let longest = Draft::new(&[BOOL; 16], &records).bytes();
    assert_eq!(write(&longest).map(|text| text.len()), Ok(9295));
}

const NO_LISTING: Refusal = Refusal {
    number: 16,
    place: 0,
};

/// The text is refused, or it is the listing of the sheet that was read.
fn is_refused_or_the_listing(text: &[u8]) -> bool {
    match read(text) {
        Err(refusal) => {
            assert_eq!(refusal, NO_LISTING);
            true
        }
        Ok(bytes) => {
            assert!(read_sheet(&bytes).is_ok());
            assert_eq!(write(&bytes).as_deref(), Ok(text));
            false
        }
    }
}

#[test]
fn writing_undoes_reading() {
    let mut refused = 0;
    let mut others = 0;
    for request in all_requests() {
        if request.letter == b'l' {
            refused += usize::from(is_refused_or_the_listing(&request.sheet));
        }
    }
    // Every byte in the place of every byte, left out, and put in.
    for draft in [sheet_a(), sheet_b(), sheet_d()] {
        let text = write(&draft.bytes()).expect("the sheet is right");
        for at in 0..text.len() {
            for byte in 0..=255 {
                let changed = [&text[..at], &[byte], &text[at + 1..]].concat();
                let longer = [&text[..at], &[byte], &text[at..]].concat();
                others += usize::from(!is_refused_or_the_listing(&changed));
                others += usize::from(!is_refused_or_the_listing(&longer));
            }
            is_refused_or_the_listing(&[&text[..at], &text[at + 1..]].concat());
            is_refused_or_the_listing(&text[..at]);
        }
    }
    assert!(refused > 300, "{refused} texts are refused");
    assert!(others > 100, "{others} are listings of other sheets");
}

#[test]
fn rooms_for_listings() {
    let bytes = sheet_a().bytes();
    let text = write(&bytes).expect("A is right");
    let short = Err(Refusal {
        number: 12,
        place: 7,
    });
    let mut room = vec![35; 60];
    assert_eq!(write_into(&bytes, &mut room[..text.len() - 1]), short);
    assert_eq!(room, [35; 60]);
    assert_eq!(write_into(&bytes, &mut room), Ok(text.len()));
    assert_eq!(room, [&text[..], &[35; 21]].concat());
    let mut room = vec![170; 60];
    assert_eq!(read_into(&text, &mut room[..bytes.len() - 1]), short);
    assert_eq!(read_into(&text[1..], &mut []), Err(NO_LISTING));
    assert_eq!(room, [170; 60]);
    assert_eq!(read_into(&text, &mut room), Ok(bytes.len()));
    assert_eq!(room, [&bytes[..], &[170; 25]].concat());
}

#[test]
fn sheetlist_and_sheetread() {
    let bytes = sheet_a().bytes();
    let line = sheetlist(&bytes);
    assert_eq!(line, b"sheet int (rec int (add (fby 0 v0) i0))\n");
    assert_eq!(sheetread(&line), bytes);
    assert_eq!(sheetread(&line[..line.len() - 1]), bytes);
    assert_eq!(sheetread(&[&line[..], b"\n"].concat()), b"refused 16 0\n");
    assert_eq!(sheetread(b""), b"refused 16 0\n");
    assert_eq!(sheetlist(b""), b"refused 1 0\n");
    assert_eq!(sheetlist(&[0, 4, 1, 0]), b"refused 4 0\n");
}
