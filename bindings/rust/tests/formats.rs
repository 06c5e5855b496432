//! docs/FORMATS.md: its dumps are what the library reads and writes, and its refusals are the library's.

use rilvostam::*;

const FORMATS: &str = include_str!("../../../docs/FORMATS.md");

/// The bytes of each fenced dump.
fn dumps() -> Vec<Vec<u8>> {
    let bytes = |text: &str| text.split_whitespace().map(|byte| u8::from_str_radix(byte, 16).unwrap()).collect();
    FORMATS.split("```").skip(1).step_by(2).map(bytes).collect()
}

/// The cells of the rows of a table that have so many.
fn rows(columns: usize) -> impl Iterator<Item = Vec<&'static str>> {
    FORMATS.lines().filter_map(move |line| {
        let cells: Vec<&str> = line.strip_prefix('|')?.strip_suffix('|')?.split('|').map(str::trim).collect();
        (cells.len() == columns).then_some(cells)
    })
}

#[test]
fn dumps_are_table_listing_and_page() {
    let [table, listing, page] = &dumps()[..] else { panic!("three dumps") };
    let (mut work, mut out) = (vec![0; WORK], vec![0; ENTRY]);
    assert_eq!(add_numbers_to_lines_into(b"x\nx\xFF", table, &mut work, &mut out), Ok(Page { len: page.len(), next: 4 }));
    assert_eq!(&out[..page.len()], page);
    assert_eq!(check_table(table), Ok(1));
    assert_eq!(&add_numbers("-五", table, NO_EDGES).unwrap(), listing);
    let (first, next) = edge_at(listing, 2).unwrap();
    assert_eq!((first.txt, next), ("5", 44));
    let (second, end) = edge_at(listing, next).unwrap();
    assert_eq!((second.txt, end), ("-5", 63));
    assert_eq!(edge_at(listing, end).map_err(|r| (r.number(), r.at)), Err((6, 63)));
}

/// The explained rows are the dumps, byte for byte and offset by offset.
#[test]
fn explanations_cover_the_dumps() {
    let mut dumps = dumps().into_iter();
    let (mut dump, mut at) = (Vec::new(), 0);
    for cells in rows(3) {
        let Ok(offset) = cells[0].parse::<usize>() else { continue };
        if offset == 0 {
            assert_eq!(at, dump.len());
            (dump, at) = (dumps.next().unwrap(), 0);
        }
        let bytes: Vec<u8> = cells[1].split(' ').map(|byte| u8::from_str_radix(byte, 16).unwrap()).collect();
        assert_eq!((offset, &bytes[..]), (at, &dump[at..at + bytes.len()]));
        at += bytes.len();
    }
    assert_eq!((at, dumps.next()), (dump.len(), None));
}

/// An active edge over the first place with a fraction.
fn share(numerator: u64, denominator: u64) -> Vec<u8> {
    [&[0x85, 0, 0, 0, 1, 0, 0, 0, 0, 0, 0, 0][..], &numerator.to_le_bytes(), &denominator.to_le_bytes()].concat()
}

/// What the library answers to the example of each refusal.
fn example(number: u32) -> Refusal {
    let (mut work, mut out) = (vec![0; WORK], vec![0; OUT]);
    let plain = plain_table();
    let mut call = |line: &[u8], table: &[u8], edges: &[u8], work_len: usize| add_numbers_into(line, table, edges, &mut work[..work_len], &mut out).unwrap_err();
    match number {
        1 => call(b"", &plain, NO_EDGES, 65_535),
        2 => call(b"\x78\xFF", &plain, NO_EDGES, WORK),
        3 => call(&[b'x'; 257], &plain, NO_EDGES, WORK),
        4 => call(b"", &[0, 0], NO_EDGES, WORK),
        5 => call(b"", &[0, 0, 1, 0, 0, 0, 0], NO_EDGES, WORK),
        6 => call(b"", &plain, &[1, 0], WORK),
        7 => call("九".repeat(17).as_bytes(), &plain, NO_EDGES, WORK),
        8 => write_number(5, &mut [0; 2]).unwrap_err(),
        9 => right_neighbor(b"x", &[0, 0], 2, false).unwrap_err(),
        10 => write_number(9_007_199_254_740_992, &mut [0; NUMERAL]).unwrap_err(),
        11 => pool_shares(b"x", &[&[2, 0][..], &share(9_007_199_254_740_991, 1), &share(1, 1)].concat()).unwrap_err(),
        12 => worn_character("一二".as_bytes(), &mut [0; WORN]).unwrap_err(),
        13 => worn_character("十十□".as_bytes(), &mut [0; WORN]).unwrap_err(),
        _ => panic!("no example of refusal {number} here"),
    }
}

#[test]
fn refusals_are_the_librarys() {
    let told: Vec<Vec<&str>> = rows(5).filter(|cells| cells[0].parse::<u32>().is_ok()).collect();
    assert_eq!(told.len(), 13);
    for (cells, number) in told.iter().zip(1..=13) {
        let refusal = example(number);
        assert_eq!((cells[0], cells[1], cells[4]), (&*refusal.number().to_string(), refusal.name(), &*refusal.at.to_string()));
        assert_eq!(refusal.number(), number);
    }
}
