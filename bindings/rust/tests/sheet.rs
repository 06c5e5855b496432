//! The proof sheet through the bindings: whole, by pages, and where no row fits.

use rilvostam::*;

/// The whole sheet by pages of so many bytes.
fn by_pages(room: usize) -> (String, usize) {
    let (mut sheet, mut pages, mut position, mut out) = (String::new(), 0, 0, vec![0; room]);
    loop {
        let (page, next) = proof_sheet(position, &mut out);
        assert_eq!(next - position, page.lines().count() as u64);
        if page.is_empty() {
            return (sheet, pages);
        }
        sheet.push_str(page);
        pages += 1;
        position = next;
    }
}

#[test]
fn whole_and_by_pages() {
    let (sheet, pages) = by_pages(2_000_000);
    assert_eq!((pages, sheet.len(), sheet.lines().count() as u64), (1, 1_066_671, SHEET_ROWS));
    assert!(sheet.starts_with("零\t0\n一\t1\n") && sheet.ends_with("兆億万千\t1000100011000\n"));
    for room in [4096, 1024, 256] {
        assert_eq!(by_pages(room).0, sheet, "{room}");
    }
    for row in sheet.lines() {
        let (numeral, value) = row.split_once('\t').unwrap();
        assert_eq!(read_field(numeral.as_bytes()).unwrap(), Some(value.parse().unwrap()), "{numeral}");
    }
}

#[test]
fn rows_that_fit() {
    let mut out = [7; 2 * ROW];
    for (position, room, page, next) in [
        (0, 0, "", 0),
        (0, 5, "", 0),
        (0, 6, "零\t0\n", 1),
        (0, 11, "零\t0\n", 1),
        (0, 12, "零\t0\n一\t1\n", 2),
        (15, 27, "兆\t1000000000000\n零零\t0\n", 17),
        (SHEET_ROWS - 1, 26, "", SHEET_ROWS - 1),
        (SHEET_ROWS - 1, 27, "兆億万千\t1000100011000\n", SHEET_ROWS),
        (SHEET_ROWS, 60, "", SHEET_ROWS),
        (u64::MAX, 60, "", u64::MAX),
    ] {
        out.fill(7);
        assert_eq!(proof_sheet(position, &mut out[..room]), (page, next));
        assert!(out[page.len()..].iter().all(|&byte| byte == 7));
    }
}
