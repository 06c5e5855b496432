//! Many lines with one table: each answer is that of the line alone, whatever the page.

use rilvostam::*;

/// What `add_numbers` answers for each line.
fn one_by_one(lines: &[u8]) -> Vec<Result<Vec<u8>, Refusal>> {
    let table = plain_table();
    let text = lines.strip_suffix(b"\n").unwrap_or(lines);
    let (mut work, mut out) = (vec![0; WORK], vec![0; OUT]);
    let pieces: Vec<&[u8]> = if lines.is_empty() { Vec::new() } else { text.split(|b| *b == b'\n').collect() };
    pieces.iter().map(|line| add_numbers_into(line, &table, NO_EDGES, &mut work, &mut out).map(|n| out[..n].to_vec())).collect()
}

fn at_once(lines: &[u8]) -> Vec<Result<Vec<u8>, Refusal>> {
    add_numbers_to_lines(lines, &plain_table()).unwrap().collect()
}

#[test]
fn line_by_line() {
    let long = "x".repeat(257) + "\n五";
    let nines = "九".repeat(17) + "\n一万五\n";
    let registers = ["", "\n", "\n\n", "a", "a\nb", "a\n", "墓三号\n一万五\n無\n", "百分之五\r\n三分之一", &long, &nines];
    for register in registers {
        assert_eq!(at_once(register.as_bytes()), one_by_one(register.as_bytes()), "{register:?}");
    }
    assert_eq!(at_once(b"").len(), 0);
    assert_eq!(at_once(b"\n"), [Ok(NO_EDGES.to_vec())]);
    let refused: Vec<_> = at_once(b"x\xFF\n\xE4\nx").iter().map(|a| a.as_ref().err().map(|r| (r.number(), r.at))).collect();
    assert_eq!(refused, [Some((2, 1)), Some((2, 0)), None]);
}

/// Over several pages: some 3 MB of entries.
#[test]
fn pages_in_a_row() {
    let register: String = (0..20_000).map(|i| format!("墓{}号\n", ["三", "一万五", "", "二百五十六", "x"][i % 5])).collect();
    let alone = one_by_one(&register.as_bytes()[..register.len() / 4]);
    let all = at_once(register.as_bytes());
    assert_eq!((all.len(), &all[..alone.len() - 1]), (20_000, &alone[..alone.len() - 1]));
    let bytes: usize = all.iter().map(|a| a.as_ref().unwrap().len() + 12).sum();
    assert!(bytes > 2 << 20, "{bytes}");
}

#[test]
fn pages_that_are_lent() {
    let (table, lines) = (plain_table(), "墓三号\n\n一万五".as_bytes());
    let (mut work, mut out) = (vec![0; WORK], vec![7; ENTRY]);
    let all = one_by_one(lines);
    let longest = all.iter().map(|a| a.as_ref().unwrap().len()).max().unwrap() + 12;
    for room in [longest, longest + 1, 2 * longest, ENTRY] {
        let (mut behind, mut found) = (0, Vec::new());
        while behind < lines.len() {
            let page = add_numbers_to_lines_into(&lines[behind..], &table, &mut work, &mut out[..room]).unwrap();
            found.extend(entries(&out[..page.len]).map(|a| a.map(<[u8]>::to_vec)));
            assert!(page.next > 0);
            behind += page.next;
        }
        assert_eq!(found, all, "{room}");
    }
    assert_eq!(add_numbers_to_lines_into(lines, &table, &mut work, &mut out[..13]), Ok(Page { len: 0, next: 0 }));
}

#[test]
fn refusals_of_the_whole() {
    let (table, mut out) = (plain_table(), vec![7; ENTRY]);
    let refused = add_numbers_to_lines(b"x", &table[..table.len() - 1]).map(|_| ()).unwrap_err();
    assert_eq!((refused.number(), Some(refused.at)), (4, check_table(&table[..table.len() - 1]).err().map(|r| r.at)));
    assert_eq!(add_numbers_to_lines(b"", &[0, 0]).map(|_| ()).unwrap_err().number(), 4);
    let refused = add_numbers_to_lines_into(b"x", &table, &mut [0; 9], &mut out).unwrap_err();
    assert_eq!((refused.number(), refused.at, out), (1, 0, vec![7; ENTRY]));
}

#[test]
fn entries_that_are_cut_off() {
    let page = [&[0; 4][..], &2_u64.to_le_bytes(), NO_EDGES, &7_u32.to_le_bytes(), &3_u64.to_le_bytes()].concat();
    let count = |len: usize| entries(&page[..len]).count();
    assert_eq!((count(0), count(13), count(14), count(25), count(26)), (0, 0, 1, 1, 2));
    let refused = entries(&page).nth(1).unwrap().unwrap_err();
    assert_eq!((refused.number(), refused.at), (7, 3));
    assert_eq!(entries(&[&[0; 4][..], &[255; 8]].concat()).count(), 0);
}
