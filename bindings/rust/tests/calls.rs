//! The library through the bindings: 01's example and marked lines, each refusal, the reading calls.

use rilvostam::*;

/// The plain table by hand, record by record; `plain_table` gives the same.
fn plain() -> Vec<u8> {
    let mut records: Vec<(char, &str, u64, u64)> = "零一二三四五六七八九".chars().zip(0..).map(|(c, v)| (c, "digit", v, 1)).collect();
    records.extend([('十', "base", 10, 10), ('百', "base", 100, 100), ('千', "base", 1000, 1000)]);
    records.extend([('万', 10_000), ('億', 100_000_000), ('兆', 1_000_000_000_000)].map(|(c, v)| (c, "large", v, v)));
    records.sort();
    let string = |s: &str| [&[s.len() as u8], s.as_bytes()].concat();
    let mut table = 16_u16.to_le_bytes().to_vec();
    for mark in ["百分之", "分之", "+", "-"] {
        table.push(1);
        table.extend(string(mark));
    }
    for (c, kind, value, base) in records {
        table.extend(u32::from(c).to_le_bytes());
        table.push(if kind == "large" { 0b110_1011 } else { 0b10_1011 });
        table.extend(string(kind));
        table.extend(string(&value.to_string()));
        table.extend(value.to_le_bytes());
        table.extend(base.to_le_bytes());
        table.extend(string("CJK"));
    }
    table
}

fn listing(line: &str) -> Vec<u8> {
    add_numbers(line, &plain(), NO_EDGES).unwrap()
}

fn rows(line: &str) -> Vec<String> {
    edges(&listing(line))
        .map(|e| format!("{} {} {} {} {}", e.start, e.end, e.kind, e.txt, e.num.map_or('-', |n| if n.active { '1' } else { '0' })))
        .collect()
}

#[test]
fn plain_by_hand() {
    assert_eq!(plain(), plain_table());
}

#[test]
fn example() {
    assert_eq!(rows("百分之五"), ["0 1 base 100 0", "3 4 digit 5 0", "0 4 percentage 5% -"]);
}

#[test]
fn marked_lines() {
    for (line, value) in [("一百零五", 105.0), ("二千五", 2005.0), ("一万五", 15000.0), ("億万", 100_010_000.0), ("零万五", 5000.0)] {
        let listing = listing(line);
        let whole = edges(&listing).find(|e| e.start == 0 && e.end == line.chars().count()).unwrap();
        assert_eq!(whole.num.unwrap().value, Some(value), "{line}");
    }
}

#[test]
fn refusals() {
    let table = plain();
    let (mut work, mut out) = (vec![0; WORK], vec![7; 64]);
    let mut call = |line: &[u8], table: &[u8], edges: &[u8], work_len: usize| {
        let answer = add_numbers_into(line, table, edges, &mut work[..work_len], &mut out);
        assert!(answer.is_ok() || out.iter().all(|b| *b == 7), "output of a refused call");
        answer.unwrap_err()
    };
    let refusal = |number, at| move |r: Refusal| assert_eq!((r.number(), r.at), (number, at), "{r}");
    refusal(1, 0)(call(b"", &table, NO_EDGES, WORK - 1));
    refusal(2, 1)(call(b"x\xFF", &table, NO_EDGES, WORK));
    refusal(3, 256)(call(&[b'x'; 257], &table, NO_EDGES, WORK));
    refusal(4, 2)(call(b"", &[0, 0], NO_EDGES, WORK));
    refusal(5, 3)(call(b"", &[0, 0, 1, 0, 0, 0, 0], NO_EDGES, WORK));
    refusal(6, 2)(call(b"", &table, &[1, 0], WORK));
    refusal(7, 0)(call("九".repeat(17).as_bytes(), &table, NO_EDGES, WORK));
    refusal(8, 0)(call("一万五".as_bytes(), &table, NO_EDGES, WORK));
    refusal(9, 0)(right_neighbor(b"x", NO_EDGES, 2, false).unwrap_err());
    let words = "refused 7 ABOVE_TOP: a number of the line is above 9,007,199,254,740,991 (place where the number starts: 3)";
    assert_eq!(Refusal { cause: Cause::AboveTop, at: 3 }.to_string(), words);
}

/// A listing of regular edges: start, end, type and txt.
fn regular(edges: &[(u16, u16, &str, &str)]) -> Vec<u8> {
    let mut listing = (edges.len() as u16).to_le_bytes().to_vec();
    for (start, end, kind, txt) in edges {
        listing.extend([0, *start, *end].map(u16::to_le_bytes).concat());
        for text in [kind, txt] {
            listing.extend((text.len() as u16).to_le_bytes());
            listing.extend(text.as_bytes());
        }
    }
    listing
}

#[test]
fn first_of_its_class() {
    let listing = regular(&[(0, 1, "a", "x"), (0, 1, "rom", "y"), (0, 1, "num", "z"), (0, 1, "a", "w")]);
    let second = edges(&listing).nth(1).unwrap().offset;
    assert_eq!(best_edge(b"l", &listing, 0, 1, false).unwrap(), Some(second));
    assert_eq!(right_neighbor(b"l", &listing, 0, true).unwrap(), Some(second));
    assert_eq!(left_neighbor(b"l", &listing, 1, false).unwrap(), Some(second));
    assert_eq!(shown_text(b"l", &listing, 0).unwrap(), b"y");
    assert_eq!(edges(&path(b"l", &listing, 0, 1, false).unwrap()).map(|e| e.txt).collect::<Vec<_>>(), ["y"]);
}

#[test]
fn without_singles() {
    let table = plain_table();
    let active = |line: &str| -> Vec<Option<bool>> {
        let listing = add_numbers_without_singles(line, &table, NO_EDGES).unwrap();
        edges(&listing).map(|e| e.num.map(|n| n.active)).collect()
    };
    // 万 alone may not stand, 千 may, and so may 五万; the second 万 of 万万 has a copy behind a separator.
    assert_eq!(active("万"), [Some(false)]);
    assert_eq!(active("千"), [Some(true)]);
    assert_eq!(active("五万")[2], Some(true));
    assert_eq!(active("万万"), [Some(false), Some(false), Some(false)]);
    // The first call's bytes but for bit 7 of the map.
    let (first, second) = (listing("万"), add_numbers_without_singles("万", &table, NO_EDGES).unwrap());
    let differing: Vec<_> = first.iter().zip(&second).filter(|(a, b)| a != b).map(|(a, b)| a ^ b).collect();
    assert_eq!((first.len(), differing), (second.len(), vec![128]));
    let refused = add_numbers_without_singles(&"九".repeat(17), &table, NO_EDGES).unwrap_err();
    assert_eq!((refused.number(), refused.at), (7, 0));
}

#[test]
fn with_decimals() {
    let table = plain_table();
    let numbers = |line: &str| -> Vec<(String, Option<f64>, Option<u8>)> {
        let listing = add_numbers_with_decimals(line, &table, NO_EDGES).unwrap();
        edges(&listing).filter_map(|e| e.num.map(|n| (e.txt.to_string(), n.value, n.decimals))).collect()
    };
    // The digits alone, then D1's edge over them, with the point in its txt.
    assert_eq!(numbers("一.五"), [("1".to_string(), Some(1.0), None), ("5".to_string(), Some(5.0), None), ("1.5".to_string(), Some(1.5), Some(1))]);
    // 二.五千 is 2500, without decimals; 一.二三十 stays two edges, as 12.3 is not whole.
    assert!(numbers("二.五千").contains(&("2500".to_string(), Some(2500.0), None)));
    assert!(numbers("一.二三十").iter().all(|n| n.1 < Some(12.0)));
    // The first call joins nothing across a point, and without one the bytes are the same.
    assert_eq!(edges(&listing("一.五")).count(), 2);
    assert_eq!(add_numbers_with_decimals("一万五", &table, NO_EDGES).unwrap(), listing("一万五"));
    // A sixteenth decimal stays outside; the digits of one number are at most TOP, the point left out.
    assert_eq!(numbers(&format!("零.{}", "一".repeat(16))).iter().filter_map(|n| n.2).collect::<Vec<_>>(), [15]);
    assert_eq!(add_numbers_with_decimals("九零零七一九九二五四七四零九九.一", &table, NO_EDGES).map(|_| ()), Ok(()));
    let refused = add_numbers_with_decimals("九零零七一九九二五四七四零九九.二", &table, NO_EDGES).unwrap_err();
    assert_eq!((refused.number(), refused.at), (7, 0));
}

#[test]
fn nearest() {
    let line = "墓三号x二十".as_bytes();
    let listing = listing("墓三号x二十");
    let number = |place| nearest_number(line, &listing, place).unwrap().map(|at| edges(&listing).find(|e| e.offset == at).unwrap().txt);
    // 三 stands from place 1 to 2, 二十 from 4 to 6: at 3 both are one away, and the earlier start wins.
    assert_eq!([0, 1, 2, 3, 4, 5, 6].map(number), [Some("3"), Some("3"), Some("3"), Some("3"), Some("20"), Some("20"), Some("20")]);
    assert_eq!(nearest_number(b"x", NO_EDGES, 1).unwrap(), None);
    let refused = nearest_number(line, &listing, 7).unwrap_err();
    assert_eq!((refused.number(), refused.at), (9, 0));
    assert_eq!(nearest_number(b"x", &[1, 0], 7).unwrap_err().number(), 6);
}

#[test]
fn reading() {
    let line = "x一万五".as_bytes();
    let listing = listing("x一万五");
    let at = right_neighbor(line, &listing, 1, false).unwrap().unwrap();
    let edge = edges(&listing).find(|e| e.offset == at).unwrap();
    assert_eq!((edge.start, edge.end, edge.txt), (1, 4, "15000"));
    assert_eq!(left_neighbor(line, &listing, 4, false).unwrap(), Some(at));
    assert_eq!(best_edge(line, &listing, 1, 4, false).unwrap(), Some(at));
    assert_eq!(best_edge(line, &listing, 1, 4, true).unwrap(), None);
    assert_eq!(right_neighbor(line, &listing, 0, false).unwrap(), None);
    assert_eq!(shown_text(line, &listing, 0).unwrap(), b"x");
    assert_eq!(shown_text(line, &listing, 1).unwrap(), b"15000");
    let path = path(line, &listing, 0, 4, false).unwrap();
    assert_eq!(edges(&path).map(|e| e.txt).collect::<Vec<_>>(), ["15000"]);
}

#[test]
fn numerals() {
    let mut out = [7; NUMERAL];
    for (number, numeral) in [(0, "零"), (10, "一十"), (10_005, "一万零五"), (10_010_000, "一千零一万"), (100_000_001, "一億零一")] {
        assert_eq!(write_number(number, &mut out).unwrap(), numeral);
    }
    let top = (1 << 53) - 1;
    assert_eq!(write_number(top, &mut out[..81]).unwrap(), "九千零七兆一千九百九十二億五千四百七十四万零九百九十一");
    let mut out = [7; 80];
    for (number, room, refusal) in [(top, 80, 8), (0, 2, 8), (top + 1, 80, 10), (u64::MAX, 0, 10)] {
        let refused = write_number(number, &mut out[..room]).unwrap_err();
        assert_eq!((refused.number(), refused.at), (refusal, 0));
    }
    assert_eq!(out, [7; 80]);
}

/// An active edge over the first place with a fraction.
fn share(numerator: u64, denominator: u64) -> Vec<u8> {
    let mut edge = vec![0x85, 0, 0, 0, 1, 0, 0, 0, 0, 0, 0, 0];
    edge.extend(numerator.to_le_bytes());
    edge.extend(denominator.to_le_bytes());
    edge
}

#[test]
fn shares() {
    for (line, sum) in [("三分之一x六分之一", (1, 2)), ("三分之一", (1, 3)), ("五", (0, 1)), ("", (0, 1))] {
        assert_eq!(pool_shares(line.as_bytes(), &listing(line)).unwrap(), sum, "{line}");
    }
    const TOP: u64 = (1 << 53) - 1;
    let pool = |shares: &[(u64, u64)]| {
        let edges: Vec<u8> = shares.iter().flat_map(|&(n, d)| share(n, d)).collect();
        pool_shares(b"x", &[&(shares.len() as u16).to_le_bytes()[..], &edges].concat())
    };
    assert_eq!(pool(&[(2, 4), (0, 7)]).unwrap(), (1, 2));
    assert_eq!(pool(&[(1, TOP), (1, TOP)]).unwrap(), (2, TOP));
    assert_eq!(pool(&[(1, 2), (1, 2), (TOP - 1, 1)]).unwrap(), (TOP, 1));
    let refusal = |number, at, r: Refusal| assert_eq!((r.number(), r.at), (number, at), "{r}");
    refusal(11, 1, pool(&[(TOP - 1, 1), (1, 2), (1, 2)]).unwrap_err());
    refusal(6, 58, pool(&[(TOP, 1), (1, 1), (1, 0)]).unwrap_err());
    refusal(2, 0, pool_shares(b"\xFF", NO_EDGES).unwrap_err());
    refusal(3, 256, pool_shares(&[b'x'; 257], NO_EDGES).unwrap_err());
}

#[test]
fn fields() {
    for (line, value) in [("一万五", Some(15_000)), ("一万零五", Some(10_005)), ("百零十", Some(110)), ("一百一百", None), ("", None), ("五x", None)] {
        assert_eq!(read_field(line.as_bytes()).unwrap(), value, "{line}");
    }
    let nines = "九".repeat(257);
    assert_eq!(read_field(format!("十十{}", &nines[..51]).as_bytes()).unwrap(), None);
    for (line, number, at) in [(&nines.as_bytes()[..768], 7, 0), (nines.as_bytes(), 3, 768), (b"\xE4\xB8\x80\xFF", 2, 3)] {
        let refused = read_field(line).unwrap_err();
        assert_eq!((refused.number(), refused.at), (number, at));
    }
    let mut out = [0; NUMERAL];
    for number in [0, 10, 10_005, 100_000_001, (1 << 53) - 1] {
        assert_eq!(read_field(write_number(number, &mut out).unwrap().as_bytes()).unwrap(), Some(number));
    }
}

/// An edge with every field over the first two places, and one with none behind it.
const TWO: &[u8] = b"\x02\0\xff\x03\0\0\x02\0\x01\0t\x02\0xy\x01\0o\0\0\0\0\0\0\x14\x40\x01\0\0\0\0\0\0\0\x02\0\0\0\0\0\0\0\x09\0\0\0\0\0\0\0\0\0\0\0\0\0\xe0\x3f\x01\0c\x01\0v\x0f\0\0\0\0\x01\0\0\0\0\0";

#[test]
fn every_field() {
    let (edge, next) = edge_at(TWO, 2).unwrap();
    let num = NumData {
        orig_txt: "o",
        value: Some(5.0),
        fraction: Some((1, 2)),
        base: Some(9),
        base_multiplier: Some(0.5),
        script: Some("c"),
        large_power: true,
        active: true,
        value_s: Some("v"),
        decimals: Some(15),
    };
    assert_eq!(edge, Edge { offset: 2, start: 0, end: 2, kind: "t", txt: "xy", num: Some(num) });
    assert_eq!(edge_at(TWO, next).unwrap(), (Edge { offset: next, start: 0, end: 1, kind: "", txt: "", num: None }, TWO.len()));
    let refused = |listing: &[u8], at: usize| edge_at(listing, at).map_err(|r| (r.cause, r.at)).unwrap_err();
    // Every way to cut the edges off, offsets past the end, and a text that is not UTF-8.
    for len in 0..TWO.len() {
        assert_eq!(refused(&TWO[..len], if len < next { 2 } else { next }), (Cause::BadListing, if len < next { 2 } else { next as u64 }));
        assert_eq!(edges(&TWO[..len]).count(), usize::from(next <= len));
    }
    assert_eq!(refused(TWO, TWO.len()), (Cause::BadListing, TWO.len() as u64));
    assert_eq!(refused(TWO, usize::MAX), (Cause::BadListing, u64::MAX));
    assert_eq!(refused(b"\x01\0\0\0\0\0\x01\0\x01\0\xff\0\0", 2), (Cause::BadListing, 2));
}

#[test]
fn which_numbers() {
    let which = |line: &str| match which_number(line, &plain_table()).unwrap() {
        Which::Whole(n) => format!("whole {}", n.txt),
        Which::Parts(numbers) => numbers.iter().map(|n| format!("{} {} {},", n.start, n.end, n.txt)).collect(),
    };
    for (line, answer) in [
        ("一万五", "whole 15000"),
        ("三分之一", "whole 1/3"),
        ("零", "whole 0"),
        ("墓三号x二十", "4 6 20,1 2 3,4 5 2,5 6 \u{b7}10,"),
        ("一百一百", "0 2 100,2 4 \u{b7}100,0 1 1,1 2 \u{b7}100,2 3 \u{b7}1,3 4 \u{b7}100,"),
        ("x二分之一分之一", "1 5 1/2,4 8 1/1,"),
        ("百分之五", ""),
        ("-五", "1 2 5,"),
        ("x", ""),
        ("", ""),
    ] {
        assert_eq!(which(line), answer, "{line}");
    }
    assert_eq!(which_number("九九九九九九九九九九九九九九九九九", &plain_table()).unwrap_err().number(), 7);
}

#[test]
fn weights_of_digits() {
    for (line, expected) in [
        ("一万五", &[10_000, 1_000][..]),
        ("一万零五", &[10_000, 1]),
        ("二百万五", &[1_000_000, 1_000]),
        ("一二百", &[1_000, 100]),
        ("百零十", &[]),
        ("一百一百", &[]),
        ("", &[]),
        ("五x", &[]),
    ] {
        assert_eq!(weights(line.as_bytes()).unwrap(), expected, "{line}");
    }
    // the wrong digit 七 for 五 moves the value by two weights
    assert_eq!(read_field("一万七".as_bytes()).unwrap(), read_field("一万五".as_bytes()).unwrap().map(|value| value + 2 * 1_000));
    let zeros = format!("{}七", "零".repeat(255));
    assert_eq!(weights(zeros.as_bytes()).unwrap(), [1]);
    let nines = "九".repeat(257);
    let mut out = [7; 16];
    for (line, room, number, at) in [
        (&nines.as_bytes()[..768], 0, 7, 0),
        (nines.as_bytes(), 0, 3, 768),
        (b"\xE4\xB8\x80\xFF", 0, 2, 3),
        ("一万五".as_bytes(), 15, 8, 0),
    ] {
        let refused = weights_into(line, &mut out[..room]).unwrap_err();
        assert_eq!((refused.number(), refused.at), (number, at));
        assert_eq!(out, [7; 16]);
    }
    assert_eq!(weights_into("一万五".as_bytes(), &mut out).unwrap(), 2);
    assert_eq!(out[8..], 1_000_u64.to_le_bytes());
}

#[test]
fn worn_characters() {
    let mut out = [7; WORN];
    assert_eq!(worn_character("十□十".as_bytes(), &mut out).unwrap(), "万\t100010\n億\t1000000010\n兆\t10000000000010\n");
    let top = "九零零七一九九二五四七四零九九□";
    let rows = "零\t9007199254740990\n一\t9007199254740991\n十\t9007199254740990\n";
    assert_eq!(worn_character(top.as_bytes(), &mut out[..63]).unwrap(), rows);
    let mut out = [7; WORN];
    for (line, room, number, at) in [
        (top.as_bytes(), 62, 8, 0),
        ("十十□".as_bytes(), 0, 13, 0),
        ("□□".as_bytes(), WORN, 12, 0),
        ("一万五".as_bytes(), 0, 12, 0),
        ("□x".as_bytes(), WORN, 12, 0),
        (b"", WORN, 12, 0),
        ("□".repeat(257).as_bytes(), WORN, 3, 768),
        (b"\xE2\x96\xA1\xFF", WORN, 2, 3),
    ] {
        let refused = worn_character(line, &mut out[..room]).unwrap_err();
        assert_eq!((refused.number(), refused.at), (number, at), "{refused}");
    }
    assert_eq!(out, [7; WORN]);
}

#[test]
fn version_is_the_crates() {
    let parts: Vec<u32> = env!("CARGO_PKG_VERSION").split('.').map(|part| part.parse().unwrap()).collect();
    assert_eq!(rilvostam::version(), parts[0] * 10000 + parts[1] * 100 + parts[2]);
}
