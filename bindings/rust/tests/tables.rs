//! The library's own tables (02, S-11), and regular ones.

use rilvostam::{Cause, NO_EDGES, TABLE, add_numbers, edges, formal_table, formal_table_into, irregular_record, plain_table, plain_table_into};

fn rows(line: &str, table: &[u8]) -> Vec<String> {
    edges(&add_numbers(line, table, NO_EDGES).unwrap()).map(|e| format!("{} {} {}", e.start, e.end, e.txt)).collect()
}

#[test]
fn twins() {
    for (plain, formal) in [("一万五", "壹萬伍"), ("一百零五", "壹佰零伍"), ("二千五", "貳仟伍"), ("億万", "億萬")] {
        assert_eq!(rows(plain, &plain_table()), rows(formal, &formal_table()));
    }
    assert!(rows("〇参", &formal_table()).is_empty());
    assert!(rows("一万五", &formal_table()).is_empty());
}

#[test]
fn room() {
    for call in [plain_table_into, formal_table_into] {
        let mut out = [7; TABLE + 1];
        let refusal = call(&mut out[..TABLE - 1]).unwrap_err();
        assert_eq!((refusal.cause, refusal.at), (Cause::TooLong, 0));
        assert_eq!(out, [7; TABLE + 1]);
        assert_eq!(call(&mut out), Ok(TABLE));
        assert_eq!(out[TABLE], 7);
    }
}

#[test]
fn regular() {
    assert_eq!(irregular_record(&plain_table()), Ok(None));
    assert_eq!(irregular_record(&formal_table()), Ok(None));
    // 一 begins the records, at offset 27: without its base it is of none of the four kinds.
    let mut table = plain_table().to_vec();
    assert_eq!(table[31], 0x2B);
    table[31] = 0x23;
    table.drain(48..56);
    assert_eq!(irregular_record(&table), Ok(Some(27)));
    table.push(0);
    let refusal = irregular_record(&table).unwrap_err();
    assert_eq!((refusal.cause, refusal.at), (Cause::TableLayout, table.len() as u64 - 1));
}
