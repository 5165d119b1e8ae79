//! The words of a line, and the items, without a cache. `ci/server/check` tests the server as a whole.
#[path = "../src/item.rs"]
mod item;
#[path = "../src/words.rs"]
mod words;

use item::{deadline, Head, HEAD};
use words::{announces_data, is_quiet, key, signed, unsigned, Reply, ERROR, EXPIRY, FORMAT};

fn of(line: &str) -> Vec<&[u8]> {
    line.split(' ').map(str::as_bytes).collect()
}

#[test]
fn data_follow_lines_of_enough_words() {
    for (line, follow) in
        [("set k 0 0 1", true), ("add k 0 0 1 x", true), ("set k 0 0", false), ("cas k 0 0 1", false), ("cas k 0 0 1 9", true), ("get k", false)]
    {
        assert_eq!(announces_data(&of(line)), follow, "{line}");
    }
}

#[test]
fn some_commands_take_noreply() {
    for line in ["set k 0 0 1 noreply", "delete k noreply", "incr k 1 noreply", "flush_all noreply", "slabs automove 1 noreply"] {
        assert!(is_quiet(&of(line)), "{line}");
    }
    for line in ["get k noreply", "delete noreply", "slabs reassign 1 2 noreply", "set noreply", "noreply", "set k 0 0 1"] {
        assert!(!is_quiet(&of(line)), "{line}");
    }
}

#[test]
fn a_key_has_up_to_250_bytes() {
    assert_eq!(key(&[b'k'; 250]), Ok(&[b'k'; 250][..]));
    assert_eq!(key(&[b'k'; 251]), Err(FORMAT));
}

#[test]
fn numbers_are_read_as_memcached_reads_them() {
    let rows: [(&str, Reply<i32>); 7] = [
        ("-1", Ok(-1)),
        (" +7\t9", Ok(7)),
        ("4294967297", Ok(1)),
        ("", Err(EXPIRY)),
        ("1x", Err(EXPIRY)),
        ("-", Err(EXPIRY)),
        ("9223372036854775808", Err(EXPIRY)),
    ];
    for (text, wanted) in rows {
        assert_eq!(signed(text.as_bytes(), EXPIRY), wanted, "{text}");
    }
    let rows: [(&str, Reply<u64>); 8] = [
        ("18446744073709551615", Ok(u64::MAX)),
        ("18446744073709551616", Err(ERROR)),
        ("18446744073709551615 -", Err(ERROR)),
        ("5 -", Ok(5)),
        ("-0", Ok(0)),
        ("-5", Err(ERROR)),
        ("-18446744073709551615", Ok(1)),
        ("\x0b57 8", Ok(57)),
    ];
    for (text, wanted) in rows {
        assert_eq!(unsigned(text.as_bytes(), ERROR), wanted, "{text}");
    }
}

#[test]
fn an_item_is_read_as_it_was_made() {
    let head = Head { flags: 7, deadline: 9, unique: 1 << 40 };
    let item = head.with(b"data", Vec::new());
    assert_eq!(Head::read(&item), head);
    assert_eq!(&item[HEAD..], b"data");
}

#[test]
fn an_expiry_time_counts_from_now_up_to_thirty_days() {
    let month = 60 * 60 * 24 * 30;
    for (expiry, wanted) in [(0, 0), (-1, 1), (1, 1001), (month, 1000 + month as u32), (month + 1, month as u32 + 1), (i32::MAX, i32::MAX as u32)] {
        assert_eq!(deadline(expiry, 1000), wanted, "{expiry}");
    }
}
