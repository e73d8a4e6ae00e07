//! Day files: forms, ranges, the opening, and where a file stops. Tabs are shown as spaces, and a line's end as a stroke.
#![deny(warnings)]

use reading::largest::by_take_off;
use reading::sheet::sheet_of;

/// The sheet of a file, as text with spaces for tabs and strokes for ends of lines.
fn sheet(file: &str) -> String {
    let file = file.replace(' ', "\t").replace('/', "\n");
    let sheet = String::from_utf8(sheet_of(file.as_bytes(), by_take_off)).unwrap();
    sheet.replace('\t', " ").replace('\n', "/")
}

/// What the sheet says of one line in a house of two, open with 10 and 0.
fn said(line: &str) -> String {
    let sheet = sheet(&format!("house 1 2/member 1 10 0/member 2 0 0/{line}/end/"));
    let rest = sheet.strip_prefix("3 open 2 10/").unwrap();
    rest.split('/').next().unwrap().to_string()
}

/// What the sheet says of a file that starts with these lines and goes on well.
fn opened(opening: &str) -> String {
    sheet(&format!("{opening}/deposit 1 1/end/"))
}

#[test]
fn forms_before_ranges() {
    for bad in [
        "pay 0 1 1 01",
        "pay 1 1 2",
        "pay 1 1 2 5 ",
        "pay 1 1 2 5 5",
        "pay  1 1 2 5",
        " pay 1 1 2 5",
        "pay 1 1 2 -5",
        "pay 1 1 2 +5",
        "pay 1 1 2 5\r",
        "pay 1 1 2 1000000000000000000",
        "PAY 1 1 2 5",
        "deposit 1",
        "deposit 1 00",
        "deposit 1 -0",
        "deposit -1 5",
        "release",
        "release 1 1",
        "release 1\0",
        "resolve ",
        "resolve 1",
        "end ",
        "end 0",
        "",
        " ",
        "x",
        "house 1 2",
        "house 2 2",
        "member 1 10 0",
        "member 3 0 0",
        "member",
        "group",
        "group ",
        "group 0 ",
        "group 0  0",
        "group -1 0",
    ] {
        assert_eq!(said(bad), "4 refused 12", "{bad:?}");
    }
    assert_eq!(said(&format!("group{}", " 0".repeat(65))), "4 refused 12");
}

#[test]
fn ranges_by_the_call() {
    for (line, code) in [
        ("pay 0 1 2 5", 2),
        ("pay 3 1 2 5", 2),
        ("pay 1 1 3 5", 2),
        ("pay 1 1 1 0", 3),
        ("pay 3 9 3 0", 2),
        ("pay 1 1 2 0", 4),
        ("pay 1 1 2 1000000000001", 4),
        ("pay 1 1 2 999999999999999999", 4),
        ("pay 1 0 2 5", 5),
        ("pay 1 2 2 5", 5),
        ("pay 1 4294967296 2 5", 5),
        ("pay 1 4294967297 2 5", 5),
        ("pay 4294967297 1 2 5", 2),
        ("deposit 0 0", 2),
        ("deposit 1 0", 4),
        ("deposit 1 1000000000001", 4),
        ("release 0", 2),
        ("release 3", 2),
        ("release 1", 8),
        ("group 0", 10),
        ("group 0 0 0", 10),
        ("group 65536 0", 10),
        ("group 1 0", 10),
        ("group 0 999999999999999999", 10),
    ] {
        assert_eq!(said(line), format!("4 refused {code}"), "{line:?}");
    }
    assert_eq!(said(&format!("group{}", " 0".repeat(64))), "4 refused 10");
    assert_eq!(said("group 0 0"), "4 group 0 0");
    assert_eq!(said("deposit 2 1000000000000"), "4 deposited 2 1000000000000");
    assert_eq!(said("resolve"), "4 resolve 0 0 0 0 0");
}

#[test]
fn long_lines() {
    // A group of 64 counts in 400 bytes is well-formed, one byte more is not.
    let group = |digits: usize| {
        let mut counts = vec!["11111".to_string(); 64];
        counts[0] = "1".repeat(digits);
        format!("group {}", counts.join(" "))
    };
    assert_eq!(group(16).len(), 400);
    assert_eq!(said(&group(16)), "4 refused 10");
    assert_eq!(said(&group(17)), "4 refused 12");
    for long in [401, 70_000, 200_000] {
        let file = format!("house 1 1/member 1 5 0/{}/release 1/end", "x".repeat(long));
        assert_eq!(sheet(&file), "2 open 1 5/3 refused 12/4 refused 8/balance 1 5 0/money 5/");
        let last = format!("house 1 1/member 1 5 0/{}", "x".repeat(long));
        assert_eq!(sheet(&last), "2 open 1 5/3 refused 12/0 refused 12/");
    }
}

#[test]
fn good_openings() {
    let after = |sum: &str, balance: &str| format!("2 open 1 {sum}/3 deposited 1 {balance}/balance 1 {balance} 0/money {balance}/");
    assert_eq!(opened("house 1 1/member 1 0 0"), after("0", "1"));
    assert_eq!(opened("house 1 1/member 1 -5 5"), after("-5", "-4"));
    assert_eq!(opened("house 1 1/member 1 -1000000000000 1000000000000"), after("-1000000000000", "-999999999999"));
    let full = "2 open 1 1000000000000000/3 refused 7/balance 1 1000000000000000 0/money 1000000000000000/";
    assert_eq!(opened("house 1 1/member 1 1000000000000000 0"), full);
    let above = opened("house 1 2/member 1 1000000000000001 0/member 2 -1 1");
    assert!(above.starts_with("3 open 2 1000000000000000/4 refused 7/balance 1 1000000000000001 0/"));
}

#[test]
fn bad_openings() {
    for (opening, told) in [
        ("house 1 0", "1 refused 11/"),
        ("house 1 65", "1 refused 11/"),
        ("house 1 999999999999999999", "1 refused 11/"),
        ("house 2 0", "1 refused 12/"),
        ("house 0 2", "1 refused 12/"),
        ("house 1 00", "1 refused 12/"),
        ("house 1 -1", "1 refused 12/"),
        ("house 1", "1 refused 12/"),
        ("", "1 refused 12/"),
        ("end", "1 refused 12/"),
        ("resolve", "1 refused 12/"),
        ("member 1 0 0", "1 refused 12/"),
        ("house 1 2/end", "2 refused 12/"),
        ("house 1 2/", "2 refused 12/"),
        ("house 1 2/house 1 2", "2 refused 12/"),
        ("house 1 2/member 2 0 0", "2 refused 12/"),
        ("house 1 2/member 0 0 0", "2 refused 12/"),
        ("house 1 2/member 3 0 0", "2 refused 12/"),
        ("house 1 2/member 1 0 0/member 1 0 0", "3 refused 12/"),
        ("house 1 2/member 1 0 0/pay 1 1 2 5", "3 refused 12/"),
        ("house 1 1/member 1 -0 0", "2 refused 12/"),
        ("house 1 1/member 1 - 0", "2 refused 12/"),
        ("house 1 1/member 1 0 -1", "2 refused 12/"),
        ("house 1 1/member 1 -01 5", "2 refused 12/"),
        ("house 1 1/member 1 -1000000000000000000 5", "2 refused 12/"),
        ("house 1 1/member 1 -999999999999999999 5", "2 refused 11/"),
        ("house 1 2/member 1 -1 0/member 2 0 0", "3 refused 11/"),
        ("house 1 2/member 1 -1 0/member 2 0 x", "3 refused 12/"),
        ("house 1 2/member 1 -1 0/member 3 0 0", "3 refused 12/"),
        ("house 1 2/member 1 0 1000000000001/member 2 0 0", "3 refused 11/"),
        ("house 1 2/member 1 2000000000001/member 2 0 0", "2 refused 12/"),
        ("house 1 2/member 1 1000000000000001 0/member 2 0 0", "3 refused 11/"),
        ("house 1 2/member 1 2000000000000000 0/member 2 0 0", "3 refused 11/"),
    ] {
        assert_eq!(opened(opening), told, "{opening:?}");
    }
}

#[test]
fn where_a_file_stops() {
    assert_eq!(sheet(""), "0 refused 12/");
    assert_eq!(sheet("/"), "1 refused 12/");
    assert_eq!(sheet("house 1 1"), "0 refused 12/");
    assert_eq!(sheet("house 1 1/"), "0 refused 12/");
    assert_eq!(sheet("house 1 1/member 1 5 0"), "2 open 1 5/0 refused 12/");
    assert_eq!(sheet("house 1 1/member 1 5 0/"), "2 open 1 5/0 refused 12/");
    assert_eq!(sheet("house 1 1/member 1 5 0//"), "2 open 1 5/3 refused 12/0 refused 12/");
    assert_eq!(sheet("house 1 1/member 1 5 0/end"), "2 open 1 5/balance 1 5 0/money 5/");
    assert_eq!(sheet("house 1 1/member 1 5 0/end/x/end"), "2 open 1 5/balance 1 5 0/money 5/");
    assert_eq!(sheet("house 1 1/member 1 5 0/en"), "2 open 1 5/3 refused 12/0 refused 12/");
}

/// A file of so many lines: an opening of two and then releases, and after them this rest.
fn many(lines: usize, rest: &str) -> String {
    sheet(&format!("house 1 1/member 1 5 0/{}{rest}", "release 1/".repeat(lines - 2)))
}

#[test]
fn a_million_lines() {
    assert!(many(999_999, "end/x/x/").ends_with("/999999 refused 8/balance 1 5 0/money 5/"));
    assert!(many(999_999, "end").ends_with("/999999 refused 8/balance 1 5 0/money 5/"));
    assert!(many(1_000_000, "").ends_with("/1000000 refused 8/0 refused 12/"));
    assert!(many(1_000_000, "end/").ends_with("/1000000 refused 8/1000001 refused 12/"));
    assert!(many(1_000_000, "/").ends_with("/1000000 refused 8/1000001 refused 12/"));
    assert!(many(1_000_000, "e").ends_with("/1000000 refused 8/1000001 refused 12/"));
    assert!(many(1_000_001, "end/").ends_with("/1000000 refused 8/1000001 refused 12/"));
}
