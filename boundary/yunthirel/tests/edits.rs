//! Lines put and withdrawn: each number in its order, the place of a line, and what is left of the buffer.

use yunthirel::{Refusal, check_sheet, put_line, put_line_into, withdraw_line, withdraw_line_from};

const SHEET: &str = "(k ले (post))\n(l गरि (गर्नु))\n(w घर (wh))\n(w घरले (w))\n";

/// A buffer with the sheet at its front and 40 other bytes behind it.
fn lent() -> (Vec<u8>, usize) {
    let mut buffer = SHEET.as_bytes().to_vec();
    buffer.extend([b'#'; 40]);
    (buffer, SHEET.len())
}

/// The sheet with a text in the place of another, as far as the buffer goes what stood there behind it.
fn changed(old: &str, new: &str) -> Vec<u8> {
    let (before, _) = lent();
    let mut after = SHEET.replacen(old, new, 1).into_bytes();
    after.extend_from_slice(&before[after.len()..]);
    after
}

#[test]
fn places_of_a_line() {
    for (line, old, new) in [
        ("(k का (comp))\n", "(k ले", "(k का (comp))\n(k ले"),
        ("(l अ\u{93f} (नु))\n", "(l गरि", "(l अ\u{93f} (नु))\n(l गरि"),
        ("(w घरमा (w))\n", "(w घरले", "(w घरमा (w))\n(w घरले"),
        ("(w ज्ञ (h))\n", "(w घरले (w))\n", "(w घरले (w))\n(w ज्ञ (h))\n"),
        ("(w घर (whvt))\n", "(w घर (wh))", "(w घर (whvt))"),
        ("(w घर (w))\n", "(w घर (wh))", "(w घर (w))"),
        ("(w घर (wh))\n", "", ""),
    ] {
        let (mut buffer, used) = lent();
        let length = put_line(&mut buffer, used, line.as_bytes()).expect(line);
        assert_eq!(buffer, changed(old, new), "{line}");
        assert_eq!(length, SHEET.len() - old.len() + new.len(), "{line}");
        assert_eq!(check_sheet(&buffer[..length]), Ok(()));
    }
}

#[test]
fn lines_withdrawn() {
    for line in ["(k ले (post))\n", "(l गरि (गर्नु))\n", "(w घर (wh))\n", "(w घरले (w))\n"]
    {
        let (mut buffer, used) = lent();
        assert_eq!(withdraw_line(&mut buffer, used, line.as_bytes()), Ok(used - line.len()));
        assert_eq!(buffer, changed(line, ""), "{line}");
    }
    // the value of the given line only makes it a form
    let (mut buffer, used) = lent();
    assert_eq!(withdraw_line(&mut buffer, used, "(w घर (h))\n".as_bytes()), Ok(used - "(w घर (wh))\n".len()));
    assert_eq!(buffer, changed("(w घर (wh))\n", ""));
}

#[test]
fn numbers_in_their_order() {
    let line = "(w च (w))\n".as_bytes();
    let edits = [put_line, withdraw_line];
    for edit in edits {
        let (before, used) = lent();
        let mut buffer = before.clone();
        assert_eq!(edit(&mut buffer, before.len() + 1, b""), Err(Refusal::SheetTooLong));
        assert_eq!(edit(&mut buffer, usize::MAX, line), Err(Refusal::SheetTooLong));
        assert_eq!(
            edit(&mut buffer, used - 1, b"x"),
            Err(Refusal::SheetNoForm { start: SHEET.find("(w घरले").unwrap() })
        );
        assert_eq!(edit(&mut buffer, used + 1, line), Err(Refusal::SheetNoForm { start: used }));
        for other in [
            "",
            "\n",
            "(w च (w))",
            "(w च (w))\n\n",
            "(w च (w))\n(w छ (w))\n",
            "(w च (w))\nx",
            "(x च (w))\n",
            "(w  (w))\n",
        ] {
            assert_eq!(edit(&mut buffer, used, other.as_bytes()), Err(Refusal::NoSingleForm), "{other:?}");
        }
        assert_eq!(buffer, before);
        let mut twice = b"(w b (w))\n(w b (w))\n".to_vec();
        assert_eq!(edit(&mut twice, 20, b"x"), Err(Refusal::SheetNotAbove { start: 10 }));
    }
    let (mut buffer, used) = lent();
    assert_eq!(withdraw_line(&mut buffer, used, line), Err(Refusal::NothingToWithdraw));
    assert_eq!(withdraw_line(&mut buffer, 0, line), Err(Refusal::NothingToWithdraw));
    // a name of 210 bytes is a form, one of 211 is not
    let long = |count: usize| [b"(w " as &[u8], &vec![b'x'; count], b" (w))\n"].concat();
    let mut wide = vec![0; 300];
    assert_eq!(put_line(&mut wide, 0, &long(211)), Err(Refusal::NoSingleForm));
    assert_eq!(put_line(&mut wide, 0, &long(210)), Ok(219));
}

#[test]
fn exact_room_and_one_byte_less() {
    let line = "(w च (w))\n".as_bytes();
    let used = SHEET.len();
    let mut exact = vec![0; used + line.len()];
    exact[..used].copy_from_slice(SHEET.as_bytes());
    let mut short = exact[..used + line.len() - 1].to_vec();
    let before = short.clone();
    assert_eq!(put_line(&mut exact, used, line), Ok(used + line.len()));
    assert_eq!((put_line(&mut short, used, line), short), (Err(Refusal::NoRoom), before));
    // a longer line in the place of a shorter one has no room, where one of the same length has
    let mut full = SHEET.as_bytes().to_vec();
    assert_eq!(put_line(&mut full, used, "(w घर (whv))\n".as_bytes()), Err(Refusal::NoRoom));
    assert_eq!(put_line(&mut full, used, "(w घर (ht))\n".as_bytes()), Ok(used));
    // and what is withdrawn makes room
    assert_eq!(withdraw_line(&mut full, used, "(w घरले (w))\n".as_bytes()), Ok(used - "(w घरले (w))\n".len()));
    assert_eq!(put_line(&mut full, used - "(w घरले (w))\n".len(), "(w घरल (hv))\n".as_bytes()), Ok(used - 2));
}

#[test]
fn sheets_that_grow() {
    let mut sheet = Vec::new();
    for name in ["ख", "क", "ग", "क"] {
        put_line_into(&mut sheet, format!("(w {name} (w))\n").as_bytes()).expect(name);
    }
    assert_eq!(sheet, "(w क (w))\n(w ख (w))\n(w ग (w))\n".as_bytes());
    let before = sheet.clone();
    assert_eq!(put_line_into(&mut sheet, b"(w"), Err(Refusal::NoSingleForm));
    assert_eq!(withdraw_line_from(&mut sheet, "(w घ (w))\n".as_bytes()), Err(Refusal::NothingToWithdraw));
    assert_eq!(sheet, before);
    assert_eq!(withdraw_line_from(&mut sheet, "(w ख (h))\n".as_bytes()), Ok(()));
    assert_eq!(sheet, "(w क (w))\n(w ग (w))\n".as_bytes());
}

#[test]
fn the_limit() {
    // 4,096 lines of 16 bytes
    let mut sheet: Vec<u8> = Vec::new();
    for number in 0..4096 {
        sheet.extend(format!("(w a{number:06} (w))\n").bytes());
    }
    assert_eq!(sheet.len(), 65_536);
    let mut buffer = sheet.clone();
    buffer.resize(70_000, 7);
    assert_eq!(put_line(&mut buffer, 65_536, b"(w b (w))\n"), Err(Refusal::NoRoom));
    assert_eq!(put_line(&mut buffer, 65_536, b"(w a000000 (h))\n"), Ok(65_536));
    assert_eq!(withdraw_line(&mut buffer, 65_536, b"(w a004095 (h))\n"), Ok(65_520));
    assert_eq!(put_line(&mut buffer, 65_520, b"(w bbbbbbb (w))\n"), Ok(65_536));
    assert_eq!(put_line_into(&mut sheet, b"(w b (w))\n"), Err(Refusal::NoRoom));
    assert_eq!(sheet.len(), 65_536);
    assert!(buffer[65_536..].iter().all(|&byte| byte == 7));
}
