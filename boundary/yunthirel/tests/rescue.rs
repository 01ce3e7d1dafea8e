//! Torn sheets, each number that can be refused with, and what is left of what was lent.

use yunthirel::{Cut, Refusal, Rescue, Why, check_sheet, raw, rescue_sheet};

const TORN: &str = "(w घर (wh))\n(w क (w))\n\n(w घरले (w))\n(w घर (w))\n(w च (w))";

#[test]
fn what_is_kept_and_what_is_cut() {
    let at = |line: &str| TORN.find(line).expect("a line");
    let rescue = rescue_sheet(TORN.as_bytes()).expect("not too long");
    assert_eq!(rescue.kept, "(w घर (wh))\n(w घरले (w))\n".as_bytes());
    let cut = |start, len, why| Cut { start, len, why };
    assert_eq!(
        rescue.cuts,
        [
            cut(at("(w क"), 12, Why::Order),
            cut(at("(w क") + 12, 1, Why::Form),
            cut(at("(w घर (w))"), 15, Why::Order),
            cut(at("(w च"), 11, Why::Form),
        ]
    );
    assert_eq!(rescue.cuts[1].to_string(), format!("(cut {} 1 form)", at("(w क") + 12));
    assert_eq!(check_sheet(&rescue.kept), Ok(()));
}

#[test]
fn good_and_empty_sheets_come_out_unchanged() {
    for sheet in ["", "(w घर (wh))\n", "(k ले (post))\n(w घर (wh))\n(w घरले (w))\n"] {
        assert_eq!(rescue_sheet(sheet.as_bytes()), Ok(Rescue { kept: sheet.into(), cuts: vec![] }));
    }
}

#[test]
fn limits() {
    let feeds = [b'\n'; 65_537];
    assert_eq!(rescue_sheet(&feeds), Err(Refusal::SheetTooLong));
    let rescue = rescue_sheet(&feeds[..65_536]).expect("not too long");
    assert_eq!((rescue.kept.len(), rescue.cuts.len()), (0, 65_536));
    assert_eq!(rescue.cuts[65_535], Cut { start: 65_535, len: 1, why: Why::Form });
}

#[test]
fn what_is_left_of_buffers() {
    let (size, length) = (11, 16);
    let torn = b"(w aa (w))\n(w a (w))\n";
    for (one, two) in [(0, 99), (size - 1, 99), (99, 0), (99, 17), (size, 18), (99, 99)] {
        let (mut kept, mut report) = (vec![77; one], vec![88; two]);
        let code = raw::rescue(torn, &mut kept, &mut report);
        if one < size || two < length + 2 {
            assert_eq!((code, kept, report), (8, vec![77; one], vec![88; two]));
        } else {
            assert_eq!((raw::number(code), raw::kept_size(code), raw::report_size(code)), (0, size, length + 2));
            assert_eq!((&kept[..size], &report[..length + 2]), (&torn[..size], &b"(cut 11 10 order)\n"[..]));
            assert!(kept[size..].iter().all(|&byte| byte == 77) && report[length + 2..].iter().all(|&byte| byte == 88));
        }
    }
}
