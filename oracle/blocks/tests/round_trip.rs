//! What is written is read back, whatever bytes it holds.

use blocks::*;

#[test]
fn cases() {
    let cases = [
        Case { word: vec![], sheet: vec![] },
        Case { word: b"3 4\n".to_vec(), sheet: b"\n\n".to_vec() },
        Case { word: vec![0xFF, 0, b' '], sheet: (0..=255).collect() },
    ];
    let mut bytes = Vec::new();
    cases.iter().for_each(|case| write_case(&mut bytes, case).expect("a Vec takes all"));
    assert_eq!(&bytes[..5], b"0 0\n\n");
    assert_eq!(read_cases(&bytes[..]).expect("they are read"), cases);
    assert!(read_cases(&bytes[..bytes.len() - 1]).is_err());
}

#[test]
fn answers() {
    let mut bytes = Vec::new();
    write_answer(&mut bytes, b"(list 0)\n").expect("a Vec takes all");
    assert_eq!(bytes, b"9\n(list 0)\n");
    let mut input = &bytes[..];
    assert_eq!(read_answer(&mut input).expect("it is read"), Some(b"(list 0)\n".to_vec()));
    assert_eq!(read_answer(&mut input).expect("it is read"), None);
}
