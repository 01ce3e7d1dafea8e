//! Document 01's "Readings worked by hand", and the empty word and sheet.

mod common;

use common::{SEVENTY_SEVEN, SIXTY_THREE, every_run, sheet, sheet_of};
use yunthirel::*;

/// Root and score of each reading.
fn roots<'w>(word: &'w str, lines: &[&str]) -> Vec<(&'w str, u16)> {
    let readings = analyze_affixes(word.as_bytes(), &sheet(lines)).expect("an accepted word and sheet");
    readings.iter().map(|reading| (reading.root, reading.score)).collect()
}

#[test]
fn the_listing() {
    let (word, sheet) = ("घरले".as_bytes(), "(w घर (wh))\n".as_bytes());
    let readings = analyze_affixes(word, sheet).expect("accepted");
    let segment = AffixSegment { text: "ले", kind: AffixKind::CaseMarker, shared: false };
    let reading = Reading {
        stem: "घर",
        root: "घर",
        prefixes: vec![],
        suffix_segments: vec![segment],
        score: 279,
        origin: Origin::Deshaj,
        source: OriginSource::Unknown,
        confidence: 0.0,
    };
    assert_eq!(readings, std::slice::from_ref(&reading));
    assert_eq!(best_analysis(word, sheet), Ok(Some(reading)));
    assert_eq!(has_supported_analysis(word, sheet), Ok(true));
    let mut out = [0; raw::LISTING_ROOM];
    let size = write_readings(word, sheet, &mut out).expect("accepted");
    assert_eq!(&out[..size], "(list 1)\n(r घर घर () ((ले case)) 279 d)\n".as_bytes());
    // The texts are parts of the word that was lent.
    assert_eq!(readings[0].stem.as_ptr(), word.as_ptr());
}

#[test]
fn with_the_word_itself_known() {
    assert_eq!(roots("घरले", &["(w घर (wh))", "(w घरले (w))"]), [("घर", 339), ("घरले", 104)]);
}

#[test]
fn two_rows_of_one_prefix() {
    let sheet = sheet(&["(w शुल्क (h))"]);
    let readings = analyze_affixes("निःशुल्क".as_bytes(), &sheet).expect("accepted");
    assert_eq!(readings.iter().map(|reading| reading.score).collect::<Vec<_>>(), [188, 188]);
    assert_eq!(readings[0].prefixes, ["निर्"]);
    assert_eq!(readings[1].prefixes, ["निस्"]);
}

#[test]
fn what_a_short_prefix_leaves() {
    assert_eq!(roots("अमानव", &["(w मानव (w))"]), [("मानव", 135)]);
    assert_eq!(roots("असफल", &["(w सफल (w))"]), []);
    assert_eq!(has_supported_analysis("असफल".as_bytes(), &sheet(&["(w सफल (w))"])), Ok(false));
}

#[test]
fn progressive_forms() {
    let verbs = sheet(&["(w खानु (hv))", "(w रहनु (hv))"]);
    let word = "खाइरहेको";
    assert_eq!(roots(word, &["(w खानु (hv))", "(w रहनु (hv))"]), [(word, 8)]);
    assert_eq!(has_supported_progressive_form(word.as_bytes(), &verbs), Ok(true));
    let found = analyze_progressive("नखाइरहेको".as_bytes(), &verbs).expect("accepted").expect("a form");
    assert_eq!((found.main_form, found.main_lemma), ("नखाइ", "खानु"));
    assert_eq!((found.auxiliary_form, found.auxiliary_lemma), ("रहेको", "रहनु"));
    assert!(found.negative);
    // The lemma is the name in its line, after `(w `.
    assert_eq!(found.main_lemma.as_ptr(), verbs[3..].as_ptr());
    let failing = sheet(&["(l गरि (गर्नु))", "(w गरनु (hv))", "(w रहनु (hv))"]);
    assert_eq!(analyze_progressive("गरिरहेको".as_bytes(), &failing), Ok(None));
    assert_eq!(has_supported_progressive_form("गरिरहेको".as_bytes(), &failing), Ok(false));
}

#[test]
fn decompose_goes_on_after_a_suffix() {
    let sheet = sheet(&["(w घर (w))", "(w घरको (w))"]);
    let found = decompose("घरकोता".as_bytes(), &sheet).expect("accepted");
    assert_eq!((found.root, found.suffixes), ("घर", vec!["ता", "को"]));
    assert_eq!((found.prefixes, found.origin), (vec![], Origin::Deshaj));
}

#[test]
fn sixty_three_and_seventy_seven_readings() {
    let readings = analyze_affixes(SIXTY_THREE.as_bytes(), &every_run(SIXTY_THREE)).expect("63 are listed");
    assert_eq!(readings.len(), 63);
    let word = SEVENTY_SEVEN.as_bytes();
    assert_eq!(analyze_affixes(word, &every_run(SEVENTY_SEVEN)), Err(Refusal::TooManyReadings));
    assert_eq!(has_known_root(word, &every_run(SEVENTY_SEVEN)), Ok(true));
}

#[test]
fn sixteen_candidates() {
    let word = "निःघरपहाडितएको";
    let found = lookup_root_candidates(word.as_bytes(), &every_run(word)).expect("accepted");
    assert_eq!(found.len(), 16);
    assert!(found.is_sorted_by(|a, b| a.score >= b.score));
    assert_eq!(best_root(word.as_bytes(), &every_run(word)), Ok(found.into_iter().next()));
}

#[test]
fn words_and_sheets_at_their_limits() {
    assert_eq!(roots(&"क".repeat(64), &[]), []);
    assert_eq!(check_word("क".repeat(64).as_bytes()), Ok(()));
    assert_eq!(check_word(("क".repeat(64) + "a").as_bytes()), Err(Refusal::WordTooLong));
    assert_eq!(check_sheet(&sheet_of(65_536)), Ok(()));
    assert_eq!(check_sheet(&sheet_of(65_537)), Err(Refusal::SheetTooLong));
}

#[test]
fn the_empty_word_and_the_empty_sheet() {
    for (word, sheet) in [("", &b""[..]), ("", "(w घर (wh))\n".as_bytes()), ("घरले", b"")] {
        let (word, size) = (word.as_bytes(), word.len());
        assert_eq!(analyze_affixes(word, sheet), Ok(vec![]));
        assert_eq!(best_analysis(word, sheet), Ok(None));
        assert_eq!(has_supported_analysis(word, sheet), Ok(false));
        assert_eq!(lookup_root_candidates(word, sheet), Ok(vec![]));
        assert_eq!(best_root(word, sheet), Ok(None));
        assert_eq!(has_known_root(word, sheet), Ok(false));
        assert_eq!(analyze_progressive(word, sheet), Ok(None));
        assert_eq!(decompose(word, sheet).map(|found| found.root.len()), Ok(size));
        let decision = OriginDecision { origin: Origin::Deshaj, source: OriginSource::Unknown, confidence: 0.0 };
        assert_eq!(classify_with_provenance(word, sheet), Ok(decision));
        assert_eq!(check_word(word), Ok(()));
        assert_eq!(check_sheet(sheet), Ok(()));
    }
}

#[test]
fn shared_letters() {
    let marks = |word: &str, sheet: &str| {
        let list = analyze_affixes(word.as_bytes(), sheet.as_bytes()).unwrap();
        let marks =
            |reading: &Reading| reading.suffix_segments.iter().map(|segment| segment.shared).collect::<Vec<_>>();
        list.iter().map(|reading| (reading.stem.to_string(), marks(reading))).collect::<Vec<_>>()
    };
    let stem = |text: &str| text.to_string();
    assert_eq!(marks("घरले", "(w घर (wh))\n(w घरल (w))\n"), [(stem("घर"), vec![false]), (stem("घरल"), vec![true])]);
    assert_eq!(marks("घरतिरे", "(w घरत (w))\n"), [(stem("घरत"), vec![true, true])]);
}

#[test]
fn origins_beside_readings() {
    let sheet = sheet(&["(w कृति (w))", "(w घर (ht))", "(w घरको (w))", "(w ठाडो (w))", "(w सफल (w))"]);
    let told = |word: &'static str| {
        let list = analyze_affixes(word.as_bytes(), &sheet).expect("accepted");
        for reading in &list {
            let alone = classify_with_provenance(reading.root.as_bytes(), &sheet).expect("accepted");
            assert_eq!((reading.origin, reading.source), (alone.origin, alone.source), "{word}");
            assert_eq!(reading.confidence.to_bits(), alone.confidence.to_bits(), "{word}");
        }
        list.iter().map(|reading| (reading.root, reading.origin, reading.confidence.to_bits())).collect::<Vec<_>>()
    };
    assert_eq!(told("घरको"), [("घर", Origin::Tatsam, 0x3F73_3333), ("घरको", Origin::Tatsam, 0x3F66_6666)]);
    // The table has the root and not the word; the marks see the root alone.
    assert_eq!(told("कृतिले"), [("कृति", Origin::Tatsam, 0x3F80_0000)]);
    assert_eq!(told("ठाडोले"), [("ठाडो", Origin::Tadbhav, 0x3F26_6666)]);
    assert_eq!(told("सफलले"), [("सफल", Origin::Deshaj, 0)]);
    let verbs = "(w खानु (hv))\n(w रहनु (hv))\n".as_bytes();
    let best = best_analysis("खाइरहेको".as_bytes(), verbs).expect("accepted").expect("a reading");
    assert_eq!((best.origin, best.source), (Origin::Tadbhav, OriginSource::Heuristic));
}

#[test]
fn kind_lines_and_origins() {
    let sheet = sheet(&["(k देखि (post))", "(k भित्र (comp))", "(w घर (wha))"]);
    let kind = |word: &str| {
        let best = best_analysis(word.as_bytes(), &sheet).expect("accepted").expect("a reading");
        best.suffix_segments.iter().map(|segment| (segment.text, segment.kind)).collect::<Vec<_>>()
    };
    assert_eq!(kind("घरदेखि"), [("देखि", AffixKind::Postposition)]);
    assert_eq!(kind("घरभित्र"), [("भित्र", AffixKind::ComparisonMarker)]);
    assert_eq!(
        kind("घरहरूमानै"),
        [("हरू", AffixKind::PluralMarker), ("मा", AffixKind::CaseMarker), ("नै", AffixKind::Particle)]
    );
    assert_eq!(classify("घर".as_bytes(), &sheet), Ok(Origin::Aagantuk));
    let found = classify_with_provenance("रूप".as_bytes(), &sheet).expect("accepted");
    assert_eq!((found.source, found.confidence), (OriginSource::Override, 1.0));
}
