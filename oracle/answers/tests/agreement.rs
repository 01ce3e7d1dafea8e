//! What the answers leave out because the lists say it already: the source's one-answer functions.

use acceptance::READING_LIMIT;

#[test]
fn best_and_yes_or_no_say_what_the_lists_say() {
    let mut asked = 0;
    for index in 0..4 * cases::round() as u64 {
        let case = cases::case(11, index);
        let Ok((word, forms)) = acceptance::check(&case.word, &case.sheet) else {
            continue;
        };
        asked += 1;
        let each = answers::each(word, &forms);
        answers::with_sheet(&forms, || {
            let readings = shabda::analyze_affixes(word);
            assert_eq!(shabda::best_analysis(word).as_ref(), readings.first());
            assert_eq!(shabda::has_supported_analysis(word), !readings.is_empty());
            let candidates = shabda::lookup_root_candidates(word);
            assert_eq!(shabda::best_root(word).as_ref(), candidates.first());
            assert_eq!(shabda::has_known_root(word), !candidates.is_empty());
            assert!(candidates.len() <= 16);
            assert_eq!(each.best_root + "\n", answers::best_candidate(shabda::best_root(word).as_ref()));
            assert_eq!(each.has_known_root == "has_known_root yes", shabda::has_known_root(word));
            assert_eq!(shabda::classify(word), shabda::classify_with_provenance(word).origin);
            if readings.len() <= READING_LIMIT {
                assert!(readings.iter().all(|reading| reading.score <= 612));
                assert_eq!(each.best_analysis + "\n", answers::best_reading(shabda::best_analysis(word).as_ref()));
                assert_eq!(each.has_analysis == "has_analysis yes", shabda::has_supported_analysis(word));
            } else {
                assert_eq!([each.listing, each.best_analysis, each.has_analysis], ["(refused 7)"; 3]);
            }
        });
    }
    assert!(asked > 1000);
}
