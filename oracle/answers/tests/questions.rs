//! How many questions an analysis asks of the lexicon, each counted once: `cargo test --offline -p answers --test questions -- --nocapture`.
//! Counted in debug builds alone.
#![cfg(debug_assertions)]

/// Every run of the word's characters, known by w.
fn own_runs(word: &str) -> Vec<u8> {
    let starts: Vec<usize> = word.char_indices().map(|(at, _)| at).chain([word.len()]).collect();
    let mut lines = std::collections::BTreeSet::new();
    for (i, &from) in starts.iter().enumerate() {
        for &to in &starts[i + 1..] {
            lines.insert(format!("(w {} (w))\n", &word[from..to]));
        }
    }
    lines.into_iter().collect::<String>().into_bytes()
}

#[test]
fn heavy_words_ask_hundreds() {
    for (word, least) in [("अपरिचितहरूलाई", 400), ("निःनिःघरकोकोकोको", 600), ("निःनिःघरहरूकोमालेक्यारे", 600)]
    {
        let sheet = own_runs(word);
        let (_, forms) = acceptance::check(word.as_bytes(), &sheet).expect("a good word and sheet");
        let asked = answers::with_sheet(&forms, || {
            varnavinyas_kosha::questions(|| {
                shabda::analyze_affixes(word);
            })
        });
        println!("{word}: {asked} questions");
        assert!(asked >= least, "{word}: {asked} questions");
    }
}
