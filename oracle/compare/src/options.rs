//! `--name NUMBER` options, and one that takes files.

/// The numbers of the options, in the order of `known`, each with its default, and the paths after each `--words`.
pub fn read<const N: usize>(program: &str, known: [(&str, u64); N]) -> ([u64; N], Vec<String>) {
    let mut values = known.map(|(_, default)| default);
    let mut files = Vec::new();
    let mut args = std::env::args().skip(1);
    while let Some(arg) = args.next() {
        let place = known.iter().position(|(name, _)| *name == arg);
        let value = args.next();
        match (place, value) {
            (None, Some(path)) if arg == "--words" => files.push(path),
            (None, None) if arg == "--words" => refuse(program, "--words wants a file"),
            (None, _) => refuse(program, &format!("unknown option {arg}")),
            (Some(place), value) => match value.and_then(|text| text.parse().ok()) {
                Some(value) => values[place] = value,
                None => refuse(program, &format!("{arg} wants a number")),
            },
        }
    }
    (values, files)
}

pub fn refuse(program: &str, message: &str) -> ! {
    eprintln!("{program}: {message}");
    std::process::exit(2)
}
