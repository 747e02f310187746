//! The options of the command line.
//! All have defaults, so that the plain command is the comparison of a million calls.

pub(crate) struct Options {
    pub calls: u64,
    pub seed: u64,
    pub from: u64,
}

impl Options {
    /// None where the arguments are none.
    pub fn parse(mut arguments: impl Iterator<Item = String>) -> Option<Options> {
        let mut options = Options { calls: 1_000_000, seed: 20_260_101, from: 0 };
        while let Some(name) = arguments.next() {
            let value = arguments.next()?.parse().ok()?;
            match name.as_str() {
                "--calls" => options.calls = value,
                "--seed" => options.seed = value,
                "--from" => options.from = value,
                _ => return None,
            }
        }
        Some(options)
    }
}
