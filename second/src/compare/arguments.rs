//! Arguments of the form `--name value`.

pub struct Arguments {
    given: Vec<String>,
}

impl Arguments {
    pub fn new(given: Vec<String>) -> Arguments {
        Arguments { given }
    }

    pub fn text(&self, name: &str) -> Option<String> {
        let place = self.given.iter().position(|word| word == name)?;
        self.given.get(place + 1).cloned()
    }

    /// A whole number, or `fallback` where the name is not given.
    pub fn number(&self, name: &str, fallback: u64) -> u64 {
        match self.text(name) {
            None => fallback,
            Some(text) => text.parse().unwrap_or_else(|_| panic!("{name} takes a whole number, not {text}")),
        }
    }
}
