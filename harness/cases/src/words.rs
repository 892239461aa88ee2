//! The words given to a program of the runs.

/// The words, taken one by one.
pub struct Words {
    rest: std::iter::Skip<std::env::Args>,
    last: String,
}

impl Words {
    /// All that were given.
    pub fn given() -> Words {
        Words {
            rest: std::env::args().skip(1),
            last: String::new(),
        }
    }

    /// The next option.
    pub fn option(&mut self) -> Option<String> {
        self.last = self.rest.next()?;
        Some(self.last.clone())
    }

    /// The value of the option taken last.
    pub fn value(&mut self) -> Result<String, String> {
        let value = self.rest.next();
        value.ok_or_else(|| format!("{} needs a value", self.last))
    }

    /// That value as a number.
    pub fn number(&mut self) -> Result<u64, String> {
        let value = self.value()?;
        let number = value.parse();
        number.map_err(|_| format!("{value} is no number"))
    }
}
