//! The options of a verb: a name and a value each.

use std::str::FromStr;

pub struct Options<'a> {
    pairs: Vec<(&'a str, &'a str)>,
}

impl<'a> Options<'a> {
    /// Of those that `taken` names.
    pub fn read(words: &'a [String], taken: &str) -> Result<Self, String> {
        let is_taken = |name: &str| taken.split([' ', '[', ']']).any(|word| word == name);
        let mut pairs = Vec::new();
        for pair in words.chunks(2) {
            match pair {
                [name, _] if !name.starts_with("--") || !is_taken(name) => {
                    return Err(format!("{name} is no option here; those are {taken}"));
                }
                [name, value] => pairs.push((&**name, &**value)),
                _ => return Err(format!("{} has no value", pair[0])),
            }
        }
        Ok(Self { pairs })
    }

    pub fn find(&self, name: &str) -> Option<&'a str> {
        let found = self.pairs.iter().find(|(given, _)| *given == name);
        found.map(|(_, value)| *value)
    }

    pub fn text(&self, name: &str) -> Result<&'a str, String> {
        self.find(name).ok_or_else(|| format!("{name} is missing"))
    }

    pub fn number<T: FromStr>(&self, name: &str) -> Result<T, String> {
        self.named(name, |text| text.parse().ok())
    }

    pub fn number_or<T: FromStr>(&self, name: &str, usual: T) -> Result<T, String> {
        match self.find(name) {
            None => Ok(usual),
            Some(_) => self.number(name),
        }
    }

    /// Above 0.
    pub fn positive(&self, name: &str) -> Result<usize, String> {
        self.named(name, |text| text.parse().ok().filter(|number| *number > 0))
    }

    /// What the option's value is a name of.
    pub fn named<T>(&self, name: &str, of: impl Fn(&str) -> Option<T>) -> Result<T, String> {
        let text = self.text(name)?;
        of(text).ok_or_else(|| format!("{name} {text}: no such number or name is taken"))
    }
}
