//! Names that suit the other kind of text: each is kept if it suits, or else made of letters, digits and `_`.

use std::collections::{HashMap, HashSet};

/// The names of one text by those of another.
#[derive(Debug, Default)]
pub struct Renaming<'a> {
    given: HashMap<&'a str, String>,
    taken: HashSet<String>,
    /// The names that are other ones now, in order.
    pub changed: Vec<(&'a str, String)>,
}

impl<'a> Renaming<'a> {
    /// A renaming that keeps the names that suit, and gives each other one a name of its own.
    pub fn new(names: impl Iterator<Item = &'a str> + Clone, suits: impl Fn(&str) -> bool) -> Self {
        let kept = names.clone().filter(|name| suits(name)).map(str::to_string).collect();
        let mut renaming = Renaming { taken: kept, ..Renaming::default() };
        for name in names {
            if suits(name) {
                renaming.given.insert(name, name.into());
            } else if !renaming.given.contains_key(name) {
                let new = renaming.free(name, &suits);
                renaming.taken.insert(new.clone());
                renaming.given.insert(name, new.clone());
                renaming.changed.push((name, new));
            }
        }
        renaming
    }

    /// A free name like another one.
    fn free(&self, name: &str, suits: impl Fn(&str) -> bool) -> String {
        let plain: String = name.chars().map(|sign| if sign.is_alphanumeric() { sign } else { '_' }).collect();
        let numbered = (1..).map(|number| format!("{plain}_{number}"));
        let mut candidates = std::iter::once(plain.clone()).chain(numbered);
        candidates.find(|name| suits(name) && !self.taken.contains(name)).unwrap_or(plain)
    }

    /// The name that another one is given.
    pub fn get(&self, name: &str) -> &str {
        self.given.get(name).map_or("_", String::as_str)
    }
}
