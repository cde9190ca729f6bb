//! A set of the sixteen variables.

/// "variables are 0 to 15".
pub const VARIABLES: usize = 16;

#[derive(Clone, Copy, Debug, Default, PartialEq, Eq)]
pub struct Variables(u16);

impl Variables {
    pub fn insert(&mut self, variable: usize) {
        assert!(variable < VARIABLES);
        self.0 |= 1 << variable;
    }

    pub fn count(self) -> usize {
        self.rising().count()
    }

    pub fn meets(self, other: Self) -> bool {
        self.0 & other.0 != 0
    }

    pub fn joined(self, other: Self) -> Self {
        Self(self.0 | other.0)
    }

    pub fn without(self, other: Self) -> Self {
        Self(self.0 & !other.0)
    }

    pub fn is_within(self, other: Self) -> bool {
        self.without(other) == Self::default()
    }

    /// The variables held, by rising number.
    pub fn rising(self) -> impl Iterator<Item = usize> {
        (0..VARIABLES).filter(move |variable| self.0 >> variable & 1 == 1)
    }
}

impl FromIterator<usize> for Variables {
    fn from_iter<I: IntoIterator<Item = usize>>(variables: I) -> Self {
        let mut set = Self::default();
        for variable in variables {
            set.insert(variable);
        }
        set
    }
}
