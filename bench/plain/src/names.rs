//! What the names of a script stand for.

/// A name's number, from 0 to 63.
pub type Name = u8;

pub struct Names<T>([Option<T>; 64]);

impl<T> Default for Names<T> {
    fn default() -> Names<T> {
        Names([const { None }; 64])
    }
}

impl<T> Names<T> {
    pub fn get(&self, name: Name) -> Option<&T> {
        self.0[usize::from(name)].as_ref()
    }

    /// The place of a name that stands for nothing.
    pub fn vacant(&mut self, name: Name) -> Option<&mut Option<T>> {
        Some(&mut self.0[usize::from(name)]).filter(|place| place.is_none())
    }

    pub fn get_mut(&mut self, name: Name) -> Option<&mut T> {
        self.0[usize::from(name)].as_mut()
    }

    pub fn set(&mut self, name: Name, value: T) {
        self.0[usize::from(name)] = Some(value);
    }

    pub fn take(&mut self, name: Name) -> Option<T> {
        self.0[usize::from(name)].take()
    }

    pub fn iter(&self) -> impl Iterator<Item = (Name, &T)> {
        (0..)
            .zip(&self.0)
            .filter_map(|(name, value)| Some((name, value.as_ref()?)))
    }
}
