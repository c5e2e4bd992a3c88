//! Stand-in: something and its name, shown.

use std::fmt;

pub(super) struct DisplayNamed<T> {
    inner: T,
    name: Option<&'static str>,
}

impl<T> DisplayNamed<T> {
    pub(super) fn new(inner: T, name: Option<&'static str>) -> Self {
        DisplayNamed { inner, name }
    }
}

impl<T: fmt::Display> fmt::Display for DisplayNamed<T> {
    fn fmt(&self, f: &mut fmt::Formatter<'_>) -> fmt::Result {
        match self.name {
            Some(name) => write!(f, "{} `{name}`", self.inner),
            None => self.inner.fmt(f),
        }
    }
}
