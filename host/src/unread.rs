//! Lists from elsewhere, W-203: yes or no, and which of the two texts a refusal speaks of.

use crate::Refusal;
use std::fmt;

/// One of the two texts that [`agrees`](crate::agrees) takes.
#[derive(Clone, Copy, Debug, PartialEq, Eq)]
pub enum Text {
    Script,
    List,
}

/// A text that can't be read, by 1 or 2: "script before list".
#[derive(Clone, Copy, Debug, PartialEq, Eq)]
pub struct Unread {
    pub text: Text,
    pub refusal: Refusal,
}

impl fmt::Display for Unread {
    fn fmt(&self, f: &mut fmt::Formatter<'_>) -> fmt::Result {
        let text = match self.text {
            Text::Script => "script",
            Text::List => "list",
        };
        write!(f, "the {text} is {}", self.refusal)
    }
}

impl std::error::Error for Unread {}

/// A list that is read whatever the script is.
#[cfg(agrees)]
const READABLE: &[u8] = b"900000\n";

/// `ask` says yes, no or the refusal of a script and a list. With a list that can be read a refusal is the script's.
#[cfg(agrees)]
pub(crate) fn told(
    script: &[u8],
    list: &[u8],
    ask: fn(&[u8], &[u8]) -> Result<bool, Refusal>,
) -> Result<bool, Unread> {
    ask(script, list).map_err(|refusal| {
        let text = match ask(script, READABLE) {
            Err(_) => Text::Script,
            Ok(_) => Text::List,
        };
        Unread { text, refusal }
    })
}
