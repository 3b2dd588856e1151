use crate::padded::Text as _;

/// A text that is padded as strings are, or as numbers are.
enum Padded {
    Words(&'static str),
    Number(&'static str),
}

impl crate::padded::Text for Padded {
    fn write_to<W: fmt::Write>(&self, f: &mut W) -> fmt::Result {
        let (Padded::Words(text) | Padded::Number(text)) = self;
        f.write_str(text)
    }
}

impl fmt::Display for Padded {
    fn fmt(&self, f: &mut fmt::Formatter<'_>) -> fmt::Result {
        match self {
            Padded::Words(_) => self.pad(f),
            Padded::Number(_) => self.pad_number(f),
        }
    }
}
