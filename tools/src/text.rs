//! Pieces of text with line and column, and what is wrong with them.

use std::fmt;
use std::str;

/// What is wrong in a text, and where: line and column from 1 on, a column for
/// each character.
#[derive(Clone, Debug, PartialEq, Eq)]
pub struct Fault {
    pub line: usize,
    pub column: usize,
    pub what: String,
}

impl fmt::Display for Fault {
    fn fmt(&self, f: &mut fmt::Formatter) -> fmt::Result {
        write!(
            f,
            "line {}, column {}: {}",
            self.line, self.column, self.what
        )
    }
}

impl From<Fault> for String {
    fn from(fault: Fault) -> String {
        fault.to_string()
    }
}

/// The text that these bytes are, in UTF-8. A mark of byte order is left out
/// and has no column.
pub fn of_bytes(bytes: &[u8]) -> Result<&str, Fault> {
    let bytes = bytes.strip_prefix(b"\xef\xbb\xbf").unwrap_or(bytes);
    str::from_utf8(bytes).map_err(|error| {
        let good = String::from_utf8_lossy(&bytes[..error.valid_up_to()]);
        let last = good.rsplit('\n').next().unwrap_or("");
        Fault {
            line: 1 + good.matches('\n').count(),
            column: 1 + last.chars().count(),
            what: String::from("this is no UTF-8 text"),
        }
    })
}

/// A part of a line, and where it stands.
#[derive(Clone, Copy, Debug)]
pub struct Piece<'a> {
    pub line: usize,
    pub column: usize,
    pub text: &'a str,
}

impl<'a> Piece<'a> {
    /// The first line of a text.
    pub fn first(text: &'a str) -> Piece<'a> {
        let (line, column) = (1, 1);
        Piece { line, column, text }
    }

    /// The lines of a text that say something: not the blank ones, and not those
    /// that begin with `#`.
    pub fn lines(text: &'a str) -> impl Iterator<Item = Piece<'a>> {
        let lines = (1..).zip(text.lines());
        let lines = lines.map(|(line, text)| Piece {
            line,
            ..Piece::first(text)
        });
        let says_something = |line: &Piece| !line.text.is_empty() && !line.text.starts_with('#');
        lines.map(Piece::trim).filter(says_something)
    }

    /// The words of a line, with blanks or tabs between them.
    pub fn words(self) -> impl Iterator<Item = Piece<'a>> {
        let pieces = self.split(char::is_whitespace);
        pieces.filter(|piece| !piece.text.is_empty())
    }

    /// Whether it is this word, in small or capital letters.
    pub fn is(self, word: &str) -> bool {
        self.text.to_lowercase() == word
    }

    /// The parts between these marks, without blanks around them.
    pub fn split(self, mark: fn(char) -> bool) -> impl Iterator<Item = Piece<'a>> {
        let mut column = self.column;
        self.text.split(mark).map(move |text| {
            let piece = Piece {
                text,
                column,
                ..self
            };
            column += text.chars().count() + 1;
            piece.trim()
        })
    }

    /// The parts of a line, if these are K; else what a line is.
    pub fn parts<const K: usize>(
        self,
        parts: impl Iterator<Item = Piece<'a>>,
        line_is: String,
    ) -> Result<[Piece<'a>; K], Fault> {
        let parts: Vec<Piece> = parts.collect();
        parts
            .try_into()
            .map_err(|parts: Vec<Piece>| match parts.get(K) {
                Some(over) => over.fault(line_is),
                None => self.fault_behind(self.text.chars().count(), line_is),
            })
    }

    fn trim(self) -> Piece<'a> {
        let text = self.text.trim_start();
        let blanks = self.text.chars().count() - text.chars().count();
        Piece {
            column: self.column + blanks,
            text: text.trim_end(),
            ..self
        }
    }

    /// The number that the piece is: digits only, and no more than a word holds.
    pub fn number(self) -> Result<u32, Fault> {
        if self.text.is_empty() {
            return Err(self.fault("a number is missing"));
        }
        let mut marks = self.text.chars().enumerate();
        if let Some((place, mark)) = marks.find(|(_, mark)| !mark.is_ascii_digit()) {
            return Err(self.fault_behind(place, self.no_number(place, mark)));
        }
        let number = self.text.parse();
        number.map_err(|_| self.fault("the number is above 4,294,967,295"))
    }

    /// The number of a node, of which there are N.
    pub fn below(self, n: u32) -> Result<u32, Fault> {
        match self.number()? {
            node if node < n => Ok(node),
            _ => Err(self.fault(format!("the node is not below N, which is {n}"))),
        }
    }

    /// Why the piece is no number: this mark stands in it, behind so many digits.
    fn no_number(self, digits: usize, mark: char) -> String {
        let text = self.quoted();
        match mark {
            '+' | '-' | '\u{2212}' => format!("{text} has a sign: a number is digits only"),
            '.' => format!("{text} has a point: only whole numbers, without a point"),
            ',' => format!("{text} has a comma: words have blanks between them"),
            'e' | 'E' if digits > 0 => format!("{text} has an exponent: write out all digits"),
            _ => format!("'{}' is no digit", mark.escape_debug()),
        }
    }

    /// The piece in quotes, cut short where it is long.
    pub fn quoted(self) -> String {
        const MOST: usize = 40;
        let front: String = self.text.chars().take(MOST).collect();
        let rest = if front == self.text { "" } else { "..." };
        format!("'{}{rest}'", front.escape_debug())
    }

    /// A fault at the beginning of the piece.
    pub fn fault(self, what: impl Into<String>) -> Fault {
        self.fault_behind(0, what)
    }

    /// A fault behind so many characters of the piece.
    pub fn fault_behind(self, characters: usize, what: impl Into<String>) -> Fault {
        Fault {
            line: self.line,
            column: self.column + characters,
            what: what.into(),
        }
    }
}
