//! A file of the original's: its functions, and the operators in their bodies with what each may become.

use std::ops::Range;

/// What stands at a place is replaced.
#[derive(Clone)]
pub struct Change {
    pub place: Range<usize>,
    pub new: String,
}

pub struct Function {
    pub name: String,
    /// Between its braces.
    pub body: Range<usize>,
    /// Whether its result has a type that its body alone names, so that no other body can give it.
    pub is_opaque: bool,
}

/// A word, a number, a lifetime, a string, or an operator or bracket.
type Token = Range<usize>;

pub struct Source {
    pub name: String,
    pub text: String,
    tokens: Vec<Token>,
}

/// Operators of more than one sign, the longer first.
const LONG: [&str; 18] = [
    "..=", "<<=", ">>=", "..", "->", "=>", "==", "!=", "<=", ">=", "&&", "||", "+=", "-=", "*=",
    "/=", "::", "%=",
];

/// Operators between two operands: rustfmt puts spaces around them, and none around a type's brackets.
const BETWEEN: [(&str, &str); 14] = [
    ("<", "<="),
    ("<=", "<"),
    (">", ">="),
    (">=", ">"),
    ("==", "!="),
    ("!=", "=="),
    ("+", "-"),
    ("-", "+"),
    ("*", "+"),
    ("/", "*"),
    ("&&", "||"),
    ("||", "&&"),
    ("+=", "-="),
    ("-=", "+="),
];

/// Functions, constants and statements that stand for an operator.
const WORDS: [(&str, &str); 20] = [
    ("min", "max"),
    ("max", "min"),
    ("any", "all"),
    ("all", "any"),
    ("first", "last"),
    ("last", "first"),
    ("is_some", "is_none"),
    ("is_none", "is_some"),
    ("checked_add", "checked_sub"),
    ("saturating_sub", "saturating_add"),
    ("or", "and"),
    ("true", "false"),
    ("false", "true"),
    ("continue", "break"),
    ("First", "Last"),
    ("Last", "First"),
    ("Outer", "Inner"),
    ("Left", "Right"),
    ("Right", "Left"),
    ("last_mut", "first_mut"),
];

fn counterpart(table: &[(&str, &str)], text: &str) -> Option<String> {
    let row = table.iter().find(|(from, _)| *from == text);
    row.map(|(_, to)| to.to_string())
}

fn is_word(byte: u8) -> bool {
    byte.is_ascii_alphanumeric() || byte == b'_'
}

/// How many bytes from the first on meet this.
fn count_while(text: &[u8], meets: impl Fn(u8) -> bool) -> usize {
    text.iter().take_while(|&&byte| meets(byte)).count()
}

/// The length of a string or of a character, with its quotes.
fn quoted_length(text: &[u8]) -> usize {
    let mut length = 1;
    while text[length] != text[0] {
        length += if text[length] == b'\\' { 2 } else { 1 };
    }
    length + 1
}

/// The length of brackets and all between them.
fn bracketed_length(text: &[u8]) -> usize {
    let mut depth = 0;
    let closes = |&byte: &u8| {
        depth += i32::from(byte == b'[') - i32::from(byte == b']');
        depth == 0
    };
    text.iter()
        .position(closes)
        .map_or(text.len(), |last| last + 1)
}

/// The length of what is no code: white space, a comment or an attribute; 0 where code starts.
fn skipped_length(text: &str) -> usize {
    let bytes = text.as_bytes();
    match bytes {
        [b'/', b'/', ..] => text.find('\n').unwrap_or(text.len()),
        [b'#', b'[', ..] => 1 + bracketed_length(&bytes[1..]),
        _ => count_while(bytes, |byte| byte.is_ascii_whitespace()),
    }
}

/// The length of the token that a text starts with.
fn token_length(text: &str) -> usize {
    let bytes = text.as_bytes();
    match bytes {
        [b'"', ..] | [b'\'', _, b'\'', ..] | [b'\'', b'\\', ..] => quoted_length(bytes),
        [b'\'', ..] => 1 + count_while(&bytes[1..], is_word),
        [first, ..] if is_word(*first) => count_while(bytes, is_word),
        _ => {
            let long = LONG.iter().find(|long| text.starts_with(**long));
            long.map_or(text.chars().next().map_or(0, char::len_utf8), |long| {
                long.len()
            })
        }
    }
}

fn tokens(text: &str) -> Vec<Token> {
    let mut tokens = Vec::new();
    let mut at = 0;
    while at < text.len() {
        match skipped_length(&text[at..]) {
            0 => {
                let length = token_length(&text[at..]);
                tokens.push(at..at + length);
                at += length;
            }
            skipped => at += skipped,
        }
    }
    tokens
}

impl Source {
    pub fn new(name: String, text: String) -> Self {
        let tokens = tokens(&text);
        Source { name, text, tokens }
    }

    fn token(&self, index: usize) -> &str {
        self.tokens
            .get(index)
            .map_or("", |token| &self.text[token.clone()])
    }

    /// The token that closes the bracket at `open`.
    fn closing(&self, open: usize) -> usize {
        let mut depth = 0;
        let closes = |&index: &usize| {
            depth += match self.token(index) {
                "(" | "[" | "{" => 1,
                ")" | "]" | "}" => -1,
                _ => 0,
            };
            depth == 0
        };
        let closing = (open..self.tokens.len()).find(closes);
        closing.expect("brackets are closed")
    }

    /// The braces of the function whose `fn` is at this token, if it has a body.
    fn braces(&self, fn_at: usize) -> Option<[usize; 2]> {
        let mut at = fn_at;
        loop {
            match self.token(at) {
                "(" | "[" => at = self.closing(at) + 1,
                "{" => return Some([at, self.closing(at)]),
                ";" | "" => return None,
                _ => at += 1,
            }
        }
    }

    pub fn functions(&self) -> Vec<Function> {
        let fns = (0..self.tokens.len()).filter(|&index| self.token(index) == "fn");
        let function = |fn_at: usize| {
            let [open, close] = self.braces(fn_at)?;
            // In a macro's rule a name may be a variable.
            let name = match self.token(fn_at + 1) {
                "$" => fn_at + 2,
                _ => fn_at + 1,
            };
            let signature = &self.text[self.tokens[fn_at].start..self.tokens[open].start];
            Some(Function {
                name: self.token(name).to_string(),
                body: self.tokens[open].end..self.tokens[close].start,
                is_opaque: signature.contains("-> impl"),
            })
        };
        fns.filter_map(function).collect()
    }

    /// The changes of each operator between these places, one at a time.
    pub fn changes(&self, body: &Range<usize>) -> Vec<Change> {
        let mut changes = Vec::new();
        let start = self
            .tokens
            .partition_point(|token| token.start < body.start);
        let mut index = start;
        while index < self.tokens.len() && self.tokens[index].start < body.end {
            // These are not compiled for release.
            if self.token(index).starts_with("debug_assert") {
                index = self.closing(index + 2);
            }
            let place = &self.tokens[index];
            let news = self.replacements(index).into_iter();
            changes.extend(news.map(|new| Change {
                place: place.clone(),
                new,
            }));
            index += 1;
        }
        changes
    }

    /// What may stand in the place of a token.
    fn replacements(&self, index: usize) -> Vec<String> {
        let text = self.token(index);
        if let Ok(number) = text.parse::<u64>() {
            return self.other_numbers(index, number);
        }
        let new = match text {
            "!" | "-" if !self.is_spaced(index) => self.is_before_operand(index).then(String::new),
            ".." => self.has_limit(index).then(|| "..=".to_string()),
            "..=" => Some("..".to_string()),
            _ if self.is_spaced(index) => counterpart(&BETWEEN, text),
            _ => None,
        };
        Vec::from_iter(new.or_else(|| counterpart(&WORDS, text)))
    }

    /// The neighbours of a number that is no field.
    fn other_numbers(&self, index: usize, number: u64) -> Vec<String> {
        if self.token(index - 1) == "." {
            return Vec::new();
        }
        let neighbours = [number.checked_sub(1), Some(number + 1)];
        neighbours
            .into_iter()
            .flatten()
            .map(|n| n.to_string())
            .collect()
    }

    fn is_spaced(&self, index: usize) -> bool {
        let Range { start, end } = self.tokens[index];
        let text = self.text.as_bytes();
        text[start - 1].is_ascii_whitespace() && text[end].is_ascii_whitespace()
    }

    fn starts_word(&self, index: usize) -> bool {
        self.token(index).bytes().next().is_some_and(is_word)
    }

    /// Whether an operator belongs to what follows alone: no macro's sign, nor between two operands.
    fn is_before_operand(&self, index: usize) -> bool {
        let touches = self.tokens[index - 1].end == self.tokens[index].start;
        let operand = self.starts_word(index + 1) || self.token(index + 1) == "(";
        operand && !(touches && self.starts_word(index - 1))
    }

    /// Whether a range ends somewhere.
    fn has_limit(&self, index: usize) -> bool {
        self.starts_word(index + 1) || self.token(index + 1) == "("
    }

    pub fn line(&self, place: usize) -> usize {
        1 + self.text[..place].matches('\n').count()
    }

    pub fn line_text(&self, place: usize) -> &str {
        let line = self.text.lines().nth(self.line(place) - 1);
        line.unwrap_or("").trim()
    }

    /// The text with these changes, of which none overlaps another.
    pub fn changed(&self, changes: &[Change]) -> String {
        self.changed_within(0..self.text.len(), changes)
    }

    fn changed_within(&self, part: Range<usize>, changes: &[Change]) -> String {
        let mut text = self.text[part.clone()].to_string();
        for Change { place, new } in changes.iter().rev() {
            text.replace_range(place.start - part.start..place.end - part.start, new);
        }
        text
    }

    /// A body that has all of these changes, by their numbers, and does the one that is switched on.
    pub fn switch(&self, body: &Range<usize>, changes: &[(usize, Change)]) -> Change {
        let mut new = String::from(" match crate::mutant() {\n");
        for (number, change) in changes {
            let changed = self.changed_within(body.clone(), std::slice::from_ref(change));
            new += &format!("{SWITCHED}{number}\n{number} => {{{changed}}}\n{SWITCHED_END}\n");
        }
        new += &format!("_ => {{{}}} }}", &self.text[body.clone()]);
        Change {
            place: body.clone(),
            new,
        }
    }
}

/// What stands in a line before a change of a switch, with its number, and behind it.
const SWITCHED: &str = "// change ";
const SWITCHED_END: &str = "// end of change";

/// The change of a switch in which this line of a text is.
pub fn change_at_line(text: &str, line: usize) -> Option<usize> {
    let marks = text.lines().take(line).filter_map(|line| match line {
        SWITCHED_END => Some(None),
        _ => line
            .strip_prefix(SWITCHED)
            .map(|number| number.parse().ok()),
    });
    marks.last().flatten()
}
