//! Words, names, numbers, strings and signs.

use super::{Parsed, error};

#[derive(Debug, Clone, PartialEq, Eq)]
pub enum Kind {
    /// A keyword or an unquoted name.
    Word(String),
    /// `unquoted"x y"`: never a keyword.
    UnquotedName(String),
    QuotedName(String),
    Number(String),
    Text(String),
    /// A literal of another kind, as `X'00'`, `?` or `$1`.
    OtherLiteral,
    Sign(&'static str),
    End,
}

#[derive(Debug, Clone, PartialEq, Eq)]
pub struct Token {
    pub kind: Kind,
    pub at: usize,
}

/// Longer signs first.
const SIGNS: [&str; 40] = [
    "<=>", "<>", "!=", "<=", ">=", "==", "||", "<<", ">>", "::", "->", "(", ")", "[", "]", "{", "}", ",", ";", ".",
    "=", "<", ">", "+", "-", "*", "/", "%", "^", "&", "|", "~", "@", "#", "!", ":", "?", "$", "\\", "`",
];

pub fn tokens(text: &str) -> Parsed<Vec<Token>> {
    let mut tokenizer = Tokenizer { text, at: 0 };
    let mut tokens = Vec::new();
    loop {
        tokenizer.skip_space()?;
        let at = tokenizer.at;
        let kind = tokenizer.token()?;
        let end = kind == Kind::End;
        tokens.push(Token { kind, at });
        if end {
            return Ok(tokens);
        }
    }
}

struct Tokenizer<'a> {
    text: &'a str,
    at: usize,
}

impl<'a> Tokenizer<'a> {
    fn rest(&self) -> &'a str {
        &self.text[self.at..]
    }

    fn peek(&self) -> Option<char> {
        self.rest().chars().next()
    }

    fn take_while(&mut self, wanted: impl Fn(char) -> bool) -> &'a str {
        let rest = self.rest();
        let length = rest.find(|letter| !wanted(letter)).unwrap_or(rest.len());
        self.at += length;
        &rest[..length]
    }

    /// Spaces, `-- ..` to the end of the line, and `/* .. */`.
    fn skip_space(&mut self) -> Parsed<()> {
        loop {
            let before = self.at;
            self.take_while(char::is_whitespace);
            if self.rest().starts_with("--") {
                self.take_while(|letter| letter != '\n');
            }
            if self.rest().starts_with("/*") {
                match self.rest().find("*/") {
                    Some(length) => self.at += length + 2,
                    None => return error(self.at, "the comment has no end"),
                }
            }
            if self.at == before {
                return Ok(());
            }
        }
    }

    fn token(&mut self) -> Parsed<Kind> {
        match self.peek() {
            None => Ok(Kind::End),
            Some('"') => Ok(Kind::QuotedName(self.quoted('"')?)),
            Some('`') => Ok(Kind::QuotedName(self.quoted('`')?)),
            Some('\'') => Ok(Kind::Text(self.quoted('\'')?)),
            Some(letter) if letter.is_alphabetic() || letter == '_' => self.word(),
            Some(letter) if letter.is_ascii_digit() => Ok(self.number()),
            Some('.') if self.rest()[1..].starts_with(|letter: char| letter.is_ascii_digit()) => Ok(self.number()),
            Some('?') => self.placeholder(),
            Some('$') => self.placeholder(),
            Some(_) => self.sign(),
        }
    }

    /// Up to the closing quote; a doubled quote stands for one.
    fn quoted(&mut self, quote: char) -> Parsed<String> {
        let start = self.at;
        let mut value = String::new();
        self.at += 1;
        loop {
            value.push_str(self.take_while(|letter| letter != quote));
            if self.peek().is_none() {
                return error(start, format!("the closing {quote} is missing"));
            }
            self.at += 1;
            if self.peek() != Some(quote) {
                return Ok(value);
            }
            value.push(quote);
            self.at += 1;
        }
    }

    fn word(&mut self) -> Parsed<Kind> {
        let word = self.take_while(|letter| letter.is_alphanumeric() || letter == '_' || letter == '$');
        match (word, self.peek()) {
            ("unquoted", Some('"')) => Ok(Kind::UnquotedName(self.quoted('"')?)),
            ("number", Some('\'')) => Ok(Kind::Number(self.quoted('\'')?)),
            ("X" | "x" | "N" | "n" | "B" | "b" | "E" | "e" | "R" | "r", Some('\'')) => {
                self.quoted('\'')?;
                Ok(Kind::OtherLiteral)
            }
            _ => Ok(Kind::Word(word.to_string())),
        }
    }

    fn number(&mut self) -> Kind {
        let start = self.at;
        let digits = |letter: char| letter.is_ascii_digit();
        if self.rest().starts_with("0x") {
            self.at += 2;
            self.take_while(|letter| letter.is_ascii_hexdigit());
            return Kind::OtherLiteral;
        }
        self.take_while(digits);
        if self.rest().starts_with('.') {
            self.at += 1;
            self.take_while(digits);
        }
        self.exponent();
        Kind::Number(self.text[start..self.at].to_string())
    }

    /// An `e` belongs to the number only if digits follow.
    fn exponent(&mut self) {
        let rest = self.rest();
        let Some(after) = rest.strip_prefix(['e', 'E']) else { return };
        let unsigned = after.strip_prefix(['+', '-']).unwrap_or(after);
        if unsigned.starts_with(|letter: char| letter.is_ascii_digit()) {
            self.at += rest.len() - unsigned.len();
            self.take_while(|letter| letter.is_ascii_digit());
        }
    }

    fn placeholder(&mut self) -> Parsed<Kind> {
        self.at += 1;
        self.take_while(|letter| letter.is_ascii_alphanumeric());
        Ok(Kind::OtherLiteral)
    }

    fn sign(&mut self) -> Parsed<Kind> {
        match SIGNS.iter().find(|sign| self.rest().starts_with(**sign)) {
            Some(sign) => {
                self.at += sign.len();
                Ok(Kind::Sign(sign))
            }
            None => error(self.at, format!("{:?} starts nothing", self.peek().unwrap_or(' '))),
        }
    }
}

/// A place among tokens.
pub struct Cursor {
    tokens: Vec<Token>,
    place: usize,
}

impl Cursor {
    pub fn new(text: &str) -> Parsed<Self> {
        Ok(Cursor { tokens: tokens(text)?, place: 0 })
    }

    pub fn kind(&self) -> &Kind {
        &self.tokens[self.place].kind
    }

    /// The kind `steps` tokens on.
    pub fn later(&self, steps: usize) -> &Kind {
        &self.tokens[(self.place + steps).min(self.tokens.len() - 1)].kind
    }

    pub fn at(&self) -> usize {
        self.tokens[self.place].at
    }

    pub fn step(&mut self) {
        self.place = (self.place + 1).min(self.tokens.len() - 1);
    }

    pub fn at_end(&self) -> bool {
        *self.kind() == Kind::End
    }

    pub fn fail<T>(&self, wanted: &str) -> Parsed<T> {
        let found = match self.kind() {
            Kind::End => "the end".to_string(),
            Kind::Word(word) | Kind::UnquotedName(word) => word.clone(),
            Kind::QuotedName(name) => format!("{name:?}"),
            Kind::Number(number) => number.clone(),
            Kind::Text(text) => format!("'{text}'"),
            Kind::OtherLiteral => "a literal".to_string(),
            Kind::Sign(sign) => sign.to_string(),
        };
        error(self.at(), format!("{wanted} is expected, and {found} stands here"))
    }

    pub fn is_word_later(&self, steps: usize, word: &str) -> bool {
        matches!(self.later(steps), Kind::Word(have) if have.eq_ignore_ascii_case(word))
    }

    pub fn is_word(&self, word: &str) -> bool {
        self.is_word_later(0, word)
    }

    pub fn is_any_word(&self, words: &[&str]) -> bool {
        words.iter().any(|word| self.is_word(word))
    }

    pub fn is_sign_later(&self, steps: usize, sign: &str) -> bool {
        matches!(self.later(steps), Kind::Sign(have) if *have == sign)
    }

    pub fn is_sign(&self, sign: &str) -> bool {
        self.is_sign_later(0, sign)
    }

    pub fn eat_word(&mut self, word: &str) -> bool {
        let found = self.is_word(word);
        if found {
            self.step();
        }
        found
    }

    pub fn eat_words(&mut self, words: &[&str]) -> bool {
        let found = words.iter().enumerate().all(|(steps, word)| self.is_word_later(steps, word));
        if found {
            words.iter().for_each(|_| self.step());
        }
        found
    }

    pub fn eat_any_word(&mut self, words: &[&str]) -> bool {
        words.iter().any(|word| self.eat_word(word))
    }

    pub fn eat_sign(&mut self, sign: &str) -> bool {
        let found = self.is_sign(sign);
        if found {
            self.step();
        }
        found
    }

    pub fn expect_word(&mut self, word: &str) -> Parsed<()> {
        if self.eat_word(word) { Ok(()) } else { self.fail(word) }
    }

    pub fn expect_sign(&mut self, sign: &str) -> Parsed<()> {
        if self.eat_sign(sign) { Ok(()) } else { self.fail(sign) }
    }

    /// Passes over one token, or over everything from an opening to its closing parenthesis.
    pub fn skip_one(&mut self) -> Parsed<()> {
        let start = self.at();
        let mut open = 0;
        loop {
            match self.kind() {
                Kind::End if open > 0 => return error(start, "the closing parenthesis is missing"),
                Kind::End => return self.fail("more"),
                Kind::Sign("(") => open += 1,
                Kind::Sign(")") if open == 0 => return self.fail("something else"),
                Kind::Sign(")") => open -= 1,
                _ => {}
            }
            self.step();
            if open == 0 {
                return Ok(());
            }
        }
    }

    /// Passes over everything up to one of `words`, a closing parenthesis or the end. What stands in parentheses is
    /// passed over whole.
    pub fn skip_until(&mut self, words: &[&str]) -> Parsed<()> {
        while !self.at_end() && !self.is_sign(")") && !self.is_sign(";") && !self.is_any_word(words) {
            self.skip_one()?;
        }
        Ok(())
    }

    /// As `skip_until`, and a comma stops it as well.
    pub fn skip_entry(&mut self, words: &[&str]) -> Parsed<()> {
        while !self.at_end()
            && !self.is_sign(")")
            && !self.is_sign(",")
            && !self.is_sign(";")
            && !self.is_any_word(words)
        {
            self.skip_one()?;
        }
        Ok(())
    }

    /// Entries with commas between, up to a closing parenthesis that is used up. There may be none.
    pub fn parenthesized<T>(&mut self, mut entry: impl FnMut(&mut Cursor) -> Parsed<T>) -> Parsed<Vec<T>> {
        let mut entries = Vec::new();
        self.expect_sign("(")?;
        if self.eat_sign(")") {
            return Ok(entries);
        }
        loop {
            entries.push(entry(self)?);
            if !self.eat_sign(",") {
                self.expect_sign(")")?;
                return Ok(entries);
            }
        }
    }
}
