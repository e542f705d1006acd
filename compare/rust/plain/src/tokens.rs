//! The words, signs and literals of a text.

use crate::Refusal;
use crate::tree::Operator;

#[derive(Clone, Copy)]
pub enum Token<'a> {
    Word(&'a [u8]),
    Sign(Operator),
    Number(i64),
    Text(&'a [u8]),
    Open,
    Close,
}

pub struct Tokens<'a> {
    rest: &'a [u8],
}

impl<'a> Tokens<'a> {
    pub fn new(text: &'a [u8]) -> Self {
        Tokens { rest: text }
    }

    fn take(&mut self, length: usize) -> &'a [u8] {
        let (taken, rest) = self.rest.split_at(length);
        self.rest = rest;
        taken
    }

    fn take_while(&mut self, first: usize, is_of: impl Fn(&u8) -> bool) -> &'a [u8] {
        let more = self.rest[first..].iter().position(|byte| !is_of(byte));
        self.take(more.map_or(self.rest.len(), |more| first + more))
    }

    fn sign(&mut self, length: usize, operator: Operator) -> Result<Token<'a>, Refusal> {
        self.take(length);
        Ok(Token::Sign(operator))
    }

    fn bracket(&mut self, token: Token<'a>) -> Result<Token<'a>, Refusal> {
        self.take(1);
        Ok(token)
    }

    /// A number that 64 bits do not hold is outside every type.
    fn number(&mut self, first: usize) -> Result<Token<'a>, Refusal> {
        let decimal = str::from_utf8(self.take_while(first, u8::is_ascii_digit)).expect("digits and a minus");
        decimal.parse().map(Token::Number).map_err(|_| Refusal::OutsideGrammar)
    }

    fn text(&mut self) -> Result<Token<'a>, Refusal> {
        self.take(1);
        let length = self.rest.iter().position(|byte| *byte == b'\'').ok_or(Refusal::OutsideGrammar)?;
        let text = self.take(length);
        self.take(1);
        Ok(Token::Text(text))
    }
}

impl<'a> Iterator for Tokens<'a> {
    type Item = Result<Token<'a>, Refusal>;

    fn next(&mut self) -> Option<Self::Item> {
        let spaces = self.rest.iter().position(|byte| *byte != b' ')?;
        self.take(spaces);
        Some(match self.rest {
            [b'a'..=b'z', ..] => Ok(Token::Word(self.take_while(1, u8::is_ascii_lowercase))),
            [b'0'..=b'9', ..] => self.number(1),
            [b'-', b'0'..=b'9', ..] => self.number(2),
            [b'\'', ..] => self.text(),
            [b'(', ..] => self.bracket(Token::Open),
            [b')', ..] => self.bracket(Token::Close),
            [b'<', b'=', ..] => self.sign(2, Operator::LessOrEqual),
            [b'<', ..] => self.sign(1, Operator::Less),
            [b'>', b'=', ..] => self.sign(2, Operator::GreaterOrEqual),
            [b'>', ..] => self.sign(1, Operator::Greater),
            [b'=', ..] => self.sign(1, Operator::Equal),
            [b'!', b'=', ..] => self.sign(2, Operator::NotEqual),
            _ => Err(Refusal::OutsideGrammar),
        })
    }
}
