//! From a text to a filter, by recursive descent.

use std::iter::Peekable;

use sheets::filter::{BRACKETS, LEAVES, TEXT};
use sheets::leaf::CONTENT;

use crate::Refusal;
use crate::columns::{Column, Type};
use crate::tokens::{Token, Tokens};
use crate::tree::{Filter, Leaf, Operator, Value};

/// The filter of a text. The text is read to its end before its leaves and brackets are judged.
pub fn read<'a>(columns: &[Column], text: &'a [u8]) -> Result<Filter<'a>, Refusal> {
    if text.len() > TEXT {
        return Err(Refusal::TooLarge);
    }
    let mut parser = Parser { columns, tokens: Tokens::new(text).peekable(), leaves: 0, open: 0, most_open: 0 };
    let filter = parser.or()?;
    if parser.tokens.next().is_some() {
        return Err(Refusal::OutsideGrammar);
    }
    if parser.leaves > LEAVES || parser.most_open > BRACKETS {
        return Err(Refusal::TooLarge);
    }
    Ok(filter)
}

struct Parser<'a, 'c> {
    columns: &'c [Column<'c>],
    tokens: Peekable<Tokens<'a>>,
    leaves: usize,
    open: usize,
    most_open: usize,
}

impl<'a> Parser<'a, '_> {
    fn or(&mut self) -> Result<Filter<'a>, Refusal> {
        let mut filter = self.and()?;
        while self.took_word(b"or") {
            filter = Filter::Or(Box::new(filter), Box::new(self.and()?));
        }
        Ok(filter)
    }

    fn and(&mut self) -> Result<Filter<'a>, Refusal> {
        let mut filter = self.not()?;
        while self.took_word(b"and") {
            filter = Filter::And(Box::new(filter), Box::new(self.not()?));
        }
        Ok(filter)
    }

    fn not(&mut self) -> Result<Filter<'a>, Refusal> {
        match self.token()? {
            Token::Word(b"not") => Ok(Filter::Not(Box::new(self.not()?))),
            Token::Word(name) => self.leaf(name).map(Filter::Leaf),
            Token::Open => self.bracket(),
            _ => Err(Refusal::OutsideGrammar),
        }
    }

    fn bracket(&mut self) -> Result<Filter<'a>, Refusal> {
        self.open += 1;
        self.most_open = self.most_open.max(self.open);
        let filter = self.or()?;
        self.open -= 1;
        match self.token()? {
            Token::Close => Ok(filter),
            _ => Err(Refusal::OutsideGrammar),
        }
    }

    fn leaf(&mut self, name: &[u8]) -> Result<Leaf<'a>, Refusal> {
        self.leaves += 1;
        let column = self.columns.iter().position(|column| column.name == name).ok_or(Refusal::OutsideGrammar)?;
        let operator = match self.token()? {
            Token::Sign(operator) => operator,
            Token::Word(b"startswith") => Operator::StartsWith,
            _ => return Err(Refusal::OutsideGrammar),
        };
        let literal = literal(self.columns[column].column, self.token()?).ok_or(Refusal::OutsideGrammar)?;
        Ok(Leaf { column, operator, literal })
    }

    fn token(&mut self) -> Result<Token<'a>, Refusal> {
        self.tokens.next().unwrap_or(Err(Refusal::OutsideGrammar))
    }

    fn took_word(&mut self, word: &[u8]) -> bool {
        self.tokens.next_if(|token| matches!(token, Ok(Token::Word(w)) if *w == word)).is_some()
    }
}

/// A token as a literal of the type; none where it does not fit.
fn literal(of: Type, token: Token) -> Option<Value> {
    match (of, token) {
        (Type::String, Token::Text(text)) if text.len() <= CONTENT => str::from_utf8(text).ok().map(Value::String),
        (Type::Binary, Token::Text(text)) if text.len() <= CONTENT => Some(Value::Binary(text)),
        (Type::String | Type::Binary, _) => None,
        (Type::Int | Type::Date, Token::Number(number)) => i32::try_from(number).ok().map(|n| Value::Number(n.into())),
        (_, Token::Number(number)) => Some(Value::Number(number)),
        _ => None,
    }
}
