//! A filter in words, with its columns and a row, and what it is answered.

use weighpick::{Columns, Error, Filter, Refusal, RowError, Transform, Type, Value};

use super::{column_type, literal, take, text, transform, BREAK, MISSING};

/// A column: its name, its type and its transform.
type Column<'a> = (&'a str, Type, Transform);

/// What the words ask: a filter's text, its columns, and the values of a row.
pub struct Asked {
    text: String,
    columns: Columns,
    values: Vec<Value>,
}

/// What the words ask, or what is wrong with them.
pub fn asked(words: &[impl AsRef<str>]) -> Result<Asked, String> {
    let mut words = words.iter().map(AsRef::as_ref);
    let text = take(&mut words, "filter")?.to_string();
    let columns = words.by_ref().take_while(|word| *word != BREAK);
    let columns: Result<Vec<Column<'_>>, String> = columns.map(column).collect();
    let columns = Columns::new(columns?).map_err(|wrong| wrong.to_string())?;
    let words: Vec<&str> = words.collect();
    let (expected, found) = (columns.iter().len(), words.len());
    if found != expected {
        return Err(RowError::WrongCount { expected, found }.to_string());
    }
    let values = columns.iter().zip(words);
    let values = values.map(|((_, column_type, _), word)| value(column_type, word));
    let values = values.collect::<Result<_, _>>()?;
    Ok(Asked {
        text,
        columns,
        values,
    })
}

/// A column as a word: its name, an equals sign, and its type and transform with colons between them.
fn column(word: &str) -> Result<Column<'_>, String> {
    let (name, rest) = word
        .split_once('=')
        .ok_or_else(|| format!("`{word}` is no column"))?;
    let mut words = rest.split(':');
    let column_type = column_type(take(&mut words, "type")?)?;
    let transform = transform(&mut words)?;
    match words.next() {
        None => Ok((name, column_type, transform)),
        Some(more) => Err(format!("`{more}` is too much of a column")),
    }
}

/// A value of a type, or a missing one.
fn value(column_type: Type, word: &str) -> Result<Value, String> {
    match word {
        MISSING => Ok(Value::Missing),
        _ => Ok(literal(column_type, word)?.into()),
    }
}

impl Asked {
    /// The answers, a line for each with its newline: of the row; its partition values; of these, under both questions.
    pub fn lines(&self) -> Result<String, String> {
        let filter = Filter::new(&self.columns, &self.text);
        let row = self.columns.row(&self.values).map_err(|e| e.to_string())?;
        let row = format!("row {}\n", number(filter.row(&row)));
        let values = match self.partition_values() {
            Ok(values) => values,
            // Without partition values there is nothing to ask of them.
            Err(Error::Refused(refusal)) => {
                return Ok(format!("{row}partition {}\n", refusal.number()));
            }
            Err(other) => return Err(other.to_string()),
        };
        let file = self.columns.partition(&values).map_err(|e| e.to_string())?;
        let values: String = values.iter().map(|v| format!(" {}", printed(v))).collect();
        let inclusive = number(filter.project(&file));
        let strict = number(filter.strict_project(&file));
        Ok(format!(
            "{row}partition 0{values}\ninclusive {inclusive}\nstrict {strict}\n"
        ))
    }

    /// The partition values of the row.
    fn partition_values(&self) -> Result<Vec<Value>, Error> {
        let columns = self.columns.iter().zip(&self.values);
        columns
            .map(|((_, column_type, transform), value)| {
                transform.transform_literal(column_type, value)
            })
            .collect()
    }
}

/// The number of an answer.
fn number(answer: Result<bool, Refusal>) -> u32 {
    match answer {
        Ok(true) => 0,
        Ok(false) => 1,
        Err(refusal) => refusal.number(),
    }
}

/// A value as it is printed.
fn printed(value: &Value) -> String {
    match value {
        Value::Missing => MISSING.to_string(),
        Value::Present(literal) => text(literal),
    }
}
