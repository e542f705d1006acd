//! A leaf in words, and its two projections as the lines of program `weighpick`.

use weighpick::{Leaf, Literal, Predicate, PredicateOperator, Refusal};

use super::{column_type, literal, take, text, transform};

/// The leaf that the words say, or what is wrong with them.
pub fn leaf(words: &[impl AsRef<str>]) -> Result<Leaf, String> {
    let mut words = words.iter().map(AsRef::as_ref);
    let column_type = column_type(take(&mut words, "type")?)?;
    let transform = transform(&mut words)?;
    let operator = operator(take(&mut words, "operator")?)?;
    let literals: Result<Vec<Literal>, String> =
        words.map(|word| literal(column_type, word)).collect();
    let leaf = match literals?.as_slice() {
        [] if operator.is_unary() => Leaf::unary(operator, column_type, transform),
        [one] if operator.is_binary() => Leaf::binary(operator, transform, one),
        set if operator.is_set() => Leaf::set(operator, column_type, transform, set),
        other => return Err(format!("{operator} does not take {} literals", other.len())),
    };
    leaf.map_err(|e| e.to_string())
}

/// An operator by its name or sign.
fn operator(word: &str) -> Result<PredicateOperator, String> {
    Ok(match word {
        "is-null" => PredicateOperator::IsNull,
        "not-null" => PredicateOperator::NotNull,
        "is-nan" => PredicateOperator::IsNan,
        "not-nan" => PredicateOperator::NotNan,
        "<" => PredicateOperator::LessThan,
        "<=" => PredicateOperator::LessThanOrEq,
        ">" => PredicateOperator::GreaterThan,
        ">=" => PredicateOperator::GreaterThanOrEq,
        "=" => PredicateOperator::Eq,
        "!=" => PredicateOperator::NotEq,
        "starts-with" => PredicateOperator::StartsWith,
        "not-starts-with" => PredicateOperator::NotStartsWith,
        "in" => PredicateOperator::In,
        "not-in" => PredicateOperator::NotIn,
        _ => return Err(format!("`{word}` is no operator")),
    })
}

/// Both lines, each with its newline.
pub fn lines(leaf: &Leaf) -> String {
    let inclusive = line("inclusive", leaf.project());
    let strict = line("strict", leaf.strict_project());
    format!("{inclusive}\n{strict}\n")
}

/// The question, the answer's number and, after 0, the predicate.
fn line(question: &str, answer: Result<Option<Predicate>, Refusal>) -> String {
    match answer {
        Ok(Some(predicate)) => {
            let mut line = format!("{question} 0 {}", predicate.operator().number());
            for literal in predicate.literals() {
                line.push(' ');
                line.push_str(&text(&literal));
            }
            line
        }
        Ok(None) => format!("{question} 1"),
        Err(refusal) => format!("{question} {}", refusal.number()),
    }
}
