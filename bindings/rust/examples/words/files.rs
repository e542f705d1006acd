//! A leaf in words, with files as their list knows them, one by one or in groups, and what is done with each.

use weighpick::{Leaf, Pick, Picker, Summary, Type};

use super::leaf::leaf;
use super::{literal, BREAK, MISSING};

/// What stands between the lowest and the highest.
const TO: &str = "..";

/// What stands between them and the word for a missing value.
const AND: char = ',';

/// How a file without any value is said.
const EMPTY_FILE: &str = "empty";

/// How a group is called that has no pooled summary.
const NOT_POOLED: &str = "not pooled";

/// What is done with each file, a line for each with its newline, or what is wrong with the words. Where the files are in several
/// groups, each group is asked about first.
pub fn lines(words: &[impl AsRef<str>]) -> Result<String, String> {
    let words: Vec<&str> = words.iter().map(AsRef::as_ref).collect();
    let mut parts = words.split(|word| *word == BREAK);
    let asked = Asked::new(&leaf(parts.next().unwrap_or_default())?);
    let groups: Result<Vec<_>, String> = parts.map(|words| asked.files(words)).collect();
    match groups?.as_slice() {
        [] => Err("the files are missing".to_string()),
        [files] => Ok(asked.of_files(files)),
        groups => Ok(groups.iter().map(|files| asked.of_group(files)).collect()),
    }
}

/// A file as it was said, and its summary; none where there are no partition values, and so no summaries of them.
struct File<'a> {
    word: &'a str,
    summary: Option<Summary>,
}

/// What both projections of a leaf answered, asked once, and the type of its partition values.
struct Asked {
    picker: Picker,
    partition_type: Option<Type>,
}

impl Asked {
    fn new(leaf: &Leaf) -> Asked {
        Asked {
            picker: leaf.picker(),
            partition_type: leaf.transform().result_type(leaf.column_type()).ok(),
        }
    }

    /// The files that some words say.
    fn files<'a>(&self, words: &[&'a str]) -> Result<Vec<File<'a>>, String> {
        let file = |word: &&'a str| {
            let summary = self.partition_type.map(|of| summary(of, word));
            let summary = summary.transpose()?;
            Ok(File { word, summary })
        };
        words.iter().map(file).collect()
    }

    /// A line for each file.
    fn of_files(&self, files: &[File]) -> String {
        let line = |file: &File| {
            let pick = self.pick(file.summary.as_ref());
            format!("{} {pick}\n", file.word)
        };
        files.iter().map(line).collect()
    }

    /// A line for the pooled summary of some files and, unless it is skipped, one for each of them.
    fn of_group(&self, files: &[File]) -> String {
        let pooled = pooled(files);
        let pick = self.pick(pooled.as_ref());
        let name = pooled.map_or(NOT_POOLED.to_string(), |summary| summary.to_string());
        let line = format!("group {name}: {pick}\n");
        match pick {
            Pick::Skip => line,
            Pick::Read | Pick::Whole => line + &self.of_files(files),
        }
    }

    /// What is done with a file, or with a group of them. Without a summary, and where it is refused since it is none of this
    /// table's, they are read.
    fn pick(&self, summary: Option<&Summary>) -> Pick {
        let picked = summary.map(|summary| self.picker.pick_summary(summary));
        picked.map_or(Pick::Read, |picked| picked.unwrap_or(Pick::Read))
    }
}

/// The summary of some files together; none where there is no file, a file has none, or one is refused.
fn pooled(files: &[File]) -> Option<Summary> {
    let summaries = files.iter().map(|file| file.summary.as_ref());
    let summaries: Option<Vec<&Summary>> = summaries.collect();
    Summary::pool_all(summaries?).ok().flatten()
}

/// A summary of partition values of a type.
fn summary(partition_type: Type, word: &str) -> Result<Summary, String> {
    let (ends, missing) = match word.rsplit_once(AND) {
        Some((ends, MISSING)) => (ends, true),
        _ => (word, false),
    };
    if let Some((lowest, highest)) = ends.split_once(TO) {
        let [lowest, highest] = [lowest, highest].map(|end| literal(partition_type, end));
        let present = Summary::between(&lowest?, &highest?).map_err(|wrong| wrong.to_string())?;
        return Ok(present.with_missing(missing));
    }
    let none_present = Summary::empty(partition_type);
    match word {
        EMPTY_FILE => Ok(none_present),
        MISSING => Ok(none_present.with_missing(true)),
        _ => Err(format!("`{word}` is no file")),
    }
}
