//! Text that is set on one line where it fits, and broken at its lines where it does not.

/// The columns that a line may have.
const WIDTH: usize = 72;
const INDENT: usize = 2;

#[derive(Clone, Debug)]
pub enum Doc {
    Text(String),
    /// A blank, or a new line where the innermost group around it does not fit.
    Line,
    /// Lines in it are indented.
    Nest(Vec<Doc>),
    /// All of its own lines are blanks, or all are new lines.
    Group(Vec<Doc>),
}

pub fn text(text: impl Into<String>) -> Doc {
    Doc::Text(text.into())
}

/// Parts with a line before each, indented.
pub fn nested(parts: impl IntoIterator<Item = Doc>) -> Doc {
    let lines = parts.into_iter().flat_map(|part| [Doc::Line, part]);
    Doc::Nest(lines.collect())
}

impl Doc {
    /// All of it on one line.
    pub fn flat(&self) -> String {
        match self {
            Doc::Text(text) => text.clone(),
            Doc::Line => " ".to_string(),
            Doc::Nest(parts) | Doc::Group(parts) => parts.iter().map(Doc::flat).collect(),
        }
    }

    pub fn set(&self) -> String {
        let mut page = Page::default();
        page.put(self, 0, true);
        page.text
    }
}

#[derive(Default)]
struct Page {
    text: String,
    column: usize,
}

impl Page {
    fn put(&mut self, doc: &Doc, indent: usize, broken: bool) {
        match doc {
            Doc::Text(text) => self.add(text),
            Doc::Line if broken => {
                self.text.push('\n');
                self.column = 0;
                self.add(&" ".repeat(indent));
            }
            Doc::Line => self.add(" "),
            Doc::Nest(parts) => {
                let indent = indent + INDENT;
                parts.iter().for_each(|part| self.put(part, indent, broken));
            }
            Doc::Group(parts) => {
                let broken = self.column + doc.flat().chars().count() > WIDTH;
                parts.iter().for_each(|part| self.put(part, indent, broken));
            }
        }
    }

    fn add(&mut self, text: &str) {
        self.text.push_str(text);
        self.column += text.chars().count();
    }
}

#[cfg(test)]
mod tests {
    use super::*;

    fn list(items: Vec<Doc>) -> Doc {
        Doc::Group(vec![text("["), nested(items), Doc::Line, text("]")])
    }

    #[test]
    fn what_fits_is_one_line() {
        let short = list(vec![text("a"), list(vec![text("b")])]);
        assert_eq!(short.set(), "[ a [ b ] ]");
        assert_eq!(short.set(), short.flat());
    }

    #[test]
    fn what_does_not_fit_is_broken_from_the_outside() {
        let long = list(vec![text("a".repeat(61)), list(vec![text("b"), text("c")])]);
        let expected = format!("[\n  {}\n  [ b c ]\n]", "a".repeat(61));
        assert_eq!(long.set(), expected);
        // Of 72 columns the brackets and blanks take four.
        assert_eq!(list(vec![text("a".repeat(68))]).set().lines().count(), 1);
        assert_eq!(list(vec![text("a".repeat(69))]).set().lines().count(), 3);
    }
}
