//! A text under construction: its lines as lists of fields.

/// The lines of a text, each a list of fields.
#[derive(Clone, Debug, Default, PartialEq, Eq)]
pub struct Draft {
    pub lines: Vec<Vec<String>>,
}

impl Draft {
    /// A draft of these lines, their fields parted by blanks.
    pub fn of(text: &str) -> Self {
        let mut draft = Draft::default();
        draft.add_lines(text);
        draft
    }

    /// Adds these lines, their fields parted by blanks; empty ones are passed over.
    pub fn add_lines(&mut self, text: &str) {
        for line in text.lines().filter(|line| !line.is_empty()) {
            self.add(line);
        }
    }

    /// Adds one line, its fields parted by blanks.
    pub fn add(&mut self, line: &str) {
        let fields = line.split(' ').map(str::to_string);
        self.lines.push(fields.collect());
    }

    /// The number of lines.
    pub fn count(&self) -> usize {
        self.lines.len()
    }

    /// The text: fields parted by tabs, lines ended by line feeds.
    pub fn text(&self) -> Vec<u8> {
        let mut text = String::new();
        for line in &self.lines {
            text.push_str(&line.join("\t"));
            text.push('\n');
        }
        text.into_bytes()
    }

    /// The text without its last line feed.
    pub fn unended(&self) -> Vec<u8> {
        let mut text = self.text();
        text.pop();
        text
    }
}

/// The line of a map.
pub fn map_line(name: &str, map: &crate::maps::Map) -> String {
    let columns = map.columns.map(|column| format!("{column:02x}"));
    format!("map {name} {:02x} {}", map.constant, columns.join(" "))
}
