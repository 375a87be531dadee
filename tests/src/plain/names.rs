//! Names by their place in the text, and sets of them in the order of giving.

/// A name: where the bytes before its dot stand, and the digit behind it, or 8.
#[derive(Clone, Copy, Default)]
pub struct NameRef {
    pub at: usize,
    pub len: usize,
    pub part: u8,
}

/// A set of names: as many as 16 shares of inputs and 256 statements give.
pub struct Names {
    items: [NameRef; 272],
    pub count: usize,
}

impl Names {
    /// The empty set.
    pub fn new() -> Self {
        Names {
            items: [NameRef::default(); 272],
            count: 0,
        }
    }

    /// The place of a name in the set.
    pub fn place(&self, text: &[u8], name: NameRef) -> Option<usize> {
        let bytes = &text[name.at..name.at + name.len];
        self.items[..self.count]
            .iter()
            .position(|item| item.part == name.part && text[item.at..item.at + item.len] == *bytes)
    }

    /// Adds a name; that of length 0 is found by none.
    pub fn push(&mut self, name: NameRef) {
        self.items[self.count] = name;
        self.count += 1;
    }

    /// Names the value added last.
    pub fn name_last(&mut self, name: NameRef) {
        self.items[self.count - 1] = name;
    }
}

/// The name that a field holds, its dot part allowed or not.
pub fn name_of(text: &[u8], at: usize, field: &[u8], dotted: bool) -> Option<NameRef> {
    debug_assert_eq!(&text[at..at + field.len()], field);
    let (stem, part) = match field {
        [stem @ .., b'.', digit @ b'0'..=b'7'] if dotted => (stem, digit - b'0'),
        _ => (field, 8),
    };
    let begins = stem.first().is_some_and(u8::is_ascii_lowercase);
    let plain = |byte: &u8| byte.is_ascii_lowercase() || byte.is_ascii_digit() || *byte == b'_';
    let len = stem.len();
    (begins && len <= 12 && stem.iter().all(plain)).then_some(NameRef { at, len, part })
}
