//! Text and numbers for a picture in XML.

use std::fmt;

/// A length or a place in hundredths of a pixel. Without floating point the same picture has the same bytes everywhere.
#[derive(Clone, Copy, PartialEq, Eq, PartialOrd, Ord)]
pub struct Px(pub i64);

impl Px {
    pub const fn whole(pixels: i64) -> Px {
        Px(100 * pixels)
    }
}

impl std::ops::Add for Px {
    type Output = Px;
    fn add(self, other: Px) -> Px {
        Px(self.0 + other.0)
    }
}

impl std::ops::Sub for Px {
    type Output = Px;
    fn sub(self, other: Px) -> Px {
        Px(self.0 - other.0)
    }
}

/// In pixels, with as many digits as it needs.
impl fmt::Display for Px {
    fn fmt(&self, f: &mut fmt::Formatter<'_>) -> fmt::Result {
        let (sign, hundredths) = (if self.0 < 0 { "-" } else { "" }, self.0.unsigned_abs());
        let (pixels, behind) = (hundredths / 100, hundredths % 100);
        match (behind, behind % 10) {
            (0, _) => write!(f, "{sign}{pixels}"),
            (_, 0) => write!(f, "{sign}{pixels}.{}", behind / 10),
            _ => write!(f, "{sign}{pixels}.{behind:02}"),
        }
    }
}

/// Text that stands for itself in XML; what XML cannot have at all is replaced.
pub fn escaped(text: &str) -> String {
    let mut escaped = String::with_capacity(text.len());
    for character in text.chars() {
        match character {
            '&' => escaped += "&amp;",
            '<' => escaped += "&lt;",
            '>' => escaped += "&gt;",
            '"' => escaped += "&quot;",
            '\'' => escaped += "&#39;",
            '\t' | '\n' | '\r' => escaped.push(' '),
            '\0'..='\x1F' | '\x7F'..='\u{9F}' | '\u{FFFE}' | '\u{FFFF}' => {
                escaped.push(char::REPLACEMENT_CHARACTER);
            }
            _ => escaped.push(character),
        }
    }
    escaped
}

/// How wide a text is at most in the usual fonts, so that nothing that is placed by it overlaps.
pub fn width(text: &str, font: i64) -> Px {
    let widths = text.chars().map(|character| width_of(character, font).0);
    Px(widths.sum())
}

fn width_of(character: char, font: i64) -> Px {
    let hundredths = match character {
        ' ' | '.' | ',' | ':' | ';' | '\'' | '|' | '!' | 'i' | 'j' | 'l' => 36,
        'm' | 'w' | 'M' | 'W' | '%' | '@' => 98,
        '\u{1100}'.. => 110,
        _ => 64,
    };
    Px(font * hundredths)
}

/// The text in lines that are not wider, broken between words. What does not fit into the last line is left out.
pub fn wrapped(text: &str, font: i64, most: Px, lines: usize) -> Vec<String> {
    let mut wrapped: Vec<String> = Vec::new();
    for word in text.split_whitespace() {
        let longer = wrapped.last().map(|line| format!("{line} {word}"));
        match longer.filter(|line| width(line, font) <= most) {
            Some(line) => {
                wrapped.pop();
                wrapped.push(line);
            }
            None if wrapped.len() < lines => wrapped.push(shortened(word, font, most)),
            None => {
                if let Some(last) = wrapped.pop() {
                    wrapped.push(shortened(&format!("{last} {word}"), font, most));
                }
                break;
            }
        }
    }
    wrapped
}

/// The text, or as much of it as fits with an ellipsis.
fn shortened(text: &str, font: i64, most: Px) -> String {
    if width(text, font) <= most {
        return text.to_string();
    }
    let mut wide = width_of('…', font);
    let fits = |character: &char| {
        wide = wide + width_of(*character, font);
        wide <= most
    };
    let kept: String = text.chars().take_while(fits).collect();
    format!("{}…", kept.trim_end())
}

/// A number in digits, with a comma before each three: 65,536.
pub fn grouped(number: u128) -> String {
    let digits = number.to_string();
    let mut grouped = String::new();
    for (at, digit) in digits.chars().enumerate() {
        if at > 0 && (digits.len() - at) % 3 == 0 {
            grouped.push(',');
        }
        grouped.push(digit);
    }
    grouped
}

/// "1 record", "2 records".
pub fn counted(count: usize, one: &str) -> String {
    let number = grouped(count as u128);
    match count {
        1 => format!("{number} {one}"),
        _ => format!("{number} {one}s"),
    }
}
