//! The picture as it grows from above, and how things in it look.

use crate::text::{escaped, Px};
use std::fmt::Write;

/// Around the picture.
pub const MARGIN: Px = Px::whole(20);

/// Stands in an id for what tells it from the ids of other pictures in one page. Escaped text never has it.
pub const OWN: char = '\0';

/// Light and dark, by what the viewer asks for. No `var()`: not every viewer of SVG has it.
const STYLE: &str = "
  .bs-chart{color-scheme:light dark;display:block;margin:0 auto;max-width:100%;height:auto;\
font-family:system-ui,-apple-system,'Segoe UI',Roboto,'Helvetica Neue',Arial,sans-serif;\
font-variant-numeric:tabular-nums}
  .bs-chart text{fill:#1c2128;font-size:13px}
  .bs-chart .title{font-size:20px;font-weight:600}
  .bs-chart .head{font-weight:600}
  .bs-chart .muted{fill:#57606a}
  .bs-chart .small{font-size:12px}
  .bs-chart .number{fill:#7a4d00;font-weight:600}
  .bs-chart .halo{fill:#7a4d00;stroke:#fff6de;stroke-width:6px;stroke-linejoin:round;paint-order:stroke}
  .bs-chart .paper{fill:#ffffff}
  .bs-chart .grid{stroke:#e1e5e9;stroke-width:1px}
  .bs-chart .axis{stroke:#8c959f;stroke-width:1px;fill:none}
  .bs-chart .line{stroke:#0b57d0;stroke-width:2px;stroke-linejoin:round;fill:none}
  .bs-chart .thin{stroke-width:1.25px;stroke-linecap:round}
  .bs-chart .dot{fill:#0b57d0}
  .bs-chart .gap{fill:#fff6de}
  .bs-chart .narrow{fill:#f2d593}
  .bs-chart .mark{fill:#b07d12}
  .bs-chart .hatch{stroke:#e8c070;stroke-width:1.5px}
  .bs-chart .edge{stroke:#b07d12;stroke-width:1px}
  .bs-chart .old{stroke:#c0362c;stroke-width:3px;stroke-linecap:round;stroke-dasharray:0.1 6.5;fill:none}
  @media (prefers-color-scheme:dark){
  .bs-chart text{fill:#e8ecf0}
  .bs-chart .muted{fill:#a6b0bb}
  .bs-chart .number{fill:#f0c566}
  .bs-chart .halo{fill:#f0c566;stroke:#2b2511}
  .bs-chart .paper{fill:#14181d}
  .bs-chart .grid{stroke:#2b323b}
  .bs-chart .axis{stroke:#717b87}
  .bs-chart .line{stroke:#7fb4ff}
  .bs-chart .dot{fill:#7fb4ff}
  .bs-chart .gap{fill:#2b2511}
  .bs-chart .narrow{fill:#75602a}
  .bs-chart .mark{fill:#d3a63c}
  .bs-chart .hatch{stroke:#75602a}
  .bs-chart .edge{stroke:#b08d35}
  .bs-chart .old{stroke:#ff8f86}
  }
";

pub struct Page {
    body: String,
    pub width: Px,
    /// Where the last thing ends.
    pub y: Px,
}

/// Which end of a text stands at its place.
#[derive(Clone, Copy)]
pub enum Anchor {
    Start,
    Middle,
    End,
}

impl Page {
    pub fn new(width: Px) -> Page {
        Page {
            body: String::new(),
            width,
            y: Px::whole(14),
        }
    }

    /// The room for text.
    pub fn room(&self) -> Px {
        self.width - MARGIN - MARGIN
    }

    pub fn space(&mut self, pixels: i64) {
        self.y = self.y + Px::whole(pixels);
    }

    /// Lines of text at the left, each so many pixels below the one before.
    pub fn lines(&mut self, class: &str, lines: &[String], pixels: i64) {
        for line in lines {
            self.space(pixels);
            self.text(MARGIN, self.y, class, Anchor::Start, line);
        }
    }

    pub fn text(&mut self, x: Px, y: Px, class: &str, anchor: Anchor, text: &str) {
        let anchor = match anchor {
            Anchor::Start => "",
            Anchor::Middle => r#" text-anchor="middle""#,
            Anchor::End => r#" text-anchor="end""#,
        };
        let text = escaped(text);
        self.add(format_args!(
            r#"<text class="{class}" x="{x}" y="{y}"{anchor}>{text}</text>"#
        ));
    }

    /// A path of a class.
    pub fn path(&mut self, class: &str, d: std::fmt::Arguments<'_>) {
        self.add(format_args!(r#"<path class="{class}" d="{d}"/>"#));
    }

    /// A rectangle that is shaded and hatched.
    pub fn hatched(&mut self, x: Px, y: Px, width: Px, height: Px) {
        let hatch = format!(r##"fill="url(#bs-hatch{OWN})""##);
        for fill in [r#"class="gap""#, &hatch] {
            self.rect(fill, x, y, width, height);
        }
    }

    /// A rectangle, filled as an attribute says.
    pub fn rect(&mut self, fill: &str, x: Px, y: Px, width: Px, height: Px) {
        self.add(format_args!(
            r#"<rect {fill} x="{x}" y="{y}" width="{width}" height="{height}"/>"#
        ));
    }

    /// Any line of XML.
    pub fn add(&mut self, line: std::fmt::Arguments<'_>) {
        writeln!(self.body, "{line}").expect("a string takes all");
    }

    /// The picture, with its name and itself in words. Its ids have a number that follows from all the rest.
    pub fn to_svg(&self, title: &str, description: &str) -> String {
        let (width, height, body) = (self.width, self.y, &self.body);
        let (title, description) = (escaped(title), escaped(description));
        let svg = format!(
            r#"<svg xmlns="http://www.w3.org/2000/svg" class="bs-chart" role="img" aria-labelledby="bs-title{OWN} bs-desc{OWN}" width="{width}" height="{height}" viewBox="0 0 {width} {height}">
<title id="bs-title{OWN}">{title}</title>
<desc id="bs-desc{OWN}">{description}</desc>
<style>{STYLE}</style>
<defs>
<pattern id="bs-hatch{OWN}" patternUnits="userSpaceOnUse" width="8" height="8" patternTransform="rotate(45)">
<path class="hatch" d="M4,0V8"/>
</pattern>
</defs>
<rect class="paper" width="{width}" height="{height}"/>
{body}</svg>
"#
        );
        svg.replace(OWN, &format!("-{:08x}", hash(&svg)))
    }
}

/// FNV-1a.
fn hash(text: &str) -> u32 {
    text.bytes().fold(0x811C_9DC5, |hash, byte| {
        (hash ^ u32::from(byte)).wrapping_mul(0x0100_0193)
    })
}
