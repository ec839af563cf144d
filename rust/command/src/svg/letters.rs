//! Words in the picture: how they are written, and how wide they are.

use super::elements::px;
use crate::markup::escaped;

/// A manner of writing.
pub struct Letters {
    class: &'static str,
    size: f64,
    is_mono: bool,
    is_bold: bool,
}

const fn letters(class: &'static str, size: f64, is_mono: bool, is_bold: bool) -> Letters {
    Letters {
        class,
        size,
        is_mono,
        is_bold,
    }
}

pub const CAPTION: Letters = letters("caption", 14.0, true, true);
pub const SUMMARY: Letters = letters("summary", 14.0, false, false);
pub const GROUP: Letters = letters("group-name", 13.0, true, true);
pub const MIXED: Letters = letters("mixed-word", 12.0, false, true);
pub const NAME: Letters = letters("name", 14.0, true, true);
pub const STATE: Letters = letters("state", 14.0, true, false);
pub const NOTE: Letters = letters("note", 11.5, false, false);
pub const POSITION: Letters = letters("position", 11.5, true, true);
pub const LEGEND: Letters = letters("legend", 11.5, false, false);
pub const PART: Letters = letters("part", 11.5, false, false);

const ALL: [Letters; 10] = [
    CAPTION, SUMMARY, GROUP, MIXED, NAME, STATE, NOTE, POSITION, LEGEND, PART,
];

const MONO: &str = "'DejaVu Sans Mono',Menlo,Consolas,'Liberation Mono',monospace";
const SANS: &str = "Helvetica,Arial,'DejaVu Sans',sans-serif";

/// The widths of letters beside their height, rather too much than too little.
const MONO_WIDTH: f64 = 0.61;
const SANS_WIDTH: f64 = 0.55;

impl Letters {
    pub fn width(&self, words: &str) -> f64 {
        let width = if self.is_mono { MONO_WIDTH } else { SANS_WIDTH };
        words.chars().count() as f64 * self.size * width
    }

    /// Words about the middle of a line at `y`. Where `x` is in them, the style
    /// says: at their left, middle or right.
    pub fn write(&self, x: f64, y: f64, words: &str) -> String {
        let (class, x, y, words) = (self.class, px(x), px(y + 0.35 * self.size), escaped(words));
        format!("<text class=\"{class}\" x=\"{x}\" y=\"{y}\">{words}</text>\n")
    }

    fn style(&self) -> String {
        let weight = if self.is_bold { "bold " } else { "" };
        let family = if self.is_mono { MONO } else { SANS };
        format!(
            ".{}{{font:{weight}{}px {family}}}\n",
            self.class,
            px(self.size)
        )
    }
}

/// The fonts of all words.
pub fn style() -> String {
    ALL.iter().map(Letters::style).collect()
}
