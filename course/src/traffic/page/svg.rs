//! Inline SVG, written piece by piece.

use std::fmt::Write;

/// Text as it may stand between tags or in an attribute.
pub fn escape(text: &str) -> String {
    text.replace('&', "&amp;")
        .replace('<', "&lt;")
        .replace('>', "&gt;")
        .replace('"', "&quot;")
}

/// All drawings have this width in their own units: one unit is about a pixel on a narrow screen.
pub const WIDTH: f64 = 640.0;

#[derive(Default)]
pub struct Drawing {
    body: String,
}

/// Its left upper corner and its size.
pub struct Rect(pub f64, pub f64, pub f64, pub f64);

impl Drawing {
    pub fn raw(&mut self, text: &str) {
        self.body.push_str(text);
        self.body.push('\n');
    }

    /// `look` holds further attributes, such as a class.
    pub fn rect(&mut self, rect: Rect, look: &str) {
        let Rect(x, y, width, height) = rect;
        let _ = writeln!(
            self.body,
            r#"<rect x="{x:.2}" y="{y:.2}" width="{width:.2}" height="{height:.2}" {look}/>"#
        );
    }

    pub fn line(&mut self, (x1, y1): (f64, f64), (x2, y2): (f64, f64), look: &str) {
        let _ = writeln!(
            self.body,
            r#"<line x1="{x1:.2}" y1="{y1:.2}" x2="{x2:.2}" y2="{y2:.2}" {look}/>"#
        );
    }

    /// Small letters beside a lane or along an axis.
    pub fn note(&mut self, at: (f64, f64), text: &str) {
        self.text(at, "class=\"small\"", text);
    }

    pub fn text(&mut self, (x, y): (f64, f64), look: &str, text: &str) {
        let _ = writeln!(
            self.body,
            r#"<text x="{x:.2}" y="{y:.2}" {look}>{}</text>"#,
            escape(text)
        );
    }

    /// The whole drawing; `name` is what a reader who can't see it is told.
    pub fn finish(self, height: f64, name: &str) -> String {
        format!(
            "<svg viewBox=\"0 0 {WIDTH} {height:.0}\" role=\"img\" aria-label=\"{}\">\n{}</svg>\n",
            escape(name),
            self.body
        )
    }
}
