//! Pictures as SVG text: the few shapes that the plots need, in colours that fit a light and a dark page.

/// A picture in the making.
pub struct Picture {
    width: f64,
    height: f64,
    body: String,
}

/// Where a text is tied to its place.
#[derive(Clone, Copy)]
pub enum Anchor {
    Start,
    Middle,
    End,
}

const STYLE: &str = "
  .page { fill: #ffffff; } text { fill: #222222; font: 13px sans-serif; } .title { font: bold 15px sans-serif; } .small { font: 12px sans-serif; }
  .frame { stroke: #555555; fill: none; } .grid { stroke: #dddddd; } .line { stroke: #888888; stroke-dasharray: 5 4; }
  .s0 { fill: #0b63b5; stroke: #0b63b5; } .s1 { fill: #c2570c; stroke: #c2570c; } .s2 { fill: #1a7f37; stroke: #1a7f37; } .s3 { fill: #7d3fb2; stroke: #7d3fb2; }
  .s0, .s1, .s2, .s3 { fill-opacity: 0.75; }
  @media (prefers-color-scheme: dark) {
    .page { fill: #16191d; } text { fill: #e4e4e4; } .frame { stroke: #a0a0a0; } .grid { stroke: #363b41; } .line { stroke: #909090; }
    .s0 { fill: #6cb2ff; stroke: #6cb2ff; } .s1 { fill: #ffa057; stroke: #ffa057; } .s2 { fill: #5fd07f; stroke: #5fd07f; } .s3 { fill: #cf9bff; stroke: #cf9bff; }
  }
";

fn escaped(text: &str) -> String {
    text.replace('&', "&amp;").replace('<', "&lt;").replace('>', "&gt;").replace('"', "&quot;")
}

impl Picture {
    pub fn new(width: f64, height: f64) -> Picture {
        Picture { width, height, body: String::new() }
    }

    pub fn line(&mut self, class: &str, from: (f64, f64), to: (f64, f64)) {
        let ((x1, y1), (x2, y2)) = (from, to);
        self.body += &format!("<line class=\"{class}\" x1=\"{x1:.1}\" y1=\"{y1:.1}\" x2=\"{x2:.1}\" y2=\"{y2:.1}\"/>\n");
    }

    pub fn frame(&mut self, from: (f64, f64), to: (f64, f64)) {
        let (width, height) = (to.0 - from.0, to.1 - from.1);
        self.body +=
            &format!("<rect class=\"frame\" x=\"{:.1}\" y=\"{:.1}\" width=\"{width:.1}\" height=\"{height:.1}\"/>\n", from.0, from.1);
    }

    pub fn text(&mut self, class: &str, at: (f64, f64), anchor: Anchor, text: &str) {
        let anchor = match anchor {
            Anchor::Start => "start",
            Anchor::Middle => "middle",
            Anchor::End => "end",
        };
        self.body +=
            &format!("<text class=\"{class}\" x=\"{:.1}\" y=\"{:.1}\" text-anchor=\"{anchor}\">{}</text>\n", at.0, at.1, escaped(text));
    }

    /// A text that is read from below upwards.
    pub fn upright(&mut self, at: (f64, f64), text: &str) {
        let (x, y) = at;
        self.body += &format!(
            "<text x=\"{x:.1}\" y=\"{y:.1}\" text-anchor=\"middle\" transform=\"rotate(-90 {x:.1} {y:.1})\">{}</text>\n",
            escaped(text)
        );
    }

    /// The mark of a series: each has a shape of its own beside its colour. A mark that has a title shows it to a pointer.
    pub fn mark(&mut self, series: usize, at: (f64, f64), title: &str) {
        let (x, y) = at;
        let shape = match series {
            0 => format!("<circle class=\"s0\" cx=\"{x:.1}\" cy=\"{y:.1}\" r=\"4.5\">"),
            1 => format!("<path class=\"s1\" d=\"M{:.1} {:.1}h8v8h-8z\">", x - 4.0, y - 4.0),
            2 => format!("<path class=\"s2\" d=\"M{x:.1} {:.1}l5 9h-10z\">", y - 5.0),
            _ => format!("<path class=\"s3\" d=\"M{x:.1} {:.1}l5 5l-5 5l-5 -5z\">", y - 5.0),
        };
        let tag = if shape.starts_with("<circle") { "circle" } else { "path" };
        self.body += &format!("{shape}<title>{}</title></{tag}>\n", escaped(title));
    }

    pub fn finish(self) -> String {
        let (width, height) = (self.width, self.height);
        format!(
            "<svg xmlns=\"http://www.w3.org/2000/svg\" viewBox=\"0 0 {width} {height}\" width=\"{width}\" height=\"{height}\">\n<style>{STYLE}</style>\n\
             <rect class=\"page\" width=\"{width}\" height=\"{height}\"/>\n{}</svg>\n",
            self.body
        )
    }
}
