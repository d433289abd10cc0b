//! The few SVG elements that the picture needs.

use std::fmt::Write;

/// A picture in the making. Every element brings its own look; coordinates are pixels.
pub struct Svg {
    text: String,
}

impl Svg {
    /// An empty picture with a background of its own, so that it shows on any page.
    pub fn new(width: f64, height: f64, title: &str) -> Self {
        let mut svg = Svg {
            text: String::new(),
        };
        svg.add(format_args!(
            "<svg xmlns=\"http://www.w3.org/2000/svg\" viewBox=\"0 0 {width} {height}\" \
             width=\"{width}\" height=\"{height}\" role=\"img\" \
             font-family=\"Helvetica, Arial, sans-serif\" font-size=\"14\" fill=\"#1f2328\">"
        ));
        svg.add(format_args!("<title>{title}</title>"));
        svg.add(format_args!(
            "<rect x=\"0.5\" y=\"0.5\" width=\"{}\" height=\"{}\" rx=\"8\" fill=\"#ffffff\" \
             stroke=\"#d0d7de\"/>",
            width - 1.0,
            height - 1.0
        ));
        svg
    }

    pub fn line(&mut self, from: (f64, f64), to: (f64, f64), look: &str) {
        self.add(format_args!(
            "<line x1=\"{:.1}\" y1=\"{:.1}\" x2=\"{:.1}\" y2=\"{:.1}\" {look}/>",
            from.0, from.1, to.0, to.1
        ));
    }

    pub fn rect(&mut self, corner: (f64, f64), size: (f64, f64), look: &str) {
        self.add(format_args!(
            "<rect x=\"{:.1}\" y=\"{:.1}\" width=\"{:.1}\" height=\"{:.1}\" {look}/>",
            corner.0, corner.1, size.0, size.1
        ));
    }

    pub fn circle(&mut self, centre: (f64, f64), radius: f64, look: &str) {
        self.add(format_args!(
            "<circle cx=\"{:.1}\" cy=\"{:.1}\" r=\"{radius}\" {look}/>",
            centre.0, centre.1
        ));
    }

    /// A filled shape with these corners.
    pub fn polygon(&mut self, corners: &[(f64, f64)], look: &str) {
        let corner = |&(x, y): &(f64, f64)| format!("{x:.1},{y:.1}");
        let points: Vec<String> = corners.iter().map(corner).collect();
        self.add(format_args!(
            "<polygon points=\"{}\" {look}/>",
            points.join(" ")
        ));
    }

    /// Text, in which a power is written 2^34.
    pub fn text(&mut self, at: (f64, f64), text: &str, look: &str) {
        self.add(format_args!(
            "<text x=\"{:.1}\" y=\"{:.1}\" {look}>{}</text>",
            at.0,
            at.1,
            raised(text)
        ));
    }

    pub fn finish(mut self) -> String {
        self.add(format_args!("</svg>"));
        self.text
    }

    fn add(&mut self, element: std::fmt::Arguments) {
        writeln!(self.text, "{element}").expect("a string takes any text");
    }
}

/// Raises the digits and points that follow a `^`, and goes back to the line behind them. A blank
/// there is written as a distance, since some programs drop it.
pub fn raised(text: &str) -> String {
    let mut parts = text.split('^');
    let mut markup = parts.next().unwrap_or_default().to_string();
    for part in parts {
        let end = part.find(|c: char| !c.is_ascii_digit() && c != '.');
        let (power, rest) = part.split_at(end.unwrap_or(part.len()));
        markup += &format!("<tspan dy=\"-5\" font-size=\"10\">{power}</tspan>");
        let word = rest.trim_start();
        if !word.is_empty() {
            let blank = 4 * (rest.len() - word.len());
            markup += &format!("<tspan dx=\"{blank}\" dy=\"5\">{word}</tspan>");
        }
    }
    markup
}

#[cfg(test)]
mod tests {
    use super::*;

    #[test]
    fn powers_are_raised() {
        assert_eq!(raised("plain"), "plain");
        assert_eq!(
            raised("2^44 is it"),
            "2<tspan dy=\"-5\" font-size=\"10\">44</tspan><tspan dx=\"4\" dy=\"5\">is it</tspan>"
        );
    }
}
