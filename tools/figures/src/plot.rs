//! The picture: one row for each kind of matrix, in it a lane for each error along a logarithmic
//! axis, and the limit as a line.

use reference::accuracy::{Errors, BOUND};

use crate::histogram::{heights, octave, BINS, OCTAVES};
use crate::sample::Sample;
use crate::svg::Svg;

const WIDTH: f64 = 960.0;
const LEFT: f64 = 150.0;
const RIGHT: f64 = 920.0;
const TOP: f64 = 132.0;
/// From one lane's base line to the next.
const LANE: f64 = 14.0;
/// Height of the fullest bin, which leaves some room under the base line above it.
const PEAK: f64 = 12.0;
/// The lanes of one kind, and a distance to the next kind.
const ROW: f64 = LANE * FIGURES.len() as f64 + 5.0;

/// Behind every second row, so that the lanes of one kind are seen to belong together.
const BAND: &str = "fill=\"#f3f5f8\"";
const GRID: &str = "stroke=\"#dde2e8\"";
const LIMIT: &str = "stroke=\"#b3261e\" stroke-width=\"2\"";
const LIMIT_TEXT: &str = "fill=\"#b3261e\" font-weight=\"bold\" text-anchor=\"end\"";
const SMALL: &str = "font-size=\"12\" fill=\"#57606a\"";
/// Names and legends, which have little room in some fonts.
const NARROW: &str = "font-size=\"13\"";

/// One of the errors that have the limit 2^44.
struct Figure {
    name: &'static str,
    legend: &'static str,
    /// One that people with colour blindness tell from the others too.
    colour: &'static str,
    error: fn(&Errors) -> i128,
}

/// In the order of the lanes, from above.
const FIGURES: [Figure; 3] = [
    Figure {
        name: "Q times R",
        legend: "Q times R against 2^43 times the input",
        colour: "#1f6fb4",
        error: |errors| errors.product,
    },
    Figure {
        name: "the rows of Q",
        legend: "products of the rows of Q against 2^60 or 0",
        colour: "#d9730d",
        error: |errors| errors.rows,
    },
    Figure {
        name: "the columns of R",
        legend: "products of the columns of R against 2^26 times the input's",
        colour: "#0f4c3a",
        error: |errors| errors.columns,
    },
];

/// Draws the errors of all samples.
pub fn draw(samples: &[Sample]) -> String {
    let bottom = TOP + ROW * samples.len() as f64;
    let count: usize = samples.iter().map(|sample| sample.errors.len()).sum();
    let title = format!(
        "Errors of {},{:03} worked matrices and the proved limit",
        count / 1000,
        count % 1000
    );
    let mut svg = Svg::new(WIDTH, bottom + 160.0, &title);
    svg.text(
        (24.0, 36.0),
        &title,
        "font-size=\"19\" font-weight=\"bold\"",
    );
    draw_legend(&mut svg);
    draw_bands(&mut svg, samples.len());
    draw_axis(&mut svg, bottom);
    for (k, sample) in samples.iter().enumerate() {
        draw_row(&mut svg, sample, TOP + ROW * k as f64);
    }
    draw_limit(&mut svg, bottom);
    for (k, line) in summary(samples).iter().enumerate() {
        svg.text((24.0, bottom + 113.0 + 17.0 * k as f64), line, SMALL);
    }
    svg.finish()
}

/// Two entries in a line, the figures in the order of their lanes and then the dot.
fn draw_legend(svg: &mut Svg) {
    let spot = |k: usize| (24.0 + 496.0 * (k % 2) as f64, 60.0 + 23.0 * (k / 2) as f64);
    for (k, figure) in FIGURES.iter().enumerate() {
        let (x, y) = spot(k);
        let fill = format!("fill=\"{}\"", figure.colour);
        svg.rect((x, y - 7.0), (14.0, 14.0), &fill);
        svg.text((x + 21.0, y + 5.0), figure.legend, NARROW);
    }
    let (x, y) = spot(FIGURES.len());
    svg.circle((x + 7.0, y), 3.5, "fill=\"#1f2328\"");
    svg.text((x + 21.0, y + 5.0), "the largest error of a kind", NARROW);
}

fn draw_bands(svg: &mut Svg, rows: usize) {
    for row in (0..rows).step_by(2) {
        let y = TOP + ROW * row as f64;
        svg.rect((LEFT, y), (RIGHT - LEFT, ROW), BAND);
    }
}

/// Marks every second octave, since there is no room for the labels of all.
fn draw_axis(svg: &mut Svg, bottom: f64) {
    for octave in OCTAVES.step_by(2) {
        let x = place(f64::from(octave));
        svg.line((x, TOP), (x, bottom), GRID);
        let label = format!("2^{octave}");
        svg.text((x, bottom + 22.0), &label, "text-anchor=\"middle\"");
    }
    let middle = (LEFT + RIGHT) / 2.0;
    for (y, label) in [
        (48.0, "largest error of one matrix, logarithmic"),
        (
            67.0,
            "(for Q times R, 2^43 is one step of the 16-bit input; for the rows of Q, 2^60 is the \
             number 1;",
        ),
        (
            86.0,
            "for the columns of R, 2^26 is the square of one step)",
        ),
    ] {
        svg.text((middle, bottom + y), label, "text-anchor=\"middle\"");
    }
}

fn draw_limit(svg: &mut Svg, bottom: f64) {
    let x = place(octave(BOUND));
    svg.line((x, TOP - 12.0), (x, bottom), LIMIT);
    svg.text((x - 8.0, TOP - 8.0), "proved limit 2^44", LIMIT_TEXT);
}

/// One kind, whose row begins at `top`: a lane for each figure, with a dot at its largest error.
fn draw_row(svg: &mut Svg, sample: &Sample, top: f64) {
    let look = format!("{NARROW} text-anchor=\"end\"");
    let middle = top + ROW / 2.0;
    svg.text((LEFT - 12.0, middle + 5.0), sample.name, &look);
    for (k, figure) in FIGURES.iter().enumerate() {
        let errors: Vec<i128> = sample.errors.iter().map(figure.error).collect();
        draw_lane(svg, &errors, figure.colour, top + LANE * (k as f64 + 1.0));
    }
}

/// One figure of one kind, on a base line at `y`.
fn draw_lane(svg: &mut Svg, errors: &[i128], colour: &str, y: f64) {
    let fill = format!("fill=\"{colour}\"");
    svg.line((LEFT, y), (RIGHT, y), GRID);
    svg.polygon(&outline(&heights(errors), y), &fill);
    let largest = errors.iter().copied().max().unwrap_or(0);
    let dot = (place(octave(largest)), y - 5.0);
    svg.circle(dot, 3.5, &format!("{fill} stroke=\"#1f2328\""));
}

/// The corners of a histogram that stands on the line at `y`: two wherever the height changes.
fn outline(heights: &[f64], y: f64) -> Vec<(f64, f64)> {
    let edge = |bin: usize| place(f64::from(OCTAVES.start) + bin as f64 / BINS as f64);
    let mut corners = Vec::new();
    let mut before = 0.0;
    for (bin, &height) in heights.iter().chain(&[0.0]).enumerate() {
        if height != before {
            corners.extend([before, height].map(|height| (edge(bin), y - PEAK * height)));
        }
        before = height;
    }
    corners
}

/// The place of a logarithm on the axis. One beyond an end of the axis is at that end.
fn place(octave: f64) -> f64 {
    let octaves = (octave - f64::from(OCTAVES.start)).clamp(0.0, OCTAVES.len() as f64);
    LEFT + (RIGHT - LEFT) * octaves / OCTAVES.len() as f64
}

/// What the picture says of all samples, in lines that fit its width.
fn summary(samples: &[Sample]) -> [String; 3] {
    let all = samples.iter().flat_map(|sample| &sample.errors);
    let worst = all.fold(Errors::default(), |worst, &errors| worst.max(errors));
    let largest = FIGURES.map(|figure| {
        let power = octave((figure.error)(&worst));
        format!("2^{power:.1} for {}", figure.name)
    });
    let shares = FIGURES.map(|figure| format!("1/{}", BOUND / (figure.error)(&worst).max(1)));
    [
        format!("Largest of all: {}.", largest.join(", ")),
        format!("These are {} of the limit.", shares.join(", ")),
        format!(
            "Bar heights are scaled to the fullest bin of each lane. The first bin also has all \
             errors under 2^{}, with those that are 0.",
            OCTAVES.start
        ),
    ]
}

#[cfg(test)]
mod tests {
    use super::*;
    use crate::svg::raised;
    use reference::cases::Kind;

    /// More than a letter of any usual font takes on the average, as a share of the font's size.
    const LETTER: f64 = 0.62;

    /// The value of an attribute in an element's tag.
    fn attribute<'a>(tag: &'a str, name: &str) -> Option<&'a str> {
        let (_, behind) = tag.split_once(&format!(" {name}=\""))?;
        behind.split('"').next()
    }

    /// The baseline, the left and the right end of a text, in a wide font.
    fn extent(tag: &str, content: &str) -> (f64, f64, f64) {
        let number = |name, other: f64| attribute(tag, name).map_or(other, |n| n.parse().unwrap());
        let shown = content
            .split('<')
            .map(|piece| piece.rsplit('>').next().unwrap());
        let letters: usize = shown.map(|piece| piece.chars().count()).sum();
        let width = letters as f64 * LETTER * number("font-size", 14.0);
        let x = number("x", 0.0);
        let left = match attribute(tag, "text-anchor") {
            Some("middle") => x - width / 2.0,
            Some("end") => x - width,
            _ => x,
        };
        (number("y", 0.0), left, left + width)
    }

    fn picture() -> String {
        let sample = |kind: Kind| Sample {
            name: kind.name(),
            errors: vec![Errors::default()],
        };
        draw(&Kind::ALL.map(sample))
    }

    #[test]
    fn each_error_that_has_a_share_of_the_limit_is_a_figure() {
        let none = Errors::default();
        let [product, rows, columns] = [BOUND; 3];
        for errors in [
            Errors { product, ..none },
            Errors { rows, ..none },
            Errors { columns, ..none },
        ] {
            let drawn = FIGURES.map(|figure| (figure.error)(&errors) as f64 / BOUND as f64);
            assert_eq!(drawn, errors.shares());
        }
    }

    #[test]
    fn each_figure_has_a_legend_and_a_lane_of_every_kind() {
        let picture = picture();
        for figure in FIGURES {
            let fill = format!(" fill=\"{}\"", figure.colour);
            let filled = |element: &str| {
                let elements = picture.lines().filter(|line| line.starts_with(element));
                elements.filter(|line| line.contains(&fill)).count()
            };
            assert_eq!(filled("<rect"), 1, "{}", figure.name);
            assert!(picture.contains(&raised(figure.legend)), "{}", figure.name);
            assert_eq!(filled("<polygon"), Kind::ALL.len(), "{}", figure.name);
            assert_eq!(filled("<circle"), Kind::ALL.len(), "{}", figure.name);
        }
    }

    #[test]
    fn texts_stay_in_the_picture_and_apart_in_wide_fonts() {
        let picture = picture();
        let texts = picture.split("<text").skip(1).map(|element| {
            let element = element.split("</text>").next().unwrap();
            let (tag, content) = element.split_once('>').unwrap();
            extent(tag, content)
        });
        let texts: Vec<(f64, f64, f64)> = texts.collect();
        assert!(texts.len() > 30);
        for (y, left, right) in &texts {
            assert!(*left >= 0.0 && *right <= WIDTH, "{left} to {right} at {y}");
            let beside = |other: &&(f64, f64, f64)| other.0 == *y && other.1 > *left;
            let next = texts.iter().filter(beside).map(|other| other.1);
            assert!(
                next.fold(WIDTH, f64::min) >= *right,
                "{left} to {right} at {y}"
            );
        }
    }
}
