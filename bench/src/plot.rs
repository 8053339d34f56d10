//! A small drawing of growth: one panel for each family, time upwards by powers of ten.

pub struct Panel {
    pub title: String,
    pub lines: Vec<Line>,
}

/// Sizes and microseconds of one engine.
pub struct Line {
    pub name: &'static str,
    pub points: Vec<(f64, f64)>,
}

const WIDTH: f64 = 360.0;
const HEIGHT: f64 = 240.0;
const LEFT: f64 = 48.0;
const RIGHT: f64 = 12.0;
const TOP: f64 = 28.0;
const BOTTOM: f64 = 28.0;
const COLOURS: [&str; 3] = ["#1b6ca8", "#c0562b", "#5b8c3a"];

/// Where the numbers of one panel lie on the page.
struct Scale {
    x: f64,
    y: f64,
    sizes: (f64, f64),
    powers: (f64, f64),
}

impl Scale {
    fn of(panel: &Panel, place: usize) -> Scale {
        let points = || panel.lines.iter().flat_map(|line| &line.points);
        let least = |of: fn(&(f64, f64)) -> f64| points().map(of).fold(f64::MAX, f64::min);
        let most = |of: fn(&(f64, f64)) -> f64| points().map(of).fold(f64::MIN, f64::max);
        Scale {
            x: (place % 2) as f64 * WIDTH,
            y: (place / 2) as f64 * HEIGHT,
            sizes: (least(|p| p.0), most(|p| p.0)),
            powers: (least(|p| p.1.log10()).floor(), most(|p| p.1.log10()).ceil()),
        }
    }

    fn across(&self, size: f64) -> f64 {
        let part = (size - self.sizes.0) / (self.sizes.1 - self.sizes.0).max(1.0);
        self.x + LEFT + part * (WIDTH - LEFT - RIGHT)
    }

    fn up(&self, microseconds: f64) -> f64 {
        let part = (microseconds.log10() - self.powers.0) / (self.powers.1 - self.powers.0);
        self.y + HEIGHT - BOTTOM - part * (HEIGHT - TOP - BOTTOM)
    }
}

pub fn drawn(panels: &[Panel]) -> String {
    let rows = panels.len().div_ceil(2) as f64;
    let (width, height) = (2.0 * WIDTH, rows * HEIGHT);
    let mut svg = format!(
        "<svg xmlns=\"http://www.w3.org/2000/svg\" viewBox=\"0 0 {width} {height}\" \
         font-family=\"sans-serif\" font-size=\"10\">\n\
         <rect width=\"{width}\" height=\"{height}\" fill=\"white\"/>\n"
    );
    for (place, panel) in panels.iter().enumerate() {
        let scale = Scale::of(panel, place);
        svg += &axes(panel, &scale);
        for (i, line) in panel.lines.iter().enumerate() {
            svg += &curve(line, &scale, COLOURS[i % COLOURS.len()], i);
        }
    }
    svg + "</svg>\n"
}

/// Title, a line for each power of ten, and the sizes at both ends.
fn axes(panel: &Panel, scale: &Scale) -> String {
    let (left, right) = (scale.x + LEFT, scale.x + WIDTH - RIGHT);
    let mut svg = text(left, scale.y + 16.0, "start", "black", &panel.title);
    for power in scale.powers.0 as i32..=scale.powers.1 as i32 {
        let y = scale.up(10f64.powi(power));
        svg +=
            &format!("<path d=\"M{left:.1} {y:.1}H{right:.1}\" stroke=\"#ddd\" fill=\"none\"/>\n");
        let label = format!("{} µs", 10f64.powi(power));
        svg += &text(left - 4.0, y + 3.0, "end", "#555", &label);
    }
    let below = scale.y + HEIGHT - BOTTOM + 14.0;
    for size in [scale.sizes.0, scale.sizes.1] {
        svg += &text(
            scale.across(size),
            below,
            "middle",
            "#555",
            &size.to_string(),
        );
    }
    svg
}

fn curve(line: &Line, scale: &Scale, colour: &str, place: usize) -> String {
    let points: Vec<String> = line
        .points
        .iter()
        .map(|&(size, time)| format!("{:.1},{:.1}", scale.across(size), scale.up(time)))
        .collect();
    let drawn = format!(
        "<polyline points=\"{}\" fill=\"none\" stroke=\"{colour}\" stroke-width=\"1.5\"/>\n",
        points.join(" ")
    );
    let at = scale.x + LEFT + 60.0 + 80.0 * place as f64;
    drawn + &text(at, scale.y + HEIGHT - 14.0, "start", colour, line.name)
}

fn text(x: f64, y: f64, anchor: &str, colour: &str, words: &str) -> String {
    format!(
        "<text x=\"{x:.1}\" y=\"{y:.1}\" text-anchor=\"{anchor}\" fill=\"{colour}\">{words}</text>\n"
    )
}
