//! The plot of docs/PERFORMANCE.md: reads the lines of `speed` from standard input, writes an SVG.
//!
//! Four panels over the length: the CRC, a call by radio, a transfer by wire, and one byte sent in a leg.

use std::io::{read_to_string, stdin, Result};

const WIDTH: f64 = 460.0;
const HEIGHT: f64 = 300.0;
const LEFT: f64 = 60.0;
const RIGHT: f64 = 14.0;
const TOP: f64 = 34.0;
const BOTTOM: f64 = 44.0;
const COLOURS: [&str; 6] = [
    "#0b6e4f", "#c0392b", "#2c6fbb", "#8e44ad", "#b7791f", "#555555",
];

struct Row {
    group: String,
    case: String,
    length: f64,
    routine: String,
    ns: f64,
}

fn row(line: &str) -> Option<Row> {
    let fields: Vec<&str> = line.split('\t').collect();
    let [group, case, length, routine, ns, _] = fields[..] else {
        return None;
    };
    Some(Row {
        group: group.to_string(),
        case: case.to_string(),
        length: length.parse().ok()?,
        routine: routine.to_string(),
        ns: ns.parse().ok()?,
    })
}

/// One line of a panel: a case by a routine.
struct Curve {
    name: String,
    dashed: bool,
    colour: &'static str,
    points: Vec<(f64, f64)>,
}

fn curve(rows: &[Row], case: &str, routine: &str, name: &str, style: (usize, bool)) -> Curve {
    let own = rows
        .iter()
        .filter(|row| row.case == case && row.routine == routine);
    Curve {
        name: name.to_string(),
        dashed: style.1,
        colour: COLOURS[style.0],
        points: own.map(|row| (row.length, row.ns)).collect(),
    }
}

/// 1, 2 or 5 times a power of ten, so that some five steps reach `most`.
fn step(most: f64) -> f64 {
    let rough = (most / 5.0).max(1e-9);
    let ten = 10_f64.powf(rough.log10().floor());
    let factor = [1.0, 2.0, 5.0, 10.0];
    let fits = factor.into_iter().find(|f| f * ten >= rough);
    fits.unwrap_or(10.0) * ten
}

/// A number without a needless fraction.
fn short(number: f64) -> String {
    if number.fract() == 0.0 {
        format!("{number:.0}")
    } else {
        format!("{number:.1}")
    }
}

fn text(x: f64, y: f64, anchor: &str, words: &str) -> String {
    format!("<text x=\"{x:.1}\" y=\"{y:.1}\" text-anchor=\"{anchor}\">{words}</text>\n")
}

fn line(from: (f64, f64), to: (f64, f64), colour: &str) -> String {
    format!(
        "<line x1=\"{:.1}\" y1=\"{:.1}\" x2=\"{:.1}\" y2=\"{:.1}\" stroke=\"{colour}\"/>\n",
        from.0, from.1, to.0, to.1
    )
}

/// Where a length and a time stand in a panel.
struct Scale {
    longest: f64,
    slowest: f64,
}

impl Scale {
    fn of(curves: &[Curve]) -> Scale {
        let points = || curves.iter().flat_map(|curve| &curve.points);
        Scale {
            longest: points().map(|point| point.0).fold(1.0, f64::max),
            slowest: points().map(|point| point.1).fold(1.0, f64::max) * 1.05,
        }
    }

    fn x(&self, length: f64) -> f64 {
        LEFT + (WIDTH - LEFT - RIGHT) * length / self.longest
    }

    fn y(&self, ns: f64) -> f64 {
        HEIGHT - BOTTOM - (HEIGHT - TOP - BOTTOM) * ns / self.slowest
    }

    fn axes(&self, x_words: &str) -> String {
        let mut svg = String::new();
        let mut ns = 0.0;
        while ns <= self.slowest {
            let y = self.y(ns);
            svg += &line((LEFT, y), (WIDTH - RIGHT, y), "#dddddd");
            svg += &text(LEFT - 6.0, y + 4.0, "end", &short(ns));
            ns += step(self.slowest);
        }
        let mut length = 0.0;
        while length <= self.longest {
            let x = self.x(length);
            svg += &text(x, HEIGHT - BOTTOM + 16.0, "middle", &short(length));
            length += step(self.longest);
        }
        let middle = (LEFT + WIDTH - RIGHT) / 2.0;
        svg += &line(
            (LEFT, HEIGHT - BOTTOM),
            (WIDTH - RIGHT, HEIGHT - BOTTOM),
            "#333333",
        );
        svg + &text(middle, HEIGHT - 8.0, "middle", x_words)
    }
}

fn panel(place: (f64, f64), title: &str, x_words: &str, curves: &[Curve]) -> String {
    let scale = Scale::of(curves);
    let mut svg = format!("<g transform=\"translate({},{})\">\n", place.0, place.1);
    svg += &format!("<text x=\"{LEFT}\" y=\"18\" class=\"title\">{title}</text>\n");
    svg += &scale.axes(x_words);
    for (number, curve) in curves.iter().enumerate() {
        let points: Vec<String> = curve
            .points
            .iter()
            .map(|(length, ns)| format!("{:.1},{:.1}", scale.x(*length), scale.y(*ns)))
            .collect();
        let dashes = if curve.dashed {
            " stroke-dasharray=\"5 3\""
        } else {
            ""
        };
        svg += &format!(
            "<polyline fill=\"none\" stroke=\"{}\" stroke-width=\"2\"{dashes} points=\"{}\"/>\n",
            curve.colour,
            points.join(" ")
        );
        let y = TOP + 12.0 + 15.0 * number as f64;
        svg += &format!(
            "<line x1=\"{}\" y1=\"{}\" x2=\"{}\" y2=\"{}\" stroke=\"{}\" stroke-width=\"2\"{dashes}/>\n",
            LEFT + 8.0,
            y - 4.0,
            LEFT + 32.0,
            y - 4.0,
            curve.colour
        );
        svg += &text(LEFT + 38.0, y, "start", &curve.name);
    }
    svg + "</g>\n"
}

fn crc_panel(rows: &[Row]) -> String {
    let names = [
        ("proved", "proved, table of 16"),
        ("bitwise", "Rust, one bit at a time"),
        ("reference", "the reference as compiled"),
        ("bytewise", "Rust, table of 256"),
    ];
    let curves: Vec<Curve> = names
        .iter()
        .enumerate()
        .map(|(number, (routine, name))| curve(rows, "crc", routine, name, (number, number > 0)))
        .collect();
    panel((0.0, 0.0), "CRC, ns", "bytes", &curves)
}

/// Each case by the proved library, and dashed by the reference over the same bytes of state.
fn call_panel(rows: &[Row], place: (f64, f64), title: &str, cases: &[&str]) -> String {
    let mut curves = Vec::new();
    for (number, case) in cases.iter().enumerate() {
        let name = case.strip_prefix("wire: ").unwrap_or(case);
        let both = [
            ("proved", name.to_string(), false),
            (
                "reference, state as bytes",
                format!("{name}, reference"),
                true,
            ),
        ];
        for (routine, name, dashed) in both {
            curves.push(curve(rows, case, routine, &name, (number, dashed)));
        }
    }
    panel(place, title, "bytes", &curves)
}

fn main() -> Result<()> {
    let input = read_to_string(stdin())?;
    let rows: Vec<Row> = input.lines().filter_map(row).collect();
    let rows: Vec<Row> = rows
        .into_iter()
        .filter(|row| row.group != "bench")
        .collect();
    let (right, down) = (WIDTH + 10.0, HEIGHT + 10.0);
    println!(
        "<svg xmlns=\"http://www.w3.org/2000/svg\" viewBox=\"0 0 {} {}\" font-family=\"sans-serif\" font-size=\"11\">",
        right + WIDTH,
        down + HEIGHT
    );
    println!("<style>.title {{ font-size: 13px; font-weight: bold }}</style>");
    println!("<rect width=\"100%\" height=\"100%\" fill=\"white\"/>");
    print!("{}", crc_panel(&rows));
    let radio = ["23", "AA", "AC"];
    print!(
        "{}",
        call_panel(&rows, (right, 0.0), "A call by radio, ns", &radio)
    );
    let wire = ["wire: mailbox put", "wire: memory write", "wire: read"];
    print!(
        "{}",
        call_panel(&rows, (0.0, down), "A transfer by wire, ns", &wire)
    );
    let one = ["one byte sent"];
    print!(
        "{}",
        call_panel(
            &rows,
            (right, down),
            "The last byte of a memory write, ns",
            &one
        )
    );
    println!("</svg>");
    Ok(())
}
