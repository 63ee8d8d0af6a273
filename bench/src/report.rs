//! The report of a run: a table for the terminal, the page docs/BENCHMARKS.md and its chart.

use std::fmt::Write;

/// What was measured of somebody who does a job.
pub struct Contender {
    pub name: String,
    pub best: f64,
    pub median: f64,
    pub bytes: f64,
}

impl Contender {
    /// Megabytes in a second, where bytes matter.
    fn rate(&self) -> Option<f64> {
        (self.bytes > 0.0).then(|| self.bytes / self.best * 1e3)
    }
}

/// A job; the library is the first contender.
pub struct Case {
    pub group: String,
    pub name: String,
    pub contenders: Vec<Contender>,
}

impl Case {
    /// The cases of the lines that `measure` writes.
    pub fn all(lines: &str) -> Vec<Case> {
        let mut cases: Vec<Case> = Vec::new();
        for line in lines.lines() {
            let words: Vec<&str> = line.split('\t').collect();
            let [group, name, contender, best, median, bytes] = words[..] else { panic!("not six words: {line}") };
            let number = |word: &str| word.parse().unwrap_or_else(|_| panic!("no number: {line}"));
            let contender =
                Contender { name: contender.into(), best: number(best), median: number(median), bytes: number(bytes) };
            match cases.last_mut() {
                Some(case) if case.group == group && case.name == name => case.contenders.push(contender),
                _ => cases.push(Case { group: group.into(), name: name.into(), contenders: vec![contender] }),
            }
        }
        cases
    }

    /// Our time over a contender's; none for ourselves.
    fn ratio(&self, index: usize) -> Option<f64> {
        (index > 0).then(|| self.contenders[0].best / self.contenders[index].best)
    }

    /// Each peer with its ratio.
    fn peers(&self) -> impl Iterator<Item = (&Contender, f64)> {
        self.contenders.iter().enumerate().filter_map(|(index, peer)| Some((peer, self.ratio(index)?)))
    }
}

/// The instructions of an operation, ours and plain Rust's.
pub struct Instructions {
    row: String,
    ours: f64,
    rust: f64,
}

impl Instructions {
    /// The rows of the table that `bench/instructions` makes.
    pub fn all(table: &str) -> Vec<Instructions> {
        let row = |line: &str| {
            let words: Vec<&str> = line.split_whitespace().collect();
            let [row @ .., ours, rust] = &words[..] else { panic!("not a row and two numbers: {line}") };
            let number = |word: &str| word.parse().unwrap_or_else(|_| panic!("no number: {line}"));
            Instructions { row: row.join(" "), ours: number(ours), rust: number(rust) }
        };
        table.lines().filter(|line| !line.starts_with('#')).map(row).collect()
    }
}

/// A time with as many places as it deserves.
fn time(nanoseconds: f64) -> String {
    match nanoseconds {
        n if n < 100.0 => format!("{n:.1}"),
        n if n < 1e6 => format!("{n:.0}"),
        n => format!("{:.1} ms", n / 1e6),
    }
}

fn or_empty(value: Option<String>) -> String {
    value.unwrap_or_default()
}

/// How far the middle round lies from the best one, in the case where it lies farthest.
fn spread(cases: &[Case]) -> String {
    let contenders = cases.iter().flat_map(|case| &case.contenders);
    let worst = contenders.map(|contender| contender.median / contender.best).fold(1.0, f64::max);
    format!("The middle round took up to {:.0} % longer than the best one.", (worst - 1.0) * 100.0)
}

pub fn table(cases: &[Case]) -> String {
    let mut out = String::new();
    let mut group = "";
    for case in cases {
        if case.group != group {
            group = &case.group;
            writeln!(out, "\n{group:<52} {:>10} {:>9} {:>10}", "ns", "MB/s", "ours/peer").unwrap();
        }
        writeln!(out, "  {}", case.name).unwrap();
        for (index, contender) in case.contenders.iter().enumerate() {
            let rate = or_empty(contender.rate().map(|rate| format!("{rate:.0}")));
            let ratio = or_empty(case.ratio(index).map(|ratio| format!("{ratio:.2}")));
            let line = format!("    {:<48} {:>10} {rate:>9} {ratio:>10}", contender.name, time(contender.best));
            writeln!(out, "{}", line.trim_end()).unwrap();
        }
    }
    writeln!(out, "\n{}", spread(cases)).unwrap();
    out
}

pub fn markdown(facts: &str, cases: &[Case], instructions: &[Instructions]) -> String {
    let mut out = String::from(include_str!("../about.md"));
    out.push_str("\n## The run\n\n");
    for fact in facts.lines() {
        writeln!(out, "- {fact}").unwrap();
    }
    writeln!(out, "- {}", spread(cases)).unwrap();
    let mut group = "";
    for case in cases {
        if case.group != group {
            group = &case.group;
            writeln!(out, "\n## {group}\n\n| job | who | ns | MB/s | ours / peer |\n|---|---|--:|--:|--:|").unwrap();
        }
        for (index, contender) in case.contenders.iter().enumerate() {
            let name = if index == 0 { &case.name } else { "" };
            let rate = or_empty(contender.rate().map(|rate| format!("{rate:.0}")));
            let ratio = or_empty(case.ratio(index).map(|ratio| format!("{ratio:.2}")));
            writeln!(out, "| {name} | {} | {} | {rate} | {ratio} |", contender.name, time(contender.best)).unwrap();
        }
    }
    if !instructions.is_empty() {
        out.push_str("\n## Instructions\n\n| job | ours | Rust | ours / Rust |\n|---|--:|--:|--:|\n");
    }
    for Instructions { row, ours, rust } in instructions {
        writeln!(out, "| {row} | {ours:.0} | {rust:.0} | {:.2} |", ours / rust).unwrap();
    }
    out
}

const WIDTH: f64 = 1000.0;
/// Where the axis begins and ends, and the heights of a bar's line and of a case's.
const LEFT: f64 = 260.0;
const RIGHT: f64 = 930.0;
const TOP: f64 = 70.0;
const BAR: f64 = 16.0;
const HEADING: f64 = 22.0;
/// White around words that are on lines.
const HALO: &str = r##"stroke="#fff" stroke-width="3" paint-order="stroke""##;
const TICKS: [f64; 13] = [0.01, 0.02, 0.05, 0.1, 0.2, 0.5, 1.0, 2.0, 5.0, 10.0, 20.0, 50.0, 100.0];

/// A logarithmic axis that has room for all ratios and for 1.
struct Axis {
    low: f64,
    high: f64,
}

impl Axis {
    fn of(cases: &[Case]) -> Axis {
        let ratios = || cases.iter().flat_map(|case| case.peers().map(|(_, ratio)| ratio));
        let low = ratios().fold(0.5, f64::min);
        let high = ratios().fold(2.0, f64::max);
        Axis { low: low / 1.4, high: high * 1.4 }
    }

    fn x(&self, ratio: f64) -> f64 {
        LEFT + (RIGHT - LEFT) * (ratio / self.low).ln() / (self.high / self.low).ln()
    }
}

fn color(peer: &str) -> &'static str {
    match peer.split(',').next() {
        Some("Rust") => "#b7410e",
        Some("protobuf C++") => "#3367d6",
        Some("nanopb") => "#0f9d58",
        _ => "#777777",
    }
}

fn text(out: &mut String, x: f64, y: f64, anchor: &str, style: &str, words: &str) {
    let words = words.replace('&', "&amp;").replace('<', "&lt;");
    writeln!(out, r#"<text x="{x:.1}" y="{y:.1}" text-anchor="{anchor}" {style}>{words}</text>"#).unwrap();
}

fn line(out: &mut String, x: f64, top: f64, bottom: f64, style: &str) {
    writeln!(out, r#"<line x1="{x:.1}" y1="{top:.1}" x2="{x:.1}" y2="{bottom:.1}" {style}/>"#).unwrap();
}

/// The axis from top to bottom, with the line at which both are equally fast.
fn draw_axis(out: &mut String, axis: &Axis, bottom: f64) {
    for tick in TICKS.into_iter().filter(|tick| (axis.low..=axis.high).contains(tick)) {
        let x = axis.x(tick);
        let style = if tick == 1.0 { r##"stroke="#222" stroke-width="1.5""## } else { r##"stroke="#ddd""## };
        line(out, x, TOP, bottom, style);
        text(out, x, TOP - 6.0, "middle", r##"fill="#555""##, &tick.to_string());
        text(out, x, bottom + 14.0, "middle", r##"fill="#555""##, &tick.to_string());
    }
}

fn draw_bar(out: &mut String, axis: &Axis, y: f64, peer: &str, ratio: f64) {
    let (one, end) = (axis.x(1.0), axis.x(ratio));
    let (start, width) = (one.min(end), (one - end).abs().max(1.0));
    let (color, height) = (color(peer), BAR - 4.0);
    let top = y + 2.0;
    writeln!(out, r#"<rect x="{start:.1}" y="{top:.1}" width="{width:.1}" height="{height}" fill="{color}"/>"#)
        .unwrap();
    let base = y + BAR - 4.0;
    text(out, LEFT - 8.0, base, "end", "", peer);
    let (at, anchor) = if ratio < 1.0 { (end - 4.0, "end") } else { (end + 4.0, "start") };
    text(out, at, base, anchor, HALO, &format!("{ratio:.2}"));
}

/// Bars from 1 to each ratio, to the left where the library is faster.
pub fn chart(cases: &[Case]) -> String {
    let axis = Axis::of(cases);
    let height: f64 = cases.iter().map(|case| HEADING + BAR * case.peers().count() as f64).sum();
    let bottom = TOP + height + 6.0;
    let total = bottom + 24.0;
    let mut out = String::new();
    writeln!(
        out,
        r##"<svg xmlns="http://www.w3.org/2000/svg" viewBox="0 0 {WIDTH} {total}"
     font-family="sans-serif" font-size="11" fill="#222">
<title>Our time over the peer's, for each job and peer</title>
<rect width="{WIDTH}" height="{total}" fill="#fff"/>"##
    )
    .unwrap();
    let title = "Bekurapi's time over the peer's (logarithmic axis)";
    text(&mut out, 12.0, 22.0, "start", r#"font-size="15" font-weight="bold""#, title);
    text(&mut out, axis.x(1.0) - 8.0, 44.0, "end", "", "← Bekurapi is faster");
    text(&mut out, axis.x(1.0) + 8.0, 44.0, "start", "", "the peer is faster →");
    draw_axis(&mut out, &axis, bottom);
    let mut y = TOP + 4.0;
    for case in cases {
        let heading = format!("{}: {}", case.group, case.name);
        text(&mut out, 12.0, y + HEADING - 7.0, "start", &format!(r#"font-weight="bold" {HALO}"#), &heading);
        y += HEADING;
        for (peer, ratio) in case.peers() {
            draw_bar(&mut out, &axis, y, &peer.name, ratio);
            y += BAR;
        }
    }
    out.push_str("</svg>\n");
    out
}
