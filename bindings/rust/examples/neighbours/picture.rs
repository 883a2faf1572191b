//! How the callers of both halves fared over time, as an SVG: how many calls in each tenth of a second were answered, refused or given
//! up, stacked.
use super::{HANGS, LENGTH, Met, PERMITS, STEADY_PATIENCE, THREADS};
use std::fmt::Write as _;
use std::time::Duration;

/// The width of a column in time.
const COLUMN: Duration = Duration::from_millis(100);
const WIDTH: f64 = 800.0;
const LEFT: f64 = 48.0;
const PLOT: f64 = 736.0;
const HEIGHT: f64 = 130.0;
/// The top of each of the two plots.
const TOPS: [f64; 2] = [112.0, 294.0];

/// The possible results of a call, from the bottom: the class, and the legend's words with their place.
const KINDS: [(&str, &str, f64); 4] = [
    ("good", "good neighbour answers", 48.0),
    ("slow", "slow neighbour answers", 256.0),
    ("refused", "refused at once", 464.0),
    ("late", "given up", 614.0),
];

const STYLE: &str = "svg { background: #fff; fill: #1f2328; font: 14px sans-serif }
.ground { fill: #fff } .band { fill: #eaeef2 } .line { stroke: #8c959f; fill: none } .dim { fill: #59636e }
.good { fill: #0969da } .slow { fill: #8cc4ff } .refused { fill: #e08a00 } .late { fill: #b3202f }
@media (prefers-color-scheme: dark) {
svg { background: #0d1117; fill: #e6edf3 }
.ground { fill: #0d1117 } .band { fill: #262c36 } .line { stroke: #6e7681 } .dim { fill: #9198a1 }
.good { fill: #4493f8 } .slow { fill: #2a5690 } .refused { fill: #d29922 } .late { fill: #f85149 }
}";

// A result's index in KINDS.
fn kind(met: &Met) -> usize {
    match met.status {
        Some(200) if met.slow => 1,
        Some(200) => 0,
        Some(503) => 2,
        _ => 3,
    }
}

// How many calls of each kind ended in each column.
fn columns(all: &[Met]) -> Vec<[u32; 4]> {
    let count = LENGTH.as_millis().div_ceil(COLUMN.as_millis());
    let mut columns = vec![[0; 4]; usize::try_from(count).unwrap_or(0)];
    for met in all {
        let index = usize::try_from(met.at.as_millis() / COLUMN.as_millis());
        if let Some(column) = index.ok().and_then(|index| columns.get_mut(index)) {
            column[kind(met)] += 1;
        }
    }
    columns
}

fn x(at: Duration) -> f64 {
    LEFT + PLOT * at.as_secs_f64() / LENGTH.as_secs_f64()
}

// The outline of a kind: over all columns the sum of it and those below it, and back along the sum of those below.
fn outline(columns: &[[u32; 4]], kind: usize, unit: f64, bottom: f64) -> String {
    let step = x(COLUMN) - LEFT;
    let height = |column: &[u32; 4], count: usize| {
        let calls: u32 = column[..count].iter().sum();
        bottom - unit * f64::from(calls)
    };
    let places = (0..).map(|index| LEFT + step * f64::from(index));
    let places: Vec<_> = places.zip(columns).collect();
    let mut path = format!("M{LEFT} {bottom}");
    for (from, column) in &places {
        let y = height(column, kind + 1);
        let _ = write!(path, "L{from:.1} {y:.1}H{:.1}", from + step);
    }
    for (from, column) in places.iter().rev() {
        let y = height(column, kind);
        let _ = write!(path, "L{:.1} {y:.1}H{from:.1}", from + step);
    }
    path + "Z"
}

// One plot: the band in which the slow backend hangs, the four kinds, and the axes.
fn plot(svg: &mut String, title: &str, all: &[Met], most: u32, top: f64) {
    let (above, bottom) = (top - 12.0, top + HEIGHT);
    let unit = HEIGHT / f64::from(most);
    let [from, to] = HANGS.map(x);
    let (width, right) = (to - from, LEFT + PLOT);
    let columns = columns(all);
    let _ = writeln!(
        svg,
        r#"<text x="{LEFT}" y="{above}" font-weight="bold">{title}</text>
<rect class="band" x="{from}" y="{top}" width="{width}" height="{HEIGHT}"/>"#
    );
    for (index, (class, _, _)) in KINDS.iter().enumerate() {
        let outline = outline(&columns, index, unit, bottom);
        let _ = writeln!(svg, r#"<path class="{class}" d="{outline}"/>"#);
    }
    let _ = writeln!(
        svg,
        r#"<path class="line" d="M{LEFT} {top}V{bottom}H{right}"/>"#
    );
    for (calls, y) in [(most, top + 10.0), (0, bottom)] {
        let x = LEFT - 6.0;
        let _ = writeln!(
            svg,
            r#"<text class="dim" x="{x}" y="{y}" text-anchor="end">{calls}</text>"#
        );
    }
    for second in 0..=LENGTH.as_secs() {
        let (x, y) = (x(Duration::from_secs(second)), bottom + 18.0);
        let unit = if second == 0 { " s" } else { "" };
        let _ = writeln!(
            svg,
            r#"<text class="dim" x="{x}" y="{y}" text-anchor="middle">{second}{unit}</text>"#
        );
    }
}

/// Both halves, one above the other.
pub fn svg(without: &[Met], with: &[Met]) -> String {
    let sums = [without, with].into_iter().flat_map(columns);
    let most = sums.map(|column| column.iter().sum()).max().unwrap_or(1);
    let most = most.next_multiple_of(20).max(20);
    let (right, above) = (LEFT + PLOT, TOPS[0] - 12.0);
    let patience = STEADY_PATIENCE.as_millis();
    let mut svg = format!(
        r#"<svg xmlns="http://www.w3.org/2000/svg" viewBox="0 0 {WIDTH} 456" width="{WIDTH}" height="456">
<style>
{STYLE}
</style>
<rect class="ground" width="{WIDTH}" height="456"/>
<text x="{LEFT}" y="28" font-size="18" font-weight="bold">A server of {THREADS} threads, and a neighbour that hangs for two seconds</text>
"#
    );
    for (class, words, place) in KINDS {
        let behind = place + 19.0;
        let _ = writeln!(
            svg,
            r#"<rect class="{class}" x="{place}" y="45" width="13" height="13"/><text x="{behind}" y="57">{words}</text>"#
        );
    }
    plot(&mut svg, "Without a bulkhead", without, most, TOPS[0]);
    let title = format!("With a bulkhead of {PERMITS} permits for each neighbour");
    plot(&mut svg, &title, with, most, TOPS[1]);
    svg + &format!(
        r#"<text class="dim" x="{LEFT}" y="80">calls per tenth of a second; a caller gives up after {patience} ms</text>
<text class="dim" x="{right}" y="{above}" text-anchor="end">the slow neighbour hangs in the grey band</text>
</svg>
"#
    )
}
