//! Tables, and the page in docs/.
use crate::kinds::Kind;
use crate::picture;
use std::fs;
use std::time::SystemTime;

/// What was measured of a kind of call at a size.
pub struct Line {
    pub kind: Kind,
    pub size: u64,
    pub nanos: f64,
    pub asks: f64,
    /// Of `Vec` or `BTreeMap`.
    pub standard: Option<f64>,
}

/// A number with commas; few digits where it is small.
pub fn number(x: f64) -> String {
    if x < 9.95 {
        return format!("{x:.1}");
    }
    let digits = format!("{x:.0}");
    let mut out = String::new();
    for (j, c) in digits.chars().enumerate() {
        if j > 0 && (digits.len() - j) % 3 == 0 {
            out.push(',');
        }
        out.push(c);
    }
    out
}

pub fn row(l: &Line) -> String {
    let standard = l.standard.map_or(String::from("-"), number);
    let (nanos, asks) = (number(l.nanos), number(l.asks));
    format!("{:>9}  {:12}  {nanos:>9} ns  {asks:>7} askings  {standard:>11} ns", number(l.size as f64), l.kind.name())
}

/// A table for each size.
pub fn tables(lines: &[Line]) -> String {
    let mut sizes: Vec<u64> = lines.iter().map(|l| l.size).collect();
    sizes.dedup();
    let mut out = String::new();
    for size in sizes {
        out += &format!("## {} words or pairs\n\n", number(size as f64));
        out += "| call | ns | askings | `Vec`, `BTreeMap`: ns |\n|---|---:|---:|---:|\n";
        for l in lines.iter().filter(|l| l.size == size) {
            let standard = l.standard.map_or(String::new(), number);
            out += &format!("| {} | {} | {} | {standard} |\n", l.kind.name(), number(l.nanos), number(l.asks));
        }
        out.push('\n');
    }
    out
}

/// Year, month and day of a number of days since 1970.
fn date(days: i64) -> (i64, i64, i64) {
    let z = days + 719_468;
    let era = z.div_euclid(146_097);
    let doe = z.rem_euclid(146_097);
    let yoe = (doe - doe / 1460 + doe / 36_524 - doe / 146_096) / 365;
    let doy = doe - (365 * yoe + yoe / 4 - yoe / 100);
    let mp = (5 * doy + 2) / 153;
    let month = if mp < 10 { mp + 3 } else { mp - 9 };
    (yoe + era * 400 + i64::from(month <= 2), month, doy - (153 * mp + 2) / 5 + 1)
}

fn today() -> String {
    let now = SystemTime::now().duration_since(SystemTime::UNIX_EPOCH).expect("a clock");
    let (y, m, d) = date((now.as_secs() / 86_400) as i64);
    format!("{y:04}-{m:02}-{d:02}")
}

fn machine() -> String {
    let info = fs::read_to_string("/proc/cpuinfo").unwrap_or_default();
    let name = info.lines().find_map(|l| l.strip_prefix("model name")?.split_once(": ")).map_or("?", |p| p.1.trim());
    let cores = std::thread::available_parallelism().map_or(1, |n| n.get());
    format!("{name}, {cores} cores")
}

const INTRO: &str = include_str!("intro.md");

pub fn write(lines: &[Line]) {
    let docs = concat!(env!("CARGO_MANIFEST_DIR"), "/../docs");
    let head = INTRO.replace("MACHINE", &machine()).replace("DATE", &today());
    fs::write(format!("{docs}/PERFORMANCE.md"), format!("{}\n\n{}\n", head.trim_end(), tables(lines).trim_end()))
        .expect("docs/PERFORMANCE.md");
    fs::write(format!("{docs}/performance.svg"), picture::svg(lines)).expect("docs/performance.svg");
}
