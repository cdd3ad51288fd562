//! The benchmark: one table in markdown, both sides in one run, on the same bytes.

#[cfg(has_bench_charges)]
mod charges;
mod clock;
#[cfg(has_bench)]
mod demod;
#[cfg(has_bench_fleet)]
mod fleet;
#[cfg(has_record)]
mod frame;
#[cfg(has_bench_grip)]
mod grip;
mod listen;
#[cfg(has_bench)]
mod order;
mod programs;
mod receiver;
mod tracker;
#[cfg(has_bench)]
mod writer;

use std::process::ExitCode;

use clock::seconds;

const ROUNDS: usize = 5;

/// What is timed on each side; no port where it isn't built.
pub struct Row {
    /// The Rust's module, or what else the row belongs to
    of: &'static str,
    what: String,
    unit: Unit,
    rust: Box<dyn Fn()>,
    port: Option<Box<dyn Fn()>>,
}

enum Unit {
    /// Microseconds for a call, of so many that are timed together
    #[cfg_attr(not(any(has_record, has_bench, has_bench_fleet, has_bench_grip, has_bench_charges)), expect(dead_code))]
    Call(usize),
    /// Milliseconds for a run
    Run,
}

/// The rows whose first two columns hold one of the words, or all.
pub fn run(words: &[&str]) -> Result<ExitCode, String> {
    let rows: Vec<Row> = programs::rows()?.into_iter().chain(libraries()).collect();
    let unknown = |word: &&&str| !rows.iter().any(|row| row.name().contains(**word));
    if let Some(word) = words.iter().find(unknown) {
        return Err(format!("no row has the word '{word}'"));
    }
    println!("{}; processor time, best of {ROUNDS}\n", machine());
    println!("| of | what | unit | Rust | port | port/Rust |\n|---|---|---|---|---|---|");
    let chosen = |row: &&Row| words.is_empty() || words.iter().any(|word| row.name().contains(word));
    rows.iter().filter(chosen).for_each(|row| println!("{}", row.line()));
    Ok(ExitCode::SUCCESS)
}

/// The processor and how many there are, as Linux says.
fn machine() -> String {
    let text = std::fs::read_to_string("/proc/cpuinfo").unwrap_or_default();
    let names = text.lines().filter(|line| line.starts_with("model name"));
    let names: Vec<&str> = names.filter_map(|line| line.split(": ").nth(1)).collect();
    let name = names.first().unwrap_or(&"unknown processor");
    format!("{} x {name}", names.len())
}

/// Rows that call the port's functions through static libraries.
fn libraries() -> Vec<Row> {
    #[cfg(has_bench)]
    let (order, demod, writer) = (order::rows(), demod::rows(), writer::rows());
    #[cfg(not(has_bench))]
    let (order, demod, writer) = (
        missing("bench", "order"),
        missing("bench", "demod.rs"),
        missing("bench", "writer"),
    );
    #[cfg(has_record)]
    let frame = frame::rows();
    #[cfg(not(has_record))]
    let frame = missing("record", "frame.rs");
    #[cfg(has_bench_fleet)]
    let fleet = fleet::rows();
    #[cfg(not(has_bench_fleet))]
    let fleet = missing("bench_fleet", "fleet");
    #[cfg(has_bench_grip)]
    let grip = grip::rows();
    #[cfg(not(has_bench_grip))]
    let grip = missing("bench_grip", "grip");

    #[cfg(has_bench_charges)]
    let charges = charges::rows();
    #[cfg(not(has_bench_charges))]
    let charges = missing("bench_charges", "charges");
    order
        .into_iter()
        .chain(frame)
        .chain(writer)
        .chain(demod)
        .chain(fleet)
        .chain(grip)

        .chain(charges)
        .collect()
}

#[cfg(not(all(has_record, has_bench, has_bench_fleet, has_bench_grip, has_bench_charges)))]
fn missing(library: &str, of: &str) -> Vec<Row> {
    eprintln!("no rows of {of}: tools/build {library} makes their library");
    vec![]
}

impl Row {
    /// Both sides on one input, so many times.
    #[cfg(any(has_record, has_bench, has_bench_fleet, has_bench_grip, has_bench_charges))]
    pub fn new<T: Clone + 'static, A: 'static, B: 'static>(
        of: &'static str,
        times: usize,
        what: String,
        input: T,
        rust: impl Fn(&T) -> A + 'static,
        port: impl Fn(&T) -> B + 'static,
    ) -> Self {
        use std::hint::black_box;
        let same = input.clone();
        Self {
            of,
            what,
            unit: Unit::Call(times),
            rust: Box::new(move || (0..times).for_each(|_| drop(black_box(rust(black_box(&input)))))),
            port: Some(Box::new(move || {
                (0..times).for_each(|_| drop(black_box(port(black_box(&same)))))
            })),
        }
    }

    fn name(&self) -> String {
        format!("| {} | {} |", self.of, self.what)
    }

    /// The sides take turns, so that whatever slows the machine slows both.
    fn line(&self) -> String {
        let (mut rust, mut port) = (f64::INFINITY, f64::INFINITY);
        for _ in 0..ROUNDS {
            rust = rust.min(seconds(&*self.rust));
            if let Some(run) = &self.port {
                port = port.min(seconds(&**run));
            }
        }
        let (unit, scale) = match self.unit {
            Unit::Call(times) => ("µs a call", 1e6 / times as f64),
            Unit::Run => ("ms a run", 1e3),
        };
        let (port, ratio) = match self.port {
            Some(_) => (figure(scale * port), figure(port / rust)),
            None => ("-".to_string(), "-".to_string()),
        };
        format!("{} {unit} | {} | {port} | {ratio} |", self.name(), figure(scale * rust))
    }
}

/// Three digits or all before the point, those in groups of three.
fn figure(x: f64) -> String {
    match x {
        0.0..0.095 => format!("{x:.3}"),
        0.095..9.95 => format!("{x:.2}"),
        9.95..99.5 => format!("{x:.1}"),
        _ => grouped(x.round() as usize),
    }
}

fn grouped(n: usize) -> String {
    match n {
        0..1000 => n.to_string(),
        _ => format!("{},{:03}", grouped(n / 1000), n % 1000),
    }
}

#[test]
fn figures() {
    let pairs = [
        (0.004, "0.004"),
        (0.2, "0.20"),
        (56.04, "56.0"),
        (999.4, "999"),
        (11_424.2, "11,424"),
    ];
    for (x, text) in pairs {
        assert_eq!(figure(x), text);
    }
}
