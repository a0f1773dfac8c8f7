//! Runs fixed and random scripts through the reference and through the product's programs, and
//! compares what they print, byte for byte.

mod options;
mod product;
mod shrink;

use std::process::ExitCode;
use std::thread;
use std::time::Duration;

use options::{Extent, Options};
use product::{Outcome, Product};
use reference::coverage::Coverage;
use reference::fixed::{self, Fixed, Program};
use reference::generate;
use reference::random::Random;

/// Scripts that are run by one process.
const BATCH: u64 = 64;

/// How long the product may take for one input, and for one that is being made smaller.
const PATIENCE: Duration = Duration::from_secs(120);
const SHORT_PATIENCE: Duration = Duration::from_secs(5);

/// For so many scripts there is one input of `axes`.
const SCRIPTS_TO_AXES: u64 = 8;

/// Why a comparison ends early.
enum Stop {
    /// The comparison could not be made.
    Error(String),
    /// It was made, and this is what was found.
    Found(String),
}

fn main() -> ExitCode {
    let options = match Options::parse(std::env::args().skip(1)) {
        Ok(options) => options,
        Err(message) => {
            eprintln!("compare: {message}\n{}", options::USAGE);
            return ExitCode::from(2);
        }
    };
    match compare(&options) {
        Ok(summary) => {
            println!("{summary}");
            ExitCode::SUCCESS
        }
        Err(Stop::Found(report)) => {
            print!("{report}");
            ExitCode::from(1)
        }
        Err(Stop::Error(message)) => {
            eprintln!("compare: {message}");
            ExitCode::from(2)
        }
    }
}

fn compare(options: &Options) -> Result<String, Stop> {
    let replay = options.replay.as_deref().map(Product::find).transpose();
    let pair = Pair {
        replay: replay.map_err(Stop::Error)?,
        axes: Product::find(&options.axes).map_err(Stop::Error)?,
    };
    let mut scripts = fixed::load(&options.fixed).map_err(Stop::Error)?;
    scripts.retain(|script| pair.has(script.program));
    let mut calls = 0;
    for script in &scripts {
        calls += compare_fixed(&pair, script)?;
    }
    let random = compare_random(&pair, options)?;
    calls += random.axes_calls + random.coverage.calls();
    if options.verbose {
        print!("{}", random.coverage.table());
    }
    if options.first.is_none() && pair.has(Program::Replay) {
        check_coverage(&random.coverage)?;
    }
    Ok(format!(
        "compared: {} scripts, {} axes inputs, {} fixed, {calls} calls, no difference",
        random.scripts,
        random.axes_inputs,
        scripts.len(),
    ))
}

/// The product's two programs; `replay` may not be there.
struct Pair {
    replay: Option<Product>,
    axes: Product,
}

impl Pair {
    fn product(&self, program: Program) -> Option<&Product> {
        match program {
            Program::Replay => self.replay.as_ref(),
            Program::Axes => Some(&self.axes),
        }
    }

    fn has(&self, program: Program) -> bool {
        self.product(program).is_some()
    }

    /// Runs an input through the reference and the product.
    fn run(&self, program: Program, input: &[u8], patience: Duration) -> Result<Both, Stop> {
        let product = self
            .product(program)
            .ok_or_else(|| Stop::Error(format!("{} is not there", program.name())))?;
        thread::scope(|scope| {
            let running = scope.spawn(|| product.run(input, patience));
            let (reference, coverage) = program.reference(input);
            let product = running
                .join()
                .map_err(|_| Stop::Error(String::from("running the product failed")))?
                .map_err(Stop::Error)?;
            Ok(Both {
                reference,
                coverage,
                product,
            })
        })
    }

    fn differ(&self, program: Program, input: &[u8]) -> bool {
        self.run(program, input, PATIENCE)
            .is_ok_and(|both| both.differ())
    }

    /// The input made smaller while the two differ. One on which the product hangs stays as it
    /// is: every try would take too long.
    fn shrunk(&self, program: Program, input: &[u8]) -> Vec<u8> {
        let differs = |smaller: &[u8]| {
            self.run(program, smaller, SHORT_PATIENCE)
                .is_ok_and(|both| both.differ() && !both.product.hangs())
        };
        if differs(input) {
            shrink::shrink(input, differs)
        } else {
            input.to_vec()
        }
    }

    /// A report on an input for which the two differ, made as small as it can be.
    fn report(&self, program: Program, title: &str, input: &[u8], options: &Options) -> Stop {
        let shrunk = self.shrunk(program, input);
        let both = match self.run(program, &shrunk, PATIENCE) {
            Ok(both) => both,
            Err(stop) => return stop,
        };
        if let Some(path) = &options.save {
            if let Err(error) = std::fs::write(path, &shrunk) {
                return Stop::Error(format!("{}: {error}", path.display()));
            }
        }
        Stop::Found(format!(
            "difference: {title}\n\
             the input for {}, {} lines of {}:\n{}\
             the reference prints:\n{}\
             the product prints:\n{}{}",
            program.name(),
            line_count(&shrunk),
            line_count(input),
            shown(&shrunk),
            shown(&both.reference),
            shown(&both.product.output),
            both.product.fault(),
        ))
    }
}

/// What the reference and the product gave for one input.
struct Both {
    reference: Vec<u8>,
    coverage: Coverage,
    product: Outcome,
}

impl Both {
    fn differ(&self) -> bool {
        self.product.fault.is_some() || self.product.output != self.reference
    }
}

/// Compares both with what must be printed; gives how many calls were made.
fn compare_fixed(pair: &Pair, script: &Fixed) -> Result<u64, Stop> {
    let both = pair.run(script.program, &script.input, PATIENCE)?;
    let name = &script.name;
    if both.reference != script.output {
        return Err(Stop::Found(format!(
            "difference: the reference itself departs from {name}.out\n\
             it prints:\n{}it must print:\n{}",
            shown(&both.reference),
            shown(&script.output),
        )));
    }
    if both.differ() {
        return Err(Stop::Found(format!(
            "difference: the product departs from {name}.out\n\
             the input for {}:\n{}\
             it must print:\n{}\
             the product prints:\n{}{}",
            script.program.name(),
            shown(&script.input),
            shown(&script.output),
            shown(&both.product.output),
            both.product.fault(),
        )));
    }
    Ok(both.coverage.calls())
}

/// What the random scripts came to.
#[derive(Default)]
struct Tally {
    /// The random scripts gone over, compared or not.
    numbers: u64,
    scripts: u64,
    axes_inputs: u64,
    axes_calls: u64,
    coverage: Coverage,
}

fn compare_random(pair: &Pair, options: &Options) -> Result<Tally, Stop> {
    let mut tally = Tally::default();
    let mut told = 0;
    loop {
        let batch = match options.extent {
            Extent::Scripts(scripts) => BATCH.min(scripts - tally.numbers),
            Extent::Calls(calls) if tally.coverage.calls() + tally.axes_calls < calls => BATCH,
            Extent::Calls(_) => 0,
        };
        if batch == 0 {
            return Ok(tally);
        }
        let first = options.first.unwrap_or(0) + tally.numbers;
        tally.numbers += batch;
        if pair.has(Program::Replay) {
            compare_batch(pair, options, first..first + batch, &mut tally)?;
        }
        for number in (first..first + batch).filter(|number| number % SCRIPTS_TO_AXES == 0) {
            compare_axes(pair, options, number, &mut tally)?;
        }
        let calls = tally.coverage.calls() + tally.axes_calls;
        if calls / 1_000_000 > told {
            told = calls / 1_000_000;
            eprintln!("compare: {calls} calls so far");
        }
    }
}

/// Runs some scripts in one process each of the reference and the product: `new` begins anew.
fn compare_batch(
    pair: &Pair,
    options: &Options,
    numbers: std::ops::Range<u64>,
    tally: &mut Tally,
) -> Result<(), Stop> {
    let scripts: Vec<(u64, Vec<u8>)> = numbers
        .map(|number| (number, generate::script(seed_of(options.seed, number))))
        .collect();
    let mut joined = Vec::new();
    for (_, script) in &scripts {
        if !joined.is_empty() && !joined.ends_with(b"\n") {
            joined.push(b'\n');
        }
        joined.extend_from_slice(script);
    }
    let both = pair.run(Program::Replay, &joined, PATIENCE)?;
    if both.differ() {
        return Err(find_difference(pair, options, &scripts, &joined));
    }
    tally.scripts += scripts.len() as u64;
    tally.coverage.add(&both.coverage);
    Ok(())
}

/// The first script of a batch that differs by itself, or else the whole batch.
fn find_difference(
    pair: &Pair,
    options: &Options,
    scripts: &[(u64, Vec<u8>)],
    joined: &[u8],
) -> Stop {
    let seed = options.seed;
    for (number, script) in scripts {
        if pair.differ(Program::Replay, script) {
            let title = title("script", seed, *number);
            return pair.report(Program::Replay, &title, script, options);
        }
    }
    let title = format!("several random scripts of seed {seed} in one run, none of them alone");
    pair.report(Program::Replay, &title, joined, options)
}

fn compare_axes(
    pair: &Pair,
    options: &Options,
    number: u64,
    tally: &mut Tally,
) -> Result<(), Stop> {
    let input = generate::axes_input(seed_of(options.seed, number));
    let both = pair.run(Program::Axes, &input, PATIENCE)?;
    if both.differ() {
        let title = title("axes input", options.seed, number);
        return Err(pair.report(Program::Axes, &title, &input, options));
    }
    tally.axes_inputs += 1;
    tally.axes_calls += both.coverage.calls();
    Ok(())
}

/// Which random input it is, and how to make it alone.
fn title(what: &str, seed: u64, number: u64) -> String {
    format!(
        "random {what} {number} of seed {seed} (alone: --seed {seed} --first {number} --scripts 1)"
    )
}

/// The seed of one script among those of a run.
fn seed_of(seed: u64, number: u64) -> u64 {
    Random::new(seed ^ Random::new(number).next_u64()).next_u64()
}

fn check_coverage(coverage: &Coverage) -> Result<(), Stop> {
    let missing = coverage.missing();
    if missing.is_empty() {
        return Ok(());
    }
    Err(Stop::Found(format!(
        "no difference, but the random scripts did not meet everything; more of them may:\n    {}\n",
        missing.join("\n    ")
    )))
}

fn line_count(input: &[u8]) -> usize {
    input.split_inclusive(|&byte| byte == b'\n').count()
}

/// Bytes as indented lines; what is not printable stands as an escape.
fn shown(bytes: &[u8]) -> String {
    bytes
        .split_inclusive(|&byte| byte == b'\n')
        .map(|line| {
            let text = line.strip_suffix(b"\n").unwrap_or(line);
            let end = if text.len() == line.len() {
                " (no line end)"
            } else {
                ""
            };
            let text: String = text.iter().map(|&byte| printable(byte)).collect();
            format!("    |{text}|{end}\n")
        })
        .collect()
}

fn printable(byte: u8) -> String {
    match byte {
        b' '..=b'~' => char::from(byte).to_string(),
        _ => format!("\\x{byte:02X}"),
    }
}
