//! The program `study`: the way in for a modeller.

#![forbid(unsafe_code)]

mod args;
mod help;

use std::env;
use std::ffi::OsString;
use std::fs::{self, File};
use std::io::{self, ErrorKind, Write};
use std::path::Path;
use std::process::ExitCode;

use args::Args;
use study_tool::culprit::culprit;
use study_tool::exact::{Figure, Fraction};
use study_tool::format::{Class, Study};
use study_tool::source::{self, Problem, Source};
use study_tool::text;
use study_tool::tntp::{self, Lorries, Options, TimeUnit};
use study_tool::words::{self, answer, count, trips};

/// Why a command came to nothing.
enum Failure {
    /// The command line makes no sense.
    Usage(String),
    /// An input or output does.
    Problem(Problem),
}

impl From<String> for Failure {
    fn from(message: String) -> Self {
        Failure::Usage(message)
    }
}

impl From<Problem> for Failure {
    fn from(problem: Problem) -> Self {
        Failure::Problem(problem)
    }
}

/// A sub-command: its name, help, options and what it does.
struct Command {
    name: &'static str,
    help: &'static str,
    options: &'static [&'static str],
    run: fn(&Args) -> Result<ExitCode, Failure>,
}

const COMMANDS: [Command; 4] = [
    Command {
        name: "from-tntp",
        help: help::FROM_TNTP,
        options: &[
            "--out",
            "--vehicles-per-trip",
            "--time-unit",
            "--lorry-trips",
            "--car-units-per-lorry",
            "--barred-links",
        ],
        run: from_tntp,
    },
    Command {
        name: "from-text",
        help: help::FROM_TEXT,
        options: &["--out"],
        run: from_text,
    },
    Command {
        name: "show",
        help: help::SHOW,
        options: &[],
        run: show,
    },
    Command {
        name: "refusals",
        help: help::REFUSALS,
        options: &[],
        run: refusals,
    },
];

fn main() -> ExitCode {
    let mut arguments = env::args_os().skip(1);
    let Some(name) = arguments.next() else {
        eprint!("{}", help::TOOL);
        return ExitCode::from(2);
    };
    if name == "--help" || name == "-h" || name == "help" {
        return print(help::TOOL);
    }
    let Some(command) = COMMANDS.iter().find(|command| name == command.name) else {
        let message = format!("unknown command `{}`", name.display());
        return usage(&message, "study --help");
    };
    match perform(command, arguments) {
        Ok(code) => code,
        Err(Failure::Usage(message)) => usage(&message, &format!("study {} --help", command.name)),
        Err(Failure::Problem(problem)) => {
            eprintln!("study: {problem}");
            ExitCode::FAILURE
        }
    }
}

/// Reports a command line that makes no sense.
fn usage(message: &str, help: &str) -> ExitCode {
    eprintln!("study: {message}\nsee `{help}`");
    ExitCode::from(2)
}

fn perform(
    command: &Command,
    arguments: impl Iterator<Item = OsString>,
) -> Result<ExitCode, Failure> {
    let args = Args::sort(arguments, command.options)?;
    if args.help {
        return Ok(print(command.help));
    }
    (command.run)(&args)
}

/// `study from-tntp`.
fn from_tntp(args: &Args) -> Result<ExitCode, Failure> {
    let [net, trips] = args.operands(["NET", "TRIPS"])?;
    let out = args.out()?;
    let vehicles_per_trip = above_0(args, "--vehicles-per-trip")?;
    let time_unit = time_unit(args)?;
    let car_units = above_0(args, "--car-units-per-lorry")?;
    lorries_belong(args)?;

    let (net, trips) = (Source::open(&net)?, Source::open(&trips)?);
    let options = Options {
        vehicles_per_trip,
        time_unit,
        lorries: lorries(args, car_units)?,
    };
    let conversion = tntp::convert(&net, &trips, &options)?;
    let file = conversion.study.packed();
    let mut inputs = vec![net.path(), trips.path()];
    if let Some(lorries) = &options.lorries {
        inputs.push(lorries.trips.path());
        inputs.extend(lorries.barred.as_ref().map(Source::path));
    }
    write(&out, &file, &inputs)?;
    for line in conversion.report {
        eprintln!("{line}");
    }
    Ok(print(&summary(&out, &conversion.study, &file)))
}

/// The figure that an option gives, which must be above 0; 1 without it.
fn above_0(args: &Args, name: &str) -> Result<Fraction, String> {
    let Some(value) = args.option(name) else {
        return Ok(Fraction::ONE);
    };
    value
        .to_str()
        .and_then(|text| Figure::parse(text).ok())
        .map(|figure| figure.value)
        .filter(|value| !value.is_zero())
        .ok_or_else(|| format!("{name} `{}`, must be a figure above 0", value.display()))
}

/// The unit that `--time-unit` names; minutes without it.
fn time_unit(args: &Args) -> Result<TimeUnit, String> {
    let Some(value) = args.option("--time-unit") else {
        return Ok(TimeUnit::Minutes);
    };
    TimeUnit::ALL
        .into_iter()
        .find(|unit| value == unit.name())
        .ok_or_else(|| {
            let units = TimeUnit::ALL.map(TimeUnit::name).join(", ");
            format!("--time-unit `{}`, must be one of {units}", value.display())
        })
}

/// Without lorry trips the other options for lorries make no sense.
fn lorries_belong(args: &Args) -> Result<(), String> {
    let stray = ["--car-units-per-lorry", "--barred-links"]
        .into_iter()
        .find(|name| args.option(name).is_some());
    match (args.option("--lorry-trips"), stray) {
        (None, Some(name)) => Err(format!(
            "{name} is for lorries, but --lorry-trips is missing"
        )),
        _ => Ok(()),
    }
}

/// What the options tell of lorries, and the files that they name.
fn lorries(args: &Args, car_units: Fraction) -> Result<Option<Lorries>, Problem> {
    let open = |name| {
        let path = args.option(name).map(Path::new);
        path.map(Source::open).transpose()
    };
    let (trips, barred) = (open("--lorry-trips")?, open("--barred-links")?);
    Ok(trips.map(|trips| Lorries {
        trips,
        car_units,
        barred,
    }))
}

/// `study from-text`.
fn from_text(args: &Args) -> Result<ExitCode, Failure> {
    let [input] = args.operands(["TEXT"])?;
    let out = args.out()?;
    let source = Source::open(&input)?;
    let reading = text::read(&source)?;
    let file = reading.study.packed();
    write(&out, &file, &[source.path()])?;
    for (line, said, holds) in reading.stale(second::check(&file)) {
        let remark = source.remark(line, format!("says `{said}`, but now it is `{holds}`"));
        eprintln!("{remark}");
    }
    Ok(print(&summary(&out, &reading.study, &file)))
}

/// `study show`.
fn show(args: &Args) -> Result<ExitCode, Failure> {
    let [input] = args.operands(["FILE"])?;
    let file = source::read(&input)?;
    match Study::read(&file) {
        Ok(study) => Ok(print(&text::write(&study, second::check(&file)))),
        Err(refusal) => {
            let check = text::check_line(refusal.number);
            print(&format!("{check}\nfound: {}\n", refusal.found));
            Ok(ExitCode::FAILURE)
        }
    }
}

/// `study refusals`.
fn refusals(args: &Args) -> Result<ExitCode, Failure> {
    args.operands([])?;
    Ok(print(&words::table()))
}

/// What a command says of the study it has written.
fn summary(out: &Path, study: &Study, file: &[u8]) -> String {
    let refusal = second::check(file);
    let some = |number: u64, what: &str| match number {
        0 => String::new(),
        number => format!(" ({number} {what})"),
    };
    let closed = some(study.closed_nodes(), "closed");
    let barred = some(study.barred_links(), "barred to lorries");
    let mut summary = format!(
        "{}: {}, {}{closed}, {}{barred}, {}, {}\ncheck: {}\n",
        out.display(),
        count(file.len() as u64, "byte"),
        count(study.nodes, "node"),
        count(study.links.len() as u64, "link"),
        count(study.destinations.len() as u64, "destination"),
        trips(study.total(), study.total_of(Class::Lorries)),
        answer(refusal),
    );
    if let Some(culprit) = culprit(study, refusal) {
        summary.push_str(&format!("{culprit}\n"));
    }
    summary
}

/// Writes a file, whole or not at all, and never over an input.
fn write(out: &Path, bytes: &[u8], inputs: &[&Path]) -> Result<(), Problem> {
    let cannot = |error: io::Error| Problem::new(out, format!("cannot be written: {error}"));
    if let Ok(target) = out.canonicalize()
        && inputs
            .iter()
            .any(|input| input.canonicalize().is_ok_and(|input| input == target))
    {
        return Err(Problem::new(out, "cannot be written: it is an input"));
    }
    let mut file = File::create(out).map_err(cannot)?;
    file.write_all(bytes).map_err(|error| {
        // Half a study is worse than none.
        if file.metadata().is_ok_and(|kind| kind.is_file()) {
            let _ = fs::remove_file(out);
        }
        cannot(error)
    })
}

/// Prints on standard output; a reader that has gone away is no fault.
fn print(text: &str) -> ExitCode {
    let mut out = io::stdout().lock();
    match out.write_all(text.as_bytes()).and_then(|()| out.flush()) {
        Err(error) if error.kind() != ErrorKind::BrokenPipe => {
            eprintln!("study: standard output: {error}");
            ExitCode::FAILURE
        }
        _ => ExitCode::SUCCESS,
    }
}
