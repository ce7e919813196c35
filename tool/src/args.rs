//! The words of a command line.

use std::ffi::{OsStr, OsString};
use std::path::PathBuf;

/// The arguments of a sub-command, sorted into operands and options.
#[derive(Debug, Default)]
pub struct Args {
    operands: Vec<OsString>,
    options: Vec<(&'static str, OsString)>,
    /// `--help` or `-h` is among them.
    pub help: bool,
}

impl Args {
    /// Sorts arguments. Every option in `known` takes a value, as the next
    /// argument or after `=`; after `--` all arguments are operands.
    pub fn sort(
        arguments: impl IntoIterator<Item = OsString>,
        known: &[&'static str],
    ) -> Result<Self, String> {
        let mut args = Args::default();
        let mut arguments = arguments.into_iter();
        while let Some(argument) = arguments.next() {
            if argument == "--" {
                args.operands.extend(arguments.by_ref());
            } else if argument == "--help" || argument == "-h" {
                args.help = true;
            } else if argument.as_encoded_bytes().starts_with(b"-") && argument.len() > 1 {
                let (name, value) = split_option(&argument, known)
                    .ok_or_else(|| format!("unknown option `{}`", argument.display()))?;
                let value = match value {
                    Some(value) => value,
                    None => arguments
                        .next()
                        .ok_or_else(|| format!("option `{name}` has no value"))?,
                };
                if args.option(name).is_some() {
                    return Err(format!("option `{name}` for the second time"));
                }
                args.options.push((name, value));
            } else {
                args.operands.push(argument);
            }
        }
        Ok(args)
    }

    /// The operands, which must be as many as their names.
    pub fn operands<const N: usize>(&self, names: [&str; N]) -> Result<[PathBuf; N], String> {
        if let Some(name) = names.get(self.operands.len()) {
            return Err(format!("{name} is missing"));
        }
        if let Some(extra) = self.operands.get(N) {
            return Err(format!("unexpected `{}`", extra.display()));
        }
        Ok(std::array::from_fn(|place| {
            PathBuf::from(&self.operands[place])
        }))
    }

    /// The value of an option.
    pub fn option(&self, name: &str) -> Option<&OsStr> {
        self.options
            .iter()
            .find(|(known, _)| *known == name)
            .map(|(_, value)| value.as_os_str())
    }

    /// The file that `--out` names.
    pub fn out(&self) -> Result<PathBuf, String> {
        self.option("--out")
            .map(PathBuf::from)
            .ok_or_else(|| "--out FILE is missing".to_owned())
    }
}

/// The known option in an argument, with its value if that comes after `=`.
fn split_option(
    argument: &OsStr,
    known: &[&'static str],
) -> Option<(&'static str, Option<OsString>)> {
    if let Some(name) = known.iter().find(|&&name| argument == name) {
        return Some((name, None));
    }
    let (name, value) = argument.to_str()?.split_once('=')?;
    let name = known.iter().find(|&&known| known == name)?;
    Some((name, Some(value.into())))
}
