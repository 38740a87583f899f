//! The arguments of the command line.

use std::ffi::OsString;
use std::fmt;

pub const USAGE: &str = "\
usage: bench [--quiet] [--check] [FILE]...

Plays each FILE, a scenario. Without FILE, or where FILE is -, it plays standard input.

  --quiet    leaves out the ticks
  --check    says of each file in one line whether it is taken or how it is refused
  --help     prints this
  --version  prints the version
  --         all that follow are files
";

pub const VERSION: &str = concat!("bench (reference) ", env!("CARGO_PKG_VERSION"), "\n");

#[derive(Debug, PartialEq, Eq)]
pub enum Command {
    Play(Arguments),
    Help,
    Version,
}

#[derive(Debug, Default, PartialEq, Eq)]
pub struct Arguments {
    pub quiet: bool,
    pub check: bool,
    pub files: Vec<String>,
}

/// An option that there is not, or an argument that is not UTF-8.
#[derive(Debug, PartialEq, Eq)]
pub struct NoOption(String);

impl fmt::Display for NoOption {
    fn fmt(&self, f: &mut fmt::Formatter<'_>) -> fmt::Result {
        write!(
            f,
            "there is no option '{}': bench --help tells those that there are",
            self.0
        )
    }
}

pub fn read(words: impl IntoIterator<Item = OsString>) -> Result<Command, NoOption> {
    let mut arguments = Arguments::default();
    let mut instead = None;
    let mut options_are_over = false;
    for word in words {
        let word = text(word)?;
        if options_are_over {
            arguments.files.push(word);
            continue;
        }
        match word.as_str() {
            "--quiet" => arguments.quiet = true,
            "--check" => arguments.check = true,
            "--help" => instead = instead.or(Some(Command::Help)),
            "--version" => instead = instead.or(Some(Command::Version)),
            "--" => options_are_over = true,
            option if option.starts_with('-') && option != "-" => return Err(NoOption(word)),
            _ => {
                options_are_over = true;
                arguments.files.push(word);
            }
        }
    }
    if arguments.files.is_empty() {
        arguments.files.push("-".to_owned());
    }
    Ok(instead.unwrap_or(Command::Play(arguments)))
}

fn text(word: OsString) -> Result<String, NoOption> {
    word.into_string()
        .map_err(|word| NoOption(word.to_string_lossy().into_owned()))
}

#[cfg(test)]
mod tests {
    use super::*;

    fn play(words: &[&str]) -> Result<Command, NoOption> {
        read(words.iter().map(OsString::from))
    }

    fn files(quiet: bool, check: bool, files: &[&str]) -> Result<Command, NoOption> {
        Ok(Command::Play(Arguments {
            quiet,
            check,
            files: files.iter().map(|file| (*file).to_owned()).collect(),
        }))
    }

    #[test]
    fn options_come_before_the_files() {
        assert_eq!(play(&[]), files(false, false, &["-"]));
        assert_eq!(play(&["--quiet"]), files(true, false, &["-"]));
        assert_eq!(play(&["--check", "-"]), files(false, true, &["-"]));
        assert_eq!(
            play(&["a", "--quiet"]),
            files(false, false, &["a", "--quiet"])
        );
        assert_eq!(play(&["-", "--"]), files(false, false, &["-", "--"]));
        assert_eq!(
            play(&["--", "--quiet", "--"]),
            files(false, false, &["--quiet", "--"])
        );
        assert_eq!(play(&["--"]), files(false, false, &["-"]));
        assert_eq!(play(&[""]), files(false, false, &[""]));
    }

    #[test]
    fn other_options_there_are_not() {
        for option in ["-q", "--quiet=1", "--random", "---", "--Quiet"] {
            assert_eq!(play(&[option, "a"]), Err(NoOption(option.to_owned())));
        }
        assert_eq!(play(&["--help"]), Ok(Command::Help));
        assert_eq!(play(&["--version", "--help"]), Ok(Command::Version));
    }
}
