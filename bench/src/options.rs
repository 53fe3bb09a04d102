//! The options of a command line, `--name value` or `--name=value`, each at most once. What isn't as expected is
//! answered with the line that the user gets to read.
use std::fmt::Display;
use std::io::Write;
use std::ops::RangeInclusive;
use std::process::exit;
use std::str::FromStr;

/// The options that were given, with their values; a flag has an empty one.
pub struct Given(Vec<(String, String)>);

impl Given {
    /// Takes a command line apart. `values` names the options with a value, `flags` those without.
    pub fn new(arguments: &[String], values: &[&str], flags: &[&str]) -> Result<Given, String> {
        let mut given = Given(Vec::new());
        let mut rest = arguments.iter();
        while let Some(argument) = rest.next() {
            let (name, joined) = match argument.split_once('=') {
                Some((name, value)) => (name, Some(value)),
                None => (argument.as_str(), None),
            };
            let known = name.strip_prefix("--").unwrap_or("");
            let value = match joined {
                None if flags.contains(&known) => "",
                _ if values.contains(&known) => joined
                    .or_else(|| rest.next().map(String::as_str))
                    .ok_or(format!("{name}: a value is expected behind it"))?,
                Some(_) if flags.contains(&known) => return Err(format!("{name}: takes no value")),
                _ => return Err(format!("{argument}: no such option; --help lists them")),
            };
            if given.has(known) {
                return Err(format!("{name}: given twice"));
            }
            given.0.push((known.to_string(), value.to_string()));
        }
        Ok(given)
    }

    pub fn text(&self, name: &str) -> Option<&str> {
        let mut found = self.0.iter().filter(|(given, _)| given == name);
        found.next().map(|(_, value)| value.as_str())
    }

    pub fn has(&self, name: &str) -> bool {
        self.text(name).is_some()
    }

    /// A value as `read` understands it, or `usual` where the option isn't given.
    fn value<T>(
        &self,
        name: &str,
        usual: T,
        expected: &str,
        read: impl FnOnce(&str) -> Option<T>,
    ) -> Result<T, String> {
        self.text(name).map_or(Ok(usual), |text| {
            read(text).ok_or(format!("--{name} {text}: {expected} is expected"))
        })
    }

    /// A number of the range.
    fn within<T: FromStr + PartialOrd + Display>(
        &self,
        name: &str,
        usual: T,
        range: RangeInclusive<T>,
        kind: &str,
    ) -> Result<T, String> {
        let expected = format!("{kind} from {} to {}", range.start(), range.end());
        self.value(name, usual, &expected, |text| {
            text.parse().ok().filter(|number| range.contains(number))
        })
    }

    pub fn whole<T: FromStr + PartialOrd + Display>(
        &self,
        name: &str,
        usual: T,
        range: RangeInclusive<T>,
    ) -> Result<T, String> {
        self.within(name, usual, range, "a whole number")
    }

    pub fn real(&self, name: &str, usual: f64, range: RangeInclusive<f64>) -> Result<f64, String> {
        self.within(name, usual, range, "a number")
    }

    /// One of some names, the first of them by default.
    pub fn choice<T: Copy>(&self, name: &str, of: &[(&str, T)]) -> Result<T, String> {
        let names: Vec<&str> = of.iter().map(|(name, _)| *name).collect();
        self.value(name, of[0].1, &names.join(" or "), |text| {
            of.iter().find(|(name, _)| *name == text).map(|one| one.1)
        })
    }

    /// A number that the decoder itself judges.
    pub fn setting(&self, name: &str, usual: u32) -> Result<u32, String> {
        let expected = "a whole number below 2^32";
        self.value(name, usual, expected, |text| text.parse().ok())
    }

    /// A list of items between commas, each as `read` understands it.
    pub fn list<T>(
        &self,
        name: &str,
        usual: &str,
        expected: &str,
        read: impl Fn(&str) -> Option<T>,
    ) -> Result<Vec<T>, String> {
        let items = |text: &str| text.split(',').map(&read).collect::<Option<Vec<T>>>();
        let usual = items(usual).expect("a default is in the format");
        self.value(name, usual, expected, items)
    }
}

/// A command's main function. A slip of the user is one line on standard error and exit 2.
pub fn run(command: &str, body: impl FnOnce(&[String]) -> Result<(), String>) {
    let arguments: Vec<String> = std::env::args_os()
        .skip(1)
        .map(|argument| argument.to_string_lossy().into_owned())
        .collect();
    if let Err(slip) = body(&arguments) {
        eprintln!("bench/run {command}: {slip}");
        exit(2);
    }
}

/// Prints a line. Whoever reads it may have gone, `head` for one; then there is nothing left to do.
pub fn print(line: &str) {
    if writeln!(std::io::stdout(), "{line}").is_err() {
        exit(1);
    }
}

#[cfg(test)]
mod tests {
    use super::*;

    fn given(line: &str) -> Result<Given, String> {
        let arguments: Vec<String> = line.split_whitespace().map(str::to_string).collect();
        Given::new(&arguments, &["m", "from", "mask"], &["natural"])
    }

    #[test]
    fn values_behind_and_joined() {
        let given = given("--from -2 --mask=a=b --natural").unwrap();
        assert_eq!(given.real("from", 1.0, -5.0..=5.0), Ok(-2.0));
        assert_eq!(given.text("mask"), Some("a=b"));
        assert!(given.has("natural") && !given.has("m"));
        assert_eq!(given.whole("m", 10, 1..=10), Ok(10));
    }

    #[test]
    fn slips_name_the_option() {
        let slip = |line| given(line).err().unwrap();
        assert_eq!(slip("20000"), "20000: no such option; --help lists them");
        assert_eq!(slip("--n 3"), "--n: no such option; --help lists them");
        assert_eq!(slip("--m"), "--m: a value is expected behind it");
        assert_eq!(slip("--m 3 --m=4"), "--m: given twice");
        assert_eq!(slip("--natural=1"), "--natural: takes no value");
        for (line, text) in [
            ("--m 11", "11"),
            ("--m=0", "0"),
            ("--m 4294967297", "4294967297"),
        ] {
            let slip = given(line).unwrap().whole("m", 10u32, 1..=10).unwrap_err();
            assert_eq!(
                slip,
                format!("--m {text}: a whole number from 1 to 10 is expected")
            );
        }
        let slip = given("--from nan").unwrap().real("from", 1.0, -5.0..=5.0);
        assert_eq!(
            slip.unwrap_err(),
            "--from nan: a number from -5 to 5 is expected"
        );
    }

    #[test]
    fn lists_and_choices() {
        let given = given("--mask 3,4,x --m b").unwrap();
        let numbers = |name| given.list(name, "1,2", "numbers", |item| item.parse::<u32>().ok());
        assert_eq!(numbers("from"), Ok(vec![1, 2]));
        assert_eq!(
            numbers("mask").unwrap_err(),
            "--mask 3,4,x: numbers is expected"
        );
        assert_eq!(given.choice("m", &[("a", 1), ("b", 2)]), Ok(2));
        assert_eq!(given.choice("from", &[("a", 1), ("b", 2)]), Ok(1));
    }
}
