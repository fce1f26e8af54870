//! The command line.
use crate::device;
use crate::print::{Level, Text};
use crate::status::Form;
use std::ffi::OsString;
use std::os::unix::ffi::OsStringExt;
use std::path::{Path, PathBuf};

pub const USAGE: &str = "\
kohlsilkd: announces services to the network by SSDP, answers searches for them, and tells what others announce

  --device UUID TYPE LOCATION      announce a root device: its UUID, as uuid:4d696e69-444c-164e-9d41-b827eb54e939, its type, and the URL of its
                                   description, whose host becomes the address that an announcement is sent from. These are three names of the 8
                                   that are held, since a client searches for upnp:rootdevice, for a UUID or for a type
  --advertise NAME TYPE LOCATION   announce one name: a unique service name (USN), its type, and the URL of its description (up to 8 times)
  --subscribe TYPE                 search for a type and print what is found; ssdp:all finds everything (up to 4 times)
  --interface NAME                 serve on this link alone, as eth0 (or on each that is named so; 3 links are served at most). Otherwise on those
                                   that have an IPv4 address, ports of bridges and bonds apart: first those that are up
  --config FILE                    read further settings, one a line: an option without its dashes and its words, as
                                   'device UUID TYPE LOCATION'; a line that begins with # says nothing. SIGHUP reads it again: names are
                                   added and withdrawn, and nothing else is disturbed
  --seconds N                      end after N seconds; otherwise on SIGINT or SIGTERM
  --seed N                         the seed of the delays, instead of a random one
  --ttl N                          how many networks a datagram to the group may cross (4)
  --answer-anyone                  answer searchers on networks behind a router too, not only those on a network of the link by which the search came
  --quiet                          print what is found, what fails, and the counts alone
  --verbose                        print each refused datagram; otherwise five a minute for each reason, and how many more there were
  --log-records                    print each record that is sent: source, destination, port, and the message in hexadecimal
  --status                         ask the kohlsilkd that runs on this machine, and print its links, names, refusals and counts
  --json                           print the status as JSON
  --socket PATH                    the Unix socket at which the status is asked for and told (/run/kohlsilkd/status)
  --version                        print the version
  -h, --help                       print this

At the end each name is withdrawn, and the counts of each link and of the reply ledger are printed; SIGUSR1 prints them meanwhile.
Status: 0, or 1 where the system failed, a service or search of the command line was refused, or no kohlsilkd tells its status, or 2
for a wrong command line.";

/// Where the status is asked for, if nothing else is said.
const SOCKET: &str = "/run/kohlsilkd/status";

/// What only the command line may say.
const NOT_IN_A_FILE: [&[u8]; 3] = [b"config", b"status", b"json"];

#[derive(Clone, Debug, PartialEq, Eq)]
pub struct Advertisement {
    pub name: Vec<u8>,
    pub service_type: Vec<u8>,
    pub location: Vec<u8>,
}

#[derive(Debug, Default, PartialEq, Eq)]
pub struct Arguments {
    pub advertisements: Vec<Advertisement>,
    pub subscriptions: Vec<Vec<u8>>,
    /// The links to serve on, by name; all, if empty.
    pub interfaces: Vec<String>,
    pub seconds: Option<u64>,
    pub seed: Option<u32>,
    pub ttl: u8,
    pub log_records: bool,
    pub level: Level,
    /// Searchers off the link are answered too.
    pub answer_anyone: bool,
    /// A file with further settings.
    pub config: Option<PathBuf>,
    /// The socket at which the status is asked for, where the user has chosen one.
    pub socket: Option<PathBuf>,
    status: bool,
    json: bool,
}

impl Arguments {
    /// Reads the words behind the program's name, and the file that they name; an error says which word is wrong.
    pub fn read(words: impl IntoIterator<Item = OsString>) -> Result<Arguments, String> {
        let mut read = Arguments { ttl: 4, ..Arguments::default() };
        read.take(words.into_iter())?;
        if let Some(path) = read.config.clone() {
            read.take_file(&path)?;
        }
        if read.json && !read.status {
            return Err("--json goes with --status".into());
        }
        if !read.status && read.advertisements.is_empty() && read.subscriptions.is_empty() {
            return Err("nothing to advertise and nothing to subscribe to".into());
        }
        Ok(read)
    }

    /// The form in which a running kohlsilkd is asked for its status, if that is what is wanted.
    pub fn asks(&self) -> Option<Form> {
        self.status.then_some(if self.json { Form::Json } else { Form::Text })
    }

    pub fn socket_path(&self) -> &Path {
        self.socket.as_deref().unwrap_or(Path::new(SOCKET))
    }

    fn take(&mut self, mut words: impl Iterator<Item = OsString>) -> Result<(), String> {
        while let Some(word) = words.next() {
            let option = word.to_string_lossy().into_owned();
            let mut next = |wanted| value(&option, wanted, words.next());
            match option.as_str() {
                "--device" => {
                    let three = device::announcements(&next("UUID")?, &next("TYPE")?, &next("LOCATION")?);
                    self.announce(&option, three.map_err(|wrong| format!("{option}: {wrong}"))?)?;
                }
                "--advertise" => {
                    let service = Advertisement { name: next("NAME")?, service_type: next("TYPE")?, location: next("LOCATION")? };
                    self.announce(&option, [service])?;
                }
                "--subscribe" => self.subscriptions.push(next("TYPE")?),
                "--interface" => self.interfaces.push(String::from_utf8_lossy(&next("NAME")?).into_owned()),
                "--config" => self.config = Some(OsString::from_vec(next("FILE")?).into()),
                "--seconds" => self.seconds = Some(number(&option, &next("N")?)?),
                "--seed" => self.seed = Some(number(&option, &next("N")?)?),
                "--ttl" => self.ttl = number(&option, &next("N")?)?,
                "--log-records" => self.log_records = true,
                "--quiet" => self.level = Level::Quiet,
                "--verbose" => self.level = Level::Verbose,
                "--answer-anyone" => self.answer_anyone = true,
                "--socket" => self.socket = Some(OsString::from_vec(next("PATH")?).into()),
                "--status" => self.status = true,
                "--json" => self.json = true,
                _ => return Err(format!("{option} is no option")),
            }
        }
        Ok(())
    }

    /// Takes announcements up. A name that stands twice is an error: the engine holds one of each, and which it is to be nobody could tell.
    fn announce(&mut self, option: &str, services: impl IntoIterator<Item = Advertisement>) -> Result<(), String> {
        for service in services {
            check_location(option, &service.location)?;
            if self.advertisements.iter().any(|held| held.name == service.name) {
                return Err(format!("{option}: the name '{}' is announced twice", Text(&service.name)));
            }
            self.advertisements.push(service);
        }
        Ok(())
    }

    /// One setting a line: an option without its dashes, and its words, between white space. A line that begins with # says nothing.
    fn take_file(&mut self, path: &Path) -> Result<(), String> {
        let text = std::fs::read(path).map_err(|error| format!("{}: {error}", path.display()))?;
        for (number, line) in text.split(|byte| *byte == b'\n').enumerate() {
            let mut words = line.split(u8::is_ascii_whitespace).filter(|word| !word.is_empty());
            let Some(first) = words.next().filter(|word| !word.starts_with(b"#")) else { continue };
            let wrong = |why| format!("{}, line {}: {why}", path.display(), number + 1);
            if NOT_IN_A_FILE.contains(&first) {
                return Err(wrong(format!("{} is for the command line", Text(first))));
            }
            let words = std::iter::once([b"--", first].concat()).chain(words.map(<[u8]>::to_vec));
            self.take(words.map(OsString::from_vec)).map_err(wrong)?;
        }
        Ok(())
    }
}

/// The word behind an option. One that is an option itself shows that a word was left out.
fn value(option: &str, wanted: &str, word: Option<OsString>) -> Result<Vec<u8>, String> {
    match word.map(OsString::into_vec) {
        None => Err(format!("{option} wants {wanted}, and there is no further word")),
        Some(word) if word.starts_with(b"--") => {
            Err(format!("{option} wants {wanted}, and {} is an option", String::from_utf8_lossy(&word)))
        }
        Some(word) => Ok(word),
    }
}

/// A location has a scheme and a host, or no client finds a description by it.
fn check_location(option: &str, location: &[u8]) -> Result<(), String> {
    let text = String::from_utf8_lossy(location);
    let host = text.split_once("://").filter(|(scheme, _)| scheme.starts_with(|c: char| c.is_ascii_alphabetic())).map(|(_, rest)| rest);
    match host.is_some_and(|host| host.starts_with(|c| !matches!(c, '/' | ':' | '?' | '#' | ' '))) {
        true => Ok(()),
        false => Err(format!("{option}: the location '{}' is no URL with a host, as http://unit/description.xml is", Text(location))),
    }
}

fn number<T: std::str::FromStr>(option: &str, word: &[u8]) -> Result<T, String> {
    let word = String::from_utf8_lossy(word);
    word.parse().map_err(|_| format!("{option}: {word} is no number that fits"))
}

#[cfg(test)]
mod tests {
    use super::*;

    fn read(line: &str) -> Result<Arguments, String> {
        Arguments::read(line.split(' ').map(OsString::from))
    }

    #[test]
    fn all_options() {
        let read = read("--advertise u t http://h/ --subscribe a --subscribe b --interface e0 --seed 7 --ttl 2 --seconds 9 --log-records")
            .unwrap();
        let [u, t, l] = ["u", "t", "http://h/"].map(|text| text.as_bytes().to_vec());
        assert_eq!(read.advertisements, [Advertisement { name: u, service_type: t, location: l }]);
        assert_eq!(read.subscriptions, [b"a", b"b"]);
        assert_eq!(read.interfaces, ["e0"]);
        assert_eq!(read.level, Level::Normal);
        assert_eq!((read.seed, read.ttl, read.seconds, read.log_records), (Some(7), 2, Some(9), true));
    }

    #[test]
    fn a_device_has_three_names() {
        let read = read("--device uuid:1 urn:t:1 http://h/ --advertise u t http://h/").unwrap();
        let names: Vec<_> = read.advertisements.iter().map(|service| Text(&service.name).to_string()).collect();
        assert_eq!(names, ["uuid:1::upnp:rootdevice", "uuid:1", "uuid:1::urn:t:1", "u"]);
    }

    #[test]
    fn wrong_devices() {
        assert!(read("--device 1 t http://h/").unwrap_err().starts_with("--device: '1' is no UUID with uuid: in front"));
        assert!(read("--device uuid:1 t noturl").unwrap_err().starts_with("--device: the location 'noturl' is no URL"));
        assert_eq!(read("--device uuid:1 t").unwrap_err(), "--device wants LOCATION, and there is no further word");
        let twice = "--device uuid:1 t http://h/ --advertise uuid:1 t http://h/";
        assert_eq!(read(twice).unwrap_err(), "--advertise: the name 'uuid:1' is announced twice");
    }

    #[test]
    fn asking() {
        let asks = |line: &str| read(line).map(|read| (read.asks(), read.socket_path().to_path_buf()));
        assert_eq!(asks("--subscribe a"), Ok((None, SOCKET.into())));
        assert_eq!(asks("--status"), Ok((Some(Form::Text), SOCKET.into())));
        assert_eq!(asks("--json --socket /s --status"), Ok((Some(Form::Json), "/s".into())));
        assert_eq!(asks("--subscribe a --json"), Err("--json goes with --status".into()));
    }

    #[test]
    fn locations() {
        for good in ["http://h/", "https://h", "HTTP://10.0.0.1:80/d.xml", "http://[::1]/"] {
            assert!(read(&format!("--advertise u t {good}")).is_ok(), "{good}");
        }
        for wrong in ["", "noturl", "/d.xml", "//h/d.xml", "http:/h", "http://", "http:///d.xml", "http://:80/", "://h/"] {
            let said = read(&format!("--advertise u t {wrong}")).unwrap_err();
            assert_eq!(said, format!("--advertise: the location '{wrong}' is no URL with a host, as http://unit/description.xml is"));
        }
    }

    #[test]
    fn wrong_words() {
        assert_eq!(read("--advertise u t").unwrap_err(), "--advertise wants LOCATION, and there is no further word");
        assert_eq!(read("--subscribe --seconds 1").unwrap_err(), "--subscribe wants TYPE, and --seconds is an option");
        assert_eq!(read("--subscribe a --ttl 256").unwrap_err(), "--ttl: 256 is no number that fits");
        assert_eq!(read("--subscribe a -v").unwrap_err(), "-v is no option");
        assert_eq!(read("--log-records").unwrap_err(), "nothing to advertise and nothing to subscribe to");
    }

    /// A file of this test's own.
    fn config(text: &str) -> PathBuf {
        let path = std::env::temp_dir().join(format!("kohlsilkd-{}-{}", std::process::id(), text.len()));
        std::fs::write(&path, text).unwrap();
        path
    }

    #[test]
    fn a_file_has_the_same_words() {
        let path =
            config("# a comment\n\n  advertise u t http://h/\nsubscribe a\n\tttl 2 \nlog-records\nsocket /s\ndevice uuid:1 t http://h/\n");
        let words = read(&format!("--config {}", path.display())).unwrap();
        let same = read("--advertise u t http://h/ --device uuid:1 t http://h/ --subscribe a --ttl 2 --log-records --socket /s").unwrap();
        assert_eq!(words, Arguments { config: Some(path.clone()), ..same });
        std::fs::remove_file(path).unwrap();
    }

    /// The example that hosts/install lays out: as it stands it announces nothing, which is said, and once its settings, which are comments, are let
    /// stand it is taken. It is read and not served, which would send to this machine's network.
    #[test]
    fn the_installed_example() {
        let example = include_str!("../../dist/kohlsilkd.conf");
        let path = config(example);
        let line = format!("--config {}", path.display());
        assert_eq!(read(&line).unwrap_err(), "nothing to advertise and nothing to subscribe to");
        let settings: Vec<&str> = example.lines().filter_map(|line| line.strip_prefix('#')).filter(|line| !line.starts_with(' ')).collect();
        std::fs::write(&path, settings.join("\n")).unwrap();
        let taken = read(&line).unwrap();
        assert_eq!((settings.len(), taken.advertisements.len(), taken.interfaces, taken.answer_anyone), (5, 4, vec!["eth0".into()], true));
        assert_eq!(taken.level, Level::Quiet);
        std::fs::remove_file(path).unwrap();
    }

    #[test]
    fn wrong_lines() {
        let path = config("subscribe a\nadvertise u t\n");
        let wrong = read(&format!("--config {}", path.display())).unwrap_err();
        assert_eq!(wrong, format!("{}, line 2: --advertise wants LOCATION, and there is no further word", path.display()));
        std::fs::write(&path, "status\n").unwrap();
        assert!(read(&format!("--config {}", path.display())).unwrap_err().ends_with("line 1: status is for the command line"));
        std::fs::remove_file(&path).unwrap();
        assert!(read(&format!("--config {}", path.display())).unwrap_err().contains("No such file"));
    }
}
