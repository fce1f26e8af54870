//! The Unix socket at which a running kohlsilkd is asked for its status. A client sends `text` or `json` and a line end, is answered, and the
//! connection is closed. Nothing here waits for a client.
use crate::status::Form;
use std::fs;
use std::io::ErrorKind::{AddrInUse, ConnectionRefused, Interrupted, InvalidData, UnexpectedEof, WouldBlock};
use std::io::{self, Read, Write};
use std::os::fd::{AsRawFd, RawFd};
use std::os::unix::fs::{FileTypeExt, MetadataExt, PermissionsExt};
use std::os::unix::net::{UnixListener, UnixStream};
use std::path::{Path, PathBuf};
use std::time::{Duration, Instant};

/// The clients that are served at a time. One more takes the place of the one that came first.
const CLIENTS: usize = 4;

/// How long a client may take to ask and to read.
const PATIENCE: Duration = Duration::from_secs(2);

/// The room for what a client asks: a word and a line end.
const ASKED: usize = 16;

pub struct StatusServer {
    listener: UnixListener,
    path: PathBuf,
    /// Device and number of the socket's file: another may stand in its place at the end.
    file: (u64, u64),
    clients: Vec<Client>,
}

impl StatusServer {
    /// Makes the socket. The file of a kohlsilkd that has gone is replaced, that of a running one is not, nor a file of another kind.
    pub fn open(path: &Path) -> io::Result<StatusServer> {
        let listener = match UnixListener::bind(path) {
            Err(error) if error.kind() == AddrInUse => {
                remove_stale(path)?;
                UnixListener::bind(path)?
            }
            bound => bound?,
        };
        listener.set_nonblocking(true)?;
        let file = identity(path)?;
        let server = StatusServer { listener, path: path.into(), file, clients: vec![] };
        // Everyone on this machine may ask.
        fs::set_permissions(path, fs::Permissions::from_mode(0o666))?;
        Ok(server)
    }

    /// The descriptors to wait for, each with whether it is to be written rather than read.
    pub fn descriptors(&self) -> Vec<(RawFd, bool)> {
        let clients = self.clients.iter().map(|client| (client.stream.as_raw_fd(), !client.answer.is_empty()));
        std::iter::once((self.listener.as_raw_fd(), false)).chain(clients).collect()
    }

    /// The milliseconds until a client has taken too long.
    pub fn until_late(&self, now: Instant) -> u64 {
        let first = self.clients.iter().map(|client| client.end).min();
        // One more, since a part of a millisecond counts as none.
        first.map_or(u64::MAX, |end| end.saturating_duration_since(now).as_millis() as u64 + 1)
    }

    /// Takes clients in, serves each as far as it can be served now, and drops those that are done or late.
    pub fn serve(&mut self, now: Instant, status: impl Fn(Form) -> String) {
        for _ in 0..CLIENTS {
            let Ok((stream, _)) = self.listener.accept() else { break };
            if stream.set_nonblocking(true).is_ok() {
                self.clients.drain(..(self.clients.len() + 1).saturating_sub(CLIENTS));
                self.clients.push(Client { stream, end: now + PATIENCE, asked: vec![], answer: vec![], written: 0 });
            }
        }
        self.clients.retain_mut(|client| now < client.end && client.serve(&status).unwrap_or(false));
    }
}

impl Drop for StatusServer {
    fn drop(&mut self) {
        if identity(&self.path).is_ok_and(|file| file == self.file) {
            let _ = fs::remove_file(&self.path);
        }
    }
}

struct Client {
    stream: UnixStream,
    /// When it has taken too long.
    end: Instant,
    asked: Vec<u8>,
    /// Empty until it has asked.
    answer: Vec<u8>,
    written: usize,
}

impl Client {
    /// Whether it is to be served further.
    fn serve(&mut self, status: &impl Fn(Form) -> String) -> io::Result<bool> {
        if self.answer.is_empty() {
            match self.read()? {
                Some(form) => self.answer = status(form).into_bytes(),
                None => return Ok(true),
            }
        }
        self.write()
    }

    /// What it asks for, once that is there.
    fn read(&mut self) -> io::Result<Option<Form>> {
        let mut buffer = [0; ASKED];
        match self.stream.read(&mut buffer) {
            Ok(0) => Err(UnexpectedEof.into()),
            Ok(len) => {
                self.asked.extend(&buffer[..len]);
                match &self.asked[..] {
                    b"text\n" => Ok(Some(Form::Text)),
                    b"json\n" => Ok(Some(Form::Json)),
                    asked if asked.len() < ASKED && !asked.ends_with(b"\n") => Ok(None),
                    _ => Err(InvalidData.into()),
                }
            }
            Err(error) if matches!(error.kind(), WouldBlock | Interrupted) => Ok(None),
            Err(error) => Err(error),
        }
    }

    /// Writes what the client takes, and says whether there is more.
    fn write(&mut self) -> io::Result<bool> {
        while self.written < self.answer.len() {
            match self.stream.write(&self.answer[self.written..]) {
                Ok(len) => self.written += len,
                Err(error) if matches!(error.kind(), WouldBlock | Interrupted) => return Ok(true),
                Err(error) => return Err(error),
            }
        }
        Ok(false)
    }
}

/// Removes the socket's file if nobody answers there any more.
fn remove_stale(path: &Path) -> io::Result<()> {
    if !fs::symlink_metadata(path)?.file_type().is_socket() {
        return Err(io::Error::new(AddrInUse, "there is a file that is no socket"));
    }
    match UnixStream::connect(path) {
        Err(error) if error.kind() == ConnectionRefused => fs::remove_file(path),
        _ => Err(io::Error::new(AddrInUse, "a program that runs has it")),
    }
}

fn identity(path: &Path) -> io::Result<(u64, u64)> {
    let file = fs::symlink_metadata(path)?;
    Ok((file.dev(), file.ino()))
}

#[cfg(test)]
mod tests {
    use super::*;

    /// A path of this test's own.
    fn path(test: &str) -> PathBuf {
        std::env::temp_dir().join(format!("kohlsilkd-{}-{test}", std::process::id()))
    }

    fn answer(form: Form) -> String {
        format!("{form:?}")
    }

    fn ask(path: &Path, word: &str) -> UnixStream {
        let mut stream = UnixStream::connect(path).unwrap();
        stream.set_read_timeout(Some(PATIENCE)).unwrap();
        stream.write_all(word.as_bytes()).unwrap();
        stream
    }

    fn told(mut stream: UnixStream) -> String {
        let mut told = String::new();
        let _ = stream.read_to_string(&mut told);
        told
    }

    #[test]
    fn who_asks_is_answered() {
        let path = path("asks");
        let mut server = StatusServer::open(&path).unwrap();
        let words = ["text\n", "json\n", "other\n", "a word that has no end"];
        let streams = words.map(|word| ask(&path, word));
        server.serve(Instant::now(), answer);
        assert_eq!(streams.map(told), ["Text", "Json", "", ""]);
        assert_eq!(server.clients.len(), 0);
        assert_eq!(fs::metadata(&path).unwrap().mode() & 0o777, 0o666);
    }

    /// An answer that is longer than what the kernel keeps for a client: others are answered meanwhile, and it is dropped in time.
    #[test]
    fn who_does_not_read_is_dropped() {
        let path = path("reads");
        let (mut server, now) = (StatusServer::open(&path).unwrap(), Instant::now());
        let silent = UnixStream::connect(&path).unwrap();
        let unread = ask(&path, "text\n");
        server.serve(now, |_| "x".repeat(10 << 20));
        assert!(now.elapsed() < PATIENCE);
        assert_eq!(server.descriptors().iter().map(|(_, writes)| *writes).collect::<Vec<_>>(), [false, false, true]);
        let other = ask(&path, "json\n");
        server.serve(now, answer);
        assert_eq!(told(other), "Json");
        assert_eq!((server.clients.len(), server.until_late(now)), (2, PATIENCE.as_millis() as u64 + 1));
        server.serve(now + PATIENCE, answer);
        assert_eq!((server.clients.len(), server.until_late(now)), (0, u64::MAX));
        drop((silent, unread));
    }

    /// Clients that ask nothing keep no place from those that come later.
    #[test]
    fn no_more_clients_than_places() {
        let path = path("places");
        let mut server = StatusServer::open(&path).unwrap();
        let silent: Vec<_> = (0..3 * CLIENTS).map(|_| UnixStream::connect(&path).unwrap()).collect();
        let last = ask(&path, "text\n");
        for _ in 0..4 {
            server.serve(Instant::now(), answer);
            assert!(server.clients.len() <= CLIENTS);
        }
        assert_eq!(told(last), "Text");
        drop(silent);
    }

    #[test]
    fn only_what_is_stale_is_replaced() {
        let path = path("stale");
        drop(UnixListener::bind(&path).unwrap());
        let server = StatusServer::open(&path).unwrap();
        let taken = StatusServer::open(&path).err().unwrap();
        assert_eq!((taken.kind(), taken.to_string()), (AddrInUse, "a program that runs has it".into()));
        drop(server);
        assert!(!path.exists());
        fs::write(&path, "a text").unwrap();
        assert_eq!(StatusServer::open(&path).err().unwrap().to_string(), "there is a file that is no socket");
        assert_eq!(fs::read(&path).unwrap(), b"a text");
        fs::remove_file(&path).unwrap();
    }

    #[test]
    fn the_file_of_another_is_left_at_the_end() {
        let path = path("another");
        let server = StatusServer::open(&path).unwrap();
        fs::remove_file(&path).unwrap();
        let other = StatusServer::open(&path).unwrap();
        drop(server);
        assert!(path.exists());
        drop(other);
        assert!(!path.exists());
    }
}
