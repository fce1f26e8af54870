//! Asks a running kohlsilkd for its status.
use crate::status::Form;
use std::io::{self, Read, Write};
use std::os::unix::net::UnixStream;
use std::path::Path;
use std::time::Duration;

/// How long it may take to answer.
const PATIENCE: Duration = Duration::from_secs(5);

/// No status is longer.
const LONGEST: u64 = 1 << 20;

/// The status that the kohlsilkd at a socket tells.
pub fn ask(path: &Path, form: Form) -> io::Result<String> {
    let mut stream = UnixStream::connect(path)?;
    stream.set_read_timeout(Some(PATIENCE))?;
    stream.set_write_timeout(Some(PATIENCE))?;
    stream.write_all(match form {
        Form::Text => b"text\n",
        Form::Json => b"json\n",
    })?;
    let mut told = String::new();
    match stream.take(LONGEST).read_to_string(&mut told) {
        Ok(0) => Err(io::ErrorKind::UnexpectedEof.into()),
        Ok(_) => Ok(told),
        Err(error) if error.kind() == io::ErrorKind::WouldBlock => Err(io::Error::other(format!("nothing came in {PATIENCE:?}"))),
        Err(error) => Err(error),
    }
}

#[cfg(test)]
mod tests {
    use super::*;
    use std::os::unix::net::UnixListener;

    #[test]
    fn what_is_told_and_what_is_not() {
        let path = std::env::temp_dir().join(format!("kohlsilkd-{}-client", std::process::id()));
        let listener = UnixListener::bind(&path).unwrap();
        let server = std::thread::spawn(move || {
            for answer in ["told\n", ""] {
                let (mut stream, mut word) = (listener.accept().unwrap().0, [0; 5]);
                stream.read_exact(&mut word).unwrap();
                assert_eq!(&word, b"json\n");
                stream.write_all(answer.as_bytes()).unwrap();
            }
        });
        assert_eq!(ask(&path, Form::Json).unwrap(), "told\n");
        assert_eq!(ask(&path, Form::Json).unwrap_err().kind(), io::ErrorKind::UnexpectedEof);
        server.join().unwrap();
        assert_eq!(ask(&path, Form::Json).unwrap_err().kind(), io::ErrorKind::ConnectionRefused);
        std::fs::remove_file(&path).unwrap();
    }
}
