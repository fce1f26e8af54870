//! The port of discovery is named where another program has it for itself.
use std::net::UdpSocket;
use std::process::Command;

#[test]
fn a_port_that_is_taken_is_named() {
    // kohlsilkd is started only where it cannot have the port: it would send to this machine's network.
    let Ok(_held) = UdpSocket::bind("0.0.0.0:1900") else {
        return eprintln!("another program has UDP port 1900: what kohlsilkd says then is not tried");
    };
    let program = env!("CARGO_BIN_EXE_kohlsilkd");
    let ended = Command::new(program).args(["--subscribe", "urn:none", "--seconds", "0"]).output().unwrap();
    let said = String::from_utf8_lossy(&ended.stderr).into_owned();
    assert_eq!(ended.status.code(), Some(1), "{said}");
    assert!(said.starts_with("kohlsilkd: UDP port 1900: Address already in use"), "{said}");
}
