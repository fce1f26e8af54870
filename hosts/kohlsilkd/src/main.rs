//! `kohlsilkd`: a host for the engine on Linux. It waits for datagrams, for news of the network, and for the engine's own instants.
mod arguments;
mod choose;
mod device;
mod found;
mod host;
mod json;
mod limit;
mod links;
mod netlink;
mod network;
mod output;
mod print;
mod refusals;
mod seed;
mod send;
mod settle;
mod socket;
mod sockets;
mod status;
mod status_client;
mod status_server;
mod traffic;
mod wait;

use arguments::{Arguments, USAGE};
use host::Host;
use kohlsilk::GROUP;
use limit::Kind;
use netlink::Netlink;
use print::{report, say, set_level};
use seed::random_seed;
use socket::Socket;
use status::Form;
use status_server::StatusServer;
use std::ffi::OsString;
use std::io;
use std::io::ErrorKind::{Interrupted, WouldBlock};
use std::os::fd::AsRawFd;
use std::path::Path;
use std::process::ExitCode;
use std::time::Instant;
use wait::{wait, Signals};

/// Datagrams read at a time, so that a flood of them does not keep the instants waiting.
const AT_A_TIME: usize = 64;

fn main() -> ExitCode {
    let words: Vec<_> = std::env::args_os().skip(1).collect();
    if words.iter().any(|word| word == "--help" || word == "-h") {
        say(format_args!("{USAGE}"));
        return ExitCode::SUCCESS;
    }
    if words.iter().any(|word| word == "--version") {
        say(format_args!("kohlsilkd {}", env!("CARGO_PKG_VERSION")));
        return ExitCode::SUCCESS;
    }
    let arguments = match Arguments::read(words.clone()) {
        Ok(arguments) => arguments,
        Err(wrong) => {
            report(format_args!("{wrong}\n\n{USAGE}"));
            return ExitCode::from(2);
        }
    };
    if let Some(form) = arguments.asks() {
        return tell_status(arguments.socket_path(), form);
    }
    set_level(arguments.level);
    let served = serve(&arguments, &words);
    if let Err(error) = &served {
        report(format_args!("{error}"));
    }
    output::end();
    match served {
        Ok(true) => ExitCode::SUCCESS,
        _ => ExitCode::FAILURE,
    }
}

/// Asks a running kohlsilkd for its status, and prints it.
fn tell_status(path: &Path, form: Form) -> ExitCode {
    match status_client::ask(path, form) {
        Ok(told) => {
            say(format_args!("{}", told.trim_end()));
            ExitCode::SUCCESS
        }
        Err(error) => {
            report(format_args!("no kohlsilkd answers at {}: {error}", path.display()));
            ExitCode::FAILURE
        }
    }
}

/// What is waited for beside the sockets of the links.
struct Sources {
    signals: Signals,
    netlink: Netlink,
    status: Option<StatusServer>,
}

/// Serves until the end, and says whether all that the command line (`words`) asks for was accepted.
fn serve(arguments: &Arguments, words: &[OsString]) -> io::Result<bool> {
    let signals = Signals::open()?;
    output::begin()?;
    let netlink = Netlink::open()?;
    // Tried before any link is there: without the port nothing can be served.
    Socket::bound(GROUP.port(), arguments.ttl).map_err(|error| io::Error::other(format!("UDP port {}: {error}", GROUP.port())))?;
    let mut sources = Sources { signals, netlink, status: open_status(arguments)? };
    let seed = arguments.seed.map_or_else(random_seed, Ok)?;
    let mut host = Host::new(seed, arguments).map_err(io::Error::other)?;
    let accepted = host.begin(arguments);
    survey(&mut host, &mut sources.netlink)?;
    let mut buffer = vec![0; 1 << 16];
    let end = arguments.seconds.map_or(u64::MAX, |seconds| seconds.saturating_mul(1000));
    while host.now() < end {
        match turn(&mut host, &mut sources, end, &mut buffer)? {
            None => {}
            Some(libc::SIGHUP) => read_again(&mut host, words),
            Some(libc::SIGUSR1) => host.say_counts(),
            Some(_) => break,
        }
    }
    host.end();
    Ok(accepted)
}

/// The socket that tells the status. Where it cannot be made, that is an error only if the user has chosen it.
fn open_status(arguments: &Arguments) -> io::Result<Option<StatusServer>> {
    let path = arguments.socket_path();
    match StatusServer::open(path) {
        Ok(server) => Ok(Some(server)),
        Err(error) if arguments.socket.is_some() => Err(io::Error::other(format!("--socket {}: {error}", path.display()))),
        Err(error) => {
            report(format_args!("no socket for --status at {}: {error}; --socket chooses another", path.display()));
            Ok(None)
        }
    }
}

/// Reads the configuration again. Where it is wrong, all stays as it is.
fn read_again(host: &mut Host, words: &[OsString]) {
    match Arguments::read(words.iter().cloned()) {
        Ok(arguments) if arguments.config.is_some() => host.change_names(&arguments.advertisements),
        Ok(_) => report(format_args!("SIGHUP: there is no --config to read again")),
        Err(wrong) => report(format_args!("SIGHUP: {wrong}; all stays as it is")),
    }
}

/// Waits for what comes next, and takes it in: a signal is handed back.
fn turn(host: &mut Host, sources: &mut Sources, end: u64, buffer: &mut [u8]) -> io::Result<Option<i32>> {
    let links: Vec<_> = host.sockets.values().cloned().collect();
    let sockets: Vec<&Socket> = links.iter().flat_map(|sockets| sockets.both()).collect();
    let mut descriptors = vec![(sources.signals.as_raw_fd(), false), (sources.netlink.as_raw_fd(), false)];
    descriptors.extend(sockets.iter().map(|socket| (socket.as_raw_fd(), false)));
    let status_from = descriptors.len();
    descriptors.extend(sources.status.iter().flat_map(StatusServer::descriptors));
    let late = sources.status.as_ref().map_or(u64::MAX, |server| server.until_late(Instant::now()));
    let ready = wait(&descriptors, host.until_poll().min(end - host.now().min(end)).min(late))?;
    if ready[0] {
        return Ok(sources.signals.next());
    }
    if ready[1] {
        take_news(host, &mut sources.netlink)?;
    }
    for (socket, _) in sockets.iter().zip(&ready[2..]).filter(|(_, ready)| **ready) {
        take_datagrams(host, socket, buffer);
    }
    host.on_time();
    if let Some(server) = sources.status.as_mut().filter(|_| late < u64::MAX || ready[status_from..].contains(&true)) {
        server.serve(Instant::now(), |form| host.status().in_form(form));
    }
    Ok(None)
}

fn survey(host: &mut Host, netlink: &mut Netlink) -> io::Result<()> {
    if netlink.survey()? {
        host.begin_survey();
    }
    Ok(())
}

/// Takes in the news that are there. Where some were lost, or may be accepted now, all links and addresses are asked for again.
fn take_news(host: &mut Host, netlink: &mut Netlink) -> io::Result<()> {
    let mut again = false;
    match netlink.receive() {
        Ok(news) => news.iter().for_each(|news| again |= host.on_news(news)),
        Err(error) if error.raw_os_error() == Some(libc::ENOBUFS) => {
            host.lost_news();
            again = true;
        }
        Err(error) if matches!(error.kind(), WouldBlock | Interrupted) => {}
        Err(error) => return Err(error),
    }
    if again || netlink.wants_survey() {
        survey(host, netlink)?;
    }
    host.settle();
    Ok(())
}

fn take_datagrams(host: &mut Host, socket: &Socket, buffer: &mut [u8]) {
    socket.forget_errors();
    for _ in 0..AT_A_TIME {
        match socket.receive(buffer) {
            Ok(received) => host.on_datagram(&received, &buffer[..received.len]),
            Err(error) if matches!(error.kind(), WouldBlock | Interrupted) => return,
            Err(error) => {
                host.report_limited(Kind::NotReceived, format_args!("receiving: {error}"));
                return;
            }
        }
    }
}
