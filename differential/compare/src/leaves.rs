//! `compare-leaves SEED COUNT`: the Rust's private `target_match` and `rewrite_host`, and its refresh timer, against document
//! 01's text as the judge has it. The last line counts comparisons and differences; status 1 where any differ.
use cases::dice::Dice;
use cotton_ssdp::engine::leaves::{rewrite_host, target_match};
use cotton_ssdp::refresh_timer::RefreshTimer;
use judge::text::{matches, rewrite};
use judge::Milliseconds;
use std::net::{IpAddr, Ipv4Addr};

fn main() {
    let args: Vec<u64> = std::env::args().skip(1).map(|arg| arg.parse().unwrap()).collect();
    let [seed, count] = args[..] else {
        panic!("compare-leaves SEED COUNT");
    };
    let mut dice = Dice::new(seed, 1);
    let mut differences = 0;
    for _ in 0..count {
        differences += u64::from(!same_match(&mut dice)) + u64::from(!same_host(&mut dice)) + u64::from(!same_timer(&mut dice));
    }
    println!("leaves: {} comparisons, {differences} differences", 3 * count);
    std::process::exit((differences > 0).into());
}

fn same_match(dice: &mut Dice) -> bool {
    let (search, candidate) = (target(dice), target(dice));
    target_match(&search, &candidate) == matches(search.as_bytes(), candidate.as_bytes())
}

fn target(dice: &mut Dice) -> String {
    let front = ["t", "t:", "", "ssdp", "a:b", "\u{e9}"];
    let version = ["1", "2", "+1", "01", "", "x", "18446744073709551615", "18446744073709551616", "00000000000000000000000000000000003"];
    match dice.below(8) {
        0 => "ssdp:all".into(),
        1 => dice.pick(&front).into(),
        2..=5 => format!("t:{}", dice.pick(&version)),
        _ => format!("{}:{}", dice.pick(&front), dice.pick(&version)),
    }
}

fn same_host(dice: &mut Dice) -> bool {
    let parts = ["http", "://", ":", "/", "h", "80", "[::1]", "@", "\u{e9}", "//", ":/"];
    let location: String = (0..dice.below(9)).map(|_| dice.pick(&parts)).collect();
    let address = Ipv4Addr::from(dice.next() as u32);
    rewrite_host(&location, &IpAddr::V4(address)).into_bytes() == rewrite(location.as_bytes(), address)
}

/// Twelve updates at, before and far behind the salvo instant.
fn same_timer(dice: &mut Dice) -> bool {
    let seed = dice.next() as u32;
    let (mut salvo, mut phase) = (dice.next() >> 1, 0);
    let mut timer = RefreshTimer::<Milliseconds>::new(seed, salvo);
    (0..12).all(|_| {
        let now = (salvo + 5).saturating_sub(dice.next() % 10) + dice.pick(&[0, 0, 0, 1_000_000]);
        if dice.once_in(9) {
            (salvo, phase) = (now, 0);
            timer.reset(now);
        } else {
            if now >= salvo {
                salvo += if phase == 3 { 800_000 } else { 6_000 } + 10 * u64::from(seed >> (8 * phase) & 255);
                phase = (phase + 1) % 4;
            }
            timer.update_refresh(now);
        }
        timer.next_refresh() == salvo
    })
}
