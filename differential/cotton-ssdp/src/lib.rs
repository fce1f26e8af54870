//! message.rs, refresh_timer.rs, udp.rs and event.rs of cotton-ssdp, unchanged, and engine.rs twice: as the reference of document 02's
//! change 2, and as it was published. This root is a shim: it opens `message` and the engine's two private functions to the
//! comparisons, and adds nothing else.
extern crate alloc;

pub mod message {
    include!(concat!(env!("COTTON_SRC"), "/cotton-ssdp/src/message.rs"));
}

pub mod refresh_timer {
    include!(concat!(env!("COTTON_SRC"), "/cotton-ssdp/src/refresh_timer.rs"));
}

pub mod udp {
    include!(concat!(env!("OUT_DIR"), "/udp.rs"));
}

mod event {
    include!(concat!(env!("COTTON_SRC"), "/cotton-ssdp/src/event.rs"));
}

/// The reference: a copy of engine.rs, made by the build script, without the 10 ms that it adds to a reply's delay.
pub mod engine {
    include!(concat!(env!("OUT_DIR"), "/engine.rs"));

    /// The private functions of engine.rs, for comparisons of their own.
    pub mod leaves {
        pub fn target_match(search: &str, candidate: &str) -> bool {
            super::target_match(search, candidate)
        }

        pub fn rewrite_host(url: &str, ip: &core::net::IpAddr) -> String {
            super::rewrite_host(url, ip)
        }
    }
}

/// engine.rs as it was published.
pub mod published {
    include!(concat!(env!("COTTON_SRC"), "/cotton-ssdp/src/engine.rs"));
}

pub use event::{Advertisement, Notification};
