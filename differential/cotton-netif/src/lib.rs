//! The unchanged network_event.rs of cotton-netif. This root is a shim.
extern crate alloc;

mod network_event {
    include!(concat!(env!("COTTON_SRC"), "/cotton-netif/src/network_event.rs"));
}

pub use network_event::{Flags, InterfaceIndex, NetworkEvent};
