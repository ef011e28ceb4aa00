//! The step to the next address: every address of a disc in its order, and what is no address.

use cdrom::{next_address, Address, Refusal};

/// The addresses of a disc: 100 minutes of 60 seconds of 75 frames.
const ADDRESSES: u32 = 100 * 60 * 75;

fn address(minute: u16, second: u16, frame: u16) -> Address {
    Address { minute, second, frame }
}

/// The address of a frame that is counted from 00:00:00.
fn counted(frames: u32) -> Address {
    let part = |number: u32| u16::try_from(number).expect("a part of an address");
    address(part(frames / 75 / 60), part(frames / 75 % 60), part(frames % 75))
}

#[test]
fn goes_through_all_addresses() {
    let mut place = address(0, 0, 0);
    for frames in 0..ADDRESSES {
        assert_eq!(place, counted(frames));
        place = next_address(place).expect("an address follows each");
    }
    assert_eq!(place, address(0, 0, 0), "after the last");
}

#[test]
fn refuses_what_is_no_address() {
    let edges = [(100, 0, 0), (0, 60, 0), (0, 0, 75), (100, 60, 75), (256, 0, 0), (0, 256, 0), (0, 0, 256)];
    for (minute, second, frame) in edges.into_iter().chain([(65535, 65535, 65535)]) {
        let found = next_address(address(minute, second, frame));
        assert_eq!(found, Err(Refusal::OutOfRange), "{minute}:{second}:{frame}");
    }
}
