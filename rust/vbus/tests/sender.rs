//! The sender; all of it is there without the feature `std` too.

use vbus::*;

const fn settings(
    max_energy: u32,
    loss_per_byte: u32,
    gain_per_microsecond: u32,
) -> SenderSettings {
    SenderSettings {
        max_energy,
        loss_per_byte,
        gain_per_microsecond,
    }
}

/// Three bytes at once, with an energy of 1 left.
const THREE: SenderSettings = settings(10, 3, 2);

fn sender(settings: SenderSettings) -> Sender {
    Sender::new(settings).unwrap()
}

/// Other bytes at every place.
fn bytes(n: usize) -> Vec<u8> {
    (0..n).map(|i| (i * 7 + i / 256) as u8).collect()
}

/// The portions of a queue, and the microseconds waited behind each.
fn sent(sender: &mut Sender, queue: &[u8]) -> Vec<(Vec<u8>, u64)> {
    sender.enqueue(queue).unwrap();
    let mut portions = Vec::new();
    while !sender.is_idle() {
        let portion = sender.transmit().to_vec();
        let microseconds = sender.microseconds_to_full();
        sender.wait(microseconds);
        portions.push((portion, microseconds));
    }
    portions
}

#[test]
fn settings_refused_and_accepted() {
    for wrong in [
        settings(10, 0, 2),
        settings(10, 3, 0),
        settings(10, 0, 0),
        settings(10, 11, 2),
        settings(1, 2, 1),
        settings(u32::MAX, 0, 1),
        settings(u32::MAX - 1, u32::MAX, 1),
    ] {
        assert_eq!(Sender::new(wrong).unwrap_err(), Error::WrongSettings);
    }
    for right in [
        settings(10, 10, 2),
        settings(1, 1, 1),
        settings(u32::MAX, u32::MAX, u32::MAX),
        settings(0, 0, 0),
        settings(0, 7, 0),
        settings(0, 0, 7),
        SenderSettings::OFF,
    ] {
        let sender = sender(right);
        assert_eq!(sender.settings(), right);
        assert_eq!(sender.energy(), right.max_energy);
        assert_eq!(sender.microseconds_to_full(), 0);
        assert!(sender.is_idle() && sender.unsent().is_empty());
    }
}

#[test]
fn seven_bytes_in_three_portions() {
    let mut sender = sender(THREE);
    sender.enqueue(&bytes(7)).unwrap();
    assert!(!sender.is_idle());
    assert_eq!((sender.energy(), sender.microseconds_to_full()), (10, 0));
    assert_eq!(sender.transmit(), &bytes(7)[..3]);
    assert_eq!(sender.unsent(), &bytes(7)[3..]);
    assert_eq!((sender.energy(), sender.microseconds_to_full()), (1, 5));
    sender.wait(4);
    assert_eq!((sender.energy(), sender.microseconds_to_full()), (9, 1));
    assert!(sender.transmit().is_empty());
    sender.wait(1);
    assert_eq!((sender.energy(), sender.microseconds_to_full()), (10, 0));
    assert_eq!(sender.transmit(), &bytes(7)[3..6]);
    sender.wait(5);
    assert_eq!(sender.transmit(), &bytes(7)[6..]);
    // Behind the last byte it waits too.
    assert!(sender.unsent().is_empty() && !sender.is_idle());
    assert_eq!((sender.energy(), sender.microseconds_to_full()), (7, 2));
    sender.wait(1);
    assert!(!sender.is_idle());
    sender.wait(1);
    assert!(sender.is_idle());
}

/// For every number of bytes as many portions as the rules say, each with as many bytes, and behind each
/// the time that makes good its losses.
#[test]
fn every_queue_length() {
    for (given, at_once) in [
        (THREE, 3),
        (settings(16 * 1_042, 1_042, 1), 16),
        (settings(7, 7, 7), 1),
        (settings(u32::MAX, 1, u32::MAX), MAX_STREAM),
        (SenderSettings::OFF, MAX_STREAM),
    ] {
        let mut sender = sender(given);
        // With energy keeping off both are 0.
        let [loss, gain] = [given.loss_per_byte, given.gain_per_microsecond.max(1)].map(u64::from);
        for n in 0..=MAX_STREAM {
            let queue = bytes(n);
            let portions = sent(&mut sender, &queue);
            assert_eq!(portions.len(), n.div_ceil(at_once));
            for ((portion, waited), expected) in portions.iter().zip(queue.chunks(at_once)) {
                assert_eq!(portion, expected);
                assert_eq!(*waited, (expected.len() as u64 * loss).div_ceil(gain));
            }
        }
    }
}

/// Time that is told while it doesn't wait.
#[test]
fn only_waiting_counts() {
    let mut sender = sender(THREE);
    sender.wait(u64::MAX);
    sender.enqueue(&bytes(4)).unwrap();
    sender.wait(u64::MAX);
    assert_eq!((sender.unsent().len(), sender.energy()), (4, 10));
    assert_eq!(sender.transmit().len(), 3);
    sender.wait(0);
    assert_eq!(sender.energy(), 1);
    for microseconds in [5, 1 << 31, 1 << 32, 1 << 63, u64::MAX] {
        let mut waiting = sender.clone();
        waiting.wait(microseconds);
        assert_eq!(waiting.energy(), 10);
        assert_eq!(waiting.transmit(), &bytes(4)[3..]);
    }
}

#[test]
fn a_refused_queue_changes_nothing() {
    let mut sender = sender(THREE);
    let long = bytes(MAX_STREAM + 1);
    assert_eq!(sender.enqueue(&long), Err(Error::QueueTooLong));
    assert!(sender.is_idle());
    sender.enqueue(&bytes(4)).unwrap();
    let refused = |sender: &mut Sender| {
        let before = format!("{sender:?}");
        for queue in [&[][..], &[0x55], &long] {
            assert_eq!(sender.enqueue(queue), Err(Error::SenderBusy));
            assert_eq!(format!("{sender:?}"), before);
        }
    };
    refused(&mut sender);
    assert_eq!(sender.transmit(), &bytes(4)[..3]);
    refused(&mut sender);
    sender.wait(5);
    refused(&mut sender);
    assert_eq!(sender.transmit(), &bytes(4)[3..]);
    refused(&mut sender);
    sender.wait(2);
    assert_eq!(sender.enqueue(&long), Err(Error::QueueTooLong));
    assert_eq!(sender.enqueue(&[]), Ok(()));
    assert!(sender.is_idle() && sender.transmit().is_empty());
    assert_eq!(sender.enqueue(&[0x55]), Ok(()));
}

/// Also the longest one, and shorter ones behind it.
#[test]
fn switched_off_all_bytes_go_at_once() {
    let mut sender = sender(settings(0, 9, 0));
    for n in [MAX_STREAM, 1, 500, 0, 2] {
        sender.enqueue(&bytes(n)).unwrap();
        assert_eq!(sender.transmit(), bytes(n));
        assert!(sender.is_idle() && sender.transmit().is_empty());
        assert_eq!((sender.energy(), sender.microseconds_to_full()), (0, 0));
    }
}

#[test]
fn the_largest_numbers() {
    let mut sender = sender(settings(u32::MAX, u32::MAX, 1));
    sender.enqueue(&[1, 2]).unwrap();
    assert_eq!(sender.transmit(), [1]);
    assert_eq!(sender.energy(), 0);
    assert_eq!(sender.microseconds_to_full(), u32::MAX.into());
    sender.wait(u64::from(u32::MAX) - 1);
    assert_eq!(
        (sender.energy(), sender.microseconds_to_full()),
        (u32::MAX - 1, 1)
    );
    sender.wait(1);
    assert_eq!(sender.transmit(), [2]);
}

#[test]
fn copied_and_shown() {
    let mut sender = sender(THREE);
    sender.enqueue(&[1, 2, 3, 4]).unwrap();
    assert_eq!(sender.transmit(), [1, 2, 3]);
    let copy = sender.clone();
    sender.wait(5);
    let shown = "Sender { settings: SenderSettings { max_energy: 10, loss_per_byte: 3, \
                 gain_per_microsecond: 2 }, energy: 1, unsent: [4] }";
    assert_eq!(format!("{copy:?}"), shown);
    assert_eq!(sender.transmit(), [4]);
    assert_eq!(copy.unsent(), [4]);
}
