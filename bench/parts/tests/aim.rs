//! Compares the port with the reference, bit for bit; all NaNs count as one.

use reference::aim_edges::{game_ramp, random_ramp, random_target, target_edges};
use reference::{Bits, Xorshift};

const TARGETS: usize = 2_000_000;
const SCANNED_TARGETS: usize = 20_000;
const RAMPS: usize = 500_000;

#[test]
fn net_angle_on_many_targets() {
    let mut random = Xorshift::default();
    let randoms = std::iter::repeat_with(|| random_target(&mut random)).take(TARGETS);
    for (x, y) in target_edges().into_iter().chain(randoms) {
        let (port, reference) = (parts::net_angle(x, y), reference::net_angle(x, y));
        assert_eq!(port, reference, "net_angle({x}, {y})");
        let scan = parts::scan_angle(x, y);
        let expected = reference::quarter_scan(x, y);
        assert_eq!((scan.angle, scan.read), expected, "scan_angle({x}, {y})");
        let aim = ponguriena::aim(x, y);
        assert_eq!((aim.angle, aim.entries_read), expected, "aim({x}, {y})");
    }
}

/// The rule's own words, with no use of the order in which entries fit.
#[test]
fn net_angle_is_the_largest_that_fits() {
    let mut random = Xorshift::default();
    let randoms = std::iter::repeat_with(|| random_target(&mut random)).take(SCANNED_TARGETS);
    for (x, y) in target_edges().into_iter().chain(randoms) {
        let expected = reference::scanned_angle(x, y);
        assert_eq!(parts::net_angle(x, y), expected, "net_angle({x}, {y})");
        let scan = parts::scan_angle(x, y);
        let expected = (expected, reference::entries_read(x, y));
        assert_eq!((scan.angle, scan.read), expected, "scan_angle({x}, {y})");
    }
}

#[test]
fn velocity_ramp_on_many_values() {
    let mut random = Xorshift::default();
    for n in 0..RAMPS {
        let ramp = if n % 2 == 0 { game_ramp } else { random_ramp };
        let (value, [start, range, curvature]) = ramp(&mut random);
        let port = parts::velocity_ramp(value, start, range, curvature).to_pattern();
        let reference = reference::velocity_ramp(value, start, range, curvature).to_pattern();
        assert_eq!(port, reference, "{value:?} {start} {range} {curvature}");
    }
}
