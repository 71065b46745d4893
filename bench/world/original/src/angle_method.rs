//! The function that finds the aim angle. It may be exchanged for another that
//! gives the same angles in another time.

use std::cell::Cell;

type NetAngle = fn(i32, i32) -> i32;

thread_local! {
    static NET_ANGLE: Cell<NetAngle> = const { Cell::new(reference::net_angle) };
}

/// From now on, in this thread.
pub fn find_angles_by(net_angle: NetAngle) {
    NET_ANGLE.set(net_angle);
}

pub(crate) fn net_angle(x: i32, y: i32) -> i32 {
    NET_ANGLE.get()(x, y)
}
