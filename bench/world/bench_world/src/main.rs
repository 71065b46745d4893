//! Time per walk, in throughput, of `move_box` of the port and of libtw2. The
//! port's includes the call through the C interface and its check of the map.

mod inputs;

use inputs::{Body, CHARACTER, bodies, walled_map};
use original::{Collision, vec2};
use port_calls::lent;
use reference::Xorshift;
use tile_map::Map;
use timing::{print_heading, print_row};

const PASSES: usize = 8;

/// About 9.5, the walk takes 10 or 11 turns.
const SPEEDS: [(&str, f32); 2] = [("speed 9.5", 9.5), ("speed 30", 30.0)];

fn main() {
    print_heading();
    let mut random = Xorshift::default();
    let map = walled_map(&mut random);
    for (kind, speed) in SPEEDS {
        print_move_box(kind, &map, &bodies(&map, speed, &mut random));
    }
}

fn print_move_box(kind: &str, mut map: &Map, bodies: &[Body]) {
    let lent = lent(map);
    let size = pair(CHARACTER);
    let port = |body: Body| parts::move_box(lent, pair(body.pos), pair(body.vel), size);
    let mut reference = |body: Body| {
        let (pos, vel) = map.move_box(body.pos, body.vel, CHARACTER);
        Ok((pair(pos), pair(vel)))
    };
    for &body in bodies {
        assert_eq!(port(body), reference(body), "port and libtw2 differ");
    }
    print_row("move_box", kind, PASSES, bodies, port, reference);
}

fn pair(v: vec2) -> [f32; 2] {
    [v.x, v.y]
}
