//! Aim angles, and how many entries are read for each.

use ponguriena::{Aim, CharacterId, Map, PlayerInput, Refusal, Role, World, aim};

#[test]
fn angles_and_counts() {
    let expected = [
        ((0, 0), (0, 0)),
        ((1, 0), (0, 403)),
        ((-1, 0), (804, 1)),
        ((0, 1), (402, 403)),
        ((0, -1), (-402, 403)),
        ((1, 1), (201, 202)),
        ((1, -1), (-201, 202)),
        ((-1, 1), (603, 202)),
        ((i32::MAX, i32::MIN), (-201, 202)),
        ((i32::MIN, i32::MIN), (-603, 202)),
        ((i32::MIN, 1), (804, 1)),
    ];
    for ((x, y), (angle, entries_read)) in expected {
        let expected = Aim {
            angle,
            entries_read,
        };
        assert_eq!(aim(x, y), expected, "aim({x}, {y})");
    }
}

/// A step writes this angle into the record of who aims there.
#[test]
fn a_step_writes_the_angle() -> Result<(), Refusal> {
    let id = CharacterId(5);
    let map = Map {
        width: 3,
        height: 3,
        tiles: &[0; 9],
    };
    for (target_x, target_y) in [(0, 0), (7, -3), (-7, 3), (-1, -2000), (123_456, 1)] {
        let mut world = World::fresh();
        world.join(Role::Referee, &map, id, 48, 48)?;
        let input = PlayerInput {
            target_x,
            target_y,
            ..PlayerInput::default()
        };
        world.input(Role::Referee, id, input)?;
        for (_, core) in &world.step(Role::Referee, &map)? {
            assert_eq!(core.angle, aim(target_x, target_y).angle);
        }
    }
    Ok(())
}
