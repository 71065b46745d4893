use crate::cost::Call;
use crate::ground::Ground;
use crate::scene::Scene;
use crate::scenes::scenes;
use crate::text::{map_text, session_text};
use ponguriena::buffers::SEATS;
use ponguriena::{CharacterId, PlayerInput, Role, Tuning};

#[test]
fn everybody_joins() {
    for scene in scenes() {
        let world = scene.joined();
        let present = CharacterId::all().filter(|&id| world.record(Role::Board, id).is_ok());
        assert_eq!(present.count(), SEATS, "{}", scene.name);
    }
}

#[test]
fn steps_are_accepted_but_one() {
    for scene in scenes() {
        let too_far = scene.name.ends_with("too far");
        assert_eq!(
            Call::RefusedStep.cost(&scene) > 0.0,
            too_far,
            "{}",
            scene.name
        );
    }
}

#[test]
fn a_map_by_its_numbers() {
    let ground = Ground {
        columns: 2,
        rows: 2,
        rise: 256,
        clear: 1,
        ..Ground::open(4, 3)
    };
    let text = "width height\n4 3\ntiles\n0 0 1 0\n0 0 0 0\n1 0 0 0\ncall a b c d e f\n";
    assert_eq!(map_text(&ground), text);
    assert_eq!(ground.smallest(), ground);
    assert_eq!(Ground::solid(4, 3).smallest().tiles(), [1]);
}

#[test]
fn a_scene_as_a_text() {
    let input = PlayerInput {
        direction: 1,
        ..PlayerInput::default()
    };
    let mut scene = Scene::new("", &[(Tuning::Gravity, 7)], |id| (id, -id), input);
    scene.steps = 2;
    scene.late = vec![(0, 5)];
    let text = session_text(&scene);
    let lines: Vec<&str> = text.lines().collect();
    assert_eq!(lines[5..7], ["1 0 0 0 0 0 0", "3 0 1 0 0 0 0"]);
    assert_eq!(lines[131..133], ["1 63 63 -63 0 0 0", "3 63 1 0 0 0 0"]);
    let rest = [
        "5 12 7 0 0 0 0",
        "4 0 0 0 0 0 0",
        "5 0 5 0 0 0 0",
        "4 0 0 0 0 0 0",
    ];
    assert_eq!(lines[133..], rest);
}
