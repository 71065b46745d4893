//! A scene played by one side, and by both to compare them.

use crate::scene::{BLOCKS, STEPS, Scene};
use crate::sides::{Original, Port, Side};
use harness::Call;
use std::time::Instant;

/// Seconds for each few steps. The joins and the inputs between them are left out.
pub fn times<'a, S: Side<'a>>(scene: &'a Scene) -> [f64; BLOCKS] {
    let mut side = S::begun(scene);
    scene.blocks.each_ref().map(|calls| {
        calls.iter().for_each(|&call| side.call(call));
        let start = Instant::now();
        for _ in 0..STEPS {
            side.call(Call::Step);
        }
        start.elapsed().as_secs_f64()
    })
}

/// Microseconds per step.
pub fn per_step(times: [f64; BLOCKS]) -> f64 {
    times.iter().sum::<f64>() * 1e6 / (BLOCKS * STEPS) as f64
}

/// Stops where the worlds or the records differ after a step.
pub fn compare(scene: &Scene) {
    let (mut port, mut original) = (Port::begun(scene), Original::begun(scene));
    for calls in &scene.blocks {
        for &call in calls {
            port.call(call);
            original.call(call);
        }
        for _ in 0..STEPS {
            port.call(Call::Step);
            original.call(Call::Step);
            let same = port.numbers() == original.numbers();
            assert!(same, "{}: port and libtw2 differ", scene.name);
        }
    }
}
