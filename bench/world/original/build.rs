//! Puts document 01's stand-ins into the published source, which is then included.

use std::path::{Path, PathBuf};
use std::{env, fs};

const FOLDER_VARIABLE: &str = "LIBTW2_SRC";

/// What is published, and what document 01 sets in its place.
const STAND_INS: [(&str, &str); 2] = [
    (
        "self.angle = target_dir.angle();",
        "self.angle = Angle::from_net(angle_method::net_angle(input.target_x, input.target_y));",
    ),
    ("curvature.powf(", "reference::powf(curvature, "),
];

fn main() {
    println!("cargo::rerun-if-env-changed={FOLDER_VARIABLE}");
    if let Err(error) = write_source() {
        println!("cargo::error={error}");
    }
}

fn write_source() -> Result<(), String> {
    let folder = env::var_os(FOLDER_VARIABLE)
        .ok_or_else(|| format!("{FOLDER_VARIABLE} is not set: it names the folder of libtw2"))?;
    let published = Path::new(&folder).join("world/src/lib.rs");
    println!("cargo::rerun-if-changed={}", published.display());
    let mut source = fs::read_to_string(&published)
        .map_err(|error| format!("{} cannot be read: {error}", published.display()))?;
    for (line, stand_in) in STAND_INS {
        if source.matches(line).count() != 1 {
            return Err(format!("`{line}` is not found exactly once"));
        }
        source = source.replace(line, stand_in);
    }
    let folder = env::var_os("OUT_DIR").expect("cargo sets it");
    fs::write(PathBuf::from(folder).join("world.rs"), source).map_err(|error| error.to_string())
}
