//! Writes the texts that the repository holds and what the session prints for
//! each, as `000.in`, `000.out` and so on, into the folder named.

use session_texts::recorded;
use std::path::Path;
use std::{env, fs, io};

fn main() -> io::Result<()> {
    let Some(folder) = env::args().nth(1) else {
        return Err(io::Error::other("a folder is to be named"));
    };
    let folder = Path::new(&folder);
    fs::create_dir_all(folder)?;
    let texts = recorded();
    for (number, text) in texts.iter().enumerate() {
        let mut out = Vec::new();
        session::run(&text.bytes, &mut out)?;
        fs::write(folder.join(format!("{number:03}.in")), &text.bytes)?;
        fs::write(folder.join(format!("{number:03}.out")), out)?;
    }
    println!("{} texts", texts.len());
    Ok(())
}
