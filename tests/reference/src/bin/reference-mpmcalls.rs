//! The reference as the program `mpmcalls`.

use std::io::{self, Read, Write};

fn main() -> io::Result<()> {
    let disk = std::fs::read("DISK.IMG").ok();
    let mut input = Vec::new();
    io::stdin().lock().read_to_end(&mut input)?;
    let (printed, out) = reference::mpmcalls(disk.as_deref(), &input);
    io::stdout().lock().write_all(&printed)?;
    if let Some(out) = out {
        std::fs::write("DISK.OUT", out)?;
    }
    Ok(())
}
