//! Writes the sample logs of examples/logs, with what `replay` has to write for each: `cargo run -p model --example samples`.

use model::samples;
use std::path::Path;

fn main() -> std::io::Result<()> {
    let folder = Path::new(env!("CARGO_MANIFEST_DIR")).join("../../examples/logs");
    for sample in samples::all() {
        for (ending, bytes) in sample.files() {
            std::fs::write(folder.join(format!("{}.{ending}", sample.name)), bytes)?;
        }
    }
    Ok(())
}
