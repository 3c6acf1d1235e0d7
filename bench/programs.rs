// The two programs, as processes.
use crate::exhaustive::Model;
use std::io::{ErrorKind, Write};
use std::process::{Command, Stdio};

pub const MODELS: [Model; 2] = [Model::Clock, Model::FetchesFirst];

pub fn name(model: Model) -> &'static str {
    match model {
        Model::Clock => "clock",
        Model::FetchesFirst => "fetches_first",
    }
}

// What a program writes for the input.
pub fn run(model: Model, input: &[u8]) -> Result<String, String> {
    let failed = |why: std::io::Error| format!("program {}: {why}", name(model));
    let mut child = Command::new(format!("crates/{0}/out/{0}", name(model)))
        .stdin(Stdio::piped())
        .stdout(Stdio::piped())
        .spawn()
        .map_err(failed)?;
    if let Some(mut pipe) = child.stdin.take() {
        match pipe.write_all(input) {
            // A program may end before it has read all.
            Err(why) if why.kind() != ErrorKind::BrokenPipe => return Err(failed(why)),
            _ => {}
        }
    }
    let output = child.wait_with_output().map_err(failed)?;
    if !output.status.success() {
        return Err(format!("program {}: {}", name(model), output.status));
    }
    Ok(String::from_utf8_lossy(&output.stdout).into_owned())
}
