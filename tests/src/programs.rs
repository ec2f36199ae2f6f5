//! The built programs, run on an input and an output of the test's own.
pub use crate::built::program;
use std::io::Read;
use std::process::{Child, Command, Stdio};
use std::thread;

/// What a program wrote, and what it said on standard error.
pub struct Said {
    pub out: Vec<u8>,
    pub error: String,
}

pub fn said(mut child: Child) -> Said {
    let mut error = child.stderr.take().expect("it has a standard error");
    let telling = thread::spawn(move || {
        let mut text = String::new();
        error.read_to_string(&mut text).expect("the errors are read");
        text
    });
    let mut out = Vec::new();
    if let Some(mut output) = child.stdout.take() {
        output.read_to_end(&mut out).expect("the output is read");
    }
    assert!(child.wait().expect("it ends").success());
    Said { out, error: telling.join().expect("the errors are read") }
}

pub fn start(name: &str, input: Stdio, output: Stdio) -> Child {
    Command::new(program(name)).stdin(input).stdout(output).stderr(Stdio::piped()).spawn().expect("the program starts")
}

/// With `which` of its descriptors closed.
pub fn closed(name: &str, which: &str) -> Said {
    let line = format!("exec \"$0\" {which}");
    let child = Command::new("sh").args(["-c", &line]).arg(program(name)).stdin(Stdio::null()).stdout(Stdio::piped()).stderr(Stdio::piped()).spawn();
    said(child.expect("the program starts"))
}
