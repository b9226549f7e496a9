//! The shared traces of tests/traces/shared: the model gives each answer as it is expected there, to the byte.

mod player;

use std::fs;
use std::path::{Path, PathBuf};

fn shared() -> PathBuf {
    Path::new(env!("CARGO_MANIFEST_DIR")).join("../../traces/shared")
}

#[test]
fn answers_are_those_expected() {
    let files = fs::read_dir(shared()).expect("tests/traces/shared");
    let traces: Vec<PathBuf> = files.map(|file| file.expect("a file").path()).filter(|path| path.extension().is_some_and(|e| e == "trace")).collect();
    assert!(traces.len() >= 5, "{} traces", traces.len());
    for trace in traces {
        let mut given = Vec::new();
        player::run(&fs::read(&trace).expect("a trace")[..], &mut given).expect("a whole trace");
        assert!(given == fs::read(trace.with_extension("expect")).expect("its answers"), "{}", trace.display());
    }
}

/// The comparison can fail: a trace with one byte of a book changed is answered otherwise.
#[test]
fn another_trace_is_answered_otherwise() {
    let mut trace = fs::read(shared().join("22-slots.trace")).expect("a trace");
    let (mut right, mut wrong) = (Vec::new(), Vec::new());
    player::run(&trace[..], &mut right).expect("a whole trace");
    let load = trace.iter().position(|&opcode| opcode == 1).expect("a load");
    trace[load + 5] ^= 2;
    player::run(&trace[..], &mut wrong).expect("a whole trace");
    assert!(right != wrong);
}
