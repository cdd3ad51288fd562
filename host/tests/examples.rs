//! The client's examples, where they stand beside the repository: the oracle prints their lines.
#![cfg(has_rust)]

use std::fs;
use std::path::Path;

use host::oracle::lines;

/// Examples by their files' name, and the format of each.
const EXAMPLES: [(&str, &str); 14] = [
    ("bytes", "bytes"),
    ("charges", "charges"),
    ("depth", "burst"),
    ("depths", "depths"),
    ("fleet", "fleet"),
    ("grip", "grip"),
    ("listen-0", "listen"),
    ("listen-1", "listen"),
    ("listen-2", "listen"),
    ("listen-3", "listen"),
    ("shifts", "shifts"),
    ("shortest", "capture"),
    ("waiting", "events"),
    ("writer", "writer"),
];

#[test]
fn lines_of_the_examples() {
    let folder = Path::new(env!("CARGO_MANIFEST_DIR")).join("../../shared/examples");
    if !folder.is_dir() {
        println!("SKIPPED: there is no folder {}", folder.display());
        return;
    }
    for (name, format) in EXAMPLES {
        let read = |end: &str| fs::read(folder.join(format!("{name}.{end}"))).expect("the example is there");
        let expected = String::from_utf8(read("out")).expect("lines are text");
        assert_eq!(lines(format, &read("in")).as_deref(), Some(&*expected), "{name}");
    }
}
