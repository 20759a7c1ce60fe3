//! The listings that the program `sheets` of this repository prints the sheets of, with the answers that it is held to: in its file `stdout` each
//! listing's number stands in a line, and its sheet behind that.

use std::path::PathBuf;

use bench::sheet::sheet;

#[test]
fn sheets() {
    let folder: PathBuf = [env!("CARGO_MANIFEST_DIR"), "..", "crates", "sheets"].iter().collect();
    let answers = std::fs::read_to_string(folder.join("stdout")).unwrap();
    let mut printed = String::new();
    let mut compared = 0;
    for n in 1.. {
        let Ok(listing) = std::fs::read(folder.join("data").join(format!("{n:03}.txt"))) else {
            break;
        };
        printed += &format!("{n:03}\n");
        printed += std::str::from_utf8(&sheet(&listing)).unwrap();
        compared += 1;
    }
    println!("{compared} listings compared");
    assert!(compared > 0);
    assert!(printed == answers, "the sheets differ");
}
