//! The sample job files are those their descriptions make, and pass the check.

use std::fs;
use std::path::Path;

use reference::{check, output, text};

#[test]
fn samples_match_their_descriptions() {
    let folder = Path::new(env!("CARGO_MANIFEST_DIR")).join("../samples");
    for (name, records, meshes) in [("shoulder", 1, 1), ("sheet", 14, 9), ("tops", 11, 7)] {
        let description = fs::read_to_string(folder.join(format!("{name}.txt"))).unwrap();
        let job = fs::read(folder.join(format!("{name}.tsj"))).unwrap();
        assert_eq!(text::job(&description).unwrap().to_bytes(), job);
        let summary = check::check(&job, output::answers(&job).as_bytes()).unwrap();
        assert_eq!((summary.records, summary.meshes), (records, meshes));
    }
}
