//! The folder of examples: each rule file, its text form and its report agree.
//! Bytes that are no rule file have no text form, only a remark.

use std::fs;
use std::path::Path;

use reference::{bids, file, notation, report};

#[test]
fn examples_agree() {
    let folder = Path::new(env!("CARGO_MANIFEST_DIR")).join("../examples");
    let mut count = 0;
    for entry in fs::read_dir(folder).unwrap() {
        let path = entry.unwrap().path();
        if path.extension().map_or(false, |kind| kind == "rules") {
            let bytes = fs::read(&path).unwrap();
            let text = fs::read_to_string(path.with_extension("txt")).unwrap();
            let expected = fs::read_to_string(path.with_extension("expected")).unwrap();
            assert_eq!(file::read(&bytes).ok(), notation::parse(&text).ok());
            assert_eq!(report::report(&bytes), expected, "{path:?}");
            let rates = fs::read_to_string(path.with_extension("rates")).unwrap();
            assert_eq!(report::rate_lines(&bytes), rates, "{path:?}");
            count += 1;
        }
    }
    assert!(count >= 19, "some examples were lost");
}

#[test]
fn pairs_agree() {
    let folder = Path::new(env!("CARGO_MANIFEST_DIR")).join("../examples/bids");
    let mut count = 0;
    for entry in fs::read_dir(folder).unwrap() {
        let path = entry.unwrap().path();
        let [first, second] = ["first", "second"]
            .map(|name| fs::read(path.join(name).with_extension("rules")).unwrap());
        let expected = fs::read_to_string(path.join("expected")).unwrap();
        assert_eq!(bids::text(&first, &second), expected, "{path:?}");
        count += 1;
    }
    assert!(count >= 6, "some pairs were lost");
}
