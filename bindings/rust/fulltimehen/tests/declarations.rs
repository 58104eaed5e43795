//! The declarations of `sys.rs` are those of the library's sources.

use std::collections::BTreeMap;
use std::fs;
use std::path::Path;

/// The calls of a source, each with its parameters' types and its result's, by name. Each begins with these
/// words, and its head ends before one of these.
fn calls(source: &str, begin: &str, ends: [&str; 3]) -> BTreeMap<String, Vec<String>> {
    let heads = source.split(begin).skip(1).map(|rest| {
        let end = ends.iter().filter_map(|end| rest.find(end)).min().expect("an end");
        &rest[..end]
    });
    heads
        .map(|head| {
            let (name, rest) = head.split_once('(').expect("parameters");
            let (parameters, result) = rest.rsplit_once(')').expect("parameters");
            let kind =
                |parameter: &str| parameter.split_once(':').map(|(_, kind)| kind.trim().to_owned());
            let result = result.trim().trim_start_matches("->").trim().to_owned();
            (name.to_owned(), parameters.split(',').filter_map(kind).chain([result]).collect())
        })
        .collect()
}

/// The types that a parameter's type of the library crosses as.
fn crossing(kind: &str) -> Vec<&str> {
    match kind {
        "Global" => vec![],
        "&[u8]" => vec!["*const u8", "usize"],
        "&mut [u8]" => vec!["*mut u8", "usize"],
        "&mut Handle" => vec!["*mut Handle"],
        "&mut u32" => vec!["*mut u32"],
        "&mut u64" => vec!["*mut u64"],
        "&mut bool" => vec!["*mut bool"],
        kind => vec![kind],
    }
}

#[test]
fn declarations_are_the_librarys() {
    let here = Path::new(env!("CARGO_MANIFEST_DIR"));
    let read = |path: &str| fs::read_to_string(here.join(path)).expect("a source");
    let library = read("../../../crates/svc_c/src/lib.rt");
    let library = calls(&library, "pub extern \"C\" fn ", ["requires", "ensures", "{"]);
    let declared = read("src/sys.rs");
    let (_, declared) = declared.split_once("declare! {").expect("declarations");
    let (declared, _) = declared.split_once("\n}\n").expect("their end");
    let declared = calls(declared, "fn ", [";", ";", ";"]);
    assert!(declared.len() >= 7, "{declared:?}");
    for (name, kinds) in declared {
        let of_library =
            library.get(&name).unwrap_or_else(|| panic!("{name} is no call of the library"));
        let crossing: Vec<&str> = of_library.iter().flat_map(|kind| crossing(kind)).collect();
        assert_eq!(kinds, crossing, "{name}");
    }
}
