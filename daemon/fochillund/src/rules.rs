//! By which rules members answer, and what stands in their rows. The processes of a group have the same ones, and so have all releases that differ in
//! neither: their processes may be members of one group, so that it goes over from one release to another a process at a time.

/// What the cells of the founding's row call these rules: the release that was the last to name them by its own version.
pub const NAME: &str = "fochillun 0.15.0";

/// What earlier releases called them.
const EARLIER_NAMES: [&str; 4] = [
    "fochillun 0.11.0",
    "fochillun 0.12.0",
    "fochillun 0.13.0",
    "fochillun 0.14.0",
];

/// Whether a name is one of these rules.
pub fn are_known(name: &str) -> bool {
    name == NAME || EARLIER_NAMES.contains(&name)
}

#[cfg(test)]
mod tests {
    use rows::cell::{hash_of, VERSION};
    use std::fs;
    use std::path::Path;

    /// The crates whose definitions say what a command answers and changes, in which order commands are carried out, and what stands in rows.
    const CRATES: [&str; 6] = [
        "rbac_dump",
        "rbac_founding",
        "rbac_message_text",
        "rbac_terms",
        "rbac_text",
        "rbac_words",
    ];

    /// Of these definitions, and of cells of this version, the rules are.
    const DEFINITIONS: &str = "b6c78d560274c6e728a9800cd73b231ebf0a063ec04e6458f435e53323919f9a";
    const CELLS: u32 = 2;

    /// The texts of the definitions below a folder, in the order of their names.
    fn definitions(folder: &Path, texts: &mut Vec<u8>) {
        let entries = fs::read_dir(folder).unwrap();
        let mut paths: Vec<_> = entries.map(|entry| entry.unwrap().path()).collect();
        paths.sort();
        for path in paths {
            match path.is_dir() {
                true => definitions(&path, texts),
                false => texts.extend(fs::read(&path).unwrap()),
            }
        }
    }

    /// Where this fails a definition has changed. If members answer otherwise by it, or their rows hold something else, the rules get a new name, and no
    /// earlier one; where neither is so the sum alone is changed.
    #[test]
    fn the_rules_are_those_of_these_definitions() {
        let crates = Path::new(env!("CARGO_MANIFEST_DIR")).join("../../crates");
        let mut texts = Vec::new();
        for name in CRATES {
            definitions(&crates.join(name).join("specs"), &mut texts);
        }
        assert_eq!((hash_of(&texts).as_str(), VERSION), (DEFINITIONS, CELLS));
    }
}
