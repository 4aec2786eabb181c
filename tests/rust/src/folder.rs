//! Files that the tree keeps in a folder: written there, and held to what they must be.

use std::collections::BTreeSet;
use std::fs;
use std::path::Path;

/// A name, and what the file has.
pub type File = (String, Vec<u8>);

pub fn write(folder: &Path, files: &[File]) -> Result<(), String> {
    fs::create_dir_all(folder).map_err(|error| format!("{}: {error}", folder.display()))?;
    for (name, bytes) in files {
        let path = folder.join(name);
        fs::write(&path, bytes).map_err(|error| format!("{}: {error}", path.display()))?;
    }
    Ok(())
}

/// Fails where the folder does not have these files, as they are, and no other.
pub fn compare(folder: &Path, files: &[File]) -> Result<(), String> {
    let said = |error| format!("{}: {error}", folder.display());
    for (name, bytes) in files {
        match fs::read(folder.join(name)) {
            Ok(found) if found == *bytes => {}
            Ok(_) => return Err(format!("{name} is another")),
            Err(error) => return Err(format!("{name}: {error}")),
        }
    }
    let names: BTreeSet<&str> = files.iter().map(|(name, _)| name.as_str()).collect();
    for entry in fs::read_dir(folder).map_err(said)? {
        let name = entry.map_err(said)?.file_name();
        let name = name.to_string_lossy();
        if !names.contains(&*name) {
            return Err(format!("{name} is not one of them"));
        }
    }
    Ok(())
}

/// The path of a folder of the tree.
#[cfg(test)]
pub fn of_tree(path: &str) -> std::path::PathBuf {
    Path::new(concat!(env!("CARGO_MANIFEST_DIR"), "/../..")).join(path)
}

#[cfg(test)]
mod tests {
    use super::*;

    #[test]
    fn what_differs_is_named() {
        let file = |name: &str, bytes: &[u8]| (name.to_string(), bytes.to_vec());
        let name = format!("gondzselu-model-{}", std::process::id());
        let folder = std::env::temp_dir().join(name);
        let both = [file("a", &[1]), file("b", &[2])];
        assert_eq!(write(&folder, &both), Ok(()));
        let found = [
            compare(&folder, &both),
            compare(&folder, &[file("a", &[1]), file("b", &[3])]),
            compare(&folder, &both[..1]),
            compare(&folder, &[file("c", &[])]).map_err(|said| said[..2].into()),
        ];
        fs::remove_dir_all(&folder).unwrap();
        let says = |words: &str| Err(words.to_string());
        let wanted = [
            Ok(()),
            says("b is another"),
            says("b is not one of them"),
            says("c:"),
        ];
        assert_eq!(found, wanted);
    }
}
