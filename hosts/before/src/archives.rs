//! The archives in a folder. The build uses this too.

use std::path::{Path, PathBuf};

/// One archive of all calls, or one of compile and one of the others.
const FORMS: [&[&str]; 2] = [&["libmonitor.a"], &["libcompiler.a", "librunner.a"]];

/// The archives of the first form that the folder has whole.
pub fn archives_in(folder: &Path) -> Option<Vec<PathBuf>> {
    FORMS
        .iter()
        .map(|names| names.iter().map(|name| folder.join(name)).collect())
        .find(|archives: &Vec<PathBuf>| archives.iter().all(|archive| archive.is_file()))
}

#[cfg(test)]
mod tests {
    use super::*;
    use std::{env, fs, process};

    /// The names that are found in a folder of these files.
    fn found(files: &[&str]) -> Option<Vec<String>> {
        let name = format!("archives-{}-{}", process::id(), files.join("-"));
        let folder = env::temp_dir().join(name);
        fs::create_dir_all(&folder).expect("a folder is made");
        for file in files {
            fs::write(folder.join(file), "").expect("a file is written");
        }
        let archives = archives_in(&folder);
        fs::remove_dir_all(&folder).expect("the folder is removed");
        let name = |path: &PathBuf| path.file_name().unwrap().to_string_lossy().into_owned();
        archives.map(|archives| archives.iter().map(name).collect())
    }

    #[test]
    fn both_forms_are_found() {
        let two = ["libcompiler.a", "librunner.a"];
        assert_eq!(found(&two).unwrap(), two);
        assert_eq!(found(&["libmonitor.a"]).unwrap(), ["libmonitor.a"]);
        let all = ["libcompiler.a", "libmonitor.a", "librunner.a"];
        assert_eq!(found(&all).unwrap(), ["libmonitor.a"]);
    }

    #[test]
    fn a_part_is_not_enough() {
        for files in [&[][..], &["libcompiler.a"], &["librunner.a"]] {
            assert_eq!(found(files), None);
        }
    }
}
