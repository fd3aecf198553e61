//! Texts with what `listen` has to print for them.

use std::fs;
use std::io;
use std::path::Path;

use crate::subject::Subject;

/// How many texts were tried, and what differed.
pub struct Outcome {
    pub tried: usize,
    pub differences: Vec<String>,
}

/// Puts every `*.in` of a folder to a subject and compares with its `*.out`.
pub fn check(subject: &mut impl Subject, folder: &Path) -> io::Result<Outcome> {
    let mut paths = fs::read_dir(folder)?
        .map(|entry| entry.map(|entry| entry.path()))
        .collect::<io::Result<Vec<_>>>()?;
    paths.retain(|path| path.extension().is_some_and(|extension| extension == "in"));
    paths.sort();
    let mut differences = Vec::new();
    for path in &paths {
        let printed = subject.listen(&fs::read(path)?);
        let wanted = fs::read(path.with_extension("out"))?;
        if printed != wanted {
            differences.push(difference(path, &printed, &wanted));
        }
    }
    Ok(Outcome {
        tried: paths.len(),
        differences,
    })
}

/// Names the first line that differs.
fn difference(path: &Path, printed: &[u8], wanted: &[u8]) -> String {
    let lines = |bytes: &[u8]| -> Vec<String> {
        let text = String::from_utf8_lossy(bytes);
        text.split_inclusive('\n').map(str::to_string).collect()
    };
    let (printed, wanted) = (lines(printed), lines(wanted));
    let first = (0..)
        .find(|&i| printed.get(i) != wanted.get(i))
        .expect("some line differs");
    format!(
        "{}: line {}: printed {:?}, wanted {:?}",
        path.display(),
        first + 1,
        printed.get(first),
        wanted.get(first)
    )
}
