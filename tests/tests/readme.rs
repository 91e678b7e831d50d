//! The README's first hour, as it stands on the page: its table file is made, looked at and solved by its own lines. And the
//! stations of tables/, each with the verdict that the pages say.

use kirdanzug_tests::stations;
use std::fs;
use std::path::{Path, PathBuf};
use std::process::Command;

fn root() -> PathBuf {
    PathBuf::from(env!("CARGO_MANIFEST_DIR")).join("..")
}

/// The fenced blocks of the page: what stands behind the fence, and the lines.
fn blocks(page: &str) -> Vec<(String, String)> {
    let mut blocks = Vec::new();
    let mut open: Option<(String, String)> = None;
    for line in page.lines() {
        match (open.take(), line.strip_prefix("```")) {
            (None, Some(kind)) => open = Some((kind.to_string(), String::new())),
            (Some(block), Some(_)) => blocks.push(block),
            (Some((kind, text)), None) => open = Some((kind, text + line + "\n")),
            (None, None) => (),
        }
    }
    assert!(open.is_none(), "a block of the page has no end");
    blocks
}

/// The one block whose first line starts so.
fn block<'a>(blocks: &'a [(String, String)], kind: &str, start: &str) -> &'a str {
    let found: Vec<_> = blocks.iter().filter(|(k, text)| k == kind && text.starts_with(start)).collect();
    assert_eq!(found.len(), 1, "blocks of kind '{kind}' that start with '{start}'");
    &found[0].1
}

/// Runs the lines in the folder, and gives what they print.
fn shell(folder: &Path, lines: &str) -> String {
    let output = Command::new("sh").args(["-e", "-c", lines]).current_dir(folder).output().expect("sh starts");
    assert!(output.status.success(), "{lines}\n{}", String::from_utf8_lossy(&output.stderr));
    assert!(output.stderr.is_empty(), "{}", String::from_utf8_lossy(&output.stderr));
    String::from_utf8(output.stdout).expect("text is printed")
}

/// The solving program; none where it wasn't built and nobody asked for it.
fn program() -> Option<PathBuf> {
    let program = std::env::var_os("KIRDANZUG_SOLVE").map(PathBuf::from).unwrap_or(root().join("crates/solve/out/solve"));
    if !program.exists() {
        assert!(std::env::var_os("KIRDANZUG_SOLVE").is_none(), "KIRDANZUG_SOLVE names {}, which is missing", program.display());
        eprintln!("skipped: {} does not exist", program.display());
        return None;
    }
    Some(program)
}

/// A folder that has what the page's lines name: the solving program and the tables.
fn folder() -> Option<PathBuf> {
    let program = program()?;
    let folder = std::env::temp_dir().join(format!("kirdanzug-readme-{}", std::process::id()));
    fs::create_dir_all(folder.join("crates/solve/out")).expect("a folder for the test");
    fs::copy(program, folder.join("crates/solve/out/solve")).expect("the program is copied");
    fs::create_dir_all(folder.join("tables")).expect("a folder for the tables");
    fs::copy(root().join("tables/A"), folder.join("tables/A")).expect("tables/A is copied");
    Some(folder)
}

#[test]
fn readme_first_hour_works() {
    let Some(folder) = folder() else { return };
    let page = fs::read_to_string(root().join("README.md")).expect("README.md is there");
    let blocks = blocks(&page);

    let first = block(&blocks, "sh", "(cd crates/solve && rt run ");
    // The program that the page's line proves, builds and runs has been built before the tests.
    let solve = first.replacen("rt run ", "out/solve ", 1);
    let answers: Vec<_> = blocks.iter().filter(|(_, text)| text.starts_with("yes ")).map(|(_, text)| text).collect();
    assert_eq!(answers.len(), 2, "the page has two answers");
    assert_eq!(&shell(&folder, &solve), answers[0]);

    let words = block(&blocks, "", "10020203");
    fs::write(folder.join("tank.txt"), words).expect("tank.txt is written");
    let seen: String = words.lines().map(|line| format!(" {}\n", &line[..8])).collect();
    let lines = block(&blocks, "sh", "perl");
    assert_eq!(shell(&folder, lines), format!("{}{seen}", answers[1]));
    fs::remove_dir_all(folder).expect("the folder is removed");
}

/// What the first line says of each file in tables/.
const VERDICTS: [(&str, &str); 12] = [
    ("A", "yes 2 2"),
    ("B", "no 2"),
    ("C", "yes 2 2"),
    ("D", "no 1"),
    ("E", "no 1"),
    ("F", "yes 0 1"),
    ("G", "no 4"),
    ("H", "no 2"),
    ("finished", "yes 2 2"),
    ("tied", "yes 1 3"),
    ("tightest", "yes 1 2"),
    ("unfinished", "no 3"),
];

#[test]
fn stations_of_the_tables_folder() {
    let Some(program) = program() else { return };
    let files = fs::read_dir(root().join("tables")).expect("tables/ is there");
    let mut names: Vec<_> = files.map(|file| file.expect("a file").file_name().into_string().expect("a name")).collect();
    names.sort();
    assert_eq!(names, VERDICTS.map(|(name, _)| name));
    for (name, verdict) in VERDICTS {
        assert_eq!(printed(&program, name).lines().next(), Some(verdict), "tables/{name}");
    }
}

/// All that the program prints for a file of tables/.
fn printed(program: &Path, name: &str) -> String {
    let table = fs::File::open(root().join("tables").join(name)).expect("the table is there");
    let output = Command::new(program).stdin(table).output().expect("the program starts");
    String::from_utf8(output.stdout).expect("text is printed")
}

/// The station that finishes, as the pages have it: A's card, with 3 in both sets.
#[test]
fn finished_station() {
    let Some(program) = program() else { return };
    let expected = "yes 2 2\nfirst 0 0\ncell 0 9 0\nnext 0 0 1\ncell 1 10 1\nnext 1 0 0\n";
    assert_eq!(printed(&program, "finished"), expected);
}

/// The files are the stations in which several cells hold {0}.
#[test]
fn files_of_the_tightest_cells() {
    for (name, words) in [("tightest", &stations::TIGHTEST[..]), ("tied", &stations::TIED)] {
        let file = fs::read(root().join("tables").join(name)).expect("the table is there");
        assert_eq!(file, stations::bytes(words), "tables/{name}");
    }
}

/// What the program prints for them: every word names cell 1.
#[test]
fn tightest_cells_printed() {
    let Some(program) = program() else { return };
    assert_eq!(printed(&program, "tightest"), stations::TIGHTEST_TEXT);
    assert_eq!(printed(&program, "tied"), stations::TIED_TEXT);
}
