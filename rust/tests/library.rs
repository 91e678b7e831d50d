//! docs/LIBRARY.md as it stands: its callers are taken from the page, built by its commands and run,
//! and what they print is compared with the page. And the header: its dialects, its typed calls, its
//! numbers, and what the archive needs from outside.

use kirdanzug::*;
use std::collections::BTreeSet;
use std::io::Write;
use std::path::{Path, PathBuf};
use std::process::{Command, Output, Stdio};

/// The folder with libabi.a that this crate was linked with.
const ARCHIVE: &str = env!("KIRDANZUG_ARCHIVE_FOLDER");

/// The sections of the page that have a caller.
const CALLERS: [&str; 6] = [
    "A caller in C",
    "Tables and cards by themselves",
    "A card drawn by hand",
    "A card for a small store",
    "A card for the board shop",
    "A caller in Rust",
];

fn root() -> PathBuf {
    Path::new(env!("CARGO_MANIFEST_DIR")).parent().expect("rust/ has a parent").to_path_buf()
}

fn read(path: &str) -> String {
    std::fs::read_to_string(root().join(path)).unwrap_or_else(|error| panic!("{path}: {error}"))
}

// ---- The page ----------------------------------------------------------------------------------

/// A fenced block: the section it stands in, the line before it, the language behind the fence.
struct Block {
    section: String,
    label: String,
    language: String,
    text: String,
}

impl Block {
    /// The file that the block is, where the line before it is "`FILE`:".
    fn file(&self) -> Option<&str> {
        self.label.strip_prefix('`')?.strip_suffix("`:")
    }
}

fn blocks(page: &str) -> Vec<Block> {
    let (mut section, mut label) = (String::new(), String::new());
    let mut blocks = Vec::new();
    let mut open: Option<Block> = None;
    for line in page.lines() {
        match (open.take(), line.strip_prefix("```")) {
            (Some(block), Some(_)) => blocks.push(block),
            (Some(mut block), None) => {
                block.text += &format!("{line}\n");
                open = Some(block);
            }
            (None, Some(language)) => {
                let (section, label) = (section.clone(), label.clone());
                open = Some(Block { section, label, language: language.into(), text: String::new() });
            }
            (None, None) if line.is_empty() => (),
            (None, None) => {
                section = line.strip_prefix("## ").map_or(section, String::from);
                label = line.into();
            }
        }
    }
    assert!(open.is_none(), "the last block of the page has no end");
    blocks
}

/// The section's only block of this language.
fn the<'a>(blocks: &'a [Block], section: &str, language: &str) -> &'a Block {
    let mut found = blocks.iter().filter(|block| block.section == section && block.language == language);
    let block = found.next().unwrap_or_else(|| panic!("\"{section}\" has no block of {language}"));
    assert!(found.next().is_none(), "\"{section}\" has two blocks of {language}");
    block
}

/// A new folder that looks like the repository's root to the page's commands.
fn folder(name: &str) -> PathBuf {
    let folder = Path::new(env!("CARGO_TARGET_TMPDIR")).join(name);
    if folder.exists() {
        std::fs::remove_dir_all(&folder).expect("the folder of the last run goes");
    }
    std::fs::create_dir_all(folder.join("crates/abi")).expect("the folder can be made");
    for (to, from) in [("include", root().join("include")), ("rust", root().join("rust"))] {
        copy(&from, &folder.join(to));
    }
    std::fs::create_dir(folder.join("crates/abi/out")).expect("the folder can be made");
    std::fs::copy(Path::new(ARCHIVE).join("libabi.a"), folder.join("crates/abi/out/libabi.a")).expect("the archive is copied");
    folder
}

/// Copies a folder without what cargo built in it. (No links: `rt ci` refuses a repository that has one, in any folder.)
fn copy(from: &Path, to: &Path) {
    std::fs::create_dir(to).expect("a folder can be made");
    for entry in std::fs::read_dir(from).expect("the folder is there") {
        let path = entry.expect("a file").path();
        let name = path.file_name().expect("it has a name");
        if path.is_file() {
            std::fs::copy(&path, to.join(name)).expect("the file is copied");
        } else if name != "target" {
            copy(&path, &to.join(name));
        }
    }
}

fn text(bytes: &[u8]) -> String {
    String::from_utf8_lossy(bytes).into_owned()
}

/// Runs a line of the page; it must end well and have nothing to complain about.
fn run_line(folder: &Path, line: &str) -> String {
    let mut command = Command::new("sh");
    command.args(["-c", line]).current_dir(folder);
    // A folder of its own for what cargo builds, and no second archive.
    command.env_remove("CARGO_TARGET_DIR").env("KIRDANZUG_ARCHIVE", ARCHIVE);
    let Output { status, stdout, stderr } = command.output().expect("sh can be started");
    assert!(status.success() && stderr.is_empty(), "{line}: {status}\n{}", text(&stderr));
    text(&stdout)
}

/// Writes the section's files, runs its commands and compares what they print.
fn build_and_run(section: &str) {
    let page = read("docs/LIBRARY.md");
    let blocks = blocks(&page);
    let folder = folder(&section.replace(' ', "-"));
    let files: Vec<&Block> = blocks.iter().filter(|block| block.section == section && block.file().is_some()).collect();
    assert!(!files.is_empty(), "\"{section}\" has no file");
    for block in files {
        let path = folder.join(block.file().expect("it is a file"));
        std::fs::create_dir_all(path.parent().expect("it is in the folder")).expect("a folder can be made");
        std::fs::write(&path, &block.text).expect("the file can be written");
    }
    let commands: Vec<&str> = the(&blocks, section, "sh").text.lines().collect();
    assert_eq!(commands[0], "(cd crates/abi && rt lib)", "the archive comes first");
    let printed: String = commands[1..].iter().map(|line| run_line(&folder, line)).collect();
    assert_eq!(printed, the(&blocks, section, "text").text, "{section}");
}

#[test]
fn caller_in_c() {
    build_and_run(CALLERS[0]);
}

#[test]
fn tables_and_cards_in_c() {
    build_and_run(CALLERS[1]);
}

#[test]
fn card_judged_in_c() {
    build_and_run(CALLERS[2]);
}

#[test]
fn card_trimmed_in_c() {
    build_and_run(CALLERS[3]);
}

#[test]
fn card_as_kiss2_in_c() {
    build_and_run(CALLERS[4]);
}

#[test]
fn caller_in_rust() {
    build_and_run(CALLERS[5]);
}

/// No block of the page is left out: each is a file, the commands or the output of a caller.
#[test]
fn every_block_is_tried() {
    for block in blocks(&read("docs/LIBRARY.md")) {
        let Block { section, language, .. } = &block;
        assert!(CALLERS.contains(&section.as_str()), "\"{section}\" has a block that nothing tries");
        assert!(block.file().is_some() || language == "sh" || language == "text", "\"{section}\": what is {language}?");
    }
}

#[test]
#[should_panic(expected = "\"Two\" has no block of sh")]
fn a_missing_block_is_missed() {
    let blocks = blocks("## One\n```sh\nls\n```\n## Two\n`a.c`:\n\n```c\nint main;\n```\n");
    assert_eq!((blocks[1].file(), the(&blocks, "One", "sh").text.as_str()), (Some("a.c"), "ls\n"));
    the(&blocks, "Two", "sh");
}

// ---- The header --------------------------------------------------------------------------------

/// Compilers, with the language and the dialect.
const DIALECTS: [[&str; 3]; 4] =
    [["cc", "c", "c99"], ["cc", "c", "c11"], ["c++", "c++", "c++11"], ["c++", "c++", "c++17"]];

/// What the compiler says of a source with the header before it, all warnings taken for errors.
fn compile([compiler, language, dialect]: [&str; 3], source: &str) -> Result<(), String> {
    let mut command = Command::new(compiler);
    command.args(["-x", language, &format!("-std={dialect}"), "-Wall", "-Wextra", "-pedantic", "-Werror"]);
    command.args(["-fsyntax-only", "-Iinclude", "-"]).current_dir(root());
    command.stdin(Stdio::piped()).stderr(Stdio::piped());
    let mut child = command.spawn().unwrap_or_else(|error| panic!("{compiler}: {error}"));
    let mut input = child.stdin.take().expect("standard input is piped");
    write!(input, "#include \"kirdanzug.h\"\n{source}\n").expect("the compiler reads");
    drop(input);
    let output = child.wait_with_output().expect("the compiler ends");
    if output.status.success() { Ok(()) } else { Err(text(&output.stderr)) }
}

#[test]
fn header_compiles() {
    for dialect in DIALECTS {
        assert_eq!(compile(dialect, "int main(void) { return 0; }"), Ok(()), "{dialect:?}");
    }
}

/// Each typed call compiles with its numbers in order, and not with others in their places.
#[test]
fn swapped_numbers_do_not_compile() {
    let calls = [
        ("kirdanzug_typed_open(w, 1, observation)", "kirdanzug_typed_open(w, 1, cell)"),
        ("kirdanzug_typed_step(w, 1, cell, observation)", "kirdanzug_typed_step(w, 1, observation, cell)"),
        ("kirdanzug_typed_step(w, 1, cell, observation)", "kirdanzug_typed_step(w, 1, cell, 0)"),
        ("kirdanzug_typed_show(w, 1, w, 1, cell)", "kirdanzug_typed_show(w, 1, w, 1, observation)"),
        ("kirdanzug_typed_run(w, 1, &observation, 1, &action, 1)", "kirdanzug_typed_run(w, 1, &action, 1, &action, 1)"),
    ];
    let source = |call: &str| {
        format!(
            "void f(const uint32_t *w, kirdanzug_cell cell, kirdanzug_observation observation, kirdanzug_action action);\n\
             void f(const uint32_t *w, kirdanzug_cell cell, kirdanzug_observation observation, kirdanzug_action action)\n\
             {{ (void)cell; (void)observation; (void)action; (void){call}; }}"
        )
    };
    for dialect in DIALECTS {
        for (right, swapped) in calls {
            assert_eq!(compile(dialect, &source(right)), Ok(()), "{dialect:?}");
            let complaint = compile(dialect, &source(swapped)).expect_err(swapped);
            assert!(complaint.contains("kirdanzug_"), "{dialect:?}, {swapped}: {complaint}");
        }
    }
}

/// The header's names with the numbers that they must have: the crate's, and docs/FORMAT.md's kinds.
fn numbers() -> Vec<(&'static str, usize)> {
    let refusals = [
        ("REFUSED_NO_WORDS", Refusal::NO_WORDS),
        ("REFUSED_HEAD", Refusal::HEAD),
        ("REFUSED_LENGTH", Refusal::LENGTH),
        ("REFUSED_WORD", Refusal::WORD),
        ("REFUSED_MASK", Refusal::MASK),
        ("REFUSED_NO_START", Refusal::NO_START),
        ("REFUSED_UNSHOWN", Refusal::UNSHOWN),
        ("REFUSED_WORK_ROOM", Refusal::WORK_ROOM),
        ("REFUSED_CARD_ROOM", Refusal::CARD_ROOM),
        ("REFUSED_TABLE_ROOM", Refusal::TABLE_ROOM),
        ("REFUSED_UNUSED_SLOT", Refusal::UNUSED_SLOT),
        ("REFUSED_NUMBER", Refusal::NUMBER),
        ("REFUSED_CARD", Refusal::CARD),
        ("REFUSED_CANNOT_OCCUR", Refusal::CANNOT_OCCUR),
        ("REFUSED_LIST_ROOM", Refusal::LIST_ROOM),
        ("REFUSED_OTHER_TABLE", Refusal::OTHER_TABLE),
        ("REFUSED_ROUNDS", Refusal::ROUNDS),
        ("REFUSED_UNCERTIFIED", Refusal::UNCERTIFIED),
        ("REFUSED_PARKED_MOVES", Refusal::PARKED_MOVES),
        ("REFUSED_IDLE_CELL", Refusal::IDLE_CELL),
        ("REFUSED_TEXT", Refusal::TEXT),
    ];
    let others = [
        ("DONE", 0),
        ("NO", 1),
        ("REFUSED", 2),
        ("MAX_STATES", MAX_STATES),
        ("MAX_ACTIONS", MAX_ACTIONS),
        ("MAX_OBSERVATIONS", MAX_OBSERVATIONS),
        ("MAX_CELLS", MAX_CELLS),
        ("MAX_ROUNDS", MAX_ROUNDS as usize),
        ("SHOWN_SLOTS", SHOWN_SLOTS),
        ("MOVE_SLOTS", MOVE_SLOTS),
        ("NO_CELL", Cell::NONE.0 as usize),
        ("WORK_WORDS(3)", work_words(3)),
        ("WORK_WORDS_MAX", WORK_WORDS_MAX),
        ("TRIM_WORK_WORDS(498)", trim_work_words(498)),
        ("TRIM_WORK_WORDS_MAX", TRIM_WORK_WORDS_MAX),
        ("TABLE_WORDS(3, 2, 1)", table_words(3, 2, 1)),
        ("TABLE_WORDS_MAX", TABLE_WORDS_MAX),
        ("CARD_WORDS(2, 1)", card_words(2, 1)),
        ("CARD_WORDS_MAX", CARD_WORDS_MAX),
        ("KISS_CARD_WORDS_MAX", KISS_CARD_WORDS_MAX),
        ("KISS_BYTES(2, 1, 2)", kiss_bytes(2, 1, 2)),
        ("KISS_BYTES(3, 3, 5)", kiss_bytes(3, 3, 5)),
        ("KISS_BYTES(1 + 1, 4 + 1, 3 + 1)", kiss_bytes(2, 5, 4)),
        ("KISS_BYTES_MAX", KISS_BYTES_MAX),
        ("STACK_BYTES", STACK_BYTES),
        ("WRITE_KISS_STACK_BYTES", WRITE_KISS_STACK_BYTES),
        ("READ_KISS_STACK_BYTES", READ_KISS_STACK_BYTES),
        ("RUN_STACK_BYTES", RUN_STACK_BYTES),
        ("NO_ACTION", u32::MAX as usize),
        ("KIND(0xB1000000)", 11),
        ("KIND_HEAD", 1),
        ("KIND_START", 2),
        ("KIND_BAD", 3),
        ("KIND_SHOWN", 4),
        ("KIND_MOVE", 5),
        ("KIND_PARKED", 6),
        ("KIND_CARD_HEAD", 8),
        ("KIND_FIRST", 9),
        ("KIND_CELL", 10),
        ("KIND_NEXT", 11),
    ];
    refusals.map(|(name, number)| (name, number as usize)).into_iter().chain(others).collect()
}

#[test]
fn header_has_the_crates_numbers() {
    let folder = folder("numbers");
    let lines: String = numbers().iter().map(|(name, _)| format!("    say(\"{name}\", KIRDANZUG_{name});\n")).collect();
    let source = format!(
        "#include <stdio.h>\n#include \"kirdanzug.h\"\n\
         static void say(const char *name, unsigned long long number) {{ printf(\"%s %llu\\n\", name, number); }}\n\
         int main(void)\n{{\n{lines}    printf(\"%s %d.%d.%d\\n\", KIRDANZUG_VERSION, KIRDANZUG_VERSION_MAJOR, \
         KIRDANZUG_VERSION_MINOR, KIRDANZUG_VERSION_PATCH);\n    return 0;\n}}\n"
    );
    std::fs::write(folder.join("numbers.c"), source).expect("the file can be written");
    let printed = run_line(&folder, "cc -std=c11 -Wall -Wextra -Iinclude -o numbers numbers.c && ./numbers");
    let expected: String = numbers().iter().map(|(name, number)| format!("{name} {number}\n")).collect();
    assert_eq!(printed, expected + &format!("{VERSION} {VERSION}\n"));
}

/// The names behind a prefix, up to the bracket.
fn named(source: &str, prefix: &str) -> BTreeSet<String> {
    let names = source.lines().filter_map(|line| line.trim().strip_prefix(prefix)?.split_once('('));
    names.map(|(name, _)| name.to_string()).collect()
}

/// Header and raw layer declare the same functions.
#[test]
fn header_and_crate_have_the_same_functions() {
    let declared = named(&read("include/kirdanzug.h"), "void kirdanzug_");
    assert_eq!(declared, named(&read("rust/src/raw.rs"), "pub fn kirdanzug_"));
    let (texts, declared): (BTreeSet<String>, BTreeSet<String>) = declared.into_iter().partition(|name| name.ends_with("_kiss"));
    assert_eq!(declared.len(), 14, "{declared:?}");
    assert_eq!(texts.len(), 2, "{texts:?}");
}

/// The archive needs memcpy and memset, and keeps nothing: it has no data of its own but constants.
#[test]
fn archive_needs_two_functions() {
    let symbols = run_line(Path::new(ARCHIVE), "nm -P libabi.a");
    let of_type = |types: &str| -> BTreeSet<&str> {
        let words = symbols.lines().filter_map(|line| line.split_once(' '));
        words.filter(|(_, rest)| rest.starts_with(|kind| types.contains(kind))).map(|(name, _)| name).collect()
    };
    assert_eq!(of_type("U"), BTreeSet::from(["memcpy", "memset"]));
    assert_eq!(of_type("BbDdCGgSs"), BTreeSet::new());
    assert!(of_type("T").contains("kirdanzug_solve"));
}

/// A program that only runs a card, without the C library.
const BARE: &str = "
#include \"kirdanzug.h\"
static uint64_t answer[3];
static uint32_t table[10], card[6], observations[1], actions[1];
void begin(void);
void begin(void)
{
    kirdanzug_check_card(card, 6, answer);
    kirdanzug_open(card, 6, 0, answer);
    kirdanzug_step(card, 6, 0, 0, answer);
    kirdanzug_run(card, 6, observations, 1, actions, 1, answer);
    kirdanzug_show(table, 10, card, 6, 0, answer);
}
";

/// What runs a card needs nothing from outside: it is linked without the C library. (Where a function
/// needs memcpy the linker says so: the same program with kirdanzug_rewrite is not linked.)
#[test]
fn what_runs_a_card_needs_nothing() {
    let folder = folder("bare");
    let link = "cc -std=c11 -Wall -Wextra -Iinclude -nostdlib -static -Wl,--gc-sections -Wl,-e,begin -o bare bare.c \
                crates/abi/out/libabi.a";
    std::fs::write(folder.join("bare.c"), BARE).expect("the file can be written");
    run_line(&folder, link);
    let more = BARE.replace("kirdanzug_show(table, 10, card, 6, 0,", "kirdanzug_rewrite(table, 10, actions, 1,");
    std::fs::write(folder.join("bare.c"), more).expect("the file can be written");
    run_line(&folder, &format!("if {link} 2>complaint; then exit 1; else grep -q memcpy complaint; fi"));
}
