//! Every name that the documents cite is there: a definition, a law, a function or a field by its declaration, a file by its path, a
//! must-fail edit by its file. A name that is cited with a file is declared in that file. A law that is renamed or moved and not
//! followed in the documents fails here. Decisions are numbered, and lines of prose end by column 100.
use std::collections::{BTreeMap, BTreeSet};
use std::fs;
use std::path::{Path, PathBuf};

/// The documents that cite names.
const DOCUMENTS: [&str; 12] = [
    "README.md",
    "docs/AUDIT.md",
    "docs/BOUNDS.md",
    "docs/C.md",
    "docs/CHECKER.md",
    "docs/CLAIMS.md",
    "docs/DECISIONS.md",
    "docs/DESK.md",
    "docs/REPORT.md",
    "docs/RULES.md",
    "docs/RUST.md",
    "docs/SHAMS.md",
];

/// Where names are declared: folders, and the endings of their files.
const FILES: [(&str, &str); 7] = [
    ("crates", "antt"),
    ("crates", "rt"),
    ("crates", "edit"),
    ("host", "rs"),
    ("host/c", "c"),
    ("include", "h"),
    ("tools", "py"),
];

/// The crates that the store is parted into.
const STORE: [&str; 4] = ["reads", "checker", "writer", "store"];

/// Words in code type that name nothing of the repository: of the language, the tools, and programs' streams.
const FOREIGN: [&str; 20] = [
    "Cargo.toml",
    "Err",
    "Mutex",
    "Result",
    "String",
    "apt-get",
    "cargo",
    "ensures",
    "false",
    "gcc-x86-64-linux-gnu",
    "match",
    "mv",
    "qemu-user",
    "requires",
    "rt",
    "rustc",
    "stdin",
    "stdout",
    "touch",
    "unsafe",
];

fn root() -> PathBuf {
    Path::new(env!("CARGO_MANIFEST_DIR")).parent().expect("the repository").to_path_buf()
}

fn read(path: &Path) -> String {
    fs::read_to_string(path).unwrap_or_else(|error| panic!("{}: {error}", path.display()))
}

/// The files below a folder with this ending, but for what a check has left in folders `out`.
fn files(folder: &Path, ending: &str, found: &mut Vec<PathBuf>) {
    let entries = fs::read_dir(folder).unwrap_or_else(|error| panic!("{}: {error}", folder.display()));
    for entry in entries {
        let path = entry.expect("an entry of a folder").path();
        if path.is_dir() {
            if !path.ends_with("out") {
                files(&path, ending, found);
            }
        } else if path.extension().map_or(false, |e| e == ending) {
            found.push(path);
        }
    }
}

/// The name that a line of a definition or law file declares, if it declares one.
fn declared_law(line: &str) -> Option<&str> {
    let mut rest = line.trim_start();
    for word in ["abbrev ", "unfoldable ", "pub ", "record ", "data ", "mod "] {
        rest = rest.strip_prefix(word).unwrap_or(rest);
    }
    let end = rest.find(' ')?;
    let (name, behind) = rest.split_at(end);
    let declares =
        [" :", " {"].iter().any(|sign| behind.starts_with(sign)) || line.contains("record ") || line.contains("data ");
    (declares && !name.starts_with('-')).then_some(name)
}

fn is_of_word(c: char) -> bool {
    c.is_ascii_alphanumeric() || c == '_'
}

/// The word that a piece of text begins with.
fn first_word(piece: &str) -> String {
    piece.chars().take_while(|&c| is_of_word(c)).collect()
}

/// The word that a piece of text ends with.
fn last_word(piece: &str) -> String {
    piece.rsplit(|c| !is_of_word(c)).next().unwrap_or_default().to_string()
}

/// The names that a file of code declares: what follows these words, the fields of structs, the cases of an enum that have
/// numbers, and what it hands on from others.
fn declared_code(text: &str, names: &mut BTreeSet<String>) {
    for word in ["fn ", "struct ", "enum ", "trait ", "const ", "mod ", "type ", "as ", "pub "] {
        names.extend(text.match_indices(word).map(|(at, _)| first_word(&text[at + word.len()..])));
    }
    names.extend(text.lines().filter_map(numbered_case));
    for handed_on in format!("\n{text}").split("\npub use ").skip(1).filter_map(|rest| rest.split(';').next()) {
        let last = handed_on.rsplit("::").next().unwrap_or_default();
        let words = last.split(|c: char| !is_of_word(c));
        names.extend(words.filter(|word| !word.is_empty() && *word != "as").map(String::from));
    }
}

/// The names that a C file declares: macros, structs and enums, the constants of an enum that have numbers, typedefs, and
/// functions, whose lines begin at the margin.
fn declared_c(text: &str, names: &mut BTreeSet<String>) {
    for word in ["#define ", "struct ", "enum "] {
        names.extend(text.match_indices(word).map(|(at, _)| first_word(&text[at + word.len()..])));
    }
    names.extend(text.lines().filter_map(numbered_case));
    for line in text.lines().filter(|line| line.starts_with("typedef ") || line.starts_with("} ")) {
        names.extend(line.split_once(';').map(|(before, _)| last_word(before)));
    }
    for line in text.lines().filter(|line| line.starts_with(|c: char| c.is_ascii_alphabetic())) {
        names.extend(line.split_once('(').map(|(before, _)| last_word(before)));
    }
}

/// The name of a line that reads: name = number, with or without the comma.
fn numbered_case(line: &str) -> Option<String> {
    let (name, number) = line.trim().split_once(" = ")?;
    let is_case = name.chars().all(is_of_word) && first_word(number).parse::<u32>().is_ok();
    is_case.then(|| name.to_string())
}

/// What each file of the crates, of the hosts and of the tools declares.
fn declarations() -> BTreeMap<PathBuf, BTreeSet<String>> {
    let mut all = BTreeMap::new();
    for (folder, ending) in FILES {
        let mut found = Vec::new();
        files(&root().join(folder), ending, &mut found);
        for path in found {
            let text = read(&path);
            let mut names = BTreeSet::new();
            match ending {
                "antt" => names.extend(text.lines().filter_map(declared_law).map(String::from)),
                "h" | "c" => declared_c(&text, &mut names),
                _ => declared_code(&text, &mut names),
            }
            all.insert(path, names);
        }
    }
    all
}

/// All that is declared anywhere, and what the files are called.
fn declared() -> BTreeSet<String> {
    let mut all = BTreeSet::new();
    for (path, names) in declarations() {
        all.extend(names);
        all.insert(path.file_name().expect("a file's name").to_string_lossy().into_owned());
        all.insert(path.file_stem().expect("a file's name").to_string_lossy().into_owned());
    }
    all
}

/// Whether a piece in code type can be a name: one word of letters, digits, hyphens, underscores, primes and dots.
fn is_name(piece: &str) -> bool {
    piece.len() > 1
        && piece.starts_with(|c: char| c.is_ascii_alphabetic())
        && piece.chars().all(|c| c.is_ascii_alphanumeric() || "-_'.".contains(c))
        && piece.contains(|c: char| c.is_ascii_lowercase())
}

/// Whether a piece in code type is a file or a folder of the crates, of the hosts or of the header, by its path or by a file's name alone.
fn is_place(piece: &str) -> bool {
    let is_path = ["crates/", "host/", "include/"].iter().any(|folder| piece.starts_with(folder));
    let is_file = [".antt", ".rt", ".rs", ".h", ".c"].iter().any(|ending| piece.ends_with(ending));
    (is_path || is_file) && !piece.contains(char::is_whitespace)
}

/// The names that a document cites.
fn cited(text: &str) -> BTreeSet<String> {
    text.split("```")
        .step_by(2)
        .flat_map(|prose| prose.split('`').skip(1).step_by(2))
        .filter(|piece| is_name(piece))
        .map(String::from)
        .collect()
}

/// A name, and where a document says that it stands.
type Standing = (String, String);

/// The names that a document cites with a file: `a`, `b` in `file`; `a` and `b` (`file`); `file` `a`, `b`; and two cells of a table
/// with a file in the first and its names in the second.
fn standing_in_prose(text: &str) -> Vec<Standing> {
    let is_named = |piece: &str| is_name(piece) && !is_place(piece);
    let mut found = Vec::new();
    for prose in text.split("```").step_by(2) {
        // text and code type by turns: code type has the odd places
        let pieces: Vec<&str> = prose.split('`').map(str::trim).collect();
        let is_list = |between: &str| [",", "and", ", and"].contains(&between);
        for at in (1..pieces.len()).step_by(2).filter(|&at| is_place(pieces[at])) {
            let mut names = Vec::new();
            if at > 2 && ["in", "("].contains(&pieces[at - 1]) {
                let mut k = at - 2;
                names.push(pieces[k]);
                while k > 2 && is_list(pieces[k - 1]) {
                    k -= 2;
                    names.push(pieces[k]);
                }
            }
            if at + 2 < pieces.len() && ["", "|"].contains(&pieces[at + 1]) {
                let mut k = at + 2;
                names.push(pieces[k]);
                while k + 2 < pieces.len() && is_list(pieces[k + 1]) {
                    k += 2;
                    names.push(pieces[k]);
                }
            }
            let named = names.into_iter().filter(|name| is_named(name));
            found.extend(named.map(|name| (name.to_string(), pieces[at].to_string())));
        }
    }
    found
}

/// The files that docs/CLAIMS.md means by a short name, as the table at its top says.
fn short(kind: &str, name: &str) -> Vec<String> {
    let (folder, ending) = match kind {
        "def" => ("specs", "antt"),
        "law" => ("proofs", "antt"),
        _ => ("src", "rt"),
    };
    let places = match (kind, name, name.split_once('/')) {
        (_, _, Some((owner, name))) => vec![format!("crates/{owner}/{folder}/{name}.{ending}")],
        ("code", "lib", _) => vec!["crates/rules/src/lib.rt".to_string()],
        ("code", "checker" | "store" | "job" | "report" | "reader" | "disk" | "card_store", _) => {
            vec![format!("crates/{name}/src/lib.rt")]
        }
        ("code", _, _) => STORE.iter().map(|owner| format!("crates/{owner}/src/{name}.rt")).collect(),
        _ => ["rules", "model", "reader"]
            .iter()
            .chain(&STORE)
            .filter(|owner| kind == "def" || **owner != "reader")
            .map(|owner| format!("crates/{owner}/{folder}/{name}.{ending}"))
            .collect(),
    };
    places.into_iter().filter(|place| root().join(place).is_file()).collect()
}

/// The names that a cell of docs/CLAIMS.md cites with a file: a kind, the short name of a file, names, as in def Model `size`.
/// A kind holds until the next one, a file until a word that is no part of a list, or a semicolon or a colon. What stands in
/// brackets begins without a file.
fn standing_in_claim(cell: &str) -> Vec<(String, Vec<String>)> {
    let mut kind = "";
    let mut files: Vec<String> = Vec::new();
    let mut outside = Vec::new();
    let mut found = Vec::new();
    for (at, piece) in cell.split('`').enumerate() {
        if at % 2 == 1 {
            if !files.is_empty() && is_name(piece) && !is_place(piece) {
                found.push((piece.to_string(), files.clone()));
            }
            continue;
        }
        let spaced =
            ["(", ")", ";", ":", ","].iter().fold(piece.to_string(), |t, sign| t.replace(sign, &format!(" {sign} ")));
        for word in spaced.split_whitespace() {
            match word {
                "def" => kind = "def",
                "law" => kind = "law",
                "code" => kind = "code",
                "(" => outside.push(std::mem::take(&mut files)),
                ")" => files = outside.pop().unwrap_or_default(),
                "," | "and" | "to" | "field" | "fields" => {}
                _ => {
                    files = short(kind, word);
                    if files.is_empty() && word.starts_with(|c: char| c.is_ascii_uppercase()) {
                        files = ["def", "law"].iter().flat_map(|kind| short(kind, word)).collect();
                    }
                }
            }
        }
    }
    found
}

/// The paths that a document cites: pieces in code type with a slash and no space.
fn cited_paths(text: &str) -> BTreeSet<String> {
    let is_path = |piece: &&str| {
        ["crates/", "docs/", "host/", "examples/", "include/", "tools/", ".ci/"]
            .iter()
            .any(|folder| piece.starts_with(folder))
            && !piece.contains(|c: char| c.is_whitespace())
            && !piece.contains("NAME")
            && !piece.contains("CRATE")
    };
    text.split('`').skip(1).step_by(2).filter(is_path).map(String::from).collect()
}

/// The must-fail edits that the tables of a document cite as `CRATE edit NAME, NAME`, each with its crate.
fn cited_edits(text: &str) -> BTreeSet<(String, String)> {
    let mut edits = BTreeSet::new();
    for cell in text.lines().filter(|line| line.starts_with('|')).flat_map(|line| line.split(['|', ';'])) {
        for word in [" edit ", " edits "] {
            if let Some((before, names)) = cell.split_once(word) {
                let owner = before.trim().trim_end_matches('`').rsplit([' ', '`', '(']).next().unwrap_or_default();
                if !owner.is_empty() && root().join("crates").join(owner).is_dir() {
                    edits.extend(
                        names
                            .trim_end_matches([')', ' '])
                            .split(", ")
                            .map(|name| (owner.to_string(), name.to_string())),
                    );
                }
            }
        }
    }
    edits
}

#[test]
fn names_of_c_are_known() {
    let text = "#define A 1\ntypedef struct b {\n    int x;\n} c;\ntypedef int d;\nenum e {\n    F = 2, /* g (h */\n};\nint i(\n    int j);\n";
    let mut names = BTreeSet::new();
    declared_c(text, &mut names);
    for name in ["A", "b", "c", "d", "e", "F", "i"] {
        assert!(names.contains(name), "{name} is not among {names:?}");
    }
    assert!(stands(&declarations(), "reader_code", "include/reader.h"));
}

#[test]
fn names_are_declared() {
    let declared = declared();
    let is_folder = |name: &str| {
        root().join("crates").join(name).is_dir()
            || root().join("crates/rules").join(name).is_dir()
            || root().join(name).exists()
    };
    let mut missing = Vec::new();
    for document in DOCUMENTS {
        for name in cited(&read(&root().join(document))) {
            if !declared.contains(&name) && !FOREIGN.contains(&name.as_str()) && !is_folder(&name) {
                missing.push(format!("{document}: {name}"));
            }
        }
    }
    assert!(missing.is_empty(), "cited and not declared: {missing:#?}");
}

/// Whether a file, or one of the files of this name or below this folder, declares a name.
fn stands(declarations: &BTreeMap<PathBuf, BTreeSet<String>>, name: &str, place: &str) -> bool {
    let is_file_name = !place.contains('/');
    declarations.iter().any(|(path, names)| {
        let is_there = if is_file_name {
            path.file_name().map_or(false, |file| file == place)
        } else {
            path.starts_with(root().join(place))
        };
        is_there && names.contains(name)
    })
}

#[test]
fn names_stand_in_their_files() {
    let declarations = declarations();
    let mut missing = Vec::new();
    let mut count = 0;
    for document in DOCUMENTS {
        for (name, place) in standing_in_prose(&read(&root().join(document))) {
            count += 1;
            if !stands(&declarations, &name, &place) {
                missing.push(format!("{document}: {name} in {place}"));
            }
        }
    }
    assert!(count > 100, "only {count} names are cited with a file");
    assert!(missing.is_empty(), "cited with a file that does not declare it: {missing:#?}");
}

#[test]
fn claims_stand_in_their_files() {
    let declarations = declarations();
    let mut missing = Vec::new();
    let mut count = 0;
    let claims = read(&root().join("docs/CLAIMS.md"));
    for cell in claims.lines().filter(|line| line.starts_with("| ")).filter_map(|line| line.split(" | ").nth(1)) {
        for (name, places) in standing_in_claim(cell) {
            count += 1;
            if !places.iter().any(|place| stands(&declarations, &name, place)) {
                missing.push(format!("{name} in {}", places.join(", ")));
            }
        }
    }
    assert!(count > 400, "only {count} names are cited with a file");
    assert!(missing.is_empty(), "docs/CLAIMS.md cites with a file that does not declare it: {missing:#?}");
}

#[test]
fn paths_exist() {
    for document in DOCUMENTS {
        for path in cited_paths(&read(&root().join(document))) {
            assert!(root().join(&path).exists(), "{document}: there is no {path}");
        }
    }
}

#[test]
fn edits_exist() {
    let mut count = 0;
    for document in DOCUMENTS {
        for (owner, name) in cited_edits(&read(&root().join(document))) {
            let path = root().join(format!("crates/{owner}/must-fail/{name}.edit"));
            assert!(path.exists(), "{document}: there is no edit {name} of {owner}");
            count += 1;
        }
    }
    assert!(count > 20, "only {count} edits are cited");
}

/// The numbers of the entries of docs/DECISIONS.md, in the order in which they stand: an item of a list, or a paragraph, that begins
/// with its title in bold type. An entry without a number is 0.
fn decisions() -> Vec<usize> {
    let text = read(&root().join("docs/DECISIONS.md"));
    let mut numbers = Vec::new();
    for line in text.lines() {
        let title = line.trim_start_matches("**");
        let before = title.split_once(". ").map_or("", |(before, _)| before);
        match before.parse() {
            Ok(number) => numbers.push(number),
            Err(_) if line.starts_with("**") => numbers.push(0),
            Err(_) => {}
        }
    }
    numbers
}

#[test]
fn decisions_are_numbered() {
    let numbers = decisions();
    let mut sorted = numbers.clone();
    sorted.sort_unstable();
    let through: Vec<usize> = (1..=numbers.len()).collect();
    assert_eq!(sorted, through, "each decision has a number of its own, and none is left out");
}

#[test]
fn cited_decisions_are_there() {
    let numbers = decisions();
    for (document, sign) in [("docs/RULES.md", "(D "), ("docs/CLAIMS.md", "`docs/DECISIONS.md` ")] {
        let text = read(&root().join(document));
        for (at, _) in text.match_indices(sign) {
            let digits: String = text[at + sign.len()..].chars().take_while(char::is_ascii_digit).collect();
            let number = digits.parse().unwrap_or_else(|_| panic!("{document}: no number behind {sign}"));
            assert!(numbers.contains(&number), "{document}: there is no decision {number}");
        }
    }
}

/// The numbers of the sections of docs/RULES.md.
fn sections() -> BTreeSet<usize> {
    let text = read(&root().join("docs/RULES.md"));
    text.lines()
        .filter_map(|line| line.strip_prefix("## ")?.split_once(' '))
        .filter_map(|(number, _)| number.parse().ok())
        .collect()
}

#[test]
fn claims_cite_sections_of_the_rules() {
    let sections = sections();
    let claims = read(&root().join("docs/CLAIMS.md"));
    for heading in claims.lines().filter(|line| line.starts_with("## ")) {
        let (_, behind) = heading.split_once("(RULES.md").unwrap_or_else(|| panic!("{heading} cites no section"));
        for number in behind.split(|c: char| !c.is_ascii_digit()).filter_map(|word| word.parse().ok()) {
            assert!(sections.contains(&number), "{heading}: there is no section {number}");
        }
    }
}

#[test]
fn prose_ends_by_column_100() {
    let mut long = Vec::new();
    for document in DOCUMENTS.iter().chain(&["docs/JOB.md"]) {
        for (at, line) in read(&root().join(document)).lines().enumerate() {
            if line.chars().count() > 100 && !line.trim_start().starts_with('|') {
                long.push(format!("{document}:{}", at + 1));
            }
        }
    }
    assert!(long.is_empty(), "lines of prose over 100 columns: {long:#?}");
}

/// The definition files that docs/AUDIT.md asks to be read: the first cells of its table. A name without a folder stands in the folder of
/// the file before it, and a folder stands for all of its files, but for those that are named behind it.
fn reading_list() -> BTreeSet<PathBuf> {
    let audit = read(&root().join("docs/AUDIT.md"));
    let section = audit.split("\n## ").find(|part| part.starts_with("What has to be read")).expect("the section");
    let mut list = BTreeSet::new();
    for cell in section.lines().filter(|line| line.starts_with("| `")).filter_map(|line| line.split('|').nth(1)) {
        let mut folder = root();
        let mut left_out = false;
        for (at, piece) in cell.split('`').enumerate() {
            if at % 2 == 0 {
                left_out = piece.contains("all but");
            } else if piece.contains('/') && !piece.ends_with(".antt") {
                folder = root().join(piece);
                let mut found = Vec::new();
                files(&folder, "antt", &mut found);
                list.extend(found.into_iter().filter(|path| path.file_name().map_or(true, |name| name != "Lib.antt")));
            } else {
                let path = if piece.contains('/') { root().join(piece) } else { folder.join(piece) };
                folder = path.parent().expect("a folder").to_path_buf();
                assert!(path.is_file(), "docs/AUDIT.md asks to read {piece}, which is not there");
                if left_out {
                    list.remove(&path);
                } else {
                    list.insert(path);
                }
            }
        }
    }
    assert!(list.len() > 20, "only {} files are to be read", list.len());
    list
}

/// How many lines there are to read, without comments and imports, docs/AUDIT.md says to the nearest fifty, at two places.
#[test]
fn lines_to_read_are_counted() {
    let is_read = |line: &&str| !line.is_empty() && !line.starts_with("--") && !line.starts_with("use ");
    let count: usize =
        reading_list().iter().map(|path| read(path).lines().map(str::trim).filter(is_read).count()).sum();
    let said = (count + 25) / 50 * 50;
    let said = format!("{},{:03} lines", said / 1000, said % 1000);
    let audit = read(&root().join("docs/AUDIT.md")).split_whitespace().collect::<Vec<_>>().join(" ");
    let places = audit.matches(&format!("some {said}")).count();
    assert_eq!(places, 2, "docs/AUDIT.md has to say twice that there are some {said} to read: {count}");
}

/// A definition that one of these files takes from another file stands in a file that is to be read, too.
#[test]
fn reading_list_lacks_nothing() {
    let list = reading_list();
    let mut missing = Vec::new();
    let mut count = 0;
    for path in &list {
        for line in read(path).lines().filter_map(|line| line.strip_prefix("use Rattle.")) {
            let mut parts = line.split(|c: char| !is_of_word(c));
            if let (Some(owner), Some("specs"), Some(module)) = (parts.next(), parts.next(), parts.next()) {
                if module == "declared" || !root().join("crates").join(owner).is_dir() {
                    continue;
                }
                count += 1;
                let from = root().join(format!("crates/{owner}/specs/{module}.antt"));
                if !list.contains(&from) {
                    missing.push(format!("{} takes from {}", path.display(), from.display()));
                }
            }
        }
    }
    assert!(count > 40, "only {count} imports are read");
    assert!(missing.is_empty(), "not among the files to be read: {missing:#?}");
}
