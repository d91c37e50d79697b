//! docs/PROMISES.md against the text of the proved crates: every public call has a row and a law, its row names the definitions that its contract
//! cites and the wrong bodies that were tried, its promise names all that is lent for writing, what is exported to C promises what its call does,
//! and every inner call that requires something has a row that names the crates of its callers.

use std::collections::BTreeMap;

use crate::pages::{declared, edits, folder, links, proved, quoted, quoted_in_order, read, Names};

const PUBLIC: [&str; 7] = [
    "fresh", "card", "entry", "compare", "turns", "cues", "ports",
];

/// A crate's files of code, each with the path of its functions: `sound::` for the root, `sound::tables::` for a module.
fn files(name: &str) -> Vec<(String, String)> {
    let modules = folder(&format!("crates/{name}/src"))
        .into_iter()
        .map(|file| {
            let module = file.trim_end_matches(".rt").to_string();
            let prefix = if ["lib", "main"].contains(&module.as_str()) {
                format!("{name}::")
            } else {
                format!("{name}::{module}::")
            };
            (prefix, read(&format!("crates/{name}/src/{file}")))
        });
    modules.collect()
}

/// The type whose methods an `impl` has: `Page` of `impl<const N: usize> Page<N> {`, `u8` of `impl From<Refusal> for u8 {`.
fn implemented(line: &str) -> Option<&str> {
    let behind = line.strip_prefix("impl")?;
    let mut depth = 0;
    let head = behind.find(|c| {
        depth += i32::from(c == '<') - i32::from(c == '>');
        depth == 0 && c == ' '
    })?;
    let of = behind[head + 1..].rsplit(" for ").next()?;
    of.split(['<', ' ']).next()
}

#[test]
fn an_impl_is_of_its_type() {
    let of = [
        ("impl Rack {", "Rack"),
        ("impl<'a> Turns<'a> {", "Turns"),
        ("impl<const N: usize> Page<N> {", "Page"),
        ("impl<const N: usize> Model for Page<N> {", "Page"),
        ("impl From<Refusal> for u8 {", "u8"),
    ];
    for (line, name) in of {
        assert_eq!(implemented(line), Some(name), "{line}");
    }
}

/// Every `pub fn` of a crate, with its head: all that stands before its body. A method is named with its type.
fn exported(name: &str) -> BTreeMap<String, String> {
    let mut found = BTreeMap::new();
    for (prefix, text) in files(name) {
        let (mut owner, mut open) = (String::new(), None);
        for line in text.lines() {
            let words: Vec<&str> = line.split_whitespace().collect();
            if let Some(of) = implemented(line) {
                owner = format!("{of}::");
            }
            if let Some(at) = words.iter().position(|word| *word == "fn") {
                let function = words[at + 1].split(['(', '<']).next().unwrap();
                let of = if line.starts_with(' ') {
                    owner.as_str()
                } else {
                    ""
                };
                open = (words[0] == "pub").then(|| format!("{prefix}{of}{function}"));
            }
            if let Some(call) = &open {
                let head: &mut String = found.entry(call.clone()).or_default();
                head.push_str(&format!("{line}\n"));
            }
            if line.ends_with('{') {
                open = None;
            }
        }
    }
    found
}

fn asks(head: &str) -> bool {
    head.contains("requires {")
}

/// The crates that call it, other than its own.
fn callers(call: &str) -> Names {
    let parts: Vec<&str> = call.split("::").collect();
    let (of, function) = (parts[parts.len() - 2], parts[parts.len() - 1]);
    let mut written = vec![format!("{of}::{function}(")];
    if of.starts_with(char::is_uppercase) {
        written.push(format!(".{function}("));
    }
    let calls = |text: &String| written.iter().any(|call| text.contains(call));
    let others = folder("crates").into_iter().filter(|name| name != parts[0]);
    others
        .filter(|name| files(name).iter().any(|(_, text)| calls(text)))
        .collect()
}

/// The rows of the table under a heading: the calls of the first column, and all columns.
fn rows(heading: &str) -> Vec<(Names, Vec<String>)> {
    let page = read("docs/PROMISES.md");
    let part = page
        .split("\n## ")
        .find(|part| part.starts_with(heading))
        .unwrap();
    let rows = part.lines().filter(|line| line.starts_with("| "));
    let columns = rows.map(|line| {
        let row = line.trim_matches(['|', ' ']).split(" | ");
        row.map(str::to_string).collect::<Vec<_>>()
    });
    columns.map(|row| (quoted(&row[0]), row)).collect()
}

/// The rows of the public calls, each with its one call.
fn public_rows() -> Vec<(String, Vec<String>)> {
    let rows = [rows("The calls"), rows("What a firmware links")].concat();
    let of_calls = rows.into_iter().filter(|(calls, _)| !calls.is_empty());
    of_calls
        .map(|(calls, row)| {
            assert_eq!(calls.len(), 1, "{calls:?}");
            (calls.into_iter().next().unwrap(), row)
        })
        .collect()
}

fn calls(heading: &str) -> Names {
    rows(heading)
        .into_iter()
        .flat_map(|(calls, _)| calls)
        .collect()
}

/// A call's crate, and its function: `turns` and `Turns::over`.
fn parted(call: &str) -> (&str, &str) {
    call.split_once("::").expect(call)
}

/// The name that an import of a call's contract (`.specs.contracts.`), or of its code or theorem (`.proofs.`), has in a file. A method stands
/// below its type: `Rattle.turns.proofs.Turns.over`.
fn alias(text: &str, call: &str, inside: &str, theorem: &str) -> String {
    let (of, function) = parted(call);
    let function = function.replace("::", ".");
    let import = format!("use Rattle.{of}{inside}{function}{theorem} as ");
    let found = text.lines().find_map(|line| line.strip_prefix(&import));
    found.unwrap_or_else(|| panic!("{import}")).to_string()
}

/// The words of a clause or of a declaration's body.
fn words(text: &str) -> Vec<&str> {
    let words = text.split(|c: char| c.is_whitespace() || "(){};,".contains(c));
    words.collect()
}

/// A declaration with its body: what it is declared as, and the words behind that.
fn declaration<'a>(text: &'a str, name: &str) -> (&'a str, Vec<&'a str>) {
    let head = format!("{name} : ");
    let block = text
        .split("\n\n")
        .find_map(|block| Some(&block[block.find(&head)?..]))
        .unwrap_or_else(|| panic!("{name}"));
    let (kind, body) = block[head.len()..].split_once('\n').expect(name);
    (kind, words(body))
}

#[test]
fn every_public_call_has_a_row_and_a_law() {
    let told: Names = &calls("The calls") | &calls("What a firmware links");
    let public: BTreeMap<String, String> = PUBLIC.iter().flat_map(|name| exported(name)).collect();
    let free: Names = public
        .iter()
        .filter(|(_, head)| !asks(head))
        .map(|(call, _)| call.clone())
        .collect();
    assert_eq!(told, free);
    let promises = read("crates/promises/specs/Calls.antt");
    let laws = read("crates/promises/proofs/Once.antt");
    let mut kept = Names::new();
    for call in &told {
        let function = call.rsplit("::").next().unwrap();
        let (promise, law) = declaration(&laws, &format!("pub {function}_once"));
        let theorem = format!("{}.met", alias(&laws, call, ".proofs.", ".Met"));
        assert!(law.contains(&theorem.as_str()), "{theorem} in Once.antt");
        let promise = promise.strip_prefix("calls.").expect(call);
        let (_, mut said) = declaration(&promises, &format!("abbrev pub {promise}"));
        // What a firmware links is promised of any call, and then of this one.
        let by = format!("{promise}By");
        if said.contains(&by.as_str()) {
            let (kind, of_any) = declaration(&promises, &format!("abbrev pub {by}"));
            assert_eq!(kind, "Call → Type 2", "{by}");
            let ended = format!("{}.ended", alias(&promises, call, ".specs.contracts.", ""));
            let of_it = of_any.windows(2).any(|two| two == [ended.as_str(), "c"]);
            assert!(of_it, "{by} is of its call");
            said.extend(of_any);
        }
        let contract = alias(&promises, call, ".specs.contracts.", "");
        let code = alias(&promises, call, ".proofs.", "");
        for named in [
            format!("{contract}.ended"),
            format!("{code}.Symbol.code"),
            format!("{code}.Symbol.name"),
        ] {
            assert!(said.contains(&named.as_str()), "{named} in {promise}");
        }
        kept.insert(promise.to_string());
    }
    assert_eq!(kept.len(), told.len());
}

#[test]
fn every_row_names_what_the_contract_cites() {
    for (call, row) in public_rows() {
        let promise = &row[1];
        let head = exported(parted(&call).0)[&call].clone();
        let ensured = head.split_once("ensures {").expect(&call).1;
        let cited: Names = ensured
            .split(|c: char| c.is_whitespace() || "()".contains(c))
            .map(str::to_string)
            .collect();
        let linked: Names = links(promise).iter().flat_map(|to| declared(to)).collect();
        let theorems: Names = links(promise).iter().flat_map(|to| proved(to)).collect();
        let named = quoted(promise);
        assert!(
            !named.is_empty() || promise.starts_with("two equations"),
            "{call}: {promise}"
        );
        for name in named {
            // A theorem is about the definition that the contract cites.
            assert!(
                theorems.contains(&name) || cited.contains(&name),
                "{name} in {call}"
            );
            assert!(linked.contains(&name), "{name} of {call} in its files");
        }
    }
}

/// The edits that a text names, as `fresh/decisions_zero`.
fn named_edits(text: &str) -> Names {
    quoted_in_order(text)
        .into_iter()
        .filter(|name| {
            name.split_once('/').is_some_and(|(of, edit)| {
                folder("crates").contains(&of.to_string()) && !edit.contains('/')
            })
        })
        .collect()
}

/// A crate and all that it stands on.
fn below(name: &str) -> Names {
    let list = read("crates.txt");
    let head = format!("{name}:");
    let on = list.lines().find_map(|line| line.strip_prefix(&head));
    let on = on.unwrap_or_default().split_whitespace();
    let mut all: Names = on.flat_map(below).collect();
    all.insert(name.to_string());
    all
}

#[test]
fn every_row_names_wrong_bodies_that_were_tried() {
    let all: Names = folder("crates")
        .iter()
        .flat_map(|name| edits(name))
        .collect();
    let named = named_edits(&read("docs/PROMISES.md"));
    assert_eq!(&named - &all, Names::new(), "no such edits");
    let public: Names = PUBLIC.iter().flat_map(|name| edits(name)).collect();
    assert_eq!(&public - &named, Names::new(), "not in PROMISES.md");
    for (call, row) in public_rows() {
        let tried = named_edits(&row[3]);
        assert!(tried.len() >= 2, "{call} has two wrong bodies: {tried:?}");
        let below = below(parted(&call).0);
        for edit in tried {
            let of = edit.split('/').next().unwrap();
            assert!(below.contains(of), "{edit} of {call}");
        }
    }
}

#[test]
fn every_refusal_has_a_wrong_body_that_was_tried() {
    let rows = rows("Wrong bodies that were tried");
    for number in 1..=10 {
        let (_, row) = rows
            .iter()
            .find(|(_, row)| row[0] == number.to_string())
            .unwrap_or_else(|| panic!("refusal {number}"));
        assert!(!named_edits(&row[1]).is_empty(), "refusal {number}");
    }
}

#[test]
fn every_promise_names_what_is_lent_for_writing() {
    for (call, head) in PUBLIC.iter().flat_map(|name| exported(name)) {
        let head = head.replace("&mut self", "self: &mut Self");
        for (lent, _) in head.match_indices(": &mut ") {
            let name = head[..lent].rsplit([' ', '(']).next().unwrap();
            let at_exit = format!("{name}.new");
            assert!(words(&head).contains(&at_exit.as_str()), "{name} of {call}");
        }
    }
}

/// A static library exports what a library says, so each contract stands twice.
#[test]
fn what_is_exported_to_c_promises_what_its_call_does() {
    let of = |name: &str| -> BTreeMap<String, String> {
        let heads = exported(name).into_iter();
        heads
            .map(|(call, head)| {
                let function = parted(&call).1.to_string();
                (function, head.replace("extern \"C\" ", ""))
            })
            .collect()
    };
    let calls = of("ports");
    assert!(calls.len() >= 8, "{} calls", calls.len());
    assert_eq!(of("ports_c"), calls);
    for (_, text) in files("ports_c") {
        let body = |function: &String| text.contains(&format!("{{\n    ports::{function}("));
        let other: Vec<&String> = calls.keys().filter(|function| !body(function)).collect();
        assert!(other.is_empty(), "{other:?} do not call theirs");
    }
    // The law of an export is that of its call, of the export's own code and name.
    let called = read("crates/promises/proofs/Once.antt");
    let exported = read("crates/ports_c/proofs/Once.antt");
    for function in calls.keys() {
        let law = format!("pub {function}_once");
        let (promise, _) = declaration(&called, &law);
        let (promise_by, kept) = declaration(&exported, &law);
        let own = alias(&exported, &format!("ports_c::{function}"), ".proofs.", "");
        let call = format!("(calls.call {own}.Symbol.code {own}.Symbol.name)");
        assert_eq!(promise_by, format!("{promise}By {call}"));
        let theorem = format!("{own}.Met.met");
        assert!(kept.contains(&theorem.as_str()), "{theorem} in {law}");
    }
}

#[test]
fn every_inner_call_that_requires_something_has_a_row() {
    let asking = folder("crates")
        .into_iter()
        .flat_map(|name| exported(&name))
        .filter(|(_, head)| asks(head));
    let told: Names = asking
        .map(|(call, _)| call)
        .filter(|call| PUBLIC.contains(&parted(call).0) || !callers(call).is_empty())
        .collect();
    assert_eq!(calls("Inner calls"), told);
    let crates: Names = folder("crates").into_iter().collect();
    for (calls, row) in rows("Inner calls") {
        let by: Names = quoted(&row[row.len() - 1])
            .iter()
            .map(|name| name.split("::").next().unwrap().to_string())
            .collect();
        let true_callers: Names = calls.iter().flat_map(|call| callers(call)).collect();
        assert_eq!(&by & &crates, true_callers, "{calls:?}");
    }
}
