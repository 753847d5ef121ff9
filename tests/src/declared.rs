//! The C interface as texts: what the header declares, what the proved source exports, and what Rust
//! code declares of it. All three are put into C's words, so that they can be compared.

use std::collections::{BTreeMap, BTreeSet};
use std::fs;
use std::path::{Path, PathBuf};

/// A type and a name, as `const uint32_t *` and `slow`.
pub type Field = (String, String);

/// A function's answer and its parameters in order.
#[derive(Clone, Debug, PartialEq, Eq)]
pub struct Function {
    pub answer: String,
    pub parameters: Vec<Field>,
}

#[derive(Debug, Default, PartialEq, Eq)]
pub struct Interface {
    pub functions: BTreeMap<String, Function>,
    pub structs: BTreeMap<String, Vec<Field>>,
}

/// The repository's folder.
pub fn repository() -> PathBuf {
    Path::new(env!("CARGO_MANIFEST_DIR")).join("..")
}

pub fn read(path: impl AsRef<Path>) -> String {
    let path = repository().join(path);
    fs::read_to_string(&path).unwrap_or_else(|e| panic!("{}: {}", path.display(), e))
}

/// The files of a folder and of those below it that end with `ending`, without those that `rt` keeps in a folder out/.
pub fn files(folder: &Path, ending: &str) -> Vec<PathBuf> {
    let mut found = Vec::new();
    for entry in fs::read_dir(folder).unwrap_or_else(|e| panic!("{}: {}", folder.display(), e)) {
        let path = entry.expect("an entry of a folder").path();
        if path.is_dir() {
            if !path.ends_with("out") {
                found.extend(files(&path, ending));
            }
        } else if path.to_string_lossy().ends_with(ending) {
            found.push(path);
        }
    }
    found.sort();
    found
}

/// What `include/murgolab.h` declares.
pub fn header() -> Interface {
    let mut interface = Interface::default();
    let text = without_comments(&read("include/murgolab.h"));
    let mut words = Words::new(&without_directives(&text));
    while let Some(word) = words.next() {
        if word == "typedef" {
            words.expect(&["struct", "{"]);
            let fields = c_fields(&mut words);
            let name = words.word();
            words.expect(&[";"]);
            assert_eq!(interface.structs.insert(name.clone(), fields), None, "{} is declared twice", name);
        } else if word == "enum" {
            // the refusal table: see `refusals`
            while !words.take(&["}", ";"]) {
                words.next().expect("an enum's end");
            }
        } else {
            let name = words.word();
            let parameters = c_parameters(&mut words);
            words.expect(&[";"]);
            add(&mut interface, name, Function { answer: word, parameters });
        }
    }
    interface
}

/// A line of the refusal table.
#[derive(Clone, Debug, PartialEq, Eq)]
pub struct Refusal {
    pub number: u32,
    pub name: String,
    pub words: String,
}

/// The refusal table: the header's enum, each name with the words of its comment.
pub fn refusals() -> Vec<Refusal> {
    let header = read("include/murgolab.h");
    let behind = header.split("enum murgolab_refusal {").nth(1).expect("the refusal table");
    let table = behind.split("};").next().expect("its lines");
    let lines = table.split("*/").filter(|line| !line.trim().is_empty());
    lines.map(|line| refusal_of(line).unwrap_or_else(|| panic!("{} is no line of the table", line))).collect()
}

/// `NAME = number, /* words`
fn refusal_of(line: &str) -> Option<Refusal> {
    let (entry, words) = line.split_once("/*")?;
    let (name, number) = entry.split_once('=')?;
    let number = number.trim().trim_end_matches(',').parse().ok()?;
    Some(Refusal { number, name: name.trim().to_string(), words: folded(words) })
}

/// Words with one space between, without backticks and what begins a comment's line.
pub fn folded(text: &str) -> String {
    let words = text.split_whitespace().filter(|word| *word != "*");
    words.collect::<Vec<_>>().join(" ").replace('`', "")
}

/// A function that others call: what C sees of it, and the kinds of its contract's clauses in order, as `ensures`.
#[derive(Clone, Debug, PartialEq, Eq)]
pub struct Export {
    pub name: String,
    pub function: Function,
    pub clauses: Vec<String>,
}

/// The exports of the crate murgolab_c.
pub fn exports() -> Vec<Export> {
    let sources = files(&repository().join("crates/murgolab_c/src"), ".rt");
    sources.iter().flat_map(|source| exports_in(&read(source))).collect()
}

/// The exports of a source in Rattle.
pub fn exports_in(source: &str) -> Vec<Export> {
    let mut words = Words::new(&without_comments(source));
    let mut found = Vec::new();
    let mut mangled = true;
    while let Some(word) = words.next() {
        match word.as_str() {
            "no_mangle" => mangled = false,
            "extern" => {
                words.expect(&["\"", "C", "\"", "fn"]);
                let name = words.word();
                assert!(!mangled, "{} has no `#[unsafe(no_mangle)]`", name);
                mangled = true;
                let function = rust_function(&mut words);
                found.push(Export { name, function, clauses: clauses(&mut words) });
            }
            _ => {}
        }
    }
    found
}

/// What the crate murgolab_c exports, with the structs that its functions name.
pub fn exported() -> Interface {
    let mut interface = Interface::default();
    for export in exports() {
        add(&mut interface, export.name, export.function);
    }
    let mut structs = structs_in("crates", ".rt");
    let named: BTreeSet<String> = interface.functions.values().flat_map(types).filter_map(struct_in).collect();
    structs.retain(|name, _| named.contains(name));
    Interface { structs, ..interface }
}

/// What the `extern "C"` blocks of the Rust files of a folder declare.
pub fn declared_in(folder: &str) -> BTreeMap<String, Function> {
    let mut interface = Interface::default();
    for file in files(&repository().join(folder), ".rs") {
        let mut words = Words::new(&without_comments(&read(file)));
        while let Some(word) = words.next() {
            if word == "extern" && words.take(&["\"", "C", "\"", "{"]) {
                while !words.take(&["}"]) {
                    words.take(&["pub"]);
                    words.expect(&["fn"]);
                    let name = words.word();
                    let function = rust_function(&mut words);
                    words.expect(&[";"]);
                    add(&mut interface, name, function);
                }
            }
        }
    }
    interface.functions
}

fn add(interface: &mut Interface, name: String, function: Function) {
    let before = interface.functions.insert(name.clone(), function);
    assert_eq!(before, None, "{} is declared twice", name);
}

fn types(function: &Function) -> Vec<String> {
    let parameters = function.parameters.iter().map(|(kind, _)| kind.clone());
    parameters.chain([function.answer.clone()]).collect()
}

/// The struct's name in a type, without its `const` and `*`.
fn struct_in(kind: String) -> Option<String> {
    kind.split(' ').find(|word| word.starts_with("murgolab_")).map(String::from)
}

/// The structs with C's layout that the files of a folder have, under their C names.
pub fn structs_in(folder: &str, ending: &str) -> BTreeMap<String, Vec<Field>> {
    let mut found = BTreeMap::new();
    for file in files(&repository().join(folder), ending) {
        let mut words = Words::new(&without_comments(&read(file)));
        let mut in_c = false;
        while let Some(word) = words.next() {
            match word.as_str() {
                "repr" => in_c = words.take(&["(", "C", ")"]),
                "struct" if in_c => {
                    in_c = false;
                    let name = c_type(&words.word());
                    words.expect(&["{"]);
                    let before = found.insert(name.clone(), rust_fields(&mut words));
                    assert_eq!(before, None, "{} is there twice in {}", name, folder);
                }
                _ => {}
            }
        }
    }
    found
}

/// A number's type, or a struct's, in C's words.
fn c_type(rust: &str) -> String {
    match rust {
        "u8" => "uint8_t".to_string(),
        "u32" => "uint32_t".to_string(),
        "i32" => "int32_t".to_string(),
        "u64" => "uint64_t".to_string(),
        "f32" => "float".to_string(),
        "usize" => "size_t".to_string(),
        name => format!("murgolab{}", name.chars().map(lowered).collect::<String>()),
    }
}

/// A capital begins a word: `TurnReply` is `_turn_reply`.
fn lowered(sign: char) -> String {
    if sign.is_uppercase() {
        format!("_{}", sign.to_lowercase())
    } else {
        sign.to_string()
    }
}

/// `( name : type , .. ) -> type`; a slice is a pointer and a length.
fn rust_function(words: &mut Words) -> Function {
    words.expect(&["("]);
    let mut parameters = Vec::new();
    while !words.take(&[")"]) {
        let name = words.word();
        words.expect(&[":"]);
        if words.take(&["&"]) {
            let pointer = if words.take(&["mut"]) { "" } else { "const " };
            words.expect(&["["]);
            parameters.push((format!("{}{} *", pointer, rust_type(words)), name.clone()));
            words.expect(&["]"]);
            parameters.push(("size_t".to_string(), format!("{}_len", name)));
        } else if words.take(&["*", "const"]) {
            parameters.push((format!("const {} *", rust_type(words)), name));
        } else if words.take(&["*", "mut"]) {
            parameters.push((format!("{} *", rust_type(words)), name));
        } else {
            parameters.push((rust_type(words), name));
        }
        words.take(&[","]);
    }
    words.expect(&["-", ">"]);
    Function { answer: rust_type(words), parameters }
}

/// `kind { .. }` or `kind name { .. }`, also `kind* ..` and `kind name: ..`, any number of them, and the body's `{`: the
/// kinds.
fn clauses(words: &mut Words) -> Vec<String> {
    let mut kinds = Vec::new();
    while !words.take(&["{"]) {
        kinds.push(words.word());
        words.take(&["*"]);
        if !words.take(&["{"]) {
            words.word();
            words.take(&[":"]);
            words.expect(&["{"]);
        }
        let mut open = 1;
        while open > 0 {
            match words.next().expect("a clause's end").as_str() {
                "{" => open += 1,
                "}" => open -= 1,
                _ => {}
            }
        }
    }
    kinds
}

/// A type's last name, as `Reply` of `eikonal::Reply`, in C's words.
fn rust_type(words: &mut Words) -> String {
    let mut name = words.word();
    while words.take(&[":", ":"]) {
        name = words.word();
    }
    c_type(&name)
}

/// `pub name : type , .. }`
fn rust_fields(words: &mut Words) -> Vec<Field> {
    let mut fields = Vec::new();
    while !words.take(&["}"]) {
        words.expect(&["pub"]);
        let name = words.word();
        words.expect(&[":"]);
        fields.push((rust_type(words), name));
        words.take(&[","]);
    }
    fields
}

/// `type name , name ; .. }`
fn c_fields(words: &mut Words) -> Vec<Field> {
    let mut fields = Vec::new();
    while !words.take(&["}"]) {
        let kind = words.word();
        fields.push((kind.clone(), words.word()));
        while words.take(&[","]) {
            fields.push((kind.clone(), words.word()));
        }
        words.expect(&[";"]);
    }
    fields
}

/// `( const type * name , .. )`
fn c_parameters(words: &mut Words) -> Vec<Field> {
    words.expect(&["("]);
    let mut parameters = Vec::new();
    while !words.take(&[")"]) {
        let lead = if words.take(&["const"]) { "const " } else { "" };
        let kind = words.word();
        let star = if words.take(&["*"]) { " *" } else { "" };
        parameters.push((format!("{}{}{}", lead, kind, star), words.word()));
        words.take(&[","]);
    }
    parameters
}

fn without_comments(text: &str) -> String {
    let mut rest = text;
    let mut kept = String::new();
    while let Some(at) = rest.find("/*").into_iter().chain(rest.find("//")).min() {
        kept += &rest[..at];
        let end = if rest[at..].starts_with("/*") { "*/" } else { "\n" };
        let behind = rest[at..].find(end).map_or(rest.len(), |long| at + long + end.len());
        rest = &rest[behind..];
        kept.push('\n');
    }
    kept + rest
}

/// A header without preprocessor lines and without what stands there for C++ alone.
fn without_directives(text: &str) -> String {
    let mut kept = String::new();
    let mut for_cpp = false;
    for line in text.lines() {
        if line.starts_with('#') {
            for_cpp = line.contains("__cplusplus");
        } else if !for_cpp {
            kept += line;
            kept.push('\n');
        }
    }
    kept
}

/// Names, numbers and single signs, one after another.
struct Words {
    all: Vec<String>,
    at: usize,
}

impl Words {
    fn new(text: &str) -> Words {
        let mut all: Vec<String> = Vec::new();
        let mut in_word = false;
        for sign in text.chars() {
            let goes_on = sign.is_alphanumeric() || sign == '_';
            match all.last_mut() {
                Some(word) if goes_on && in_word => word.push(sign),
                _ if !sign.is_whitespace() => all.push(sign.to_string()),
                _ => {}
            }
            in_word = goes_on;
        }
        Words { all, at: 0 }
    }

    fn next(&mut self) -> Option<String> {
        self.at += 1;
        self.all.get(self.at - 1).cloned()
    }

    /// The next word, which must be a name.
    fn word(&mut self) -> String {
        match self.next() {
            Some(word) if word.chars().all(|sign| sign.is_alphanumeric() || sign == '_') => word,
            other => panic!("{:?} where a name is due, behind {:?}", other, self.behind()),
        }
    }

    /// Whether these words come next; if so they are passed.
    fn take(&mut self, words: &[&str]) -> bool {
        let next = self.all.iter().skip(self.at).take(words.len());
        let same = next.clone().count() == words.len() && next.zip(words).all(|(a, b)| a == b);
        self.at += if same { words.len() } else { 0 };
        same
    }

    fn expect(&mut self, words: &[&str]) {
        assert!(self.take(words), "{:?} is due behind {:?}", words, self.behind());
    }

    /// A few words before the place, for messages.
    fn behind(&self) -> String {
        let end = self.at.min(self.all.len());
        self.all[end.saturating_sub(8)..end].join(" ")
    }
}
