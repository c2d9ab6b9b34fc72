//! The boundary is written three times: include/inter.h, src/ffi.rs and the Rattle exports.
//! No compiler compares them, so this does: calls, parameters, types and records.

use std::collections::{BTreeMap, BTreeSet};
use std::fs;
use std::path::Path;

use inter::Refusal;

const HEADER: &str = include_str!("../../include/inter.h");
const FFI: &str = include_str!("../src/ffi.rs");
const CRATES: &str = concat!(env!("CARGO_MANIFEST_DIR"), "/../crates");

/// The declaration of each call and record by its name, spelt as in C.
type Boundary = BTreeMap<String, String>;

/// A text as words, texts in quotes and single signs, without comments.
fn tokens(text: &str) -> Vec<String> {
    let mut tokens = Vec::new();
    let mut rest = text;
    while let Some(first) = rest.chars().next() {
        let end = if rest.starts_with("//") {
            rest.find('\n').unwrap_or(rest.len())
        } else if rest.starts_with("/*") {
            rest.find("*/").expect("a comment ends") + 2
        } else if first == '"' {
            rest[1..].find('"').expect("a quoted text ends") + 2
        } else if is_word(first) {
            rest.find(|c| !is_word(c)).unwrap_or(rest.len())
        } else {
            first.len_utf8()
        };
        let (token, after) = rest.split_at(end);
        if !(token.starts_with("//") || token.starts_with("/*") || token.trim().is_empty()) {
            tokens.push(token.to_string());
        }
        rest = after;
    }
    tokens
}

fn is_word(c: char) -> bool {
    c.is_alphanumeric() || c == '_'
}

/// A place in a list of tokens. What it does not understand ends the test.
struct Reader<'a> {
    left: &'a [String],
}

impl<'a> Reader<'a> {
    /// A reader after each place where the tokens of `pattern` stand.
    fn each_after(tokens: &'a [String], pattern: &str) -> Vec<Reader<'a>> {
        let pattern = self::tokens(pattern);
        let starts = (0..tokens.len()).filter(|&at| tokens[at..].starts_with(&pattern));
        starts.map(|at| Reader { left: &tokens[at + pattern.len()..] }).collect()
    }

    fn next(&mut self) -> &'a str {
        let (first, left) = self.left.split_first().expect("the text does not end here");
        self.left = left;
        first
    }

    fn word(&mut self) -> &'a str {
        let word = self.next();
        assert!(word.chars().all(is_word), "a word stands where {word:?} was found");
        word
    }

    fn take(&mut self, token: &str) -> bool {
        let found = self.left.first().is_some_and(|next| next == token);
        if found {
            self.left = &self.left[1..];
        }
        found
    }

    fn expect(&mut self, token: &str) {
        let next = self.next();
        assert_eq!(next, token, "before {:?}", &self.left[..self.left.len().min(8)]);
    }

    /// What `one` reads, again and again, up to the token `end`; `between` may stand after each.
    fn list<T>(&mut self, between: &str, end: &str, one: impl Fn(&mut Self) -> T) -> Vec<T> {
        let mut list = Vec::new();
        while !self.take(end) {
            list.push(one(self));
            if !self.take(between) {
                self.expect(end);
                break;
            }
        }
        list
    }

    /// A variable of C, as `const uint8_t *out` or `inter_rect parts[4]`.
    fn c_variable(&mut self) -> String {
        let constant = if self.take("const") { "const " } else { "" };
        let base = self.word();
        let pointer = if self.take("*") { "*" } else { "" };
        let name = self.word();
        let variable = format!("{constant}{base} {pointer}{name}");
        if !self.take("[") {
            return variable;
        }
        let array = format!("{variable}[{}]", self.word());
        self.expect("]");
        array
    }

    /// A variable of Rust or Rattle, `name: type`, as C spells it: a slice is two.
    fn variable(&mut self) -> String {
        self.take("pub");
        let name = self.word();
        self.expect(":");
        let pointer = self.take("&") || self.take("*");
        self.lifetime();
        let constant = if !pointer || self.take("mut") { "" } else { "const " };
        self.take("const");
        if !self.take("[") {
            let star = if pointer { "*" } else { "" };
            return format!("{constant}{} {star}{name}", c_type(self.word()));
        }
        let element = c_type(self.word());
        if pointer {
            self.expect("]");
            return format!("{constant}{element} *{name}, size_t {name}_len");
        }
        self.expect(";");
        let array = format!("{element} {name}[{}]", self.word());
        self.expect("]");
        array
    }

    /// A lifetime, if one stands here; C has none.
    fn lifetime(&mut self) {
        if self.take("'") {
            self.word();
        }
    }

    /// What follows `fn` in Rust and Rattle, put into the boundary.
    fn function(&mut self, boundary: &mut Boundary) {
        let name = self.word();
        if self.take("<") {
            self.list(",", ">", Reader::lifetime);
        }
        self.expect("(");
        let parameters = self.list(",", ")", Reader::variable);
        self.expect("-");
        self.expect(">");
        add(boundary, name, format!("{} {name}({})", c_type(self.word()), parameters.join(", ")));
    }
}

/// The C name of a type of Rust or Rattle; a record has its own with the prefix.
fn c_type(name: &str) -> String {
    let number = match name {
        "bool" => "bool",
        "i32" => "int32_t",
        "u8" => "uint8_t",
        "u16" => "uint16_t",
        "u32" => "uint32_t",
        "usize" => "size_t",
        record => return record_name(record),
    };
    number.to_string()
}

/// `MvNeighbor` is `inter_mv_neighbor` in C.
fn record_name(name: &str) -> String {
    let mut c_name = String::from("inter");
    for letter in name.chars() {
        if letter.is_uppercase() {
            c_name.push('_');
        }
        c_name.extend(letter.to_lowercase());
    }
    c_name
}

fn record(name: &str, fields: &[String]) -> String {
    format!("struct {name} {{ {} }}", fields.join("; "))
}

fn add(boundary: &mut Boundary, name: &str, declaration: String) {
    let before = boundary.insert(name.to_string(), declaration);
    assert!(before.is_none(), "{name} is declared twice");
}

/// The header, read to its end: nothing in it may be left out.
fn of_header(text: &str) -> Boundary {
    let lines: Vec<&str> = text.lines().filter(|line| !line.starts_with('#')).collect();
    let tokens = tokens(&lines.join("\n"));
    let mut reader = Reader { left: &tokens };
    let mut boundary = Boundary::new();
    reader.expect("extern");
    reader.expect("\"C\"");
    reader.expect("{");
    while !reader.take("}") {
        if reader.take("enum") {
            // Its numbers and their meanings are compared line by line.
            while reader.next() != "}" {}
        } else if reader.take("typedef") {
            reader.expect("struct");
            let name = reader.word();
            reader.expect("{");
            let fields = reader.list(";", "}", Reader::c_variable);
            reader.expect(name);
            add(&mut boundary, name, record(name, &fields));
        } else {
            let answer = reader.word();
            let name = reader.word();
            reader.expect("(");
            let parameters = reader.list(",", ")", Reader::c_variable);
            add(&mut boundary, name, format!("{answer} {name}({})", parameters.join(", ")));
        }
        reader.expect(";");
    }
    assert!(reader.left.is_empty(), "left over: {:?}", reader.left);
    boundary
}

/// The records of a text of Rust or Rattle that have the layout of C.
fn add_records(boundary: &mut Boundary, tokens: &[String]) {
    for mut reader in Reader::each_after(tokens, "#[repr(C)]") {
        while reader.take("#") {
            while reader.next() != "]" {}
        }
        reader.expect("pub");
        reader.expect("struct");
        let name = record_name(reader.word());
        reader.expect("{");
        let fields = reader.list(",", "}", Reader::variable);
        add(boundary, &name, record(&name, &fields));
    }
}

fn of_ffi(text: &str) -> Boundary {
    let tokens = tokens(text);
    let mut boundary = Boundary::new();
    add_records(&mut boundary, &tokens);
    for mut reader in Reader::each_after(&tokens, "unsafe extern \"C\" {") {
        while !reader.take("}") {
            reader.expect("pub");
            let safety = reader.word();
            assert!(["safe", "unsafe"].contains(&safety), "{safety}");
            reader.expect("fn");
            reader.function(&mut boundary);
            reader.expect(";");
        }
    }
    boundary
}

/// The exports, and the records that they carry, from whichever crate.
fn of_rattle(exports: &str) -> Boundary {
    let mut records = Boundary::new();
    for folder in fs::read_dir(CRATES).expect("crates/ is read").flatten() {
        add_records(&mut records, &tokens(&rattle(&folder.path())));
    }
    let mut boundary = Boundary::new();
    for mut reader in
        Reader::each_after(&tokens(exports), "#[unsafe(no_mangle)] pub extern \"C\" fn")
    {
        reader.function(&mut boundary);
    }
    // What a call carries, and what lies inside of that.
    let mut carrying: Vec<String> = boundary.values().cloned().collect();
    while let Some(declaration) = carrying.pop() {
        for word in tokens(&declaration) {
            if let Some(record) = records.remove(&word) {
                carrying.push(record.clone());
                boundary.insert(word, record);
            }
        }
    }
    boundary
}

/// The texts of a Rattle crate, one after the other; a crate of theorems has none.
fn rattle(folder: &Path) -> String {
    let files = fs::read_dir(folder.join("src")).into_iter().flatten();
    let texts = files.flatten().map(|file| fs::read_to_string(file.path()).expect("a text"));
    texts.collect()
}

fn exports() -> String {
    rattle(&Path::new(CRATES).join("inter_c"))
}

/// What the three do not say alike, with what each says.
fn differences(header: &str, ffi: &str, exports: &str) -> Vec<String> {
    let told = [
        ("include/inter.h", of_header(header)),
        ("host/src/ffi.rs", of_ffi(ffi)),
        ("crates", of_rattle(exports)),
    ];
    let names: BTreeSet<&String> = told.iter().flat_map(|(_, boundary)| boundary.keys()).collect();
    let mut differences = Vec::new();
    for name in names {
        let declarations = told.each_ref().map(|(_, boundary)| boundary.get(name));
        if declarations.iter().any(|declaration| *declaration != declarations[0]) {
            for ((place, _), declaration) in told.iter().zip(declarations) {
                let declaration = declaration.map_or("nothing", String::as_str);
                differences.push(format!("{name}: {place} has {declaration}"));
            }
        }
    }
    differences
}

#[test]
fn the_three_agree() {
    let differences = differences(HEADER, FFI, &exports());
    assert!(differences.is_empty(), "\n{}\n", differences.join("\n"));
}

/// Each edit is one that a person could make by mistake.
#[test]
fn every_slip_is_noticed() {
    let exports = exports();
    let noticed = |place: usize, old: &str, new: &str| {
        let mut texts = [HEADER.to_string(), FFI.to_string(), exports.clone()];
        assert!(texts[place].contains(old), "nowhere: {old}");
        texts[place] = texts[place].replacen(old, new, 1);
        let [header, ffi, exports] = texts;
        assert!(!differences(&header, &ffi, &exports).is_empty(), "not noticed: {old} as {new}");
    };
    let (header, ffi, rattle) = (0, 1, 2);
    noticed(header, "size_t bw,\n    size_t bh,", "size_t bh,\n    size_t bw,");
    noticed(ffi, "cw: usize,\n        ch: usize,", "ch: usize,\n        cw: usize,");
    noticed(rattle, "mvx: i32,\n    mvy: i32,", "mvy: i32,\n    mvx: i32,");
    noticed(header, "    int32_t mvx,\n", "");
    noticed(header, "int32_t cur_ref", "uint32_t cur_ref");
    noticed(header, "const uint8_t *b", "uint8_t *b");
    noticed(ffi, "mode: u8", "mode: u32");
    noticed(ffi, "out: *mut u8", "out: *const u8");
    noticed(rattle, "out: &mut [u8]", "out: &[u8]");
    noticed(rattle, "-> MvAnswer", "-> Mv");
    noticed(header, "int32_t x;\n    int32_t y;", "int32_t y;\n    int32_t x;");
    noticed(header, "parts[4]", "parts[3]");
    noticed(ffi, "pub available: bool", "pub available: u8");
    noticed(ffi, "#[repr(C)]\n", "");
    noticed(header, "size_t offset;\n    size_t stride;", "size_t stride;\n    size_t offset;");
    noticed(ffi, "pub plane: u32", "pub plane: u8");
    noticed(ffi, "pub offset_a: usize,\n", "");
    noticed(ffi, "h: *mut u8,\n        h_len: usize,", "h: *const u8,\n        h_len: usize,");
    noticed(rattle, "v: &'a [u8],\n    c: &'a [u8],", "c: &'a [u8],\n    v: &'a [u8],");
    noticed(rattle, "-> HpelPair", "-> HpelAt");
    noticed(header, "int32_t inter_median3(int32_t a, int32_t b, int32_t c);", "");
    noticed(ffi, "pub safe fn inter_inter_partitions(mode: u8) -> Partitions;", "");
    noticed(rattle, "#[unsafe(no_mangle)]\n", "");
}

#[test]
fn the_refusals_are_those_of_the_crate() {
    let from = HEADER.find("INTER_DONE").expect("the header numbers the refusals");
    let lines = HEADER[from..].lines().map(str::trim).take_while(|line| !line.starts_with('}'));
    let numbered = lines.map(|line| {
        let (name, rest) = line.split_once(" = ").expect("a name and a number");
        let (number, meaning) = rest.split_once("/*").expect("a number and its meaning");
        let number = number.trim_matches([' ', ',']).parse().expect("a number");
        (name.to_string(), number, meaning.trim_end_matches("*/").trim().to_string())
    });
    let known = Refusal::ALL.map(|refusal| {
        let name = refusal.name().to_uppercase().replace(' ', "_");
        (format!("INTER_REFUSED_{name}"), refusal.number(), refusal.meaning().to_string())
    });
    let done = ("INTER_DONE".to_string(), 0, "done".to_string());
    assert_eq!(numbered.collect::<Vec<_>>(), [&[done], &known[..]].concat());
}
