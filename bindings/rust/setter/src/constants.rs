//! A sheet's numbers for a host's program: events, behaviours, rows and parameters by name, and the 32 bytes that lend
//! the parameters their values.
use crate::failure::Failure;
use crate::file::SheetFile;

/// Languages, by the word that asks for them.
pub const LANGUAGES: [&str; 5] = ["c", "rust", "typescript", "java", "swift"];

/// A name with its number.
type Named = (String, u32);

/// The file's name without folder and ending, as a name.
fn stem(path: &str) -> String {
    let stem = std::path::Path::new(path).file_stem().map_or(String::new(), |s| s.to_string_lossy().into_owned());
    let letters: String = stem.chars().map(|c| if c.is_ascii_alphanumeric() { c } else { '_' }).collect();
    match letters.chars().next() {
        Some(c) if c.is_ascii_digit() => format!("_{letters}"),
        Some(_) => letters,
        None => "sheet".to_string(),
    }
}

fn capital(word: &str) -> String {
    let part = |part: &str| {
        let (first, rest) = part.split_at(part.len().min(1));
        first.to_ascii_uppercase() + rest
    };
    let joined: String = word.split('_').map(part).collect();
    if joined.starts_with(|c: char| c.is_ascii_digit()) || joined.is_empty() {
        return format!("Sheet{joined}");
    }
    joined
}

/// All numbers: a row has that of its first cell, and its count.
fn numbers(file: &SheetFile) -> Vec<Named> {
    let mut all: Vec<Named> = vec![];
    all.extend(file.events.iter().enumerate().map(|(k, name)| (format!("EVENT_{name}"), k as u32)));
    for group in &file.groups {
        all.push((format!("BEHAVIOUR_{}", group.name), group.first));
        all.extend(group.cells.map(|cells| (format!("CELLS_{}", group.name), cells)));
    }
    all.extend(file.params.iter().enumerate().map(|(k, param)| (format!("PARAM_{}", param.name), k as u32)));
    all
}

/// What a file of constants is made of.
struct Parts<'f> {
    file: &'f SheetFile,
    /// Whose numbers they are, and what the bytes lend.
    about: String,
    lent: String,
    /// The 32 bytes, parted by commas.
    bytes: String,
}

impl Parts<'_> {
    /// A line for each number.
    fn lines(&self, one: impl Fn(&str, u32) -> String) -> String {
        numbers(self.file).iter().map(|(name, n)| one(name, *n) + "\n").collect()
    }

    fn c(&self, upper: &str) -> String {
        let Parts { about, lent, bytes, .. } = self;
        let guard = format!("{upper}_NAMES_H");
        let lines = self.lines(|name, n| format!("#define {upper}_{name} {n}u"));
        let array = format!("static const unsigned char {upper}_PARAMS[32] = {{{bytes}}};");
        format!("/* {about} */\n#ifndef {guard}\n#define {guard}\n{lines}/* {lent} */\n{array}\n#endif\n")
    }

    fn rust(&self) -> String {
        let Parts { about, lent, bytes, .. } = self;
        let lines = self.lines(|name, n| format!("pub const {name}: u32 = {n};"));
        let head = "#![allow(dead_code, non_upper_case_globals)]";
        format!("//! {about}\n{head}\n{lines}/// {lent}\npub const PARAMS: [u8; 32] = [{bytes}];\n")
    }

    fn typescript(&self) -> String {
        let Parts { about, lent, bytes, .. } = self;
        let lines = self.lines(|name, n| format!("export const {name} = {n};"));
        format!("// {about}\n{lines}// {lent}\nexport const PARAMS = Uint8Array.of({bytes});\n")
    }

    fn java(&self, name: &str) -> String {
        let Parts { about, lent, .. } = self;
        let lines = self.lines(|name, n| format!("    public static final int {name} = {n};"));
        // Java's bytes have a sign
        let signed: Vec<String> = self.file.lent().bytes().iter().map(|b| (*b as i8).to_string()).collect();
        let bytes = signed.join(", ");
        let array = format!("    public static byte[] params() {{\n        return new byte[] {{{bytes}}};\n    }}");
        let own = format!("    private {name}() {{}}\n");
        format!("// {about}\npublic final class {name} {{\n{own}{lines}    // {lent}\n{array}\n}}\n")
    }

    fn swift(&self, name: &str) -> String {
        let Parts { about, lent, bytes, .. } = self;
        let lines = self.lines(|name, n| format!("    public static let {name}: UInt32 = {n}"));
        let array = format!("    public static let PARAMS: [UInt8] = [{bytes}]");
        format!("// {about}\npublic enum {name} {{\n{lines}    // {lent}\n{array}\n}}\n")
    }
}

/// The numbers in a language, as a file of it.
pub fn written(file: &SheetFile, language: &str) -> Result<String, Failure> {
    let stem = stem(&file.path);
    let values = if file.params.is_empty() { "none".to_string() } else { file.values() };
    let parts = Parts {
        file,
        about: format!("The numbers of {}, as setter names writes them. A row has its first cell's.", file.path),
        lent: format!("Lends the parameters: {values}."),
        bytes: file.lent().bytes().map(|b| b.to_string()).join(", "),
    };
    match language {
        "c" => Ok(parts.c(&stem.to_ascii_uppercase())),
        "rust" => Ok(parts.rust()),
        "typescript" => Ok(parts.typescript()),
        "java" => Ok(parts.java(&capital(&stem))),
        "swift" => Ok(parts.swift(&capital(&stem))),
        _ => Err(Failure::Usage(format!("no language {language}: names writes {}", LANGUAGES.join(", ")))),
    }
}
