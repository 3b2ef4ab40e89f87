//! A program: compares the layout of the device in Rattle, C and Rust.
//!
//! How the device and its answers lie in memory: every struct by its size and
//! every field by its name, type, place in the order, offset and size. And the
//! numbers of the warnings, by their names; and in C and Rust the bits of the
//! pending parameters and the codes of the speeds, by theirs.
//!
//! Rattle: the declarations are read, and laid out as `repr(C)` says.
//! C: the declarations are read, and the offsets and sizes that the header
//! asserts; the C and C++ compilers check these wherever it is included.
//! Rust: the compiler is asked, about values that the libraries give.
//!
//! Built by `rustc --edition 2021 -O -L native=target/staticlib layout.rs`,
//! from this folder or with its path; `layout --help` says how it is run.

#![deny(unsafe_code)]

#[path = "program.rs"]
mod program;
#[path = "../../rust/zxndma/src/lib.rs"]
mod zxndma;

use std::any::type_name;
use std::collections::{BTreeMap, BTreeSet};
use std::fmt;
use std::mem::{size_of, size_of_val};
use std::process::ExitCode;

const HELP: &str = "\
usage: layout HEADER WARNINGS PARTS RATTLE...
Compares the structs of the C header, of the Rattle sources and of the wrapper
for Rust, and the warnings that each of the three names, and prints how many
structs, fields and warnings there are, or what differs. In the header and the
wrapper it also compares the bits of the pending parameters and the codes of the
speeds.

  HEADER    include/zxndma.h
  WARNINGS  the source with the warnings: crates/parts/src/warning.rt
  PARTS     the source with the parts of the device: crates/rules/src/lib.rt
  RATTLE    the sources of the device and of what calls answer, of which every
            struct is compared: crates/zxndma/src/lib.rt
            crates/lent/src/lib.rt

Exit status: 0 the same; 1 a difference, or a file can't be read or understood;
2 bad arguments.
";

#[derive(PartialEq)]
struct Field {
    name: String,
    /// The type, by its name in Rattle.
    kind: String,
    offset: usize,
    size: usize,
}

#[derive(PartialEq)]
struct Struct {
    size: usize,
    fields: Vec<Field>,
}

/// Offsets and sizes are in bytes.
impl fmt::Display for Struct {
    fn fmt(&self, to: &mut fmt::Formatter) -> fmt::Result {
        for field in &self.fields {
            write!(to, "{}: {} at {} size {}, ", field.name, field.kind, field.offset, field.size)?;
        }
        write!(to, "in all {}", self.size)
    }
}

/// The structs of a language, by their names in Rattle.
type Layout = BTreeMap<String, Struct>;

/// A struct as it is declared: its name, then its fields' names and types.
type Declared = (String, Vec<(String, String)>);

// ---- Reading declarations ------------------------------------------------

/// How a language writes a struct's first line, and a field.
struct Syntax {
    comment: &'static str,
    begin: fn(&str) -> Option<String>,
    field: fn(&str) -> Option<(String, String)>,
}

/// The structs of a source. A line of a struct that isn't understood is an
/// error, so that no field is passed over.
fn declarations(source: &str, syntax: &Syntax) -> Result<Vec<Declared>, String> {
    let mut structs: Vec<Declared> = Vec::new();
    let mut inside = false;
    for line in source.lines() {
        let code = line.split(syntax.comment).next().unwrap_or("").trim();
        if !inside {
            if let Some(name) = (syntax.begin)(code) {
                structs.push((name, Vec::new()));
                inside = true;
            }
        } else if code.starts_with('}') {
            inside = false;
        } else if !code.is_empty() {
            let field = (syntax.field)(code).ok_or(format!("not understood: {}", line))?;
            structs.last_mut().expect("a struct has begun").1.push(field);
        }
    }
    Ok(structs)
}

fn between<'a>(text: &'a str, start: &str, end: &str) -> Option<&'a str> {
    text.strip_prefix(start)?.strip_suffix(end)
}

const RATTLE: Syntax = Syntax {
    comment: "//",
    begin: |code| between(code, "pub struct ", " {").map(String::from),
    field: |code| {
        let (name, kind) = between(code, "pub ", ",")?.split_once(": ")?;
        Some((name.into(), kind.into()))
    },
};

/// The fields are the variants, each with its number in the place of a type.
const RATTLE_ENUM: Syntax = Syntax {
    comment: "//",
    begin: |code| between(code, "pub enum ", " {").map(String::from),
    field: |code| {
        let (name, number) = code.strip_suffix(',')?.split_once(" = ")?;
        Some((name.into(), number.into()))
    },
};

const C: Syntax = Syntax {
    comment: "/*",
    begin: |code| between(code, "typedef struct zxndma_", " {").map(String::from),
    field: |code| {
        let (kind, name) = code.strip_suffix(';')?.split_once(' ')?;
        Some((name.into(), rattle_type(kind)))
    },
};

/// `write_answer` is `WriteAnswer`.
fn rattle_name(name: &str) -> String {
    let word = |w: &str| w[..1].to_uppercase() + &w[1..];
    name.split('_').filter(|w| !w.is_empty()).map(word).collect()
}

fn rattle_type(kind: &str) -> String {
    match kind {
        "bool" => "bool".into(),
        "uint8_t" => "u8".into(),
        "uint16_t" => "u16".into(),
        "uint32_t" => "u32".into(),
        "uint64_t" => "u64".into(),
        _ => kind.strip_prefix("zxndma_").map_or(kind.into(), rattle_name),
    }
}

// ---- Rattle --------------------------------------------------------------

/// Every struct that the sources declare, and those of the parts that they are
/// made of.
fn rattle_layout(parts: &str, sources: &[String]) -> Result<Layout, String> {
    let mut all = Layout::new();
    let mut aligns = BTreeMap::new();
    let mut wanted = Vec::new();
    let compared = sources.iter().map(|source| (source.as_str(), true));
    for (source, is_compared) in [(parts, false)].into_iter().chain(compared) {
        let of_c = source.matches("#[repr(C)]\n#[derive(Clone, Copy)]\npub struct ").count();
        if source.matches("pub struct ").count() != of_c {
            return Err("a struct in Rattle is not repr(C)".into());
        }
        for (name, fields) in declarations(source, &RATTLE)? {
            let (laid, align) = lay_out(&fields, &all, &aligns)?;
            wanted.extend(is_compared.then(|| name.clone()));
            aligns.insert(name.clone(), align);
            all.insert(name, laid);
        }
    }
    let mut layout = Layout::new();
    while let Some(name) = wanted.pop() {
        if let Some(laid) = all.remove(&name) {
            wanted.extend(laid.fields.iter().map(|field| field.kind.clone()));
            layout.insert(name, laid);
        }
    }
    Ok(layout)
}

/// `repr(C)`: fields in their order, each at the next multiple of its
/// alignment. Gives the alignment too.
fn lay_out(
    declared: &[(String, String)],
    known: &Layout,
    aligns: &BTreeMap<String, usize>,
) -> Result<(Struct, usize), String> {
    let mut end: usize = 0;
    let mut most = 1;
    let mut fields = Vec::new();
    for (name, kind) in declared {
        let (size, align) = match kind.as_str() {
            "bool" | "u8" => (1, 1),
            "u16" => (2, 2),
            "u32" => (4, 4),
            "u64" => (8, 8),
            _ => {
                let part = known.get(kind).ok_or(format!("{}: unknown type {}", name, kind))?;
                (part.size, aligns[kind])
            }
        };
        let offset = round_up(end, align);
        fields.push(Field { name: name.clone(), kind: kind.clone(), offset, size });
        end = offset + size;
        most = most.max(align);
    }
    Ok((Struct { size: round_up(end, most), fields }, most))
}

fn round_up(number: usize, to: usize) -> usize {
    (number + to - 1) / to * to
}

// ---- C -------------------------------------------------------------------

/// The declared structs, with the offsets and sizes that are asserted.
fn c_layout(header: &str) -> Result<Layout, String> {
    let mut layout = Layout::new();
    for (name, declared) in declarations(header, &C)? {
        let mut fields = Vec::new();
        for (field, kind) in declared {
            let [offset, size] = asserted(header, &format!("ZXNDMA_FIELD({}, {}, ", name, field))?;
            fields.push(Field { name: field, kind, offset, size });
        }
        let [size] = asserted(header, &format!("ZXNDMA_SIZE({}, ", name))?;
        layout.insert(rattle_name(&name), Struct { size, fields });
    }
    Ok(layout)
}

/// The numbers of the one assertion that begins so.
fn asserted<const N: usize>(header: &str, begin: &str) -> Result<[usize; N], String> {
    let fault = || format!("the header has not one assertion of {} numbers: {}", N, begin);
    let mut found = header.lines().filter_map(|line| between(line, begin, ");"));
    match (found.next(), found.next()) {
        (Some(list), None) => {
            let numbers: Vec<usize> = list.split(", ").filter_map(|n| n.parse().ok()).collect();
            numbers.try_into().map_err(|_| fault())
        }
        _ => Err(fault()),
    }
}

// ---- Rust ----------------------------------------------------------------

/// A struct of the wrapper. The pattern names every field: it does not compile
/// with one left out.
macro_rules! struct_of {
    ($layout:ident, $value:expr, $name:ident { $($field:ident),* }) => {{
        let value = $value;
        let zxndma::$name { $($field),* } = &value;
        let fields = vec![$(field_of(stringify!($field), &value, $field)),*];
        $layout.insert(stringify!($name).into(), Struct { size: size_of_val(&value), fields });
    }};
}

fn field_of<S, F>(name: &str, whole: &S, part: &F) -> Field {
    let kind = type_name::<F>().rsplit("::").next().unwrap_or("").into();
    let offset = part as *const F as usize - whole as *const S as usize;
    Field { name: name.into(), kind, offset, size: size_of::<F>() }
}

fn rust_layout() -> Layout {
    let mut layout = Layout::new();
    let mut device = zxndma::Device::power_on();
    let core = device.core;
    struct_of!(layout, core.a, Port { address, pointer, io, step, cycle });
    struct_of!(layout, core.block, Block { length, counter, zilog });
    struct_of!(layout, core.control, Control { forward, prescaler, burst, restart, speed });
    struct_of!(layout, core.status, Status { e, t });
    struct_of!(layout, core.readback, Readback { mask, position, waiting });
    struct_of!(layout, core.slot, Slot { elapsed, bus, length, burst });
    struct_of!(layout, device.clocks, Clocks { bus, held, cpu });
    struct_of!(
        layout,
        core,
        Core { a, b, block, control, status, readback, pending, enabled, slot }
    );
    struct_of!(layout, device, Device { core, clocks });
    struct_of!(layout, device.write_in_place(0, 0), Written { number, warning });
    struct_of!(layout, device.read_in_place(0), Given { number, byte });
    struct_of!(layout, device.write(0, 0), WriteAnswer { number, warning, device });
    struct_of!(layout, device.read(0), ReadAnswer { number, byte, device });
    struct_of!(layout, device.grant(&mut [], &mut [], 0), GrantAnswer { number, device });
    struct_of!(layout, device.set_speed(0), SpeedAnswer { number, device });
    layout
}

// ---- Bits of the pending parameters, codes of the speeds, warnings -------

/// Names and numbers, in their order.
type Names = Vec<(String, u16)>;

/// The constants of a module of the wrapper that are named.
macro_rules! names_of {
    ($module:ident: $($name:ident),*) => {
        vec![$((stringify!($name).into(), zxndma::$module::$name.into())),*]
    };
}

/// The numbers that the header defines, under names that begin so; the rest of
/// the name is kept.
fn c_names(header: &str, begin: &str) -> Result<Names, String> {
    let named = |text: &str| {
        let (name, number) = text.split(C.comment).next()?.split_once(' ')?;
        Some((name.into(), number.trim_end().parse().ok()?))
    };
    names(header, &format!("#define {}", begin), named)
}

/// The numbers that a Rattle source names for others: its constants, and behind
/// these the variants of its enums, whose names become capitals.
fn rattle_names(source: &str) -> Result<Names, String> {
    let constant = |text: &str| {
        let (declared, number) = text.strip_suffix(';')?.split_once(" = ")?;
        let (name, _) = declared.split_once(": ")?;
        Some((name.into(), number.parse().ok()?))
    };
    let mut found = names(source, "pub const ", constant)?;
    for (name, number) in declarations(source, &RATTLE_ENUM)?.into_iter().flat_map(|one| one.1) {
        let number = number.parse().map_err(|_| format!("not understood: {}", number))?;
        found.push((name.to_uppercase(), number));
    }
    Ok(found)
}

/// What the lines name that begin so. One that isn't understood is an error.
fn names(
    source: &str,
    begin: &str,
    named: impl Fn(&str) -> Option<(String, u16)>,
) -> Result<Names, String> {
    let found = source.lines().filter_map(|line| Some((line, line.strip_prefix(begin)?)));
    found.map(|(line, rest)| named(rest).ok_or(format!("not understood: {}", line))).collect()
}

/// All languages have the same names, in the same order, and the numbers in this
/// order. Gives how many.
fn same_names<const N: usize>(
    what: &str,
    languages: [(&str, Names); N],
    number: fn(u16) -> u16,
) -> Result<usize, String> {
    let (_, first) = &languages[0];
    let in_order = (0..).zip(first).all(|(place, (_, named))| *named == number(place));
    if !in_order || languages.iter().any(|(_, names)| names != first) {
        let line =
            |(language, names): &(&str, Names)| format!("{} in {}: {:?}", what, language, names);
        return Err(languages.iter().map(line).collect::<Vec<_>>().join("\n"));
    }
    Ok(first.len())
}

/// Each is the bit after the one before it, from bit 0 on.
fn same_bits(header: &str) -> Result<usize, String> {
    let rust = names_of!(pending:
        A_ADDRESS_LOW,
        A_ADDRESS_HIGH,
        LENGTH_LOW,
        LENGTH_HIGH,
        A_TIMING,
        B_TIMING,
        PRESCALER,
        B_ADDRESS_LOW,
        B_ADDRESS_HIGH,
        READ_MASK
    );
    let c = c_names(header, "ZXNDMA_PENDING_")?;
    same_names("pending parameters", [("C", c), ("Rust", rust)], |place| 1 << place)
}

/// Each is one more than the one before it, from 0 on. What C calls `7_MHZ` is
/// `MHZ_7` in Rust, where no name begins with a digit.
fn same_codes(header: &str) -> Result<usize, String> {
    let rust = names_of!(speed: MHZ_3_5, MHZ_7, MHZ_14, MHZ_28);
    let turned = |(name, code): (String, u16)| match name.strip_suffix("_MHZ") {
        Some(megahertz) => (format!("MHZ_{}", megahertz), code),
        None => (name, code),
    };
    let c = c_names(header, "ZXNDMA_SPEED_")?.into_iter().map(turned).collect();
    same_names("speeds", [("C", c), ("Rust", rust)], |place| place)
}

/// Each is one more than the one before it, from 0 on, which is none.
fn same_warnings(header: &str, source: &str) -> Result<usize, String> {
    let rattle = rattle_names(source)?;
    let c = c_names(header, "ZXNDMA_WARNING_")?;
    let rust = names_of!(warning: NONE, OPERATION, TIMING, MODE);
    same_names("warnings", [("Rattle", rattle), ("C", c), ("Rust", rust)], |place| place)
}

// ---- Comparing -----------------------------------------------------------

/// The differences of a language from Rattle, a line each.
fn differences(rattle: &Layout, language: &str, other: &Layout) -> Vec<String> {
    let names: BTreeSet<_> = rattle.keys().chain(other.keys()).collect();
    let mut lines = Vec::new();
    for name in names {
        if rattle.get(name) == other.get(name) {
            continue;
        }
        for (language, layout) in [("Rattle", rattle), (language, other)] {
            let laid = layout.get(name).map_or("none".into(), Struct::to_string);
            lines.push(format!("{} in {}: {}", name, language, laid));
        }
    }
    lines
}

/// The line to print, if all is the same, or those that say what is not.
fn compare(header: &str, warnings: &str, parts: &str, sources: &[&str]) -> Result<String, String> {
    let texts: Result<Vec<String>, String> = sources.iter().map(|path| text(path)).collect();
    let rattle = rattle_layout(&text(parts)?, &texts?)?;
    let header = text(header)?;
    let mut lines = differences(&rattle, "C", &c_layout(&header)?);
    lines.extend(differences(&rattle, "Rust", &rust_layout()));
    if !lines.is_empty() {
        return Err(lines.join("\n"));
    }
    let fields: usize = rattle.values().map(|laid| laid.fields.len()).sum();
    let warnings = same_warnings(&header, &text(warnings)?)?;
    let (bits, codes) = (same_bits(&header)?, same_codes(&header)?);
    Ok(format!(
        "{} structs, {} fields, {} numbers of warnings: the same in Rattle, C and Rust; \
         {} bits of pending parameters, {} codes of speeds: the same in C and Rust",
        rattle.len(),
        fields,
        warnings,
        bits,
        codes
    ))
}

fn text(path: &str) -> Result<String, String> {
    std::fs::read_to_string(path).map_err(|error| format!("{}: {}", path, error))
}

fn main() -> ExitCode {
    program::main("layout", HELP, |words| match words {
        [header, warnings, parts, sources @ ..] if !sources.is_empty() => {
            let same = compare(header, warnings, parts, sources).map_err(|lines| (1, lines))?;
            println!("layout: {same}");
            Ok(())
        }
        _ => Err(program::bad_usage(
            "a header, the sources of warnings and of parts, and Rattle sources are needed".into(),
        )),
    })
}
