//! `src/face.rs` against `include/period.h`: sizes and places of fields as a C compiler has them, and the types of
//! the calls as it checks them.

use std::fmt::Write;
use std::mem::{size_of, MaybeUninit};
use std::path::Path;
use std::process::Command;
use std::ptr::addr_of;

use vedhrunak_period::face::*;

/// Rust's size and places, beside the C program's lines that print its own.
macro_rules! layout {
    ($rust:ty, $c:literal, $($field:ident)*) => {{
        let place = MaybeUninit::<$rust>::uninit();
        let start = place.as_ptr();
        let mut ours = format!("{} {}\n", $c, size_of::<$rust>());
        let mut program = format!("printf(\"{0} %zu\\n\", sizeof({0}));\n", $c);
        $(
            let name = stringify!($field);
            // the address alone is taken: nothing is read
            let offset = unsafe { addr_of!((*start).$field) as usize } - start as usize;
            writeln!(ours, "{}.{name} {offset}", $c).unwrap();
            writeln!(program, "printf(\"{0}.{name} %zu\\n\", offsetof({0}, {name}));", $c).unwrap();
        )*
        (ours, program)
    }};
}

const COLUMNS: &str =
    "const uint16_t *, size_t, const uint16_t *, size_t, const uint16_t *, size_t, \
                       const uint32_t *, size_t, const uint8_t *, size_t";

/// The calls as `src/face.rs` has them; the C compiler refuses one that is declared otherwise.
fn declarations() -> String {
    let lent = "uint64_t *, size_t, uint32_t *, size_t, uint32_t *, size_t";
    let columns_out = COLUMNS.replace("const ", "");
    let bytes = "const uint8_t *, size_t";
    let calls = [
        (
            "period_analysis",
            "analyse",
            format!("size_t, {COLUMNS}, {lent}"),
        ),
        (
            "period_rate_result",
            "rate",
            format!("size_t, {COLUMNS}, size_t"),
        ),
        (
            "period_status",
            "simulate",
            format!("size_t, {COLUMNS}, size_t, uint64_t *, size_t"),
        ),
        (
            "period_count",
            "write",
            format!("size_t, {COLUMNS}, uint8_t *, size_t"),
        ),
        ("period_table", "read", format!("{bytes}, {columns_out}")),
        (
            "period_analysis",
            "file_analyse",
            format!("{bytes}, {lent}"),
        ),
        (
            "period_rate_result",
            "file_rate",
            format!("{bytes}, size_t"),
        ),
        (
            "period_status",
            "file_simulate",
            format!("{bytes}, size_t, uint64_t *, size_t"),
        ),
        (
            "period_count",
            "report",
            format!("{bytes}, uint8_t *, size_t"),
        ),
        (
            "period_number_result",
            "number",
            format!("{bytes}, uint32_t, uint32_t"),
        ),
        ("period_bids_result", "bids", format!("{bytes}, {bytes}")),
    ];
    let line = |(result, name, arguments): &(&str, &str, String)| {
        format!("extern {result} period_{name}({arguments});\n")
    };
    calls.iter().map(line).collect()
}

#[test]
fn declared_as_in_the_header() {
    let layouts = [
        layout!(PeriodAnalysis, "period_analysis", refusal exact place low_p low_q low_len high_p high_q high_len),
        layout!(PeriodRate, "period_rate_result", refusal exact place low_p low_q high_p high_q),
        layout!(PeriodSimulated, "period_status", refusal place),
        layout!(PeriodWritten, "period_count", refusal place count),
        layout!(PeriodRead, "period_table", refusal place n m),
        layout!(PeriodNumber, "period_number_result", refusal value place rest),
        layout!(PeriodBids, "period_bids_result", refusal which place length),
    ];
    let (ours, body): (Vec<String>, Vec<String>) = layouts.into_iter().unzip();
    let text = format!(
        "#include <stdio.h>\n#include \"period.h\"\n{}int main(void) {{\n{}return 0;\n}}\n",
        declarations(),
        body.concat()
    );
    assert_eq!(ours.concat(), printed_by(&text));
}

/// Compiles a C program against the header and runs it.
fn printed_by(text: &str) -> String {
    let folder = Path::new(env!("CARGO_TARGET_TMPDIR"));
    let (source, program) = (folder.join("face.c"), folder.join("face"));
    std::fs::write(&source, text).unwrap();
    let include = Path::new(env!("CARGO_MANIFEST_DIR")).join("../include");
    let compiled = Command::new("cc")
        .args(["-std=c99", "-Wall", "-Wextra", "-Werror", "-I"])
        .arg(include)
        .arg(&source)
        .arg("-o")
        .arg(&program)
        .status();
    assert!(compiled.expect("a C compiler called cc").success());
    let output = Command::new(&program).output().unwrap();
    String::from_utf8(output.stdout).unwrap()
}
