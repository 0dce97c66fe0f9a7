//! A C compiler compares `src/sys.rs` with `include/ufs.h`: the type of each function, the size of each
//! struct with the place of each field, and the numbers.
#[allow(dead_code)]
#[path = "../src/sys.rs"]
mod sys;

use std::env;
use std::fmt::Write;
use std::fs;
use std::mem::{align_of, size_of, MaybeUninit};
use std::path::Path;
use std::process::Command;
use std::ptr::addr_of;

const TYPES: [(&str, &str); 18] = [
    ("*mut Handle", "ufs_device *"),
    ("*const ConfigRow", "const ufs_config *"),
    ("*const UnitRow", "const ufs_unit *"),
    ("*mut JobRow", "ufs_job *"),
    ("*mut AnswerRow", "ufs_answer *"),
    ("*const FrameRow", "const ufs_frame *"),
    ("*mut FrameRow", "ufs_frame *"),
    ("*const u8", "const uint8_t *"),
    ("*mut u8", "uint8_t *"),
    ("*mut c_char", "char *"),
    ("*mut usize", "size_t *"),
    ("*mut u64", "uint64_t *"),
    ("usize", "size_t"),
    ("u8", "uint8_t"),
    ("u16", "uint16_t"),
    ("u32", "uint32_t"),
    ("u64", "uint64_t"),
    ("bool", "bool"),
];

fn c_type(name: &str) -> &'static str {
    let found = TYPES.iter().find(|(rust, _)| *rust == name);
    found
        .unwrap_or_else(|| panic!("no type of C is said for {name}"))
        .1
}

/// The declarations of the `extern` block, each as a pointer to the function of the header.
fn functions(source: &str) -> String {
    let block = source
        .split("extern \"C\" {")
        .nth(1)
        .expect("an extern block");
    let mut told = String::new();
    for declared in block.split("pub fn ").skip(1) {
        let (name, rest) = declared.split_once('(').expect("parameters");
        let (words, rest) = rest.split_once(')').expect("their end");
        let answer = rest
            .trim_start()
            .trim_start_matches("-> ")
            .split(';')
            .next()
            .expect("an answer");
        let types: Vec<&str> = words
            .split(',')
            .filter_map(|it| it.split_once(':'))
            .map(|(_, it)| c_type(it.trim()))
            .collect();
        writeln!(
            told,
            "{} (*const of_{name})({}) = {name};",
            c_type(answer),
            types.join(", ")
        )
        .expect("a string takes it");
    }
    told
}

/// Static assertions of the size and alignment of a struct, and of the place of each of its fields.
macro_rules! layout {
    ($row:ty, $name:literal, $($field:ident: $c_field:literal),*) => {{
        let row = MaybeUninit::<$row>::uninit();
        let start = row.as_ptr();
        let mut told = format!(
            "SAME(sizeof({0}), {1});\nSAME(_Alignof({0}), {2});\n",
            $name, size_of::<$row>(), align_of::<$row>());
        $(
            // SAFETY: the field lies in `row`, and its place is taken without a reference or a read.
            let place = unsafe { addr_of!((*start).$field) } as usize - start as usize;
            told += &format!("SAME(offsetof({}, {}), {place});\n", $name, $c_field);
        )*
        told
    }};
}

fn structs() -> String {
    [
        layout!(sys::Handle, "ufs_device", at: "at", is_open: "is_open"),
        layout!(sys::ConfigRow, "ufs_config", dies: "dies", blocks: "blocks", pages: "pages",
            rpmb: "rpmb", slots: "slots", spare: "spare", profile: "profile", serial: "serial"),
        layout!(sys::UnitRow, "ufs_unit", blocks: "blocks", boot: "boot", protect: "protect"),
        layout!(sys::JobRow, "ufs_job", kind: "kind", die: "die", block: "block", page: "page",
            content: "body"),
        layout!(sys::AnswerRow, "ufs_answer", tag: "tag", response: "response", status: "status",
            sense_key: "sense_key", sense_code: "sense_code", sense_qualifier: "sense_qualifier",
            residual: "residual"),
        layout!(sys::FrameRow, "ufs_frame", key_or_mac: "key_or_mac", data: "data", nonce: "nonce",
            write_counter: "write_counter", address: "address", block_count: "block_count",
            result: "result", message_type: "message_type"),
    ]
    .concat()
}

fn numbers() -> String {
    let numbers = [
        ("UFS_PAGE_BYTES", sys::UFS_PAGE_BYTES),
        ("UFS_REPLY_BYTES", sys::UFS_REPLY_BYTES),
        ("UFS_MESSAGE_BYTES", sys::UFS_MESSAGE_BYTES),
        ("UFS_HEADER_BYTES", sys::UFS_HEADER_BYTES),
        ("UFS_FRAME_BYTES", sys::UFS_FRAME_BYTES),
        ("UFS_NOTHING", sys::UFS_NOTHING as usize),
        ("UFS_NO_JOB", sys::UFS_NO_JOB as usize),
        // The spare bytes of a job follow its body without a gap.
        ("offsetof(ufs_job, spare) - offsetof(ufs_job, body)", 4096),
        (
            "sizeof((ufs_job *)0)->body + sizeof((ufs_job *)0)->spare",
            sys::UFS_PAGE_BYTES,
        ),
        // The numbers that variants stand for.
        ("UFS_READ", 1),
        ("UFS_PROGRAM", 2),
        ("UFS_ERASE", 3),
        ("UFS_READ_DONE", 0),
        ("UFS_READ_FAILED", 1),
        ("UFS_DONE", 2),
        ("UFS_FAILED", 3),
        ("UFS_LEFT_OLD", 0),
        ("UFS_LEFT_NEW", 1),
        ("UFS_LEFT_TORN", 2),
        ("UFS_NO_DATA", 0x00),
        ("UFS_TO_DEVICE", 0x20),
        ("UFS_FROM_DEVICE", 0x40),
        ("UFS_TEST_UNIT_READY", 0x00),
        ("UFS_REQUEST_SENSE", 0x03),
        ("UFS_INQUIRY", 0x12),
        ("UFS_READ_CAPACITY", 0x25),
        ("UFS_REPORT_LUNS", 0xA0),
        ("UFS_MODE_SENSE_6", 0x1A),
        ("UFS_SEND_DIAGNOSTIC", 0x1D),
        ("UFS_MODE_SENSE_10", 0x5A),
        ("UFS_READ_CAPACITY_16", 0x9E),
        ("UFS_REPORT_OPERATIONS", 0xA3),
        ("UFS_READ_16", 0x88),
        ("UFS_WRITE_16", 0x8A),
        ("UFS_PRE_FETCH_16", 0x90),
        ("UFS_SYNCHRONIZE_CACHE_16", 0x91),
    ];
    numbers
        .iter()
        .map(|(name, number)| format!("SAME({name}, {number});\n"))
        .collect()
}

#[test]
fn the_header_says_the_same() {
    let source = fs::read_to_string("src/sys.rs").unwrap();
    let functions = functions(&source);
    assert_eq!(functions.lines().count(), 36, "the functions of ufs.h");
    let folder = Path::new(env!("CARGO_TARGET_TMPDIR"));
    let file = folder.join("layout.c");
    let head = "#include <stddef.h>\n#include <ufs.h>\n\
                #define SAME(one, other) _Static_assert((one) == (other), #one)\n";
    fs::write(&file, [head, &functions, &structs(), &numbers()].concat()).unwrap();
    let done = Command::new(env::var_os("CC").unwrap_or_else(|| "cc".into()))
        .args([
            "-std=c11",
            "-Wall",
            "-Werror",
            "-I../../include",
            "-c",
            "-o",
        ])
        .args([folder.join("layout.o"), file])
        .output()
        .expect("a C compiler, which cargo links with too");
    assert!(
        done.status.success(),
        "{}",
        String::from_utf8_lossy(&done.stderr)
    );
}
