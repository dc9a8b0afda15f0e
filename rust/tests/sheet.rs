//! The sheet of examples/sheet.rs prints what examples/sheet.c of the repository prints.
#![cfg(feature = "std")]
#[allow(dead_code)]
#[path = "../examples/sheet.rs"]
mod sheet;

#[test]
fn the_same_sheet_in_rust_and_c() {
    let mut out = Vec::new();
    sheet::sheet(&mut out).unwrap();
    assert_eq!(String::from_utf8(out).unwrap(), include_str!("../../examples/sheet.stdout"));
}
