//! The crate root that the files of mos are compiled in.
//!
//! The files under `mos/` are the project's source documents, byte for byte. They name parts of
//! mos that are not among them, or that need crates Debian does not have. Each file here stands in
//! for one such part, with no more than the compiled files use:
//!
//! - `codegen.rs`: the head of codegen/mod.rs, which lists the modules and declares the symbols.
//! - `parser.rs`: the syntax tree's types of parser/ast.rs, and parser/mnemonic.rs.
//! - `identifier.rs`: parser/identifier.rs, names and paths of names.
//! - `cbm.rs`: cbm/mod.rs and cbm/petscii.rs, with a Petscii that keeps every byte.
//! - `absolutize.rs`: the crate path_absolutize, which code_map.rs names and nothing here calls.

mod absolutize;
pub mod cbm;
pub mod codegen;
pub mod parser;

// `use path_absolutize::Absolutize` in code_map.rs finds this crate.
extern crate self as path_absolutize;
pub use absolutize::Absolutize;
