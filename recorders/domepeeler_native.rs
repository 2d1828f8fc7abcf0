//! Judges by libdomepeeler in your own process, for the recorder in domepeeler.rs.
//!
//! Copy both files into your project, link with the library, and say once that it judges:
//!
//! ```ignore
//! mod domepeeler;
//! mod domepeeler_native;
//!
//! domepeeler::judge_here(domepeeler_native::verdict); // unless a call or $DOMEPEELER names a program
//! ```
//!
//! For an integration test copy this file to tests/domepeeler_native/mod.rs. The linker finds the library by `RUSTFLAGS="-L $HOME/.local/lib"` or the
//! like, or by a build script that prints `cargo:rustc-link-search=native=..`. It is linked statically. docs/library.md says where it comes from.
//!
//! It is written for the editions up to 2021: in a crate of edition 2024 write `unsafe extern "C"` below.

/// `struct domepeeler_end` of domepeeler_judge.h.
#[repr(C)]
struct End {
    status: u32,
    line: u32,
    length: usize,
}

const NO_ROOM: u32 = 4;

#[link(name = "domepeeler", kind = "static")]
extern "C" {
    fn domepeeler_verdict(trace: *const u8, trace_length: usize, json: u32, output: *mut u8, room: usize) -> End;
}

/// The status with which `domepeeler verdict` would end for this trace, with `--json` or without; what it would print; and what it would say on
/// standard error. Not in the forked child of a process with threads.
pub fn verdict(trace: &str, json: bool) -> (i32, Vec<u8>, Vec<u8>) {
    let mut output = vec![0_u8; 4096];
    loop {
        // SAFETY: both pointers lead to as many bytes as the lengths say, the room overlaps nothing, and nothing is kept of either.
        let end = unsafe { domepeeler_verdict(trace.as_ptr(), trace.len(), u32::from(json), output.as_mut_ptr(), output.len()) };
        match end.status {
            NO_ROOM => output = vec![0; end.length],
            0 | 1 => {
                output.truncate(end.length);
                return (i32::from(end.status == 1), output, Vec::new());
            }
            status => {
                output.truncate(end.length);
                if end.length == 0 {
                    output = if end.line == 0 { b"memory".to_vec() } else { format!("line {}", end.line).into_bytes() };
                }
                return (if status == 2 { 2 } else { 3 }, Vec::new(), [b"finder: ", output.as_slice(), b"\n"].concat());
            }
        }
    }
}
