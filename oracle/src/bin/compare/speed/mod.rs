//! How fast the port is beside the Rust, and how much memory both take: a benchmark, not a test.

mod clock;
mod figures;
mod memory;
mod plot;
mod report;

use std::arch::x86_64::__cpuid;
use std::fs;
use std::path::Path;

pub use memory::{measure as measure_memory, What};

const EMULATED: &str =
    "this processor is emulated: only times taken on x86-64 itself mean anything";

/// Whether the processor is one that qemu plays, by its own word.
fn is_emulated() -> bool {
    const HYPERVISOR_LEAF: u32 = 0x4000_0000;
    // SAFETY: every x86-64 processor has the instruction. (Some compilers know that.)
    #[allow(unused_unsafe)]
    let name = unsafe { __cpuid(HYPERVISOR_LEAF) };
    [name.ebx, name.ecx, name.edx].map(u32::to_le_bytes).concat() == b"TCGTCGTCGTCG"
}

/// Stops a benchmark where its figures would say nothing.
fn check_processor() -> Result<(), String> {
    if is_emulated() {
        return Err(EMULATED.to_string());
    }
    Ok(())
}

/// Measures everything and prints the report; into a folder it writes SPEED.md and speed.svg.
pub fn run(seed: u64, runs: u64, folder: Option<&Path>) -> Result<(), String> {
    check_processor()?;
    let figures = figures::take(seed, runs);
    let memory = memory::take()?;
    let text = report::text(&figures, &memory);
    let Some(folder) = folder else {
        print!("{text}");
        return Ok(());
    };
    let write = |name: &str, text: &str| {
        let path = folder.join(name);
        println!("compare speed: writing {}", path.display());
        fs::write(&path, text).map_err(|why| format!("{}: {why}", path.display()))
    };
    write("SPEED.md", &text)?;
    write("speed.svg", &plot::svg(&figures))
}
