//! Measures the library and the program. `bench/run` builds and runs this.
//!
//!     bench check                              whether the composers, and the ways of writing bytes, agree
//!     bench measure                            one process' medians, for the table
//!     bench table PANEL FOLDER OURS [OTHER]    the table: the programs in OURS, and in OTHER over another library, are run in turn
//!
//! No time is asserted.

mod bytes;
mod check;
mod files;
mod measure;
mod program;
mod rows;
mod setups;
mod table;
mod timing;

use std::process::ExitCode;

// The library is linked behind this, PLACE bytes further on: where its loops stand in lines of 64 bytes is worth up to a fifth.
std::arch::global_asm!(concat!(".section .text.place,\"ax\",@progbits\n.globl bench_place\nbench_place: .skip ", env!("PLACE"), "\nret\n.text"));

extern "C" {
    fn bench_place();
}

#[used]
static KEPT: unsafe extern "C" fn() = bench_place;

fn main() -> ExitCode {
    let words: Vec<String> = std::env::args().skip(1).collect();
    let words: Vec<&str> = words.iter().map(String::as_str).collect();
    let outcome = match words[..] {
        ["check"] => Ok(check::check()),
        ["measure"] => {
            measure::print();
            Ok(true)
        }
        ["table", panel, folder, ours] => table::print(panel, folder, ours, None).map(|()| true),
        ["table", panel, folder, ours, other] => table::print(panel, folder, ours, Some(other)).map(|()| true),
        _ => Err("usage: bench check, bench measure, or bench table PANEL FOLDER OURS [OTHER]".to_string()),
    };
    match outcome {
        Ok(true) => ExitCode::SUCCESS,
        Ok(false) => ExitCode::FAILURE,
        Err(message) => {
            eprintln!("{}", message);
            ExitCode::FAILURE
        }
    }
}
