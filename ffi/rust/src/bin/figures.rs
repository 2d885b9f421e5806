//! Runs `bench` and `bench_core_sets` under callgrind for many sizes and prints instructions per call
//! as two Markdown tables.

use std::path::{Path, PathBuf};
use std::process::Command;
use std::{env, fs, process};

const REPEAT: u64 = 800;

fn main() {
    let folder = env::temp_dir().join(format!("makxirund-figures-{}", process::id()));
    fs::create_dir_all(&folder).expect("the temporary folder can be written");
    let figures = Figures {
        own: env::current_exe().expect("a running program has a place"),
        out: folder.join("callgrind.out"),
    };
    figures.dispatcher();
    println!();
    figures.core_sets();
    fs::remove_dir_all(&folder).expect("the temporary folder can be removed");
}

struct Figures {
    /// This program; those that it measures stand beside it.
    own: PathBuf,
    out: PathBuf,
}

impl Figures {
    fn dispatcher(&self) {
        println!("| Call | Chain | Cores | Ready | Moves | Library | Rust | Library/Rust |");
        println!("|---|---|--:|--:|--:|--:|--:|--:|");
        for call in ["wake", "block"] {
            for chain in ["typical", "worst"] {
                for cores in [4, 8, 16, 32] {
                    for ready in [16, 64, 128] {
                        self.dispatcher_row(call, chain, cores, ready);
                    }
                }
            }
        }
        // A delete of a ready task is a block and a little more: the ends of the ranges tell how much.
        for chain in ["typical", "worst", "asleep"] {
            for cores in [4, 32] {
                for ready in [16, 128] {
                    self.dispatcher_row("delete", chain, cores, ready);
                }
            }
        }
    }

    fn core_sets(&self) {
        println!("| Call | Set | Limit | Bytes | Library | Rust | Library/Rust |");
        println!("|---|---|--:|--:|--:|--:|--:|");
        for call in ["read_list", "write_list", "read_mask", "write_mask"] {
            for limit in [32, 64] {
                for set in ["short", "full", "pairs"] {
                    self.core_sets_row(call, set, limit);
                }
            }
        }
        self.core_sets_row("read_list", "nines", 64);
    }

    fn dispatcher_row(&self, call: &str, chain: &str, cores: u32, ready: u32) {
        let words = [call, &cores.to_string(), &ready.to_string(), chain];
        let (moves, counts) = self.measured("bench", &words);
        println!("| {call} | {chain} | {cores} | {ready} | {moves} | {counts} |");
    }

    fn core_sets_row(&self, call: &str, set: &str, limit: u32) {
        let (bytes, counts) = self.measured("bench_core_sets", &[call, set, &limit.to_string()]);
        println!("| {call} | {set} | {limit} | {bytes} | {counts} |");
    }

    /// What the program tells of a call, and the last three cells of the call's row.
    fn measured(&self, program: &str, words: &[&str]) -> (String, String) {
        let run = |side| self.collected(program, side, words);
        let (none, told) = run("none");
        let each = |side| (run(side).0 - none) as f64 / REPEAT as f64;
        let (library, rust) = (each("library"), each("rust"));
        let ratio = library / rust;
        (told, format!("{library:.0} | {rust:.0} | {ratio:.2}"))
    }

    /// All instructions of one run, and the moves or bytes that it tells of its calls.
    fn collected(&self, program: &str, side: &str, words: &[&str]) -> (u64, String) {
        let out = format!("--callgrind-out-file={}", Path::display(&self.out));
        let run = Command::new("valgrind")
            .args(["--tool=callgrind", &out])
            .arg(self.own.with_file_name(program))
            .arg(side)
            .args(words)
            .arg(REPEAT.to_string())
            .output()
            .expect("valgrind can be started");
        let told = String::from_utf8_lossy(&run.stderr);
        assert!(run.status.success(), "{program} failed: {told}");
        let collected = told
            .lines()
            .find_map(|line| line.split("Collected : ").nth(1)?.trim().parse().ok())
            .expect("callgrind tells what it collected");
        let said = String::from_utf8_lossy(&run.stdout);
        let of_calls = said.split_whitespace().nth(1);
        let of_calls = of_calls.expect("a second word tells of the calls");
        (collected, of_calls.to_string())
    }
}
