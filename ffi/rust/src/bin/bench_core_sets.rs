//! One call on a core set over and over, to be run under callgrind:
//! `bench_core_sets SIDE CALL SET LIMIT REPEAT`.
//!
//! SIDE is `library`, `rust` or `none` (all but the call), CALL is `read_list`, `write_list`,
//! `read_mask` or `write_mask`, LIMIT is 15 to 64, SET is `short`, `full` or `pairs`, or `nines` for
//! a List text that is refused. Instructions per call are the difference to `none`, divided by
//! REPEAT.

use std::hint::black_box;
use std::{env, process};

use makxirund::layout::{Reading, Written, LIST_ROOM};
use makxirund::paper::core_sets as paper;

type Reader = fn(&[u8], u8) -> Reading;
type Writer = fn(u64, u8, &mut [u8]) -> Written;

fn no_read(_: &[u8], _: u8) -> Reading {
    Reading {
        number: 0,
        offset: 0,
        set: 0,
    }
}

fn no_write(_: u64, _: u8, _: &mut [u8]) -> Written {
    Written::done(0)
}

fn main() {
    let words: Vec<String> = env::args().skip(1).collect();
    let words: Vec<&str> = words.iter().map(String::as_str).collect();
    let &[side, call, set, limit, repeat] = &words[..] else {
        usage()
    };
    let (Ok(limit @ 15..=64), Ok(repeat)) = (limit.parse(), repeat.parse()) else {
        usage()
    };
    let bench = Bench {
        side,
        limit,
        repeat,
    };
    if (call, set) == ("read_list", "nines") {
        return bench.read(makxirund::read_list, paper::read_list, &"9".repeat(1000));
    }
    let set = cores(set, limit);
    let (list, mask) = (paper::list_text(set), paper::mask_text(set, limit));
    match call {
        "read_list" => bench.read(makxirund::read_list, paper::read_list, &list),
        "read_mask" => bench.read(makxirund::read_mask, paper::read_mask, &mask),
        "write_list" => bench.write(makxirund::write_list, paper::write_list, set),
        "write_mask" => bench.write(makxirund::write_mask, paper::write_mask, set),
        _ => usage(),
    }
}

/// The set of a name; no List text is longer than that of runs of two, one core apart.
fn cores(set: &str, limit: u8) -> u64 {
    let chosen: fn(&u8) -> bool = match set {
        "short" => |core| matches!(core, 0..=2 | 7 | 12..=14),
        "full" => |_| true,
        "pairs" => |core| core % 3 < 2,
        _ => usage(),
    };
    (0..limit)
        .filter(chosen)
        .fold(0, |set, core| set | 1 << core)
}

struct Bench<'a> {
    side: &'a str,
    limit: u8,
    repeat: usize,
}

impl Bench<'_> {
    fn read(&self, library: Reader, rust: Reader, text: &str) {
        let (text, limit) = (text.as_bytes(), self.limit);
        assert_eq!(library(text, limit), rust(text, limit));
        println!("bytes {}", text.len());
        let call = black_box(self.of_side(library, rust, no_read));
        for _ in 0..self.repeat {
            black_box(call(black_box(text), limit));
        }
    }

    fn write(&self, library: Writer, rust: Writer, set: u64) {
        let (mut text, mut same, limit) = ([0; LIST_ROOM], [0; LIST_ROOM], self.limit);
        let written = library(set, limit, &mut text);
        assert_eq!((&written, text), (&rust(set, limit, &mut same), same));
        println!("bytes {}", written.length);
        let call = black_box(self.of_side(library, rust, no_write));
        for _ in 0..self.repeat {
            black_box(call(black_box(set), limit, black_box(&mut text)));
        }
    }

    fn of_side<F>(&self, library: F, rust: F, none: F) -> F {
        match self.side {
            "library" => library,
            "rust" => rust,
            "none" => none,
            _ => usage(),
        }
    }
}

fn usage() -> ! {
    eprintln!(
        "usage: bench_core_sets library|rust|none read_list|write_list|read_mask|write_mask short|full|pairs|nines LIMIT REPEAT"
    );
    process::exit(2)
}
