//! The paper's own cases through the safe wrappers: its listing byte for byte, the cases it marks,
//! and the shapes that cross the interface.

use std::io::Write;
use std::mem::{align_of, offset_of, size_of};
use std::process::{Command, Stdio};

use makxirund::{
    event, read, record, write_fault, Answer, Dispatcher, FileEvent, FileRecord, Layout, Line,
    LoadReport, Reading, Report, Task, TaskRecord, Written,
};

const FILE: [u8; 44] = [
    0x03, 0x04, 0x00, 0x32, 0x03, 0x00, 0x00, 0x00, 0x01, 0x28, 0x06, 0x00, 0x00, 0x00, 0x02, 0x1E,
    0x01, 0x00, 0x00, 0x00, 0x05, 0x1E, 0x04, 0x00, 0x00, 0x00, 0x08, 0x00, 0x01, 0x00, 0x01, 0x01,
    0x01, 0x02, 0x01, 0x05, 0x02, 0x00, 0x01, 0x05, 0x01, 0x00, 0x03, 0x05,
];

const LISTING: &str = "\
1 C 0 0 0 - - -,-,-
2 C 1 0 0 - - -,-,-
3 C 2 0 0 - - -,-,-
4 C 5 0 0 - - -,-,-
5 W 0 0 0 0 - 0,-,-
6 W 1 0 0 1 - 0,1,-
7 W 2 0 2 2 - 2,0,1
8 W 5 0 0 - - 2,0,1
9 B 0 0 1 5 - 2,1,5
10 W 5 9 0 - - 2,1,5
11 W 0 0 1 0 5 2,0,1
12 D 5 0 0 - - 2,0,1
";

/// The listing with a delete of slot 0 where line 9 blocks it: it reports as the block, line 11
/// finds the slot empty, and on line 12 nobody waits for the core of slot 5.
fn early_delete() -> ([u8; 44], String) {
    let mut file = FILE;
    assert_eq!(file[36..38], [2, 0]);
    file[36] = 3;
    let changed = "\
9 D 0 0 1 5 - 2,1,5
10 W 5 9 0 - - 2,1,5
11 W 0 5 0 - - 2,1,5
12 D 5 0 0 - - 2,1,-
";
    let kept = LISTING.split_inclusive('\n').take(8);
    (file, kept.chain([changed]).collect())
}

/// What the project's small program prints, by the library alone.
fn replayed(file: &[u8]) -> String {
    let mut text = String::new();
    let mut buffer = [0; 192];
    let layout = read(file);
    if layout.number != 0 {
        let written = write_fault(layout.number, layout.offset, &mut buffer);
        return String::from_utf8(buffer[..written.length].to_vec()).unwrap();
    }
    let (report, mut d) = Dispatcher::fresh(layout.cores);
    assert_eq!(report, Report::plain(0));
    let mut number = 0;
    let mut line = |d: &Dispatcher, kind, slot, report| {
        number += 1;
        let line = Line {
            number,
            kind,
            slot,
            report,
        };
        let written = d.write_line(&line, &mut buffer);
        assert_eq!(written.number, 0);
        text.push_str(std::str::from_utf8(&buffer[..written.length]).unwrap());
    };
    for index in 0..usize::from(layout.records) {
        let FileRecord {
            found,
            slot,
            priority,
            mask,
        } = record(file, index);
        assert!(found);
        let report = d.create(slot, priority, mask);
        line(&d, 0, slot, report);
    }
    for index in 0..usize::from(layout.events) {
        let FileEvent { found, kind, slot } = event(file, index);
        assert!(found);
        let report = match kind {
            1 => d.wake(slot),
            2 => d.block(slot),
            3 => d.delete(slot),
            _ => unreachable!("the layout was accepted"),
        };
        line(&d, kind, slot, report);
    }
    text
}

#[test]
fn the_listing_comes_out_byte_for_byte() {
    assert_eq!(replayed(&FILE), LISTING);
    let (file, lines) = early_delete();
    assert_eq!(replayed(&file), lines);
}

#[test]
fn replay_prints_the_listing_too() {
    let run = |file: &[u8]| {
        let mut child = Command::new(env!("CARGO_BIN_EXE_replay"))
            .stdin(Stdio::piped())
            .stdout(Stdio::piped())
            .spawn()
            .unwrap();
        child.stdin.take().unwrap().write_all(file).unwrap();
        String::from_utf8(child.wait_with_output().unwrap().stdout).unwrap()
    };
    assert_eq!(run(&FILE), LISTING);
    let (file, lines) = early_delete();
    assert_eq!(run(&file), lines);
    assert_eq!(run(&[1, 0, 0, 0]), "");
    assert_eq!(run(&[]), "refused 12 at 0\n");
    assert_eq!(run(&FILE[..43]), "refused 12 at 43\n");
}

#[test]
fn layout_faults_print_one_line() {
    assert_eq!(replayed(&[]), "refused 12 at 0\n");
    assert_eq!(replayed(&[0]), "refused 2 at 0\n");
    assert_eq!(replayed(&[33]), "refused 2 at 0\n");
    assert_eq!(replayed(&[1, 0, 0x81, 0x3E]), "refused 16 at 2\n");
    assert_eq!(replayed(&[1, 0, 0, 0, 0]), "refused 13 at 4\n");
    assert_eq!(replayed(&[1, 0, 1, 0, 4]), "refused 14 at 4\n");
    assert_eq!(replayed(&[1, 0, 0, 0]), "");
    for length in 0..FILE.len() {
        assert_eq!(
            replayed(&FILE[..length]),
            format!("refused 12 at {length}\n")
        );
    }
}

#[test]
fn fresh_takes_1_to_32_cores() {
    for cores in 0..=255 {
        let (report, d) = Dispatcher::fresh(cores);
        let legal = (1..=32).contains(&cores);
        assert_eq!(report, Report::plain(if legal { 0 } else { 2 }));
        assert_eq!(d, Dispatcher::empty(if legal { cores } else { 1 }));
        assert_eq!(d.sound(), Answer::SOUND);
    }
}

#[test]
fn create_refuses_what_the_paper_marks() {
    let (_, mut d) = Dispatcher::fresh(1);
    assert_eq!(d.create(0, 1, 2), Report::plain(8));
    assert_eq!(d, Dispatcher::empty(1));
    assert_eq!(d.create(127, 1, 1), Report::plain(0));
    assert_eq!(
        d.tasks[127],
        Task {
            priority: 1,
            mask: 1
        }
    );
    assert_eq!(d.create(128, 1, 1), Report::plain(3));
    assert_eq!(d.create(300, 0, 0), Report::plain(3));
    assert_eq!(d.create(127, 0, 0), Report::plain(4));
    assert_eq!(d.create(0, 0, 0), Report::plain(6));
    assert_eq!(d.create(0, 1, 0), Report::plain(7));
}

#[test]
fn load_creates_all_or_none() {
    let (_, mut d) = Dispatcher::fresh(2);
    let answered = |number, index| LoadReport {
        report: Report::plain(number),
        index,
    };
    let record = |slot, priority, mask| TaskRecord {
        slot,
        priority,
        mask,
    };
    assert_eq!(d.load(&[]), answered(0, 0));
    let twice = [record(0, 1, 1), record(1, 1, 3), record(0, 0, 4)];
    assert_eq!(d.load(&twice), answered(4, 2));
    assert_eq!(d, Dispatcher::empty(2));
    assert_eq!(d.load(&twice[..2]), answered(0, 0));
    assert_eq!(d.tasks[1].mask, 3);
}

#[test]
fn shapes_are_as_the_interface_says() {
    macro_rules! offsets {
        ($shape:ty, $($field:ident)*) => {
            [$(offset_of!($shape, $field)),*]
        };
    }
    let size = |bytes, align| (bytes, align);
    assert_eq!((size_of::<Task>(), align_of::<Task>()), size(8, 4));
    assert_eq!(offsets!(Task, priority mask), [0, 4]);
    assert_eq!(
        (size_of::<Dispatcher>(), align_of::<Dispatcher>()),
        size(1348, 4)
    );
    assert_eq!(
        offsets!(Dispatcher, cores tasks order seats),
        [0, 4, 1028, 1284]
    );
    assert_eq!((size_of::<Answer>(), align_of::<Answer>()), size(4, 2));
    assert_eq!(offsets!(Answer, number place), [0, 2]);
    assert_eq!((size_of::<Report>(), align_of::<Report>()), size(8, 2));
    assert_eq!(
        offsets!(Report, number moves started stopped place),
        [0, 1, 2, 4, 6]
    );
    assert_eq!(
        (size_of::<TaskRecord>(), align_of::<TaskRecord>()),
        size(8, 4)
    );
    assert_eq!(offsets!(TaskRecord, slot priority mask), [0, 2, 4]);
    assert_eq!(
        (size_of::<LoadReport>(), align_of::<LoadReport>()),
        size(16, 8)
    );
    assert_eq!(offsets!(LoadReport, report index), [0, 8]);
    assert_eq!((size_of::<Layout>(), align_of::<Layout>()), size(32, 8));
    assert_eq!(
        offsets!(Layout, number cores records events offset),
        [0, 1, 8, 16, 24]
    );
    assert_eq!(
        (size_of::<FileRecord>(), align_of::<FileRecord>()),
        size(12, 4)
    );
    assert_eq!(offsets!(FileRecord, found slot priority mask), [0, 2, 4, 8]);
    assert_eq!(
        (size_of::<FileEvent>(), align_of::<FileEvent>()),
        size(4, 2)
    );
    assert_eq!(offsets!(FileEvent, found kind slot), [0, 1, 2]);
    assert_eq!((size_of::<Line>(), align_of::<Line>()), size(16, 4));
    assert_eq!(offsets!(Line, number kind slot report), [0, 4, 6, 8]);
    assert_eq!((size_of::<Written>(), align_of::<Written>()), size(16, 8));
    assert_eq!(offsets!(Written, number place length), [0, 2, 8]);
    assert_eq!((size_of::<Reading>(), align_of::<Reading>()), size(24, 8));
    assert_eq!(offsets!(Reading, number offset set), [0, 8, 16]);
}
