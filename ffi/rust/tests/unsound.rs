//! The stored dumps of dispatchers, number and place worked out by hand: through the library and
//! through the plain implementation.

use std::fs;

use makxirund::paper;
use makxirund::{Answer, Dispatcher, Report, Task};

const FOLDER: &str = concat!(env!("CARGO_MANIFEST_DIR"), "/../../crates/unsound");

/// The dispatcher whose bytes, by the layout of the C header, these are.
fn dispatcher(dump: &[u8]) -> Dispatcher {
    assert_eq!(dump.len(), 1348);
    let word = |at: usize| u16::from_le_bytes([dump[at], dump[at + 1]]);
    let mut d = Dispatcher::empty(dump[0]);
    for (slot, task) in d.tasks.iter_mut().enumerate() {
        let at = 4 + 8 * slot;
        *task = Task {
            priority: dump[at],
            mask: u32::from(word(at + 4)) | u32::from(word(at + 6)) << 16,
        };
    }
    for (place, slot) in d.order.iter_mut().enumerate() {
        *slot = word(1028 + 2 * place);
    }
    for (core, slot) in d.seats.iter_mut().enumerate() {
        *slot = word(1284 + 2 * core);
    }
    d
}

#[test]
fn stored_dumps_are_answered_as_worked_out() {
    let lines = fs::read_to_string(format!("{FOLDER}/stdout")).unwrap();
    let mut met = [0; 26];
    for line in lines.lines() {
        let words: Vec<&str> = line.split(' ').collect();
        let [name, number, place] = words[..] else {
            panic!("{line}");
        };
        let answer = Answer {
            number: number.parse().unwrap(),
            place: place.parse().unwrap(),
        };
        let mut d = dispatcher(&fs::read(format!("{FOLDER}/data/{name}")).unwrap());
        assert_eq!(d.sound(), answer, "{name}");
        assert_eq!(paper::sound(&d), answer, "{name}");
        if answer != Answer::SOUND {
            assert_eq!(d.wake(300), Report::unsound(answer), "{name}");
            assert_eq!(paper::wake(&mut d, 300), Report::unsound(answer), "{name}");
        }
        met[usize::from(answer.number)] += 1;
    }
    for number in [0, 21, 22, 23, 24, 25] {
        assert!(met[number] >= 10, "{number}: {} dumps", met[number]);
    }
}
