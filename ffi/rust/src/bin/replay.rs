//! Reads an event file on standard input and prints its lines, by the plain implementation alone.

use std::io::{self, BufWriter, Read, Write};

use makxirund::layout::{answer, Dispatcher, Line, LONGEST_FILE};
use makxirund::paper;

fn main() -> io::Result<()> {
    // One byte more than the longest legal file is enough to judge every input.
    let mut file = Vec::new();
    let most = LONGEST_FILE as u64 + 1;
    io::stdin().lock().take(most).read_to_end(&mut file)?;

    let mut out = BufWriter::new(io::stdout().lock());
    let mut buffer = [0; 192];
    let layout = paper::read(&file);
    if layout.number != answer::DONE {
        let written = paper::write_fault(layout.number, layout.offset, &mut buffer);
        out.write_all(&buffer[..written.length])?;
        return out.flush();
    }

    let mut d = Dispatcher::empty(1);
    paper::fresh(&mut d, layout.cores);
    for index in 0..layout.records {
        let record = paper::record(&file, index);
        let line = Line {
            number: index as u32 + 1,
            kind: 0,
            slot: record.slot,
            report: paper::create(&mut d, record.slot, record.priority, record.mask),
        };
        let written = paper::write_line(&line, &d, &mut buffer);
        out.write_all(&buffer[..written.length])?;
    }
    for index in 0..layout.events {
        let event = paper::event(&file, index);
        let line = Line {
            number: (layout.records + index) as u32 + 1,
            kind: event.kind,
            slot: event.slot,
            report: match event.kind {
                1 => paper::wake(&mut d, event.slot),
                2 => paper::block(&mut d, event.slot),
                _ => paper::delete(&mut d, event.slot),
            },
        };
        let written = paper::write_line(&line, &d, &mut buffer);
        out.write_all(&buffer[..written.length])?;
    }
    out.flush()
}
