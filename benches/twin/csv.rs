//! Records of comma-separated fields, read as the crate `csv` reads them: through a table of states and classes of bytes into a record
//! that is used again.

use std::io::{self, ErrorKind, Read};

/// Where a record begins: its number, its byte and its line. The record is counted from 1, as the line is.
#[derive(Clone, Copy)]
pub struct Position {
    pub record: u64,
    pub byte: u64,
    pub line: u64,
}

#[derive(Clone, Copy, PartialEq, Eq)]
enum State {
    StartRecord,
    StartField,
    InField,
    InQuoted,
    AfterQuote,
}

#[derive(Clone, Copy)]
enum Action {
    Skip,
    Copy,
    EndField,
    EndRecord,
}

const OTHER: u8 = 0;
const QUOTE: u8 = 1;
const COMMA: u8 = 2;
const LINE_END: u8 = 3;

static CLASSES: [u8; 256] = {
    let mut classes = [OTHER; 256];
    classes[b'"' as usize] = QUOTE;
    classes[b',' as usize] = COMMA;
    classes[b'\r' as usize] = LINE_END;
    classes[b'\n' as usize] = LINE_END;
    classes
};

/// By state and class. A blank line is no record, so the LF of a CRLF is passed over as one.
static CELLS: [[(State, Action); 4]; 5] = {
    use Action::*;
    use State::*;
    [
        // Other, quote, comma, line end.
        [(InField, Copy), (InQuoted, Skip), (StartField, EndField), (StartRecord, Skip)],
        [(InField, Copy), (InQuoted, Skip), (StartField, EndField), (StartRecord, EndRecord)],
        [(InField, Copy), (InField, Copy), (StartField, EndField), (StartRecord, EndRecord)],
        [(InQuoted, Copy), (AfterQuote, Skip), (InQuoted, Copy), (InQuoted, Copy)],
        [(InField, Copy), (InQuoted, Copy), (StartField, EndField), (StartRecord, EndRecord)],
    ]
};

/// The bytes of a record's fields, and where each field ends. Both lists are as long as their room.
pub struct ByteRecord {
    bytes: Vec<u8>,
    ends: Vec<usize>,
    written: usize,
    fields: usize,
    position: Position,
}

impl ByteRecord {
    pub fn new() -> ByteRecord {
        ByteRecord {
            bytes: Vec::new(),
            ends: Vec::new(),
            written: 0,
            fields: 0,
            position: Position { record: 0, byte: 0, line: 0 },
        }
    }

    pub fn len(&self) -> usize {
        self.fields
    }

    pub fn get(&self, field: usize) -> Option<&[u8]> {
        let ends = &self.ends[..self.fields];
        let end = *ends.get(field)?;
        let start = if field == 0 { 0 } else { ends[field - 1] };
        self.bytes.get(start..end)
    }

    pub fn position(&self) -> Position {
        self.position
    }

    /// Room for a byte more, and for a field.
    fn make_room(&mut self) {
        if self.written == self.bytes.len() {
            self.bytes.resize((2 * self.written).max(16), 0);
        }
        if self.fields == self.ends.len() {
            self.ends.resize((2 * self.fields).max(4), 0);
        }
    }
}

pub struct Reader<R> {
    inner: R,
    buffer: Vec<u8>,
    /// What is not read yet stands from `at` to `filled`.
    at: usize,
    filled: usize,
    state: State,
    position: Position,
}

impl<R: Read> Reader<R> {
    pub fn new(inner: R) -> Reader<R> {
        Reader {
            inner,
            buffer: vec![0; 8192],
            at: 0,
            filled: 0,
            state: State::StartRecord,
            position: Position { record: 0, byte: 0, line: 1 },
        }
    }

    /// Reads the fields of the next record, if there is one.
    pub fn read_record(&mut self, record: &mut ByteRecord) -> io::Result<bool> {
        record.written = 0;
        record.fields = 0;
        self.position.record += 1;
        record.position = self.position;
        loop {
            if self.at == self.filled {
                self.fill()?;
                if self.filled == 0 {
                    return Ok(self.end(record));
                }
            }
            if self.feed(record) {
                return Ok(true);
            }
        }
    }

    /// Fills the empty buffer; the text's first bytes without a byte order mark.
    fn fill(&mut self) -> io::Result<()> {
        self.at = 0;
        self.filled = 0;
        let wanted = if self.position.byte == 0 { 3 } else { 1 };
        while self.filled < wanted {
            match self.inner.read(&mut self.buffer[self.filled..]) {
                Ok(0) => break,
                Ok(count) => self.filled += count,
                Err(error) if error.kind() == ErrorKind::Interrupted => {}
                Err(error) => return Err(error),
            }
        }
        if self.position.byte == 0 && self.buffer[..self.filled].starts_with(b"\xEF\xBB\xBF") {
            self.at = 3;
            self.position.byte = 3;
            if self.filled == 3 {
                return self.fill();
            }
        }
        Ok(())
    }

    /// The end of the text ends a record that has begun.
    fn end(&mut self, record: &mut ByteRecord) -> bool {
        if self.state == State::StartRecord {
            return false;
        }
        self.state = State::StartRecord;
        record.make_room();
        record.ends[record.fields] = record.written;
        record.fields += 1;
        true
    }

    /// Takes from the buffer up to the end of a record, as far as the record has room, and says whether it ended.
    fn feed(&mut self, record: &mut ByteRecord) -> bool {
        record.make_room();
        let input = &self.buffer[self.at..self.filled];
        let output = &mut record.bytes[record.written..];
        let ends = &mut record.ends[record.fields..];
        let (mut taken, mut copied, mut ended, mut lines) = (0, 0, 0, 0);
        let mut state = self.state;
        let mut found = false;
        while taken < input.len() && copied < output.len() && ended < ends.len() {
            let byte = input[taken];
            let (next, action) = CELLS[state as usize][CLASSES[byte as usize] as usize];
            state = next;
            taken += 1;
            lines += u64::from(byte == b'\n');
            match action {
                Action::Skip => {}
                Action::Copy => {
                    output[copied] = byte;
                    copied += 1;
                    while taken < input.len() && copied < output.len() && CLASSES[input[taken] as usize] == OTHER {
                        output[copied] = input[taken];
                        copied += 1;
                        taken += 1;
                    }
                }
                Action::EndField | Action::EndRecord => {
                    ends[ended] = record.written + copied;
                    ended += 1;
                    if matches!(action, Action::EndRecord) {
                        found = true;
                        break;
                    }
                }
            }
        }
        self.state = state;
        self.at += taken;
        self.position.byte += taken as u64;
        self.position.line += lines;
        record.written += copied;
        record.fields += ended;
        found
    }
}
