//! The hex exchange: models in, answers out.

use crate::method::Answer;
use crate::model::{
    coefficient_in_range, reference_in_range, Header, ModelRow, Tables, Transition,
};
use crate::row::WIDTH;
use crate::set::MOST;

pub const LONGEST: usize = 65_536;

/// A model from its lines, with the refusals 7 and 8 at the end.
pub fn read_checked(bytes: &[u8]) -> Result<Tables, u8> {
    let tables = read(bytes)?;
    tables.checked_reference()?;
    Ok(tables)
}

/// A model from its lines, refusals 1 to 6.
pub fn read(bytes: &[u8]) -> Result<Tables, u8> {
    if bytes.len() > LONGEST {
        return Err(1);
    }
    let mut reader = Reader::default();
    let mut rest = bytes;
    while !rest.is_empty() {
        let end = rest.iter().position(|&b| b == b'\n').ok_or(1)?;
        reader.line(&rest[..end])?;
        rest = &rest[end + 1..];
    }
    reader.finished()
}

/// What has been read so far.
#[derive(Default)]
struct Reader {
    header: Option<Header>,
    reference: Option<(i64, Vec<i64>)>,
    transitions: Vec<Transition>,
    rows: Vec<ModelRow>,
}

impl Reader {
    fn line(&mut self, line: &[u8]) -> Result<(), u8> {
        let frame = decoded(line).ok_or(1)?;
        let (&kind, _) = frame.split_first().ok_or(1)?;
        if !(1..=4).contains(&kind) {
            return Err(1);
        }
        match self.header {
            None => self.before_header(kind, &frame),
            Some(header) => self.after_header(header, kind, &frame),
        }
    }

    /// Without a header the lengths of the other kinds are not yet known.
    fn before_header(&mut self, kind: u8, frame: &[u8]) -> Result<(), u8> {
        if kind != 1 {
            return Err(2);
        }
        if frame.len() != 5 {
            return Err(1);
        }
        let header = Header {
            clocks: frame[1],
            parameters: frame[2],
            locations: frame[3],
            transitions: frame[4],
        };
        if !header.in_range() {
            return Err(3);
        }
        self.header = Some(header);
        Ok(())
    }

    fn after_header(&mut self, header: Header, kind: u8, frame: &[u8]) -> Result<(), u8> {
        if Some(frame.len()) != due_length(&header, kind, frame) {
            return Err(1);
        }
        if !self.in_order(&header, kind) {
            return Err(2);
        }
        match kind {
            2 => self.take_reference(frame),
            4 => self.take_transition(&header, frame),
            _ => self.take_row(&header, frame),
        }
    }

    /// 02 once and first, then every 04, then at most 128 of 03.
    fn in_order(&self, header: &Header, kind: u8) -> bool {
        let referred = self.reference.is_some();
        let all_moves = self.transitions.len() == usize::from(header.transitions);
        match kind {
            2 => !referred,
            4 => referred && !all_moves,
            3 => referred && all_moves && self.rows.len() < MOST,
            _ => false,
        }
    }

    fn take_reference(&mut self, frame: &[u8]) -> Result<(), u8> {
        let numbers: Vec<i64> = frame[1..].chunks(4).map(signed).collect();
        let (&denominator, numerators) = numbers.split_first().ok_or(4)?;
        if !reference_in_range(denominator, numerators) {
            return Err(4);
        }
        self.reference = Some((denominator, numerators.to_vec()));
        Ok(())
    }

    fn take_transition(&mut self, header: &Header, frame: &[u8]) -> Result<(), u8> {
        let transition = Transition {
            source: frame[1],
            action: frame[2],
            target: frame[3],
            resets: frame[4],
        };
        if !header.declares_transition(&transition) {
            return Err(5);
        }
        self.transitions.push(transition);
        Ok(())
    }

    /// Every counted term is looked at for 5 before anything is for 6.
    fn take_row(&mut self, header: &Header, frame: &[u8]) -> Result<(), u8> {
        let (kind, owner, strict, count) = (frame[1], frame[2], frame[3], frame[4]);
        let terms = terms(&frame[5..]);
        let declared = terms.iter().all(|&(e, _)| header.declares_entry(kind, e));
        if !header.declares_owner(kind, owner) || strict > 1 || !declared {
            return Err(5);
        }
        if !(1..=15).contains(&count) || !well_formed(&terms) {
            return Err(6);
        }
        let mut entries = [0; WIDTH];
        for (entry, coefficient) in terms {
            entries[entry] = coefficient;
        }
        self.rows.push(ModelRow {
            kind,
            owner,
            strict,
            entries,
        });
        Ok(())
    }

    fn finished(self) -> Result<Tables, u8> {
        let header = self.header.ok_or(2)?;
        let (denominator, numerators) = self.reference.ok_or(2)?;
        if self.transitions.len() != usize::from(header.transitions) {
            return Err(2);
        }
        Ok(Tables {
            header,
            denominator,
            numerators,
            transitions: self.transitions,
            row_count: self.rows.len(),
            rows: self.rows,
        })
    }
}

/// Bytes a frame of the kind has once the header is known; a row frame too short to
/// hold its own count has no right length.
fn due_length(header: &Header, kind: u8, frame: &[u8]) -> Option<usize> {
    match kind {
        2 => Some(5 + 4 * usize::from(header.parameters)),
        3 => frame.get(4).map(|&count| 5 + 5 * usize::from(count)),
        _ => Some(5),
    }
}

fn terms(bytes: &[u8]) -> Vec<(usize, i64)> {
    bytes
        .chunks(5)
        .map(|term| (usize::from(term[0]), signed(&term[1..])))
        .collect()
}

fn well_formed(terms: &[(usize, i64)]) -> bool {
    terms.windows(2).all(|two| two[0].0 < two[1].0)
        && terms.iter().all(|&(_, c)| coefficient_in_range(c))
}

/// Four bytes, highest first, in two's complement.
fn signed(bytes: &[u8]) -> i64 {
    let unsigned = bytes.iter().fold(0i64, |n, &b| n * 256 + i64::from(b));
    if unsigned >= 1 << 31 {
        unsigned - (1 << 32)
    } else {
        unsigned
    }
}

/// The bytes of a line, or nothing if a character is foreign or their number odd.
fn decoded(line: &[u8]) -> Option<Vec<u8>> {
    if line.len() & 1 == 1 {
        return None;
    }
    line.chunks(2)
        .map(|two| Some(digit(two[0])? * 16 + digit(two[1])?))
        .collect()
}

fn digit(character: u8) -> Option<u8> {
    match character {
        b'0'..=b'9' => Some(character - b'0'),
        b'A'..=b'F' => Some(character - b'A' + 10),
        _ => None,
    }
}

/// One frame as a line.
pub fn line(bytes: &[u8]) -> String {
    let mut text: String = bytes.iter().map(|b| format!("{b:02X}")).collect();
    text.push('\n');
    text
}

/// The answer as the program prints it.
pub fn answer_lines(answer: &Answer) -> String {
    let mut bytes = vec![5, answer.outcome];
    bytes.extend((answer.states as u16).to_be_bytes());
    bytes.extend((answer.attempts as u16).to_be_bytes());
    bytes.extend((answer.formed as u32).to_be_bytes());
    bytes.push(answer.region.len() as u8);
    let mut text = line(&bytes);
    for row in &answer.region {
        let terms: Vec<(u8, i32)> = (0..WIDTH)
            .filter(|&i| row.entries[i] != 0)
            .map(|i| (i as u8, row.entries[i] as i32))
            .collect();
        text += &line(&row_frame(0, 0, u8::from(row.strict), &terms));
    }
    text
}

/// A row frame whose count is the number of its terms.
pub fn row_frame(kind: u8, owner: u8, strict: u8, terms: &[(u8, i32)]) -> Vec<u8> {
    let mut bytes = vec![3, kind, owner, strict, terms.len() as u8];
    for &(entry, coefficient) in terms {
        bytes.push(entry);
        bytes.extend(coefficient.to_be_bytes());
    }
    bytes
}

/// A reference frame.
pub fn reference_frame(denominator: i32, numerators: &[i32]) -> Vec<u8> {
    let mut bytes = vec![2];
    bytes.extend(denominator.to_be_bytes());
    for numerator in numerators {
        bytes.extend(numerator.to_be_bytes());
    }
    bytes
}

/// Tables written in frames, in the order of kinds; nothing is checked.
pub fn written(tables: &Tables) -> String {
    let h = &tables.header;
    let mut text = line(&[1, h.clocks, h.parameters, h.locations, h.transitions]);
    let declared = tables.numerators.iter().take(usize::from(h.parameters));
    let numerators: Vec<i32> = declared.map(|&n| n as i32).collect();
    text += &line(&reference_frame(tables.denominator as i32, &numerators));
    for t in tables.transitions.iter().take(usize::from(h.transitions)) {
        text += &line(&[4, t.source, t.action, t.target, t.resets]);
    }
    for row in tables.rows.iter().take(tables.row_count) {
        let terms: Vec<(u8, i32)> = (0..WIDTH)
            .filter(|&i| row.entries[i] != 0)
            .map(|i| (i as u8, row.entries[i] as i32))
            .collect();
        text += &line(&row_frame(row.kind, row.owner, row.strict, &terms));
    }
    text
}
