//! "Every record starts with a two-byte mark. Two- and four-byte fields have the low byte first."

/// Bytes of a contract record.
pub const RECORD_BYTES: usize = 6;

/// The mark of a contract record.
pub const CONTRACT_MARK: [u8; 2] = [0x54, 0x43];
/// The mark of a narrow period record.
pub const NARROW_MARK: [u8; 2] = [0x54, 0x50];
/// The mark of a wide period record.
pub const WIDE_MARK: [u8; 2] = [0x54, 0x51];
/// The mark of a log record.
pub const LOG_MARK: [u8; 2] = [0x54, 0x4c];
/// The mark of a row.
pub const ROW_MARK: [u8; 2] = [0x54, 0x52];
/// The mark of an image's end record.
pub const END_MARK: [u8; 2] = [0x54, 0x45];

/// "Actions run from 0 to 31 in contracts and images."
pub const MAX_ACTION: u8 = 31;

/// "A refusal gives its number and a place."
#[derive(Clone, Copy, Debug, PartialEq, Eq)]
pub struct Refusal {
    pub number: u32,
    pub place: u64,
}

/// The refusal of that number at that place.
pub fn refused<T>(number: u32, place: usize) -> Result<T, Refusal> {
    Err(Refusal {
        number,
        place: place as u64,
    })
}

/// The two-byte field at `at`.
pub fn two_bytes(bytes: &[u8], at: usize) -> u16 {
    u16::from_le_bytes([bytes[at], bytes[at + 1]])
}

/// The four-byte field at `at`.
pub fn four_bytes(bytes: &[u8], at: usize) -> u32 {
    u32::from_le_bytes([bytes[at], bytes[at + 1], bytes[at + 2], bytes[at + 3]])
}

/// "Party (1 or 2)."
#[derive(Clone, Copy, Debug, PartialEq, Eq)]
pub enum Party {
    One,
    Two,
}

impl Party {
    /// The party of that number, if there is one.
    pub fn of_number(number: usize) -> Option<Party> {
        match number {
            1 => Some(Party::One),
            2 => Some(Party::Two),
            _ => None,
        }
    }

    /// Its number, which is that of the blame on it alone too.
    pub fn number(self) -> u8 {
        match self {
            Party::One => 1,
            Party::Two => 2,
        }
    }

    /// The other party: "p is the record's party, q the other".
    pub fn other(self) -> Party {
        match self {
            Party::One => Party::Two,
            Party::Two => Party::One,
        }
    }
}

/// The form, or sort, of a period record. The narrow has "two bytes of party 1's attempts, two of
/// party 2's", the wide "four bytes of attempts for each party".
#[derive(Clone, Copy, Debug, PartialEq, Eq)]
pub enum Form {
    Narrow,
    Wide,
}

impl Form {
    /// Both forms.
    pub const ALL: [Form; 2] = [Form::Narrow, Form::Wide];

    /// The form whose mark these bytes start with, if there is one.
    pub fn of_mark(bytes: &[u8]) -> Option<Form> {
        let starts = |form: &Form| bytes.starts_with(&form.mark());
        Form::ALL.into_iter().find(starts)
    }

    /// The other form.
    pub fn other(self) -> Form {
        match self {
            Form::Narrow => Form::Wide,
            Form::Wide => Form::Narrow,
        }
    }

    /// The mark of its records.
    pub const fn mark(self) -> [u8; 2] {
        match self {
            Form::Narrow => NARROW_MARK,
            Form::Wide => WIDE_MARK,
        }
    }

    /// Bytes of one party's attempts.
    pub const fn mask_bytes(self) -> usize {
        match self {
            Form::Narrow => 2,
            Form::Wide => 4,
        }
    }

    /// Bytes of its records, 6 or 10: the mark, then the attempts of both parties.
    pub const fn record_bytes(self) -> usize {
        self.mark().len() + 2 * self.mask_bytes()
    }
}

/// The attempts of both parties in one period: "the meaning ranges over periods of 32 actions".
#[derive(Clone, Copy, Debug, PartialEq, Eq)]
pub struct Period {
    pub one: u32,
    pub two: u32,
}

impl Period {
    /// The period of a whole record of that form; of a narrow one "its upper sixteen actions never
    /// tried".
    pub fn of_record(form: Form, record: &[u8]) -> Period {
        let (one, two) = record[form.mark().len()..].split_at(form.mask_bytes());
        let attempts = |bytes: &[u8]| {
            let mut mask = [0; 4];
            mask[..bytes.len()].copy_from_slice(bytes);
            u32::from_le_bytes(mask)
        };
        Period {
            one: attempts(one),
            two: attempts(two),
        }
    }

    /// The record of the period in that form; a narrow one leaves out the upper sixteen actions.
    pub fn record(self, form: Form) -> Vec<u8> {
        let mut record = form.mark().to_vec();
        for attempts in [self.one, self.two] {
            record.extend(&attempts.to_le_bytes()[..form.mask_bytes()]);
        }
        record
    }

    /// "Bit a is set when the party tries action a."
    pub fn tries(self, party: Party, action: u8) -> bool {
        let attempts = match party {
            Party::One => self.one,
            Party::Two => self.two,
        };
        attempts >> action & 1 == 1
    }

    /// "An action succeeds when both try it."
    pub fn succeeds(self, action: u8) -> bool {
        self.tries(Party::One, action) && self.tries(Party::Two, action)
    }
}

/// The form of a trace, or of a step's one record: "its first record's mark fixes the sort", and
/// without a byte there is none. Or refusal 11 at 0: "the first record's mark is now tested before
/// the length, and a single byte is a bad length".
pub fn form_of(records: &[u8]) -> Result<Option<Form>, Refusal> {
    match records {
        [] => Ok(None),
        [_] => refused(11, 0),
        _ => match Form::of_mark(&records[..2]) {
            None => refused(11, 0),
            form => Ok(form),
        },
    }
}

/// How many records of that form a trace of that length has, or refusal 11 at 0 if it has not just
/// whole ones.
pub fn count_records(form: Form, length: usize) -> Result<usize, Refusal> {
    if !length.is_multiple_of(form.record_bytes()) {
        return refused(11, 0);
    }
    Ok(length / form.record_bytes())
}

/// The period of the record of that number in a trace of that form, or refusal 11: "period record
/// of wrong mark (its number)", also for "a later record of the other" sort.
pub fn read_record(form: Form, record: &[u8], number: usize) -> Result<Period, Refusal> {
    if record[..2] != form.mark() {
        return refused(11, number);
    }
    Ok(Period::of_record(form, record))
}

/// The periods of a trace, or refusal 11: the first record's mark, the length, the later marks.
pub fn read_trace(trace: &[u8]) -> Result<Vec<Period>, Refusal> {
    let Some(form) = form_of(trace)? else {
        return Ok(Vec::new());
    };
    let mut periods = Vec::with_capacity(count_records(form, trace.len())?);
    for (number, record) in trace.chunks(form.record_bytes()).enumerate() {
        periods.push(read_record(form, record, number)?);
    }
    Ok(periods)
}
