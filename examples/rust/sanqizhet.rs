//! The library's calls in safe Rust: slices in, `Result` out. Copy this file beside your own.

#[repr(C)]
#[derive(Clone, Copy)]
struct RefusalAnswer {
    number: u32,
    text: u32,
    layer: u32,
    line: usize,
    field: usize,
    node: usize,
}

#[repr(C)]
struct ReadAnswer {
    refusal: RefusalAnswer,
    count: usize,
}

#[repr(C)]
struct CheckAnswer {
    refusal: RefusalAnswer,
    line: u32,
    row: u32,
    ruling: u32,
}

#[repr(C)]
struct SettleAnswer {
    refusal: RefusalAnswer,
    ruling: u32,
    size: u32,
}

// No pointer may be null; that of a slice never is.
#[link(name = "c_api", kind = "static")]
extern "C" {
    fn sanqizhet_read_rules_nonnull(text: *const u8, text_bytes: usize) -> ReadAnswer;
    fn sanqizhet_read_log_nonnull(text: *const u8, text_bytes: usize) -> ReadAnswer;
    fn sanqizhet_check_nonnull(
        rules: *const u8,
        rules_bytes: usize,
        log: *const u8,
        log_bytes: usize,
        certificate: *const u8,
        certificate_bytes: usize,
    ) -> CheckAnswer;
    fn sanqizhet_settle_nonnull(
        rules: *const u8,
        rules_bytes: usize,
        log: *const u8,
        log_bytes: usize,
        line: usize,
        row: usize,
        out: *mut u8,
        out_bytes: usize,
    ) -> SettleAnswer;
}

/// Bytes of an output that is never too short: 4,096 nodes of six bytes.
pub const CERTIFICATE_BYTES: usize = 24576;

/// The ruling of a line at a row.
#[derive(Clone, Copy, Debug, PartialEq)]
pub enum Ruling {
    Held,
    Broken,
}

/// The text in which a fault stands.
#[derive(Clone, Copy, Debug, PartialEq)]
pub enum Text {
    Rules,
    Log,
}

/// What refuses a text.
#[derive(Clone, Copy, Debug, PartialEq)]
pub enum Layer {
    Text,
    Table,
    Log,
}

/// Where a fault stands.
#[derive(Clone, Copy, Debug, PartialEq)]
pub enum Place {
    /// In a text: the line from 1, and the field from 1 or 0 where none is told.
    Text {
        text: Text,
        layer: Layer,
        line: usize,
        field: usize,
    },
    /// At a node of the certificate, from 0; for 20, how many nodes there are.
    Node(usize),
    /// In the call as a whole.
    Call,
}

/// The number of the first question that is answered no, and where the fault stands.
#[derive(Clone, Copy, Debug, PartialEq)]
pub struct Refusal {
    pub number: u32,
    pub place: Place,
}

/// What a certificate proves.
#[derive(Clone, Copy, Debug, PartialEq)]
pub struct Claim {
    pub line: usize,
    pub row: usize,
    pub ruling: Ruling,
}

/// A ruling, and the bytes of its shortest certificate.
#[derive(Clone, Copy, Debug, PartialEq)]
pub struct Settled<'a> {
    pub ruling: Ruling,
    pub certificate: &'a [u8],
}

impl RefusalAnswer {
    fn answer<T>(self, accepted: T) -> Result<T, Refusal> {
        if self.number == 0 {
            return Ok(accepted);
        }
        let place = match self.text {
            0 if (14..=20).contains(&self.number) => Place::Node(self.node),
            0 => Place::Call,
            text => Place::Text {
                text: if text == 1 { Text::Rules } else { Text::Log },
                layer: match self.layer {
                    1 => Layer::Text,
                    2 => Layer::Table,
                    _ => Layer::Log,
                },
                line: self.line,
                field: self.field,
            },
        };
        let number = self.number;
        Err(Refusal { number, place })
    }
}

fn ruling(code: u32) -> Ruling {
    if code == 1 {
        Ruling::Held
    } else {
        Ruling::Broken
    }
}

/// Reads a rules text: how many lines its table has.
pub fn read_rules(text: &[u8]) -> Result<usize, Refusal> {
    let answer = unsafe { sanqizhet_read_rules_nonnull(text.as_ptr(), text.len()) };
    answer.refusal.answer(answer.count)
}

/// Reads a log text: how many rows it has.
pub fn read_log(text: &[u8]) -> Result<usize, Refusal> {
    let answer = unsafe { sanqizhet_read_log_nonnull(text.as_ptr(), text.len()) };
    answer.refusal.answer(answer.count)
}

/// Checks a certificate on the table and the rows of the two texts: the claim that it proves.
pub fn check(rules: &[u8], log: &[u8], certificate: &[u8]) -> Result<Claim, Refusal> {
    let answer = unsafe {
        sanqizhet_check_nonnull(
            rules.as_ptr(),
            rules.len(),
            log.as_ptr(),
            log.len(),
            certificate.as_ptr(),
            certificate.len(),
        )
    };
    answer.refusal.answer(Claim {
        line: answer.line as usize,
        row: answer.row as usize,
        ruling: ruling(answer.ruling),
    })
}

/// Settles a line at a row: its ruling, with the shortest certificate at the front of `out`.
pub fn settle<'a>(
    rules: &[u8],
    log: &[u8],
    line: usize,
    row: usize,
    out: &'a mut [u8],
) -> Result<Settled<'a>, Refusal> {
    let answer = unsafe {
        sanqizhet_settle_nonnull(
            rules.as_ptr(),
            rules.len(),
            log.as_ptr(),
            log.len(),
            line,
            row,
            out.as_mut_ptr(),
            out.len(),
        )
    };
    answer.refusal.answer(Settled {
        ruling: ruling(answer.ruling),
        certificate: &out[..6 * answer.size as usize],
    })
}
