//! The reading of a CV on a programming track.
use crate::calls::{dcc_reader_answer, dcc_reader_new, dcc_reader_question};
use crate::frame::Frame;

/// The reading of a CV by nine questions: for each of bits 0 to 7 whether it is one, then whether the CV has the value
/// of these answers (NMRA S-9.2.3).
///
/// ```
/// use dcc::{Frame, Reader, Reading, Service};
///
/// let mut cvs = [0; 1024];
/// cvs[28] = 2;
/// let mut decoder = Service::new(&cvs);
/// let reset = Frame::new(&[0, 0, 0]).unwrap();
/// let mut reader = Reader::new(29).unwrap();
/// let value = loop {
///     let question = reader.question();
///     let yes = [reset, reset, reset, question, question, question, question, question]
///         .iter()
///         .fold(false, |any, frame| decoder.apply(frame) | any);
///     match reader.answer(yes) {
///         Reading::More => (),
///         Reading::Value(value) => break Some(value),
///         Reading::NoAnswer => break None,
///     }
/// };
/// assert_eq!(value, Some(2));
/// ```
#[repr(C)]
#[derive(Clone, Debug, PartialEq, Eq)]
pub struct Reader {
    cv: u16,
    known: u8,
    value: u8,
}

/// The state of a reading after an answer.
#[derive(Clone, Copy, Debug, PartialEq, Eq)]
pub enum Reading {
    /// There is a further question.
    More,
    /// The CV has this value, which the decoder has acknowledged.
    Value(u8),
    /// The ninth question was not acknowledged, so no value is known (S1).
    NoAnswer,
}

impl Reader {
    /// Begins to read a CV of 1 to 1024. Errors: P6 for any other number.
    pub fn new(cv: u16) -> Option<Reader> {
        let mut reader = Reader {
            cv: 0,
            known: 0,
            value: 0,
        };
        match unsafe { dcc_reader_new(&mut reader, cv) } {
            0 => Some(reader),
            _ => None,
        }
    }

    /// Returns the next question. Send three resets and then the question five times, in the
    /// [timing](crate::Timing::PROGRAMMING) of the programming track. The answer is yes if any of the eight was
    /// acknowledged.
    pub fn question(&self) -> Frame {
        let mut question = Frame::NONE;
        let answer = unsafe { dcc_reader_question(self, &mut question) };
        debug_assert_eq!(answer, 0);
        question
    }

    /// Takes the answer. After the ninth answer the reading stays at its ninth question.
    pub fn answer(&mut self, yes: bool) -> Reading {
        let mut value = 0;
        match unsafe { dcc_reader_answer(self, yes, &mut value) } {
            0 => Reading::More,
            1 => Reading::Value(value),
            _ => Reading::NoAnswer,
        }
    }
}
