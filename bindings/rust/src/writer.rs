//! The writing of a CV on a programming track.
use crate::calls::{dcc_writer_answer, dcc_writer_new, dcc_writer_question};
use crate::frame::Frame;

/// The writing of a CV by two questions. The first question writes a byte, and the second question verifies that the CV
/// has this byte (NMRA S-9.2.3).
///
/// ```
/// use dcc::{Frame, Service, Writer, Writing};
///
/// let mut decoder = Service::new(&[0; 1024]);
/// let reset = Frame::new(&[0, 0, 0]).unwrap();
/// let mut writer = Writer::new(29, 2).unwrap();
/// let is_done = loop {
///     let question = writer.question();
///     let yes = [reset, reset, reset, question, question, question, question, question]
///         .iter()
///         .fold(false, |any, frame| decoder.apply(frame) | any);
///     match writer.answer(yes) {
///         Writing::More => (),
///         Writing::Done => break true,
///         Writing::Failed => break false,
///     }
/// };
/// assert!(is_done && decoder.cvs()[28] == 2);
/// ```
#[repr(C)]
#[derive(Clone, Debug, PartialEq, Eq)]
pub struct Writer {
    cv: u16,
    value: u8,
    is_verifying: bool,
}

/// The state of a writing after an answer.
#[derive(Clone, Copy, Debug, PartialEq, Eq)]
pub enum Writing {
    /// There is a second question, whatever the first answer is.
    More,
    /// The second question was acknowledged, so the CV has the byte.
    Done,
    /// The second question was not acknowledged. A decoder never writes CV7 and CV8.
    Failed,
}

impl Writer {
    /// Begins to write a byte to a CV of 1 to 1024. Errors: P6 for any other number.
    pub fn new(cv: u16, value: u8) -> Option<Writer> {
        let mut writer = Writer {
            cv: 0,
            value: 0,
            is_verifying: false,
        };
        match unsafe { dcc_writer_new(&mut writer, cv, value) } {
            0 => Some(writer),
            _ => None,
        }
    }

    /// Returns the next question, which is asked as a question of a [`Reader`](crate::Reader::question).
    pub fn question(&self) -> Frame {
        let mut question = Frame::NONE;
        let answer = unsafe { dcc_writer_question(self, &mut question) };
        debug_assert_eq!(answer, 0);
        question
    }

    /// Takes the answer. After the second answer the writing stays at its second question.
    pub fn answer(&mut self, yes: bool) -> Writing {
        match unsafe { dcc_writer_answer(self, yes) } {
            0 => Writing::More,
            1 => Writing::Done,
            _ => Writing::Failed,
        }
    }
}
