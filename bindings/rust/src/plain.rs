//! The plain words of a packet.
use crate::calls::dcc_plain;
use crate::frame::FrameFault;
use core::fmt;

/// The plain words of a packet, as `dcc show --plain` writes them.
///
/// ```
/// let consist = dcc::Plain::of(&[0x03, 0x12, 0x0a, 0x1b]).unwrap();
/// assert_eq!(consist.as_str(), "locomotive 3: join consist 10");
/// ```
#[derive(Clone, Copy, PartialEq, Eq)]
pub struct Plain {
    text: [u8; 256],
}

impl Plain {
    /// Returns the plain words of the packet of these bytes, with the error byte last. Errors: L1 if there are not 3
    /// to 15 of them, or L2.
    pub fn of(packet: &[u8]) -> Result<Plain, FrameFault> {
        let mut text = [0; 256];
        match unsafe { dcc_plain(packet.as_ptr(), packet.len() as u64, text.as_mut_ptr()) } {
            0 => Ok(Plain { text }),
            1 => Err(FrameFault::Length),
            _ => Err(FrameFault::ErrorByte),
        }
    }

    /// Returns the words.
    pub fn as_str(&self) -> &str {
        let len = self.text.iter().position(|byte| *byte == 0);
        let words = self.text.get(..len.unwrap_or(self.text.len()));
        // (the library writes only ASCII, and so needs no panic)
        core::str::from_utf8(words.unwrap_or(&[])).unwrap_or("")
    }
}

impl fmt::Display for Plain {
    fn fmt(&self, f: &mut fmt::Formatter<'_>) -> fmt::Result {
        f.pad(self.as_str())
    }
}

impl fmt::Debug for Plain {
    fn fmt(&self, f: &mut fmt::Formatter<'_>) -> fmt::Result {
        f.debug_tuple("Plain").field(&self.as_str()).finish()
    }
}
