//! A command station.
use crate::calls::{
    dcc_station_command, dcc_station_entries, dcc_station_forget, dcc_station_new,
    dcc_station_next, dcc_station_stop, dcc_station_waiting,
};
use crate::frame::{Frame, LineFault};
use crate::packet::Address;
use core::fmt;

/// A command station: commands that wait, and entries, which it sends again and again while no command waits.
///
/// ```
/// let mut station = dcc::Station::new(8, 16, 2).unwrap();
/// station.command(&"loco s3 speed28 f 4".parse().unwrap()).unwrap();
/// assert_eq!(station.send_next().to_string(), "loco s3 speed28 f 4");
/// ```
#[repr(C, align(1))]
#[derive(Clone)]
pub struct Station([u8; 1801]);

/// The reason why a command is refused.
#[derive(Clone, Copy, Debug, PartialEq, Eq)]
pub enum CommandFault {
    /// C3: a station does not send it: an idle packet, any other packet without a kind, or a CV access to all decoders.
    NoCommand,
    /// C4: the queue is full.
    QueueFull,
}

impl Station {
    /// Creates a station that accepts no command and sends idle packets, until [`start`](Station::start) is called.
    ///
    /// ```
    /// static mut STATION: dcc::Station = dcc::Station::zeroed();
    /// ```
    pub const fn zeroed() -> Station {
        Station([0; 1801])
    }

    /// Creates a station without commands. It has at most `queue` waiting commands, 1 to 64, and at most `slots`
    /// entries, 1 to 128. It sends `repeats` copies of a command in a row, 1 to 8. Errors: C1 for other sizes.
    pub fn new(queue: u8, slots: u8, repeats: u8) -> Option<Station> {
        let mut station = Station::zeroed();
        station.start(queue, slots, repeats).then_some(station)
    }

    /// Makes the station one that [`new`](Station::new) creates, and returns true. If new would return `None`, the
    /// function returns false, and the station does not change.
    #[must_use]
    pub fn start(&mut self, queue: u8, slots: u8, repeats: u8) -> bool {
        unsafe { dcc_station_new(self, queue, slots, repeats) == 0 }
    }

    /// Adds a command to the end of the queue.
    pub fn command(&mut self, frame: &Frame) -> Result<(), CommandFault> {
        match unsafe { dcc_station_command(self, frame.as_ptr(), frame.len()) } {
            0 => Ok(()),
            3 => Err(CommandFault::NoCommand),
            _ => Err(CommandFault::QueueFull),
        }
    }

    /// Returns the next frame to send: a copy of the stop if a stop waits, otherwise a copy of the first waiting
    /// command. If nothing waits, it is the first entry, which goes to the end. If there is no entry either, it is
    /// idle.
    pub fn send_next(&mut self) -> Frame {
        let mut frame = Frame::NONE;
        unsafe { dcc_station_next(self, &mut frame) };
        frame
    }

    /// Removes the entries with this address, for example when a locomotive leaves the track. The waiting commands
    /// stay. A command of which no copy was sent becomes an entry as before. A partly sent command becomes no
    /// entry again. No entry has the address of all decoders. Errors: P1 or P2 if there is no
    /// such address.
    pub fn forget(&mut self, to: Address) -> Result<(), LineFault> {
        let (kind, number) = to.numbers();
        match unsafe { dcc_station_forget(self, kind, number) } {
            0 => Ok(()),
            fault => Err(LineFault(fault)),
        }
    }

    /// Stops all locomotives. The next frames are copies of the emergency stop of all locomotives, as many as of a
    /// command. The directions of the locomotives stay. The function removes each waiting command that sets the speed
    /// of a locomotive to a step, and returns the number of these commands. All other commands wait. If one of them was
    /// partly sent, all its copies are sent again. A stop that is called while another stop waits starts the copies
    /// again. A locomotive that hears a copy of the stop, and all later frames, stands until the station gets
    /// a command that sets a speed to a step.
    ///
    /// ```
    /// let mut station = dcc::Station::new(8, 16, 2).unwrap();
    /// station.command(&"loco s3 speed28 f 20".parse().unwrap()).unwrap();
    /// station.command(&"loco s3 functions 0 16".parse().unwrap()).unwrap();
    /// assert_eq!(station.stop(), 1);
    /// let sent = [(); 3].map(|_| station.send_next().to_string());
    /// assert_eq!(sent, ["loco all speed28 f 3", "loco all speed28 f 3", "loco s3 functions 0 16"]);
    /// ```
    pub fn stop(&mut self) -> u8 {
        unsafe { dcc_station_stop(self) }
    }

    /// Returns the number of waiting commands. A stop that waits does not count.
    pub fn waiting(&self) -> u8 {
        unsafe { dcc_station_waiting(self) }
    }

    /// Returns the number of entries.
    pub fn entries(&self) -> u8 {
        unsafe { dcc_station_entries(self) }
    }
}

impl fmt::Debug for Station {
    fn fmt(&self, f: &mut fmt::Formatter<'_>) -> fmt::Result {
        f.debug_struct("Station")
            .field("waiting", &self.waiting())
            .field("entries", &self.entries())
            .finish()
    }
}

impl fmt::Display for CommandFault {
    fn fmt(&self, f: &mut fmt::Formatter<'_>) -> fmt::Result {
        f.write_str(match self {
            CommandFault::NoCommand => "C3",
            CommandFault::QueueFull => "C4",
        })
    }
}
