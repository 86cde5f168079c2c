//! The numbers of turnouts.

/// A count of turnouts. A pair of outputs drives one turnout, and each output of the pair moves the turnout to one
/// side.
///
/// ```
/// use dcc::Turnouts;
///
/// assert_eq!(Turnouts::FromBoard1.number(40, 2), Some(158));
/// assert_eq!(Turnouts::FromBoard0.number(40, 2), Some(162));
/// assert_eq!(Turnouts::FromBoard1.pair(158), Some((40, 1)));
/// ```
#[derive(Clone, Copy, Debug, PartialEq, Eq, Hash)]
pub enum Turnouts {
    /// The count of NMRA: turnout 1 belongs to board 1, and turnout 2040 to board 510.
    FromBoard1,
    /// The count of some makers: turnout 1 belongs to board 0, and turnout 2044 to board 510.
    FromBoard0,
}

impl Turnouts {
    /// The first board with turnouts.
    fn first_board(self) -> u16 {
        match self {
            Turnouts::FromBoard1 => 1,
            Turnouts::FromBoard0 => 0,
        }
    }

    /// Returns the number of the turnout of an output. Returns `None` if the board is not in this count, or if the
    /// output is not 0 to 7. Board 511 stands for all boards, so it is in no count.
    pub fn number(self, board: u16, output: u8) -> Option<u16> {
        if board > 510 || output > 7 {
            return None;
        }
        let boards_before = board.checked_sub(self.first_board())?;
        Some(4 * boards_before + u16::from(output / 2) + 1)
    }

    /// Returns the board and the pair, 0 to 3, of a turnout. The pair has the outputs `2 * pair` and `2 * pair + 1`.
    /// Returns `None` if no turnout has this number.
    pub fn pair(self, number: u16) -> Option<(u16, u8)> {
        let pairs_before = number.checked_sub(1)?;
        let board = pairs_before / 4 + self.first_board();
        if board > 510 {
            return None;
        }
        Some((board, (pairs_before % 4) as u8))
    }
}
