//! What a call answers.

use std::error::Error;
use std::fmt;

/// The five answers of the library's calls.
#[derive(Clone, Copy, PartialEq, Eq, Hash, Debug)]
pub enum Answer {
    /// 0.
    Done,
    /// 1: the record is not whole; at a start, there is no page of so many rows.
    Broken,
    /// 2: the page has not 80 cells for each row, or the line has not 80.
    WrongSize,
    /// 3: the next reply is longer than the room left. What was read before it is done.
    NoRoom,
    /// 4: the row or the column is off the page, or the row off the display that is active.
    OffPage,
}

impl Answer {
    /// The library's number for it.
    pub fn number(self) -> u8 {
        match self {
            Answer::Done => 0,
            Answer::Broken => 1,
            Answer::WrongSize => 2,
            Answer::NoRoom => 3,
            Answer::OffPage => 4,
        }
    }

    /// The answer with a number, if there is one.
    ///
    /// ```
    /// use pankholim::Answer;
    /// assert_eq!(Answer::from_number(3), Some(Answer::NoRoom));
    /// assert_eq!(Answer::from_number(5), None);
    /// ```
    pub fn from_number(number: u8) -> Option<Answer> {
        match number {
            0 => Some(Answer::Done),
            1 => Some(Answer::Broken),
            2 => Some(Answer::WrongSize),
            3 => Some(Answer::NoRoom),
            4 => Some(Answer::OffPage),
            _ => None,
        }
    }

    /// The refusal that it is: 1, 2 and 4 are, 0 and 3 are none.
    pub fn refusal(self) -> Option<Refusal> {
        match self {
            Answer::Broken => Some(Refusal::Broken),
            Answer::WrongSize => Some(Refusal::WrongSize),
            Answer::OffPage => Some(Refusal::OffPage),
            Answer::Done | Answer::NoRoom => None,
        }
    }

    /// What a call of the library returned: unrefused, or the refusal.
    pub(crate) fn of_call(number: u8) -> Result<Answer, Refusal> {
        let answer = Answer::from_number(number).expect("the library answers 0 to 4");
        match answer.refusal() {
            None => Ok(answer),
            Some(refusal) => Err(refusal),
        }
    }
}

/// The answers that refuse a call, and leave all that was lent.
#[derive(Clone, Copy, PartialEq, Eq, Hash, Debug)]
pub enum Refusal {
    /// The record is not whole; at a start, there is no page of so many rows.
    Broken,
    /// The page has not 80 cells for each row, or the line has not 80.
    WrongSize,
    /// The row or the column is off the page, or the row off the display that is active.
    OffPage,
}

impl From<Refusal> for Answer {
    fn from(refusal: Refusal) -> Answer {
        match refusal {
            Refusal::Broken => Answer::Broken,
            Refusal::WrongSize => Answer::WrongSize,
            Refusal::OffPage => Answer::OffPage,
        }
    }
}

impl fmt::Display for Refusal {
    fn fmt(&self, f: &mut fmt::Formatter) -> fmt::Result {
        f.write_str(match self {
            Refusal::Broken => {
                "the terminal record is not whole, or there is no page of so many rows"
            }
            Refusal::WrongSize => {
                "the page has not 80 cells for each row of the terminal, or the status line has not 80"
            }
            Refusal::OffPage => "the row or the column is off the page or the status line",
        })
    }
}

impl Error for Refusal {}

#[cfg(test)]
mod tests {
    use super::*;

    #[test]
    fn numbers_come_back() {
        for number in 0..=255 {
            match Answer::from_number(number) {
                Some(answer) => assert_eq!(answer.number(), number),
                None => assert!(number > 4),
            }
        }
    }

    #[test]
    fn refusals_are_1_2_and_4() {
        let refused: Vec<u8> = (0..5)
            .filter(|&number| Answer::of_call(number).is_err())
            .collect();
        assert_eq!(refused, [1, 2, 4]);
        for refusal in [Refusal::Broken, Refusal::WrongSize, Refusal::OffPage] {
            assert_eq!(Answer::from(refusal).refusal(), Some(refusal));
        }
    }
}
