//! What a service answers, and the four numbers of it.

/// The check that refused, by its number in the table, and the place that the table gives.
#[derive(Clone, Copy, Debug, PartialEq, Eq)]
pub struct Refusal {
    pub check: u32,
    pub place: usize,
}

/// A refusal as the error of a service.
pub fn refuse<T>(check: u32, place: usize) -> Result<T, Refusal> {
    Err(Refusal { check, place })
}

/// The answers of the services.
#[derive(Clone, Copy, Debug, PartialEq, Eq)]
pub enum Answer {
    /// "the reader then answers n, m and k"
    Accepted {
        lots: usize,
        conditions: usize,
        terms: usize,
    },
    /// "Met and cannot carry the count c of records"
    Met {
        count: usize,
    },
    Cannot {
        count: usize,
    },
    /// "It answers 0 if all conditions are met"
    AllMet,
    /// "else the lowest condition that isn't"
    NotMet {
        condition: usize,
    },
    /// "A list passes when its walk ends there and no check has refused it."
    Passes,
    /// Document 02: "each answers the length it wrote"
    Written {
        length: usize,
    },
    /// Document 02: "the count of unmet conditions", the first one or the one after a reassignment
    Unmet {
        count: usize,
    },
}

/// The four numbers that the header describes: check, first, second, third.
pub fn numbers(answer: &Result<Answer, Refusal>) -> [u32; 4] {
    let [check, first, second, third] = match *answer {
        Ok(Answer::Accepted { lots, conditions, terms }) => [0, lots, conditions, terms],
        Ok(Answer::Met { count }) => [0, 1, count, 0],
        Ok(Answer::Cannot { count }) => [0, 2, count, 0],
        Ok(Answer::AllMet) | Ok(Answer::Passes) => [0, 0, 0, 0],
        Ok(Answer::NotMet { condition }) => [0, condition, 0, 0],
        Ok(Answer::Written { length }) => [0, length, 0, 0],
        Ok(Answer::Unmet { count }) => [0, count, 0, 0],
        Err(Refusal { check, place }) => [check as usize, place, 0, 0],
    };
    let narrow = |number: usize| u32::try_from(number).expect("no number of an answer has more than 32 bits");
    [narrow(check), narrow(first), narrow(second), narrow(third)]
}
