//! What is refused, by number (document 01, "Who may cause which refusal").

/// Why a library, an image, a line or a call is refused.
#[derive(Clone, Copy, Debug, PartialEq, Eq)]
pub enum Refusal {
    /// The line is none of the three calls.
    Unreadable = 0,
    /// The counts, the contents or the beliefs do not fit the file.
    Contents = 1,
    /// An entry, or the file's end, is not where packing puts it.
    Packing = 2,
    /// An initial belief has a variable, stands twice or has its opposite beside it.
    InitialBelief = 3,
    /// A plan is off the layout or has another length.
    Plan = 4,
    /// The reported kind is over 2 or the literal has a variable.
    Malformed = 5,
    /// There is no room for another belief.
    BeliefsFull = 6,
    /// There is no room for another external event.
    QueueFull = 7,
    /// No instance with this id waits for an outcome.
    NotWaiting = 8,
    /// The next event or instance would need a number past 4,294,967,295.
    NumbersSpent = 9,
    /// The state is not well formed, or its library is refused.
    NotWellFormed = 10,
    /// The library has no plan with this number.
    NoSuchPlan = 11,
    /// An image's contents are not packed, a body does not fill its length, or it holds an unknown code.
    Image = 12,
    /// The buffer is too short for the image.
    ImageRoom = 13,
    /// The buffer is too short for the board's page.
    BoardRoom = 14,
    /// The list of answers asked about is over 15 long.
    ListTooLong = 15,
}

impl Refusal {
    /// The number that the journal prints.
    pub fn number(self) -> u16 {
        self as u16
    }
}
