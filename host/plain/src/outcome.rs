//! Codes handed back, and codes of error records.

/// How an entry ends. The numbers are document 01's.
#[derive(Debug, Clone, Copy, PartialEq, Eq)]
pub(crate) enum Outcome {
    Answered = 0,
    Unlawful = 1,
    AsksForSchema = 2,
    TooFar = 3,
    TooManyFields = 4,
    VariableInLiteral = 5,
    TextTooLong = 6,
    RecordsTooLong = 7,
}

/// What an error record says. The numbers are document 01's.
#[derive(Debug, Clone, Copy, PartialEq, Eq)]
pub(crate) enum FieldError {
    Resolver = 1,
    NullForNonNull = 2,
    ListTypeWithoutList = 3,
    ListForNonListType = 4,
    UndefinedType = 5,
    InputObjectType = 6,
    ObjectForLeafType = 7,
    ObjectTypeUnknown = 8,
    NotInUnion = 9,
    NotImplementing = 10,
    OtherObjectType = 11,
    LeafForComposite = 12,
    NotAnEnumValue = 13,
    IntOverflow = 14,
    LeafOfAnotherKind = 15,
    NullArgument = 16,
    InnerNull = 17,
    NullVariable = 18,
    MissingVariable = 19,
    UndefinedInputType = 20,
    UnknownKey = 21,
    MissingInputField = 22,
    CannotCoerce = 23,
    MissingArgument = 24,
}

/// Why a value is not there.
#[derive(Debug, Clone, Copy, PartialEq, Eq)]
pub(crate) enum Failure {
    /// It failed, and its error is recorded.
    Up,
    /// The same, and it is an error answer: in a list it fails the list itself.
    Answer,
    /// The run has ended.
    Stop(Outcome),
}

/// What a completed value has left in the text.
#[derive(Debug, Clone, Copy, PartialEq, Eq)]
pub(crate) enum Completed {
    Written,
    /// A skip: whatever stands before the value goes as well.
    LeftOut,
}

pub(crate) type Completion = Result<Completed, Failure>;
