//! The reasons of refusals. Written by tools/reasons from the table in docs/RULES.md.

/// The groups of refusals.
#[derive(Clone, Copy, Debug, PartialEq, Eq, Hash, PartialOrd, Ord)]
pub enum Group {
    /// A number is no byte.
    Number = 1,
    /// A word is no type's name.
    Type = 2,
    /// Step 1: bytes are no sheet.
    Sheet = 3,
    /// Step 2: a field cannot be.
    Field = 4,
    /// Step 3: fields make no header.
    Header = 5,
    /// Step 4: a length cannot be worked out of a field.
    Length = 6,
    /// Step 5: conditions that cannot be.
    Cond = 7,
    /// A run of bits has no end position.
    Position = 8,
    /// A range begins with an excluded number.
    Bound = 9,
    /// A field cannot be read or written so.
    Access = 10,
    /// A lent buffer is too short for what goes into it.
    Room = 11,
}

impl Group {
    /// All groups, in the order of their numbers.
    pub const ALL: [Group; 11] = [
        Group::Number,
        Group::Type,
        Group::Sheet,
        Group::Field,
        Group::Header,
        Group::Length,
        Group::Cond,
        Group::Position,
        Group::Bound,
        Group::Access,
        Group::Room,
    ];

    /// The group's name in the rules.
    pub fn name(self) -> &'static str {
        match self {
            Group::Number => "number",
            Group::Type => "type",
            Group::Sheet => "sheet",
            Group::Field => "field",
            Group::Header => "header",
            Group::Length => "length",
            Group::Cond => "cond",
            Group::Position => "position",
            Group::Bound => "bound",
            Group::Access => "access",
            Group::Room => "room",
        }
    }
}

/// A number is no byte.
#[derive(Clone, Copy, Debug, PartialEq, Eq, Hash, PartialOrd, Ord)]
pub enum NumberFault {
    /// A number over 255 is no byte.
    OverAByte = 1,
}

impl NumberFault {
    fn words(self) -> &'static str {
        match self {
            NumberFault::OverAByte => "a number over 255 is no byte",
        }
    }
}

/// A word is no type's name.
#[derive(Clone, Copy, Debug, PartialEq, Eq, Hash, PartialOrd, Ord)]
pub enum TypeFault {
    /// The word is the name of no type.
    UnknownName = 1,
}

impl TypeFault {
    fn words(self) -> &'static str {
        match self {
            TypeFault::UnknownName => "the word is the name of no type",
        }
    }
}

/// Step 1: bytes are no sheet.
#[derive(Clone, Copy, Debug, PartialEq, Eq, Hash, PartialOrd, Ord)]
pub enum SheetFault {
    /// The bytes are no whole blocks of 512, or over 99 of them.
    WrongLength = 1,
    /// The block's check does not hold.
    BadCheck = 2,
    /// The block's kind is unknown, or out of its turn.
    UnknownOrMisplacedKind = 3,
    /// There are over 64 fields, or over 32 conditions.
    TooManyOfAKind = 4,
    /// The block has a byte that the layout does not allow.
    ByteOutsideLayout = 5,
    /// The length's slot was given before.
    SlotGivenTwice = 6,
}

impl SheetFault {
    fn words(self) -> &'static str {
        match self {
            SheetFault::WrongLength => "the bytes are no whole blocks of 512, or over 99 of them",
            SheetFault::BadCheck => "the block's check does not hold",
            SheetFault::UnknownOrMisplacedKind => "the block's kind is unknown, or out of its turn",
            SheetFault::TooManyOfAKind => "there are over 64 fields, or over 32 conditions",
            SheetFault::ByteOutsideLayout => "the block has a byte that the layout does not allow",
            SheetFault::SlotGivenTwice => "the length's slot was given before",
        }
    }
}

/// Step 2: a field cannot be.
#[derive(Clone, Copy, Debug, PartialEq, Eq, Hash, PartialOrd, Ord)]
pub enum FieldFault {
    /// The field has no bits, over 33,554,424, or over 64 that are no whole bytes.
    WidthNotAllowed = 1,
    /// The representation is neither that of the width, nor a byte slice of two or more whole bytes.
    ReprNotAllowed = 2,
    /// The argument type is neither the representation, nor bool on 1 bit, nor code.
    ArgNotAllowed = 3,
    /// The default of a bool is neither 0 nor 1.
    BoolDefaultNotZeroOrOne = 4,
    /// The default of a byte slice is not as many bytes as the field has.
    SliceDefaultNotItsBytes = 5,
    /// The default is no number within the field's width.
    NumberDefaultNotInWidth = 6,
    /// A default of bytes is fixed.
    BytesDefaultFixed = 7,
}

impl FieldFault {
    fn words(self) -> &'static str {
        match self {
            FieldFault::WidthNotAllowed => "the field has no bits, over 33,554,424, or over 64 that are no whole bytes",
            FieldFault::ReprNotAllowed => {
                "the representation is neither that of the width, nor a byte slice of two or more whole bytes"
            }
            FieldFault::ArgNotAllowed => "the argument type is neither the representation, nor bool on 1 bit, nor code",
            FieldFault::BoolDefaultNotZeroOrOne => "the default of a bool is neither 0 nor 1",
            FieldFault::SliceDefaultNotItsBytes => "the default of a byte slice is not as many bytes as the field has",
            FieldFault::NumberDefaultNotInWidth => "the default is no number within the field's width",
            FieldFault::BytesDefaultFixed => "a default of bytes is fixed",
        }
    }
}

/// Step 3: fields make no header.
#[derive(Clone, Copy, Debug, PartialEq, Eq, Hash, PartialOrd, Ord)]
pub enum HeaderFault {
    /// A field before it has the same name.
    NameUsedBefore = 1,
    /// The field is named type, which is kept for other use.
    NameReserved = 2,
    /// The field has at most 64 bits and touches over 8 bytes.
    TouchesOverEightBytes = 3,
    /// The byte slice does not start on a byte boundary.
    SliceOffByteBoundary = 4,
    /// The header is over 4,194,303 bytes.
    HeaderTooLong = 5,
    /// The header's bits are no whole bytes.
    HeaderNotWholeBytes = 6,
}

impl HeaderFault {
    fn words(self) -> &'static str {
        match self {
            HeaderFault::NameUsedBefore => "a field before it has the same name",
            HeaderFault::NameReserved => "the field is named type, which is kept for other use",
            HeaderFault::TouchesOverEightBytes => "the field has at most 64 bits and touches over 8 bytes",
            HeaderFault::SliceOffByteBoundary => "the byte slice does not start on a byte boundary",
            HeaderFault::HeaderTooLong => "the header is over 4,194,303 bytes",
            HeaderFault::HeaderNotWholeBytes => "the header's bits are no whole bytes",
        }
    }
}

/// Step 4: a length cannot be worked out of a field.
#[derive(Clone, Copy, Debug, PartialEq, Eq, Hash, PartialOrd, Ord)]
pub enum LengthFault {
    /// Both the payload's and the packet's length are given.
    PayloadAndPacketGiven = 1,
    /// The length is worked out of a field that there is not.
    NoSuchField = 3,
    /// The length's field is over 64 bits.
    FieldOver64Bits = 4,
    /// The length's field is generated.
    FieldGenerated = 5,
    /// The length's field is a byte slice, or its argument type is not its representation.
    ArgNotTheRepr = 6,
    /// The length's field is fixed to its default.
    FieldFixed = 7,
    /// The length of the field's largest value cannot be worked out in 64 bits.
    LargestLengthOverflows = 8,
    /// The length of the field's largest value is over 4,194,303.
    LargestLengthTooLong = 9,
    /// The length of the field's default is less than the header.
    DefaultLengthUnderHeader = 10,
    /// The length's tree is none of the five forms.
    TreeNotAForm = 12,
    /// The length of the field's default cannot be worked out.
    DefaultLengthOverflows = 13,
}

impl LengthFault {
    fn words(self) -> &'static str {
        match self {
            LengthFault::PayloadAndPacketGiven => "both the payload's and the packet's length are given",
            LengthFault::NoSuchField => "the length is worked out of a field that there is not",
            LengthFault::FieldOver64Bits => "the length's field is over 64 bits",
            LengthFault::FieldGenerated => "the length's field is generated",
            LengthFault::ArgNotTheRepr => {
                "the length's field is a byte slice, or its argument type is not its representation"
            }
            LengthFault::FieldFixed => "the length's field is fixed to its default",
            LengthFault::LargestLengthOverflows => {
                "the length of the field's largest value cannot be worked out in 64 bits"
            }
            LengthFault::LargestLengthTooLong => "the length of the field's largest value is over 4,194,303",
            LengthFault::DefaultLengthUnderHeader => "the length of the field's default is less than the header",
            LengthFault::TreeNotAForm => "the length's tree is none of the five forms",
            LengthFault::DefaultLengthOverflows => "the length of the field's default cannot be worked out",
        }
    }
}

/// Step 5: conditions that cannot be.
#[derive(Clone, Copy, Debug, PartialEq, Eq, Hash, PartialOrd, Ord)]
pub enum CondFault {
    /// The condition is on a field that there is not.
    NoSuchField = 1,
    /// The condition is on a byte slice.
    FieldIsByteSlice = 2,
    /// A range holds no number that the field can have.
    RangeEmpty = 4,
    /// A range meets an earlier one.
    RangesMeet = 6,
    /// A condition before it is on the same field.
    FieldListedBefore = 7,
    /// There are over 8 conditions.
    OverEightEntries = 8,
}

impl CondFault {
    fn words(self) -> &'static str {
        match self {
            CondFault::NoSuchField => "the condition is on a field that there is not",
            CondFault::FieldIsByteSlice => "the condition is on a byte slice",
            CondFault::RangeEmpty => "a range holds no number that the field can have",
            CondFault::RangesMeet => "a range meets an earlier one",
            CondFault::FieldListedBefore => "a condition before it is on the same field",
            CondFault::OverEightEntries => "there are over 8 conditions",
        }
    }
}

/// A run of bits has no end position.
#[derive(Clone, Copy, Debug, PartialEq, Eq, Hash, PartialOrd, Ord)]
pub enum PositionFault {
    /// The run of bits has no end position.
    RunHasNoEnd = 1,
}

impl PositionFault {
    fn words(self) -> &'static str {
        match self {
            PositionFault::RunHasNoEnd => "the run of bits has no end position",
        }
    }
}

/// A range begins with an excluded number.
#[derive(Clone, Copy, Debug, PartialEq, Eq, Hash, PartialOrd, Ord)]
pub enum BoundFault {
    /// The range's start is excluded.
    StartExcluded = 1,
}

impl BoundFault {
    fn words(self) -> &'static str {
        match self {
            BoundFault::StartExcluded => "the range's start is excluded",
        }
    }
}

/// A field cannot be read or written so.
#[derive(Clone, Copy, Debug, PartialEq, Eq, Hash, PartialOrd, Ord)]
pub enum AccessFault {
    /// There is no such field.
    NoSuchField = 1,
    /// The buffer is shorter than the header.
    BufferUnderHeader = 2,
    /// A number was asked of a byte slice, or bytes of a number.
    FieldOfOtherKind = 3,
    /// The value is over the field's width, or the bytes are not as many as it has.
    ValueNotTheWidth = 4,
    /// The field is fixed to its default.
    FixedToItsDefault = 5,
}

impl AccessFault {
    fn words(self) -> &'static str {
        match self {
            AccessFault::NoSuchField => "there is no such field",
            AccessFault::BufferUnderHeader => "the buffer is shorter than the header",
            AccessFault::FieldOfOtherKind => "a number was asked of a byte slice, or bytes of a number",
            AccessFault::ValueNotTheWidth => {
                "the value is over the field's width, or the bytes are not as many as it has"
            }
            AccessFault::FixedToItsDefault => "the field is fixed to its default",
        }
    }
}

/// A lent buffer is too short for what goes into it.
#[derive(Clone, Copy, Debug, PartialEq, Eq, Hash, PartialOrd, Ord)]
pub enum RoomFault {
    /// The buffer is shorter than the header.
    BufferUnderHeader = 1,
}

impl RoomFault {
    fn words(self) -> &'static str {
        match self {
            RoomFault::BufferUnderHeader => "the buffer is shorter than the header",
        }
    }
}

/// Why something was refused: a group, and a reason in it.
#[derive(Clone, Copy, Debug, PartialEq, Eq, Hash, PartialOrd, Ord)]
pub enum Reason {
    /// A number is no byte.
    Number(NumberFault),
    /// A word is no type's name.
    Type(TypeFault),
    /// Step 1: bytes are no sheet.
    Sheet(SheetFault),
    /// Step 2: a field cannot be.
    Field(FieldFault),
    /// Step 3: fields make no header.
    Header(HeaderFault),
    /// Step 4: a length cannot be worked out of a field.
    Length(LengthFault),
    /// Step 5: conditions that cannot be.
    Cond(CondFault),
    /// A run of bits has no end position.
    Position(PositionFault),
    /// A range begins with an excluded number.
    Bound(BoundFault),
    /// A field cannot be read or written so.
    Access(AccessFault),
    /// A lent buffer is too short for what goes into it.
    Room(RoomFault),
}

impl Reason {
    /// All reasons, in the order of their groups and numbers.
    pub const ALL: [Reason; 46] = [
        Reason::Number(NumberFault::OverAByte),
        Reason::Type(TypeFault::UnknownName),
        Reason::Sheet(SheetFault::WrongLength),
        Reason::Sheet(SheetFault::BadCheck),
        Reason::Sheet(SheetFault::UnknownOrMisplacedKind),
        Reason::Sheet(SheetFault::TooManyOfAKind),
        Reason::Sheet(SheetFault::ByteOutsideLayout),
        Reason::Sheet(SheetFault::SlotGivenTwice),
        Reason::Field(FieldFault::WidthNotAllowed),
        Reason::Field(FieldFault::ReprNotAllowed),
        Reason::Field(FieldFault::ArgNotAllowed),
        Reason::Field(FieldFault::BoolDefaultNotZeroOrOne),
        Reason::Field(FieldFault::SliceDefaultNotItsBytes),
        Reason::Field(FieldFault::NumberDefaultNotInWidth),
        Reason::Field(FieldFault::BytesDefaultFixed),
        Reason::Header(HeaderFault::NameUsedBefore),
        Reason::Header(HeaderFault::NameReserved),
        Reason::Header(HeaderFault::TouchesOverEightBytes),
        Reason::Header(HeaderFault::SliceOffByteBoundary),
        Reason::Header(HeaderFault::HeaderTooLong),
        Reason::Header(HeaderFault::HeaderNotWholeBytes),
        Reason::Length(LengthFault::PayloadAndPacketGiven),
        Reason::Length(LengthFault::NoSuchField),
        Reason::Length(LengthFault::FieldOver64Bits),
        Reason::Length(LengthFault::FieldGenerated),
        Reason::Length(LengthFault::ArgNotTheRepr),
        Reason::Length(LengthFault::FieldFixed),
        Reason::Length(LengthFault::LargestLengthOverflows),
        Reason::Length(LengthFault::LargestLengthTooLong),
        Reason::Length(LengthFault::DefaultLengthUnderHeader),
        Reason::Length(LengthFault::TreeNotAForm),
        Reason::Length(LengthFault::DefaultLengthOverflows),
        Reason::Cond(CondFault::NoSuchField),
        Reason::Cond(CondFault::FieldIsByteSlice),
        Reason::Cond(CondFault::RangeEmpty),
        Reason::Cond(CondFault::RangesMeet),
        Reason::Cond(CondFault::FieldListedBefore),
        Reason::Cond(CondFault::OverEightEntries),
        Reason::Position(PositionFault::RunHasNoEnd),
        Reason::Bound(BoundFault::StartExcluded),
        Reason::Access(AccessFault::NoSuchField),
        Reason::Access(AccessFault::BufferUnderHeader),
        Reason::Access(AccessFault::FieldOfOtherKind),
        Reason::Access(AccessFault::ValueNotTheWidth),
        Reason::Access(AccessFault::FixedToItsDefault),
        Reason::Room(RoomFault::BufferUnderHeader),
    ];

    /// The reason's group.
    pub fn group(self) -> Group {
        match self {
            Reason::Number(_) => Group::Number,
            Reason::Type(_) => Group::Type,
            Reason::Sheet(_) => Group::Sheet,
            Reason::Field(_) => Group::Field,
            Reason::Header(_) => Group::Header,
            Reason::Length(_) => Group::Length,
            Reason::Cond(_) => Group::Cond,
            Reason::Position(_) => Group::Position,
            Reason::Bound(_) => Group::Bound,
            Reason::Access(_) => Group::Access,
            Reason::Room(_) => Group::Room,
        }
    }

    /// The reason's number in its group.
    pub fn number(self) -> u64 {
        match self {
            Reason::Number(fault) => fault as u64,
            Reason::Type(fault) => fault as u64,
            Reason::Sheet(fault) => fault as u64,
            Reason::Field(fault) => fault as u64,
            Reason::Header(fault) => fault as u64,
            Reason::Length(fault) => fault as u64,
            Reason::Cond(fault) => fault as u64,
            Reason::Position(fault) => fault as u64,
            Reason::Bound(fault) => fault as u64,
            Reason::Access(fault) => fault as u64,
            Reason::Room(fault) => fault as u64,
        }
    }

    /// The reason in words.
    pub fn words(self) -> &'static str {
        match self {
            Reason::Number(fault) => fault.words(),
            Reason::Type(fault) => fault.words(),
            Reason::Sheet(fault) => fault.words(),
            Reason::Field(fault) => fault.words(),
            Reason::Header(fault) => fault.words(),
            Reason::Length(fault) => fault.words(),
            Reason::Cond(fault) => fault.words(),
            Reason::Position(fault) => fault.words(),
            Reason::Bound(fault) => fault.words(),
            Reason::Access(fault) => fault.words(),
            Reason::Room(fault) => fault.words(),
        }
    }

    /// The reason of a group and a number, if there is one.
    pub(crate) fn of_numbers(group: u64, number: u64) -> Option<Reason> {
        Reason::ALL.into_iter().find(|reason| reason.group() as u64 == group && reason.number() == number)
    }
}
