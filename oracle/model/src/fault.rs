//! Faults that can be planted in the model, to see that a comparison finds them.

/// Each is a mistake that a reader of 01 or 02 may make; the first four are 01's "tempting and wrong". `ClearLeavesHead` is 01's own
/// first wording of `remove`, which W-202 amends: no script shows it, only bare slots do. From `NeedHandleFreed` on they are of needs,
/// from `SampleUnwritten` on of samples and recordings, from `TightFromHead` on of edition 2, from `SizeUnseen` on of lists from elsewhere, from
/// `SizeLineKept` on of W-206's sizes. That edition 1 is placed tightly is `SearchFromZero`. `TightKeepsHead` is shown by no script either: no insert
/// of edition 2 looks at the head.
#[derive(Clone, Copy, Debug, PartialEq, Eq)]
pub enum Fault {
    SearchFromZero,
    RunInGap,
    LowHalf,
    FreeByAddress,
    HeadStays,
    ClearLeavesHead,
    LengthNeverShrinks,
    DanglingStays,
    DanglingKeepsPlace,
    SizeOfLast,
    LookupTopOnly,
    DefineKeepsMoved,
    PopKeepsTop,
    ScopeByIndex,
    QuietDangles,
    ListOrder,
    TornLineNext,
    UpperCase,
    /// a step's refusal comes before that of a line behind it that can't be read
    StepFirst,
    /// 0c, 0d and 0e take a need's handle
    NeedHandleFreed,
    /// 22 is given before 4 and 13
    NeedRoomFirst,
    /// a need that is freed counts no more towards 64
    FreedNeedMakesRoom,
    /// a deferred need knows its scope by the index alone
    NeedScopeByIndex,
    /// a second 23 takes another slot and another handle
    NeedAllocatesAgain,
    /// 23 of an allocated need asks for its scope
    NeedKeepsScope,
    /// 24 of an ignored need is refused by 18
    IgnoreHasNoOutput,
    /// 25 gives the slot back and leaves the handle's kind
    NeedLeavesHandle,
    /// 25 gives the slot back without dangling
    NeedFreesQuietly,
    /// 25 of an assigned need frees the handle
    AssignedFrees,
    /// 14 doesn't mark the allocation written
    SampleUnwritten,
    /// 20 of a 14 comes after 24 and 23
    SampleHighLate,
    /// 23 comes before 24
    TooFewFirst,
    /// 24 shows the line after the malformed one
    MalformedLineNext,
    /// a last line that lacks its LF counts as a sample
    TornSampleTaken,
    /// a cut inside a line loses the digit before it
    CutLosesDigit,
    /// the second 14 takes the first one's sample
    SampleTwice,
    /// the second 14 takes the third sample
    SampleSkipped,
    /// the number left over is that of the samples kept
    LeftOfKept,
    /// edition 2 looks from the head's segment on
    TightFromHead,
    /// edition 2 looks from slot 1 on
    TightFromOne,
    /// edition 2 leaves L, so that slots at L and above are given
    TightKeepsLength,
    /// edition 2 leaves H
    TightKeepsHead,
    /// in edition 2 a slot for a scope or a need, 07 and 23, is looked for from the head on
    TightAllocOnly,
    /// the title is taken on line 1 too
    TitleLater,
    /// the title is taken with any number
    TitleAnyNumber,
    /// the title isn't one of the 2,048 lines
    TitleBesideLimit,
    /// refusals count their lines from the one after the title
    TitleUnnumbered,
    /// the list doesn't repeat the title
    TitleLeftOut,
    /// the frame machine doesn't know the title
    TitleUnread,
    /// a list's size isn't looked at
    SizeUnseen,
    /// .. or has to be just what is needed
    SizeExact,
    /// the value of a 10 isn't compared
    ValueUnseen,
    /// the list may go on behind the script's last frame
    LinesTooMany,
    /// .. or end before it
    LinesTooFew,
    /// the title may stand on one text only
    TitleOnOne,
    /// what our rules refuse is looked at all the same
    RefusedPasses,
    /// .. or answered with its number, in the place of no
    RefusalGiven,
    /// a slot is given while another allocation holds it
    GivenWhileHeld,
    /// of a run only the first slot is looked at
    RunByFirst,
    /// a drain line is ours, not one of the list's own addresses
    DrainOfOurs,
    /// the addresses of a drain may stand in any order
    DrainUnordered,
    /// a name shows the address that it has in our list
    NameOfOurs,
    /// a read may show any address
    ReadUnseen,
    /// a need shows any address in the place of `ffff`
    NoneUnseen,
    /// a refusal of the list comes before one of the script
    ListFirst,
    /// the size line still goes up to 1,024
    SizeLineKept,
    /// 31 segments: the room ends one before the last
    SegmentShort,
    /// the 8,192nd handle isn't handed out
    HandleShort,
    /// the text buffer still has 32,768 bytes
    BufferKept,
    /// a program still reads one byte more than that, and takes what it has read for the whole text
    TextCut,
}

/// At most one fault.
pub type Plant = Option<Fault>;

/// All faults by the name that `--plant` takes.
pub const FAULTS: [(&str, Fault); 70] = [
    ("search-from-zero", Fault::SearchFromZero),
    ("run-in-gap", Fault::RunInGap),
    ("low-half", Fault::LowHalf),
    ("free-by-address", Fault::FreeByAddress),
    ("head-stays", Fault::HeadStays),
    ("clear-leaves-head", Fault::ClearLeavesHead),
    ("length-never-shrinks", Fault::LengthNeverShrinks),
    ("dangling-stays", Fault::DanglingStays),
    ("dangling-keeps-place", Fault::DanglingKeepsPlace),
    ("size-of-last", Fault::SizeOfLast),
    ("lookup-top-only", Fault::LookupTopOnly),
    ("define-keeps-moved", Fault::DefineKeepsMoved),
    ("pop-keeps-top", Fault::PopKeepsTop),
    ("scope-by-index", Fault::ScopeByIndex),
    ("quiet-dangles", Fault::QuietDangles),
    ("list-order", Fault::ListOrder),
    ("torn-line-next", Fault::TornLineNext),
    ("upper-case", Fault::UpperCase),
    ("step-first", Fault::StepFirst),
    ("need-handle-freed", Fault::NeedHandleFreed),
    ("need-room-first", Fault::NeedRoomFirst),
    ("freed-need-makes-room", Fault::FreedNeedMakesRoom),
    ("need-scope-by-index", Fault::NeedScopeByIndex),
    ("need-allocates-again", Fault::NeedAllocatesAgain),
    ("need-keeps-scope", Fault::NeedKeepsScope),
    ("ignore-has-no-output", Fault::IgnoreHasNoOutput),
    ("need-leaves-handle", Fault::NeedLeavesHandle),
    ("need-frees-quietly", Fault::NeedFreesQuietly),
    ("assigned-frees", Fault::AssignedFrees),
    ("sample-unwritten", Fault::SampleUnwritten),
    ("sample-high-late", Fault::SampleHighLate),
    ("too-few-first", Fault::TooFewFirst),
    ("malformed-line-next", Fault::MalformedLineNext),
    ("torn-sample-taken", Fault::TornSampleTaken),
    ("cut-loses-digit", Fault::CutLosesDigit),
    ("sample-twice", Fault::SampleTwice),
    ("sample-skipped", Fault::SampleSkipped),
    ("left-of-kept", Fault::LeftOfKept),
    ("tight-from-head", Fault::TightFromHead),
    ("tight-from-one", Fault::TightFromOne),
    ("tight-keeps-length", Fault::TightKeepsLength),
    ("tight-keeps-head", Fault::TightKeepsHead),
    ("tight-alloc-only", Fault::TightAllocOnly),
    ("title-later", Fault::TitleLater),
    ("title-any-number", Fault::TitleAnyNumber),
    ("title-beside-limit", Fault::TitleBesideLimit),
    ("title-unnumbered", Fault::TitleUnnumbered),
    ("title-left-out", Fault::TitleLeftOut),
    ("title-unread", Fault::TitleUnread),
    ("size-unseen", Fault::SizeUnseen),
    ("size-exact", Fault::SizeExact),
    ("value-unseen", Fault::ValueUnseen),
    ("lines-too-many", Fault::LinesTooMany),
    ("lines-too-few", Fault::LinesTooFew),
    ("title-on-one", Fault::TitleOnOne),
    ("refused-passes", Fault::RefusedPasses),
    ("refusal-given", Fault::RefusalGiven),
    ("given-while-held", Fault::GivenWhileHeld),
    ("run-by-first", Fault::RunByFirst),
    ("drain-of-ours", Fault::DrainOfOurs),
    ("drain-unordered", Fault::DrainUnordered),
    ("name-of-ours", Fault::NameOfOurs),
    ("read-unseen", Fault::ReadUnseen),
    ("none-unseen", Fault::NoneUnseen),
    ("list-first", Fault::ListFirst),
    ("size-line-kept", Fault::SizeLineKept),
    ("segment-short", Fault::SegmentShort),
    ("handle-short", Fault::HandleShort),
    ("buffer-kept", Fault::BufferKept),
    ("text-cut", Fault::TextCut),
];

impl Fault {
    pub fn named(name: &str) -> Option<Fault> {
        FAULTS.iter().find(|(n, _)| *n == name).map(|(_, f)| *f)
    }
}
