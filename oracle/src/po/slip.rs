//! Mistakes that a program could make with translators' files, each against some words of document 02, No. 1.

macro_rules! slips {
    ($($name:ident)*) => {
        #[derive(Clone, Copy, PartialEq, Debug)]
        pub enum Slip {
            $($name,)*
        }

        pub const SLIPS: &[Slip] = &[$(Slip::$name,)*];
    };
}

slips! {
    // Lines.
    EmptyFileRefused
    OpenLastLineTaken
    FirstPairHasToComeFirst
    LastPairHasToComeLast
    EmptyLineHasToPart
    EmptyLineWithinTaken
    CommentWithinTaken
    EmptyLinePassedInText
    CommentPassedInText
    LinesOfSpacesTaken
    IndentTaken
    SpacesBehindTaken
    TwoSpacesTaken
    NoSpaceTaken
    TabForSpaceTaken
    CarriageReturnsTaken
    ByteOrderMarkTaken
    UpperCaseTaken
    ContextTaken
    PluralTaken
    ObsoleteRead
    FuzzyLeftOut
    // Bytes.
    CommentsNotJudged
    TextAloneJudged
    LossyTaken
    RawTabTaken
    LowBytesTaken
    DeleteRefused
    // Quoted text.
    TabAsT
    NewlineAsN
    EscapesKept
    OtherEscapesTaken
    OpenEscapeTaken
    BareQuotesTaken
    TextBehindTaken
    NoQuoteBehindTaken
    ContinuationDropped
    LastContinuationOnly
    SecondContinuationDropped
    IdNotContinued
    TextNotContinued
    LinesJoinedBySpace
    // Pairs.
    LastIdWithoutTextTaken
    TextWithoutIdTaken
    IdsInRowTaken
    TwiceTaken
    TwiceTakenWhereAlike
    TwiceTakenAmongUntranslated
    TwiceTakenOfHeader
    TwiceByPieces
    TwiceAmongNeighbours
    TwiceAfterTargets
    // What is applied, and to which strings.
    HeaderApplied
    HeaderByFirstPiece
    UntranslatedApplied
    UntranslatedByFirstPiece
    SameLeftOut
    IdentifiersLookedAt
    IdentifierIsFound
    IdentifiersPatchedToo
    FirstStringAlone
    SecondStringLeftOut
    LastStringAlone
    WideLeftOut
    NarrowLeftOut
    DecodedTextCompared
    EmptyStringsFound
    LookedUpInTurn
    UnknownPassedOver
    UnknownUntranslatedRefused
    // The single patches.
    FileOrder
    PassFor11
    PassFor12
    PassFor13
    LeastNumberOfAll
    LastStepUnjudged
    HalfApplied
    AlwaysRebuilt
    EvenAsPlain
    PlainAsEven
    NoneUnfinished
    NoneRebuilt
    NoneWithoutRoom
    // The order of the refusals.
    ModeNotJudged
    ModeAfterImage
    SpaceBeforeImage
    SpaceAfterFile
    SpaceAfterTargets
    FileBeforeImage
    TargetsBeforeFile
    StepsBeforeTargets
    // The space that is lent.
    TextByOne
    EndsByOne
    WorkByOne
    WorkWithoutStrings
    TextLeft
    EndsLeft
    WorkLeft
    LeftWhereRefused
    ClearedWhole
    ClearedWhereShort
    // What is written.
    EqualWrittenTwice
    EqualByWidth
    EqualAmongNeighbours
    IdentifiersCounted
    IdentifiersWritten
    HighestIdWritten
    SortedByValue
    EmptyWritten
    LoneSurrogatesWritten
    LoneSurrogatesAsTheirs
    WideWithLowUnitsWritten
    ControlsWritten
    ControlsEscaped
    TabsPassedOver
    NewlinesPassedOver
    DeletePassedOver
    TabsRaw
    QuotesRaw
    BackslashesRaw
    BeyondAsciiEscaped
    WrappedAtNewlines
    NoEmptyLineBehindLast
    HeaderWritten
    TextFilled
    WrittenInPart
    WriterRoomByOne
    WriterSpaceByOne
    WriterSpaceAfterRoom
}
