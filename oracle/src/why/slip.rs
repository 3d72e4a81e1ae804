//! Mistakes that a program could make with the reason of a rebuild, each against some words of document 02, No. 6. Those of
//! filling an index, which this does too, are in `index/slip.rs`.

slips! {
    REFUSING {
        // The order, of 7 and 8 among 1 to 6 and 13.
        IdBeforeImage
        ValueBeforeImage
        IdBeforeIndex
        ValueBeforeIndex
        ValueBeforeId
        IdCut
        IdOfCountTaken
        LastIdRefused
        ValueNotJudged
        // 11 and 12, and the room that is left out.
        LimitWhereInPlace
        FieldWhereInPlace
        LimitNotTold
        FieldNotTold
        FieldBeforeLimit
        LimitsOfPlain
        LimitsOfEven
        RoomOfImage
    }
    CHOOSING {
        NotAsciiBeforeWide
        LengthsBeforeWide
        LengthsBeforeNotAscii
        OverlapBeforeLengths
        OverlapFirst
        LastThatHolds
        SameValueInPlace
        OddElsewhereWide
        // In place where the patcher rebuilds.
        WideNotAsked
        NotAsciiNotAsked
        LengthsNotAsked
        OverlapNotAsked
    }
    MEASURING {
        // Whether the value is ASCII.
        DeleteNotAscii
        ControlsNotAscii
        Character80Ascii
        FirstCharacterJudged
        LastCharacterJudged
        // The lengths.
        LengthsSwapped
        EntryLengthTwice
        ValueLengthTwice
        UnitsForBytes
        CharactersForBytes
        ShorterFits
        LongerFits
        EntryLengthByField
        LengthsOf8Bits
        LengthsOf16Bits
    }
    OVERLAPPING {
        // Which string is told.
        HighestTold
        NearestTold
        BehindFirstTold
        OwnIdTold
        CountTold
        IdsFromOne
        // Which strings are looked at.
        OwnCounted
        LowerIdsMissed
        HigherIdsMissed
        NeighboursOnly
        FirstStringMissed
        LastStringMissed
        OtherKindMissed
        WideMissed
        // Where they stand.
        WideInUnits
        IdentifiersInPairs
        PairNotRead
        OldIndexRead
        // What overlaps.
        EmptyWithinMissed
        WithinEmptyMissed
        EmptyAtStartCounted
        EmptyAtEndCounted
        EmptyTwiceCounted
        EdgeBeforeCounted
        EdgeBehindCounted
        SamePlaceMissed
        SameStartMissed
        SameEndMissed
        CoveringMissed
        WithinMissed
        LastByteMissed
        FirstByteMissed
    }
    LENDING {
        IndexLeft
        IndexLeftWhere7
        IndexLeftWhere8
        IndexLeftWhere11
        IndexLeftWhere12
        IndexLeftInPlace
        IndexLeftUnlessAsked
        IndexUpToId
        IndexUpToOverlap
        IndexCleared
        ValueLengthStored
        IndexOfResult
    }
}
