//! Mistakes that a program could make with an index, each against some words of document 02, No. 13, by what is done:
//! filling, which the listing does too; its answer; looking up; listing.

slips! {
    FILLING {
        // Where the words of a string go.
        OffsetsForLengths
        OffsetsForFlags
        LengthsForFlags
        SideBySide
        RunsOneLonger
        RunsOneShorter
        RunsByThirds
        FirstStringLeftOut
        LastStringLeftOut
        OneStringMore
        RestCleared
        // Its offset and its length.
        PlaceInImage
        FieldForOffset
        FieldForLength
        PairOfNext
        PairOfOneBefore
        PairById
        FirstPairForAll
        WideInBytes
        EndForLength
        // Its flags.
        IdentifierOfNext
        IdentifierOfOneBefore
        WidthOfNext
        WidthOfOneBefore
        FlagsSwapped
        NoIdentifierFlag
        NoWideFlag
        RankForFlag
        RankBesideFlags
        KindById
        EmptyRunsHaveOne
        // When it is refused, and what is written then.
        RoomBeforeImage
        RoomByOneLess
        RoomByOneMore
        RoomForOneRun
        RoomForTwoRuns
        RoomInBytes
        FirstStringWrittenWhereShort
        AllThatFitsWrittenWhereShort
        ClearedWhereShort
        ClearedWhereRefused
    }
    ANSWERING {
        WordsAnswered
        LengthAnswered
        LastIdAnswered
        IdentifiersAnswered
    }
    LOOKING {
        RoomBeforeId
        IdOfCountTaken
        IdCut
        CountCut
        ProductWraps32
        ProductWraps64
        RoomByOneLessLooked
        RoomByOneMoreLooked
        RoomForOneRunLooked
        RoomAsFarAsRead
        ReadByThirds
        ReadSideBySide
        OffsetsReadAsLengths
        OffsetsReadAsFlags
        LengthsReadAsFlags
        FlagsOfTwoBits
        OffsetOf23Bits
        LengthOf8Bits
    }
    LISTING {
        IndexLeft
        IndexCleared
        IndexAsFarAsListed
        IndexLeftWithoutRoom
        IndexLeftPastEnd
        WrittenThenRefused
        ShortIndexTaken
        OldIndexRead
        RoomForAllAsked
        RestOfOutputCleared
        FromCut
        FromLeftOut
        WholeLinesOnly
        LastByteLeftOut
    }
}
