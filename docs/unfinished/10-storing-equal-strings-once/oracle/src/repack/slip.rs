//! Mistakes that a program could make where it stores equal strings once, each against some words of document 02, No. 10.

slips! {
    REFUSING {
        // The order.
        WorkBeforeImage
        WorkLast
        FieldBeforeLimit
        RoomBeforeLimit
        RoomBeforeField
        // The work space.
        WorkByOneLess
        WorkByOneMore
        WorkOfFour
        WorkInBytes
        WorkForFirsts
        WorkForAllButOne
        WorkNotJudged
        // 11 to 13.
        LimitNotJudged
        FieldNotJudged
        RoomByOneLess
        RoomByOneMore
        RoomOfImage
        RoomUnshared
        RoomOfPlain
        RoomOfEven
        NothingSharedRefused
    }
    COMPARING {
        // What is taken for alike.
        WidthsAlike
        BytesAlike
        LengthsAlike
        FirstUnitAlike
        LastUnitAlike
        AllButFirstAlike
        AllButLastAlike
        LowBytesAlike
        HighBytesAlike
        SumsAlike
        HashesAlike
        FieldLengthsAlike
        UpToZeroAlike
        EmptyWidthsAlike
        OldStartsAlike
        // What is stored for itself, though it is alike.
        NothingShared
        WideApart
        NarrowApart
        EmptyApart
        EmptyWideApart
        LongApart
        PairsApart
        KindsApart
        IdentifiersApart
        NeighboursOnly
        WithFirstOnly
        TwoByTwo
        OldPlacesOnly
        // A part of a longer string.
        FrontsShared
        EndsShared
        PartsShared
        OldPartsShared
        EmptyAtStart
    }
    PACKING {
        // Whose place, and in which order.
        HighestOwns
        Backwards
        ByOldPlace
        LongestFirst
        NarrowFirst
        IdentifiersFirst
        SharedFirst
        EmptyLast
        // What is put there.
        StoredTwice
        PlaceOfSharersLeft
        // Gaps.
        EvenAsPlain
        PlainAsEven
        GapForSharers
        NarrowPadded
        EmptyNotPadded
        FirstGapOnly
        OddPlaces
        PlacesOfFour
        OldPlaceJudged
        GapNotZero
        GapNotInLaterOffsets
        GapsNotInSize
        LastGapNotInSize
    }
    ENTERING {
        // Small entries and overflow pairs.
        EntryByCursor
        EntryBeforeGap
        OverflowByOffsetAlone
        OverflowFrom254
        OverflowFrom256
        OverflowInBytes
        PairsOfFirstsAlone
        PairsOfFirstsBefore
        PairsKept
        PairById
        PairInBytes
        // The words at 56 and 60.
        CountKept
        CountOfFirsts
        SizeKept
        SizeUnshared
        SizePadded
        // Hash slots and kinds.
        HashesRecomputed
        HashesOfSharersRecomputed
        HashesOfOwners
        KindsMerged
    }
    MOVING {
        // Whether anything is.
        NothingSharedKept
        NoStringsKept
        ShorterKept
        StrayKept
        // The tail.
        NotPadded
        PaddedByFour
        PaddingNotZero
        RecordsKept
        HeaderWordsKept
        PointerKeptWhereNotMoved
        ModernBitCleared
        InfoZeroMoved
        DebugKept
        DebugZeroMoved
        // File length and footer.
        FooterKept
        LengthKept
        FooterBeforeLength
        NothingSharedNotFinished
    }
    LENDING {
        // The work space.
        WorkLeft
        WorkAsUsed
        WorkLeftWhereDone
        WorkLeftWhere11
        WorkLeftWhere12
        WorkLeftWhere13
        WorkLeftWhereNothingShared
        OneWordLeft
        OneWordMore
        WorkOfFirstsCleared
        WholeWorkCleared
        ClearedWhereShort
        FirstWordWrittenWhereShort
        ClearedWhereImageRefused
        // The output and the answer.
        WrittenWithoutRoom
        OutputClearedWhereRefused
        RestOfOutputCleared
        OldLengthAnswered
        UnsharedLengthAnswered
        SavedAnswered
    }
    // Found by `limits`: no call holds so much.
    AT_LIMITS {
        WorkAfterLimit
        OverflowByCursor
        OverflowByLengthAlone
        OverflowBeforeGap
        LimitUnshared
        FieldUnshared
        LimitOfPlain
        LimitOfEven
        FieldOfPlain
        FieldOfEven
        FieldOfBodiesAlone
        FieldOfInfosAlone
    }
}
