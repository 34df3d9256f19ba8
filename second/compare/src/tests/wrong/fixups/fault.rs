//! What can be wrong in preparing or in a step.

/// One thing; everything else is right.
#[derive(Clone, Copy, PartialEq, Eq)]
pub enum Fault {
    None,

    // Records.
    WholeTypeByte,
    WholeFlagByte,
    Type1Known,
    /// An OS fixup's type is no matter.
    OsTypeNotTested,
    OsIsInternal,
    /// Only flags 3 mean an OS fixup, not 7.
    AdditiveOs,

    // Targets.
    NextByteRead,
    SegmentPastTheLast,
    Segment254Missing,
    Segment255IsASegment,
    NullOrdinalsResolve,
    ModulePastTheLast,
    ModuleInAByte,
    StringNotLookedAt,
    EmptyStringIsSound,
    StringOneByteMore,
    StringOneByteLess,
    StringByOrdinalToo,
    AnswerHalvesExchanged,

    // Bytes.
    CarryIntoSelector,
    SelectorAdded,
    SelectorFirst,
    LowByteOf2,
    AdditiveLowSpanOf2,
    ChainedLowSpanOf1,
    AdditiveReplaces,
    ChainedAdds,

    // Sites.
    FirstSiteOnly,
    /// FFFFh as a first site is an empty chain.
    EndIsEmptyChain,
    AdditiveIsChained,

    // Preparing.
    OutputBeforeTheLastRecord,
    MarksLeft,
    MarksNotCleared,
    FirstRecordOnly,
    LastRecordLeftOut,
    SitesAreRecords,
    SitesWithOsFixups,
    SitesInRefusals,
    RecordInAcceptance,
    RecordFrom0,
    RecordInAByte,
    RecordBefore22,
    MeetingFirst,
    MeetingSeenBetweenRecordsOnly,
    /// The chain is read from what was changed, with overlap allowed.
    ChainFromTheBuffer,
    SpansByAllocation,
    SumOfSiteWraps,
    MarksOfWrittenBytes,
    MarksOf255,
    MarksPastTheStoredLeft,
    OutputPastTheAllocationCleared,
    ZerosLeft,
    SelectorsOneShort,
    AnswersOneShort,
    OutputOneShort,
    MarksOneShort,
    SelectorsOneMore,
    AnswersOneMore,
    OutputOneMore,
    MarksOneMore,
    AnswersByImports,
    AnswersNotCounted,
    TargetBeforeType,
    AllTypesFirst,
    AllTargetsFirst,
    EntriesNotWalked,
    EntriesAfterTheSegment,
    ListsBeforeTheSegment,

    // The step.
    OneSiteEarly,
    OneSiteMore,
    NextReadAfterWriting,
    PartOfASpan,
    NothingIfOutside,
    StopsWhereSpansMeet,
    MissingSelectorIs0,
    UnsoundEntriesResolve,
    SelectorsByTheTable,
}
