//! Faults that the self-test puts into the reference one at a time. The gate must notice each.

#[derive(Clone, Copy, Debug, PartialEq, Eq)]
pub enum Mutation {
    /// The rules as they are.
    None,

    /// A distance of exactly the spacing is a conflict.
    ConflictAtSpacing,
    /// A contact of exactly the margin is no stitch edge.
    StitchAboveMargin,
    /// Gaps are squared in 32 bits.
    SquaresIn32Bits,

    /// A contact of exactly the margin ties as well.
    TieAtMargin,
    /// Pieces of different shapes are tied too.
    TieAcrossShapes,
    /// A point contact ties.
    PointContactTies,
    /// There are no ties.
    TiesIgnored,
    /// Ties do not carry on: a piece joins the lowest one that it is tied to itself.
    TiesNotCarriedOn,
    /// A unit is numbered by its highest piece.
    UnitByHighest,
    /// A stitch edge inside a unit makes the unit its own neighbour.
    InsideEdgesCounted,
    /// The search pays once for all conflict edges between two units.
    DoubledConflictsOnce,
    /// The search pays once for all stitch edges between two units.
    DoubledStitchesOnce,
    /// The conflict degree counts edges.
    ConflictDegreeOfEdges,
    /// The stitch degree counts edges.
    StitchDegreeOfEdges,

    /// A unit with conflict edges may go although it has a stitch edge.
    PeelStitchBelowTwo,
    /// A unit may go with as many neighbours in conflict as masks.
    PeelAtMasks,
    /// A round removes the highest-numbered unit that may go.
    PeelHighestFirst,
    /// The unit that was removed first returns first.
    PutBackInOrder,

    /// Stitch edges do not hold a component together.
    ComponentsByConflicts,
    /// The first assignment takes the highest of the cheapest masks.
    FirstTakesHighest,
    /// The search goes on where the cost equals the incumbent's.
    EqualCostGoesOn,
    /// A new incumbent is not seen by the masks still to be tried at earlier places.
    IncumbentSeenLate,
    /// The search tries all masks at every place.
    AllMasksTried,
    /// One step more than the budget is taken.
    BudgetOneMore,
    /// A search that is stopped goes back to the first assignment.
    StoppedKeepsFirst,
    /// Every component has the whole budget.
    BudgetForEachComponent,
    /// A search that ends with the last step of the budget is called open.
    FullBudgetIsOpen,

    /// No fault: the steps of a subtree that repeats the one before it are counted.
    SubtreesCounted,
    /// They are counted although the one before it found an incumbent.
    CountedAfterFind,
    /// They are counted for a mask of another cost.
    CountedAtAnyCost,
    /// They are counted for a mask that is new where the one before it was in use.
    CountedOnNewMask,
    /// The first later neighbour of a place is taken one place too far.
    CountedOnePlaceFurther,
    /// Stitch edges make no neighbours.
    CountedPastStitches,
    /// A subtree is said to reach no further than the place after its own.
    ReachOfNextPlace,
    /// A place is said to reach as far as the mask that was entered last.
    ReachOfLastMask,
    /// What was entered at a place is remembered when the search comes to it again.
    CountedAcrossVisits,
    /// A counted subtree has one step less.
    CountedWithoutOwnStep,
    /// A search that the budget ends in a counted subtree is not noted as stopped.
    CountedEndNotNoted,
    /// A search that ends with a counted subtree and the last step of the budget is called open.
    CountedFullIsOpen,
    /// Where the budget ends in a counted subtree, the steps that are left are not taken.
    CountedStepsLeft,
    /// The search goes on with them.
    CountedStopForgotten,
    /// All steps of a counted subtree are taken.
    CountedPastBudget,

    /// Entries of the library of small graphs are too high by one.
    EntryTooHigh,
    /// They are too low by one.
    EntryTooLow,
    /// The bits of an index stand in the order of the greater units.
    PairsByGreater,
    /// The search ends at the entry and not at the weight times it.
    EntryWithoutWeight,
    /// The library serves components on two masks too.
    TwoMasksServed,
    /// It serves components on four masks too.
    FourMasksServed,
    /// It serves components of six units too.
    SixUnitsServed,
    /// It does not serve components of five units.
    FiveUnitsNotServed,
    /// It serves components of five units only.
    FourUnitsNotServed,
    /// It serves components with stitch edges too.
    StitchedServed,
    /// It serves components with several conflict edges between two units too.
    DoubledServed,
    /// It serves components with a fixed unit too.
    FixedServed,
    /// A stitch edge to a unit that was peeled keeps a component from it.
    PeeledStitchBars,
    /// Several conflict edges to a unit that was peeled do.
    PeeledDoubledBars,
    /// A fixed unit of another component does.
    FixedElsewhereBars,
    /// The end of such a search is seen one step late.
    EndSeenLate,
    /// A first step is taken in any case.
    FirstStepTaken,
    /// The first assignment does not end a search.
    FirstNotCompared,
    /// Only the first assignment ends a search.
    OnlyFirstCompared,
    /// The budget is asked before the end of a search is seen.
    BudgetBeforeEnd,
    /// A search that ends after the budget ended another is called best.
    LastSearchDecides,

    /// Numbers of the text wrap at 32 bits.
    WrapAt32Bits,
    /// Numbers of the text wrap at 64 bits.
    WrapAt64Bits,
    /// The last line needs no byte 10.
    LastNewlineOptional,
    /// Overlaps are judged before the lines after the last piece line.
    OverlapBeforeFixed,
    /// Of two pieces that overlap the earlier one is named.
    EarlierPieceNamed,
    /// A text may have one byte more.
    TextOneLonger,

    /// A fixed line may name a piece below that of the line before it.
    FixedFalling,
    /// A piece may be fixed twice; the second mask holds.
    FixedTwice,
    /// Piece and mask of a fixed line are judged before its order.
    FixedRangeFirst,
    /// They are judged after the forms of all fixed lines.
    FixedRangeLate,
    /// A piece or mask of a fixed line that is out of range is refusal 4.
    FixedRangeIsFour,
    /// The number of masks is let through as a fixed mask.
    FixedMaskAtLimit,
    /// A fixed mask of 255 is none.
    FixedMaskUnset,
    /// A fixed line may name the piece after the last; nothing is fixed by it.
    FixedPieceAtCount,
    /// The last fixed line is read and forgotten.
    LastFixedIgnored,
    /// There may be no more than 511 fixed lines.
    FixedLinesOneFewer,

    /// Fixed masks in a unit are not compared with each other.
    DifferByPiece,
    /// Fixed masks are compared with those of pieces that are tied directly.
    DifferByTies,
    /// Fixed masks are compared with that of the unit's lowest piece.
    DifferByLowest,
    /// Of two fixed masks in a unit that differ the earlier one is named.
    DifferNamesEarlier,
    /// Of several fixed masks that differ from an earlier one the last is named.
    DifferNamesLast,
    /// Fixed masks are compared before overlaps are judged.
    DifferBeforeOverlap,

    /// A unit is fixed only by its lowest piece.
    UnitFixedByLowest,
    /// A fixed unit may go like any other.
    FixedPeeled,
    /// Degrees leave out fixed units.
    FixedNotCounted,
    /// A fixed unit does not hold a component together.
    FixedSplitsComponent,
    /// The first assignment gives fixed units the cheapest mask.
    FirstIgnoresFixed,
    /// The search tries other masks too at a fixed unit.
    CandidatesIgnoreFixed,
    /// The limit by the number of masks used holds in components with a fixed unit too.
    FixedRenamed,
    /// A fixed unit lifts that limit in all components.
    FixedLiftsAll,
    /// A fixed unit lifts that limit at the places after it only.
    FixedLiftsLater,
    /// A mask tried at a fixed unit is no step.
    FixedStepFree,

    /// A buffer may have one byte less.
    BufferOneShorter,
    /// A zero byte is written after the result.
    ZeroAfterResult,
    /// A refusal clears the buffer.
    ClearedOnRefusal,
    /// A byte is written before the buffer.
    WriteBeforeBuffer,
    /// A byte of the layer is changed.
    LayerChanged,

    /// A settings text may have one byte more.
    SettingsOneLonger,
    /// A stream may have one byte more.
    StreamOneLonger,
    /// The size of a stream is judged after the settings text.
    StreamSizeLate,
    /// The buffer of a call on a stream is judged after all that is read.
    RoomLate,
    /// The records are judged before the settings text.
    StreamBeforeSettings,
    /// A settings text may state pieces; none are read.
    SettingsCountAny,
    /// The count of a settings text is judged after the text behind it.
    SettingsCountLate,
    /// A settings text may have anything behind its lines.
    TextAfterSettings,
    /// Text after the lines of a settings text is judged as fixed lines.
    FixedInSettings,

    /// Records are counted from 0.
    RecordsFromZero,
    /// A record that is missing or cut short has the number of the one before.
    CutNamesLast,
    /// A record may have more data than is due.
    LongerData,
    /// The length of a record may be odd.
    OddLengths,
    /// The data type of a record is not looked at.
    DataTypeIgnored,
    /// Optional records of the manual are left out.
    OptionalSkipped,
    /// The name of a library must have a byte.
    NameNeeded,
    /// A property may have any number.
    AnyAttribute,
    /// Anything may follow ENDLIB.
    BytesAfterEnd,
    /// Only the first byte after ENDLIB must be zero.
    FirstByteAfterEnd,
    /// Bytes after ENDLIB have the number of ENDLIB.
    EndNamed,

    /// A unit by one part of its fraction too large is let through.
    UnitOneAbove,
    /// A unit by one part of its fraction too small is let through.
    UnitOneBelow,
    /// The unit is judged in floating point.
    UnitByFloat,
    /// The unit must be the floating point number next to a nanometre.
    UnitEqual,
    /// The fraction of the unit must be normalised.
    UnitNormalised,
    /// The sign of the unit is left out.
    UnitSignLost,
    /// The first real of UNITS is judged.
    FirstReal,
    /// The unit is judged after the other records.
    UnitLate,

    /// Coordinates have their lowest byte first.
    LittleEndian,
    /// A rectangle must begin at its lowest corner.
    LeastCornerFirst,
    /// A rectangle must go round against the clock.
    OneWayRound,
    /// The last point need not be the first.
    OpenPath,
    /// Sides need not be along the axes.
    SlantedSides,
    /// A path there and back on two sides is a rectangle.
    ThereAndBack,
    /// Another number of points is refusal 10.
    OtherPointsNoRectangle,
    /// A negative coordinate is refusal 10.
    NegativeNoRectangle,
    /// A negative coordinate is refused before later records are looked at.
    NegativeAtOnce,
    /// The sign of a coordinate is left out.
    CoordinateSignLost,

    /// A shape number may have zeros before it.
    LeadingZeros,
    /// A shape number without digits is 0.
    NoDigitIsZero,
    /// Zero bytes are left out wherever they stand in a shape number.
    FillersSkipped,
    /// A shape number out of its range is refusal 9.
    ShapeInRecord,
    /// Shape numbers wrap at 32 bits.
    ShapeWrapsAt32Bits,
    /// Shape numbers wrap at 64 bits.
    ShapeWrapsAt64Bits,
    /// A stream may have 513 elements.
    PiecesOneMore,
    /// The number of pieces is judged after the pieces.
    CountLate,
    /// Pieces that are out of range are counted from 1.
    PiecesFromOne,
    /// A piece that overlaps an earlier one is refused before the ranges of later ones are judged.
    OverlapAtOnce,

    /// A byte of the settings text is changed.
    SettingsChanged,
    /// A byte of the stream is changed.
    StreamChanged,
    /// A zero byte is written after the result of a stream.
    StreamResultEnded,
    /// A refused stream clears the buffer.
    StreamRefusalCleared,

    /// Masks are cut to 8 bits.
    MasksWrapAt8Bits,
    /// Masks wrap at 32 bits.
    MasksWrapAt32Bits,
    /// Masks wrap at 64 bits.
    MasksWrapAt64Bits,
    /// A number above 255 is not set either.
    LargeMasksUnset,
    /// A list that is too short goes on with pieces that are not set.
    ShortListFilled,
    /// A list that is too long is cut.
    LongListCut,
    /// No more than 512 masks of a list are looked at.
    ListCutAt512,
    /// More than 512 masks are refused before the layer is read.
    LongListFirst,

    /// 255 is refused.
    UnsetRefused,
    /// 254 is let through.
    NearUnsetPasses,
    /// The number of masks is let through as a mask.
    MaskAtLimit,
    /// Of several masks out of range the last is named.
    LastMaskNamed,

    /// Masks are compared with the lowest piece of a unit although it is not set.
    SplitByLowest,
    /// Pieces that are not set are compared too.
    UnsetSplits,
    /// A unit whose lowest piece is not set may be split.
    SplitSkipped,
    /// Masks are compared with the highest set piece of a unit.
    SplitByHighest,
    /// Masks are compared with those of pieces that are tied directly.
    SplitByTies,
    /// Of several pieces that split a unit the last is named.
    LastSplitNamed,
    /// Split units are judged before the range of the masks.
    SplitFirst,
    /// A piece is through with both before the next one is looked at.
    PieceByPiece,

    /// Fixed masks in a unit are compared after the masks are judged.
    DifferAfterMasks,
    /// Masks that are not the fixed ones are refused.
    BrokenFixedRefused,
    /// A piece that is not set counts with its fixed mask.
    UnsetFromFixed,

    /// Two ends that are not set are a conflict.
    UnsetConflict,
    /// A set end and one that is not are a conflict.
    HalfSetConflict,
    /// A set end and one that is not are a stitch.
    HalfSetStitch,
    /// A piece that is not set counts with the mask of its unit.
    UnsetFromUnit,
    /// All edges between two units are counted as one.
    DoubledEdgesOnce,
    /// The weight is that of stitches.
    WeightOnStitches,

    /// Only pairs with an edge count as tested.
    EdgesCounted,
    /// Pairs with an end that is not set do not count as tested.
    UnsetNotCounted,
    /// Each tested pair counts from both its ends.
    CountedFromBothEnds,
    /// The pair of the last two pieces does not count as tested.
    LastPairNotCounted,
}
