#!/usr/bin/env bash
# noticed.sh REFERENCE DRIVER..: would a comparison fail? The independent program beside itself agrees; beside itself with
# a deliberate fault, or beside a driver that says nothing, it must end with status 1, and so beside DRIVER, where the
# library oversteps (overstep.c).
. "$(dirname "$0")/script.sh"
reference=$1
driver=("${@:2}")
# A fault shows once in 1,600 pairs; a run has some 25 calls.
declare -A count=([tables]=2000 [vectors]=2000 [calls]=2000 [plain]=2000 [voicemail]=8000 [reports]=1000 [rows]=2000 [moves]=2000 [takes]=2000 [lists]=8000 [demand3]=8000 [demand3-voicemail]=8000 [neighbours]=4000 [neighbours-voicemail]=4000 [breaches]=100 [runs]=50)

ends() { # STATUS KIND DRIVER..
    local status=0
    "$reference" compare --kind "$2" --seed 1 --count "${count[$2]}" -- "${@:3}" >/dev/null 2>&1 || status=$?
    [ "$status" = "$1" ] || fail "compare --kind $2 -- ${*:3} ends with status $status instead of $1"
    tried=$((tried + 1))
}

for kind in tables vectors calls plain voicemail reports rows moves takes lists demand3 demand3-voicemail neighbours neighbours-voicemail breaches runs; do
    ends 0 "$kind" "$reference" outcomes
    ends 1 "$kind" true
done
for of in tables:EqualIdentitiesTaken tables:PrefixTaken vectors:XresOf3Taken vectors:LastBadVectorTold calls:PendingStays calls:RestOfBufferCleared \
    calls:BaseForUserUnknown calls:UsedSentAgain calls:VectorCheckWordStays calls:PlaceNeverTold calls:SecondIdentityPlaced \
    reports:EqualRewritingsCounted reports:VectorsNotCarried reports:BrokenUndone reports:LargestWithPlace \
    tables:IssueNotCompared tables:EarlierEditionBlamed tables:IssueOfEdition1Taken calls:RewritingLosesSet calls:Edition2NotDecided \
    reports:Edition2NotReported moves:SetsLost moves:SetsNotTested moves:SetsBeforeSoundness moves:MoveLeavesHeaderCheckWord \
    moves:OtherEditionBlamesFirstRecord moves:MoveReturnsZero runs:IssueStaysOnTheWayBack runs:RewritingResetsEdition \
    demand3:MarkIgnored demand3:ReservedFlagsOfUnknownIgnored demand3:FaultyRequestUsesVector demand3:PlaceWithoutUnknown \
    tables:LongerAreaRefused calls:LongerAreaNotDecided reports:LongerAreaNotReported takes:EqualIssueTaken takes:FoundUpToOldCount \
    takes:FreshOfEdition1Taken takes:RefusedTakeWrites takes:RestOfAreaCleared runs:TakeWritesNothing \
    rows:RowShortBeforeEnd rows:RowShortBeforeBroken rows:RowBrokenIsEnd rows:RowShortIsEleven rows:RowAnswersByteShortTaken rows:RowLeastWordsRefused \
    rows:RowNeedsRoomForAll rows:RowStopUndone rows:RowStopsAtRefusal rows:RowPeerRefusesAll rows:RowTableNotCarried rows:RowVectorsNotCarried \
    rows:RowOfOlderPeers rows:RowOfNoFeatures rows:RowRefusedUnworded rows:RowRefusedTakesRoom rows:RowAnswersOverwritten rows:RowAnswersInSlots \
    rows:RowWordsLittleEndian rows:RowWordsWithoutPlace rows:RowAlteredNotTold rows:RowMarkedNotTold rows:RowFlagsTurned rows:RowAlteredByRewriting \
    rows:RowAlteredAtEnd rows:RowAlteredByLast rows:RowAlteredCounted rows:RowTellsAnswered rows:RestOfRowAnswersCleared rows:RestOfRowWordsCleared \
    lists:QuoteNotDoubled lists:EmptyServerUnquoted lists:BarredAndServicesTurned lists:StartListedIn16Bits lists:SetLeftOut lists:LongerTableExported \
    lists:ExportOfEdition1Taken lists:ThirteenReturnsZero lists:HighBytesListed lists:ShortListBeforeUnlistable lists:RestOfListAreaCleared \
    lists:LeadingZerosTaken lists:EmptyNumberIsZero lists:BareQuoteTaken lists:SurplusLinesTaken lists:CountedByLines lists:ListSetsMayDisagree \
    lists:EarlierLineBlamed lists:MissingTellsLastThere lists:CutLineTellsNext lists:FourteenReturnsZero lists:RoomNotAsked lists:RoomForOneMore \
    lists:HeaderBlockOfEdition1Taken lists:ShortAreaBeforeLines lists:RefusedImportWritesHeader lists:ImportedIssueLost lists:ImportReturnsCount \
    neighbours:NameOfAnySubscription neighbours:FreeOfNumberCounts neighbours:StaleRecordsDecided neighbours:LastRecordNotFound \
    neighbours:IdentityWithoutCase neighbours:IdentityEndsAtZero neighbours:SessionIdAnywhere neighbours:RestOfBufferCleared \
    breaches:KeepTurned breaches:RoamingBitNotAsked breaches:LastNameOfSubscription \
    calls:UnknownPeerIsOlder calls:PeerAfterBuffer calls:SeveralVendorsTaken calls:SeveralVendorsRefusedByOlder calls:SecondVendorPlaced \
    reports:UnknownPeerRefusesReport reports:ReportOfOlderPeers runs:PeersTurned demand3:SeveralVendorsFirst \
    calls:FeaturesNotAsked calls:UnmarkedFeaturesAsked calls:UnsupportedAlters calls:OwnListUpToFault calls:OwnListNotIfEmpty calls:OwnListMarked \
    reports:ReportOfNoFeatures runs:FeaturesNotAsked demand3:UnsupportedBeforeUnknown demand3:OwnListNotBesideFailedAvp \
    plain:PendingStays plain:PlainListOf2045 plain:PlainCutOffNotListed plain:PlainByLetter plain:PlainLastFault plain:PlainFirstRuleEverywhere \
    plain:PlainCountsNeighbours plain:PlainSeveralVendorsLast plain:PlainPlaceNeverTold plain:PlainPeerLast plain:PlainVectorsNotAsked \
    plain:PlainNeighboursMustAgree plain:PlainLastRecordNotFound plain:PlainFeaturesNotAsked plain:PlainPendingStays plain:PlainClearsRestOfBuffer \
    voicemail:PeerNotAskedInSh voicemail:LongerAreaRefusedInSh voicemail:UnsoundReturnsZeroInSh voicemail:CxCommandsTakenInSh voicemail:ApplicationNotAskedInSh \
    voicemail:IdentityKnownInSh voicemail:FeaturesAskedInSh voicemail:OwnListInSh voicemail:ReferenceOnce voicemail:CxGroupInShAnswers \
    voicemail:MsisdnBesideIdentityTaken voicemail:IdentityPaddingWhole voicemail:MemberOf700Placed voicemail:ReferenceBeforeIdentity voicemail:BaseForReference \
    voicemail:BarredNotToldInSh voicemail:ElementsAsAsked voicemail:PendingToldInAnyState voicemail:EmptyNameElement voicemail:ApostropheNotEscaped \
    voicemail:EscapedTwice voicemail:HighBytesReplaced voicemail:NameOfSubscriptionInSh demand3-voicemail:IdentityKnownInSh \
    demand3-voicemail:FeaturesUnknownInSh neighbours-voicemail:LastRecordNotFound neighbours-voicemail:IdentityWithoutCase \
    demand3:FirstUnknownPlaced demand3:LastMarkedPlaced runs:UsedSentAgain runs:RewritingFreesVectors; do
    ends 1 "${of%:*}" "$reference" outcomes --fault "${of#*:}"
done
for kind in tables vectors plain rows lists voicemail; do
    OVERSTEP=nowhere ends 0 "$kind" "${driver[@]}"
    for which in before behind inside; do
        OVERSTEP=$which ends 1 "$kind" "${driver[@]}"
    done
done
echo "noticed.sh: $tried comparisons, each ended as it should"
