//! Every way in which documents 01 and 02 name a refusal: its number, and the words.
//!
//! The programs print the number only. The generator counts the ways, so that a clause that no
//! vector reaches is seen.

macro_rules! ways {
    ($($name:ident = $number:literal, $words:literal;)*) => {
        /// One clause of one refusal.
        #[derive(Clone, Copy, Debug, PartialEq, Eq, Hash, PartialOrd, Ord)]
        pub enum Way { $(#[doc = $words] $name,)* }

        impl Way {
            /// All clauses, in the order of the papers.
            pub const ALL: &'static [Way] = &[$(Way::$name,)*];

            /// The number that the papers give this refusal.
            pub fn number(self) -> u16 {
                match self { $(Way::$name => $number,)* }
            }

            /// The clause in words.
            pub fn words(self) -> &'static str {
                match self { $(Way::$name => $words,)* }
            }
        }
    };
}

ways! {
    LengthLow = 1, "L below 9";
    LengthHigh = 1, "L above 4,096";
    OpeningLength = 2, "byte 0 is not 09";
    OpeningType = 2, "byte 1 is not 02";
    OpeningTotal = 2, "bytes 2..3 are not L";
    DescriptorShort = 3, "a descriptor's length is below 2";
    DescriptorLong = 3, "a descriptor's length runs past L";
    InterfaceLength = 4, "an interface descriptor is not 9 long";
    InterfacePair = 4, "repeats an earlier pair of number and alternate setting";
    SecondAudioControl = 4, "a second AudioControl one";
    AudioControlSetting = 4, "AudioControl with a setting other than 0";
    NoAudioControl = 4, "there is no AudioControl one";
    HeaderAtEnd = 5, "header absent: the configuration ends";
    HeaderAtGroup = 5, "header absent: the next group begins";
    HeaderOpening = 5, "header malformed: bytes 1 to 4";
    HeaderLength = 5, "header malformed: length is not 8+n";
    TotalWrong = 6, "total wrong";
    ClassAfterRun = 6, "class descriptors after the run";
    ListedTwice = 7, "the listed numbers are not distinct";
    ListedUnknown = 7, "a listed number of no streaming or MIDI group";
    StreamingUnlisted = 7, "a streaming group's number is not listed";
    MidiUnlisted = 7, "a MIDI group's number is not listed";
    NoEntity = 8, "no entity";
    ManyEntities = 8, "more than 32 entities";
    KindAbsent = 9, "too few bytes for a kind and an ID";
    KindUnknown = 9, "any other kind";
    InputTerminalLength = 9, "Input Terminal: length is not 12";
    OutputTerminalLength = 9, "Output Terminal: length is not 9";
    MixerPins = 9, "Mixer: p is not 1 to 24";
    MixerLength = 9, "Mixer: length below 10+p";
    SelectorPins = 9, "Selector: p is not 1 to 24";
    SelectorLength = 9, "Selector: length is neither 6+p nor 7+p";
    SelectorPad = 9, "Selector: length 7+p and byte 5 is not 0";
    FeatureLength = 9, "Feature Unit: length below 7";
    FeatureSize = 9, "Feature Unit: control size is not 1 to 4";
    SelectorPrinted = 17, "the printed Selector: length 7+p and byte 5 is 0";
    IdZero = 10, "ID zero";
    IdRepeated = 10, "ID borne by an earlier entity";
    SourceZero = 11, "a source ID is 0";
    SourceUnknown = 11, "a source ID is unknown";
    SourceOutput = 11, "a source ID is an Output Terminal's";
    ChainOnLoop = 12, "an upstream chain longer than 32 steps: on a loop";
    ChainBelowLoop = 12, "an upstream chain longer than 32 steps: below a loop";
    InputChannelsZero = 13, "Input Terminal: c is 0";
    InputChannelsHigh = 13, "Input Terminal: c is above 16";
    InputReserved = 13, "Input Terminal: one of bits 12 to 15 is not 0";
    InputOnes = 13, "Input Terminal: the ones are more than c";
    InputIndexEqual = 13, "Input Terminal: ones equal c and the index is not 0";
    InputIndexHigh = 13, "Input Terminal: index + c - ones - 1 above 255";
    MixerChannelsZero = 13, "Mixer: c is 0";
    MixerChannelsHigh = 13, "Mixer: c is above 16";
    MixerReserved = 13, "Mixer: one of bits 12 to 15 is not 0";
    MixerOnes = 13, "Mixer: the ones are more than c";
    MixerIndexEqual = 13, "Mixer: ones equal c and the index is not 0";
    MixerIndexHigh = 13, "Mixer: index + c - ones - 1 above 255";
    MixerControls = 13, "Mixer: length is not 10+p+N";
    FeatureMasks = 13, "Feature Unit: length is not 7+(c+1)n";
    SelectorChannels = 13, "Selector: pins differ in c";
    SelectorBitmap = 13, "Selector: pins have the same c and differ in the bitmap";
    IdleClass = 14, "no endpoints, and a type 24 in the group";
    GeneralAbsent = 14, "GENERAL absent: the group ends";
    GeneralOpening = 14, "GENERAL is not 24 01";
    GeneralLength = 14, "GENERAL's length is not 7";
    LinkUnknown = 14, "the linked ID is no entity's";
    LinkUnit = 14, "the linked entity is no Terminal";
    LinkType = 14, "the linked Terminal is not of type 0x0101";
    FormatAbsent = 14, "FORMAT_TYPE absent: the group ends";
    FormatOpening = 14, "FORMAT_TYPE is not 24 02";
    FormatLength = 14, "FORMAT_TYPE's length is below 4";
    PcmLength = 14, "tag 1: length below 8";
    PcmFormat = 14, "tag 1: format byte 3 is not 1";
    PcmChannels = 14, "tag 1: byte 4 is not the terminal's c";
    PcmSubframe = 14, "tag 1: byte 5 is not 1 to 4";
    PcmResolution = 14, "tag 1: byte 6 is not 1 to 8 times byte 5";
    PcmRates = 14, "tag 1: f above 0 and length is not 8+3f";
    PcmRangeLength = 14, "tag 1: f is 0 and length is not 14";
    PcmRangeOrder = 14, "tag 1: f is 0 and the lower rate is above the upper";
    ManyControls = 15, "more than 128 controls";
    SheetShort = 16, "sheet shorter than 32 bytes for each entity";
    LoadUnknown = 20, "load: no such control";
    LoadUnranged = 20, "load: the control is not a ranged one";
    LoadWide = 21, "load: a number too wide for the control";
    LoadOrder = 21, "load: MIN above MAX";
    LoadResZero = 21, "load: RES is 0";
    LoadResHigh = 21, "load: RES above its most";
    LoadVolumeMin = 21, "load: volume MIN is -32768";
    TableCount = 30, "over 128 controls";
    TableTwice = 30, "a control twice";
    TableSelector = 30, "an unknown selector";
    TableChannel = 30, "a channel over 16";
    TableSelectorChannel = 30, "a channel over 0 for a Selector's";
    TablePins = 30, "a pin count no Selector may have";
    TableOrder = 30, "loaded: MIN above MAX";
    TableResZero = 30, "loaded: RES is 0";
    TableResHigh = 30, "loaded: RES above its most";
    TableVolumeMin = 30, "loaded: volume MIN is -32768";
    TableWideLoaded = 30, "loaded: a number too wide for the control";
    TableWideUnranged = 30, "unranged: a number too wide for the control";
    TableSettingLoaded = 30, "loaded: a value that is no setting";
    TableSettingYesNo = 30, "yes/no: a value that is no setting";
    TableSettingPin = 30, "Selector: a value that is no setting";
    SetupLength = 31, "setup not 8 bytes";
    SetupRequest = 31, "type and request are none of the five";
    InterfaceNumber = 32, "wIndex low byte is not the AudioControl number";
    UnitUnknown = 33, "wIndex high byte is no unit with controls";
    ControlUnknown = 34, "no such control of a Feature Unit";
    ChannelsUnknown = 34, "no channel of a Feature Unit has it";
    SelectorValue = 34, "wValue is not 0 for a Selector";
    UnrangedYesNo = 35, "MIN, MAX, RES of a yes/no";
    UnrangedPin = 35, "MIN, MAX, RES of a Selector";
    NotLoaded = 36, "an addressed ranged control is not loaded";
    SetLength = 37, "Set: wLength is not the size of the addressed controls together";
    SetData = 37, "Set data is not that long";
    SetYesNo = 38, "Set of a yes/no to other than 0, 1";
    SetPinZero = 38, "Set of a Selector below its pins";
    SetPinHigh = 38, "Set of a Selector above its pins";
    ReplyShort = 39, "Get: the reply buffer is shorter than the bytes to be sent";
    NewLong = 41, "new form: length over 1,024";
    NewUneven = 41, "new form: length not a multiple of 32";
    OldLong = 41, "old form: length over 512";
    OldUneven = 41, "old form: length not a multiple of 16";
    NewIdZero = 42, "new form: an ID of zero";
    NewIdTwice = 42, "new form: an ID that stands twice";
    OldIdZero = 42, "old form: an ID of zero";
    OldIdTwice = 42, "old form: an ID that stands twice";
    LastSixteen = 43, "new to old: a byte other than 00 in the last sixteen of a record";
    RoomForNew = 44, "old to new: too little room";
    RoomForOld = 44, "new to old: too little room";
    RouteUnknown = 45, "routes: the ID is no entity's";
    RouteOther = 45, "routes: the ID is that of an entity other than an Output Terminal";
    ManyRoutes = 46, "more than 256 routes";
    EntityLong = 9, "writer: an entity that would pass 255 bytes";
    EntityPadded = 9, "writer: a Selector with a byte 0 before its sources";
    EntityPrintedWrong = 9, "writer: a printed Selector without a Selector's fields";
    EntityPrinted = 17, "writer: a printed Selector";
    CollectionLong = 47, "writer: the collection list has more than 247 numbers";
    BufferShort = 48, "writer: the buffer is too short";
    ListShort = 49, "the lent list is too short for the routes";
    SidesOver = 30, "duet: over 192 controls in all";
    PresentedNumber = 32, "duet: a presented number other than 0 and 1";
    SideTaken = 61, "duet, plug-in: the side is taken";
    SidesFull = 62, "duet, plug-in: both sides' controls would pass 192";
    UnplugEmpty = 63, "duet, unplugging: an empty side";
    LoadEmpty = 63, "duet, load: an empty side";
    RequestEmpty = 63, "duet, request: an empty side";
    StretchUnknown = 64, "duet, stretch: an unknown ID";
    HeaderAtEndIn3 = 5, "3.0: header absent: the configuration ends";
    HeaderAtGroupIn3 = 5, "3.0: header absent: the next group begins";
    HeaderOpeningIn3 = 5, "3.0: header malformed: bytes 1 to 2";
    HeaderLengthIn3 = 5, "3.0: header malformed: length is not 10";
    TotalWrongIn3 = 6, "3.0: total wrong";
    ClassAfterRunIn3 = 6, "3.0: class descriptors after the run";
    NoEntityIn3 = 8, "3.0: no entity";
    ManyEntitiesIn3 = 8, "3.0: more than 32 entities";
    ClusterCut = 51, "3.0: fewer than two bytes left for a cluster descriptor";
    ClusterShort = 51, "3.0: a cluster descriptor's length is below 7";
    ClusterLong = 51, "3.0: a cluster descriptor's length runs past the end";
    ClusterZero = 51, "3.0: a cluster descriptor's ID is 0";
    ClusterTwice = 51, "3.0: a cluster descriptor's ID is repeated";
    KindAbsentIn3 = 9, "3.0: too few bytes for a kind and an ID";
    KindUnknownIn3 = 9, "3.0: any other kind";
    InputTerminalLengthIn3 = 9, "3.0: Input Terminal: length is not 20";
    OutputTerminalLengthIn3 = 9, "3.0: Output Terminal: length is not 19";
    MixerPinsIn3 = 9, "3.0: Mixer: p is not 1 to 24";
    MixerLengthIn3 = 9, "3.0: Mixer: length below 13+p";
    SelectorPinsIn3 = 9, "3.0: Selector: p is not 1 to 24";
    SelectorLengthIn3 = 9, "3.0: Selector: length is not 11+p";
    FeatureLengthIn3 = 9, "3.0: Feature Unit: length below 7";
    ClockLength = 9, "3.0: Clock Source: length is not 12";
    IdZeroIn3 = 10, "3.0: ID zero";
    IdRepeatedIn3 = 10, "3.0: ID borne by an earlier entity";
    SourceZeroIn3 = 11, "3.0: a source ID is 0";
    SourceUnknownIn3 = 11, "3.0: a source ID is unknown";
    SourceOutputIn3 = 11, "3.0: a source ID is an Output Terminal's";
    SourceClock = 11, "3.0: a source ID is a Clock Source's";
    ClockZero = 11, "3.0: a Terminal's clock ID is 0";
    ClockUnknown = 11, "3.0: a Terminal's clock ID is unknown";
    ClockOther = 11, "3.0: a Terminal's clock ID is that of an entity other than a Clock Source";
    ChainOnLoopIn3 = 12, "3.0: an upstream chain longer than 32 steps: on a loop";
    ChainBelowLoopIn3 = 12, "3.0: an upstream chain longer than 32 steps: below a loop";
    InputCluster = 52, "3.0: Input Terminal: the cluster ID is unknown";
    MixerCluster = 52, "3.0: Mixer: the cluster ID is unknown";
    InputChannelsZeroIn3 = 13, "3.0: Input Terminal: c is 0";
    InputChannelsHighIn3 = 13, "3.0: Input Terminal: c is above 16";
    MixerChannelsZeroIn3 = 13, "3.0: Mixer: c is 0";
    MixerChannelsHighIn3 = 13, "3.0: Mixer: c is above 16";
    MixerControlsIn3 = 13, "3.0: Mixer: length is not 13+p+N";
    FeatureMasksIn3 = 13, "3.0: Feature Unit: length is not 7+4(c+1)";
    SelectorContent = 13, "3.0: Selector: pins differ in cluster content";
    SheetShortIn3 = 16, "3.0: sheet shorter than 32 bytes for each entity";
}

impl Way {
    /// Whether it is one of the reader's clauses of a configuration, 16 apart.
    pub fn is_of_configuration(self) -> bool {
        self < Way::SheetShort
    }

    /// Whether it is one that only a configuration of the 3.0 edition can get.
    pub fn is_of_edition3(self) -> bool {
        self >= Way::HeaderAtEndIn3
    }

    /// Whether it is one of the clauses that come before the edition is known: 1 to 4.
    pub fn is_of_both_editions(self) -> bool {
        self <= Way::NoAudioControl
    }

    /// Whether it is one of the reader's clauses of a list of entities: 8, 9, 17 and 10 to 13.
    pub fn is_of_entities(self) -> bool {
        (Way::NoEntity..=Way::SelectorBitmap).contains(&self)
    }
}

/// A refusal of a configuration, or of a list of entities: its clause and its place.
#[derive(Clone, Copy, Debug, PartialEq, Eq)]
pub struct Refusal {
    /// The clause, which bears the number.
    pub way: Way,
    /// "an offset from the first byte", for 51 "in that buffer"; of the writer "the entity's index from
    /// 0 in the list".
    pub place: usize,
}

impl Refusal {
    /// The refusal of `way` at `place`.
    pub fn at(way: Way, place: usize) -> Refusal {
        Refusal { way, place }
    }

    /// `refused N at P`, as the programs print it.
    pub fn line(&self) -> String {
        format!("refused {} at {}\n", self.way.number(), self.place)
    }
}

#[cfg(test)]
mod tests {
    use super::Way;

    #[test]
    fn every_number_of_the_papers_has_a_way() {
        let wanted =
            (1..=17).chain([20, 21]).chain(30..=39).chain(41..=49).chain([51, 52]).chain(61..=64);
        for number in wanted {
            assert!(Way::ALL.iter().any(|way| way.number() == number), "{number}");
        }
    }

    #[test]
    fn clauses_stand_in_the_order_of_the_papers() {
        for way in Way::ALL {
            let number = way.number();
            let third = way.words().starts_with("3.0");
            assert_eq!(way.is_of_edition3(), third);
            assert_eq!(way.is_of_both_editions(), number <= 4);
            let own = third || way.words().starts_with("writer");
            assert_eq!(way.is_of_configuration(), number <= 17 && number != 16 && !own);
            assert_eq!(way.is_of_entities(), matches!(number, 8..=13 | 17) && !own);
        }
    }
}
