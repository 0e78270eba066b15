//! The rules that the bytes of a well-formed bank obey, in words and in the order in which they are tested. `RecordZero` and the two behind it speak of
//! one byte: in a form whose records name a board it is that board, in the others zero. The last is one of the newest form alone.

macro_rules! rules {
    ($($name:ident: $words:literal,)*) => {
        #[derive(Clone, Copy, PartialEq)]
        pub enum Rule {
            $($name,)*
        }

        impl Rule {
            /// For the test, which must meet each.
            #[allow(dead_code)]
            pub const ALL: &'static [Rule] = &[$(Rule::$name,)*];

            pub fn words(self) -> &'static str {
                match self {
                    $(Rule::$name => $words,)*
                }
            }
        }
    };
}

rules! {
    Head: "the bytes begin with a whole head",
    Letters: "the head begins with its two letters",
    Boards: "the number of boards is in range",
    Pages: "the number of pages is in range",
    Length: "the length is the one that follows from the numbers of boards and pages",

    Owner: "a page's owner is a board of the bank",
    CopiesOfBoards: "a copy-set has boards of the bank alone",
    CopiesOfOthers: "a page's owner is not in its copy-set",

    State: "a state is 0 up, 1 down or 2 replaying",
    Selector: "the selector names one of the two areas",
    Count: "a log has no more records than slots",
    Right: "a right is 0 none, 1 copy or 2 own",
    NoRight: "under right none a page's bytes are zero",

    Fuse: "a fuse is not 0",
    Room: "the selected area's records and the volatile ones fit in one log together",
    NoPlace: "the replay place is 0 unless the board replays",
    DownNumber: "a down board has access number 0",
    DownSince: "a down board has since 0",
    DownVolatile: "a down board has no volatile record",
    DownFrames: "a down board's frames are zero",
    DownFuse: "a down board has no fuse",
    Place: "a replaying board's place is below the number of the selected area's records",
    ReplayingVolatile: "a replaying board has no volatile record",

    UpRight: "an up board's rights are those that the directory gives it",
    NotUpCopy: "a board that is not up is in no copy-set",

    Mark: "a record begins with the mark GC, GO, SH or DR",
    RecordBytes: "a shown or dropped record has zero bytes",
    RecordPage: "a record's page is a page of the bank",
    RecordZero: "the byte behind a record's page is 0",
    RecordBoard: "a record names a board of the bank",
    RecordOther: "a record names another board than the log's own",

    Leftovers: "a slot at or past its log's count is zero",
}
