//! Frames that were written out by hand.

/// FORMAT.md, "Sample runs": flags (0, 1), bytes, and what it says of them.
pub const DOCUMENT: [(&[u8], &str, &str); 15] = [
    (&[0], "0A012C", "run short 16 5 3 300 300 300 300 300"),
    (&[1], "0A012C", "run short 16 5 3 150 150 150 150 150"),
    (&[1], "0001", "run short 8 3 2 -1 -1 -1"),
    (&[0], "46021230", "run direct 4 3 4 1 2 3"),
    (&[1], "46021230", "run direct 4 3 4 -1 1 -2"),
    (&[0], "700000000040", "run direct 26 1 6 1"),
    (&[0], "C0040A04", "run delta 0 5 4 10 12 14 16 18"),
    (&[0], "C603640514", "run delta 4 4 5 100 97 96 92"),
    (&[1], "C001FEFFFFFFFFFFFFFFFF0102", "run delta 0 2 13 9223372036854775807 -9223372036854775808"),
    (&[0], "C0000700", "run delta 0 1 4 7"),
    (&[0, 1], "C200", "refused 4 0"),
    (&[0, 1], "8603032164123494", "run patched 4 4 8 101 102 183 104"),
    (&[0, 1], "86030320E41234", "run patched 4 4 7 -99 -98 -97 -96"),
    (&[0, 1], "860303416412348A", "refused 7 0"),
    (&[0, 1], "86031F21", "refused 2 0"),
];

/// The ORC specification's own examples of integer runs.
pub const SPECIFICATION: [&str; 4] = [
    "0A2710",
    "5E035CA1AB1EDEADBEEF",
    "8E132B2107D01E00147028323C46505A646E78828C96A0AAB4BEFCE8",
    "C609020222424246",
];

/// Further frames, each refusal and each limit of a layout among them.
pub const FRAMES: [&str; 38] = [
    "",
    "40",
    "C2",
    "860303",
    "08",
    "0A01",
    "4602",
    "C002",
    "BE031F21",
    "BE030121",
    "C00280808080808080808080",
    "C002808080808080808080",
    "C0020180808080808080808080",
    "C000FFFFFFFFFFFFFFFFFF7F00",
    "C0008080808080808080800200",
    "86030322641234566000",
    "86030322641234546000",
    "86030320801234",
    "7E00FFFFFFFFFFFFFFFF",
    "3FFFFFFFFFFFFFFFFF",
    "07FF",
    "C6010A05",
    // FORMAT.md, "Patch lists". Values of 30 bits and a patch field of 40: a patch that fits, the largest,
    // none, one too large, one out of place, both at once in one entry and in two, and one before a cut.
    "B4011C010A0000000400000020010000000003",
    "B4011C010A00000004000000200103FFFFFFFF",
    "B4011C000A0000000400000020",
    "B4011C010A0000000400000020010400000000",
    "B4011C010A0000000400000020020000000003",
    "B4011C010A0000000400000020020400000000",
    "B4011C020A0000000400000020010000000003000400000000",
    "B4011C020A0000000400000020010400000000FF0000000000",
    "B4011C020A00000004000000200104000000000100000000",
    // Values of 64 bits: no patch, 1, none but out of place; an empty list under a patch field of 56.
    "BE00000100000000000000000700",
    "BE00000100000000000000000740",
    "BE00000100000000000000000780",
    "BE001E00000000000000000007",
    // Values of 56 bits: 255, 256 and 511.
    "BC0008010000000000000001 3FC0",
    "BC0008010000000000000001 4000",
    "BC0008010000000000000001 7FC0",
];
