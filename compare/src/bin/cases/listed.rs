//! The cases: a name, a table or a file, and a call.
//!
//! Tables are written as in `examples/`, files in hexadecimal; `5*x` is x five times, `ring 4` four transitions in a
//! ring of delays 1, of which the last rule has offset 1. Calls name the lengths of the buffers lent.

/// A table and its file, on which every call is made. The first byte of a field differs from its place.
pub const LIMITS: [(&str, &str, &str); 12] = [
    ("n 0", "n 0:", "00 00"),
    ("n 1", "n 1: 0>0/1/7", "01 01 00 00 01 08"),
    ("n 256", "n 256: 255>255/1/7", "80 02 01 ff 01 ff 01 01 08"),
    ("n 257", "n 257: 256>256/1/7", "81 02 01 80 02 80 02 01 08"),
    ("m 0", "n 1:", "01 00"),
    (
        "m 2048",
        "n 256: 2048*255>255/15/1000000",
        "80 02 80 10 2048*ff.01.ff.01.0f.c1.84.3d",
    ),
    (
        "m 2049",
        "n 256: 2049*255>255/15/1000000",
        "80 02 81 10 2049*ff.01.ff.01.0f.c1.84.3d",
    ),
    (
        "every field of rule 1 at a limit",
        "n 2: 0>1/1/200, 1>0/15/1000000",
        "02 02 00 01 01 c9 01 01 00 0f c1 84 3d",
    ),
    (
        "source 2 of 2",
        "n 2: 0>1/1/200, 2>0/15/1000000",
        "02 02 00 01 01 c9 01 02 00 0f c1 84 3d",
    ),
    (
        "target 2 of 2",
        "n 2: 0>1/1/200, 1>2/15/1000000",
        "02 02 00 01 01 c9 01 01 02 0f c1 84 3d",
    ),
    (
        "offset 16",
        "n 2: 0>1/1/200, 1>0/16/1000000",
        "02 02 00 01 01 c9 01 01 00 10 c1 84 3d",
    ),
    (
        "delay 1000001",
        "n 2: 0>1/1/200, 1>0/15/1000001",
        "02 02 00 01 01 c9 01 01 00 0f c2 84 3d",
    ),
];

/// Room for every answer within the limits, and more.
pub const LIMIT_CALLS: [&str; 4] = [
    "analyse 257 257 257",
    "rate 0",
    "simulate 1 257",
    "write 16390",
];
pub const LIMIT_FILE_CALLS: [&str; 4] = [
    "read 2050 2050 2050 2050 2050",
    "analyse 257 257 257",
    "rate 0",
    "simulate 1 257",
];

const P1: &str = "n 2: 0>1/0/3, 1>0/1/4";
const P5: &str = "n 1: 0>0/1/?";
const P7: &str = "n 1: 0>0/0/0";
/// A front end of lap 3 that feeds a loop of lap 10, one transition behind both, one before them, one beside them.
const FRONT: &str = "n 7: 0>1/0/1, 1>0/1/2, 1>2/0/5, 2>3/0/4, 3>2/1/6, 3>4/0/1, 5>0/0/9, 6>6/1/?";
const SLOW: &str = "n 1: 0>0/1/7";
const LOOP_AND_RANGE: &str = "n 1: 0>0/0/0, 0>0/16/1";
const FLAT_AND_RANGE: &str = "n 2: 0>1/16/5";
const TARGET_OUT: &str = "n 2: 0>2/1/5";

/// Name, table, call. A table within the limits is also handed in as its file, but for writing.
#[rustfmt::skip] // One case a line.
pub const TABLES: [(&str, &str, &str); 90] = [
    ("worked P1", P1, "analyse 3 3 3"),
    ("worked P1, three occurrences", P1, "simulate 3 7"),
    ("worked P2", "n 2: 0>1/0/3, 1>0/2/4", "analyse 3 3 3"),
    ("worked P3", "n 2: 0>1/0/3, 1>0/1/?", "analyse 3 3 3"),
    ("worked P4", "n 2: 0>1/0/0, 1>0/2/?, 0>0/1/1000000", "analyse 3 3 3"),
    ("worked P5", P5, "analyse 3 3 3"),
    ("worked P6", "n 1: 0>0/1/0", "analyse 3 3 3"),
    ("worked P7", P7, "analyse 3 3 3"),
    ("worked P8", "n 2: 0>1/1/5", "analyse 3 3 3"),
    ("worked P8, two occurrences", "n 2: 0>1/1/5", "simulate 2 5"),
    ("worked P9", "n 1:", "analyse 3 3 3"),
    ("occurrences 0", SLOW, "simulate 0 1025"),
    ("occurrences 1", SLOW, "simulate 1 1025"),
    ("occurrences 1024", SLOW, "simulate 1024 1025"),
    ("occurrences 1025", SLOW, "simulate 1025 1025"),
    ("all transitions and occurrences", "ring 256", "simulate 1024 262144"),
    ("all transitions and occurrences, times short", "ring 256", "simulate 1024 262143"),
    ("all transitions on the loop", "ring 256", "analyse 256 256 256"),
    ("all transitions, schedule short", "ring 256", "analyse 255 256 256"),
    ("all transitions, low loop short", "ring 256", "analyse 256 255 256"),
    ("all transitions, high loop short", "ring 256", "analyse 256 256 255"),
    ("buffers exact", P1, "analyse 2 2 2"),
    ("schedule short", P1, "analyse 1 2 2"),
    ("low loop short", P1, "analyse 2 1 2"),
    ("high loop short", P1, "analyse 2 2 1"),
    // A loop of one rule still needs n places.
    ("low loop short of n, not of its rule", "n 2: 0>0/1/7, 0>1/0/1", "analyse 2 1 2"),
    ("loops shorter than n", "n 2: 0>0/1/7, 0>1/0/1", "analyse 2 2 2"),
    ("times exact", P1, "simulate 3 6"),
    ("times short", P1, "simulate 3 5"),
    ("bytes exact", P1, "write 10"),
    ("bytes short", P1, "write 9"),
    ("longest file exact", "n 256: 2048*255>255/15/1000000", "write 16388"),
    ("longest file short", "n 256: 2048*255>255/15/1000000", "write 16387"),
    ("rate of the last transition", "n 256: 255>255/1/7", "rate 255"),
    ("rate of a transition too many", "n 256: 255>255/1/7", "rate 256"),
    ("rate, a range", "n 2: 0>1/0/3, 1>0/1/?", "rate 1"),
    ("rate of a front end", FRONT, "rate 1"),
    ("rate of what it feeds", FRONT, "rate 2"),
    ("rate behind both", FRONT, "rate 4"),
    ("rate before both", FRONT, "rate 5"),
    ("rate beside both", FRONT, "rate 6"),
    ("rate behind a slower front end", "n 2: 0>0/1/10, 0>1/0/0, 1>1/1/3", "rate 1"),
    ("rate of a transition without rules", "n 3: 0>0/1/5, 0>1/0/1", "rate 2"),
    ("rate, a loop of offset 0 elsewhere", "n 2: 0>0/1/5, 1>1/0/1", "rate 0"),
    ("lowest transition on a loop of offset 0", "n 4: 1>1/1/1, 0>1/0/1, 3>2/0/1, 2>3/0/?", "analyse 4 4 4"),
    ("the same by rate", "n 4: 1>1/1/1, 0>1/0/1, 3>2/0/1, 2>3/0/?", "rate 0"),
    ("the same by simulation", "n 4: 1>1/1/1, 0>1/0/1, 3>2/0/1, 2>3/0/1", "simulate 1 4"),
    // 0 lies between the loops 1 2 and 3 4: no peeling strikes it out, and it is on neither.
    ("a bridge between two loops of offset 0", "n 5: 2>0/0/1, 0>3/0/1, 4>3/0/1, 3>4/0/1, 2>1/0/1, 1>2/0/1", "analyse 5 5 5"),
    ("the bridge by simulation", "n 5: 2>0/0/1, 0>3/0/1, 4>3/0/1, 3>4/0/1, 2>1/0/1, 1>2/0/1", "simulate 1 5"),
    ("only leads to a loop of offset 0", "n 4: 3>2/0/1, 2>3/0/1, 1>2/0/1, 0>1/0/1, 0>0/1/5", "analyse 4 4 4"),
    ("lowest unknown rule", "n 1: 0>0/1/1, 0>0/2/?, 0>0/3/?", "simulate 1 1"),
    ("7/2 beside 3/1", "n 2: 0>0/1/3, 0>1/0/3, 1>0/2/4", "analyse 2 2 2"),
    ("fewest rules, then the first", "n 2: 0>1/0/5, 1>0/1/5, 1>1/1/10, 0>0/1/10, 0>0/1/10", "analyse 2 2 2"),
    ("n before a rule's fields", "n 0: 0>0/16/1000001", "analyse 1 1 1"),
    ("m before a rule's fields", "n 1: 2049*1>1/16/1000001", "analyse 1 1 1"),
    ("source before target", "n 2: 2>2/16/1000001", "analyse 2 2 2"),
    ("target before offset", "n 2: 0>2/16/1000001", "analyse 2 2 2"),
    ("offset before delay", "n 2: 0>1/16/1000001", "analyse 2 2 2"),
    ("delay before the next rule", "n 2: 0>1/0/1000001, 2>0/1/1", "analyse 2 2 2"),
    // As far outside as the widths allow.
    ("largest n", "n 4294967295:", "analyse 1 1 1"),
    ("largest offset", "n 1: 0>0/65535/0", "analyse 1 1 1"),
    ("largest delay", "n 1: 0>0/1/4294967295", "analyse 1 1 1"),
    ("largest occurrences", SLOW, "simulate 18446744073709551615 1"),
    ("rate of the largest transition", SLOW, "rate 18446744073709551615"),
    ("writing 3 before 8", TARGET_OUT, "write 0"),
    ("analysis 3 before 8", TARGET_OUT, "analyse 0 0 0"),
    ("analysis 3 before 5", LOOP_AND_RANGE, "analyse 1 1 1"),
    ("analysis 3 before 6", FLAT_AND_RANGE, "analyse 2 2 2"),
    ("analysis 8 before 5", P7, "analyse 0 1 1"),
    ("analysis 8 before 6", "n 1:", "analyse 1 0 1"),
    ("rate 3 before 10", TARGET_OUT, "rate 2"),
    ("rate 3 before 5", LOOP_AND_RANGE, "rate 0"),
    ("rate 3 before 6", FLAT_AND_RANGE, "rate 0"),
    ("rate 10 before 5", P7, "rate 1"),
    ("rate 10 before 6", "n 1:", "rate 1"),
    ("simulation 3 before 9", TARGET_OUT, "simulate 0 2"),
    ("simulation 3 before 7", "n 1: 0>0/1/?, 0>0/16/1", "simulate 1 1"),
    ("simulation 3 before 8", TARGET_OUT, "simulate 1 0"),
    ("simulation 3 before 5", LOOP_AND_RANGE, "simulate 1 1"),
    ("simulation 9 before 7", P5, "simulate 0 1"),
    ("simulation 9 before 8", P1, "simulate 1025 0"),
    ("simulation 9 before 5", P7, "simulate 1025 1"),
    ("simulation 7 before 8", P5, "simulate 2 1"),
    ("simulation 7 before 5", "n 2: 0>0/0/0, 1>1/1/?", "simulate 1 2"),
    ("simulation 8 before 5", P7, "simulate 2 1"),
    // All that can apply at once.
    ("analysis 3 before all", "n 2: 0>0/0/0, 1>1/16/?", "analyse 0 0 0"),
    ("rate 3 before all", "n 2: 0>0/0/0, 1>1/16/?", "rate 2"),
    ("simulation 3 before all", "n 2: 0>0/0/0, 1>1/16/?", "simulate 0 0"),
    ("simulation 9 before all", "n 2: 0>0/0/0, 1>1/1/?", "simulate 0 0"),
    ("simulation 7 before all", "n 2: 0>0/0/0, 1>1/1/?", "simulate 1 0"),
];

/// Name, bytes, call.
#[rustfmt::skip]
pub const FILES: [(&str, &str, &str); 47] = [
    ("worked P10, 80", "80", "read 1 1 1 1 1"),
    ("worked P10, 80 00", "80 00", "read 1 1 1 1 1"),
    ("worked P10, 80 80 80", "80 80 80", "read 1 1 1 1 1"),
    ("worked P10, 00", "00", "read 1 1 1 1 1"),
    ("worked P10, 01 00 00", "01 00 00", "read 1 1 1 1 1"),
    ("worked P10, 80 80 00", "80 80 00", "read 1 1 1 1 1"),
    ("worked P10, 01 80", "01 80", "read 1 1 1 1 1"),
    ("no bytes", "", "read 1 1 1 1 1"),
    ("cut before m", "01", "read 1 1 1 1 1"),
    ("cut inside the third group", "01 80 80", "read 1 1 1 1 1"),
    ("cut before the delay", "02 01 00 01 00", "read 1 1 1 1 1"),
    ("cut inside the delay", "02 01 00 01 00 c1 84", "read 1 1 1 1 1"),
    ("a fourth group", "01 80 80 80 00", "read 1 1 1 1 1"),
    ("third group zero", "01 80 80 00", "read 1 1 1 1 1"),
    ("tail after a rule", "01 01 00 00 01 00 80", "read 1 1 1 1 1"),
    // 1 and 2 cannot both apply to one number: 2 is about its last group, or its third.
    ("one number, 1 before 3", "ff ff", "read 1 1 1 1 1"),
    ("one number, 2 before 3", "ff ff ff", "read 1 1 1 1 1"),
    ("one number, 2 before 3 by zero", "80 00 00", "read 1 1 1 1 1"),
    ("3 in n before 1 in m", "00", "read 1 1 1 1 1"),
    ("3 in n before 2 in m", "00 80 00", "read 1 1 1 1 1"),
    ("3 in n before 3 in m", "00 81 10", "read 1 1 1 1 1"),
    ("2 in n before 1 in m", "81 00", "read 1 1 1 1 1"),
    ("2 in n before 2 in m", "81 00 81 00", "read 1 1 1 1 1"),
    ("2 in n before 3 in m", "81 00 81 10", "read 1 1 1 1 1"),
    ("2 before 4", "01 80 00 00", "read 1 1 1 1 1"),
    ("3 before 4", "01 01 00 00 10 00 00", "read 1 1 1 1 1"),
    ("3 in a source before 1 in its target", "02 01 02", "read 1 1 1 1 1"),
    ("columns exact", "02 02 00 01 00 04 01 00 01 00", "read 2 2 2 2 2"),
    ("columns with a place more", "02 02 00 01 00 04 01 00 01 00", "read 3 3 3 3 3"),
    // The columns are the C header's: it refuses the short ones by ROOM, after all that reading refuses.
    ("source column short", "02 02 00 01 00 04 01 00 01 00", "read 1 2 2 2 2"),
    ("target column short", "02 02 00 01 00 04 01 00 01 00", "read 2 1 2 2 2"),
    ("offset column short", "02 02 00 01 00 04 01 00 01 00", "read 2 2 1 2 2"),
    ("delay column short", "02 02 00 01 00 04 01 00 01 00", "read 2 2 2 1 2"),
    ("known column short", "02 02 00 01 00 04 01 00 01 00", "read 2 2 2 2 1"),
    ("4 before 8, 6 by analysis", "01 00 00", "analyse 0 0 0"),
    ("4 before 10, 6 by rate", "01 00 00", "rate 1"),
    ("number, three groups", "ff ff 7f 05", "number 0 2097151"),
    ("number, highest and a rest", "80 02 09 09", "number 1 256"),
    ("number, above highest", "81 02 09 09", "number 1 256"),
    ("number, lowest", "05", "number 5 5"),
    ("number, below lowest", "04 09", "number 5 9"),
    ("number, zero", "00", "number 0 0"),
    ("number, no bytes", "", "number 0 9"),
    ("number, 1 before 3", "ff", "number 0 9"),
    ("number, 2 before 3", "ff 00 09", "number 0 9"),
    ("number, a fourth group", "80 80 80 01", "number 0 2097151"),
    ("number, last group zero", "81 80 00", "number 0 9"),
];

/// Files that reading refuses, and calls with every other reason to refuse them: rule 0 is a loop of offset 0 with an
/// unknown delay. Reading comes first.
pub const DAMAGED: [(&str, &str); 4] = [
    ("1", "02 02 00 00 00 00 01"),
    ("2", "02 02 00 00 00 00 01 01 80 00 00"),
    ("3", "02 02 00 00 00 00 02 00 00 00"),
    ("4", "02 01 00 00 00 00 00"),
];
pub const DAMAGED_CALLS: [&str; 4] = ["read 0 0 0 0 0", "analyse 0 0 0", "rate 2", "simulate 0 0"];

/// Two files, side by side. P1 is 7/1, P2 7/2, P3 3/1 to 1000003/1, P5 0/1 to 1000000/1; P7 is refused 5, P8 6.
pub const BIDS: [(&str, &str, &str); 19] = [
    (
        "lower end first",
        "02 02 00 01 00 04 01 00 01 05",
        "02 02 00 01 00 04 01 00 01 00",
    ),
    (
        "lower end second, its low end higher",
        "02 02 00 01 00 04 01 00 01 00",
        "02 02 00 01 00 04 01 00 01 05",
    ),
    (
        "equal ends",
        "02 02 00 01 00 04 01 00 01 05",
        "01 01 00 00 01 08",
    ),
    (
        "equal ends, the other way",
        "01 01 00 00 01 08",
        "02 02 00 01 00 04 01 00 01 05",
    ),
    (
        "equal bytes",
        "02 02 00 01 00 04 01 00 01 00",
        "02 02 00 01 00 04 01 00 01 00",
    ),
    (
        "7/2 and 3/1",
        "02 02 00 01 00 04 01 00 02 05",
        "01 01 00 00 01 04",
    ),
    (
        "3/1 and 7/2",
        "01 01 00 00 01 04",
        "02 02 00 01 00 04 01 00 02 05",
    ),
    (
        "200000/3 and 933333/14",
        "01 01 00 00 0f c1 84 3d",
        "01 01 00 00 0e d6 fb 38",
    ),
    (
        "933333/14 and 200000/3",
        "01 01 00 00 0e d6 fb 38",
        "01 01 00 00 0f c1 84 3d",
    ),
    (
        "two ranges with one low end",
        "01 01 00 00 01 00",
        "01 01 00 00 02 00",
    ),
    (
        "only the first, the second refused 5",
        "02 02 00 01 00 04 01 00 01 00",
        "01 01 00 00 00 01",
    ),
    (
        "only the second, the first refused 6",
        "02 01 00 01 01 06",
        "02 02 00 01 00 04 01 00 01 00",
    ),
    (
        "only the second, the first refused 4",
        "01 00 00",
        "02 02 00 01 00 04 01 00 01 05",
    ),
    ("neither, 5 and 6", "01 01 00 00 00 01", "02 01 00 01 01 06"),
    ("neither, 6 and 5", "02 01 00 01 01 06", "01 01 00 00 00 01"),
    ("neither, 4 and 5", "01 00 00", "01 01 00 00 00 01"),
    ("neither, 5 and 4", "01 01 00 00 00 01", "01 00 00"),
    ("neither, 3 and 6", "00", "02 01 00 01 01 06"),
    (
        "neither, 4 before 5",
        "01 01 00 00 00 01 09",
        "01 01 00 00 00 01",
    ),
];
