//! Safe wrappers around the C interface of Hemtaluq: slices in, enums out.

/// The version of the interface that these wrappers are written for.
pub const VERSION: u32 = 7;

/// Bytes of the longest plant file.
pub const LONGEST_FILE: usize = 5154;

/// Numbers of the longest list that says a plant.
pub const LONGEST_LIST: usize = 6178;

/// Why a call was refused: the number of the fault and where it was met.
#[derive(Debug, Clone, Copy, PartialEq, Eq)]
pub struct Fault {
    pub number: u8,
    pub place: usize,
}

impl Fault {
    /// What the number of the fault means.
    pub fn in_words(&self) -> &'static str {
        match self.number {
            1 => "the plant file ends too soon",
            2 => "a count of the plant file is outside limits",
            3 => "a machine has no states or more than 64",
            4 => "a map byte has bits that may not stand",
            5 => "a row names no state of its machine",
            6 => "a row names no type",
            7 => "the plant has more than 1,024 rows",
            8 => "bytes remain after the last row",
            9 => "there is not one weight for each type",
            10 => "a weight is above 1,000",
            11 => "the list for a cycle is too short",
            12 => "there is no such machine",
            13 => "the machine is too large to list",
            14 => "the list is too short for the cycles",
            15 => "the set ends within an entry",
            16 => "a number of the set is outside limits",
            17 => "an entry of the set is no quiet cycle",
            18 => "the set has no entry or more than 256",
            20 => "there is not one content for each type",
            21 => "a content, G or D is not a number up to 1,000,000",
            22 => "the weights do not pass",
            23 => "the list of numbers ends early or goes on",
            24 => "a number of the list is outside its values or the limits",
            25 => "the buffer is too short for the file",
            26 => "a row is equal to an earlier row of its machine",
            27 => "there is no such row, or it cannot happen now",
            28 => "there is no such type, or no message of it is present",
            29 => "1,000,000 of its sort were counted, and no more are",
            _ => "unknown",
        }
    }
}

/// The counts of a plant file.
#[derive(Debug, Clone, Copy, PartialEq, Eq)]
pub struct Counts {
    pub machines: usize,
    pub types: u8,
    pub rows: usize,
}

/// What weighing says: F, n, G and n * w, or the rows of a shortest quiet simple cycle that weighs zero or more.
#[derive(Debug, Clone, PartialEq, Eq)]
pub enum Weighed {
    Passed { base: u64, most_states: u64, per_progress: u64, per_doubling: u64 },
    Cycle(Vec<u16>),
}

/// A ceiling and its price class.
#[derive(Debug, Clone, Copy, PartialEq, Eq)]
pub struct Quote {
    pub ceiling: u64,
    pub price_class: u32,
}

/// What confirming says: balanced, or the lowest type with a negative sum, and that sum.
#[derive(Debug, Clone, Copy, PartialEq, Eq)]
pub enum Confirmed {
    Balanced,
    Negative { message_type: usize, sum: i64 },
}

#[repr(C)]
struct ReadAnswer {
    kind: u8,
    number: u8,
    types: u8,
    place: usize,
    machines: usize,
    rows: usize,
}

#[repr(C)]
struct WeighAnswer {
    kind: u8,
    number: u8,
    place: usize,
    base: u64,
    most_states: u64,
    per_progress: u64,
    per_doubling: u64,
    rows: usize,
}

#[repr(C)]
struct QuoteAnswer {
    kind: u8,
    number: u8,
    price_class: u32,
    place: usize,
    ceiling: u64,
}

#[repr(C)]
struct ListAnswer {
    kind: u8,
    number: u8,
    place: usize,
    entries: usize,
}

#[repr(C)]
struct ConfirmAnswer {
    kind: u8,
    number: u8,
    place: usize,
    message_type: usize,
    sum: i64,
}

#[repr(C)]
struct WriteAnswer {
    kind: u8,
    number: u8,
    place: usize,
    length: usize,
}

#[repr(C)]
struct WatchAnswer {
    kind: u8,
    number: u8,
    place: usize,
    left: u64,
}

/// The lists of a watcher. Only the calls write to them.
#[derive(Clone)]
struct WatcherLists {
    copy: [u8; 8192],
    table: [u8; 8192],
    sizes: [u64; 5],
    states: [u8; 16],
    contents: [u64; 64],
    counts: [u64; 3],
}

const REFUSED: u8 = 0;
const CYCLE: u8 = 3;
const NEGATIVE: u8 = 7;

// The symbols carry the revisions of the structs and arguments above and of the form of the lists: a library with others has other symbols, and
// is not linked.
#[link(name = "hemtaluq", kind = "static")]
extern "C" {
    fn hemtaluq_version() -> u32;
    #[link_name = "hemtaluq_read_v1"]
    fn hemtaluq_read(file: *const u8, file_length: usize) -> ReadAnswer;
    #[link_name = "hemtaluq_weigh_v2"]
    fn hemtaluq_weigh(file: *const u8, file_length: usize, weights: *const u16, weight_count: usize, cycle: *mut u16, cycle_length: usize) -> WeighAnswer;
    #[link_name = "hemtaluq_quote_v2"]
    fn hemtaluq_quote(file: *const u8, file_length: usize, weights: *const u16, weight_count: usize, contents: *const u32, content_count: usize, g: u32, d: u32) -> QuoteAnswer;
    #[link_name = "hemtaluq_list_v1"]
    fn hemtaluq_list(file: *const u8, file_length: usize, machine: u32, out: *mut u16, out_length: usize) -> ListAnswer;
    #[link_name = "hemtaluq_confirm_v1"]
    fn hemtaluq_confirm(file: *const u8, file_length: usize, set: *const u32, set_length: usize) -> ConfirmAnswer;
    #[link_name = "hemtaluq_write_v2"]
    fn hemtaluq_write(numbers: *const u16, number_count: usize, out: *mut u8, out_length: usize) -> WriteAnswer;
    #[link_name = "hemtaluq_watch_open_v1"]
    fn hemtaluq_watch_open(copy: &mut [u8; 8192], table: &mut [u8; 8192], sizes: &mut [u64; 5], states: &mut [u8; 16], contents: &mut [u64; 64],
                           counts: &mut [u64; 3], file: *const u8, file_length: usize, weights: *const u16, weight_count: usize,
                           opening: *const u32, opening_count: usize) -> WatchAnswer;
    #[link_name = "hemtaluq_watch_row_v1"]
    fn hemtaluq_watch_row(table: &[u8; 8192], sizes: &[u64; 5], states: &mut [u8; 16], contents: &mut [u64; 64], counts: &mut [u64; 3], row: u32)
                          -> WatchAnswer;
    #[link_name = "hemtaluq_watch_loss_v1"]
    fn hemtaluq_watch_loss(sizes: &[u64; 5], contents: &mut [u64; 64], counts: &[u64; 3], message_type: u32) -> WatchAnswer;
    #[link_name = "hemtaluq_watch_doubling_v1"]
    fn hemtaluq_watch_doubling(sizes: &[u64; 5], contents: &mut [u64; 64], counts: &mut [u64; 3], message_type: u32) -> WatchAnswer;
}

/// The version of the library that was linked. These wrappers are for it where it is `VERSION`.
pub fn version() -> u32 {
    unsafe { hemtaluq_version() }
}

/// The counts of machines, types and rows of a plant file.
pub fn read(file: &[u8]) -> Result<Counts, Fault> {
    let a = unsafe { hemtaluq_read(file.as_ptr(), file.len()) };
    if a.kind == REFUSED {
        return Err(Fault { number: a.number, place: a.place });
    }
    Ok(Counts { machines: a.machines, types: a.types, rows: a.rows })
}

/// Whether weights pass.
pub fn weigh(file: &[u8], weights: &[u16]) -> Result<Weighed, Fault> {
    let mut cycle = [0u16; 64];
    let a = unsafe { hemtaluq_weigh(file.as_ptr(), file.len(), weights.as_ptr(), weights.len(), cycle.as_mut_ptr(), cycle.len()) };
    match a.kind {
        REFUSED => Err(Fault { number: a.number, place: a.place }),
        CYCLE => Ok(Weighed::Cycle(cycle[..a.rows].to_vec())),
        _ => Ok(Weighed::Passed { base: a.base, most_states: a.most_states, per_progress: a.per_progress, per_doubling: a.per_doubling }),
    }
}

/// The ceiling for contents, at most g progress rows and at most d doublings; d is 0 for a bus that never delivers a message twice.
pub fn quote(file: &[u8], weights: &[u16], contents: &[u32], g: u32, d: u32) -> Result<Quote, Fault> {
    let a = unsafe { hemtaluq_quote(file.as_ptr(), file.len(), weights.as_ptr(), weights.len(), contents.as_ptr(), contents.len(), g, d) };
    if a.kind == REFUSED {
        return Err(Fault { number: a.number, place: a.place });
    }
    Ok(Quote { ceiling: a.ceiling, price_class: a.price_class })
}

/// The simple cycles of a machine: row count, then rows, in the front of `out`; how many entries were used.
pub fn list(file: &[u8], machine: u32, out: &mut [u16]) -> Result<usize, Fault> {
    let a = unsafe { hemtaluq_list(file.as_ptr(), file.len(), machine, out.as_mut_ptr(), out.len()) };
    if a.kind == REFUSED {
        return Err(Fault { number: a.number, place: a.place });
    }
    Ok(a.entries)
}

/// Whether a set of repeated quiet cycles is balanced.
pub fn confirm(file: &[u8], set: &[u32]) -> Result<Confirmed, Fault> {
    let a = unsafe { hemtaluq_confirm(file.as_ptr(), file.len(), set.as_ptr(), set.len()) };
    match a.kind {
        REFUSED => Err(Fault { number: a.number, place: a.place }),
        NEGATIVE => Ok(Confirmed::Negative { message_type: a.message_type, sum: a.sum }),
        _ => Ok(Confirmed::Balanced),
    }
}

/// The shortest file of the plant that a list of numbers says, in the front of `out`; how many bytes it has. The list is the count of machines and
/// the count of types, then for each machine its states, its count of rows and six numbers for each row: state left, state entered, kind
/// (0 neither, 1 sends, 2 takes, 3 takes and sends), type (the type sent for kind 1, the type taken for kinds 2 and 3, 0 for kind 0), progress
/// (0 or 1) and, for kind 3, the type sent (0 for other kinds). A row of kind 3 takes first, then sends.
pub fn write_into(numbers: &[u16], out: &mut [u8]) -> Result<usize, Fault> {
    let a = unsafe { hemtaluq_write(numbers.as_ptr(), numbers.len(), out.as_mut_ptr(), out.len()) };
    if a.kind == REFUSED {
        return Err(Fault { number: a.number, place: a.place });
    }
    Ok(a.length)
}

/// The shortest file of the plant that a list of numbers says, which has the form that `write_into` takes. There is room for every file, so 25 does
/// not come.
pub fn write(numbers: &[u16]) -> Result<Vec<u8>, Fault> {
    let mut file = vec![0; LONGEST_FILE];
    let length = write_into(numbers, &mut file)?;
    file.truncate(length);
    Ok(file)
}

/// Follows a run of a plant event by event, and says how many quiet rows are left: the ceiling for the progress rows and doublings so far, less the
/// quiet rows so far. It keeps the plant, on no heap. An event that is refused changes nothing. A clone is a second watcher, of the run up to there.
#[derive(Clone)]
pub struct Watcher {
    lists: WatcherLists,
    left: u64,
}

impl Watcher {
    /// Opens on a plant file, weights and the contents with which the run opens, all machines in state 0. What is left is then the ceiling of `quote`
    /// with g 0 and d 0, and the faults are those of `quote`.
    pub fn open(file: &[u8], weights: &[u16], contents: &[u32]) -> Result<Watcher, Fault> {
        let mut watcher = Watcher {
            lists: WatcherLists { copy: [0; 8192], table: [0; 8192], sizes: [0; 5], states: [0; 16], contents: [0; 64], counts: [0; 3] },
            left: 0,
        };
        let l = &mut watcher.lists;
        let answer = unsafe {
            hemtaluq_watch_open(&mut l.copy, &mut l.table, &mut l.sizes, &mut l.states, &mut l.contents, &mut l.counts,
                                file.as_ptr(), file.len(), weights.as_ptr(), weights.len(), contents.as_ptr(), contents.len())
        };
        watcher.answered(answer)?;
        Ok(watcher)
    }

    /// How many quiet rows are left.
    pub fn left(&self) -> u64 {
        self.left
    }

    /// A row happened; how many quiet rows are left. A progress row adds G, another one takes 1 away. The fault is 27 where the row does not exist or
    /// cannot happen now, and 29 for a progress row after 1,000,000 of them.
    pub fn row(&mut self, row: u32) -> Result<u64, Fault> {
        let l = &mut self.lists;
        let answer = unsafe { hemtaluq_watch_row(&l.table, &l.sizes, &mut l.states, &mut l.contents, &mut l.counts, row) };
        self.answered(answer)
    }

    /// A message of this type was lost; how many quiet rows are left, which does not change. The fault is 28 where there is no such type, or no message
    /// of it is present.
    pub fn loss(&mut self, message_type: u32) -> Result<u64, Fault> {
        let l = &mut self.lists;
        let answer = unsafe { hemtaluq_watch_loss(&l.sizes, &mut l.contents, &l.counts, message_type) };
        self.answered(answer)
    }

    /// A message of this type was delivered twice, which adds n * w; how many quiet rows are left. The fault is 28 as for a loss, and 29 after 1,000,000
    /// doublings.
    pub fn doubling(&mut self, message_type: u32) -> Result<u64, Fault> {
        let l = &mut self.lists;
        let answer = unsafe { hemtaluq_watch_doubling(&l.sizes, &mut l.contents, &mut l.counts, message_type) };
        self.answered(answer)
    }

    fn answered(&mut self, a: WatchAnswer) -> Result<u64, Fault> {
        if a.kind == REFUSED {
            return Err(Fault { number: a.number, place: a.place });
        }
        self.left = a.left;
        Ok(a.left)
    }
}

impl std::fmt::Debug for Watcher {
    fn fmt(&self, out: &mut std::fmt::Formatter) -> std::fmt::Result {
        out.debug_struct("Watcher").field("left", &self.left).finish_non_exhaustive()
    }
}
