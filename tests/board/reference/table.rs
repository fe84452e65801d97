//! The rule table of document 01, with the kinds 7 and 8 of document 02, E1, and without bit 31 (E2): the limits, the formula of each row, the check,
//! spans and need; and the list of the rows that are judged (E4), from which every row is reached (E8). A table has up to 256 rows (E6).

pub const ROW_LIMIT: usize = 256;
pub const KINDS: u32 = 9;
/// The bits that a rule may name.
pub const BITS: u32 = 31;
pub const LONGEST: u32 = 86_400_000;
pub const NO_END: u32 = 4_294_967_295;
pub const TIME_LIMIT: u64 = 281_474_976_710_655;
/// The most rows that a list names.
pub const LIST_LIMIT: usize = 16;

const NUMBERS: usize = 5;

/// What the check is lent to read.
#[derive(Clone, Copy, Debug)]
pub struct Table<'a>(pub &'a [u32]);

/// What start and every call are lent to read: the table, and the list of the rows that are judged.
#[derive(Clone, Copy, Debug)]
pub struct Rules<'a> {
    pub table: &'a [u32],
    pub list: &'a [u32],
}

/// A refusal by its number, and the row that it gives or 0.
#[derive(Clone, Copy, PartialEq, Debug)]
pub struct Refusal {
    number: u32,
    row: u32,
}

impl Refusal {
    /// One that gives no row.
    pub fn of(number: u32) -> Refusal {
        Refusal { number, row: 0 }
    }

    /// Refusal 11, of the lowest row that is not reached.
    pub fn dead(row: usize) -> Refusal {
        Refusal { number: 11, row: row as u32 }
    }

    /// As C is told of it.
    pub fn code(self) -> u32 {
        self.number << 16 | self.row
    }
}

/// [a,b]; no b where there is no end.
#[derive(Clone, Copy, Debug)]
pub struct Interval {
    pub a: u64,
    pub b: Option<u64>,
}

impl Interval {
    pub fn has(&self, age: u64) -> bool {
        self.a <= age && self.b.map_or(true, |b| age <= b)
    }

    /// "floor(b/(b-a+2))+1 spans, or 1 when b has no end".
    pub fn spans(&self) -> u64 {
        self.b.map_or(1, |b| b / (b - self.a + 2) + 1)
    }
}

/// A row. The rows that it names are lower.
#[derive(Clone, Copy, Debug)]
pub enum Formula {
    True,
    Bit(u32),
    Not(usize),
    And(usize, usize),
    Or(usize, usize),
    Previous(usize, Interval),
    Since(usize, usize, Interval),
    Once(usize, Interval),
    Always(usize, Interval),
}

impl Formula {
    /// The interval of a row that owns a stretch of the store.
    pub fn stretch(&self) -> Option<Interval> {
        match *self {
            Formula::Since(_, _, interval) | Formula::Once(_, interval) | Formula::Always(_, interval) => Some(interval),
            _ => None,
        }
    }

    /// The rows that a row names.
    pub fn lower(&self) -> Vec<usize> {
        match *self {
            Formula::True | Formula::Bit(_) => vec![],
            Formula::Not(x) | Formula::Previous(x, _) | Formula::Once(x, _) | Formula::Always(x, _) => vec![x],
            Formula::And(x, y) | Formula::Or(x, y) | Formula::Since(x, y, _) => vec![x, y],
        }
    }
}

/// Which of x, y and the limits a kind uses.
fn uses(kind: u32) -> (bool, bool, bool) {
    match kind {
        0 => (false, false, false),
        1 | 2 => (true, false, false),
        3 | 4 => (true, true, false),
        6 => (true, true, true),
        _ => (true, false, true),
    }
}

fn row(numbers: &[u32], index: usize) -> Result<Formula, u32> {
    let [kind, x, y, a, b]: [u32; NUMBERS] = numbers.try_into().unwrap();
    if kind >= KINDS {
        return Err(2);
    }
    let (uses_x, uses_y, uses_limits) = uses(kind);
    let x_passes = match (uses_x, kind) {
        (false, _) => x == 0,
        (true, 1) => x < BITS,
        (true, _) => (x as usize) < index,
    };
    let y_passes = if uses_y { (y as usize) < index } else { y == 0 };
    if !x_passes || !y_passes || !uses_limits && (a != 0 || b != 0) {
        return Err(2);
    }
    if uses_limits && (a > LONGEST || b < a || b > LONGEST && b != NO_END) {
        return Err(3);
    }
    let interval = Interval { a: a as u64, b: if b == NO_END { None } else { Some(b as u64) } };
    let (x, y) = (x as usize, y as usize);
    Ok(match kind {
        0 => Formula::True,
        1 => Formula::Bit(x as u32),
        2 => Formula::Not(x),
        3 => Formula::And(x, y),
        4 => Formula::Or(x, y),
        5 => Formula::Previous(x, interval),
        6 => Formula::Since(x, y, interval),
        7 => Formula::Once(x, interval),
        _ => Formula::Always(x, interval),
    })
}

/// Refusals 1 to 3, or the rows.
pub fn check(table: &[u32]) -> Result<Vec<Formula>, Refusal> {
    let count = table.len() / NUMBERS;
    if table.len() % NUMBERS != 0 || count == 0 || count > ROW_LIMIT {
        return Err(Refusal::of(1));
    }
    let rows = table.chunks(NUMBERS).enumerate();
    rows.map(|(index, numbers)| row(numbers, index).map_err(|number| Refusal { number, row: index as u32 })).collect()
}

pub fn need(rows: &[Formula]) -> u64 {
    rows.iter().filter_map(Formula::stretch).map(|interval| 2 * interval.spans()).sum()
}

/// "1 to 16 row numbers, strictly rising, each within the table", or refusal 10.
pub fn check_list(list: &[u32], rows: &[Formula]) -> Result<(), Refusal> {
    let names_rows = list.iter().all(|&row| rows.get(row as usize).is_some());
    let rising = list.windows(2).all(|pair| pair[0] < pair[1]);
    if list.is_empty() || list.len() > LIST_LIMIT || !rising || !names_rows {
        return Err(Refusal::of(10));
    }
    Ok(())
}

/// Refusal 11, or every row is reached from the list: down from the listed rows, each row that is found is looked into once.
fn check_reached(list: &[u32], rows: &[Formula]) -> Result<(), Refusal> {
    let mut found = vec![false; rows.len()];
    let mut waiting: Vec<usize> = list.iter().map(|&row| row as usize).collect();
    while let Some(row) = waiting.pop() {
        if !found[row] {
            found[row] = true;
            waiting.extend(rows[row].lower());
        }
    }
    found.iter().position(|&found| !found).map_or(Ok(()), |row| Err(Refusal::dead(row)))
}

/// Refusals 1 to 3, 10, 11 and 4, or the rows.
pub fn ready(rules: Rules, store: usize) -> Result<Vec<Formula>, Refusal> {
    let rows = check(rules.table)?;
    check_list(rules.list, &rows)?;
    check_reached(rules.list, &rows)?;
    if (store as u64) < need(&rows) {
        return Err(Refusal::of(4));
    }
    Ok(rows)
}
