//! 01's table of refusals with 02's switch, read flat: row by row with a list of
//! what is open. Used by tests only.

/// The number of a table and the row that it is about.
pub fn fault(bytes: &[u8]) -> (u8, usize) {
    let rows: Vec<&[u8]> = bytes.chunks(6).collect();
    if bytes.is_empty() || !bytes.len().is_multiple_of(6) {
        return (1, bytes.len() / 6);
    }
    if rows.len() > 1024 {
        return (2, 1024);
    }
    let mut state = Flat::default();
    let mut over = None;
    for (at, row) in rows.iter().enumerate() {
        let number = state.row(row);
        if number != 0 {
            return (number, at);
        }
        if state.chain > 1024 && over.is_none() {
            over = Some(at);
        }
    }
    if !state.open.is_empty() {
        return (4, rows.len());
    }
    if let Some(at) = over {
        return (2, at);
    }
    let missing = |row: &&[u8]| row[0] == 9 && number_of(row) >= state.functions;
    rows.iter().position(missing).map_or((0, rows.len()), |at| (7, at))
}

fn number_of(row: &[u8]) -> u16 {
    u16::from_le_bytes([row[4], row[5]])
}

#[derive(Default)]
struct Flat {
    /// f: function, t: then part, e: else part, l: loop, s: switch; behind its s a
    /// c for each case that a switch has had, and a d for its default
    open: String,
    /// the numbers of each open switch
    used: Vec<Vec<u16>>,
    functions: u16,
    regions: usize,
    /// rows of the chain so far
    chain: usize,
}

impl Flat {
    fn row(&mut self, row: &[u8]) -> u8 {
        let top = self.open.chars().last().unwrap_or(' ');
        let misplaced = match row[0] {
            6 => top == ' ',
            11 | 12 => !"sc".contains(top),
            _ if top == 's' => true,
            1 => top != ' ',
            4 => top != 't',
            7 | 8 => !self.open.contains('l'),
            _ => top == ' ',
        };
        if wrong(row) {
            3
        } else if misplaced {
            4
        } else if row[0] == 11 && self.used.last().unwrap().contains(&number_of(row)) {
            11
        } else if row[0] == 1 && self.functions == 32 {
            5
        } else {
            self.put(row, top);
            let open = self.open.chars().filter(|c| "telc".contains(*c)).count();
            6 * u8::from(open > 16 || self.regions > 64)
        }
    }

    /// What the row opens and closes, and the rows of the chain that it is.
    fn put(&mut self, row: &[u8], top: char) {
        let (opened, chain) = match row[0] {
            1 | 3 | 4 | 5 => (1, 1),
            11 if top == 'c' => (2, 2),
            11 => (1, 1),
            12 if top == 'c' => (1, 1),
            10 | 12 => (0, 0),
            6 if "scd".contains(top) => (0, self.close_switch()),
            _ => (0, 1),
        };
        match row[0] {
            1 => (self.functions, self.regions) = (self.functions + 1, 0),
            4 => drop(self.open.pop()),
            6 if !"scd".contains(top) => drop(self.open.pop()),
            10 => self.used.push(Vec::new()),
            11 => self.used.last_mut().unwrap().push(number_of(row)),
            _ => {}
        }
        self.open.push_str(
            ["", "f", "", "t", "e", "l", "", "", "", "", "s", "c", "d"][usize::from(row[0])],
        );
        self.regions += opened;
        self.chain += chain;
    }

    /// Takes a switch off the list; answers its cases.
    fn close_switch(&mut self) -> usize {
        self.open.truncate(self.open.rfind('s').unwrap());
        self.used.pop().unwrap().len()
    }
}

/// The used fields of each kind and op; all others must be 0.
fn wrong(row: &[u8]) -> bool {
    let [kind, op, p, q, low, high] = row else { panic!("six bytes") };
    let (uses_op, uses_p, uses_q, uses_n) = match (kind, op) {
        (2, 0) | (3 | 5, 0 | 1) => (true, true, false, true),
        (2, 1..=3) | (3 | 5, 2) => (true, true, true, false),
        (9 | 11, _) => (false, false, false, true),
        (10, _) => (false, true, false, false),
        (1 | 4 | 6 | 7 | 8 | 12, _) => (false, false, false, false),
        _ => return true,
    };
    (!uses_op && *op != 0)
        || *p > if uses_p { 15 } else { 0 }
        || *q > if uses_q { 15 } else { 0 }
        || (!uses_n && (*low != 0 || *high != 0))
}
