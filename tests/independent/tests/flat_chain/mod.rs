//! The chain of ifs that a table with switches stands for, written row by row (02,
//! No. 1). Used by tests only.

const ELSE: [u8; 6] = [4, 0, 0, 0, 0, 0];
const END: [u8; 6] = [6, 0, 0, 0, 0, 0];

/// The rows of 01 for an accepted table.
pub fn chain(bytes: &[u8]) -> Vec<u8> {
    // what is open: of a switch its variable and the cases so far
    let mut open: Vec<Option<(u8, usize)>> = Vec::new();
    let mut chain = Vec::new();
    for row in bytes.chunks(6) {
        match row[0] {
            10 => open.push(Some((row[2], 0))),
            11 => {
                let (p, cases) = open.last_mut().unwrap().as_mut().unwrap();
                chain.extend(&ELSE[..if *cases > 0 { 6 } else { 0 }]);
                chain.extend([3, 0, *p, 0, row[4], row[5]]);
                *cases += 1;
            }
            12 => {
                let (_, cases) = open.last().unwrap().unwrap();
                chain.extend(&ELSE[..if cases > 0 { 6 } else { 0 }]);
            }
            6 => {
                let ends = open.pop().unwrap().map_or(1, |(_, cases)| cases);
                chain.extend(END.repeat(ends));
            }
            kind => {
                open.extend([1, 3, 5].contains(&kind).then_some(None));
                chain.extend(row);
            }
        }
    }
    chain
}
