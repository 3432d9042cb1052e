//! Tables in letters, one a row, for tests by hand.

/// f function, d do, i if, e else, l loop, . end, b break, c continue, a call of
/// function 0, A call of function 9, s switch, 1 and 2 cases of these numbers, *
/// default; D a do with a wrong op, S a switch with a wrong p, C the case 1 with a
/// wrong q, X a default with a wrong n. If, loop and switch look at v0.
pub fn rows(letters: &str) -> Vec<u8> {
    letters.chars().flat_map(row).collect()
}

fn row(letter: char) -> [u8; 6] {
    match letter {
        'f' => [1, 0, 0, 0, 0, 0],
        'd' => [2, 2, 0, 15, 0, 0],
        'i' => [3, 0, 0, 0, 1, 0],
        'e' => [4, 0, 0, 0, 0, 0],
        'l' => [5, 1, 0, 0, 3, 0],
        '.' => [6, 0, 0, 0, 0, 0],
        'b' => [7, 0, 0, 0, 0, 0],
        'c' => [8, 0, 0, 0, 0, 0],
        'a' => [9, 0, 0, 0, 0, 0],
        'A' => [9, 0, 0, 0, 9, 0],
        's' => [10, 0, 0, 0, 0, 0],
        '1' => [11, 0, 0, 0, 1, 0],
        '2' => [11, 0, 0, 0, 2, 0],
        '*' => [12, 0, 0, 0, 0, 0],
        'D' => [2, 4, 0, 0, 0, 0],
        'S' => [10, 0, 16, 0, 0, 0],
        'C' => [11, 0, 0, 1, 1, 0],
        'X' => [12, 0, 0, 0, 1, 0],
        other => panic!("no row for {other}"),
    }
}
