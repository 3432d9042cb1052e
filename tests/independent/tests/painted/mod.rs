//! A map as a viewer of SVG paints it: each element over those before it. Used by tests only.

/// The class of each cell: a string for each place struck at, with a letter for each place
/// struck to.
pub fn painted(picture: &str) -> Vec<String> {
    let mut cells: Vec<Vec<char>> = Vec::new();
    for line in picture.lines() {
        if let Some(size) = line.strip_prefix("<rect class=\"n\" width=\"") {
            cells = grid(size);
        } else if let Some(path) = line.strip_prefix("<path class=\"") {
            paint(&mut cells, path);
        }
    }
    cells.into_iter().map(|row| row.into_iter().collect()).collect()
}

/// "all of it as if the run had never stood there"
fn grid(size: &str) -> Vec<Vec<char>> {
    let (width, height) = size.split_once("\" height=\"").unwrap();
    let height = height.strip_suffix("\"/>").unwrap();
    vec![vec!['n'; width.parse().unwrap()]; height.parse().unwrap()]
}

fn paint(cells: &mut [Vec<char>], path: &str) {
    let (class, d) = path.split_once("\" d=\"").unwrap();
    let class = class.chars().next().unwrap();
    let pieces = d.strip_suffix("\"/>").unwrap();
    for piece in pieces.split_terminator('z') {
        let [x, y, w, n] = numbers(piece);
        cells[y..y + n].iter_mut().for_each(|row| row[x..x + w].fill(class));
    }
}

/// Those of `M3 4h1v2H3`, which goes back to where it began.
fn numbers(piece: &str) -> [usize; 4] {
    let parts: Vec<&str> = piece.split(['M', ' ', 'h', 'v', 'H']).collect();
    let ["", x, y, w, n, back] = parts[..] else { panic!("{piece}") };
    assert_eq!(x, back);
    assert_eq!(piece, format!("M{x} {y}h{w}v{n}H{x}"));
    [x, y, w, n].map(|number| number.parse().unwrap())
}
