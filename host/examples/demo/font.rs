//! Letters of three by five pixels, for the contact sheet.

pub const WIDTH: usize = 3;
pub const HEIGHT: usize = 5;

/// The five rows of a letter, an octal digit each: 4 is its left pixel, 1 its right.
fn rows(letter: char) -> u32 {
    match letter {
        '0' => 0o75557,
        '1' => 0o26227,
        '2' => 0o71747,
        '3' => 0o71717,
        '4' => 0o55711,
        '5' => 0o74717,
        '6' => 0o74757,
        '7' => 0o71122,
        '8' => 0o75757,
        '9' => 0o75717,
        'A' => 0o25755,
        'B' => 0o65656,
        'C' => 0o34443,
        'D' => 0o65556,
        'E' => 0o74647,
        'F' => 0o74644,
        'G' => 0o34553,
        'H' => 0o55755,
        'I' => 0o72227,
        'K' => 0o55655,
        'L' => 0o44447,
        'M' => 0o57755,
        'N' => 0o65555,
        'O' => 0o25552,
        'P' => 0o65644,
        'R' => 0o65655,
        'S' => 0o34216,
        'T' => 0o72222,
        'U' => 0o55557,
        'V' => 0o55552,
        'W' => 0o55775,
        'X' => 0o55255,
        'Y' => 0o55222,
        '.' => 0o00002,
        ',' => 0o00024,
        ':' => 0o02020,
        '-' => 0o00700,
        '(' => 0o12221,
        ')' => 0o42224,
        '\'' => 0o22000,
        ' ' => 0,
        _ => panic!("the sheet's letters do not have {letter:?}"),
    }
}

/// The pixels of a letter, by column and row.
pub fn pixels(letter: char) -> impl Iterator<Item = (usize, usize)> {
    let rows = rows(letter);
    let places = (0..HEIGHT).flat_map(|y| (0..WIDTH).map(move |x| (x, y)));
    places.filter(move |(x, y)| rows >> (WIDTH * HEIGHT - 1 - (y * WIDTH + x)) & 1 == 1)
}
