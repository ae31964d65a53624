//! Graymaps from the bench cameras (W-202): sizes, maximum and where the pixels
//! begin, or the pixel above the maximum.

use super::*;
use crate::rules;

/// Files that netpbm wrote (examples/graymaps/make).
const OF_NETPBM: [&[u8]; 4] = [
    include_bytes!("../../../examples/graymaps/noise.pgm"),
    include_bytes!("../../../examples/graymaps/depth.pgm"),
    include_bytes!("../../../examples/graymaps/ramp.pgm"),
    include_bytes!("../../../examples/graymaps/twelve.pgm"),
];

/// All that `met` can give.
pub const MET: [&str; 23] = [
    "20, fewer than 3 bytes",
    "20, no whitespace behind P5",
    "21, no number",
    "21, maximum 0",
    "21, maximum 256",
    "21 before 22",
    "22, a side of 0",
    "22, a side of 4097",
    "22, a side beyond 64 bits",
    "23, a byte too few",
    "24, the first pixel",
    "24, the last pixel",
    "24 before 25",
    "25, a byte too many",
    "0, a comment",
    "0, CR LF",
    "0, leading zeros",
    "0, 4096 wide",
    "0, 4096 high",
    "0, maximum 1",
    "0, maximum 254",
    "0, maximum 255",
    "0, the first pixel could be of the header",
];

/// Which border of the rules a file is at.
pub fn met(file: &[u8]) -> Vec<&'static str> {
    let met = match (rules::graymap(file), rules::behind_magic(file)) {
        (_, None) => vec![
            (file.len() < 3).then_some("20, fewer than 3 bytes"),
            (file.len() > 2 && file.starts_with(b"P5")).then_some("20, no whitespace behind P5"),
        ],
        (Ok(read), _) => met_accepted(file, read),
        (Err((number, pixel)), Some(left)) => match rules::header(left) {
            None => vec![Some("21, no number")],
            Some((numbers, behind)) => met_refused(number, pixel, numbers, behind),
        },
    };
    met.into_iter().flatten().collect()
}

fn met_refused(
    number: u32,
    pixel: Option<usize>,
    [width, height, maximum]: [u64; 3],
    behind: &[u8],
) -> Vec<Option<&'static str>> {
    let side = |n: u64| width == n || height == n;
    let bad = [width, height].iter().any(|n| !(1..=4096).contains(n));
    let count = width.saturating_mul(height);
    let there = behind.len() as u64;
    match number {
        rules::BAD_HEADER => vec![
            (maximum == 0).then_some("21, maximum 0"),
            (maximum == 256).then_some("21, maximum 256"),
            bad.then_some("21 before 22"),
        ],
        rules::BAD_GRAYMAP_SIZE => vec![
            side(0).then_some("22, a side of 0"),
            side(4097).then_some("22, a side of 4097"),
            side(u64::MAX).then_some("22, a side beyond 64 bits"),
        ],
        rules::TOO_SHORT => vec![(there + 1 == count).then_some("23, a byte too few")],
        rules::ABOVE_MAXIMUM => vec![
            (pixel == Some(0)).then_some("24, the first pixel"),
            (pixel.map(|k| k as u64 + 1) == Some(count)).then_some("24, the last pixel"),
            (there > count).then_some("24 before 25"),
        ],
        _ => vec![(there == count + 1).then_some("25, a byte too many")],
    }
}

fn met_accepted(file: &[u8], read: Graymap) -> Vec<Option<&'static str>> {
    let (header, pixels) = file.split_at(read.start);
    let has = |two: &dyn Fn(u8, u8) -> bool| header.windows(2).any(|w| two(w[0], w[1]));
    let starts_zero = |a: u8, b: u8| a == b'0' && b.is_ascii_digit();
    vec![
        header.contains(&b'#').then_some("0, a comment"),
        has(&|a, b| [a, b] == *b"\r\n").then_some("0, CR LF"),
        has(&starts_zero).then_some("0, leading zeros"),
        (read.width == 4096).then_some("0, 4096 wide"),
        (read.height == 4096).then_some("0, 4096 high"),
        (read.maximum == 1).then_some("0, maximum 1"),
        (read.maximum == 254).then_some("0, maximum 254"),
        (read.maximum == 255).then_some("0, maximum 255"),
        b" \t\n\r#5"
            .contains(&pixels[0])
            .then_some("0, the first pixel could be of the header"),
    ]
}

fn write(list: &mut List, file: &[u8]) {
    let (decision, read, pixel) = calls::graymap(file);
    let mut case = Case::new();
    case.count(file.len()).bytes(file);
    put_decision(&mut case, decision);
    let given = read.map_or([0; 4], |g| {
        [g.width, g.height, usize::from(g.maximum), g.start]
    });
    for number in given {
        case.count(number);
    }
    case.count(pixel.unwrap_or(0));
    list.push(&case);
    list.tally(number_name(decision.number));
    for what in met(file) {
        list.tally(what);
    }
}

/// A header and so many samples, all of one value.
fn flat(header: &str, count: usize, sample: u8) -> Vec<u8> {
    [header.as_bytes(), &vec![sample; count]].concat()
}

/// Small files that are accepted, and where the pixels of each begin.
fn good() -> [(Vec<u8>, usize); 3] {
    let with = |header: &[u8], pixels: &[u8]| ([header, pixels].concat(), header.len());
    [
        with(b"P5 3 2 200\n", &[0, 9, 35, 200, 199, 10]),
        with(b"P5\r\n# 640 480\n4 #\r\t2\r\n\r255\t", b"# 7\n1 2\x00"),
        with(b"P5\n02 \t#a#b\n\n003\n#\n1\n", &[1, 0, 1, 1, 0, 1]),
    ]
}

/// Every prefix of a good file, and a few bytes more.
fn prefixes(list: &mut List) {
    for (file, _) in good() {
        for count in 0..=file.len() {
            write(list, &file[..count]);
        }
        for more in [&b"\n"[..], b"#", b"\0", b"\xff\xff", b"P5 1 1 1\n\0"] {
            write(list, &[&file, more].concat());
        }
    }
}

/// Bytes that are something in a header, and those beside them.
const TELLING: &[u8] = b"\0\x08\t\n\x0b\x0c\r\x0e\x1f !#$+-./05689:P5p\x7f\x80\xa0\xff";

/// Each byte of a header as another one, left out, twice, and with another one
/// before it. The first header has every telling one, the others a few.
fn changed(list: &mut List) {
    for ((file, start), bytes) in good().into_iter().zip([TELLING, b"\n\r #0A", b"\t\r#9\0"]) {
        for k in 0..start {
            for byte in bytes {
                let mut other = file.clone();
                other[k] = *byte;
                write(list, &other);
            }
            let (before, behind) = file.split_at(k);
            write(list, &[before, &behind[1..]].concat());
            write(list, &[before, &file[k..k + 1], behind].concat());
            for more in [&b" "[..], b"#", b"#c\n", b"# 7 7 7\r", b"#\n", b"0", b"-"] {
                write(list, &[before, more, behind].concat());
            }
        }
    }
}

/// What stands between two parts of a header, straight before the pixels too.
fn gaps(list: &mut List) {
    let gaps = [
        " ",
        "\t",
        "\n",
        "\r",
        "\r\n",
        "\n\n",
        " \t\r\n",
        "",
        "\x0b",
        "\x0c",
        "\0",
        "#\n",
        " #\n",
        " #",
        "\n#c\r",
        " #c\n#d\n",
        " # c # d\n ",
        " #\r#\n\t",
        "\u{a0}",
    ];
    for at in 0..4 {
        for gap in gaps {
            let mut text = String::from("P5");
            for (k, number) in ["2", "1", "9"].iter().enumerate() {
                text += if at == k { gap } else { " " };
                text += number;
            }
            text += if at == 3 { gap } else { "\n" };
            for pixels in [&[9, 9][..], &[9, 9, 9], b"#\n", &[35; 9]] {
                write(list, &[text.as_bytes(), pixels].concat());
            }
        }
    }
}

/// Numbers of 1 to 400 digits, and some that are good only where they wrap.
fn digits(list: &mut List) {
    let mut texts: Vec<String> = Vec::new();
    for count in (1..=22).chain([38, 39, 40, 78, 200, 399, 400]) {
        texts.push("9".repeat(count));
        texts.push(format!("1{}", "0".repeat(count - 1)));
        texts.push(format!("{}2", "0".repeat(count - 1)));
        texts.push("0".repeat(count));
    }
    texts.extend(
        [
            "10000",
            "10002",
            "65537",
            "65538",
            "4294967297",
            "4294967298",
            "18446744073709551615",
            "18446744073709551616",
            "18446744073709551617",
            "18446744073709551618",
            "340282366920938463463374607431768211458",
        ]
        .map(String::from),
    );
    for text in &texts {
        write(list, &flat(&format!("P5 {text} 1 2\n"), 2, 1));
        write(list, &flat(&format!("P5 1 {text} 2\n"), 2, 1));
        write(list, &flat(&format!("P5 2 1 {text}\n"), 2, 1));
    }
}

/// Sides about their borders, with the samples there or without any.
fn sides(list: &mut List) {
    let sides: [usize; 6] = [0, 1, 2, 4095, 4096, 4097];
    for width in sides {
        for height in sides {
            let header = format!("P5 {width} {height} 255\n");
            write(list, header.as_bytes());
            if width * height <= 4097 {
                write(list, &flat(&header, width * height, 7));
            }
        }
    }
    for header in ["P5 4096 1 254 ", "P5 1 4096 254\r"] {
        for count in [4095, 4096, 4097] {
            write(list, &flat(header, count, 254));
        }
    }
}

/// Maxima about their borders, with samples at and above them.
fn maxima(list: &mut List) {
    for maximum in [
        0u32, 1, 2, 127, 128, 253, 254, 255, 256, 257, 300, 511, 4095, 65535, 65536,
    ] {
        let low = maximum.min(255) as u8;
        for pixels in [
            [0, low],
            [low, 0],
            [low, low.saturating_add(1)],
            [255, 0],
            [low.saturating_sub(1), 255],
        ] {
            for header in ["2 1", "1 2", "0 2", "2 4097"] {
                let header = format!("P5 {header} {maximum}\n");
                write(list, &[header.as_bytes(), &pixels].concat());
            }
        }
    }
}

/// Every byte as the only pixel, at a few maxima.
fn samples(list: &mut List) {
    for maximum in ["200", "255"] {
        for sample in 0..=255 {
            write(list, &flat(&format!("P5 1 1 {maximum}\n"), 1, sample));
        }
    }
}

/// One or two samples above the maximum among 600.
fn above(list: &mut List) {
    let places = [0, 1, 7, 8, 255, 256, 257, 511, 512, 513, 598, 599];
    for (k, at) in places.into_iter().enumerate() {
        let maximum = [100u8, 254][k % 2];
        let header = format!("P5\n30 20\n{maximum}\n");
        let mut file = flat(&header, 600, maximum);
        file[header.len() + at] = maximum + 1;
        write(list, &file);
        file[header.len() + places[(k + 5) % places.len()]] = 255;
        write(list, &file);
        file.push(255);
        write(list, &file);
    }
}

/// Each pair of numbers at once: the lower one is given.
fn order(list: &mut List) {
    let spoil = |parts: &mut [Vec<u8>; 5], number: u32| match number {
        rules::NO_MAGIC => parts[0] = b"P2 ".to_vec(),
        rules::BAD_HEADER => parts[3] = b"256\n".to_vec(),
        rules::BAD_GRAYMAP_SIZE => parts[1] = b"4097 ".to_vec(),
        rules::TOO_SHORT => parts[4].truncate(5),
        rules::ABOVE_MAXIMUM => parts[4][1] = 101,
        _ => parts[4].push(0),
    };
    for a in 20..=25 {
        for b in a..=25 {
            let mut parts = [&b"P5 "[..], b"3 ", b"2 ", b"100\n", &[100; 6]].map(<[u8]>::to_vec);
            spoil(&mut parts, b);
            if a != b {
                spoil(&mut parts, a);
            }
            write(list, &parts.concat());
        }
    }
}

/// The files of netpbm whole, cut, and with a byte more.
fn of_netpbm(list: &mut List) {
    for file in OF_NETPBM {
        write(list, file);
        for count in [2, 3, 7, 12, file.len() - 1] {
            write(list, &file[..count]);
        }
        write(list, &[file, b"\n"].concat());
    }
}

/// Whitespace and comments, at times none or what is no whitespace.
fn any_gap(random: &mut Random) -> Vec<u8> {
    let pieces: [&[u8]; 8] = [
        b" ",
        b"\n",
        b"\t",
        b"\r\n",
        b"\r",
        b" #\n",
        b"\n# 12 #\r",
        b" ",
    ];
    match random.below(60) {
        0 => Vec::new(),
        1 => vec![random.pick(TELLING)],
        2 => b" #".to_vec(),
        _ => (0..=random.below(3))
            .flat_map(|_| random.pick(&pieces))
            .copied()
            .collect(),
    }
}

/// A number as text, at times with zeros before it.
fn any_text(random: &mut Random, number: usize) -> String {
    let zeros = match random.below(8) {
        0 => random.below(4),
        1 if random.once_in(8) => random.below(400),
        _ => 0,
    };
    format!("{}{number}", "0".repeat(zeros))
}

fn any_side(random: &mut Random) -> usize {
    match random.below(100) {
        0 => random.pick(&[0, 4096, 4097, 10_000, 65_536, 1 << 32, usize::MAX]),
        1..=10 => 1,
        _ => 1 + random.below(24),
    }
}

/// A file about the borders of the rules.
pub fn any(random: &mut Random) -> Vec<u8> {
    let [width, height] = [0, 1].map(|_| any_side(random));
    let maximum = match random.below(6) {
        0 => random.pick(&[0, 1, 254, 255, 256, 300, 4095]),
        1..=2 => 255,
        _ => 1 + random.below(254),
    };
    let mut file = b"P5".to_vec();
    for number in [width, height, maximum] {
        file.extend(any_gap(random));
        file.extend(any_text(random, number).bytes());
    }
    file.push(random.pick(b" \n\n\t\r"));
    let start = file.len();
    let count = match random.below(8) {
        0 => width.saturating_mul(height).saturating_sub(1),
        1 => width.saturating_mul(height).saturating_add(1),
        _ => width.saturating_mul(height),
    };
    let top = maximum.min(255) + 1;
    file.extend((0..count.min(5000)).map(|_| random.below(top) as u8));
    for _ in 0..random.below(3) {
        if random.once_in(2) && start < file.len() {
            let at = start + random.below(file.len() - start);
            file[at] = random.pick(&[maximum as u8, (maximum as u8).wrapping_add(1), 255]);
        }
    }
    if random.once_in(4) {
        spoil(random, &mut file, start);
    }
    file
}

/// A byte of the header as another one, left out or put in, or the file cut.
fn spoil(random: &mut Random, file: &mut Vec<u8>, start: usize) {
    let at = random.below(start);
    match random.below(4) {
        0 => file[at] = random.pick(TELLING),
        1 => file.insert(at, random.pick(TELLING)),
        2 => drop(file.remove(at)),
        _ => file.truncate(random.below(file.len())),
    }
}

pub fn list(seed: u64) -> List {
    let mut list = List::new("graymap");
    for borders in [
        prefixes, changed, gaps, digits, sides, maxima, samples, above, order, of_netpbm,
    ] {
        borders(&mut list);
    }
    let mut random = Random::of(seed, "graymap");
    while list.size() < 3 * ENOUGH / 4 {
        write(&mut list, &any(&mut random));
    }
    list
}
