// The same as crates/bench_windows does with a sheet: for each cell the least of its twelve images in the repeat, and the ink there.
// rustc -O benches/windows.rs -o /tmp/windows-rust && /tmp/windows-rust
use std::hint::black_box;
use std::time::Instant;

const WINDOWS: i64 = 200;

// The positions of p6mm: (x, y) goes to (a x + b y, c x + d y), moved by s half periods in x and t in y.
const P6MM: [[i64; 6]; 12] = [
    [1, 0, 0, 1, 0, 0],
    [0, -1, 1, -1, 0, 0],
    [-1, 1, -1, 0, 0, 0],
    [-1, 0, 0, -1, 0, 0],
    [0, 1, -1, 1, 0, 0],
    [1, -1, 1, 0, 0, 0],
    [0, -1, -1, 0, 0, 0],
    [-1, 1, 0, 1, 0, 0],
    [1, 0, 1, -1, 0, 0],
    [0, 1, 1, 0, 0, 0],
    [1, -1, 0, -1, 0, 0],
    [-1, 0, -1, 1, 0, 0],
];

struct Group<'a> {
    positions: &'a [[i64; 6]],
    p: i64,
    q: i64,
}

impl Group<'_> {
    // The least of a cell's images in the repeat, by row and column.
    fn home(&self, x: i64, y: i64) -> (i64, i64) {
        let mut best = (i64::MAX, i64::MAX);
        for &[a, b, c, d, s, t] in self.positions {
            let column = (a * x + b * y + s * (self.p / 2)).rem_euclid(self.p);
            let row = (c * x + d * y + t * (self.q / 2)).rem_euclid(self.q);
            best = best.min((row, column));
        }
        best
    }
}

struct Canvas {
    inks: Vec<u8>,
    width: i64,
    held: u32,
}

impl Canvas {
    fn look(&self, (row, column): (i64, i64)) -> u8 {
        self.inks[(row * self.width + column) as usize]
    }

    fn put(&mut self, (row, column): (i64, i64), ink: u8) {
        let at = &mut self.inks[(row * self.width + column) as usize];
        self.held += (*at == 0) as u32;
        *at = ink;
    }
}

fn line(group: &Group, canvas: &mut Canvas, from: (i64, i64), to: (i64, i64), ink: u8) {
    let (dx, dy) = (to.0 - from.0, to.1 - from.1);
    let reach = dx.abs().max(dy.abs());
    let moved = |d: i64, i: i64| if d.abs() == reach { i * d.signum() } else { (2 * i * d.abs() + reach) / (2 * reach) * d.signum() };
    for i in 0..=reach {
        canvas.put(group.home(from.0 + moved(dx, i), from.1 + moved(dy, i)), ink);
    }
}

fn draw(group: &Group, canvas: &mut Canvas) {
    for i in 0..8 {
        line(group, canvas, (13 * i, 5 * i), (90 - 7 * i, 80 - 3 * i), (i + 1) as u8);
    }
    for i in 0..40 {
        canvas.put(group.home(17 * i, 29 * i), (i % 15 + 1) as u8);
    }
}

// Writes a binary PPM picture, and answers how many bytes it has.
fn window(group: &Group, canvas: &Canvas, x: i64, y: i64, width: i64, height: i64, palette: &[u8; 48], output: &mut [u8]) -> usize {
    let header = format!("P6\n{width} {height}\n255\n");
    let (head, pixels) = output.split_at_mut(header.len());
    head.copy_from_slice(header.as_bytes());
    let mut next = pixels.chunks_exact_mut(3);
    for row in y..y + height {
        for column in x..x + width {
            let first = 3 * canvas.look(group.home(column, row)) as usize;
            next.next().unwrap().copy_from_slice(&palette[first..first + 3]);
        }
    }
    header.len() + 3 * (width * height) as usize
}

fn main() {
    // The group and its periods are chosen at run time, as they are for a sheet.
    let group = Group { positions: black_box(&P6MM), p: black_box(96), q: black_box(96) };
    let mut canvas = Canvas { inks: vec![0; 9_216], width: black_box(96), held: 0 };
    draw(&group, &mut canvas);
    let palette = *b"...ZaAYbBXcCWdDVeEUfFTgGShHRiIQjJPkKOlLNmMMnNLoO";
    let mut output = vec![0; 49_167];
    let mut micros = 0;
    let mut sum: u64 = 0;
    for i in 0..WINDOWS {
        let start = Instant::now();
        let size = window(&group, &canvas, 7 * i - 500, 300 - 5 * i, 128, 128, &palette, &mut output);
        micros += start.elapsed().as_micros() as u64;
        for byte in &output[..size] {
            sum = sum.wrapping_mul(31).wrapping_add(*byte as u64);
        }
    }
    eprintln!("window: {} us", micros / WINDOWS as u64);
    println!("windows {WINDOWS}, held {}, checksum {sum}", canvas.held);
}
