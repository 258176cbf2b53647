//! Paints one desktop of windows over and over, in the two ways that come first to mind: each window
//! over those below it, or each row from the topmost window down. It prints a checksum of the last frame.
//!
//! usage: full_repaints back-to-front|top-down FRAMES WINDOWS

use std::env;
use std::hint::black_box;
use std::process::ExitCode;

const WIDTH: usize = 1920;
const HEIGHT: usize = 1080;
const BACKGROUND: u32 = 0x202830;
const BORDER: i32 = 2;
const FEW_WINDOWS: u32 = 20;
const GUESTS: u32 = 4;
const LABELS: [u32; GUESTS as usize] = [0xcc0000, 0x3465a4, 0x73d216, 0xedd400];

/// How many words each guest has. A window shows them from the first one on, over and over.
const WORDS: u32 = 64 * 1024;

/// A window: where its content is on the desktop, the colour of the border around it, and the colours of
/// its content row by row.
struct Window {
    x: i32,
    y: i32,
    width: usize,
    height: usize,
    label: u32,
    content: Vec<u32>,
}

/// The columns of a picture from one on and before another.
type Span = (usize, usize);

impl Window {
    /// The k-th window from the top, among so many: a large one where there are few.
    fn new(k: u32, windows: u32) -> Window {
        let (width, height) = if windows <= FEW_WINDOWS {
            (320 + k * 173 % 700, 240 + k * 131 % 500)
        } else {
            (24 + k * 173 % 128, 24 + k * 131 % 64)
        };
        let first = k % GUESTS * WORDS;
        let colour = |place: u32| (first + place % WORDS).wrapping_mul(2654435761) & 0xffffff;
        Window {
            x: (k * 397 % 2100) as i32 - 160,
            y: (k * 251 % 1200) as i32 - 120,
            width: width as usize,
            height: height as usize,
            label: LABELS[(k % GUESTS) as usize],
            content: (0..width * height).map(colour).collect(),
        }
    }

    /// Its columns on the picture with its border.
    fn columns(&self) -> Span {
        clipped(self.x - BORDER, self.x + self.width as i32 + BORDER, WIDTH)
    }

    /// Its rows on the picture with its border.
    fn rows(&self) -> Span {
        clipped(self.y - BORDER, self.y + self.height as i32 + BORDER, HEIGHT)
    }

    /// Draws the columns of a span, which lie in those of the window, in the row y of the picture.
    fn draw(&self, row: &mut [u32], y: usize, (from, end): Span) {
        let down = y as i32 - self.y;
        if down < 0 || down >= self.height as i32 {
            row[from..end].fill(self.label);
            return;
        }
        let (first, past) = clipped(self.x, self.x + self.width as i32, WIDTH);
        let left = first.clamp(from, end);
        let right = past.clamp(left, end);
        row[from..left].fill(self.label);
        if left < right {
            let start = down as usize * self.width + (left as i32 - self.x) as usize;
            row[left..right].copy_from_slice(&self.content[start..start + right - left]);
        }
        row[right..end].fill(self.label);
    }
}

/// What of some places lies from 0 on and before a limit.
fn clipped(from: i32, end: i32, limit: usize) -> Span {
    let clip = |place: i32| place.clamp(0, limit as i32) as usize;
    (clip(from), clip(end))
}

/// Draws each window over those below it.
fn back_to_front(picture: &mut [u32], windows: &[Window]) {
    picture.fill(BACKGROUND);
    for window in windows.iter().rev() {
        let span = window.columns();
        let (top, bottom) = window.rows();
        for y in top..bottom {
            window.draw(&mut picture[y * WIDTH..][..WIDTH], y, span);
        }
    }
}

/// Draws each row from the topmost window down, of each window the columns that are left.
fn top_down(picture: &mut [u32], windows: &[Window], left: &mut Vec<Span>, next: &mut Vec<Span>) {
    for (y, row) in picture.chunks_exact_mut(WIDTH).enumerate() {
        left.clear();
        left.push((0, WIDTH));
        for window in windows {
            let (top, bottom) = window.rows();
            if y < top || bottom <= y {
                continue;
            }
            let (first, past) = window.columns();
            next.clear();
            for &(from, end) in left.iter() {
                let a = first.clamp(from, end);
                let b = past.clamp(a, end);
                if a < b {
                    window.draw(row, y, (a, b));
                }
                next.extend([(from, a), (b, end)].into_iter().filter(|(from, end)| from < end));
            }
            std::mem::swap(left, next);
            if left.is_empty() {
                break;
            }
        }
        for &(from, end) in left.iter() {
            row[from..end].fill(BACKGROUND);
        }
    }
}

/// A number that tells pictures apart.
fn checksum(picture: &[u32]) -> u64 {
    picture
        .iter()
        .fold(0, |sum: u64, &colour| sum.wrapping_mul(31).wrapping_add(u64::from(colour)))
}

fn main() -> ExitCode {
    let words: Vec<String> = env::args().skip(1).collect();
    let (way, frames, windows) = match words.as_slice() {
        [way, frames, windows] if way == "back-to-front" || way == "top-down" => {
            (way, frames.parse::<u32>(), windows.parse::<u32>())
        }
        _ => return usage(),
    };
    let (Ok(frames), Ok(windows)) = (frames, windows) else {
        return usage();
    };
    let windows: Vec<Window> = (0..windows).map(|k| Window::new(k, windows)).collect();
    let mut picture = vec![0; WIDTH * HEIGHT];
    let (mut left, mut next) = (Vec::new(), Vec::new());
    for _ in 0..frames {
        match way.as_str() {
            "top-down" => top_down(&mut picture, &windows, &mut left, &mut next),
            _ => back_to_front(&mut picture, &windows),
        }
        black_box(&mut picture);
    }
    println!("{frames} frames, checksum {:016x}", checksum(&picture));
    ExitCode::SUCCESS
}

fn usage() -> ExitCode {
    eprintln!("usage: full_repaints back-to-front|top-down FRAMES WINDOWS");
    ExitCode::from(2)
}
