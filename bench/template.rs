//! The explicit size call alone, on templates from one track to 64 repeats of 32, by both sides.
use crate::compute::grid::panel::theirs::Theirs;
use crate::table;
use crate::timing::pair;
use std::hint::black_box;

/// What the call answers, by its own archive: `tools/make explicit_size_bench`, which is no part of the library.
#[repr(C)]
struct SizeNumbers {
    number: u32,
    repetitions: u32,
    explicit: u32,
}

extern "C" {
    fn explicit_size_in_axis(
        components: *const u64, component_count: usize, minimums: *const u64, minimum_count: usize, maximums: *const u64,
        maximum_count: usize, inner: u32, gap: u64,
    ) -> SizeNumbers;
}

/// How often a component is written out.
#[derive(Clone, Copy)]
enum Count {
    Single,
    Times(usize),
    Fill,
}

/// A template: its components, each with how many tracks it has.
struct Template {
    name: &'static str,
    components: Vec<(Count, usize)>,
}

const INNER: f32 = 60_000.0;
const GAP: f32 = 2.0;
/// Tracks by turns: minimum and maximum, each a kind of a sheet, its number in a size's word, and a value.
const TRACKS: [[(&str, u64, f32); 2]; 3] = [
    [("len", 0, 4.0), ("len", 0, 5.0)],
    [("len", 0, 4.0), ("fr", 2, 1.0)],
    [("pct", 1, 0.0001), ("len", 0, 4.0)],
];

fn bits(size: f32) -> String {
    format!("{:08x}", size.to_bits())
}

/// A track's line of a sheet.
fn track_line(at: usize) -> String {
    let sizes: Vec<String> = TRACKS[at % TRACKS.len()].iter().map(|(kind, _, value)| format!("\t{kind}\t{}", bits(*value))).collect();
    format!("track\tc{}\n", sizes.concat())
}

/// The words of the minimum (0) or maximum (1) sizes of so many tracks.
fn size_words(tracks: usize, end: usize) -> Vec<u64> {
    (0..tracks).map(|at| TRACKS[at % TRACKS.len()][end]).map(|(_, kind, value)| kind << 32 | value.to_bits() as u64).collect()
}

impl Template {
    /// The sheet that says the same, for the Rust's side, which has no limit on its length.
    fn sheet(&self) -> String {
        let mut first = 0;
        let mut text = format!("axis\tc\t{}\tmax\tlen\t{}\n", bits(INNER), bits(GAP));
        for (count, length) in &self.components {
            let tracks: String = (first..first + length).map(track_line).collect();
            first += length;
            text += &match count {
                Count::Single => tracks,
                Count::Times(times) => format!("repeat\tc\t{times}\n{tracks}end\tc\n"),
                Count::Fill => format!("repeat\tc\tfill\n{tracks}end\tc\n"),
            };
        }
        text
    }

    /// The words of its components, and how many tracks it has.
    fn words(&self) -> (Vec<u64>, usize) {
        let mut first = 0;
        let mut words = Vec::new();
        for (count, tracks) in &self.components {
            let (kind, number) = match count {
                Count::Single => (0, 0),
                Count::Times(times) => (1, *times),
                Count::Fill => (2, 0),
            };
            words.push((number | kind << 16 | first << 32 | tracks << 48) as u64);
            first += tracks;
        }
        (words, first)
    }
}

fn templates() -> Vec<Template> {
    let beside_fill = |count, components: usize, tracks| {
        let mut all = vec![(count, tracks); components - 1];
        all.push((Count::Fill, tracks));
        all
    };
    vec![
        Template { name: "a fill of 1 track", components: beside_fill(Count::Single, 1, 1) },
        Template { name: "63 singles and a fill of 1 track", components: beside_fill(Count::Single, 64, 1) },
        Template { name: "63 repeats of 32 tracks and a fill of 32", components: beside_fill(Count::Times(2), 64, 32) },
        Template { name: "1 single", components: vec![(Count::Single, 1)] },
        Template { name: "64 singles", components: vec![(Count::Single, 1); 64] },
        Template { name: "64 repeats of 32 tracks", components: vec![(Count::Times(2), 32); 64] },
    ]
}

fn ours(components: &[u64], minimums: &[u64], maximums: &[u64]) -> SizeNumbers {
    let (many, low, high) = (components.len(), minimums.len(), maximums.len());
    let (components, minimums, maximums) = (components.as_ptr(), minimums.as_ptr(), maximums.as_ptr());
    // SAFETY: the words of slices that outlive the call, with their lengths.
    unsafe { explicit_size_in_axis(components, many, minimums, low, maximums, high, INNER.to_bits(), GAP.to_bits() as u64) }
}

/// A line for each template: the time of the call on either side, after both were seen to answer alike.
pub(crate) fn print() {
    println!("| Template | Ours | the Rust | Ratio |");
    println!("|---|---|---|---|");
    for template in templates() {
        let theirs = Theirs::new(&template.sheet());
        let (components, tracks) = template.words();
        let (minimums, maximums) = (size_words(tracks, 0), size_words(tracks, 1));
        let answer = ours(&components, &minimums, &maximums);
        let (repetitions, count) = theirs.column_size();
        if (answer.number, answer.repetitions, answer.explicit) != (0, repetitions as u32, count as u32) {
            eprintln!("the template `{}` does not answer alike", template.name);
            std::process::exit(1);
        }
        let (our_time, their_time) = pair(|| ours(black_box(&components), black_box(&minimums), black_box(&maximums)), || theirs.column_size());
        let ratio = table::number(our_time / their_time);
        println!("| {} | {} | {} | {ratio} |", template.name, table::time(our_time), table::time(their_time));
    }
}
