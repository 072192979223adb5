//! Numbers that look random, and sheets made from them.

pub struct Random(u64);

impl Random {
    pub fn new(seed: u64) -> Random {
        Random(seed.wrapping_mul(0x9e37_79b9_7f4a_7c15) | 1)
    }

    fn next(&mut self) -> u64 {
        self.0 ^= self.0 << 13;
        self.0 ^= self.0 >> 7;
        self.0 ^= self.0 << 17;
        self.0.wrapping_mul(0x2545_f491_4f6c_dd1d) >> 16
    }

    pub fn below(&mut self, high: usize) -> usize {
        (self.next() % high as u64) as usize
    }

    pub fn chance(&mut self, percent: usize) -> bool {
        self.below(100) < percent
    }

    pub fn pick<'a, T>(&mut self, from: &'a [T]) -> &'a T {
        &from[self.below(from.len())]
    }
}

const NAMES: &[&str] =
    &["a", "b", "level", "offset", "x-start", "x-end", "a-start", "a-end", "1x", "-y", "--", "odd!\"&<>", "A", "_", "n'\\{}", "9", "-9z"];
const AREAS: &[&str] = &["a", "head", "x", "1x", "level_2", "A", "--"];

/// A sheet maker: sheets that CSS can say and that stand in the command's own order, or any that the library accepts.
pub struct Maker {
    pub random: Random,
    plain: bool,
}

impl Maker {
    pub fn new(seed: u64, plain: bool) -> Maker {
        Maker { random: Random::new(seed), plain }
    }

    fn value(&mut self, largest: f32) -> String {
        let value = match self.random.below(4) {
            0 => self.random.below(5) as f32 * 25.0,
            1 => self.random.below(1000) as f32 / 8.0,
            2 => (self.random.next() as f32 / 1e12).abs(),
            _ => f32::from_bits((self.random.next() as u32) & 0x3fff_ffff),
        };
        format!("{:08x}", (value % largest).to_bits())
    }

    fn fixed(&mut self) -> String {
        if self.random.chance(70) {
            format!("len\t{}", self.value(400.0))
        } else {
            format!("pct\t{}", self.value(2.0))
        }
    }

    fn keyword(&mut self) -> String {
        format!("{}\t00000000", self.random.pick(&["auto", "min", "max"]))
    }

    /// A track; in `fixed` ones an automatic repeat may stand.
    fn track(&mut self, fixed: bool) -> String {
        match self.random.below(if fixed { 3 } else { 7 }) {
            0 => {
                let one = self.fixed();
                format!("{one}\t{one}")
            }
            1 => format!("{}\t{}", self.fixed(), self.fixed()),
            2 => format!("{}\tfr\t{}", self.fixed(), self.value(9.0)),
            3 => format!("auto\t00000000\tfr\t{}", self.value(9.0)),
            4 => format!("{}\t{}", self.keyword(), self.keyword()),
            5 => format!("auto\t00000000\tfitl\t{}", self.value(400.0)),
            _ => format!("{}\tfitp\t{}", if self.plain { "auto\t00000000".to_string() } else { self.keyword() }, self.value(2.0)),
        }
    }

    fn names(&mut self, letter: &str, lines: &mut Vec<String>) {
        while self.random.chance(30) {
            let name = self.random.pick(NAMES).to_string();
            lines.push(format!("name\t{letter}\t{name}"));
        }
    }

    fn template(&mut self, letter: &str, lines: &mut Vec<String>) {
        let automatic = self.random.chance(50);
        let fixed = automatic && self.random.chance(80);
        let parts = self.random.below(5);
        let at = self.random.below(parts.max(1));
        for part in 0..parts {
            self.names(letter, lines);
            if automatic && part == at || self.random.chance(25) {
                let times =
                    if automatic && part == at { self.random.pick(&["fill", "fit"]).to_string() } else { self.random.below(4).to_string() };
                lines.push(format!("repeat\t{letter}\t{times}"));
                for _ in 0..self.random.below(4) {
                    self.names(letter, lines);
                    lines.push(format!("track\t{letter}\t{}", self.track(fixed)));
                }
                self.names(letter, lines);
                lines.push(format!("end\t{letter}"));
            } else {
                lines.push(format!("track\t{letter}\t{}", self.track(fixed)));
            }
        }
        self.names(letter, lines);
    }

    fn axis(&mut self, letter: &str) -> Option<String> {
        let inner = if self.random.chance(60) { Some(self.value(900.0)) } else { None };
        let rule = if inner.is_some() && self.random.chance(30) { "min" } else { "max" };
        let gap = if self.random.chance(50) { self.fixed() } else { "len\t00000000".to_string() };
        let zero = gap.ends_with("\t00000000");
        let gap = if zero { "len\t00000000".to_string() } else { gap };
        (inner.is_some() || !zero).then(|| format!("axis\t{letter}\t{}\t{rule}\t{gap}", inner.unwrap_or("-".to_string())))
    }

    /// Areas that share no cell, in the order of their first cells.
    fn areas(&mut self) -> Vec<String> {
        let mut areas: Vec<(usize, usize, usize, usize, &str)> = vec![];
        for name in AREAS {
            let (top, left) = (self.random.below(4) + 1, self.random.below(5) + 1);
            let (bottom, right) = (top + 1 + self.random.below(2), left + 1 + self.random.below(3));
            let free = areas.iter().all(|a| bottom <= a.0 || a.2 <= top || right <= a.1 || a.3 <= left);
            if free && self.random.chance(35) {
                areas.push((top, left, bottom, right, name));
            }
        }
        areas.sort();
        areas.iter().map(|(top, left, bottom, right, name)| format!("area\t{name}\t{top}\t{bottom}\t{left}\t{right}")).collect()
    }

    fn end(&mut self) -> String {
        let name = if self.random.chance(50) { *self.random.pick(NAMES) } else { *self.random.pick(AREAS) };
        let least = usize::from(self.plain);
        match self.random.below(6) {
            0 => "auto\t-\t0".to_string(),
            1 => format!("line\t-\t{}", self.random.below(5) + least),
            2 => format!("line\t-\t-{}", self.random.below(5) + 1),
            3 => format!("named\t{name}\t{}", self.random.below(4) as i32 - 1),
            4 => format!("span\t-\t{}", self.random.below(4) + least),
            _ => format!("nspan\t{name}\t{}", self.random.below(3) + least),
        }
    }

    fn beside(&mut self, letter: &str, lines: &mut Vec<String>) {
        for _ in 0..self.random.below(3) {
            lines.push(format!("spare\t{letter}\t{}", self.track(false)));
        }
        if self.random.chance(30) {
            lines.push(format!("extra\t{letter}\t{}\t{}", self.random.below(3), self.random.below(3) + 1));
        }
        for _ in 0..self.random.below(4) {
            lines.push(format!("item\t{letter}\t{}", self.random.below(6)));
        }
    }

    /// The lines of a sheet.
    pub fn lines(&mut self) -> Vec<String> {
        let mut lines: Vec<String> = ["c", "r"].iter().filter_map(|letter| self.axis(letter)).collect();
        lines.extend(self.areas());
        for letter in ["c", "r"] {
            self.template(letter, &mut lines);
            self.beside(letter, &mut lines);
        }
        for _ in 0..self.random.below(6) {
            let (letter, start, end) = (*self.random.pick(&["c", "r"]), self.end(), self.end());
            lines.push(format!("place\t{letter}\t{start}\t{end}"));
        }
        lines
    }

    pub fn sheet(&mut self) -> String {
        self.lines().iter().map(|line| format!("{line}\n")).collect()
    }
}
