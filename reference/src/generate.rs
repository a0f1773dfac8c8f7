//! Random scripts for `replay` and inputs for `axes`, made from a seed.
//!
//! A script is a row of short stories (a move and some steps, a kill and what follows, ...)
//! with noise between them. The maker runs the reference alongside, so that it knows where the
//! axes are and which axis is selected.

mod damage;
mod number;
mod text;

use crate::axis::Axis;
use crate::controller::Live;
use crate::coverage::DriveKind;
use crate::line::Line;
use crate::random::Random;
use crate::replay::{AnyDrive, Session};
use crate::request::Selection;

/// A random script for `replay`.
pub fn script(seed: u64) -> Vec<u8> {
    let mut maker = Maker::new(seed, Form::Replay);
    if maker.random.chance(10) {
        maker.before_new();
    }
    for _ in 0..maker.random.weighted(&[(80, 1), (15, 2), (5, 3)]) {
        let length = maker.random.between(15, 110) as usize;
        maker.controller(length);
    }
    maker.finished()
}

/// A random input for `axes`.
pub fn axes_input(seed: u64) -> Vec<u8> {
    let mut maker = Maker::new(seed, Form::Axes);
    for line in [&b"new counting 2 0"[..], b"set IOK2,1", b"arm 0000"] {
        maker.session.line(line, &mut Vec::new());
    }
    maker.kill_bits = 1 << 2;
    maker.pace = 4;
    let length = maker.random.between(15, 110) as usize;
    maker.live_lines(length);
    maker.probes();
    maker.finished()
}

#[derive(Clone, Copy, PartialEq, Eq, Debug)]
enum Form {
    Replay,
    Axes,
}

/// What happens in some lines on end.
#[derive(Clone, Copy, PartialEq, Eq, Debug)]
enum Story {
    OneText,
    Travel,
    Steps,
    Sample,
    Wait,
    Kill,
    Reach,
    LongText,
    Questions,
    Sizes,
    WrongReadings,
    Junk,
    Fill,
    Churn,
    Rearm,
}

const REPLAY_STORIES: [(usize, Story); 15] = [
    (300, Story::OneText),
    (200, Story::Travel),
    (120, Story::Steps),
    (80, Story::Sample),
    (60, Story::Wait),
    (60, Story::Kill),
    (40, Story::Reach),
    (25, Story::LongText),
    (45, Story::Questions),
    (35, Story::Sizes),
    (20, Story::WrongReadings),
    (45, Story::Junk),
    (12, Story::Fill),
    (3, Story::Churn),
    (25, Story::Rearm),
];

const AXES_STORIES: [(usize, Story); 12] = [
    (300, Story::OneText),
    (200, Story::Travel),
    (120, Story::Steps),
    (80, Story::Sample),
    (60, Story::Wait),
    (60, Story::Kill),
    (20, Story::Reach),
    (25, Story::LongText),
    (45, Story::Questions),
    (60, Story::Junk),
    (12, Story::Fill),
    (3, Story::Churn),
];

struct Maker {
    random: Random,
    form: Form,
    script: Vec<u8>,
    lines: usize,
    session: Session,
    /// About as far as an axis goes in some steps.
    pace: i64,
    /// A word at which most kill inputs are not at their level.
    quiet: u16,
    /// Contacts that are kill inputs of some axis.
    kill_bits: u16,
}

impl Maker {
    fn new(seed: u64, form: Form) -> Maker {
        Maker {
            random: Random::new(seed),
            form,
            script: Vec::new(),
            lines: 0,
            session: Session::new(),
            pace: 1,
            quiet: 0,
            kill_bits: 0,
        }
    }

    /// Writes a line and lets the reference do it. No line holds LF.
    fn say(&mut self, line: &[u8]) {
        debug_assert!(!line.contains(&b'\n'));
        self.script.extend_from_slice(line);
        self.script.push(b'\n');
        self.lines += 1;
        if self.form == Form::Replay || Line::parse_for_axes(line).is_some() {
            self.session.line(line, &mut Vec::new());
        }
    }

    fn say_m(&mut self, text: &[u8]) {
        self.say(&[b"M ", text].concat());
    }

    fn say_p(&mut self, text: &[u8]) {
        self.say(&[b"P ", text].concat());
    }

    fn say_word(&mut self, call: &str, word: u16) {
        let line = if self.random.chance(70) {
            format!("{call} {word:04X}")
        } else {
            format!("{call} {word:04x}")
        };
        self.say(line.as_bytes());
    }

    fn finished(mut self) -> Vec<u8> {
        if self.random.chance(10) {
            self.script.pop();
        }
        self.script
    }

    fn live(&self) -> Option<&Live<AnyDrive>> {
        self.session.live()
    }

    fn axis(&mut self) -> Axis {
        if self.random.chance(50) {
            self.random.pick(&[Axis::X, Axis::Y, Axis::Z])
        } else {
            self.random.pick(&Axis::ALL)
        }
    }

    /// Lines that are all skipped, since there is no controller yet.
    fn before_new(&mut self) {
        for _ in 0..self.random.between(1, 4) {
            let line = self.random.pick(&[
                &b"M MR5"[..],
                b"P 3PR",
                b"T",
                b"S 0004",
                b"arm 0000",
                b"set IOK2,1",
                b"show",
                b"park",
                b"rows 7",
                b"answer 0",
            ]);
            self.say(line);
        }
    }

    /// One controller from `new` on.
    fn controller(&mut self, length: usize) {
        self.new_drive();
        self.settings(10);
        self.arm();
        self.live_lines(length);
        if self.random.chance(85) {
            self.probes();
        }
    }

    fn new_drive(&mut self) {
        let rate = self.random.weighted(&[
            (15, "1"),
            (20, "2"),
            (10, "5"),
            (10, "0100"),
            (20, "1000"),
            (10, "1000000"),
            (3, "0"),
            (3, "-3"),
            (3, "1000001"),
            (3, "9999999999"),
            (3, "-9999999999"),
        ]);
        let start = self.random.weighted(&[
            (45, "0"),
            (8, "-7"),
            (8, "1999"),
            (8, "-1999"),
            (8, "2147483640"),
            (8, "-2147483640"),
            (4, "2147483646"),
            (3, "2147483647"),
            (3, "-2147483647"),
            (3, "9999999999"),
            (3, "-0"),
        ]);
        let steps = self.random.weighted(&[
            (10, "1"),
            (10, "2"),
            (15, "7"),
            (10, "10"),
            (20, "1000"),
            (5, "0"),
            (5, "-4"),
            (5, "5000"),
            (5, "999"),
        ]);
        let (line, kind) = match self.random.weighted(&[(35, 0), (25, 1), (20, 2), (20, 3)]) {
            0 => (format!("new counting {rate} {start}"), DriveKind::Counting),
            1 => (format!("new reporting {start}"), DriveKind::Reporting),
            2 => (
                format!("new ratio {steps} counting {rate} {start}"),
                DriveKind::RatioCounting,
            ),
            _ => (
                format!("new ratio {steps} reporting {start}"),
                DriveKind::RatioReporting,
            ),
        };
        let number = |word: &str| word.parse::<i64>().expect("a number");
        let rate = number(rate).clamp(1, 1_000_000);
        let steps = number(steps).clamp(1, 1000);
        self.pace = match kind {
            DriveKind::Counting => 3 * rate,
            DriveKind::Reporting => 100,
            DriveKind::RatioCounting => 3 * rate / steps + 1,
            DriveKind::RatioReporting => 100_000 / steps,
        };
        self.kill_bits = 0;
        self.quiet = match self.random.below(4) {
            0 => self.random.next_u64() as u16,
            _ => 0,
        };
        self.say(line.as_bytes());
    }

    fn settings(&mut self, most: i64) {
        for _ in 0..self.random.between(0, most) {
            let (text, kill_bit) = text::setting(&mut self.random, self.quiet);
            self.kill_bits |= kill_bit;
            self.say(&[b"set ", &text[..]].concat());
            if self.random.chance(3) {
                self.junk();
            }
        }
    }

    fn arm(&mut self) {
        let word = match self.random.below(8) {
            0 => self.random.next_u64() as u16,
            _ => self.quiet,
        };
        self.say_word("arm", word);
    }

    fn live_lines(&mut self, length: usize) {
        let end = self.lines + length;
        while self.lines < end {
            let stories: &[(usize, Story)] = match self.form {
                Form::Replay => &REPLAY_STORIES,
                Form::Axes => &AXES_STORIES,
            };
            let story = self.random.weighted(stories);
            self.tell(story);
        }
    }

    fn tell(&mut self, story: Story) {
        match story {
            Story::OneText => self.one_text(),
            Story::Travel => self.travel(),
            Story::Steps => self.steps(6),
            Story::Sample => self.sample(),
            Story::Wait => self.wait(),
            Story::Kill => self.kill(),
            Story::Reach => self.reach(),
            Story::LongText => self.long_text(),
            Story::Questions => self.questions(),
            Story::Sizes => self.sizes(),
            Story::WrongReadings => self.wrong_readings(),
            Story::Junk => self.junk(),
            Story::Fill => self.fill(),
            Story::Churn => self.churn(),
            Story::Rearm => self.rearm(),
        }
    }

    fn one_text(&mut self) {
        if self.random.chance(65) {
            let text = self.mount_text();
            self.say_m(&text);
        } else {
            let text = self.bench_text();
            self.say_p(&text);
        }
    }

    fn mount_text(&mut self) -> Vec<u8> {
        match self.session.live() {
            Some(live) => text::mount(&mut self.random, live, self.pace),
            None => b"RP".to_vec(),
        }
    }

    fn bench_text(&mut self) -> Vec<u8> {
        text::bench(&mut self.random, self.pace)
    }

    /// A move, a GO and some steps.
    fn travel(&mut self) {
        if self.random.chance(40) {
            let axis = self.axis().number();
            let name = self.random.pick(&["PR", "PA", "pr"]);
            let number = number::bench(&mut self.random, self.pace);
            self.say_p(&[format!("{axis}{name}").as_bytes(), &number].concat());
        } else {
            self.mount_travel();
        }
        if self.random.chance(20) {
            self.one_text();
        }
        self.steps(7);
    }

    fn mount_travel(&mut self) {
        if self.random.chance(40) {
            let select = self.selecting();
            self.say_m(&select);
        }
        let Some(live) = self.session.live() else {
            return;
        };
        let name: &[u8] = self.random.pick(&[b"MA", b"MR", b"mr"]);
        let operands = text::move_operands(&mut self.random, live, self.pace);
        let go = match live.selection() {
            Selection::One(_) => b"GO".to_vec(),
            Selection::All => text::echo_of_list(&operands),
        };
        self.say_m(&[name, &operands].concat());
        if self.random.chance(15) {
            self.steps(2);
        }
        self.say_m(&go);
    }

    fn selecting(&mut self) -> Vec<u8> {
        if self.random.chance(25) {
            b"AA".to_vec()
        } else {
            format!("A{}", self.axis().letter()).into_bytes()
        }
    }

    fn steps(&mut self, most: i64) {
        for _ in 0..self.random.between(1, most) {
            self.step();
        }
    }

    fn step(&mut self) {
        let reports = self.live().is_some_and(|live| {
            matches!(
                live.drive().kind(),
                DriveKind::Reporting | DriveKind::RatioReporting
            )
        });
        let plain = self.random.chance(if reports { 8 } else { 92 });
        if plain || self.form == Form::Axes {
            self.say(b"T");
        } else {
            let line = self.step_line(8);
            self.say(&line);
        }
    }

    /// A Step with so many readings, most of them on the way of their axes.
    fn step_line(&mut self, readings: usize) -> Vec<u8> {
        let health = match self.random.below(12) {
            0 => self.random.next_u64() as u8,
            1 => !(1 << self.random.below(8)),
            2 if self.random.chance(30) => 0,
            _ => u8::MAX,
        };
        let mut line = format!("T {health:02X}");
        if self.random.chance(20) {
            line = format!("T {health:02x}");
        }
        for index in 0..readings {
            let reading = self.reading(Axis::ALL[index % 8]);
            line += &format!(" {reading}");
        }
        line.into_bytes()
    }

    fn reading(&mut self, axis: Axis) -> i64 {
        let (position, target) = match self.live() {
            Some(live) => live.drive().lowest(axis),
            None => (0, 0),
        };
        let (low, high) = (position.min(target), position.max(target));
        match self.random.below(100) {
            0..=64 => target,
            65..=79 => self.random.between(low, high),
            80..=93 => position,
            94 => low - 1,
            95 => high + 1,
            96 => 0,
            97 => self.random.pick(&[9_999_999_999, -9_999_999_999]),
            _ => self.random.between(low - 50, high + 50),
        }
    }

    fn sample(&mut self) {
        let sampled = self.live().map_or(0, |live| live.sampled());
        let word = match self.random.below(100) {
            0..=39 => sampled ^ (1 << self.random.below(6)),
            40..=74 => self.quiet,
            75..=84 => self.random.next_u64() as u16,
            85..=89 => 0,
            90..=94 => u16::MAX,
            _ => !self.quiet,
        };
        self.say_word("S", word);
    }

    /// Waits for an input that comes later, and sets an output.
    fn wait(&mut self) {
        if self.random.chance(70) {
            let select = format!("A{}", self.axis().letter());
            self.say_m(select.as_bytes());
        }
        let bit = self.random.below(6);
        let output = self.random.below(16);
        let name = self.random.pick(&["SW", "BW", "sw"]);
        self.say_m(format!("{name}{bit}").as_bytes());
        let name = self.random.pick(&["BH", "BH", "BL", "bl"]);
        self.say_m(format!("{name}{output}").as_bytes());
        self.steps(3);
        let sampled = self.live().map_or(0, |live| live.sampled());
        self.say_word("S", sampled ^ (1 << bit));
        self.steps(3);
        if self.form == Form::Replay && self.random.chance(50) {
            self.say(b"show");
        }
    }

    /// Entries, a kill between them, and what a killed and a freed axis do.
    fn kill(&mut self) {
        for _ in 0..self.random.between(1, 4) {
            if self.random.chance(60) {
                self.one_text();
            } else {
                self.mount_travel();
            }
        }
        self.steps(3);
        let bits: Vec<u16> = (0..16)
            .map(|bit| 1 << bit)
            .filter(|bit| self.kill_bits & bit != 0)
            .collect();
        let hit = match bits[..] {
            [] => 1 << self.random.below(16),
            _ => self.random.pick(&bits),
        };
        self.say_word("S", self.quiet ^ hit);
        for _ in 0..self.random.between(1, 4) {
            match self.random.below(4) {
                0 => self.steps(2),
                1 => self.sample(),
                _ => self.one_text(),
            }
        }
        self.say_word("S", self.quiet);
        if self.random.chance(60) {
            self.say_m(b"GO");
            self.steps(4);
        }
    }

    /// A move that ends outside the reach.
    fn reach(&mut self) {
        let far = self
            .random
            .pick(&["2147483646", "-2147483646", "2147484", "2147483", "100"]);
        let near = self
            .random
            .pick(&["1000000000", "-1000000000", "-2147484", "306783379"]);
        if self.random.chance(50) {
            let axis = self.axis().number();
            let name = self.random.pick(&["PR", "PA"]);
            self.say_p(format!("{axis}{name}{near}").as_bytes());
            if self.random.chance(40) {
                self.say_p(format!("{axis}{name}{near}").as_bytes());
            }
        } else {
            let axis = self.axis().letter();
            self.say_m(format!("A{axis}").as_bytes());
            let name = self.random.pick(&["MR", "MA"]);
            self.say_m(format!("{name}{far}").as_bytes());
            self.say_m(b"GO");
            if self.random.chance(50) {
                self.one_text();
            }
        }
        self.steps(5);
    }

    fn long_text(&mut self) {
        if self.random.chance(50) {
            self.say_m(b"AA");
        }
        let text = damage::long_text(&mut self.random);
        if self.random.chance(75) {
            self.say_m(&text);
        } else {
            self.say_p(&text);
        }
        if self.random.chance(70) {
            self.say_m(b"#ER");
        }
    }

    fn questions(&mut self) {
        for _ in 0..self.random.between(1, 3) {
            match self.random.below(6) {
                0 => self.say_m(b"RP"),
                1 => self.say_m(b"RQC"),
                2 => self.say_m(b"#er"),
                3 => self.say_p(b"TP"),
                4 if self.form == Form::Replay => self.say(b"show"),
                _ => {
                    let axis = self.axis().number();
                    self.say_p(format!("{axis}tp").as_bytes());
                }
            }
        }
    }

    /// Sheets and answer blocks of odd sizes, for some calls.
    fn sizes(&mut self) {
        let odd = self.random.pick(&[
            "rows 7",
            "rows 9",
            "rows 0",
            "rows 64",
            "answer 191",
            "answer 0",
            "answer 193",
            "answer 4096",
        ]);
        self.say(odd.as_bytes());
        if self.random.chance(40) {
            let second = self.random.pick(&[
                "rows 8",
                "rows 64",
                "rows 65",
                "answer 192",
                "answer 4096",
                "answer 4097",
            ]);
            self.say(second.as_bytes());
        }
        for _ in 0..self.random.between(1, 5) {
            match self.random.below(10) {
                0..=1 => self.step(),
                2 => self.wrong_readings(),
                3..=4 => self.sample(),
                5 => self.long_text(),
                6 if self.random.chance(20) => self.rearm(),
                _ => self.one_text(),
            }
        }
        if self.random.chance(97) {
            let back = self.random.pick(&["rows 8", "rows 08"]);
            self.say(back.as_bytes());
            let back = self
                .random
                .pick(&["answer 192", "answer 0192", "answer 200"]);
            self.say(back.as_bytes());
        }
    }

    fn wrong_readings(&mut self) {
        let number = self.random.pick(&[0, 1, 7, 9, 10, 16]);
        let line = self.step_line(number);
        self.say(&line);
    }

    /// A line that is skipped, or most likely so.
    fn junk(&mut self) {
        let line = if self.form == Form::Axes && self.random.chance(40) {
            damage::line_of_replay_alone(&mut self.random)
        } else {
            damage::junk_line(&mut self.random)
        };
        self.say(&line);
    }

    /// As many entries as an axis holds, and some more.
    fn fill(&mut self) {
        let axis = self.axis();
        let number = axis.number();
        let (port, text, times) = match self.random.below(6) {
            0 => (b'P', format!("{number}PR1"), 66),
            1 => (b'P', format!("{number}WS"), 130),
            2 => (b'M', String::from("MR1,1,,1,0,,-1,1"), 66),
            3 => (b'M', String::from("GO"), 130),
            4 => (b'M', String::from("BH3"), 66),
            _ => (b'M', String::from("MA1"), 66),
        };
        let select = if text.contains(',') {
            String::from("AA")
        } else {
            format!("A{}", axis.letter())
        };
        self.say_m(select.as_bytes());
        let times = self.random.between(times - 8, times);
        for _ in 0..times {
            match port {
                b'P' => self.say_p(text.as_bytes()),
                _ => self.say_m(text.as_bytes()),
            }
            if self.random.chance(1) {
                self.step();
            }
        }
        for _ in 0..self.random.between(2, 8) {
            match self.random.below(8) {
                0 => self.step(),
                1 => self.say_m(b"RQC"),
                2 => self.say_m(b"AA"),
                3 => self.sample(),
                4 => self.say_p(format!("{number}PA2").as_bytes()),
                5 => self.say_p(format!("{number}WS").as_bytes()),
                6 => self.say_m(b"GO"),
                _ => self.one_text(),
            }
        }
    }

    /// Sends more entries through an axis than its rings have places.
    fn churn(&mut self) {
        let number = self.axis().number();
        for round in 0..150 {
            if round % 2 == 0 || self.random.chance(30) {
                let operand = self.random.between(-1, 1);
                self.say_p(format!("{number}PR{operand}").as_bytes());
            }
            if self.random.chance(90) {
                self.step();
            }
        }
        self.say_m(b"RQC");
    }

    fn rearm(&mut self) {
        self.say(b"park");
        if self.random.chance(15) {
            // Calls that a parked controller does not take.
            for _ in 0..self.random.between(1, 3) {
                let line =
                    self.random
                        .pick(&[&b"M MR5"[..], b"P TP", b"T", b"S FFFF", b"park", b"show"]);
                self.say(line);
            }
        }
        self.settings(5);
        self.arm();
    }

    /// Lines that show what a run left.
    fn probes(&mut self) {
        let lines: &[&[u8]] = match self.form {
            Form::Replay => &[
                b"rows 8",
                b"answer 192",
                b"show",
                b"M #ER",
                b"P TP",
                b"P WS",
                b"M RQC",
                b"M AA",
                b"M RQC",
                b"M RP",
                b"M GO1,1,1,1,1,1,1,1",
            ],
            Form::Axes => &[
                b"M #ER", b"P TP", b"P WS", b"M RQC", b"M AA", b"M RQC", b"M RP",
            ],
        };
        for line in lines {
            self.say(line);
        }
        self.steps(4);
        match self.form {
            Form::Replay => {
                self.say(b"show");
                self.say(b"park");
            }
            Form::Axes => self.say(b"M RP"),
        }
    }
}

#[cfg(test)]
mod tests {
    use super::*;
    use crate::axes::axes_covered;
    use crate::coverage::Coverage;
    use crate::replay::replay_covered;

    #[test]
    fn the_same_seed_makes_the_same_script() {
        assert_eq!(script(7), script(7));
        assert_ne!(script(7), script(8));
        assert_eq!(axes_input(7), axes_input(7));
    }

    #[test]
    fn random_scripts_meet_everything() {
        let mut coverage = Coverage::default();
        for seed in 0..600 {
            coverage.add(&replay_covered(&script(seed)).1);
            axes_covered(&axes_input(seed));
        }
        assert_eq!(coverage.missing(), Vec::<String>::new());
    }
}
