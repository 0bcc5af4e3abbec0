//! What was measured, as lines, and whether it is what was aimed at.

use super::case::{Case, Side, Unit};
use super::clock::{Timed, Times};

/// The times of a case; of C by each of its builds, of which there are none where C has no
/// such function; of the report on the whole pack where a pack comes in chunks.
pub struct Finding {
    name: &'static str,
    unit: Unit,
    ours: Times,
    /// Where the library's own is shipped, in bytes past a multiple of 64, and its times
    /// there, where that is fixed.
    shipped: Option<(usize, Times)>,
    c: Vec<Times>,
    cursor: Vec<Times>,
    memmove: Vec<Times>,
    whole: Option<Times>,
    rounds: u32,
}

impl Finding {
    pub fn of(case: &Case, timed: &Timed) -> Finding {
        let of = |wanted: fn(Side) -> bool| -> Vec<Times> {
            let times = timed.times.iter().filter(|(side, _)| wanted(*side));
            times.map(|(_, times)| *times).collect()
        };
        Finding {
            name: case.name,
            unit: case.unit,
            ours: of(|side| side == Side::Proved)[0],
            shipped: peer::shipped_past().zip(of(|side| side == Side::Shipped).first().copied()),
            c: of(|side| matches!(side, Side::C(_))),
            cursor: of(|side| matches!(side, Side::Cursor(_))),
            memmove: of(|side| matches!(side, Side::Memmove(_))),
            whole: of(|side| side == Side::Whole).first().copied(),
            rounds: timed.rounds,
        }
    }

    /// A side's mean by ours.
    fn ratio_to(&self, times: &Times) -> f64 {
        times.mean() / self.ours.mean()
    }

    /// What ours is measured by: the fastest C, or the report on the whole pack.
    fn yardstick(&self) -> Option<(&'static str, &Times)> {
        let build = fastest(&self.c);
        match (self.c.get(build), &self.whole) {
            (Some(c), _) => Some((peer::BUILDS[build].name, c)),
            (None, Some(whole)) => Some(("whole pack", whole)),
            (None, None) => None,
        }
    }

    /// The yardstick's mean by ours.
    fn ratio(&self) -> Option<f64> {
        self.yardstick().map(|(_, times)| self.ratio_to(times))
    }

    /// Our mean by that of the report on the whole pack.
    fn of_the_whole(&self) -> Option<f64> {
        let whole = self.whole.as_ref()?;
        Some(self.ours.mean() / whole.mean())
    }

    /// C's time where it is fastest, by whatever build, by a time of ours.
    fn ratio_where_fastest(&self, ours: f64) -> f64 {
        let c = self.c.iter().map(Times::least);
        c.fold(f64::INFINITY, f64::min) / ours
    }

    /// The same by our time where it is shipped.
    fn ratio_shipped(&self) -> Option<f64> {
        self.shipped
            .map(|(_, times)| self.ratio_where_fastest(times.least()))
    }

    fn is_run(&self) -> bool {
        matches!(self.unit, Unit::Step(_))
    }

    /// The reader and the listing examine instructions too, but C has neither.
    fn is_verify(&self) -> bool {
        matches!(self.unit, Unit::Instructions(_)) && !self.c.is_empty()
    }

    /// Our time for an instruction examined.
    fn instruction(&self) -> f64 {
        match self.unit {
            Unit::Instructions(count) => self.ours.mean() / f64::from(count),
            Unit::Step(_) | Unit::Byte(_) | Unit::Tag(_) | Unit::Call => f64::NAN,
        }
    }

    /// A call's time in the case's unit.
    fn told(&self, time: f64) -> String {
        match self.unit {
            Unit::Step(steps) => format!("{:.2}", time / f64::from(steps)),
            Unit::Byte(bytes) => format!("{:.3}", time / f64::from(bytes)),
            Unit::Tag(tags) => format!("{:.2}", time / f64::from(tags)),
            Unit::Instructions(_) => format!("{:.1}", time / 1_000.0),
            Unit::Call => format!("{time:.0}"),
        }
    }

    /// A side's mean, and its least and most of all places.
    fn told_all(&self, times: &Times) -> String {
        let [mean, least, most] =
            [times.mean(), times.least(), times.most()].map(|time| self.told(time));
        format!("{mean} ({least}..{most})")
    }

    /// Our time at the place at which the library has it, and the ratio there.
    fn told_shipped(&self) -> String {
        let told = |(_, times): (usize, Times)| {
            let time = times.least();
            format!("{} {:.2}", self.told(time), self.ratio_where_fastest(time))
        };
        self.shipped.map_or(String::new(), told)
    }

    fn line(&self) -> String {
        let (yardstick, times) = match self.yardstick() {
            Some((name, times)) => (name, self.told_all(times)),
            None => ("", String::new()),
        };
        row([
            self.name,
            match self.unit {
                Unit::Step(_) => "ns/step",
                Unit::Byte(_) => "ns/byte",
                Unit::Tag(_) => "ns/tag",
                Unit::Instructions(_) => "us/call",
                Unit::Call => "ns/call",
            },
            &self.told_all(&self.ours),
            &times,
            yardstick,
            &self.ratio().map_or(String::new(), |it| format!("{it:.2}")),
            &self.told_shipped(),
            &self.rounds.to_string(),
        ])
    }

    /// The ratio by each build, by C's fastest verifier with a cursor and by its fastest
    /// run with memmove.
    fn line_by_build(&self) -> String {
        let told = |times: &Times| format!("{:.2}", self.ratio_to(times));
        let others = [&self.cursor, &self.memmove]
            .map(|builds| builds.get(fastest(builds)).map_or(String::new(), told));
        row_by_build(self.name, self.c.iter().map(told).chain(others))
    }
}

/// Which of some builds is the fastest.
fn fastest(builds: &[Times]) -> usize {
    let mean = |&build: &usize| builds[build].mean();
    let order = |a: &usize, b: &usize| mean(a).total_cmp(&mean(b));
    (0..builds.len()).min_by(order).unwrap_or(0)
}

fn row([name, unit, ours, c, yardstick, ratio, shipped, rounds]: [&str; 8]) -> String {
    let sides = format!("{name:18}{unit:8}{ours:>24}{c:>24}  {yardstick:10}");
    format!("{sides}{ratio:>6}{shipped:>12}{rounds:>8}\n")
}

/// A line for each case: the fastest build of the C is the yardstick, or of what comes in
/// chunks the whole pack.
pub fn table(findings: &[Finding]) -> String {
    let spread = "(least..most)";
    let [ours, theirs] = ["ours", "yardstick"].map(|side| format!("{side} {spread}"));
    let shipped = "as shipped";
    let head = [
        "case", "unit", &ours, &theirs, "which is", "ratio", shipped, "rounds",
    ];
    row(head) + &findings.iter().map(Finding::line).collect::<String>()
}

fn row_by_build(name: &str, cells: impl Iterator<Item = String>) -> String {
    let cells: String = cells.map(|cell| format!("{cell:>11}")).collect();
    format!("{}\n", format!("{name:18}{cells}").trim_end())
}

/// The ratio by each build of the C, a line for each case. C has two verifiers: beside
/// the one with a bitmap, which the targets speak of, one with a cursor. So it has two
/// runs: beside the one that copies byte by byte, one that does so by memmove. What it does
/// not have has no line; where there is none, there is no head either.
pub fn by_build(findings: &[Finding]) -> String {
    let with_c = findings.iter().filter(|finding| !finding.c.is_empty());
    let lines: String = with_c.map(Finding::line_by_build).collect();
    if lines.is_empty() {
        return lines;
    }
    let builds = peer::BUILDS.iter().map(|build| build.name);
    let head = builds.chain(["a cursor", "memmove"]).map(String::from);
    row_by_build("ratio to C by", head) + &lines
}

/// The targets of which something was measured, and whether they are met.
pub fn targets(findings: &[Finding]) -> String {
    let runs: Vec<&Finding> = findings.iter().filter(|f| f.is_run()).collect();
    let verifies: Vec<&Finding> = findings.iter().filter(|f| f.is_verify()).collect();
    let mut text = String::new();
    let as_fast = "run at least as fast as C";
    text += &least(as_fast, 1.0, &runs, Finding::ratio);
    let faster = "run 1.3 times as fast as C (aim)";
    text += &least(faster, 1.3, &runs, Finding::ratio);
    let as_shipped = "run as shipped 1.3 times as fast as C where C is fastest (aim)";
    text += &least(as_shipped, 1.3, &runs, Finding::ratio_shipped);
    text += &place(&runs);
    let verify = "verify at least as fast as C with a bitmap";
    text += &least(verify, 1.0, &verifies, Finding::ratio);
    let named = |name| verifies.iter().find(|f| f.name == name);
    for name in ["verify-hostile", "verify-branches"] {
        if let (Some(hostile), Some(straight)) = (named(name), named("verify-straight")) {
            text += &growth(hostile, straight);
        }
    }
    text + &lookups(findings) + &admissions(findings)
}

/// What the admission of a pack takes of the report on the whole of it: the target is for
/// chunks that a line may bring, and byte by byte there is none.
fn admissions(findings: &[Finding]) -> String {
    let times = findings
        .iter()
        .filter_map(|f| Some((f.of_the_whole()?, f.name)));
    let (single, longer): (Vec<_>, Vec<_>) = times.partition(|(_, name)| name.ends_with("-by-1"));
    let mut text = String::new();
    if let Some((times, name)) = longer.iter().max_by(|a, b| a.0.total_cmp(&b.0)) {
        let met = met(*times <= 1.2);
        text += &format!("admission in chunks of 64 bytes or more at most 1.2 times the report on the whole pack: {met} (most {times:.2}, {name})\n");
    }
    for (times, name) in single {
        text += &format!("admission byte by byte {times:.2} times the report on the whole pack, {name} (no target)\n");
    }
    text
}

/// The targets of the lookup, by the size of its pack; the same ones by the face for Rust,
/// and for tags that are asked for in rising order.
fn lookups(findings: &[Finding]) -> String {
    let mut text = String::new();
    for (size, faster, bound) in [(64, "3 times as fast", 3.0), (4, "at least as fast", 1.0)] {
        for (name, how) in [
            (format!("tags-{size}-lookup"), ""),
            (format!("tags-{size}-rust"), ", by the face for Rust,"),
            (format!("rising-{size}-lookup"), ", in rising order,"),
        ] {
            let named: Vec<&Finding> = findings.iter().filter(|f| f.name == name).collect();
            let target = format!("lookup in a pack of {size} rules{how} {faster} as C's scan");
            text += &least(&target, bound, &named, Finding::ratio);
        }
    }
    text
}

/// Whether the least ratio of some cases reaches a bound; nothing where there is none.
fn least(
    target: &str,
    bound: f64,
    findings: &[&Finding],
    ratio: impl Fn(&Finding) -> Option<f64>,
) -> String {
    let ratios = findings.iter().filter_map(|f| Some((ratio(f)?, f.name)));
    match ratios.min_by(|a, b| a.0.total_cmp(&b.0)) {
        Some((ratio, name)) => {
            let met = met(ratio >= bound);
            format!("{target}: {met} (least {ratio:.2}, {name})\n")
        }
        None => String::new(),
    }
}

/// Where the library has the run, and at which of the four places it would be the fastest
/// here: the one whose least ratio is the largest. Nothing where that was not measured.
fn place(runs: &[&Finding]) -> String {
    let shipped = match runs.iter().find_map(|finding| finding.shipped) {
        Some((past, _)) => past,
        None => return String::new(),
    };
    let ratio = |finding: &Finding, place| finding.ratio_where_fastest(finding.ours.0[place]);
    let ratios = |place: usize| runs.iter().map(move |finding| ratio(finding, place));
    let least = |place: usize| ratios(place).fold(f64::INFINITY, f64::min);
    let order = |&a: &usize, &b: &usize| least(a).total_cmp(&least(b));
    let fastest = peer::APART * (0..peer::PLACES).max_by(order).unwrap_or(0);
    format!("khx_run is shipped {shipped} bytes past a multiple of 64; of the four places the fastest here is {fastest}\n")
}

/// How much more of our time a hostile program takes than a straight one of the same
/// length.
fn growth(hostile: &Finding, straight: &Finding) -> String {
    let call = hostile.ours.mean() / straight.ours.mean();
    let instruction = hostile.instruction() / straight.instruction();
    let (name, met) = (hostile.name, met(call <= 3.0));
    format!("{name} at most 3 times verify-straight, both of 16 KB: {met} (a call {call:.2}, an instruction examined {instruction:.2})\n")
}

fn met(good: bool) -> &'static str {
    if good {
        "met"
    } else {
        "missed"
    }
}

#[cfg(test)]
mod tests {
    use super::*;

    /// Times whose mean is the one given.
    fn times(mean: f64) -> Times {
        Times([0.5 * mean, 1.5 * mean, 0.75 * mean, 1.25 * mean])
    }

    fn run(name: &'static str, ours: f64, c: f64) -> Finding {
        Finding {
            name,
            unit: Unit::Step(10),
            ours: times(ours),
            shipped: None,
            c: vec![times(c), times(c + 1.0)],
            cursor: Vec::new(),
            memmove: Vec::new(),
            whole: None,
            rounds: 5,
        }
    }

    fn verify(name: &'static str, instructions: u32, ours: f64, c: f64) -> Finding {
        Finding {
            unit: Unit::Instructions(instructions),
            cursor: vec![times(4.0 * ours), times(3.0 * ours)],
            ..run(name, ours, c)
        }
    }

    /// The words of a table's second line.
    fn words(table: &str) -> String {
        let line = table.lines().nth(1).unwrap();
        line.split_whitespace().collect::<Vec<&str>>().join(" ")
    }

    #[test]
    fn the_least_ratio_decides() {
        let text = targets(&[run("fast", 10.0, 20.0), run("even", 10.0, 10.0)]);
        assert_eq!(
            text,
            "run at least as fast as C: met (least 1.00, even)\n\
             run 1.3 times as fast as C (aim): missed (least 1.00, even)\n"
        );
    }

    /// Our times are half the mean at the first place, and three quarters where it is
    /// shipped.
    #[test]
    fn a_run_as_it_is_shipped() {
        let findings = [Finding {
            shipped: Some((32, Times([8.0, 7.5, 7.75, 9.0]))),
            ..run("counting", 10.0, 22.0)
        }];
        let line = "counting ns/step 1.00 (0.50..1.50) 2.20 (1.10..3.30) gcc -O2 2.20 0.75 1.47 5";
        assert_eq!(words(&table(&findings)), line);
        assert_eq!(
            targets(&findings),
            "run at least as fast as C: met (least 2.20, counting)\n\
             run 1.3 times as fast as C (aim): met (least 2.20, counting)\n\
             run as shipped 1.3 times as fast as C where C is fastest (aim): met \
             (least 1.47, counting)\n\
             khx_run is shipped 32 bytes past a multiple of 64; of the four places the \
             fastest here is 0\n"
        );
    }

    #[test]
    fn a_case_told_by_the_call_has_no_target() {
        let short = Finding {
            unit: Unit::Call,
            ..run("short", 10.0, 5.0)
        };
        assert_eq!(targets(&[short]), "");
    }

    #[test]
    fn the_build_with_the_least_mean_is_the_yardstick() {
        let mut slow_first = run("counting", 10.0, 20.0);
        slow_first.c = vec![Times([1.0, 39.0, 39.0, 41.0]), times(15.0), times(40.0)];
        assert_eq!(slow_first.ratio(), Some(1.5));
        let findings = [slow_first];
        let line = "counting ns/step 1.00 (0.50..1.50) 1.50 (0.75..2.25) gcc -O3 1.50 5";
        assert_eq!(words(&table(&findings)), line);
        assert_eq!(words(&by_build(&findings)), "counting 3.00 1.50 4.00");
    }

    #[test]
    fn a_copy_is_told_by_the_byte_beside_memmove() {
        let findings = [Finding {
            unit: Unit::Byte(100),
            memmove: vec![times(5.0), times(4.0)],
            ..run("copy-up", 10.0, 20.0)
        }];
        let line = "copy-up ns/byte 0.100 (0.050..0.150) 0.200 (0.100..0.300) gcc -O2 2.00 5";
        assert_eq!(words(&table(&findings)), line);
        assert_eq!(words(&by_build(&findings)), "copy-up 2.00 2.10 0.40");
        assert_eq!(targets(&findings), "");
    }

    #[test]
    fn the_faster_cursor_stands_behind_the_builds() {
        let text = by_build(&[verify("verify-random", 9, 2_000.0, 5_000.0)]);
        assert_eq!(words(&text), "verify-random 2.50 2.50 3.00");
    }

    #[test]
    fn what_c_does_not_have_is_timed_alone() {
        let findings = [Finding {
            c: Vec::new(),
            cursor: Vec::new(),
            ..verify("read", 9, 2_000.0, 5_000.0)
        }];
        assert_eq!(words(&table(&findings)), "read us/call 2.0 (1.0..3.0) 5");
        assert_eq!(by_build(&findings), "");
        assert_eq!(targets(&findings), "");
    }

    #[test]
    fn growth_is_of_our_time() {
        let straight = verify("verify-straight", 100, 1_000.0, 2_000.0);
        let good = verify("verify-hostile", 50, 3_000.0, 9_000.0);
        let bad = verify("verify-branches", 100, 3_100.0, 3_000.0);
        let text = targets(&[straight, good, bad]);
        assert_eq!(
            text,
            "verify at least as fast as C with a bitmap: missed (least 0.97, verify-branches)\n\
             verify-hostile at most 3 times verify-straight, both of 16 KB: met \
             (a call 3.00, an instruction examined 6.00)\n\
             verify-branches at most 3 times verify-straight, both of 16 KB: missed \
             (a call 3.10, an instruction examined 3.10)\n"
        );
    }

    #[test]
    fn a_lookup_is_judged_by_the_size_of_its_pack() {
        let tags = |name, ours| Finding {
            unit: Unit::Tag(10),
            ..run(name, ours, 20.0)
        };
        let findings = [
            tags("tags-64-lookup", 8.0),
            tags("tags-64-find", 40.0),
            tags("tags-4-lookup", 8.0),
            tags("tags-4-rust", 10.0),
            tags("rising-4-lookup", 40.0),
            tags("rising-4-find", 80.0),
        ];
        let line = "tags-64-lookup ns/tag 0.80 (0.40..1.20) 2.00 (1.00..3.00) gcc -O2 2.50 5";
        assert_eq!(words(&table(&findings)), line);
        assert_eq!(
            targets(&findings),
            "lookup in a pack of 64 rules 3 times as fast as C's scan: missed \
             (least 2.50, tags-64-lookup)\n\
             lookup in a pack of 4 rules at least as fast as C's scan: met \
             (least 2.50, tags-4-lookup)\n\
             lookup in a pack of 4 rules, by the face for Rust, at least as fast as C's scan: met \
             (least 2.00, tags-4-rust)\n\
             lookup in a pack of 4 rules, in rising order, at least as fast as C's scan: missed \
             (least 0.50, rising-4-lookup)\n"
        );
    }

    #[test]
    fn an_admission_is_judged_by_the_whole_pack() {
        let admit = |name, ours| Finding {
            unit: Unit::Instructions(9),
            c: Vec::new(),
            whole: Some(times(2_000.0)),
            ..run(name, ours, 0.0)
        };
        let findings = [
            admit("admit-64-by-64", 2_200.0),
            admit("admit-64-by-1", 9_000.0),
            admit("admit-1-by-24576", 2_500.0),
        ];
        let line = "admit-64-by-64 us/call 2.2 (1.1..3.3) 2.0 (1.0..3.0) whole pack 0.91 5";
        assert_eq!(words(&table(&findings)), line);
        assert_eq!(by_build(&findings), "");
        assert_eq!(
            targets(&findings),
            "admission in chunks of 64 bytes or more at most 1.2 times the report on the whole \
             pack: missed (most 1.25, admit-1-by-24576)\n\
             admission byte by byte 4.50 times the report on the whole pack, admit-64-by-1 \
             (no target)\n"
        );
    }

    #[test]
    fn nothing_measured_has_no_target() {
        assert_eq!(targets(&[]), "");
    }

    #[test]
    fn times_in_the_unit_of_the_case() {
        let verify = verify("verify-random", 9, 2_000.0, 5_000.0);
        let line = "verify-random us/call 2.0 (1.0..3.0) 5.0 (2.5..7.5) gcc -O2 2.50 5";
        assert_eq!(words(&table(&[verify])), line);
        let call = Finding {
            unit: Unit::Call,
            ..run("pack-check", 20.0, 30.0)
        };
        let line = "pack-check ns/call 20 (10..30) 30 (15..45) gcc -O2 1.50 5";
        assert_eq!(words(&table(&[call])), line);
    }
}
