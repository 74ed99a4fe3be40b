//! `docs/BENCHMARKS.md`.

use std::fmt::Write;
use std::fs;
use std::time::{SystemTime, UNIX_EPOCH};

use crate::cases::{Kind, STRETCHES};
use crate::measure::{ROUNDS, Timed};
use crate::peers::PEERS;
use crate::{others, quick};

/// Everything that was measured.
#[derive(Debug, Default)]
pub struct Measured {
    /// Quick asks.
    pub quick: Vec<quick::Row>,
    /// Instructions of a contestant's quick asks on a column.
    pub instructions: Vec<(Kind, Vec<[f64; 3]>)>,
    /// The names of those whose instructions were counted.
    pub counted: Vec<&'static str>,
    /// The other entry points.
    pub others: Vec<others::Row>,
}

/// The page.
pub fn page(measured: &Measured) -> String {
    let mut page = String::new();
    write_page(&mut page, measured).expect("a string takes all");
    page
}

fn write_page(page: &mut String, measured: &Measured) -> std::fmt::Result {
    writeln!(page, "# Benchmarks\n")?;
    writeln!(
        page,
        "Written by `bin/bench` on {}: {}.\n",
        today(),
        machine()
    )?;
    writeln!(
        page,
        "*Proved* is the archive that `bin/archive` writes, called through its C functions. *Rust* is the best that we \
         could write in safe Rust for the same bytes and numbers (`bench/src/rival`), with nothing proved; it goes through \
         the same trials, and here every answer is compared before a time is taken. All contestants take turns in one \
         process, {ROUNDS} rounds of 10,000 asks; times are the least of the rounds, with the median in brackets. Both are \
         compiled for the machine's plain instruction set.\n"
    )?;
    if PEERS.is_empty() {
        writeln!(
            page,
            "sdsl is not installed here, so its structures are left out.\n"
        )?;
    } else {
        writeln!(
            page,
            "*sdsl* is libsdsl's `rmq_succinct_sct` and `rmq_succinct_sada`, compiled with the flags that it sets itself \
             (`-O3 -msse4.2`). They check nothing, and the places that they are asked about must be right.\n"
        )?;
    }
    writeln!(page, "![Quick asks, ns an ask](benchmarks.svg)\n")?;
    write_quick(page, &measured.quick)?;
    write_instructions(page, measured)?;
    write_others(page, &measured.others)
}

fn heads(
    page: &mut String,
    first: &[&str],
    rest: impl IntoIterator<Item = impl AsRef<str>>,
) -> std::fmt::Result {
    let rest: Vec<_> = rest.into_iter().collect();
    let rest = rest.iter().map(AsRef::as_ref);
    let heads: Vec<&str> = first.iter().copied().chain(rest).collect();
    writeln!(page, "| {} |", heads.join(" | "))?;
    let rule = |&head: &&str| if first.contains(&head) { "---" } else { "---:" };
    let rules: Vec<&str> = heads.iter().map(rule).collect();
    writeln!(page, "|{}|", rules.join("|"))
}

fn cell(timed: &Timed) -> String {
    let digits = if timed.least < 10.0 {
        2
    } else {
        usize::from(timed.least < 100.0)
    };
    format!("{:.digits$} ({:.digits$})", timed.least, timed.median)
}

/// The times, and the proved code's ratio to the rival behind these two.
fn cells(times: &[Timed]) -> Vec<String> {
    let mut cells: Vec<String> = times.iter().map(cell).collect();
    cells.insert(2, format!("{:.2}", times[0].least / times[1].least));
    cells
}

fn write_quick(page: &mut String, rows: &[quick::Row]) -> std::fmt::Result {
    writeln!(page, "## Quick ask, ns an ask\n")?;
    let peers = PEERS.iter().map(|&(name, _)| name);
    let names = ["proved", "Rust", "proved / Rust"].into_iter().chain(peers);
    heads(page, &["column", "stretch"], names)?;
    for row in rows {
        let (name, stretch) = (row.kind.name(), row.stretch);
        writeln!(
            page,
            "| {name} | {stretch} | {} |",
            cells(&row.times).join(" | ")
        )?;
    }
    let ratios = rows
        .iter()
        .map(|row| row.times[0].least / row.times[1].least);
    let (count, product) = ratios.fold((0, 1.0), |(count, product), ratio| {
        (count + 1, product * ratio)
    });
    let mean = f64::powf(product, 1.0 / f64::from(count));
    writeln!(
        page,
        "\nThe geometric mean of proved / Rust is {mean:.2}.\n"
    )?;
    writeln!(
        page,
        "The last three columns are worst cases: small entries with a falling run behind each, every ask beginning just \
         before a run, so that 4,095 openings stand between two of its closings; a falling column with noise; and 0, n, \
         n-1, .., where half of the asks begin at entry 0.\n"
    )
}

fn write_instructions(page: &mut String, measured: &Measured) -> std::fmt::Result {
    writeln!(page, "## Instructions a quick ask\n")?;
    if measured.instructions.is_empty() {
        return writeln!(
            page,
            "valgrind is not installed here, so nothing was counted.\n"
        );
    }
    writeln!(
        page,
        "By cachegrind, for stretches of {} / {} / {} entries: a run with 2,000 asks less the same run without them.\n",
        STRETCHES[0], STRETCHES[1], STRETCHES[2]
    )?;
    heads(page, &["column"], &measured.counted)?;
    for (kind, contestants) in &measured.instructions {
        let cells: Vec<String> = contestants
            .iter()
            .map(|each| format!("{:.0} / {:.0} / {:.0}", each[0], each[1], each[2]))
            .collect();
        writeln!(page, "| {} | {} |", kind.name(), cells.join(" | "))?;
    }
    writeln!(page)
}

fn write_others(page: &mut String, rows: &[others::Row]) -> std::fmt::Result {
    writeln!(page, "## The other entry points\n")?;
    let peers = PEERS.iter().map(|&(name, _)| name);
    let names = ["proved", "Rust", "proved / Rust"].into_iter().chain(peers);
    heads(page, &["what", "unit"], names)?;
    for row in rows {
        let mut cells = cells(&row.times);
        cells.resize(3 + PEERS.len(), "-".into());
        writeln!(
            page,
            "| {} | {} | {} |",
            row.what,
            row.unit,
            cells.join(" | ")
        )?;
    }
    Ok(())
}

/// The machine and what compiled the Rust.
fn machine() -> String {
    let read = |path: &str| fs::read_to_string(path).unwrap_or_default();
    let info = read("/proc/cpuinfo");
    let model = info
        .lines()
        .find_map(|line| line.strip_prefix("model name"));
    let model = model.map(|rest| rest.trim_start_matches([' ', '\t', ':']));
    let cores = std::thread::available_parallelism().map_or(1, usize::from);
    let load = read("/proc/loadavg");
    format!(
        "{}, {}, {cores} cores, load {}; {}",
        model.unwrap_or("a processor without a name"),
        std::env::consts::ARCH,
        load.split(' ').next().unwrap_or("?"),
        env!("RUSTC_VERSION")
    )
}

/// The date, by the count of days since 1970-01-01.
fn today() -> String {
    let since = SystemTime::now().duration_since(UNIX_EPOCH);
    let days = since.map_or(0, |since| since.as_secs() / 86_400);
    let (year, month, day) = date(days);
    format!("{year}-{month:02}-{day:02}")
}

fn date(mut days: u64) -> (u64, usize, u64) {
    let leap =
        |year: u64| year.is_multiple_of(4) && !year.is_multiple_of(100) || year.is_multiple_of(400);
    let mut year = 1970;
    while days >= 365 + u64::from(leap(year)) {
        days -= 365 + u64::from(leap(year));
        year += 1;
    }
    let february = 28 + u64::from(leap(year));
    let months = [31, february, 31, 30, 31, 30, 31, 31, 30, 31, 30, 31];
    let mut month = 0;
    while days >= months[month] {
        days -= months[month];
        month += 1;
    }
    (year, month + 1, days + 1)
}

#[cfg(test)]
mod tests {
    #[test]
    fn dates() {
        assert_eq!(super::date(0), (1970, 1, 1));
        assert_eq!(super::date(11_016), (2000, 2, 29));
        assert_eq!(super::date(20_772), (2026, 11, 15));
    }
}
