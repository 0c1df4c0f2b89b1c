//! baseline [FILE]: prints the bench's lines on a plan file, in plain Rust, to measure the bench against.
//!
//! It does the same work in the same way: one sweep to check, another to find what is missing where the check does not
//! pass, and the survey by next comings. Every number of the plan is asked of the timetable, entry by entry.

use std::env;
use std::error::Error;
use std::fmt;
use std::fs;
use std::io::{self, Read, Write};
use std::process::ExitCode;

const LONGEST_FILE: usize = 32_768;
const MOST_DELAY: u16 = 1_024;
const MOST_PAGES: u16 = 1_024;
const MOST_CHANNELS: u8 = 8;
const MOST_ROWS: usize = 1_024;
const MOST_NODES: usize = 2_048;
const MOST_CLOSURES: usize = 64;
const MOST_SUBCHANNELS: u8 = 32;
const LONGEST_PERIOD: u32 = 65_536;
const LONGEST_SURVEY: u32 = 4_096;

// ---- faults and lines -----------------------------------------------------------------------------------------------

/// Why a file holds no plan that can be sent: a number, the byte where the record at fault begins, and the lower number of
/// a fault of the plan or of a closure.
#[derive(Clone, Copy, Debug, PartialEq, Eq)]
struct Fault {
    number: u8,
    byte: usize,
    lower: Option<u8>,
}

impl Fault {
    fn reading(number: u8, byte: usize) -> Fault {
        Fault { number, byte, lower: None }
    }

    fn loading(byte: usize, lower: u8) -> Fault {
        Fault { number: 45, byte, lower: Some(lower) }
    }
}

/// The number of a planner's refusal.
#[derive(Clone, Copy, Debug, PartialEq, Eq)]
enum Refusal {
    OutOfRange = 1,
    Subchannels = 2,
    TooManyPages = 3,
    PeriodTooLong = 4,
    Node = 7,
}

/// A plan's refusal stands at byte 0.
impl From<Refusal> for Fault {
    fn from(refusal: Refusal) -> Fault {
        Fault::loading(0, refusal as u8)
    }
}

#[derive(Clone, Copy, Debug, PartialEq, Eq)]
enum Line {
    Film(Film),
    Period(u32),
    Check(Verdict),
    Miss(Finding),
    Stock(u32, u32),
    StockLong,
    Wait(u16),
    Fault(Fault),
}

impl fmt::Display for Line {
    fn fmt(&self, f: &mut fmt::Formatter<'_>) -> fmt::Result {
        match self {
            Line::Film(film) => write!(f, "FILM {} {} {}", film.delay, film.pages, film.channels),
            Line::Period(period) => write!(f, "PERIOD {period}"),
            Line::Check(Verdict::Pass) => write!(f, "CHECK PASS"),
            Line::Check(Verdict::Stray { slot, channel, page }) => write!(f, "CHECK STRAY {slot} {channel} {page}"),
            Line::Check(Verdict::Starved(found)) => write!(f, "CHECK STARVED {} {}", found.page, found.slot),
            Line::Miss(found) => write!(f, "MISS {} {}", found.page, found.slot),
            Line::Stock(peak, slot) => write!(f, "STOCK {peak} {slot}"),
            Line::StockLong => write!(f, "STOCK LONG"),
            Line::Wait(delay) => write!(f, "WAIT {delay}"),
            Line::Fault(Fault { number, byte, lower: None }) => write!(f, "FAULT {number} {byte}"),
            Line::Fault(Fault { number, byte, lower: Some(lower) }) => write!(f, "FAULT {number} {byte} {lower}"),
        }
    }
}

// ---- records --------------------------------------------------------------------------------------------------------

#[derive(Clone, Copy, Debug, PartialEq, Eq)]
struct Film {
    delay: u16,
    pages: u16,
    channels: u8,
}

#[derive(Clone, Copy, Debug, PartialEq, Eq)]
struct Row {
    page: u16,
    channel: u8,
    start: u32,
    period: u32,
}

#[derive(Clone, Copy, Debug, PartialEq, Eq)]
enum Node {
    Leaf { page: u16 },
    Inner { first: u16, degree: u16 },
}

#[derive(Clone, Copy, Debug, PartialEq, Eq)]
struct Closure {
    channel: u8,
    slot: u32,
}

#[derive(Clone, Copy, Debug, PartialEq, Eq)]
enum Record {
    End,
    Film(Film),
    Channel(u8),
    Row(Row),
    Node(Node),
    Closure(Closure),
}

/// Takes numbers off the front of a record's body, the highest byte first.
struct Body<'a>(&'a [u8]);

impl Body<'_> {
    /// The next `size` bytes as a number, or `None` where the file ends first.
    fn number(&mut self, size: usize) -> Option<u32> {
        let taken = self.0.get(..size)?;
        self.0 = self.0.get(size..)?;
        Some(taken.iter().fold(0, |sum, byte| sum << 8 | u32::from(*byte)))
    }

    fn byte(&mut self) -> Option<u8> {
        self.number(1).map(|number| number as u8)
    }

    fn short(&mut self) -> Option<u16> {
        self.number(2).map(|number| number as u16)
    }

    fn long(&mut self) -> Option<u32> {
        self.number(4)
    }
}

/// The body of a record of a known kind, or `None` where it is cut short.
fn body(kind: u8, body: &mut Body<'_>) -> Option<Record> {
    Some(match kind {
        1 => Record::Film(Film { delay: body.short()?, pages: body.short()?, channels: body.byte()? }),
        2 => Record::Channel(body.byte()?),
        3 => Record::Row(Row {
            page: body.short()?,
            channel: body.byte()?,
            start: body.long()?,
            period: body.long()?,
        }),
        4 => Record::Node(Node::Leaf { page: body.short()? }),
        5 => Record::Node(Node::Inner { first: body.short()?, degree: body.short()? }),
        6 => Record::Closure(Closure { channel: body.byte()?, slot: body.long()? }),
        _ => Record::End,
    })
}

/// The record that begins at a byte, and the byte after it.
fn record(bytes: &[u8], at: usize) -> Result<(Record, usize), Fault> {
    let rest = bytes.get(at..).unwrap_or(&[]);
    let (kind, rest) = rest.split_first().ok_or(Fault::reading(41, at))?;
    if *kind > 6 {
        return Err(Fault::reading(42, at));
    }
    let mut left = Body(rest);
    let read = body(*kind, &mut left).ok_or(Fault::reading(41, at))?;
    Ok((read, bytes.len() - left.0.len()))
}

// ---- the plan file --------------------------------------------------------------------------------------------------

#[derive(Debug)]
enum Parts {
    Pagoda(Vec<u8>),
    Rows(Vec<Row>),
    Tree(Vec<Node>),
}

/// A closure with the byte where its record begins.
#[derive(Clone, Copy, Debug)]
struct Placed {
    byte: usize,
    closure: Closure,
}

#[derive(Debug)]
struct Plan {
    film: Film,
    parts: Parts,
    closures: Vec<Placed>,
}

/// Adds one record more, unless there are `most` of them.
fn push<T>(list: &mut Vec<T>, item: T, most: usize) -> Option<()> {
    if list.len() < most {
        list.push(item);
        Some(())
    } else {
        None
    }
}

/// What has been read so far.
#[derive(Default)]
struct Reading {
    film: Option<Film>,
    parts: Option<Parts>,
    closures: Vec<Placed>,
}

impl Reading {
    /// Takes a record in, or answers `None` where it is out of place or one too many.
    fn take(&mut self, byte: usize, record: Record) -> Option<()> {
        if let Record::Film(film) = record {
            return if self.film.replace(film).is_none() { Some(()) } else { None };
        }
        self.film?;
        match record {
            Record::Closure(closure) if self.parts.is_some() => {
                push(&mut self.closures, Placed { byte, closure }, MOST_CLOSURES)
            }
            Record::End if self.parts.is_some() => Some(()),
            Record::Channel(_) | Record::Row(_) | Record::Node(_) if self.closures.is_empty() => self.part(record),
            _ => None,
        }
    }

    fn part(&mut self, record: Record) -> Option<()> {
        match (record, &mut self.parts) {
            (Record::Channel(count), parts @ None) => *parts = Some(Parts::Pagoda(vec![count])),
            (Record::Row(row), parts @ None) => *parts = Some(Parts::Rows(vec![row])),
            (Record::Node(node), parts @ None) => *parts = Some(Parts::Tree(vec![node])),
            (Record::Channel(count), Some(Parts::Pagoda(counts))) => push(counts, count, usize::from(MOST_CHANNELS))?,
            (Record::Row(row), Some(Parts::Rows(rows))) => push(rows, row, MOST_ROWS)?,
            (Record::Node(node), Some(Parts::Tree(nodes))) => push(nodes, node, MOST_NODES)?,
            _ => return None,
        }
        Some(())
    }
}

fn read_plan(bytes: &[u8]) -> Result<Plan, Fault> {
    if bytes.len() > LONGEST_FILE {
        return Err(Fault::reading(46, 0));
    }
    let mut reading = Reading::default();
    let mut at = 0;
    loop {
        let (record, after) = record(bytes, at)?;
        reading.take(at, record).ok_or(Fault::reading(43, at))?;
        if record == Record::End {
            if after < bytes.len() {
                return Err(Fault::reading(44, after));
            }
            let Reading { film, parts, closures } = reading;
            return match (film, parts) {
                (Some(film), Some(parts)) => Ok(Plan { film, parts, closures }),
                _ => Err(Fault::reading(43, at)),
            };
        }
        at = after;
    }
}

// ---- timetables -----------------------------------------------------------------------------------------------------

/// The pages of a pagoda's subchannel: the first, and how many.
#[derive(Clone, Copy, Debug)]
struct Share {
    first: u16,
    pages: u16,
}

#[derive(Debug)]
enum Timetable {
    Pagoda { channels: Vec<Vec<Share>>, period: u32 },
    Rows { rows: Vec<Row>, channels: u8, period: u32 },
    Tree { nodes: Vec<Node>, channels: u8, period: u32 },
}

impl Timetable {
    fn channels(&self) -> u8 {
        match self {
            Timetable::Pagoda { channels, .. } => channels.len() as u8,
            Timetable::Rows { channels, .. } | Timetable::Tree { channels, .. } => *channels,
        }
    }

    fn period(&self) -> u32 {
        match self {
            Timetable::Pagoda { period, .. } | Timetable::Rows { period, .. } | Timetable::Tree { period, .. } => *period,
        }
    }

    /// The number that a channel carries in a slot, 0 being silence.
    fn page_at(&self, channel: u8, slot: u32) -> u16 {
        if self.period() == 0 || channel == 0 || channel > self.channels() {
            return 0;
        }
        let turn = slot % self.period();
        match self {
            Timetable::Pagoda { channels, .. } => pagoda_page(&channels[usize::from(channel) - 1], turn),
            Timetable::Rows { rows, .. } => lowest_page(rows, channel, turn).unwrap_or(0),
            Timetable::Tree { nodes, .. } => tree_page(nodes, usize::from(channel) - 1, turn),
        }
    }
}

fn pagoda_page(shares: &[Share], slot: u32) -> u16 {
    let count = shares.len() as u32;
    let share = shares[(slot % count) as usize];
    share.first + (slot / count % u32::from(share.pages)) as u16
}

/// The lowest page among the rows that fit. The channel is compared before anything is divided.
fn lowest_page(rows: &[Row], channel: u8, slot: u32) -> Option<u16> {
    let mut lowest: Option<u16> = None;
    for row in rows {
        if row.channel == channel && row.period != 0 && slot % row.period == row.start {
            lowest = Some(lowest.map_or(row.page, |page| page.min(row.page)));
        }
    }
    lowest
}

fn tree_page(nodes: &[Node], root: usize, slot: u32) -> u16 {
    let (mut at, mut turn) = (root, slot);
    loop {
        match nodes.get(at) {
            Some(Node::Leaf { page }) => return *page,
            Some(Node::Inner { first, degree }) if *degree != 0 && usize::from(*first) > at => {
                let degree = u32::from(*degree);
                at = usize::from(*first) + (turn % degree) as usize;
                turn /= degree;
            }
            _ => return 0,
        }
    }
}

// ---- planners -------------------------------------------------------------------------------------------------------

fn gcd(a: u32, b: u32) -> u32 {
    if b == 0 {
        a
    } else {
        gcd(b, a % b)
    }
}

/// The least common multiple, or `None` past the longest period.
fn joined(period: Option<u32>, other: u32) -> Option<u32> {
    let period = period?;
    if other == 0 {
        return None;
    }
    let multiple = (period / gcd(period, other)).checked_mul(other)?;
    Some(multiple).filter(|multiple| *multiple <= LONGEST_PERIOD)
}

fn plan_pagoda(film: Film, counts: &[u8]) -> Result<Timetable, Refusal> {
    if counts.len() != usize::from(film.channels) {
        return Err(Refusal::OutOfRange);
    }
    let mut first = 1;
    let mut period = Some(1);
    let mut channels = Vec::with_capacity(counts.len());
    for count in counts {
        if *count == 0 || *count > MOST_SUBCHANNELS || u16::from(*count) > film.delay + first - 1 {
            return Err(Refusal::Subchannels);
        }
        let mut shares = Vec::with_capacity(usize::from(*count));
        for _ in 0..*count {
            let pages = (film.delay + first - 1) / u16::from(*count);
            shares.push(Share { first, pages });
            period = joined(period, u32::from(*count) * u32::from(pages));
            first += pages;
            if first - 1 > MOST_PAGES {
                return Err(Refusal::TooManyPages);
            }
        }
        channels.push(shares);
    }
    let period = period.ok_or(Refusal::PeriodTooLong)?;
    if first - 1 != film.pages {
        return Err(Refusal::OutOfRange);
    }
    Ok(Timetable::Pagoda { channels, period })
}

fn rows_period(rows: &[Row]) -> Result<u32, Refusal> {
    rows.iter().fold(Some(1), |period, row| joined(period, row.period)).ok_or(Refusal::PeriodTooLong)
}

fn tree_period(nodes: &[Node], channels: u8) -> Result<u32, Refusal> {
    if usize::from(channels) > nodes.len() {
        return Err(Refusal::OutOfRange);
    }
    for (at, node) in nodes.iter().enumerate() {
        if let Node::Inner { first, degree } = node {
            let (first, degree) = (usize::from(*first), usize::from(*degree));
            if degree == 0 || first <= at || first + degree > nodes.len() {
                return Err(Refusal::Node);
            }
        }
    }
    let mut periods = vec![1; nodes.len()];
    for (at, node) in nodes.iter().enumerate().rev() {
        if let Node::Inner { first, degree } = node {
            let (first, last) = (usize::from(*first), usize::from(*first) + usize::from(*degree));
            let below = periods[first..last].iter().fold(Some(1), |period, child| joined(period, *child));
            periods[at] = below
                .and_then(|below| below.checked_mul(u32::from(*degree)))
                .filter(|period| *period <= LONGEST_PERIOD)
                .ok_or(Refusal::PeriodTooLong)?;
        }
    }
    let roots = &periods[..usize::from(channels)];
    roots.iter().fold(Some(1), |period, root| joined(period, *root)).ok_or(Refusal::PeriodTooLong)
}

fn plan_timetable(film: Film, parts: Parts) -> Result<Timetable, Refusal> {
    let in_range = (1..=MOST_DELAY).contains(&film.delay)
        && (1..=MOST_PAGES).contains(&film.pages)
        && (1..=MOST_CHANNELS).contains(&film.channels);
    if !in_range {
        return Err(Refusal::OutOfRange);
    }
    let channels = film.channels;
    match parts {
        Parts::Pagoda(counts) => plan_pagoda(film, &counts),
        Parts::Rows(rows) => {
            let period = rows_period(&rows)?;
            Ok(Timetable::Rows { rows, channels, period })
        }
        Parts::Tree(nodes) => {
            let period = tree_period(&nodes, channels)?;
            Ok(Timetable::Tree { nodes, channels, period })
        }
    }
}

// ---- the station ----------------------------------------------------------------------------------------------------

#[derive(Clone, Copy, Debug, PartialEq, Eq)]
struct Finding {
    page: u16,
    slot: u32,
}

#[derive(Clone, Copy, Debug, PartialEq, Eq)]
enum Verdict {
    Pass,
    Stray { slot: u32, channel: u8, page: u16 },
    Starved(Finding),
}

/// A page on the way of a sweep: the tune-in slot that still waits for it, and the first that starves.
#[derive(Clone, Copy, Debug)]
struct Watch {
    waiting: u32,
    starving: Option<u32>,
}

#[derive(Debug)]
struct Station {
    film: Film,
    timetable: Timetable,
    closures: Vec<Closure>,
}

impl Station {
    fn load(bytes: &[u8]) -> Result<Station, Fault> {
        let plan = read_plan(bytes)?;
        let timetable = plan_timetable(plan.film, plan.parts)?;
        let mut station = Station { film: plan.film, timetable, closures: Vec::with_capacity(MOST_CLOSURES) };
        for placed in plan.closures {
            station.close(placed.closure).map_err(|lower| Fault::loading(placed.byte, lower))?;
        }
        Ok(station)
    }

    fn close(&mut self, closure: Closure) -> Result<(), u8> {
        let Closure { channel, slot } = closure;
        if channel == 0 || channel > self.timetable.channels() || slot >= self.timetable.period() {
            return Err(19);
        }
        if self.is_closed(channel, slot) {
            return Err(20);
        }
        push(&mut self.closures, closure, MOST_CLOSURES).ok_or(21)
    }

    fn is_closed(&self, channel: u8, slot: u32) -> bool {
        self.closures.iter().any(|closure| closure.channel == channel && closure.slot == slot)
    }

    /// What is sent: the timetable's number, but silence where the entry is closed.
    fn sent(&self, channel: u8, slot: u32) -> u16 {
        if self.is_closed(channel, slot % self.timetable.period()) {
            0
        } else {
            self.timetable.page_at(channel, slot)
        }
    }

    fn window(&self, page: u16) -> u32 {
        u32::from(self.film.delay) + u32::from(page) - 1
    }

    /// The slots that some tune-in of the first period may need.
    fn slots(&self) -> u32 {
        self.timetable.period() + self.window(self.film.pages) - 1
    }

    /// Notes that a page comes, or would come at the earliest, in a slot.
    fn settle(&self, watch: &mut Watch, page: u16, slot: u32) {
        let starves = watch.waiting < self.timetable.period() && slot - watch.waiting >= self.window(page);
        if watch.starving.is_none() && starves {
            watch.starving = Some(watch.waiting);
        }
        watch.waiting = slot + 1;
    }

    /// The pages that starve after a sweep, in order; those never sent again are settled at its end.
    fn starving<'a>(&'a self, watches: &'a mut [Watch]) -> impl Iterator<Item = Finding> + 'a {
        let end = self.slots();
        (1..).zip(watches.iter_mut()).filter_map(move |(page, watch)| {
            if watch.waiting < end {
                self.settle(watch, page, end);
            }
            watch.starving.map(|slot| Finding { page, slot })
        })
    }

    fn watches(&self) -> Vec<Watch> {
        vec![Watch { waiting: 0, starving: None }; usize::from(self.film.pages)]
    }

    /// One sweep over the slots, channel by channel, that ends at the first stray number.
    fn check(&self) -> Verdict {
        let mut watches = self.watches();
        for slot in 0..self.slots() {
            for channel in 1..=self.timetable.channels() {
                let page = self.sent(channel, slot);
                if page > self.film.pages {
                    return Verdict::Stray { slot, channel, page };
                }
                if page != 0 {
                    self.settle_once(&mut watches, page, slot);
                }
            }
        }
        let first = self.starving(&mut watches).next();
        first.map_or(Verdict::Pass, Verdict::Starved)
    }

    /// A page that has come already in this slot waits from the next.
    fn settle_once(&self, watches: &mut [Watch], page: u16, slot: u32) {
        let watch = &mut watches[usize::from(page) - 1];
        if watch.waiting <= slot {
            self.settle(watch, page, slot);
        }
    }

    /// Every page that starves with its first starving slot; stray numbers are passed over.
    fn findings(&self) -> Vec<Finding> {
        let mut watches = self.watches();
        for slot in 0..self.slots() {
            for channel in 1..=self.timetable.channels() {
                let page = self.sent(channel, slot);
                if (1..=self.film.pages).contains(&page) {
                    self.settle_once(&mut watches, page, slot);
                }
            }
        }
        self.starving(&mut watches).collect()
    }

    /// The greatest stock of any receiver, and the first tune-in slot that reaches it, for a plan that passes. The slots
    /// are taken downward, so that the next coming of a page is the last one noted.
    fn survey(&self) -> Option<(u32, u32)> {
        let pages = usize::from(self.film.pages);
        let mut next = vec![0; pages];
        let mut arrivals = vec![0; pages];
        let mut best: Option<(u32, u32)> = None;
        for slot in (0..self.slots()).rev() {
            for channel in 1..=self.timetable.channels() {
                let page = self.sent(channel, slot);
                if (1..=self.film.pages).contains(&page) {
                    next[usize::from(page) - 1] = slot;
                }
            }
            if slot < self.timetable.period() {
                let peak = self.peak(slot, &next, &mut arrivals);
                if best.map_or(true, |(highest, _)| peak >= highest) {
                    best = Some((peak, slot));
                }
            }
        }
        best
    }

    /// The greatest stock of the receiver tuned in at a slot. Before the film starts the stock only grows, so the count
    /// begins in the last slot before it; from the slot after the start on, one page a slot has gone.
    fn peak(&self, tune_in: u32, next: &[u32], arrivals: &mut [u32]) -> u32 {
        let last_hear = tune_in + u32::from(self.film.delay) - 1;
        for coming in next {
            arrivals[coming.saturating_sub(last_hear) as usize] += 1;
        }
        let (mut peak, mut heard) = (0, 0);
        for (shows, arriving) in (0u32..).zip(arrivals.iter_mut()) {
            heard += *arriving;
            *arriving = 0;
            peak = peak.max(heard - shows.saturating_sub(1));
        }
        peak
    }
}

// ---- the report -----------------------------------------------------------------------------------------------------

fn plan_lines(bytes: &[u8]) -> Result<Vec<Line>, Fault> {
    let station = Station::load(bytes)?;
    let verdict = station.check();
    let mut lines =
        vec![Line::Film(station.film), Line::Period(station.timetable.period()), Line::Check(verdict)];
    if verdict != Verdict::Pass {
        lines.extend(station.findings().into_iter().map(Line::Miss));
    } else if station.timetable.period() > LONGEST_SURVEY {
        lines.push(Line::StockLong);
    } else if let Some((peak, slot)) = station.survey() {
        lines.push(Line::Stock(peak, slot));
    }
    lines.push(Line::Wait(station.film.delay));
    Ok(lines)
}

fn input() -> Result<Vec<u8>, Box<dyn Error>> {
    let mut arguments = env::args_os().skip(1);
    match (arguments.next(), arguments.next()) {
        (None, _) => {
            let mut bytes = Vec::new();
            io::stdin().lock().read_to_end(&mut bytes)?;
            Ok(bytes)
        }
        (Some(path), None) => fs::read(&path).map_err(|e| format!("{}: {e}", path.to_string_lossy()).into()),
        (Some(_), Some(_)) => Err("usage: baseline [FILE]".into()),
    }
}

fn run() -> Result<(), Box<dyn Error>> {
    let lines = plan_lines(&input()?).unwrap_or_else(|fault| vec![Line::Fault(fault)]);
    let mut out = io::BufWriter::new(io::stdout().lock());
    for line in &lines {
        writeln!(out, "{line}")?;
    }
    out.flush()?;
    Ok(())
}

fn main() -> ExitCode {
    match run() {
        Ok(()) => ExitCode::SUCCESS,
        Err(e) => {
            eprintln!("{e}");
            ExitCode::FAILURE
        }
    }
}
