//! A plain server of one grid, written by hand over the standard library alone, to be measured beside `edr replay`.
//!
//! `plain_server FEED` reads the one line of the feed in the file FEED, and then serves standard input as one connection of
//! HTTP/1.1 to standard output, reply by reply with the bytes of `edr replay FEED`: heads are read by the same grammar and
//! refused for the same reasons, and so are targets of `/collections/C/position` and `/collections/C/instances/I/position`
//! with a POINT. Each reply is gathered in a buffer, handed over by one write, and flushed.
//!
//! `plain_server FEED PORT WORKERS` serves so many connections at once at a port of 127.0.0.1 in the same way, each worker one
//! connection at a time, without end: to be measured beside `edrd`.
//!
//! It has no other page, no other geometry and no levels, and reads no feed of another shape than the bench's.
use std::borrow::Cow;
use std::io::{self, Read, Write};
use std::net::TcpListener;

const HEAD_LIMIT: usize = 16_384;
const FIELD_LIMIT: usize = 64;
const REQUEST_LIMIT: u32 = 1000;
const CHUNK: usize = 4096;
const MOST_METRES: i64 = 100_000_000;
const FIRST_TIME: i64 = -62_167_219_200;
const LAST_TIME: i64 = 253_402_300_799;

/// Why a request gets no data: the number, the status and the name.
type Refusal = (u8, u16, &'static str);

const BAD_HEAD: Refusal = (1, 400, "BadHead");
const BODY_NOT_ALLOWED: Refusal = (2, 400, "BodyNotAllowed");
const BAD_HOST: Refusal = (3, 400, "BadHost");
const VERSION_NOT_OFFERED: Refusal = (4, 505, "VersionNotOffered");
const METHOD_NOT_OFFERED: Refusal = (5, 405, "MethodNotOffered");
const NO_SUCH_PAGE: Refusal = (6, 404, "NoSuchPage");
const UNKNOWN_PARAMETER: Refusal = (7, 400, "UnknownParameter");
const REPEATED_PARAMETER: Refusal = (8, 400, "RepeatedParameter");
const BAD_FORMAT: Refusal = (9, 400, "BadFormat");
const MISSING_PARAMETER: Refusal = (10, 400, "MissingParameter");
const BAD_COORDS: Refusal = (11, 400, "BadCoords");
const BAD_DATETIME: Refusal = (14, 400, "BadDatetime");
const BAD_LEVEL: Refusal = (15, 400, "BadLevel");
const UNKNOWN_COLLECTION: Refusal = (18, 404, "UnknownCollection");
const UNKNOWN_INSTANCE: Refusal = (19, 404, "UnknownInstance");
const UNKNOWN_PARAMETER_NAME: Refusal = (22, 400, "UnknownParameterName");
const BAD_CRS: Refusal = (23, 400, "BadCrs");
const NO_LEVELS: Refusal = (24, 400, "NoLevels");
const NO_SAMPLES: Refusal = (25, 404, "NoSamples");

// ---- the feed

/// The one grid of the feed. Texts are kept as they stand in JSON, between their quotes.
struct Grid {
    x: Vec<i64>,
    y: Vec<i64>,
    times: Vec<(i64, String)>,
    crs: String,
    parameter: String,
    lang: String,
    label: String,
    unit: String,
    samples: Vec<Option<i64>>,
}

/// The line of the feed, and how far it was read.
struct Line<'a> {
    bytes: &'a [u8],
    at: usize,
}

impl<'a> Line<'a> {
    fn expect(&mut self, text: &str) -> Option<()> {
        if !self.bytes[self.at..].starts_with(text.as_bytes()) {
            return None;
        }
        self.at += text.len();
        Some(())
    }

    fn whole(&mut self) -> Option<i64> {
        let negative = self.expect("-").is_some();
        let start = self.at;
        let mut number: i64 = 0;
        while let Some(digit @ b'0'..=b'9') = self.bytes.get(self.at) {
            number = number
                .checked_mul(10)?
                .checked_add(i64::from(digit - b'0'))?;
            self.at += 1;
        }
        (self.at > start).then_some(if negative { -number } else { number })
    }

    fn text(&mut self) -> Option<String> {
        self.expect("\"")?;
        let start = self.at;
        while *self.bytes.get(self.at)? != b'"' {
            self.at += if self.bytes[self.at] == b'\\' { 2 } else { 1 };
        }
        let text = String::from_utf8(self.bytes[start..self.at].to_vec()).ok()?;
        self.at += 1;
        Some(text)
    }

    /// What stands in a list, each read by the same function.
    fn list<T>(&mut self, read: impl Fn(&mut Line<'a>) -> Option<T>) -> Option<Vec<T>> {
        self.expect("[")?;
        let mut items = vec![read(self)?];
        while self.expect(",").is_some() {
            items.push(read(self)?);
        }
        self.expect("]")?;
        Some(items)
    }

    fn axis(&mut self) -> Option<Vec<i64>> {
        self.expect("{\"start\":")?;
        let start = self.whole()?;
        self.expect(",\"stop\":")?;
        let stop = self.whole()?;
        self.expect(",\"num\":")?;
        let count = self.whole()?;
        self.expect("}")?;
        let step = if count > 1 {
            (stop - start) / (count - 1)
        } else {
            0
        };
        Some((0..count).map(|place| start + place * step).collect())
    }

    fn sample(&mut self) -> Option<Option<i64>> {
        match self.expect("null") {
            Some(()) => Some(None),
            None => Some(Some(self.whole()?)),
        }
    }

    fn grid(&mut self) -> Option<Grid> {
        self.expect("{\"type\":\"Coverage\",\"domain\":{\"type\":\"Domain\",\"domainType\":\"Grid\",\"axes\":{\"x\":")?;
        let x = self.axis()?;
        self.expect(",\"y\":")?;
        let y = self.axis()?;
        self.expect(",\"t\":{\"values\":")?;
        let times = self.list(|line| {
            let text = line.text()?;
            Some((instant(text.as_bytes())?, text))
        })?;
        self.expect("}},\"referencing\":[{\"coordinates\":[\"x\",\"y\"],\"system\":{\"id\":")?;
        let crs = self.text()?;
        self.expect(",\"type\":\"ProjectedCRS\"}},{\"coordinates\":[\"t\"],\"system\":{\"calendar\":\"Gregorian\",\"type\":\"TemporalRS\"}}]},\"parameters\":{")?;
        let parameter = self.text()?;
        self.expect(":{\"type\":\"Parameter\",\"unit\":{\"symbol\":")?;
        let unit = self.text()?;
        self.expect("},\"observedProperty\":{\"label\":{")?;
        let lang = self.text()?;
        self.expect(":")?;
        let label = self.text()?;
        self.expect("}}}},\"ranges\":{")?;
        let ranged = self.text()?;
        self.expect(":{\"type\":\"NdArray\",\"dataType\":\"integer\",\"axisNames\":[\"t\",\"y\",\"x\"],\"shape\":")?;
        let shape = self.list(|line| line.whole())?;
        self.expect(",\"values\":")?;
        let samples = self.list(|line| line.sample())?;
        self.expect("}}}\n")?;
        let counts = [times.len(), y.len(), x.len()];
        let fits = ranged == parameter
            && shape.iter().map(|count| *count as usize).eq(counts)
            && samples.len() == counts.iter().product();
        fits.then_some(Grid {
            x,
            y,
            times,
            crs,
            parameter,
            lang,
            label,
            unit,
            samples,
        })
    }
}

// ---- numbers, times, positions

/// A text without what is passed over at its ends.
fn trim(text: &[u8], passed: impl Fn(u8) -> bool) -> &[u8] {
    let front = text.iter().take_while(|byte| passed(**byte)).count();
    let text = &text[front..];
    let behind = text.iter().rev().take_while(|byte| passed(**byte)).count();
    &text[..text.len() - behind]
}

/// Splits digits off the front of a text.
fn digits(text: &[u8]) -> (&[u8], &[u8]) {
    let count = text.iter().take_while(|byte| byte.is_ascii_digit()).count();
    text.split_at(count)
}

/// A whole number of a size within a limit.
fn whole(text: &[u8], limit: i64) -> Option<i64> {
    let (negative, text) = match text {
        [b'-', rest @ ..] => (true, rest),
        [b'+', rest @ ..] => (false, rest),
        _ => (false, text),
    };
    let (front, rest) = digits(text);
    let behind = match rest {
        [] => rest,
        [b'.', behind @ ..] => behind,
        _ => return None,
    };
    if (front.is_empty() && behind.is_empty()) || behind.iter().any(|byte| *byte != b'0') {
        return None;
    }
    let mut number: i64 = 0;
    for digit in front {
        number = (number * 10 + i64::from(digit - b'0')).min(limit + 1);
    }
    (number <= limit).then_some(if negative { -number } else { number })
}

/// Days since 1970-01-01 of a date of the Gregorian calendar.
fn days(year: i64, month: i64, day: i64) -> i64 {
    let year = if month <= 2 { year - 1 } else { year };
    let era = year.div_euclid(400);
    let of_era = year.rem_euclid(400);
    let of_year = (153 * ((month + 9) % 12) + 2) / 5 + day - 1;
    era * 146_097 + of_era * 365 + of_era / 4 - of_era / 100 + of_year - 719_468
}

fn days_in(year: i64, month: i64) -> i64 {
    match month {
        2 if year % 4 == 0 && (year % 100 != 0 || year % 400 == 0) => 29,
        2 => 28,
        4 | 6 | 9 | 11 => 30,
        _ => 31,
    }
}

/// A number of so many digits at a place of a text.
fn field(text: &[u8], at: usize, count: usize) -> Option<i64> {
    let (front, _) = digits(text.get(at..at + count)?);
    (front.len() == count).then(|| {
        front
            .iter()
            .fold(0, |number, digit| number * 10 + i64::from(digit - b'0'))
    })
}

/// Hours and minutes, in seconds.
fn clock(text: &[u8], at: usize) -> Option<i64> {
    let (hour, minute) = (field(text, at, 2)?, field(text, at + 3, 2)?);
    (text[at + 2] == b':' && hour < 24 && minute < 60).then_some(hour * 3600 + minute * 60)
}

/// The seconds since 1970-01-01T00:00:00Z of an instant.
fn instant(text: &[u8]) -> Option<i64> {
    let (year, month, day) = (field(text, 0, 4)?, field(text, 5, 2)?, field(text, 8, 2)?);
    if text[4] != b'-' || text[7] != b'-' || !text.get(10)?.eq_ignore_ascii_case(&b'T') {
        return None;
    }
    if !(1..=12).contains(&month) || day < 1 || day > days_in(year, month) {
        return None;
    }
    let mut time = days(year, month, day) * 86_400 + clock(text, 11)?;
    let mut zone = &text[16..];
    if let [b':', _, _, rest @ ..] = zone {
        let seconds = field(zone, 1, 2)?;
        if seconds >= 60 {
            return None;
        }
        time += seconds;
        zone = rest;
        if let [b'.', rest @ ..] = rest {
            let zeros = rest.iter().take_while(|byte| **byte == b'0').count();
            if zeros == 0 {
                return None;
            }
            zone = &rest[zeros..];
        }
    }
    match zone {
        [b'Z' | b'z'] => {}
        [b'+' | b' ', rest @ ..] if rest.len() == 5 => time -= clock(rest, 0)?,
        [b'-', rest @ ..] if rest.len() == 5 => time += clock(rest, 0)?,
        _ => return None,
    }
    (FIRST_TIME..=LAST_TIME).contains(&time).then_some(time)
}

/// The first and the last time that are asked for.
fn times(text: &[u8]) -> Option<(i64, i64)> {
    let Some(cut) = text.iter().position(|byte| *byte == b'/') else {
        let time = instant(text)?;
        return Some((time, time));
    };
    let side = |side: &[u8], open: i64| match side {
        b"" | b".." => Some(open),
        _ => instant(side),
    };
    let (first, last) = (
        side(&text[..cut], i64::MIN)?,
        side(&text[cut + 1..], i64::MAX)?,
    );
    (first <= last).then_some((first, last))
}

/// Whether a text is levels.
fn are_levels(text: &[u8]) -> bool {
    let level = |text: &[u8]| whole(trim(text, |byte| byte == b' '), MOST_METRES);
    let parts: Vec<&[u8]> = text.split(|byte| *byte == b'/').collect();
    match parts[..] {
        [one] => one
            .split(|byte| *byte == b',')
            .all(|part| level(part).is_some()),
        [low, high] => matches!((level(low), level(high)), (Some(low), Some(high)) if low <= high),
        [[b'R', count @ ..], low, step] => match (level(count), level(low), level(step)) {
            (Some(count), Some(low), Some(step)) => {
                count >= 1
                    && step >= 1
                    && (count - 1).saturating_mul(step).saturating_add(low) <= MOST_METRES
            }
            _ => false,
        },
        _ => false,
    }
}

/// The position of a POINT.
fn point(text: &[u8]) -> Option<(i64, i64)> {
    let blank = |byte: u8| matches!(byte, b' ' | b'\t' | b'\n' | b'\r');
    let (tag, rest) = trim(text, blank).split_at_checked(5)?;
    if !tag.eq_ignore_ascii_case(b"POINT") {
        return None;
    }
    let inside = trim(rest, blank).strip_prefix(b"(")?.strip_suffix(b")")?;
    let mut numbers = inside
        .split(|byte| blank(*byte))
        .filter(|part| !part.is_empty());
    let x = whole(numbers.next()?, MOST_METRES)?;
    let y = whole(numbers.next()?, MOST_METRES)?;
    numbers.next().is_none().then_some((x, y))
}

// ---- heads

/// A head of a request.
struct Head<'a> {
    method: &'a [u8],
    target: &'a [u8],
    minor: u8,
    hosts: usize,
    body: bool,
    close: bool,
}

/// What is at the front of some bytes: a head of so many bytes, the beginning of one, or none.
enum Front<'a> {
    Got(Head<'a>, usize),
    More,
    Bad,
}

fn is_token(byte: u8) -> bool {
    byte.is_ascii_alphanumeric() || b"!#$%&'*+-.^_`|~".contains(&byte)
}

/// The line at the front, without its end, and where the next one begins.
fn line(bytes: &[u8], at: usize) -> Option<(&[u8], usize)> {
    let end = at + bytes[at..].iter().position(|byte| *byte == b'\n')?;
    let line = &bytes[at..end];
    Some((line.strip_suffix(b"\r").unwrap_or(line), end + 1))
}

fn first_line(line: &[u8]) -> Option<Head<'_>> {
    let mut parts = line.splitn(3, |byte| *byte == b' ');
    let (method, target, version) = (parts.next()?, parts.next()?, parts.next()?);
    let minor = match version {
        b"HTTP/1.0" => 0,
        b"HTTP/1.1" => 1,
        _ => return None,
    };
    let fits = !method.is_empty()
        && method.iter().all(|byte| is_token(*byte))
        && !target.is_empty()
        && target.iter().all(|byte| *byte > 32 && *byte != 127)
        && std::str::from_utf8(target).is_ok();
    fits.then_some(Head {
        method,
        target,
        minor,
        hosts: 0,
        body: false,
        close: false,
    })
}

/// Takes a field into a head.
fn take_field(head: &mut Head<'_>, line: &[u8]) -> Option<()> {
    let cut = line.iter().position(|byte| *byte == b':')?;
    let (name, value) = (&line[..cut], &line[cut + 1..]);
    if name.is_empty()
        || !name.iter().all(|byte| is_token(*byte))
        || !value
            .iter()
            .all(|byte| *byte == b'\t' || (*byte >= 32 && *byte != 127))
    {
        return None;
    }
    let ows = |byte: u8| byte == b' ' || byte == b'\t';
    if name.eq_ignore_ascii_case(b"host") {
        head.hosts += 1;
    } else if name.eq_ignore_ascii_case(b"transfer-encoding") {
        head.body = true;
    } else if name.eq_ignore_ascii_case(b"content-length") {
        let value = trim(value, ows);
        head.body |= value.is_empty() || value.iter().any(|byte| *byte != b'0');
    } else if name.eq_ignore_ascii_case(b"connection") {
        head.close |= value
            .split(|byte| *byte == b',')
            .any(|part| trim(part, ows).eq_ignore_ascii_case(b"close"));
    }
    Some(())
}

/// Reads the head at the front of some bytes.
fn read_head(bytes: &[u8]) -> Front<'_> {
    let window = &bytes[..bytes.len().min(HEAD_LIMIT)];
    let unended = if bytes.len() < HEAD_LIMIT {
        Front::More
    } else {
        Front::Bad
    };
    let mut at = 0;
    let (first, mut at) = loop {
        match line(window, at) {
            Some(([], next)) => at = next,
            Some(found) => break found,
            None => return unended,
        }
    };
    let Some(mut head) = first_line(first) else {
        return Front::Bad;
    };
    for _ in 0..FIELD_LIMIT + 1 {
        match line(window, at) {
            Some(([], next)) => return Front::Got(head, next),
            Some((field, next)) => {
                if take_field(&mut head, field).is_none() {
                    return Front::Bad;
                }
                at = next;
            }
            None => return unended,
        }
    }
    Front::Bad
}

fn refusal_of(head: &Head<'_>) -> Option<Refusal> {
    if head.body {
        Some(BODY_NOT_ALLOWED)
    } else if head.hosts != 1 {
        Some(BAD_HOST)
    } else if head.minor != 1 {
        Some(VERSION_NOT_OFFERED)
    } else if head.method != b"GET" && head.method != b"HEAD" {
        Some(METHOD_NOT_OFFERED)
    } else {
        None
    }
}

// ---- targets

/// A query of positions.
struct Query<'a> {
    collection: Cow<'a, str>,
    instance: Option<Cow<'a, str>>,
    point: (i64, i64),
    times: Option<(i64, i64)>,
    levels: bool,
    names: Option<Cow<'a, str>>,
    crs: Option<Cow<'a, str>>,
}

fn hexadecimal(byte: u8) -> Option<u8> {
    (byte as char).to_digit(16).map(|digit| digit as u8)
}

/// The bytes of a text with `%` and two digits decoded, and `+` where it is a space.
fn decode(text: &[u8], plus: bool) -> Cow<'_, [u8]> {
    if !text
        .iter()
        .any(|byte| *byte == b'%' || (plus && *byte == b'+'))
    {
        return Cow::Borrowed(text);
    }
    let mut bytes = Vec::with_capacity(text.len());
    let mut rest = text;
    while let [first, behind @ ..] = rest {
        rest = behind;
        match (first, behind) {
            (b'%', [high, low, further @ ..]) => match (hexadecimal(*high), hexadecimal(*low)) {
                (Some(high), Some(low)) => {
                    bytes.push(high * 16 + low);
                    rest = further;
                }
                _ => bytes.push(b'%'),
            },
            (b'+', _) if plus => bytes.push(b' '),
            _ => bytes.push(*first),
        }
    }
    Cow::Owned(bytes)
}

/// A text of a form: what isn't UTF-8 is U+FFFD.
fn decode_form(text: &[u8]) -> Cow<'_, str> {
    match decode(text, true) {
        Cow::Borrowed(bytes) => String::from_utf8_lossy(bytes),
        Cow::Owned(bytes) => Cow::Owned(String::from_utf8_lossy(&bytes).into_owned()),
    }
}

/// A part of a path, which is UTF-8 and not empty.
fn decode_part(part: &[u8]) -> Option<Cow<'_, str>> {
    let text = match decode(part, false) {
        Cow::Borrowed(bytes) => Cow::Borrowed(std::str::from_utf8(bytes).ok()?),
        Cow::Owned(bytes) => Cow::Owned(String::from_utf8(bytes).ok()?),
    };
    (!text.is_empty()).then_some(text)
}

/// The collection and the instance whose positions a path names.
fn read_path(path: &[u8]) -> Option<(Cow<'_, str>, Option<Cow<'_, str>>)> {
    let path = path.strip_prefix(b"/")?;
    let path = path.strip_suffix(b"/").unwrap_or(path);
    let mut parts = path.split(|byte| *byte == b'/').map(decode_part);
    let mut next = || parts.next();
    if next()?? != "collections" {
        return None;
    }
    let collection = next()??;
    let mut instance = None;
    let mut page = next()??;
    if page == "instances" {
        instance = Some(next()??);
        page = next()??;
    }
    (page == "position" && next().is_none()).then_some((collection, instance))
}

/// Reads a target, or answers the refusal with the least number that applies.
fn read_target(target: &[u8]) -> Result<Query<'_>, Refusal> {
    let (path, text) = match target.iter().position(|byte| *byte == b'?') {
        Some(cut) => (&target[..cut], &target[cut + 1..]),
        None => (target, &target[target.len()..]),
    };
    let (collection, instance) = read_path(path).ok_or(NO_SUCH_PAGE)?;
    let [
        mut coords,
        mut datetime,
        mut z,
        mut names,
        mut crs,
        mut format,
    ] = [const { None }; 6];
    let mut repeated = false;
    for pair in text
        .split(|byte| *byte == b'&')
        .filter(|pair| !pair.is_empty())
    {
        let cut = pair
            .iter()
            .position(|byte| *byte == b'=')
            .unwrap_or(pair.len());
        let slot = match &*decode_form(&pair[..cut]) {
            "coords" => &mut coords,
            "datetime" => &mut datetime,
            "z" => &mut z,
            "parameter-name" => &mut names,
            "crs" => &mut crs,
            "f" => &mut format,
            _ => return Err(UNKNOWN_PARAMETER),
        };
        repeated |= slot.is_some();
        *slot = Some(decode_form(pair.get(cut + 1..).unwrap_or(b"")));
    }
    if repeated {
        return Err(REPEATED_PARAMETER);
    }
    if let Some(format) = format {
        let offered = ["CoverageJSON", "json", "application/prs.coverage+json"];
        if !offered
            .iter()
            .any(|name| name.eq_ignore_ascii_case(&format))
        {
            return Err(BAD_FORMAT);
        }
    }
    let coords = coords.ok_or(MISSING_PARAMETER)?;
    let point = point(coords.as_bytes()).ok_or(BAD_COORDS)?;
    let times = match datetime {
        Some(text) => Some(times(text.as_bytes()).ok_or(BAD_DATETIME)?),
        None => None,
    };
    if z.as_ref().is_some_and(|text| !are_levels(text.as_bytes())) {
        return Err(BAD_LEVEL);
    }
    Ok(Query {
        collection,
        instance,
        point,
        times,
        levels: z.is_some(),
        names,
        crs,
    })
}

// ---- selection

/// The places that are selected: the times from one place to another, the row and the column.
struct Selection {
    first: usize,
    end: usize,
    row: usize,
    column: usize,
}

/// The place of the nearest value of an axis, the lower of two, where the number lies within the axis.
fn nearest(axis: &[i64], number: i64) -> Option<usize> {
    if number < axis[0] || number > axis[axis.len() - 1] {
        return None;
    }
    let above = axis.partition_point(|value| *value < number);
    Some(
        if above > 0 && number - axis[above - 1] <= axis[above] - number {
            above - 1
        } else {
            above
        },
    )
}

/// Selects from the grid, or answers the refusal with the least number that applies.
fn select(grid: &Grid, query: &Query<'_>) -> Result<Selection, Refusal> {
    if query.collection != "grid" {
        return Err(UNKNOWN_COLLECTION);
    }
    if query
        .instance
        .as_ref()
        .is_some_and(|instance| instance != "1")
    {
        return Err(UNKNOWN_INSTANCE);
    }
    if query
        .names
        .as_ref()
        .is_some_and(|names| names.split(',').any(|name| name != grid.parameter))
    {
        return Err(UNKNOWN_PARAMETER_NAME);
    }
    if query.crs.as_ref().is_some_and(|crs| *crs != grid.crs) {
        return Err(BAD_CRS);
    }
    if query.levels {
        return Err(NO_LEVELS);
    }
    let (first, last) = query.times.unwrap_or((i64::MIN, i64::MAX));
    let end = grid.times.partition_point(|(time, _)| *time <= last);
    let first = grid.times.partition_point(|(time, _)| *time < first);
    match (
        nearest(&grid.x, query.point.0),
        nearest(&grid.y, query.point.1),
    ) {
        (Some(column), Some(row)) if first < end => Ok(Selection {
            first,
            end,
            row,
            column,
        }),
        _ => Err(NO_SAMPLES),
    }
}

// ---- replies

/// Writes what is selected as CoverageJSON.
fn write_document(body: &mut Vec<u8>, grid: &Grid, selection: &Selection) -> io::Result<()> {
    let Selection {
        first,
        end,
        row,
        column,
    } = *selection;
    let one = end - first == 1;
    body.extend_from_slice(b"{\"domain\":{\"axes\":{\"t\":{\"values\":[");
    for (number, (_, text)) in grid.times[first..end].iter().enumerate() {
        let comma = if number == 0 { "" } else { "," };
        write!(body, "{comma}\"{text}\"")?;
    }
    let (x, y) = (grid.x[column], grid.y[row]);
    let kind = if one { "Point" } else { "PointSeries" };
    write!(
        body,
        "]}},\"x\":{{\"values\":[{x}]}},\"y\":{{\"values\":[{y}]}}}},\"domainType\":\"{kind}\","
    )?;
    let crs = &grid.crs;
    write!(
        body,
        "\"referencing\":[{{\"coordinates\":[\"x\",\"y\"],\"system\":{{\"id\":\"{crs}\",\"type\":\"ProjectedCRS\"}}}},"
    )?;
    body.extend_from_slice(b"{\"coordinates\":[\"t\"],\"system\":{\"calendar\":\"Gregorian\",\"type\":\"TemporalRS\"}}],\"type\":\"Domain\"},");
    let Grid {
        parameter,
        lang,
        label,
        unit,
        ..
    } = grid;
    write!(
        body,
        "\"parameters\":{{\"{parameter}\":{{\"observedProperty\":{{\"label\":{{\"{lang}\":\"{label}\"}}}},"
    )?;
    write!(
        body,
        "\"type\":\"Parameter\",\"unit\":{{\"symbol\":\"{unit}\"}}}}}},\"ranges\":{{\"{parameter}\":{{"
    )?;
    if one {
        body.extend_from_slice(b"\"dataType\":\"integer\",\"type\":\"NdArray\",\"values\":[");
    } else {
        let count = end - first;
        write!(
            body,
            "\"axisNames\":[\"t\"],\"dataType\":\"integer\",\"shape\":[{count}],\"type\":\"NdArray\",\"values\":["
        )?;
    }
    for time in first..end {
        if time > first {
            body.push(b',');
        }
        match grid.samples[(time * grid.y.len() + row) * grid.x.len() + column] {
            Some(sample) => write!(body, "{sample}")?,
            None => body.extend_from_slice(b"null"),
        }
    }
    body.extend_from_slice(b"]}},\"type\":\"Coverage\"}");
    Ok(())
}

/// Writes the head of a reply.
fn write_head(
    reply: &mut Vec<u8>,
    status: u16,
    json: bool,
    edition: bool,
    close: bool,
) -> io::Result<()> {
    let phrase = match status {
        200 => "OK",
        400 => "Bad Request",
        404 => "Not Found",
        405 => "Method Not Allowed",
        _ => "HTTP Version Not Supported",
    };
    let kind = if json { "json" } else { "prs.coverage+json" };
    write!(
        reply,
        "HTTP/1.1 {status} {phrase}\r\nContent-Type: application/{kind}\r\n"
    )?;
    if edition {
        reply.extend_from_slice(b"X-Edr-Edition: 1\r\n");
    }
    if status == 405 {
        reply.extend_from_slice(b"Allow: GET, HEAD\r\n");
    }
    reply.extend_from_slice(b"Transfer-Encoding: chunked\r\n");
    if close {
        reply.extend_from_slice(b"Connection: close\r\n");
    }
    reply.extend_from_slice(b"\r\n");
    Ok(())
}

/// Writes a body in chunks.
fn write_chunks(reply: &mut Vec<u8>, body: &[u8]) -> io::Result<()> {
    for chunk in body.chunks(CHUNK) {
        write!(reply, "{:x}\r\n", chunk.len())?;
        reply.extend_from_slice(chunk);
        reply.extend_from_slice(b"\r\n");
    }
    reply.extend_from_slice(b"0\r\n\r\n");
    Ok(())
}

/// What a request is answered: the selected samples, or a refusal, and whether that is from the edition.
enum Answer {
    Data(Selection),
    Refused(Refusal, bool),
}

fn answer(grid: &Grid, head: &Head<'_>) -> Answer {
    if let Some(refusal) = refusal_of(head) {
        return Answer::Refused(refusal, false);
    }
    match read_target(head.target) {
        Ok(query) => match select(grid, &query) {
            Ok(selection) => Answer::Data(selection),
            Err(refusal) => Answer::Refused(refusal, true),
        },
        Err(refusal) => Answer::Refused(refusal, false),
    }
}

/// Writes a whole reply; `body` is room for its body.
fn write_reply(
    reply: &mut Vec<u8>,
    body: &mut Vec<u8>,
    grid: &Grid,
    answer: &Answer,
    is_head: bool,
    close: bool,
) -> io::Result<()> {
    body.clear();
    match answer {
        Answer::Data(selection) => {
            write_head(reply, 200, false, true, close)?;
            if !is_head {
                write_document(body, grid, selection)?;
            }
        }
        Answer::Refused((number, status, code), edition) => {
            write_head(reply, *status, true, *edition, close)?;
            if !is_head {
                write!(body, "{{\"code\":\"{code}\",\"number\":{number}}}")?;
            }
        }
    }
    if is_head {
        Ok(())
    } else {
        write_chunks(reply, body)
    }
}

/// Serves the requests of a connection.
fn serve(grid: &Grid, input: &mut impl Read, output: &mut impl Write) -> io::Result<()> {
    let mut held = vec![0; 2 * HEAD_LIMIT];
    let (mut start, mut end) = (0, 0);
    let (mut reply, mut body) = (Vec::new(), Vec::new());
    let mut turn = 1;
    let mut ended = false;
    loop {
        let (answer, is_head, close, used) = match read_head(&held[start..end]) {
            Front::Got(head, used) => {
                let answer = answer(grid, &head);
                let refused = matches!(answer, Answer::Refused((1..=4, _, _), _));
                let close = refused || head.close || turn == REQUEST_LIMIT;
                (answer, head.method == b"HEAD", close, used)
            }
            Front::More if !ended => {
                held.copy_within(start..end, 0);
                (start, end) = (0, end - start);
                let count = input.read(&mut held[end..])?;
                ended = count == 0;
                end += count;
                continue;
            }
            Front::More if start == end => return Ok(()),
            _ => (Answer::Refused(BAD_HEAD, false), false, true, 0),
        };
        start += used;
        reply.clear();
        write_reply(&mut reply, &mut body, grid, &answer, is_head, close)?;
        output.write_all(&reply)?;
        output.flush()?;
        if close {
            return Ok(());
        }
        turn += 1;
    }
}

/// Serves connections at a port, each worker one after another.
fn listen(grid: &Grid, port: u16, workers: usize) -> io::Result<()> {
    let listener = TcpListener::bind(("127.0.0.1", port))?;
    std::thread::scope(|scope| {
        for _ in 0..workers {
            scope.spawn(|| {
                loop {
                    let Ok((mut input, _)) = listener.accept() else {
                        return;
                    };
                    if input.set_nodelay(true).is_ok()
                        && let Ok(mut output) = input.try_clone()
                    {
                        // a fault is of that connection alone
                        let _ = serve(grid, &mut input, &mut output);
                    }
                }
            });
        }
    });
    Ok(())
}

fn main() -> io::Result<()> {
    let usage = "usage: plain_server FEED [PORT WORKERS]";
    let name = std::env::args_os().nth(1).expect(usage);
    let grid = {
        let bytes = std::fs::read(name)?;
        Line {
            bytes: &bytes,
            at: 0,
        }
        .grid()
        .expect("a feed of another shape")
    };
    let number = |place| -> Option<usize> { Some(std::env::args().nth(place)?.parse().expect(usage)) };
    if let (Some(port), Some(workers)) = (number(2), number(3)) {
        return listen(&grid, port as u16, workers);
    }
    serve(&grid, &mut io::stdin().lock(), &mut io::stdout().lock())
}
