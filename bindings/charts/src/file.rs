//! A file and its charts.

use crate::lists::{ChartTiming, Found, Reader, Written};
use crate::notes::{self, Note};
use crate::places::{Fault, Places};
use crate::tags::{self, Known, TIMING, Tag};
use marrighentu::{Chart, Format};
use std::fmt;
use std::ops::Range;

/// From this version on an .ssc chart may have timing of its own.
const SPLIT_TIMING: f32 = 0.7;

/// The version of a file that names none.
const VERSION: f32 = 0.83;

/// A file that was read: its tags and its charts.
///
/// Reading refuses nothing. What can't be read is told when it is asked for: one chart's bad list is no hindrance to the other charts.
#[derive(Clone)]
pub struct ChartFile {
    text: Vec<u8>,
    places: Places,
    format: Format,
    version: f32,
    tags: Vec<Tag>,
    header: Range<usize>,
    charts: Vec<Section>,
    warnings: Vec<Fault>,
}

/// A chart by its tags: all of an .ssc file's, the one of an .sm file's.
#[derive(Clone)]
struct Section {
    tags: Range<usize>,
    own: bool,
    /// In an .sm file the fields of its `#NOTES`.
    fields: Vec<Range<usize>>,
}

impl fmt::Debug for ChartFile {
    fn fmt(&self, f: &mut fmt::Formatter<'_>) -> fmt::Result {
        f.debug_struct("ChartFile")
            .field("format", &self.format)
            .field("version", &self.version)
            .field("charts", &self.charts.len())
            .field("warnings", &self.warnings)
            .finish_non_exhaustive()
    }
}

impl ChartFile {
    /// Reads a file whose format its text tells: .ssc where it has a `#VERSION` or a `#NOTEDATA`, else .sm.
    ///
    /// ```
    /// use marrighentu::Format;
    /// use marrighentu_charts::ChartFile;
    ///
    /// let file = ChartFile::read(br"#TITLE:a\;b\#c; # #KEYSOUNDS; #VERSION:; #BPMS:0=120;");
    /// assert_eq!((file.title(), file.format()), ("a;b#c".to_string(), Format::Ssc));
    /// assert_eq!(file.timing()?.chart().tempos, [(0.0, 120.0)]);
    /// # Ok::<(), Box<dyn std::error::Error>>(())
    /// ```
    #[must_use]
    pub fn read(bytes: &[u8]) -> ChartFile {
        ChartFile::scanned(None, bytes)
    }

    /// Reads a file of a format that is known, as by its name.
    ///
    /// ```
    /// use marrighentu::Format;
    /// use marrighentu_charts::ChartFile;
    ///
    /// // SM plays a negative stop as a warp, SSC leaves it out
    /// let warps = |format| {
    ///     let read = ChartFile::read_as(format, b"#BPMS:0=120;#STOPS:4=-1;").timing().expect("numbers");
    ///     read.assemble(0.0).expect("small numbers").warps().len()
    /// };
    /// assert_eq!((warps(Format::Sm), warps(Format::Ssc)), (1, 0));
    /// ```
    #[must_use]
    pub fn read_as(format: Format, bytes: &[u8]) -> ChartFile {
        ChartFile::scanned(Some(format), bytes)
    }

    fn scanned(format: Option<Format>, bytes: &[u8]) -> ChartFile {
        let mut text = bytes.to_vec();
        tags::blank_comments(&mut text);
        let places = Places::of(&text);
        let (tags, loose) = tags::scan(&text);
        let format = format.unwrap_or_else(|| {
            let ssc = tags.iter().any(|tag| tag.is(Known::Version) || tag.is(Known::NoteData));
            if ssc { Format::Ssc } else { Format::Sm }
        });
        let mut file = ChartFile {
            text,
            places,
            format,
            version: VERSION,
            header: 0..tags.len(),
            tags,
            charts: Vec::new(),
            warnings: Vec::new(),
        };
        match loose[..] {
            [] => {}
            [at] => file.warn(at, "this # begins no tag"),
            [at, ..] => file.warn(at, format!("this # begins no tag, and {} more", loose.len() - 1)),
        }
        file.find_charts();
        file.find_version();
        file.find_owners();
        file.tell_strange();
        file.warnings.sort_by_key(|fault| fault.place);
        file
    }

    fn warn(&mut self, at: usize, what: impl Into<String>) {
        let place = self.places.place(&self.text, at);
        self.warnings.push(Fault { place, what: what.into() });
    }

    /// A chart of an .ssc file begins at a `#NOTEDATA`, and one of an .sm file is a `#NOTES`.
    fn find_charts(&mut self) {
        let (text, tags) = (&self.text, &self.tags);
        let begins = |tag: &Tag| tag.is(Known::NoteData) || tag.is(Known::Notes);
        self.header = 0..tags.iter().position(begins).unwrap_or(tags.len());
        if self.format == Format::Sm {
            let notes = tags.iter().enumerate().filter(|(_, tag)| tag.is(Known::Notes));
            self.charts = notes
                .map(|(at, tag)| Section {
                    tags: at..at + 1,
                    own: false,
                    fields: tags::fields(text, tag.value.clone()),
                })
                .collect();
        } else {
            let starts: Vec<usize> = (0..tags.len()).filter(|at| tags[*at].is(Known::NoteData)).collect();
            let ends = starts.iter().skip(1).copied().chain([tags.len()]);
            self.charts = starts
                .iter()
                .zip(ends)
                .map(|(start, end)| Section { tags: *start..end, own: false, fields: Vec::new() })
                .collect();
        }
    }

    fn find_version(&mut self) {
        if self.format == Format::Sm {
            return;
        }
        let Some(tag) = self.last(self.header.clone(), Known::Version).cloned() else {
            return;
        };
        let said = tags::words(&self.text[tag.value.clone()]);
        match said.parse::<f32>() {
            Ok(version) if version.is_finite() => self.version = version,
            _ => self.warn(tag.at(), format!("no version can be read, {VERSION} is taken")),
        }
    }

    fn find_owners(&mut self) {
        if self.format == Format::Sm || self.version < SPLIT_TIMING {
            return;
        }
        for chart in &mut self.charts {
            chart.own = self.tags[chart.tags.clone()].iter().any(|tag| tag.timing().is_some());
        }
    }

    /// What is no fault and yet may not be what its author meant.
    fn tell_strange(&mut self) {
        let mut told: Vec<(usize, String)> = Vec::new();
        let no_tempo = |tags: Range<usize>| {
            let tag = self.last(tags, Known::Bpms);
            tag.is_none_or(|tag| self.text[tag.value.clone()].trim_ascii().is_empty())
        };
        let header_used = self.charts.is_empty() || self.charts.iter().any(|chart| !chart.own);
        if header_used && no_tempo(self.header.clone()) {
            told.push((0, "the file has no #BPMS: 60 beats a minute are taken".into()));
        }
        for (place, chart) in self.charts.iter().enumerate() {
            let at = self.tags[chart.tags.start].at();
            if chart.own && no_tempo(chart.tags.clone()) {
                told.push((
                    at,
                    format!("chart {} has timing of its own and no #BPMS: 60 beats a minute are taken", place + 1),
                ));
            }
            if self.format == Format::Sm && chart.fields.len() < 6 {
                told.push((at, format!("chart {}: six fields are wanted, found {}", place + 1, chart.fields.len())));
            }
        }
        for (place, tag) in self.tags.iter().enumerate() {
            if self.format == Format::Sm && tag.timing().is_some() && place >= self.header.end {
                told.push((tag.at(), "this timing tag stands behind a chart and is passed over".into()));
            }
            if place < self.header.end && tag.is(Known::Freezes) {
                told.push((tag.at(), "#FREEZES is passed over: stops are read from #STOPS".into()));
            }
        }
        let sections = std::iter::once(&self.header).chain(self.charts.iter().map(|chart| &chart.tags));
        for section in sections {
            let mut seen = [false; TIMING];
            for tag in &self.tags[section.clone()] {
                if let Some(place) = tag.timing() {
                    if seen[place] {
                        told.push((tag.at(), "this tag stands here again: the last one counts".into()));
                    }
                    seen[place] = true;
                }
            }
        }
        for (at, what) in told {
            self.warn(at, what);
        }
    }

    fn last(&self, tags: Range<usize>, known: Known) -> Option<&Tag> {
        self.tags[tags].iter().rev().find(|tag| tag.is(known))
    }

    fn named(&self, tags: Range<usize>, name: &str) -> Option<String> {
        let tag = self.tags[tags].iter().rev().find(|tag| tag.has_name(&self.text, name))?;
        Some(tags::words(&self.text[tag.value.clone()]))
    }

    /// The file's format.
    #[must_use]
    pub fn format(&self) -> Format {
        self.format
    }

    /// The version of an .ssc file; 0.83 where none can be read, and for .sm files.
    #[must_use]
    pub fn version(&self) -> f32 {
        self.version
    }

    /// The file's title, empty where it has none.
    #[must_use]
    pub fn title(&self) -> String {
        self.tag("TITLE").unwrap_or_default()
    }

    /// The value of a tag before the first chart, without the backslashes that hold characters. Its name may be in letters of either size.
    ///
    /// ```
    /// let file = marrighentu_charts::ChartFile::read(br"#Artist: A\:B ;");
    /// assert_eq!((file.tag("ARTIST"), file.tag("CREDIT")), (Some("A:B".to_string()), None));
    /// ```
    #[must_use]
    pub fn tag(&self, name: &str) -> Option<String> {
        self.named(self.header.clone(), name)
    }

    /// What is strange about the file and hinders nothing, in the order of the text: no `#BPMS`, a `#` that begins no tag, a tag that stands
    /// twice or in vain.
    ///
    /// ```
    /// use marrighentu_charts::ChartFile;
    ///
    /// let file = ChartFile::read(b"#TITLE:x;");
    /// assert_eq!(file.warnings()[0].to_string(), "1:1: the file has no #BPMS: 60 beats a minute are taken");
    /// ```
    #[must_use]
    pub fn warnings(&self) -> &[Fault] {
        &self.warnings
    }

    /// The charts in their order.
    pub fn charts(&self) -> impl ExactSizeIterator<Item = ChartText<'_>> {
        (0..self.charts.len()).map(|place| ChartText { file: self, number: place + 1 })
    }

    /// A chart by its number, counted from 1.
    ///
    /// ```
    /// let file = marrighentu_charts::ChartFile::read(b"#NOTEDATA:;#METER:3;#NOTEDATA:;#METER:9;");
    /// assert_eq!(file.chart(2).map(|chart| chart.meter()), Some("9".to_string()));
    /// assert!(file.chart(0).is_none() && file.chart(3).is_none());
    /// assert_eq!(file.charts().len(), 2);
    /// ```
    #[must_use]
    pub fn chart(&self, number: usize) -> Option<ChartText<'_>> {
        (1..=self.charts.len()).contains(&number).then_some(ChartText { file: self, number })
    }

    /// The whole file's timing, which charts without one of their own have.
    ///
    /// # Errors
    /// The first entry of a list, or offset, that can't be read.
    pub fn timing(&self) -> Result<ChartTiming, Fault> {
        strict(self.timing_passing_over())
    }

    /// The same, where what can't be read is passed over as rssp passes over it, and told beside.
    #[must_use]
    pub fn timing_passing_over(&self) -> (ChartTiming, Vec<Fault>) {
        self.resolved(self.header.clone(), false)
    }

    fn resolved(&self, tags: Range<usize>, own: bool) -> (ChartTiming, Vec<Fault>) {
        let mut reader = Reader::default();
        let mut chart = Chart::default();
        let mut written: [Vec<Written>; 7] = Default::default();
        let list = |reader: &mut Reader, known: Known| {
            self.last(tags.clone(), known).and_then(|tag| self.text_of(reader, tag.value.clone()))
        };
        if let Some((text, at)) = list(&mut reader, Known::Bpms) {
            (chart.tempos, written[0]) = self.laid(reader.tempos(text, at));
        }
        if let Some((text, at)) = list(&mut reader, Known::Stops) {
            (chart.stops, written[1]) = self.laid(reader.segments(text, at));
        }
        if let Some((text, at)) = list(&mut reader, Known::Delays) {
            (chart.delays, written[2]) = self.laid(reader.segments(text, at));
        }
        if let Some((text, at)) = list(&mut reader, Known::Warps) {
            (chart.warps, written[3]) = self.laid(reader.segments(text, at));
        }
        if let Some((text, at)) = list(&mut reader, Known::Speeds) {
            (chart.speeds, written[4]) = self.laid(reader.speeds(text, at));
        }
        if let Some((text, at)) = list(&mut reader, Known::Scrolls) {
            (chart.scrolls, written[5]) = self.laid(reader.segments(text, at));
        }
        if let Some((text, at)) = list(&mut reader, Known::Fakes) {
            (chart.fakes, written[6]) = self.laid(reader.fakes(text, at));
        }
        // a chart without an offset of its own has the file's
        let offset = self.last(tags.clone(), Known::Offset).or_else(|| self.last(self.header.clone(), Known::Offset));
        let offset_line = offset.map(|tag| self.places.line(tag.at()));
        let offset = offset
            .and_then(|tag| self.text_of(&mut reader, tag.value.clone()))
            .map_or(0.0, |(text, at)| reader.offset(text, at));
        let mut faults: Vec<Fault> = reader
            .faults
            .into_iter()
            .map(|(at, what)| Fault { place: self.places.place(&self.text, at), what })
            .collect();
        faults.sort_by_key(|fault| fault.place);
        (ChartTiming { format: self.format, chart, offset, own, written, offset_line }, faults)
    }

    /// A value as text. One that is no UTF-8 is passed over as a whole.
    fn text_of(&self, reader: &mut Reader, value: Range<usize>) -> Option<(&str, usize)> {
        match std::str::from_utf8(&self.text[value.clone()]) {
            Ok(text) => Some((text, value.start)),
            Err(why) => {
                let at = value.start + why.valid_up_to();
                reader.faults.push((at, "this tag's value is not UTF-8 from here on".into()));
                None
            }
        }
    }

    fn laid<T>(&self, found: Vec<Found<T>>) -> (Vec<T>, Vec<Written>) {
        let line = |at: usize| self.places.line(at);
        found.into_iter().map(|found| (found.entry, Written { number: found.number, line: line(found.at) })).unzip()
    }
}

fn strict((read, faults): (ChartTiming, Vec<Fault>)) -> Result<ChartTiming, Fault> {
    match faults.into_iter().next() {
        None => Ok(read),
        Some(fault) => Err(fault),
    }
}

/// One chart of a file.
///
/// ```
/// use marrighentu_charts::ChartFile;
///
/// let file = ChartFile::read(b"#VERSION:0.83;#OFFSET:1;#BPMS:0=120;\n#NOTEDATA:;#LABELS:0=a;\n#NOTEDATA:;#METER:9;");
/// let charts: Vec<_> = file.charts().collect();
/// assert_eq!((charts[0].number(), charts[0].line(), charts[1].line()), (1, 2, 3));
/// // a label is timing of its own, without a tempo; the offset is the file's
/// assert!(charts[0].has_own_timing() && !charts[1].has_own_timing());
/// assert_eq!((charts[0].timing()?.chart().tempos.len(), charts[0].timing()?.offset()), (0, 1.0));
/// assert_eq!(charts[1].timing()?.chart().tempos, [(0.0, 120.0)]);
/// # Ok::<(), marrighentu_charts::Fault>(())
/// ```
#[derive(Clone, Copy, Debug)]
pub struct ChartText<'file> {
    file: &'file ChartFile,
    number: usize,
}

impl ChartText<'_> {
    fn section(&self) -> &Section {
        &self.file.charts[self.number - 1]
    }

    /// Its number in the file, counted from 1.
    #[must_use]
    pub fn number(&self) -> usize {
        self.number
    }

    /// The line on which it begins.
    #[must_use]
    pub fn line(&self) -> usize {
        self.file.places.line(self.file.tags[self.section().tags.start].at())
    }

    /// A field of an .sm chart, or a tag of an .ssc chart.
    fn said(&self, field: usize, name: &str) -> String {
        let section = self.section();
        match self.file.format {
            Format::Sm => section.fields.get(field).map(|range| tags::words(&self.file.text[range.clone()])),
            Format::Ssc => self.file.named(section.tags.clone(), name),
        }
        .unwrap_or_default()
    }

    /// The game and its lanes, as `dance-single`; empty where it is not said, as for the three below.
    #[must_use]
    pub fn steps_type(&self) -> String {
        self.said(0, "STEPSTYPE")
    }

    /// Who made it, or what its author calls it.
    #[must_use]
    pub fn description(&self) -> String {
        self.said(1, "DESCRIPTION")
    }

    /// The difficulty's name, as `Challenge`.
    #[must_use]
    pub fn difficulty(&self) -> String {
        self.said(2, "DIFFICULTY")
    }

    /// The difficulty's number, as it is written.
    #[must_use]
    pub fn meter(&self) -> String {
        self.said(3, "METER")
    }

    /// Whether it has timing of its own: any of the twelve timing tags, in an .ssc file of version 0.7 or later. It may be empty.
    #[must_use]
    pub fn has_own_timing(&self) -> bool {
        self.section().own
    }

    /// Its timing: its own, or else the whole file's.
    ///
    /// # Errors
    /// The first entry of a list, or offset, that can't be read.
    pub fn timing(&self) -> Result<ChartTiming, Fault> {
        strict(self.timing_passing_over())
    }

    /// The same, where what can't be read is passed over as rssp passes over it, and told beside.
    ///
    /// ```
    /// use marrighentu_charts::ChartFile;
    ///
    /// let file = ChartFile::read(b"#BPMS:0=120,4=fast,8=90;#NOTES:dance-single::Easy:1::0000;");
    /// let (read, passed_over) = file.chart(1).expect("there is one").timing_passing_over();
    /// assert_eq!(read.chart().tempos, [(0.0, 120.0), (8.0, 90.0)]);
    /// assert_eq!(passed_over[0].to_string(), "1:15: a number is wanted, found \"fast\"");
    /// ```
    #[must_use]
    pub fn timing_passing_over(&self) -> (ChartTiming, Vec<Fault>) {
        if self.has_own_timing() {
            self.file.resolved(self.section().tags.clone(), true)
        } else {
            self.file.timing_passing_over()
        }
    }

    /// Its notes in the order of their rows, then lanes. A measure's lines are spread evenly over its 192 rows.
    ///
    /// # Errors
    /// The first character that is no note.
    pub fn notes(&self) -> Result<Vec<Note>, Fault> {
        let file = self.file;
        let value = match file.format {
            Format::Sm => self.section().fields.get(5).cloned(),
            Format::Ssc => file.last(self.section().tags.clone(), Known::Notes).map(|tag| tag.value.clone()),
        };
        let Some(value) = value else {
            return Ok(Vec::new());
        };
        notes::read(&file.text, value, |at| file.places.line(at))
            .map_err(|(at, what)| Fault { place: file.places.place(&file.text, at), what })
    }
}
