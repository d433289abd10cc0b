//! The matrix that the job of each sector was loaded from, so that every result that is fetched in
//! step is held to it.

use reference::area::WorkArea;
use reference::desk::SECTORS;
use reference::records::{parse_result, RESULT_RECORD};

use crate::common::worked::Loaded;

/// What a load left: it was that of a matrix handed in, or one that a Fetch brought in.
pub struct Source {
    record: Vec<u8>,
    /// The area that the load filled.
    area: usize,
    brought_in: bool,
    /// While this sector has written nowhere else since, and no other one has written there.
    in_step: bool,
    /// The result, once it was fetched.
    result: Option<Vec<u8>>,
}

/// What a Fetch in step came to.
#[derive(Debug, Clone, Copy, PartialEq, Eq)]
pub enum Fetched {
    /// The first one of a matrix that was loaded at once, or brought in.
    First { brought_in: bool },
    /// The same result another time.
    Again,
}

impl Source {
    pub fn new(record: &[u8], area: usize, brought_in: bool) -> Self {
        Source {
            record: record.to_vec(),
            area,
            brought_in,
            in_step: true,
            result: None,
        }
    }

    /// The matrix of the record, where Load accepts it. A host may have made up any other.
    pub fn matrix(&self) -> Option<Loaded> {
        Loaded::accepted(&self.record)
    }

    /// Compares bytes that were fetched with what the engine's Whole makes of the record, and
    /// afterwards with what was fetched first. None where they differ.
    fn fetch(&mut self, bytes: &[u8]) -> Option<Fetched> {
        if let Some(result) = &self.result {
            return (result == bytes).then_some(Fetched::Again);
        }
        self.result = Some(bytes.to_vec());
        let brought_in = self.brought_in;
        (bytes == whole(&self.record)).then_some(Fetched::First { brought_in })
    }
}

/// The result record that the engine's Whole writes.
pub(super) fn whole(record: &[u8]) -> [u8; RESULT_RECORD] {
    let (mut area, mut result) = ([0; hubqr::AREA_WORDS], [0; RESULT_RECORD]);
    let whole = hubqr::whole(record, &mut area, &mut result);
    whole.expect("the record was accepted");
    result
}

/// R and Q as a result record has them.
pub fn work_area(result: &[u8]) -> WorkArea {
    parse_result(result).expect("the result was accepted")
}

/// Those of all sectors, from a new desk on.
#[derive(Default)]
pub struct Sources([Option<Source>; SECTORS]);

impl Sources {
    /// A sector's call has written to an area, or somebody else has.
    pub fn write(&mut self, sector: Option<usize>, area: usize) {
        for (k, source) in self.0.iter_mut().enumerate() {
            if let Some(source) = source {
                source.in_step &= (Some(k) == sector) == (source.area == area);
            }
        }
    }

    /// A sector's call has loaded it.
    pub fn load(&mut self, sector: usize, source: Source) {
        self.0[sector] = Some(source);
    }

    /// The source of a sector whose calls since were in step, if this is the area that it filled.
    fn in_step(&mut self, sector: usize, area: usize) -> Option<&mut Source> {
        let source = self.0[sector].as_mut();
        source.filter(|source| source.in_step && source.area == area)
    }

    /// Whether the area of a sector holds what its calls have made of its matrix.
    pub fn is_in_step(&mut self, sector: usize, area: usize) -> bool {
        self.in_step(sector, area).is_some()
    }

    /// Holds what a sector fetched from an area to its matrix: none where it is not in step, and an
    /// error where it fetched something else.
    pub fn fetch(
        &mut self,
        sector: usize,
        area: usize,
        bytes: &[u8],
    ) -> Option<Result<(Fetched, Loaded), &'static str>> {
        let source = self.in_step(sector, area)?;
        let matrix = source.matrix()?;
        let fetched = source.fetch(bytes);
        let otherwise = "another result than that of the matrix that was loaded";
        Some(fetched.map(|fetched| (fetched, matrix)).ok_or(otherwise))
    }
}
