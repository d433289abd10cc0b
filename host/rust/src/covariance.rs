//! Snapshots in, matrix out.
use crate::calls::accepted;
use crate::ffi::{self, Sample, Snapshot, Sums};
use crate::refusal::Refusal;
use crate::{ANTENNAS, SUM_WORDS};

/// Adds up snapshots, what the eight antennas heard from instant to instant, and writes the matrix
/// record that [`load`](crate::load) and [`whole`](crate::whole) take.
///
/// Element (i, j) of the matrix is the sum of sample i times the conjugate of sample j, divided by
/// 65,536 times the count of snapshots. The real and the imaginary part are worked each by itself:
/// divided, rounded toward zero, and clamped at 32,767 from above alone; -32,768 can stand. With
/// samples and elements both read as Q1.15, an element is half the mean of the products. For
/// snapshots added up from none, element (j, i) is the conjugate of element (i, j).
///
/// `load` and `whole` count antenna k as heard when the real part of element (k, k) is above
/// [`HEARD_ABOVE`](crate::HEARD_ABOVE), 16. For snapshots added up from none, that is when the mean
/// of x^2 + y^2 over its samples x + y i is at least 17 * 65,536 = 1,114,112, a root mean square
/// magnitude of 1,055.5 or about 30 dB under 32,768: an antenna is heard with samples of magnitude
/// 1,056, and not with samples of magnitude 1,055. A record in which all antennas are quieter is
/// written all the same; `load` and `whole` refuse it with [`Refusal::NoneHeard`].
///
/// A refused call changes neither the sums nor the buffer.
///
/// ```
/// use hubqr::{Covariance, Sample, ANTENNAS};
///
/// // Antennas 2 and 5 hear the same wave, a quarter of it apart.
/// let mut snapshot = [Sample::default(); ANTENNAS];
/// snapshot[2] = Sample { re: 16384, im: 0 };
/// snapshot[5] = Sample { re: 0, im: 16384 };
/// let mut covariance = Covariance::new();
/// for _ in 0..100 {
///     covariance.add(snapshot)?;
/// }
/// let mut record = [0; hubqr::MATRIX_RECORD_BYTES];
/// covariance.write(&mut record)?;
///
/// let mut area = [0; hubqr::AREA_WORDS];
/// let mut result = [0; hubqr::RESULT_RECORD_BYTES];
/// let factored = hubqr::whole(&record, &mut area, &mut result)?;
/// assert_eq!(factored.heard, 0b0010_0100); // antennas 2 and 5 and no other
/// # Ok::<(), hubqr::Refusal>(())
/// ```
#[derive(Clone, Debug, PartialEq, Eq)]
pub struct Covariance {
    sums: Sums,
}

impl Covariance {
    /// No snapshot added.
    pub fn new() -> Covariance {
        // SAFETY: the call takes nothing.
        let sums = unsafe { ffi::hubqr_sums_none() };
        Covariance { sums }
    }

    /// Sums that were kept elsewhere, as [`count`](Covariance::count) and
    /// [`words`](Covariance::words) gave them. They are not tested here: the next call refuses what
    /// is out of range. Wrong sums within the range are not noticed.
    ///
    /// ```
    /// use hubqr::{Covariance, Refusal, Sample, ANTENNAS};
    ///
    /// let mut covariance = Covariance::new();
    /// covariance.add([Sample { re: 3, im: -4 }; ANTENNAS])?;
    /// let kept = Covariance::from_parts(covariance.count(), *covariance.words());
    /// assert_eq!(kept, covariance);
    ///
    /// let mut impossible = Covariance::from_parts(0, *covariance.words());
    /// let refused = impossible.add([Sample::default(); ANTENNAS]);
    /// assert_eq!(refused, Err(Refusal::SumsOutOfRange));
    /// # Ok::<(), hubqr::Refusal>(())
    /// ```
    pub fn from_parts(count: u32, words: [i64; SUM_WORDS]) -> Covariance {
        let sums = Sums { count, words };
        Covariance { sums }
    }

    /// Adds a snapshot: the sample of antenna k at place k.
    ///
    /// Refuses with [`Refusal::SumsOutOfRange`] when 4,096 snapshots have been added already, or
    /// when sums from [`from_parts`](Covariance::from_parts) have a count above that or a sum beyond
    /// 2^31 times the count, either way.
    pub fn add(&mut self, snapshot: [Sample; ANTENNAS]) -> Result<(), Refusal> {
        let snapshot = Snapshot { samples: snapshot };
        // SAFETY: the call takes and answers values alone.
        let reply = unsafe { ffi::hubqr_add_snapshot(snapshot, self.sums) };
        accepted(reply.number)?;
        self.sums = reply.sums;
        Ok(())
    }

    /// Writes the matrix record into the first 257 bytes of the buffer, and no other byte. The sums
    /// stay as they are, and adding may go on.
    ///
    /// Refuses, in this order, with [`Refusal::SumsOutOfRange`], which is only for sums from
    /// [`from_parts`](Covariance::from_parts), [`Refusal::NoneAdded`], [`Refusal::BufferTooShort`].
    pub fn write(&self, buffer: &mut [u8]) -> Result<(), Refusal> {
        // SAFETY: the slice's pointer and length describe memory that may be written, and the archive
        // writes to no other and keeps no pointer.
        let number =
            unsafe { ffi::hubqr_write_matrix(self.sums, buffer.as_mut_ptr(), buffer.len()) };
        accepted(number)
    }

    /// How many snapshots have been added.
    pub fn count(&self) -> u32 {
        self.sums.count
    }

    /// The sums: part q, 0 real and 1 imaginary, of the sum for element (i, j) is
    /// `words()[2 * (8 * i + j) + q]`, which is the order of the matrix record.
    ///
    /// ```
    /// # use hubqr::{Covariance, Sample, ANTENNAS};
    /// let mut snapshot = [Sample::default(); ANTENNAS];
    /// snapshot[0] = Sample { re: 1, im: 2 };
    /// snapshot[1] = Sample { re: 3, im: 4 };
    /// let mut covariance = Covariance::new();
    /// covariance.add(snapshot)?;
    /// assert_eq!(covariance.words()[2..4], [11, 2]); // (0, 1): 1 + 2i times 3 - 4i
    /// assert_eq!(covariance.words()[16..18], [11, -2]); // (1, 0)
    /// # Ok::<(), hubqr::Refusal>(())
    /// ```
    pub fn words(&self) -> &[i64; SUM_WORDS] {
        &self.sums.words
    }
}

/// No snapshot added.
impl Default for Covariance {
    fn default() -> Covariance {
        Covariance::new()
    }
}
