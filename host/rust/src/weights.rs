//! Result record and targets in, weights out.
use crate::calls::accepted;
use crate::ffi::{self, Sample, Snapshot, Weight};
use crate::refusal::Refusal;
use crate::ANTENNAS;

/// Works out the weights of the antennas from a result record and eight targets, that of row k of
/// the matrix at place k. The weight at place k is that of antenna k.
///
/// They solve A w = t, where A is the 8 by 8 complex matrix that was factored, t the targets, both
/// read as Q1.15, and w the weights, in which 1.0 is one.
///
/// Each bit of them is that of one rule. A vector is worked as 16 real numbers, its eight real parts
/// and then its eight imaginary parts. From row 15 up, row i begins with the sum of word (i, j) of Q
/// transposed times part j of the targets over all j, which is exact, divided by 131,072. For j from
/// i + 1 up to 15, word (i, j) of R times part j of the weights is taken off. What is left, divided
/// by word (i, i) of R, is part i of the weights. R's words enter as floats, unscaled. Each operation
/// is rounded to the nearest by itself, and none is fused with another. The call assumes that the
/// rounding and the handling of subnormal numbers are as every Rust program begins with them.
///
/// No part is a NaN or infinite: each is at most 2^786 in magnitude. A part can be -0.0: the imaginary
/// one of weight 7 is, when diagonal word 15 of R is negative and the sum of row 15 is 0.
///
/// How near the weights are to the exact solution is not promised, since that depends on the matrix.
/// A diagonal word of R that is small beside the others says that the matrix is nearly singular; the
/// weights then get large.
///
/// Refuses, in this order, with [`Refusal::WrongKind`], [`Refusal::WrongLength`],
/// [`Refusal::NotTriangular`], [`Refusal::ZeroDiagonal`].
///
/// ```
/// use hubqr::{Sample, ANTENNAS};
///
/// let mut record = [0; hubqr::MATRIX_RECORD_BYTES];
/// record[0] = hubqr::KIND_MATRIX;
/// for k in 0..ANTENNAS {
///     record[1 + 36 * k] = 0x40; // element (k, k) is 16384, one half
/// }
/// let mut area = [0; hubqr::AREA_WORDS];
/// let mut result = [0; hubqr::RESULT_RECORD_BYTES];
/// hubqr::whole(&record, &mut area, &mut result)?;
///
/// let mut targets = [Sample::default(); ANTENNAS];
/// targets[3] = Sample { re: 8192, im: -4096 }; // 0.25 - 0.125i
/// let weights = hubqr::weights(&result, targets)?;
/// assert!((weights[3].re - 0.5).abs() < 0.0001);
/// assert!((weights[3].im + 0.25).abs() < 0.0001);
/// # Ok::<(), hubqr::Refusal>(())
/// ```
pub fn weights(record: &[u8], targets: [Sample; ANTENNAS]) -> Result<[Weight; ANTENNAS], Refusal> {
    let targets = Snapshot { samples: targets };
    // SAFETY: the slice's pointer and length describe memory that may be read, and the archive reads
    // no other, writes none and keeps no pointer.
    let reply = unsafe { ffi::hubqr_weights(record.as_ptr(), record.len(), targets) };
    accepted(reply.number)?;
    Ok(reply.weights)
}
