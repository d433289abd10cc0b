//! Matrix record and result record in, yes or no out.
use crate::calls::accepted;
use crate::ffi;
use crate::refusal::Refusal;

/// Says whether a result record is right for a matrix record, whoever wrote it: `true` is yes, and
/// `false` is no. A hub can so check each result before it is used, its own ones too: a call takes less
/// time than a [`whole`](crate::whole) that makes all 120 turns. Where most turns are clear, `whole` can
/// be the quicker one.
///
/// It is yes exactly if, for all i and j from 0 to 15,
///
/// - entry (i, j) of Q times R, the sum of Q(i, k) times R(k, j) over all k, is 2^43 times entry
///   (i, j) of the input made real, within 2^44, which is two steps of the 16-bit input;
/// - the sum of products of rows i and j of Q, of Q(i, k) times Q(j, k) over all k, is 2^60 where i is
///   j, and 0 where it is not, within 2^44.
///
/// Off by 2^44 is within it, above and below, and off by one more is not. The sums are exact whole
/// numbers, whatever the words are: those that 64 bits do not hold are right as well.
///
/// What `whole` writes for a matrix gets yes with that matrix. So does what [`fetch`](crate::fetch)
/// writes once a loaded matrix was worked to the end with the jobs that were answered, and each result
/// that [`Desk::fetch`](crate::Desk::fetch) writes with the bounds that [`Desk`](crate::Desk) gives it,
/// with the matrix that the sector's job was loaded from.
///
/// R is then upper triangular and its first fifteen diagonal words are not negative, since other
/// records are refused. Beyond that a yes says nothing:
///
/// - not that R without Q has the lengths and angles of the input's columns within 2^44, as it has in
///   the results of this engine;
/// - not that the record is the one that this engine writes, bit for bit: others get yes as well, and
///   one record may get yes with several matrices, whose parts differ by a few steps;
/// - not that the matrix is what the antennas heard.
///
/// Refuses, in this order, with [`Refusal::WrongKind`], [`Refusal::WrongLength`],
/// [`Refusal::NoneHeard`] for the matrix record, and then with [`Refusal::WrongKind`],
/// [`Refusal::WrongLength`], [`Refusal::NotTriangular`] for the result record. An `Err` is neither yes
/// nor no. Those for kind and length do not tell which of the two records they are for.
///
/// ```
/// let matrix = [1; hubqr::MATRIX_RECORD_BYTES]; // kind byte 1, each part 257
/// let mut area = [0; hubqr::AREA_WORDS];
/// let mut result = [0; hubqr::RESULT_RECORD_BYTES];
/// hubqr::whole(&matrix, &mut area, &mut result)?;
/// assert_eq!(hubqr::verify(&matrix, &result), Ok(true));
///
/// let mut other = matrix;
/// other[1] = 2; // the real part of element (0, 0) is 513
/// assert_eq!(hubqr::verify(&other, &result), Ok(false));
///
/// result[1] = 0xff; // the first word of R is negative
/// let neither = hubqr::verify(&matrix, &result);
/// assert_eq!(neither, Err(hubqr::Refusal::NotTriangular));
/// # Ok::<(), hubqr::Refusal>(())
/// ```
pub fn verify(matrix: &[u8], result: &[u8]) -> Result<bool, Refusal> {
    // SAFETY: each slice's pointer and length describe memory that may be read, and the archive reads
    // no other, writes none and keeps no pointer.
    let verdict =
        unsafe { ffi::hubqr_verify(matrix.as_ptr(), matrix.len(), result.as_ptr(), result.len()) };
    accepted(verdict.number)?;
    Ok(verdict.yes == 1)
}
