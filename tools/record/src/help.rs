//! What `--help` prints, for the program and for each command.

pub const VERSION: &str = concat!("record ", env!("CARGO_PKG_VERSION"), "\n");

pub const ALL: &str = "\
Makes, shows, checks and verifies the records of the eight-antenna QR engine, solves for weights and
lists logs.

Usage:
  record pack IN.txt OUT.bin     makes a matrix record from a text of 8 by 8 complex numbers
  record show FILE               prints a matrix, result or refusal record
  record check MATRIX RESULT     shows the errors of a result against their limits, and the verdict
  record verify MATRIX RESULT    says yes or no: whether a result is right for a matrix
  record weights RESULT TARGETS  prints the weights that a result and eight targets give
  record log FILE                lists the entries of a log, and how long each stays
  record COMMAND --help          says more about a command
  record --version               prints the version

A file name '-' stands for standard input, and as OUT.bin for standard output. Behind '--' a file name
may begin with '-'.

Exit status: 0 when all is in order, 1 when a file is wrong, a verdict is not yes or the output could
not be written, 2 when the command line is wrong. Of verify: 0 for yes, 1 for no, 2 for neither.
";

pub const PACK: &str = "\
Usage: record pack IN.txt OUT.bin

Makes a matrix record of 257 bytes from a text of 8 lines of 8 complex numbers with blanks or commas
between them. Row r of the matrix is line r, column k belongs to antenna k. What follows a '#' is a
remark; empty lines are skipped, and a line that ends in '\\' goes on in the next one.

A number is a real part, an imaginary part that ends in i or j, or both: 12, -5i, -123+45i. It may
stand in brackets, and blanks then too: (1 + 2i). The parts of a file are of one kind; zero fits both:
  whole numbers       units of 1/32768, from -32768 to 32767, as in -123+45i
  decimal fractions   parts of one, from -1 to 32767/32768, with a point or an exponent, as in
                      0.5-0.25i or 5e-1-2.5e-1j; times 32768 they are rounded to the nearest whole
                      number, halves away from zero
A matrix with larger numbers has to be divided by one that brings all of them into this range.

Antenna k counts as heard when the real part of element (k, k) is above 16, in units of 1/32768. A
matrix in which none is heard is packed with a remark, since the engine refuses it.

OUT.bin is a new file or an existing one, which keeps its permissions. A link, a device or a folder is
refused, and so are a read-only file and IN.txt itself. For standard output give '-'.

When anything is wrong, OUT.bin is not written, and a file of that name stays as it was.
";

pub const SHOW: &str = "\
Usage: record show FILE

Prints a record readably. The kind byte says what it is:
  matrix record    the elements in units of 1/32768 and which antennas were heard. Antenna k was
                   heard when the real part of element (k, k) is above 16. A row has two lines.
                   'record pack' makes the same record of this text.
  result record    R in steps of the 16-bit input (word / 2^13) and Q in parts of one (word / 2^30),
                   16 by 16 each, eight columns beside each other; a word that is 0 is printed as a
                   bare 0.
  refusal record   the refusal number and what it means.

A matrix or result that the engine refuses is printed with the reason, and the exit status is 1.
";

pub const CHECK: &str = "\
Usage: record check MATRIX RESULT

Computes with exact whole numbers how far the result record RESULT is from factoring the matrix record
MATRIX, and shows each figure against its limit:
  every entry of Q times R       within 2^44 of 2^43 times the entry of the input made real, 16 by 16
  every two rows of Q            their sum of products within 2^44 of 2^60 (a row with itself) or of 0
  every two columns of R         their sum of products within 2^44 of 2^26 times that of the input's
  R                              0 under the diagonal, its first 15 diagonal words not negative

The figures are the tool's own, in which nothing is proved. The last line is the verdict of the proved
call, hubqr_verify: yes when Q times R and the rows of Q are within their limits, otherwise no. The
columns of R do not count for a yes; those of the engine's own results are within their limit too.
Where R breaks its rule the engine refuses the result, which is neither yes nor no.

A matrix in which no antenna was heard has no result, since the engine refuses it.

Exit status: 0 for yes, 1 for no, when the engine refuses a record or when a file is no such record.
";

pub const VERIFY: &str = "\
Usage: record verify MATRIX RESULT

Says yes when the result record RESULT, whoever wrote it, is right for the matrix record MATRIX: when
every entry of Q times R and every two rows of Q are within their limits, as 'record check --help' has
them. Otherwise it says no. The verdict is that of the proved call, hubqr_verify; 'record check' shows
the figures as well.

A record that the engine refuses gets neither a yes nor a no, and the reason is printed. The matrix is
tested first, then the result.

Exit status: 0 for yes, 1 for no, 2 for neither: when the engine refuses a record, a file cannot be
read, the output cannot be written or the command line is wrong.
";

pub const WEIGHTS: &str = "\
Usage: record weights RESULT TARGETS

Prints the weights of the eight antennas that the result record RESULT and eight targets give. They
solve R times w = Q transposed times the targets, the real parts first and then the imaginary parts;
so the matrix that was factored, times w, gives the targets. A weight of 1 is one.

TARGETS is a text of eight complex numbers with blanks, commas or line ends between them, that of row
k of the matrix at place k. They are written as 'record pack --help' says: whole numbers in units of
1/32768, or decimal fractions. What follows a '#' is a remark.

Line k has the target of row k in units of 1/32768, and of the weight of antenna k the real and the
imaginary part, the magnitude, and the phase in degrees. Parts and magnitudes are 64-bit floats,
printed in nine significant digits; a zero keeps its sign, and a weight that is 0 has no phase.

What is printed is not proved: it comes from the independent implementation in reference/. The proved
call, hubqr_weights, is tested to give the same bits.

A record that the engine refuses has no weights: the reason is printed, and the exit status is 1.
";

pub const LOG: &str = "\
Usage: record log FILE

Lists the entries of a log, one a line. FILE holds the used bytes of the log and nothing behind them,
where what was swept may still stand. The entries are those that the proved call reads,
hubqr_log_next; the dates are the tool's own.

Of each entry:
  place       where it begins in FILE, from 0 on
  day         the date that it was added with, in the Gregorian calendar
  swept from  the first day on which a sweep takes it out: 7 days later for a result, 30 for a refusal
              and 90 for a heard byte; never, where that day has no number of 32 bits
  entry       which antennas a heard byte names; a refusal number and what it means; of a result,
              whether the engine reads it

The last line has the number of entries and the bytes that they take. What a log holds was stored
untested: a result that the engine refuses is listed with the reason, and the log is in order.

Where a file is no log, the entries before the first place at which none stands are listed. The place
and the reason are printed, and the exit status is 1. A file longer than 16 MiB is not listed.
";
