//! What the command says of itself.

pub const FLEECE: &str = "\
fleece: pictures of the bench to record files and back

  fleece code [-q QP] [--rows N] [--pad] [--cb-offset N] [--cr-offset N] IN OUT.fb [REBUILT]
  fleece decode [--luma] IN.fb OUT
  fleece info IN.fb
  fleece compare A B [DIFFERENCE]
  fleece sheet ORIGINAL.pgm REBUILT.pgm [MAP]
  fleece inspect IN.fb THEIRS.pgm
  fleece distance QP
  fleece version

fleece COMMAND --help says more about one of them.

Pictures are PGM (P5) and, in colour, PPM (P6), of 8 bits with the highest value 255. A file may be - for standard input or output.
Output files appear whole or not at all. Messages go to standard error, one line each.
Exit status: 0 done; 1 refused, also where compare finds a difference; 2 wrong use, or a file that cannot be read or written.
";

pub const CODE: &str = "\
fleece code [-q QP] [--rows N] [--pad] [--cb-offset N] [--cr-offset N] IN OUT.fb [REBUILT]

Codes the picture IN into the record file OUT.fb, and writes the picture that a decoder rebuilds of it to REBUILT.
IN is a PGM, which is coded as a luma plane, or a PPM, which is coded in colour (4:2:0). REBUILT is of the same kind.
Width and height are multiples of 16, from 16 to 2048; another size is refused.

  -q QP           the quantizer, 0 (fine) to 51 (coarse); 28 if it is not given
  --rows N        cuts the picture into slices of N rows of macroblocks (16 rows of samples each)
  --pad           repeats the last column and the last row up to a multiple of 16, and says how often; the file does not keep the old size
  --cb-offset N   the quantizer of Cb is that of QP + N, -12 to 12; 0 if it is not given
  --cr-offset N   the same of Cr

Colour is converted in whole numbers by BT.601, full range. R, G, B are a sample's for Y, and sums over 2x2 samples for Cb and Cr:
  Y  = (19595 R + 38470 G + 7471 B + 2^15) >> 16
  Cb = 128 + ((-11058 R - 21710 G + 32768 B + 2^17) >> 18), at most 255
  Cr = 128 + (( 32768 R - 27439 G -  5329 B + 2^17) >> 18), at most 255
fleece decode --help has the way back, by which REBUILT is made.
";

pub const DECODE: &str = "\
fleece decode [--luma] IN.fb OUT

Decodes the record file IN.fb to the picture OUT: a PGM of a mono file, a PPM of a colour file.

  --luma   a PGM of luma alone, also of a colour file

Colour is converted in whole numbers by BT.601, full range. The four samples of a square of 2x2 have the same u = Cb - 128 and v = Cr - 128,
and each of R, G, B is clipped to 0 to 255:
  R = Y + ((  91881 v           + 2^15) >> 16)
  G = Y + (( -22554 u - 46802 v + 2^15) >> 16)
  B = Y + (( 116130 u           + 2^15) >> 16)
";

pub const INFO: &str = "\
fleece info IN.fb

Says of a record file that the decoder accepts: size, slices, planes, length, records of each kind, QPs, chroma offsets, modes, and how many
levels are zero. In brackets stands how often each occurs.
";

pub const COMPARE: &str = "\
fleece compare A B [DIFFERENCE]

Says whether two pictures of the same kind and size are equal (exit status 0), or the first sample that differs, by rows, and the greatest
difference (exit status 1). DIFFERENCE is a picture of it, amplified: 16 times the absolute difference, at most 255.
";

pub const SHEET: &str = "\
fleece sheet ORIGINAL.pgm REBUILT.pgm [MAP]

How far a rebuilt plane is from its original: mean absolute error, mean squared error and mean signed error (rebuilt less original), each the
exact sum divided once, with as many digits as are needed to read the same number back.
MAP says which macroblocks are looked at, by rows: a digit or a byte 1 for one that is present, 0 for one that is absent. White space between
digits is passed over. Without a map all are present. Where none is, the answer is: no sheet.
";

pub const INSPECT: &str = "\
fleece inspect IN.fb THEIRS.pgm

Accepts a delivery (exit status 0): a record file, and the luma plane that its coder rebuilt. It is accepted exactly if our decoder accepts
the file and gives this very plane; of a colour file chroma is not asked. Otherwise the refusal says why (exit status 1).
";

pub const DISTANCE: &str = "\
fleece distance QP

The promise for a QP: no sample of a 4x4 block that is coded at it is rebuilt farther off its original than this. It is proved for every
block and every prediction. Macroblocks that are predicted as a whole (16x16) and chroma have no promise.
";

pub const VERSION: &str = "\
fleece version

Which tool this is, and whether the library in it is the proved archive or an unproved build of the same source for this processor.
";
