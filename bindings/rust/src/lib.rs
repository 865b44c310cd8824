//! Bracetwill for Rust: the residual path of VP9, proved, under the names and argument orders of oxideav-vp9. A caller changes the `use` line:
//! `crate::idct::inverse_transform_2d` becomes `bracetwill::idct::inverse_transform_2d`.
//!
//! Each call stands here twice. The one of the Rust's name gives nothing back, as the Rust's does, and panics where the call is refused: a
//! decoder that only changed its `use` line never goes on with numbers that were not worked out. The one with `try_` before its name hands
//! the [`Refusal`] back, and is for input that nobody has checked: it belongs in a decoder. A refusal leaves everything lent as it was, in both.
//!
//! Tokens and coefficients stand in raster order, row by row, and not in scan order. Quantizers are the multipliers that the tables hold, and
//! not indexes into the tables. Samples are 16 bit at every depth.
//!
//! ```
//! use bracetwill::Refusal;
//! use bracetwill::intra::Plane;
//! use bracetwill::reconstruct::try_reconstruct_block;
//!
//! // a plane that holds the prediction, and a lossless block whose first token is 5
//! let mut plane = Plane::new(4, 4);
//! plane.samples_mut().fill(100);
//! let mut tokens = [0; 16];
//! tokens[0] = 5;
//! try_reconstruct_block(&mut plane, 0, 0, 0, &tokens, 4, 4, 0, true, 8)?;
//! assert_eq!(plane.samples()[..4], [102, 101, 101, 101]);
//!
//! // a token that no stream of depth 8 can code: the refusal says why, and the plane stays
//! let before = plane.clone();
//! tokens[0] = 16_451;
//! let why = try_reconstruct_block(&mut plane, 0, 0, 0, &tokens, 4, 4, 0, true, 8).unwrap_err();
//! assert_eq!((why, why.number()), (Refusal::Token, 8));
//! assert_eq!(plane, before);
//! # Ok::<(), Refusal>(())
//! ```
#![deny(missing_docs)]
use std::fmt;

mod archive;
mod refusal;
pub use refusal::Refusal;
use refusal::REFUSALS;

/// The version of the crate, of the header and of the archive.
///
/// ```
/// assert_eq!(bracetwill::VERSION.split('.').count(), 3);
/// ```
pub const VERSION: &str = env!("CARGO_PKG_VERSION");

impl Refusal {
    /// The answer's number.
    ///
    /// ```
    /// assert_eq!(bracetwill::Refusal::Coefficient.number(), 9);
    /// ```
    pub fn number(self) -> u32 {
        self as u32
    }

    /// When, and only when, it is given.
    ///
    /// ```
    /// assert_eq!(bracetwill::Refusal::Quantizer.meaning(), "a quantizer outside 1 to 32,767");
    /// ```
    pub fn meaning(self) -> &'static str {
        REFUSALS.iter().find(|(refusal, _)| *refusal == self).map_or("", |(_, meaning)| meaning)
    }
}

impl fmt::Display for Refusal {
    fn fmt(&self, f: &mut fmt::Formatter<'_>) -> fmt::Result {
        write!(f, "answer {}: {}", self.number(), self.meaning())
    }
}

impl std::error::Error for Refusal {}

/// An answer's number as a result: 0 is done.
fn answer(number: u32) -> Result<(), Refusal> {
    if number == 0 {
        return Ok(());
    }
    match REFUSALS.iter().find(|(refusal, _)| refusal.number() == number) {
        Some((refusal, _)) => Err(*refusal),
        None => panic!("the archive is of another version: answer {number}"),
    }
}

/// What the calls of the Rust's names make of a refusal.
#[track_caller]
fn taken<T>(call: &str, result: Result<T, Refusal>) -> T {
    match result {
        Ok(value) => value,
        Err(refusal) => panic!("{call} was refused, {refusal}"),
    }
}

/// The inverse transforms of a block (the Rust's `idct.rs`).
pub mod idct {
    use super::{Refusal, answer, archive, taken};

    /// Rows DCT, columns DCT.
    pub const DCT_DCT: u8 = 0;
    /// Rows DCT, columns ADST.
    pub const ADST_DCT: u8 = 1;
    /// Rows ADST, columns DCT.
    pub const DCT_ADST: u8 = 2;
    /// Rows ADST, columns ADST.
    pub const ADST_ADST: u8 = 3;

    /// The residual of the first n0 × n0 numbers, n0 = 2^n, in their place; numbers past them stay. `tx_type` is not looked at when
    /// `lossless` is set. Refused with 2, 3, 4, 6 or 9.
    ///
    /// ```
    /// use bracetwill::Refusal;
    /// use bracetwill::idct::{DCT_DCT, try_inverse_transform_2d};
    ///
    /// // 4 by 4, the coefficient at place 0 alone: every residual is the same
    /// let mut block = [0; 16];
    /// block[0] = 16;
    /// assert_eq!(try_inverse_transform_2d(&mut block, 2, DCT_DCT, false), Ok(()));
    /// assert_eq!(block, [1; 16]);
    ///
    /// // too few numbers for 8 by 8
    /// assert_eq!(try_inverse_transform_2d(&mut block, 3, DCT_DCT, false), Err(Refusal::Length));
    /// assert_eq!(block, [1; 16]);
    /// ```
    pub fn try_inverse_transform_2d(dequant: &mut [i64], n: u32, tx_type: u8, lossless: bool) -> Result<(), Refusal> {
        // SAFETY: a slice is as many numbers as its length says, set and aligned, and a `&mut` one is shared with nobody.
        answer(unsafe { archive::bracetwill_inverse_transform_2d(dequant.as_mut_ptr(), dequant.len(), n, tx_type, lossless) })
    }

    /// The same by the specification's recursive processes: the same block always, more slowly.
    ///
    /// ```
    /// use bracetwill::idct::{ADST_DCT, try_inverse_transform_2d, try_inverse_transform_2d_reference};
    ///
    /// let mut fast: Vec<i64> = (0..64).map(|k| 37 * k % 101 - 50).collect();
    /// let mut plain = fast.clone();
    /// try_inverse_transform_2d(&mut fast, 3, ADST_DCT, false)?;
    /// try_inverse_transform_2d_reference(&mut plain, 3, ADST_DCT, false)?;
    /// assert_eq!(fast, plain);
    /// # Ok::<(), bracetwill::Refusal>(())
    /// ```
    pub fn try_inverse_transform_2d_reference(dequant: &mut [i64], n: u32, tx_type: u8, lossless: bool) -> Result<(), Refusal> {
        // SAFETY: as above.
        answer(unsafe { archive::bracetwill_inverse_transform_2d_reference(dequant.as_mut_ptr(), dequant.len(), n, tx_type, lossless) })
    }

    /// [`try_inverse_transform_2d`], which besides says how many rows it transformed: those that hold a number that is not 0, lossless too, and
    /// 0 where nothing but the coefficient at place 0 can be other than 0, `tx_type` is 0 and `lossless` is not set. Refused as the other.
    ///
    /// ```
    /// use bracetwill::idct::{ADST_DCT, DCT_DCT, try_inverse_transform_2d_rows};
    ///
    /// // rows 0 and 2 hold something
    /// let mut block = [0; 16];
    /// (block[1], block[9]) = (40, 40);
    /// assert_eq!(try_inverse_transform_2d_rows(&mut block, 2, DCT_DCT, false), Ok(2));
    ///
    /// // place 0 alone: no row is transformed by type 0, and one by any other
    /// let mut dc = [0; 16];
    /// dc[0] = 16;
    /// let mut other = dc;
    /// assert_eq!(try_inverse_transform_2d_rows(&mut dc, 2, DCT_DCT, false), Ok(0));
    /// assert_eq!(try_inverse_transform_2d_rows(&mut other, 2, ADST_DCT, false), Ok(1));
    /// assert_eq!(dc, [1; 16]);
    /// ```
    pub fn try_inverse_transform_2d_rows(dequant: &mut [i64], n: u32, tx_type: u8, lossless: bool) -> Result<u32, Refusal> {
        let mut rows = 0;
        // SAFETY: as above, and the number is a variable of its own.
        answer(unsafe { archive::bracetwill_inverse_transform_2d_rows(dequant.as_mut_ptr(), dequant.len(), n, tx_type, lossless, &mut rows) })?;
        Ok(rows)
    }

    /// [`try_inverse_transform_2d`] with no number wider than 32 bits on the way: the same block where every coefficient, and every number
    /// that the recursive process loads into T or stores there, lies in −32,768 to 32,767. Elsewhere 18, after the driver's 2, 3, 4, 6
    /// and 9, and the block stays.
    ///
    /// ```
    /// use bracetwill::Refusal;
    /// use bracetwill::idct::{DCT_DCT, try_inverse_transform_2d_32};
    ///
    /// let mut block = [0; 16];
    /// block[0] = 16;
    /// assert_eq!(try_inverse_transform_2d_32(&mut block, 2, DCT_DCT, false), Ok(()));
    /// assert_eq!(block, [1; 16]);
    ///
    /// // each fits 16 bits, and their sum on the way does not
    /// let mut block = [0; 16];
    /// (block[0], block[2]) = (32_767, 32_767);
    /// assert_eq!(try_inverse_transform_2d_32(&mut block, 2, DCT_DCT, false), Err(Refusal::Narrow));
    /// assert_eq!(block[..3], [32_767, 0, 32_767]);
    /// ```
    pub fn try_inverse_transform_2d_32(dequant: &mut [i64], n: u32, tx_type: u8, lossless: bool) -> Result<(), Refusal> {
        // SAFETY: as above.
        answer(unsafe { archive::bracetwill_inverse_transform_2d_32(dequant.as_mut_ptr(), dequant.len(), n, tx_type, lossless) })
    }

    /// [`try_inverse_transform_2d`]; a refusal panics.
    ///
    /// ```
    /// let mut block = [0; 16];
    /// block[0] = 20;
    /// bracetwill::idct::inverse_transform_2d(&mut block, 2, 0, true);
    /// assert_eq!(block[..4], [2, 1, 1, 1]);
    /// ```
    #[track_caller]
    pub fn inverse_transform_2d(dequant: &mut [i64], n: u32, tx_type: u8, lossless: bool) {
        taken("inverse_transform_2d", try_inverse_transform_2d(dequant, n, tx_type, lossless));
    }

    /// [`try_inverse_transform_2d_reference`]; a refusal panics.
    ///
    /// ```should_panic
    /// // 32 by 32 has the type 0 alone
    /// bracetwill::idct::inverse_transform_2d_reference(&mut [0; 1024], 5, 1, false);
    /// ```
    #[track_caller]
    pub fn inverse_transform_2d_reference(dequant: &mut [i64], n: u32, tx_type: u8, lossless: bool) {
        taken("inverse_transform_2d_reference", try_inverse_transform_2d_reference(dequant, n, tx_type, lossless));
    }

    /// [`try_inverse_transform_2d_rows`]; a refusal panics.
    ///
    /// ```
    /// // a lossless block is never DC-only: its one live row is transformed
    /// let mut block = [0; 16];
    /// block[0] = 20;
    /// assert_eq!(bracetwill::idct::inverse_transform_2d_rows(&mut block, 2, 0, true), 1);
    /// assert_eq!(block[..4], [2, 1, 1, 1]);
    /// ```
    #[track_caller]
    pub fn inverse_transform_2d_rows(dequant: &mut [i64], n: u32, tx_type: u8, lossless: bool) -> u32 {
        taken("inverse_transform_2d_rows", try_inverse_transform_2d_rows(dequant, n, tx_type, lossless))
    }

    /// [`try_inverse_transform_2d_32`]; a refusal panics.
    ///
    /// ```should_panic
    /// // a coefficient past 16 bits
    /// bracetwill::idct::inverse_transform_2d_32(&mut [32_768; 16], 2, 0, false);
    /// ```
    #[track_caller]
    pub fn inverse_transform_2d_32(dequant: &mut [i64], n: u32, tx_type: u8, lossless: bool) {
        taken("inverse_transform_2d_32", try_inverse_transform_2d_32(dequant, n, tx_type, lossless));
    }
}

/// A row summary beside a block of coefficients: which rows hold anything. The Rust has no such call.
pub mod summary {
    use super::{Refusal, answer, archive, taken};

    /// The summary of a block: bit i is set when row i holds a number that is not 0. What it says of itself needs the block no more.
    ///
    /// ```
    /// use bracetwill::summary::RowSummary;
    ///
    /// let rows = RowSummary::from(0b1010);
    /// assert_eq!((rows.count(), rows.first(), rows.last()), (2, Some(1), Some(3)));
    ///
    /// // an empty one has no first and no last row
    /// let none = RowSummary::default();
    /// assert_eq!((none.count(), none.first(), none.last()), (0, None, None));
    /// ```
    #[derive(Debug, Clone, Copy, PartialEq, Eq, Hash, Default)]
    pub struct RowSummary(u32);

    impl RowSummary {
        /// The bits, row 0 the lowest.
        pub fn bits(self) -> u32 {
            self.0
        }

        /// How many rows hold anything.
        pub fn count(self) -> u32 {
            // SAFETY: the call takes a number and no memory.
            unsafe { archive::bracetwill_row_count(self.0) }
        }

        /// The first row that holds anything, where there is one.
        pub fn first(self) -> Option<u32> {
            // SAFETY: as above.
            u32::try_from(unsafe { archive::bracetwill_first_row(self.0) }).ok()
        }

        /// The last row that holds anything, where there is one.
        pub fn last(self) -> Option<u32> {
            // SAFETY: as above.
            u32::try_from(unsafe { archive::bracetwill_last_row(self.0) }).ok()
        }
    }

    /// A summary that was kept, by its bits; any number is taken.
    impl From<u32> for RowSummary {
        fn from(bits: u32) -> Self {
            Self(bits)
        }
    }

    /// The summary of the block of n0 × n0 coefficients at the front of the list, n0 = 2^n; what lies past them is not looked at, and any
    /// coefficient is taken. Refused with 2 or 6.
    ///
    /// ```
    /// use bracetwill::Refusal;
    /// use bracetwill::summary::try_row_summary;
    ///
    /// let mut block = [0; 16];
    /// (block[3], block[8]) = (-1, 7); // in row 0 and in row 2
    /// assert_eq!(try_row_summary(&block, 2), Ok(0b101.into()));
    /// assert_eq!(try_row_summary(&block, 3), Err(Refusal::Length));
    /// ```
    pub fn try_row_summary(block: &[i64], n: u32) -> Result<RowSummary, Refusal> {
        let mut summary = 0;
        // SAFETY: a slice is as many numbers as its length says, set and aligned; the summary is a variable of its own.
        answer(unsafe { archive::bracetwill_row_summary(block.as_ptr(), block.len(), n, &mut summary) })?;
        Ok(RowSummary(summary))
    }

    /// [`try_row_summary`]; a refusal panics.
    ///
    /// ```
    /// let mut block = vec![0; 1024];
    /// block[1023] = 1;
    /// assert_eq!(bracetwill::summary::row_summary(&block, 5).first(), Some(31));
    /// ```
    #[track_caller]
    pub fn row_summary(block: &[i64], n: u32) -> RowSummary {
        taken("row_summary", try_row_summary(block, n))
    }

    /// One token of a dequantized block is another: its coefficient goes to its place, and the bit of that row is worked out again. Every
    /// other coefficient and bit stays, whatever it was, so the summary of a block stays its summary. `tx_sz` is 0 to 3 for 4, 8, 16 and 32;
    /// `dc_quant` is for place 0, `ac_quant` for all others. Refused with the first of 1, 2, 5, 6, 16, 8 and 9 that applies, 8 and 9 of the
    /// new token alone; a refusal changes neither block nor summary.
    ///
    /// ```
    /// use bracetwill::Refusal;
    /// use bracetwill::summary::{row_summary, try_replace_token};
    ///
    /// let mut block = [0; 16];
    /// (block[0], block[9]) = (40, -12);
    /// let mut rows = row_summary(&block, 2);
    /// assert_eq!(rows.last(), Some(2));
    ///
    /// // token 0 at place 9: row 2 is empty
    /// try_replace_token(&mut block, &mut rows, 0, 9, 0, 8, 4, 8)?;
    /// assert_eq!((block[9], rows, rows.last()), (0, row_summary(&block, 2), Some(0)));
    ///
    /// // there is no place 16
    /// assert_eq!(try_replace_token(&mut block, &mut rows, 0, 16, 1, 8, 4, 8), Err(Refusal::Place));
    /// # Ok::<(), Refusal>(())
    /// ```
    #[allow(clippy::too_many_arguments)]
    pub fn try_replace_token(
        block: &mut [i64],
        summary: &mut RowSummary,
        tx_sz: u32,
        place: usize,
        token: i64,
        dc_quant: i32,
        ac_quant: i32,
        bit_depth: u32,
    ) -> Result<(), Refusal> {
        // SAFETY: the slice is as many numbers as its length says, set and aligned; two `&mut` share nothing.
        answer(unsafe {
            archive::bracetwill_replace_token(
                block.as_mut_ptr(),
                block.len(),
                &mut summary.0,
                tx_sz,
                place,
                token,
                dc_quant,
                ac_quant,
                bit_depth,
            )
        })
    }

    /// [`try_replace_token`]; a refusal panics.
    ///
    /// ```
    /// use bracetwill::summary::{RowSummary, replace_token};
    ///
    /// // the summary is of coefficients: at 32 by 32 token 1 under quantizer 1 is the coefficient 0
    /// let (mut block, mut rows) = (vec![0; 1024], RowSummary::default());
    /// replace_token(&mut block, &mut rows, 3, 1023, 1, 1, 1, 8);
    /// assert_eq!(rows.count(), 0);
    /// replace_token(&mut block, &mut rows, 3, 1023, 2, 1, 1, 8);
    /// assert_eq!((block[1023], rows.first()), (1, Some(31)));
    /// ```
    #[track_caller]
    #[allow(clippy::too_many_arguments)]
    pub fn replace_token(
        block: &mut [i64],
        summary: &mut RowSummary,
        tx_sz: u32,
        place: usize,
        token: i64,
        dc_quant: i32,
        ac_quant: i32,
        bit_depth: u32,
    ) {
        taken("replace_token", try_replace_token(block, summary, tx_sz, place, token, dc_quant, ac_quant, bit_depth));
    }
}

/// A plane of samples (of the Rust's `intra.rs`).
pub mod intra {
    use super::reconstruct::Samples;

    /// A plane of samples, row by row: the part of the Rust's `Plane` that reconstruction and its caller use.
    ///
    /// ```
    /// let mut plane = bracetwill::intra::Plane::new(3, 2);
    /// plane.set(2, 1, 77);
    /// assert_eq!((plane.width(), plane.height(), plane.get(2, 1)), (3, 2, 77));
    /// assert_eq!(plane.samples(), [0, 0, 0, 0, 0, 77]);
    ///
    /// // lines of 5: two samples of padding behind each, which no call looks at or writes
    /// let mut padded = bracetwill::intra::Plane::with_stride(3, 2, 5);
    /// padded.set(2, 1, 77);
    /// assert_eq!((padded.width(), padded.stride()), (3, 5));
    /// assert_eq!(padded.samples(), [0, 0, 0, 0, 0, 0, 0, 77, 0, 0]);
    /// ```
    #[derive(Debug, Clone, PartialEq, Eq)]
    pub struct Plane {
        width: usize,
        height: usize,
        stride: usize,
        samples: Vec<u16>,
    }

    impl Plane {
        /// A plane of zeros.
        pub fn new(width: usize, height: usize) -> Self {
            Self::with_stride(width, height, width)
        }

        /// A plane of zeros with padded lines: each begins `stride` samples after the one before. Panics where the stride is below the width.
        pub fn with_stride(width: usize, height: usize, stride: usize) -> Self {
            assert!(width <= stride, "stride {stride} below the width {width}");
            let count = stride.checked_mul(height).expect("stride times height is beyond memory");
            Self { width, height, stride, samples: vec![0; count] }
        }

        /// Samples of a row.
        pub fn width(&self) -> usize {
            self.width
        }

        /// How many rows there are.
        pub fn height(&self) -> usize {
            self.height
        }

        /// How far a row is from the next, padding included.
        pub fn stride(&self) -> usize {
            self.stride
        }

        /// The sample at row `y`, column `x`; panics outside the plane.
        pub fn get(&self, x: usize, y: usize) -> i32 {
            assert!(x < self.width, "column {x} of {}", self.width);
            i32::from(self.samples[y * self.stride + x])
        }

        /// Writes the sample at row `y`, column `x`; panics outside the plane, and where the value is no u16.
        pub fn set(&mut self, x: usize, y: usize, value: i32) {
            assert!(x < self.width, "column {x} of {}", self.width);
            self.samples[y * self.stride + x] = u16::try_from(value).expect("a sample out of range");
        }

        /// The samples row by row, padding included.
        pub fn samples(&self) -> &[u16] {
            &self.samples
        }

        /// The samples row by row, padding included, to write to.
        pub fn samples_mut(&mut self) -> &mut [u16] {
            &mut self.samples
        }
    }

    impl Samples for Plane {
        fn width(&self) -> usize {
            self.width
        }

        fn height(&self) -> usize {
            self.height
        }

        fn stride(&self) -> usize {
            self.stride
        }

        fn samples_mut(&mut self) -> &mut [u16] {
            &mut self.samples
        }
    }
}

/// The reconstruction of a block (the Rust's `reconstruct.rs`).
pub mod reconstruct {
    use super::{Refusal, answer, archive, taken};

    /// What [`reconstruct_block`] needs of a plane. A decoder that has its own `Plane` says here where its samples are, and keeps it.
    ///
    /// ```
    /// use bracetwill::reconstruct::{Samples, try_reconstruct_block};
    ///
    /// struct Grey {
    ///     row: usize,
    ///     samples: Vec<u16>,
    /// }
    ///
    /// impl Samples for Grey {
    ///     fn width(&self) -> usize {
    ///         self.row
    ///     }
    ///     fn height(&self) -> usize {
    ///         self.samples.len() / self.row
    ///     }
    ///     fn samples_mut(&mut self) -> &mut [u16] {
    ///         &mut self.samples
    ///     }
    /// }
    ///
    /// let mut grey = Grey { row: 4, samples: vec![100; 16] };
    /// let mut tokens = [0; 16];
    /// tokens[0] = 5;
    /// try_reconstruct_block(&mut grey, 2, 0, 0, &tokens, 4, 4, 0, true, 8)?;
    /// assert_eq!(grey.samples[..4], [100, 100, 102, 101]);
    /// # Ok::<(), bracetwill::Refusal>(())
    /// ```
    pub trait Samples {
        /// Samples of a row.
        fn width(&self) -> usize;
        /// How many rows there are.
        fn height(&self) -> usize;
        /// How far a row is from the next. What lies past the width is padding, which no call looks at or writes; without it, the width.
        fn stride(&self) -> usize {
            self.width()
        }
        /// The samples row by row, stride × height of them.
        fn samples_mut(&mut self) -> &mut [u16];
    }

    /// A block's tokens, dequantized and transformed, added to the plane's samples at column `x` and row `y` and on, cut to the plane and
    /// clipped to the depth. `tx_sz` is 0 to 3 for 4, 8, 16 and 32; `dc_quant` is for token 0, `ac_quant` for all others. Refused with 1 to 9,
    /// of which a stream can cause 8 and 9 alone, once sizes and lists are the decoder's own; every other is a mistake of the caller.
    ///
    /// ```
    /// use bracetwill::Refusal;
    /// use bracetwill::intra::Plane;
    /// use bracetwill::reconstruct::try_reconstruct_block;
    ///
    /// let mut plane = Plane::new(8, 8);
    /// let mut tokens = [0; 64];
    /// tokens[0] = 40;
    /// match try_reconstruct_block(&mut plane, 0, 0, 1, &tokens, 64, 80, 0, false, 10) {
    ///     Ok(()) => assert_eq!(plane.get(7, 7), 40),
    ///     Err(Refusal::Token | Refusal::Coefficient) => println!("a damaged stream: conceal the block"),
    ///     Err(mistake) => panic!("{mistake}"),
    /// }
    /// ```
    #[allow(clippy::too_many_arguments)]
    pub fn try_reconstruct_block<P: Samples + ?Sized>(
        plane_buf: &mut P,
        x: usize,
        y: usize,
        tx_sz: u32,
        tokens: &[i64],
        dc_quant: i32,
        ac_quant: i32,
        tx_type: u8,
        lossless: bool,
        bit_depth: u32,
    ) -> Result<(), Refusal> {
        let (width, height, stride) = (plane_buf.width(), plane_buf.height(), plane_buf.stride());
        let samples = plane_buf.samples_mut();
        // SAFETY: both slices are as many numbers as their lengths say, set and aligned; the `&mut` one is shared with nobody, so they are
        // apart. Whether the samples are stride × height is the call's own test.
        answer(unsafe {
            archive::bracetwill_reconstruct_block(
                samples.as_mut_ptr(),
                samples.len(),
                width,
                height,
                stride,
                x,
                y,
                tx_sz,
                tokens.as_ptr(),
                tokens.len(),
                dc_quant,
                ac_quant,
                tx_type,
                lossless,
                bit_depth,
            )
        })
    }

    /// [`try_reconstruct_block`]; a refusal panics.
    ///
    /// ```
    /// use bracetwill::{intra::Plane, reconstruct::reconstruct_block};
    ///
    /// // a block at the lower right corner is cut to the plane
    /// let mut plane = Plane::new(5, 5);
    /// let mut tokens = [0; 16];
    /// tokens[0] = 5;
    /// reconstruct_block(&mut plane, 4, 4, 0, &tokens, 4, 4, 0, true, 8);
    /// assert_eq!(plane.samples()[23..], [0, 2]);
    /// ```
    #[track_caller]
    #[allow(clippy::too_many_arguments)]
    pub fn reconstruct_block<P: Samples + ?Sized>(
        plane_buf: &mut P,
        x: usize,
        y: usize,
        tx_sz: u32,
        tokens: &[i64],
        dc_quant: i32,
        ac_quant: i32,
        tx_type: u8,
        lossless: bool,
        bit_depth: u32,
    ) {
        let result = try_reconstruct_block(plane_buf, x, y, tx_sz, tokens, dc_quant, ac_quant, tx_type, lossless, bit_depth);
        taken("reconstruct_block", result);
    }
}

/// Reconstruction with a report beside it: which magnitudes the tokens have. The Rust has no such call.
pub mod report {
    use super::reconstruct::Samples;
    use super::{Refusal, answer, archive, taken};

    /// How many classes of magnitudes there are: 0, 1, 2, 3, 4, 5 to 6, 7 to 10, 11 to 18, 19 to 34, 35 to 66, 67 and up.
    pub const CLASSES: usize = 11;

    /// How many tokens of each size and class were counted, and the sum of their magnitudes.
    ///
    /// ```
    /// use bracetwill::intra::Plane;
    /// use bracetwill::report::{Report, try_reconstruct_block_report};
    ///
    /// let mut plane = Plane::new(4, 4);
    /// let mut report = Report::new();
    /// let mut tokens = [0; 16];
    /// (tokens[0], tokens[1]) = (-5, 6);
    /// try_reconstruct_block_report(&mut plane, 0, 0, 0, &tokens, 4, 4, 0, true, 8, &mut report)?;
    /// assert_eq!((report.count(0, 0), report.count(0, 5), report.sum(0, 5)), (14, 2, 11));
    /// assert_eq!(report.total(), 16);
    /// # Ok::<(), bracetwill::Refusal>(())
    /// ```
    #[derive(Debug, Clone, PartialEq, Eq)]
    pub struct Report {
        counts: [u32; 44],
        sums: [u64; 44],
    }

    impl Report {
        /// The report of no token.
        pub fn new() -> Self {
            Self { counts: [0; 44], sums: [0; 44] }
        }

        /// A report that was kept: its counts and sums, size by size and class by class. Whether it can be one is tested by the call.
        ///
        /// ```
        /// use bracetwill::report::Report;
        ///
        /// let report = Report::of([1; 44], [0; 44]);
        /// assert_eq!((report.total(), Report::of(*report.counts(), *report.sums())), (44, report));
        /// ```
        pub fn of(counts: [u32; 44], sums: [u64; 44]) -> Self {
            Self { counts, sums }
        }

        /// The counts, size by size and class by class.
        pub fn counts(&self) -> &[u32; 44] {
            &self.counts
        }

        /// The sums, in the same order.
        pub fn sums(&self) -> &[u64; 44] {
            &self.sums
        }

        /// How many tokens of a size number and class, both counted from 0; panics where there is no such size or class.
        pub fn count(&self, size: usize, class: usize) -> u32 {
            self.counts[entry(size, class)]
        }

        /// The sum of their magnitudes.
        pub fn sum(&self, size: usize, class: usize) -> u64 {
            self.sums[entry(size, class)]
        }

        /// How many tokens there are in all.
        pub fn total(&self) -> u64 {
            self.counts.iter().copied().map(u64::from).sum()
        }
    }

    impl Default for Report {
        fn default() -> Self {
            Self::new()
        }
    }

    #[track_caller]
    fn entry(size: usize, class: usize) -> usize {
        assert!(size < 4, "there is no size number {size}");
        assert!(class < CLASSES, "there is no class {class}");
        size * CLASSES + class
    }

    /// [`try_reconstruct_block`](super::reconstruct::try_reconstruct_block) with a report beside it. Where the block is done, each of its
    /// tokens, also of those that the plane cuts off, adds 1 to the count and its magnitude to the sum of its size and class. Refused with
    /// 1 to 9, and after them with 15: the counts and the block's tokens are more than 4,294,967,295 in all, or a sum of the report is above
    /// its count × 262,210. A refusal changes neither the plane nor the report.
    ///
    /// ```
    /// use bracetwill::Refusal;
    /// use bracetwill::intra::Plane;
    /// use bracetwill::report::{Report, try_reconstruct_block_report};
    ///
    /// // fifteen tokens short of the greatest total: sixteen do not fit
    /// let mut counts = [0; 44];
    /// counts[3] = u32::MAX - 15;
    /// let (mut plane, mut report) = (Plane::new(4, 4), Report::of(counts, [0; 44]));
    /// let before = report.clone();
    /// let refused = try_reconstruct_block_report(&mut plane, 0, 0, 0, &[1; 16], 4, 4, 0, true, 8, &mut report);
    /// assert_eq!(refused, Err(Refusal::Report));
    /// assert_eq!(report, before);
    /// ```
    #[allow(clippy::too_many_arguments)]
    pub fn try_reconstruct_block_report<P: Samples + ?Sized>(
        plane_buf: &mut P,
        x: usize,
        y: usize,
        tx_sz: u32,
        tokens: &[i64],
        dc_quant: i32,
        ac_quant: i32,
        tx_type: u8,
        lossless: bool,
        bit_depth: u32,
        report: &mut Report,
    ) -> Result<(), Refusal> {
        let (width, height, stride) = (plane_buf.width(), plane_buf.height(), plane_buf.stride());
        let samples = plane_buf.samples_mut();
        // SAFETY: the slices are as many numbers as their lengths say and the two lists 44, set and aligned; what is `&mut` is shared with
        // nobody, so all are apart. Whether the samples are stride × height is the call's own test.
        answer(unsafe {
            archive::bracetwill_reconstruct_block_report(
                samples.as_mut_ptr(),
                samples.len(),
                width,
                height,
                stride,
                x,
                y,
                tx_sz,
                tokens.as_ptr(),
                tokens.len(),
                dc_quant,
                ac_quant,
                tx_type,
                lossless,
                bit_depth,
                &mut report.counts,
                &mut report.sums,
            )
        })
    }

    /// [`try_reconstruct_block_report`]; a refusal panics.
    ///
    /// ```
    /// use bracetwill::intra::Plane;
    /// use bracetwill::report::{Report, reconstruct_block_report};
    ///
    /// // a block outside the plane is done, writes nothing, and counts
    /// let (mut plane, mut report) = (Plane::new(8, 8), Report::new());
    /// reconstruct_block_report(&mut plane, 8, 0, 1, &[2; 64], 40, 40, 0, false, 8, &mut report);
    /// assert_eq!((report.count(1, 2), report.sum(1, 2)), (64, 128));
    /// ```
    #[track_caller]
    #[allow(clippy::too_many_arguments)]
    pub fn reconstruct_block_report<P: Samples + ?Sized>(
        plane_buf: &mut P,
        x: usize,
        y: usize,
        tx_sz: u32,
        tokens: &[i64],
        dc_quant: i32,
        ac_quant: i32,
        tx_type: u8,
        lossless: bool,
        bit_depth: u32,
        report: &mut Report,
    ) {
        let result = try_reconstruct_block_report(plane_buf, x, y, tx_sz, tokens, dc_quant, ac_quant, tx_type, lossless, bit_depth, report);
        taken("reconstruct_block_report", result);
    }
}

/// The forward WHT and the quantizer (of the Rust's `fwd_transform.rs`).
pub mod fwd_transform {
    use super::{Refusal, answer, archive, taken};

    /// The forward WHT of 16 numbers, in place. Refused with 6 or 9.
    ///
    /// ```
    /// use bracetwill::{fwd_transform::try_forward_wht_2d, idct::try_inverse_transform_2d};
    ///
    /// // at quantizer 4, which lossless blocks have, the inverse gives the differences back
    /// let differences: Vec<i64> = (0..16).map(|k| 10 * k - 75).collect();
    /// let mut block = differences.clone();
    /// try_forward_wht_2d(&mut block)?;
    /// block.iter_mut().for_each(|token| *token *= 4);
    /// try_inverse_transform_2d(&mut block, 2, 0, true)?;
    /// assert_eq!(block, differences);
    /// # Ok::<(), bracetwill::Refusal>(())
    /// ```
    pub fn try_forward_wht_2d(block: &mut [i64]) -> Result<(), Refusal> {
        // SAFETY: a slice is as many numbers as its length says, set and aligned, and a `&mut` one is shared with nobody.
        answer(unsafe { archive::bracetwill_forward_wht_2d(block.as_mut_ptr(), block.len()) })
    }

    /// The forward DCT of 2^n by 2^n residuals within 4,095, in place and in whole numbers, alike on every host: the coefficients that
    /// [`crate::idct::try_inverse_transform_2d`] takes at type 0. Refused with 2, 6 or 9. The Rust's own works in `f64`, and its coefficients may
    /// differ by a few (docs/DIFFERENCES.md).
    ///
    /// ```
    /// use bracetwill::{Refusal, fwd_transform::try_forward_dct_2d, idct::try_inverse_transform_2d};
    ///
    /// // a flat block has one coefficient
    /// let mut block = [100; 16];
    /// try_forward_dct_2d(&mut block, 2)?;
    /// assert_eq!((block[0], &block[1..]), (3_200, &[0; 15][..]));
    /// try_inverse_transform_2d(&mut block, 2, 0, false)?;
    /// assert_eq!(block, [100; 16]);
    /// assert_eq!(try_forward_dct_2d(&mut [4_096; 16], 2), Err(Refusal::Coefficient));
    /// # Ok::<(), Refusal>(())
    /// ```
    pub fn try_forward_dct_2d(block: &mut [i64], n: u32) -> Result<(), Refusal> {
        // SAFETY: as above.
        answer(unsafe { archive::bracetwill_forward_dct_2d(block.as_mut_ptr(), block.len(), n) })
    }

    /// Coefficients become tokens, in place; at most 1,024. `dc_quant` is for the first, `ac_quant` for all others; an exact half goes toward
    /// zero. Refused with 1, 20 (depth 12, which is for reading only), 2, 5, 6 or 9.
    ///
    /// ```
    /// use bracetwill::{Refusal, fwd_transform::try_quantize_block_tx};
    ///
    /// let mut coefs = [100, -10, 11, 0];
    /// assert_eq!(try_quantize_block_tx(&mut coefs, 8, 4, 0, 8), Ok(()));
    /// assert_eq!(coefs, [12, -2, 3, 0]);
    /// assert_eq!(try_quantize_block_tx(&mut coefs, 0, 4, 0, 8), Err(Refusal::Quantizer));
    /// assert_eq!(try_quantize_block_tx(&mut coefs, 8, 4, 0, 12), Err(Refusal::Retired));
    /// ```
    pub fn try_quantize_block_tx(coefs: &mut [i64], dc_quant: i32, ac_quant: i32, tx_sz: u32, bit_depth: u32) -> Result<(), Refusal> {
        // SAFETY: as above.
        answer(unsafe { archive::bracetwill_quantize_block_tx(coefs.as_mut_ptr(), coefs.len(), dc_quant, ac_quant, tx_sz, bit_depth) })
    }

    /// The same at a small size and depth 8. Refused with 5, 6 or 9.
    ///
    /// ```
    /// let mut coefs = [7, 6, 5];
    /// assert_eq!(bracetwill::fwd_transform::try_quantize_block(&mut coefs, 4, 4), Ok(()));
    /// assert_eq!(coefs, [2, 1, 1]);
    /// ```
    pub fn try_quantize_block(coefs: &mut [i64], dc_quant: i32, ac_quant: i32) -> Result<(), Refusal> {
        // SAFETY: as above.
        answer(unsafe { archive::bracetwill_quantize_block(coefs.as_mut_ptr(), coefs.len(), dc_quant, ac_quant) })
    }

    /// [`try_quantize_block_tx`] by a rule: 1 sends an exact half toward zero, as that call does, and 2 away from it, as the recorder's
    /// firmware 2 does. Refused with 19 (another rule) before all others; then with 1, 20 (depth 12), 2, 5, 6 or 9.
    ///
    /// ```
    /// use bracetwill::{Refusal, fwd_transform::try_quantize_block_rule};
    ///
    /// for (rule, token) in [(1, 0), (2, 1)] {
    ///     let mut coefs = [2, -2];
    ///     assert_eq!(try_quantize_block_rule(&mut coefs, 4, 4, 0, 8, rule), Ok(()));
    ///     assert_eq!(coefs, [token, -token]);
    /// }
    /// assert_eq!(try_quantize_block_rule(&mut [2], 0, 4, 9, 9, 3), Err(Refusal::Rule));
    /// ```
    pub fn try_quantize_block_rule(coefs: &mut [i64], dc_quant: i32, ac_quant: i32, tx_sz: u32, bit_depth: u32, rule: u32) -> Result<(), Refusal> {
        // SAFETY: as above.
        answer(unsafe { archive::bracetwill_quantize_block_rule(coefs.as_mut_ptr(), coefs.len(), dc_quant, ac_quant, tx_sz, bit_depth, rule) })
    }

    /// [`try_forward_wht_2d`]; a refusal panics.
    ///
    /// ```
    /// let mut block = [0; 16];
    /// bracetwill::fwd_transform::forward_wht_2d(&mut block);
    /// assert_eq!(block, [0; 16]);
    /// ```
    #[track_caller]
    pub fn forward_wht_2d(block: &mut [i64]) {
        taken("forward_wht_2d", try_forward_wht_2d(block));
    }

    /// [`try_forward_dct_2d`]; a refusal panics.
    ///
    /// ```
    /// let mut block = [-1; 64];
    /// bracetwill::fwd_transform::forward_dct_2d(&mut block, 3);
    /// assert_eq!((block[0], &block[1..]), (-64, &[0; 63][..]));
    /// ```
    #[track_caller]
    pub fn forward_dct_2d(block: &mut [i64], n: u32) {
        taken("forward_dct_2d", try_forward_dct_2d(block, n));
    }

    /// [`try_quantize_block_tx`]; a refusal panics.
    ///
    /// ```
    /// // at 32 by 32 the magnitude is doubled before the division
    /// let mut coefs = [100, 7];
    /// bracetwill::fwd_transform::quantize_block_tx(&mut coefs, 8, 4, 3, 10);
    /// assert_eq!(coefs, [25, 3]);
    /// ```
    #[track_caller]
    pub fn quantize_block_tx(coefs: &mut [i64], dc_quant: i32, ac_quant: i32, tx_sz: u32, bit_depth: u32) {
        taken("quantize_block_tx", try_quantize_block_tx(coefs, dc_quant, ac_quant, tx_sz, bit_depth));
    }

    /// [`try_quantize_block`]; a refusal panics.
    ///
    /// ```should_panic
    /// bracetwill::fwd_transform::quantize_block(&mut [1], 0, 1);
    /// ```
    #[track_caller]
    pub fn quantize_block(coefs: &mut [i64], dc_quant: i32, ac_quant: i32) {
        taken("quantize_block", try_quantize_block(coefs, dc_quant, ac_quant));
    }

    /// [`try_quantize_block_rule`]; a refusal panics.
    ///
    /// ```
    /// let mut coefs = [2, 6, 7];
    /// bracetwill::fwd_transform::quantize_block_rule(&mut coefs, 4, 4, 0, 8, 2);
    /// assert_eq!(coefs, [1, 2, 2]);
    /// ```
    #[track_caller]
    pub fn quantize_block_rule(coefs: &mut [i64], dc_quant: i32, ac_quant: i32, tx_sz: u32, bit_depth: u32, rule: u32) {
        taken("quantize_block_rule", try_quantize_block_rule(coefs, dc_quant, ac_quant, tx_sz, bit_depth, rule));
    }

    /// The greatest magnitude of a token; 0 for a depth that is not 8, 10 or 12.
    ///
    /// ```
    /// use bracetwill::fwd_transform::max_codeable_coef;
    /// assert_eq!([8, 10, 12, 9].map(max_codeable_coef), [16_450, 65_602, 262_210, 0]);
    /// ```
    pub fn max_codeable_coef(bit_depth: u32) -> i64 {
        // SAFETY: the call takes a number and no memory.
        unsafe { archive::bracetwill_max_codeable_coef(bit_depth) }
    }
}

/// Runs over VBK files.
pub mod vbk {
    use super::{Refusal, answer, archive, taken};

    /// The longest VBK file: a buffer of so many bytes holds any.
    pub const FILE_LIMIT: usize = 65535;

    // Rooms that hold what any file leaves.
    const SAMPLES_ROOM: usize = 4096;
    const ANSWERS_ROOM: usize = 874;
    const TEXT_ROOM: usize = 45040;

    /// What a run over a VBK file leaves.
    #[derive(Debug, Clone, PartialEq, Eq)]
    pub struct Run {
        /// Bits of a sample: 8, 10 or 12.
        pub bit_depth: u32,
        /// Samples of a row of the plane.
        pub width: usize,
        /// How many rows the plane has.
        pub height: usize,
        /// The plane afterwards, row by row.
        pub samples: Vec<u16>,
        /// Each record's answer, in order.
        pub answers: Vec<Result<(), Refusal>>,
        /// The touched count, the number behind `T` in the text: samples written.
        pub touched: u64,
    }

    /// A record of a file to be written, with the file's own widths.
    #[derive(Debug, Clone, Copy, PartialEq, Eq)]
    pub struct Record<'a> {
        /// The block's column.
        pub x: u16,
        /// The block's row.
        pub y: u16,
        /// The size number, 0 to 3: 4 by 4 to 32 by 32.
        pub size: u8,
        /// The type; the file keeps that of a lossless record too.
        pub tx_type: u8,
        /// 1 where the block is lossless, and 0 where it is not.
        pub lossless: u8,
        /// The DC quantizer.
        pub dc: u16,
        /// The AC quantizer.
        pub ac: u16,
        /// 16, 64, 256 or 1,024 tokens by the size, row by row.
        pub tokens: &'a [i32],
    }

    /// A VBK file to be written: a plane, and records in their order, in lists of its own. What a list holds is tested when it is written.
    ///
    /// ```
    /// use bracetwill::vbk::{Clip, Record, replay};
    ///
    /// let mut clip = Clip::new(8, 4, 4, vec![100; 16]);
    /// let mut tokens = [0; 16];
    /// tokens[0] = 5;
    /// clip.push(Record { x: 0, y: 0, size: 0, tx_type: 0, lossless: 1, dc: 4, ac: 4, tokens: &tokens });
    /// let file = clip.try_bytes()?;
    /// assert_eq!(file.len(), 10 + 2 * 16 + 11 + 4 * 16);
    /// assert_eq!(replay(&file)?.samples[..4], [102, 101, 101, 101]);
    /// # Ok::<(), bracetwill::Refusal>(())
    /// ```
    #[derive(Debug, Clone, PartialEq, Eq)]
    pub struct Clip {
        depth: u8,
        width: u16,
        height: u16,
        samples: Vec<u16>,
        xs: Vec<u16>,
        ys: Vec<u16>,
        sizes: Vec<u8>,
        tx_types: Vec<u8>,
        lossless: Vec<u8>,
        dcs: Vec<u16>,
        acs: Vec<u16>,
        counts: Vec<u32>,
        tokens: Vec<i32>,
    }

    impl Clip {
        /// A file of this plane, with no record. `samples` are width × height, row by row.
        ///
        /// ```
        /// let clip = bracetwill::vbk::Clip::new(8, 1, 1, vec![7]);
        /// assert_eq!(clip.try_bytes().unwrap(), b"VBK\x01\x00\x08\x01\x00\x01\x00\x07\x00");
        /// ```
        pub fn new(depth: u8, width: u16, height: u16, samples: Vec<u16>) -> Self {
            let (xs, ys, dcs, acs) = (vec![], vec![], vec![], vec![]);
            let (sizes, tx_types, lossless) = (vec![], vec![], vec![]);
            Clip { depth, width, height, samples, xs, ys, sizes, tx_types, lossless, dcs, acs, counts: vec![], tokens: vec![] }
        }

        /// One record more, behind the others. More than 4,294,967,295 tokens count as so many, which no size has.
        ///
        /// ```
        /// use bracetwill::{Refusal, vbk::{Clip, Record}};
        ///
        /// let mut clip = Clip::new(8, 1, 1, vec![7]);
        /// let record = Record { x: 0, y: 0, size: 0, tx_type: 9, lossless: 0, dc: 0, ac: 0, tokens: &[1; 15] };
        /// clip.push(record);
        /// assert_eq!(clip.try_bytes(), Err(Refusal::Length)); // 15 tokens, and size 0 has 16
        /// ```
        pub fn push(&mut self, record: Record) {
            self.xs.push(record.x);
            self.ys.push(record.y);
            self.sizes.push(record.size);
            self.tx_types.push(record.tx_type);
            self.lossless.push(record.lossless);
            self.dcs.push(record.dc);
            self.acs.push(record.ac);
            self.counts.push(record.tokens.len().try_into().unwrap_or(u32::MAX));
            self.tokens.extend(record.tokens);
        }

        /// The file at the front of `out`; its length is handed back, and what lies past it stays. Refused with 1, 20 (depth 12, which is for
        /// reading only), 2, 6, 13, 14 or 17, and then `out` is as it was.
        ///
        /// ```
        /// use bracetwill::{Refusal, vbk::Clip};
        ///
        /// let clip = Clip::new(8, 1, 1, vec![7]);
        /// let mut out = [9; 14];
        /// assert_eq!(clip.try_write(&mut out), Ok(12));
        /// assert_eq!(out[10..], [7, 0, 9, 9]);
        /// assert_eq!(clip.try_write(&mut out[..11]), Err(Refusal::Room));
        /// assert_eq!(Clip::new(12, 1, 1, vec![7]).try_write(&mut out), Err(Refusal::Retired));
        /// ```
        pub fn try_write(&self, out: &mut [u8]) -> Result<usize, Refusal> {
            let mut length = [0];
            // SAFETY: each list is handed over with its own length; the buffer and the length, which are written, are apart from all others.
            answer(unsafe {
                archive::bracetwill_vbk_write(
                    self.depth,
                    self.width,
                    self.height,
                    self.samples.as_ptr(),
                    self.samples.len(),
                    self.xs.as_ptr(),
                    self.xs.len(),
                    self.ys.as_ptr(),
                    self.ys.len(),
                    self.sizes.as_ptr(),
                    self.sizes.len(),
                    self.tx_types.as_ptr(),
                    self.tx_types.len(),
                    self.lossless.as_ptr(),
                    self.lossless.len(),
                    self.dcs.as_ptr(),
                    self.dcs.len(),
                    self.acs.as_ptr(),
                    self.acs.len(),
                    self.counts.as_ptr(),
                    self.counts.len(),
                    self.tokens.as_ptr(),
                    self.tokens.len(),
                    out.as_mut_ptr(),
                    out.len(),
                    &mut length,
                )
            })?;
            Ok(length[0])
        }

        /// [`try_write`](Clip::try_write); a refusal panics.
        ///
        /// ```
        /// let mut out = [0; bracetwill::vbk::FILE_LIMIT];
        /// assert_eq!(bracetwill::vbk::Clip::new(8, 2, 2, vec![7; 4]).write(&mut out), 18);
        /// ```
        #[track_caller]
        pub fn write(&self, out: &mut [u8]) -> usize {
            let result = self.try_write(out);
            taken("vbk_write", result.map(|_| ()));
            result.unwrap_or(0)
        }

        /// The file in a list of its own. Refused as [`try_write`](Clip::try_write) is, but never with 17.
        ///
        /// ```
        /// use bracetwill::{Refusal, vbk::Clip};
        /// assert_eq!(Clip::new(9, 1, 1, vec![7]).try_bytes(), Err(Refusal::Depth));
        /// ```
        pub fn try_bytes(&self) -> Result<Vec<u8>, Refusal> {
            let mut out = vec![0; FILE_LIMIT];
            let length = self.try_write(&mut out)?;
            out.truncate(length);
            Ok(out)
        }
    }

    /// A run over the bytes of a VBK file. Refused with 1, 10, 11, 12 or 13, by its header.
    ///
    /// ```
    /// let mut file = b"VBK\x01\x00\x08\x04\x00\x04\x00".to_vec(); // version 1, depth 8, 4 by 4
    /// file.extend([100, 0].repeat(16));
    /// file.extend([0, 0, 0, 0, 0, 0, 1, 4, 0, 4, 0]); // at (0, 0), size 0, type 0, lossless, quantizers 4 and 4
    /// file.extend([5, 0, 0, 0]);
    /// file.extend([0; 60]);
    /// let run = bracetwill::vbk::replay(&file)?;
    /// assert_eq!(run.answers, [Ok(())]);
    /// assert_eq!(run.samples[..4], [102, 101, 101, 101]);
    /// # Ok::<(), bracetwill::Refusal>(())
    /// ```
    pub fn replay(file: &[u8]) -> Result<Run, Refusal> {
        let (mut samples, mut answers, mut figures) = (vec![0u16; SAMPLES_ROOM], [0u8; ANSWERS_ROOM], [0u64; 5]);
        // SAFETY: four slices or arrays, each with its own length; the three that are written are apart.
        answer(unsafe {
            archive::bracetwill_replay(
                file.as_ptr(),
                file.len(),
                samples.as_mut_ptr(),
                samples.len(),
                answers.as_mut_ptr(),
                answers.len(),
                figures.as_mut_ptr(),
                figures.len(),
            )
        })?;
        let [bit_depth, width, height, records, touched] = figures;
        let (width, height) = (width as usize, height as usize);
        samples.truncate(width * height);
        let answers = answers[..records as usize].iter().map(|&a| answer(a.into())).collect();
        Ok(Run { bit_depth: bit_depth as u32, width, height, samples, answers, touched })
    }

    /// The text that the program `blockrun` prints for a file: `E number` where its header is refused.
    ///
    /// ```
    /// let file = b"VBK\x01\x00\x08\x01\x00\x01\x00\x07\x00"; // one sample, no record
    /// assert_eq!(bracetwill::vbk::blockrun(file), "VBK 1 8 1 1\nS 7\nT 0\n");
    /// assert_eq!(bracetwill::vbk::blockrun(b"hello"), "E 12\n");
    /// ```
    pub fn blockrun(file: &[u8]) -> String {
        let (mut samples, mut answers, mut text) = (vec![0u16; SAMPLES_ROOM], [0u8; ANSWERS_ROOM], vec![0u8; TEXT_ROOM]);
        // SAFETY: four slices or arrays, each with its own length; the three that are written are apart.
        let count = unsafe {
            archive::bracetwill_blockrun(
                file.as_ptr(),
                file.len(),
                samples.as_mut_ptr(),
                samples.len(),
                answers.as_mut_ptr(),
                answers.len(),
                text.as_mut_ptr(),
                text.len(),
            )
        };
        text.truncate(count);
        String::from_utf8(text).expect("the text is letters, digits, spaces and line ends")
    }
}

#[cfg(test)]
mod tests {
    use super::*;

    const HEADER: &str = include_str!("../../../include/bracetwill.h");

    /// The refusals are those of answers.txt, in number, name and meaning, and there is no other.
    #[test]
    fn the_answers_agree() {
        let lines: Vec<&str> = include_str!("../../../answers.txt").lines().filter(|line| !line.starts_with('#')).collect();
        let said: Vec<Vec<&str>> = lines.iter().map(|line| line.splitn(2, ' ').flat_map(|part| part.trim().splitn(2, ' ')).map(str::trim).collect()).collect();
        let ours = REFUSALS.map(|(r, _)| vec![r.number().to_string(), format!("{r:?}"), r.meaning().to_string()]);
        assert_eq!(said[0], ["0", "Done", "done"]);
        assert_eq!(said[1..], ours);
        assert!(ours.iter().zip(REFUSALS).all(|(o, (r, _))| r.to_string() == format!("answer {}: {}", o[0], o[2])));
        assert!(REFUSALS.iter().all(|(r, _)| answer(r.number()) == Err(*r)));
    }

    /// One version: the file VERSION, the header and the crate.
    #[test]
    fn the_versions_agree() {
        assert_eq!(VERSION, include_str!("../../../VERSION").trim());
        assert!(HEADER.contains(&format!("#define BRACETWILL_VERSION_STRING \"{VERSION}\"\n")));
        for (name, number) in ["MAJOR", "MINOR", "PATCH"].iter().zip(VERSION.split('.')) {
            assert!(HEADER.contains(&format!("#define BRACETWILL_VERSION_{name} {number}\n")));
        }
    }

    /// The rooms are the header's.
    #[test]
    fn the_rooms_agree() {
        let of = |name: &str| {
            let rest = HEADER.split(&format!("#define BRACETWILL_{name} ")).nth(1).expect(name);
            rest.split_whitespace().next().unwrap().parse::<usize>().expect(name)
        };
        let (samples, answers, text) = (of("SAMPLES_ROOM"), of("ANSWERS_ROOM"), of("TEXT_ROOM"));
        // a room one shorter is refused, and the room itself is not
        let file = b"VBK\x01\x00\x08\x01\x00\x01\x00\x07\x00";
        let call = |s: usize, a: usize| {
            let (mut samples, mut answers, mut figures) = (vec![0u16; s], vec![0u8; a], [0u64; 5]);
            // SAFETY: as in `replay`.
            unsafe {
                archive::bracetwill_replay(file.as_ptr(), file.len(), samples.as_mut_ptr(), s, answers.as_mut_ptr(), a, figures.as_mut_ptr(), 5)
            }
        };
        assert_eq!([call(samples, answers), call(samples - 1, answers), call(samples, answers - 1)], [0, 6, 6]);
        let run = |t: usize| {
            let (mut s, mut a, mut out) = (vec![0u16; samples], vec![0u8; answers], vec![0u8; t]);
            // SAFETY: as in `blockrun`.
            unsafe {
                archive::bracetwill_blockrun(file.as_ptr(), file.len(), s.as_mut_ptr(), samples, a.as_mut_ptr(), answers, out.as_mut_ptr(), t)
            }
        };
        assert_eq!([run(text), run(text - 1)], ["VBK 1 8 1 1\nS 7\nT 0\n".len(), 0]);
    }

    #[test]
    fn a_refusal_says_what_is_wrong() {
        let why = idct::try_inverse_transform_2d(&mut [0; 15], 2, 0, false).unwrap_err();
        assert_eq!(why.to_string(), "answer 6: a list has the wrong length");
    }

    #[test]
    #[should_panic(expected = "quantize_block was refused, answer 5: a quantizer outside 1 to 32,767")]
    fn the_call_of_the_rusts_name_panics() {
        fwd_transform::quantize_block(&mut [1], 0, 1);
    }

    /// The listing of docs/REFERENCE.md.
    #[test]
    fn the_listing() {
        let mut file = b"VBK\x01\x00\x08\x04\x00\x04\x00".to_vec();
        file.extend([100, 0].repeat(16));
        file.extend([0, 0, 0, 0, 0, 0, 1, 4, 0, 4, 0, 5, 0, 0, 0]);
        file.extend([0; 60]);
        let text = "VBK 1 8 4 4\nB 0 0\nS 102 101 101 101\nS 101 101 101 101\nS 101 101 101 101\nS 101 101 101 101\nT 16\n";
        assert_eq!(vbk::blockrun(&file), text);
        let run = vbk::replay(&file).expect("a good file");
        assert_eq!((run.bit_depth, run.width, run.height, run.touched), (8, 4, 4, 16));
        assert_eq!(run.samples, [vec![102], vec![101; 15]].concat());
        assert_eq!(run.answers, [Ok(())]);
        assert_eq!(vbk::replay(b"VBX1234567"), Err(Refusal::Mark));
        assert_eq!(vbk::blockrun(b""), "E 12\n");
    }
}
