//! Made by bindings/write from answers.txt.

/// Why a call was refused: an answer above 0. A later version may have more of them.
#[derive(Clone, Copy, Debug, PartialEq, Eq, Hash)]
#[non_exhaustive]
#[repr(u32)]
pub enum Refusal {
    /// Answer 1: bit depth is not 8, 10 or 12.
    Depth = 1,
    /// Answer 2: size number above 3 (for the 2D drivers and the forward DCT: n outside 2 to 5).
    Size = 2,
    /// Answer 3: lossless with a size other than 4 by 4.
    LosslessSize = 3,
    /// Answer 4: not lossless, and a tx_type above 3, or 32 by 32 with a tx_type other than 0.
    TxType = 4,
    /// Answer 5: a quantizer outside 1 to 32,767.
    Quantizer = 5,
    /// Answer 6: a list has the wrong length.
    Length = 6,
    /// Answer 7: plane width, height or stride above 65,535, stride below the width, or samples not exactly stride times height.
    Plane = 7,
    /// Answer 8: a token's magnitude above the depth's codeable limit (16,450, 65,602 and 262,210).
    Token = 8,
    /// Answer 9: a coefficient beyond its limit (2^31; for the forward WHT 2^23; for the forward DCT a residual, 4,095).
    Coefficient = 9,
    /// Answer 10: VBK: the mark is not there.
    Mark = 10,
    /// Answer 11: VBK: version is not 1.
    Version = 11,
    /// Answer 12: VBK: header, samples or a record cut short.
    CutShort = 12,
    /// Answer 13: VBK: file above 65,535 bytes, or width times height not 1 to 4,096.
    TooLarge = 13,
    /// Answer 14: VBK: a record's lossless byte above 1.
    LosslessByte = 14,
    /// Answer 15: the block takes the total of all counts past 4,294,967,295, or a class sum is above its count times 262,210.
    Report = 15,
    /// Answer 16: the place is at or past the block's end.
    Place = 16,
    /// Answer 17: the buffer is too short for the file.
    Room = 17,
    /// Answer 18: a number of the recursive process leaves 16 bits (the 32-bit engine alone).
    Narrow = 18,
    /// Answer 19: the quantizer's rule is not 1 or 2 (the call with a rule alone).
    Rule = 19,
    /// Answer 20: depth 12 is read but no longer written (the quantizers and the VBK writer).
    Retired = 20,
}

/// Every refusal with its meaning, in the order of the numbers.
pub(crate) const REFUSALS: [(Refusal, &str); 20] = [
    (Refusal::Depth, "bit depth is not 8, 10 or 12"),
    (Refusal::Size, "size number above 3 (for the 2D drivers and the forward DCT: n outside 2 to 5)"),
    (Refusal::LosslessSize, "lossless with a size other than 4 by 4"),
    (Refusal::TxType, "not lossless, and a tx_type above 3, or 32 by 32 with a tx_type other than 0"),
    (Refusal::Quantizer, "a quantizer outside 1 to 32,767"),
    (Refusal::Length, "a list has the wrong length"),
    (Refusal::Plane, "plane width, height or stride above 65,535, stride below the width, or samples not exactly stride times height"),
    (Refusal::Token, "a token's magnitude above the depth's codeable limit (16,450, 65,602 and 262,210)"),
    (Refusal::Coefficient, "a coefficient beyond its limit (2^31; for the forward WHT 2^23; for the forward DCT a residual, 4,095)"),
    (Refusal::Mark, "VBK: the mark is not there"),
    (Refusal::Version, "VBK: version is not 1"),
    (Refusal::CutShort, "VBK: header, samples or a record cut short"),
    (Refusal::TooLarge, "VBK: file above 65,535 bytes, or width times height not 1 to 4,096"),
    (Refusal::LosslessByte, "VBK: a record's lossless byte above 1"),
    (Refusal::Report, "the block takes the total of all counts past 4,294,967,295, or a class sum is above its count times 262,210"),
    (Refusal::Place, "the place is at or past the block's end"),
    (Refusal::Room, "the buffer is too short for the file"),
    (Refusal::Narrow, "a number of the recursive process leaves 16 bits (the 32-bit engine alone)"),
    (Refusal::Rule, "the quantizer's rule is not 1 or 2 (the call with a rule alone)"),
    (Refusal::Retired, "depth 12 is read but no longer written (the quantizers and the VBK writer)"),
];
