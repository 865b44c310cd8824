//! A call and its outcome as one line of decimal numbers. The form is described in oracle/README.md.

/// The longest line, its end included: a program reads lines into a fixed buffer.
pub const LINE_MAX: usize = 65_000;

/// A list of the outcome that is one of the lent lists, or a new one.
#[derive(Clone, Copy, PartialEq)]
pub enum After {
    Lent(usize),
    New,
}

/// What the line of a kind holds, in this order: the kind, arguments, lent lists; then numbers and lists of the outcome.
pub struct Shape {
    pub kind: u32,
    pub name: &'static str,
    pub args: &'static [&'static str],
    pub lists: &'static [&'static str],
    pub nums: &'static [&'static str],
    pub after: &'static [After],
}

const T: &[After] = &[After::Lent(0)];
const S: &[After] = &[After::Lent(1)];
const NONE: &[After] = &[];

#[rustfmt::skip]
pub const SHAPES: &[Shape] = &[
    Shape { kind: 1, name: "round2", args: &["x", "k"], lists: &[], nums: &["value"], after: NONE },
    Shape { kind: 2, name: "brev", args: &["bits", "x"], lists: &[], nums: &["value"], after: NONE },
    Shape { kind: 3, name: "cos64", args: &["angle"], lists: &[], nums: &["value"], after: NONE },
    Shape { kind: 4, name: "sin64", args: &["angle"], lists: &[], nums: &["value"], after: NONE },
    Shape { kind: 5, name: "butterfly", args: &["a", "b", "angle", "flip"], lists: &["T"], nums: &[], after: T },
    Shape { kind: 6, name: "hadamard", args: &["a", "b", "flip"], lists: &["T"], nums: &[], after: T },
    Shape { kind: 7, name: "sb", args: &["a", "b", "angle", "flip"], lists: &["T", "S"], nums: &[], after: S },
    Shape { kind: 8, name: "sh", args: &["a", "b"], lists: &["T", "S"], nums: &[], after: T },
    Shape { kind: 10, name: "inverse_dct", args: &["n"], lists: &["T"], nums: &[], after: T },
    Shape { kind: 11, name: "inverse_adst", args: &["n"], lists: &["T"], nums: &[], after: T },
    Shape { kind: 12, name: "inverse_wht", args: &["shift"], lists: &["T"], nums: &[], after: T },
    Shape { kind: 20, name: "inverse_transform_2d", args: &["n", "type", "lossless"], lists: &["block"], nums: &["answer"], after: T },
    Shape { kind: 21, name: "inverse_transform_2d_reference", args: &["n", "type", "lossless"], lists: &["block"], nums: &["answer"], after: T },
    Shape { kind: 22, name: "reconstruct_block",
        args: &["x", "y", "size", "type", "lossless", "depth", "dc", "ac", "width", "height", "stride"],
        lists: &["tokens", "samples"], nums: &["answer"], after: S },
    Shape { kind: 23, name: "forward_wht_2d", args: &[], lists: &["block"], nums: &["answer"], after: T },
    Shape { kind: 24, name: "quantize_block_tx", args: &["dc", "ac", "size", "depth"], lists: &["coefs"], nums: &["answer"], after: T },
    Shape { kind: 25, name: "quantize_block", args: &["dc", "ac"], lists: &["coefs"], nums: &["answer"], after: T },
    Shape { kind: 26, name: "max_codeable_coef", args: &["depth"], lists: &[], nums: &["value"], after: NONE },
    Shape { kind: 30, name: "vbk", args: &[], lists: &["bytes"], nums: &["answer", "touched"], after: &[After::New, After::New] },
    Shape { kind: 31, name: "reconstruct_block_report",
        args: &["x", "y", "size", "type", "lossless", "depth", "dc", "ac", "width", "height", "stride"],
        lists: &["tokens", "samples", "counts", "sums"], nums: &["answer"], after: &[After::Lent(1), After::Lent(2), After::Lent(3)] },
    Shape { kind: 32, name: "row_summary", args: &["n"], lists: &["block", "summary"], nums: &["answer", "count", "first", "last"], after: S },
    Shape { kind: 33, name: "replace_token", args: &["size", "place", "token", "dc", "ac", "depth"], lists: &["block", "summary"],
        nums: &["answer"], after: &[After::Lent(0), After::Lent(1)] },
    Shape { kind: 34, name: "inverse_transform_2d_rows", args: &["n", "type", "lossless"], lists: &["block"], nums: &["answer", "rows"], after: T },
    Shape { kind: 35, name: "vbk_write", args: &["depth", "width", "height"],
        lists: &["samples", "xs", "ys", "sizes", "types", "lossless", "dcs", "acs", "counts", "tokens", "out"],
        nums: &["answer", "length"], after: &[After::Lent(10)] },
    Shape { kind: 36, name: "quantize", args: &["coef", "q", "size", "limit"], lists: &[], nums: &["token"], after: NONE },
    Shape { kind: 37, name: "inverse_transform_2d_32", args: &["n", "type", "lossless"], lists: &["block"], nums: &["answer"], after: T },
    Shape { kind: 38, name: "forward_dct_2d", args: &["n"], lists: &["block"], nums: &["answer"], after: T },
    Shape { kind: 39, name: "quantize_block_rule", args: &["dc", "ac", "size", "depth", "rule"], lists: &["coefs"], nums: &["answer"], after: T },
];

pub fn shape(kind: u32) -> Option<&'static Shape> {
    SHAPES.iter().find(|s| s.kind == kind)
}

#[derive(Clone, PartialEq)]
pub struct Call {
    pub kind: u32,
    pub args: Vec<i128>,
    pub lists: Vec<Vec<i64>>,
}

#[derive(Clone, PartialEq)]
pub struct Outcome {
    pub nums: Vec<i128>,
    pub lists: Vec<Vec<i64>>,
}

fn put_number(out: &mut Vec<u8>, v: i128) {
    let mut digits = [0u8; 20];
    let mut k = digits.len();
    let mut m = u64::try_from(v.unsigned_abs()).expect("a number of 64 bits");
    loop {
        k -= 1;
        digits[k] = b'0' + (m % 10) as u8;
        m /= 10;
        if m == 0 {
            break;
        }
    }
    if v < 0 {
        out.push(b'-');
    }
    out.extend_from_slice(&digits[k..]);
}

fn put_list(out: &mut Vec<u8>, list: &[i64]) {
    out.push(b' ');
    put_number(out, list.len() as i128);
    let mut i = 0;
    while i < list.len() {
        let mut run = 1;
        while i + run < list.len() && list[i + run] == list[i] {
            run += 1;
        }
        if run >= 3 {
            out.push(b' ');
            put_number(out, run as i128);
            out.push(b'*');
            put_number(out, list[i] as i128);
            i += run;
        } else {
            out.push(b' ');
            put_number(out, list[i] as i128);
            i += 1;
        }
    }
}

/// The line without its end. A list that stands as it was lent is written as -1.
pub fn write(call: &Call, outcome: &Outcome) -> Vec<u8> {
    let mut out = vec![];
    let shape = shape(call.kind).expect("a kind of the table");
    put_number(&mut out, call.kind as i128);
    for a in &call.args {
        out.push(b' ');
        put_number(&mut out, *a);
    }
    for l in &call.lists {
        put_list(&mut out, l);
    }
    for a in &outcome.nums {
        out.push(b' ');
        put_number(&mut out, *a);
    }
    for (l, after) in outcome.lists.iter().zip(shape.after) {
        match after {
            After::Lent(k) if *l == call.lists[*k] => out.extend_from_slice(b" -1"),
            _ => put_list(&mut out, l),
        }
    }
    out
}

struct Words<'a> {
    text: &'a [u8],
    at: usize,
}

impl Words<'_> {
    fn done(&self) -> bool {
        self.at >= self.text.len()
    }

    /// A number, and the character that ended it: a space, '*' or the end (0).
    fn number(&mut self) -> Result<(i128, u8), String> {
        let start = self.at;
        let mut v: i128 = 0;
        let minus = self.text.get(self.at) == Some(&b'-');
        if minus {
            self.at += 1;
        }
        let digits = self.at;
        while let Some(c @ b'0'..=b'9') = self.text.get(self.at) {
            v = v * 10 + i128::from(c - b'0');
            self.at += 1;
            if self.at - digits > 20 {
                return Err(format!("a number too long at byte {start}"));
            }
        }
        if self.at == digits {
            return Err(format!("no number at byte {start}"));
        }
        let end = match self.text.get(self.at) {
            None => 0,
            Some(c @ (b' ' | b'*')) => {
                self.at += 1;
                *c
            }
            Some(_) => return Err(format!("a strange character at byte {}", self.at)),
        };
        Ok((if minus { -v } else { v }, end))
    }

    fn plain(&mut self) -> Result<i128, String> {
        match self.number()? {
            (_, b'*') => Err("a run where one number stands".into()),
            (v, _) => Ok(v),
        }
    }

    fn list(&mut self, lent: Option<&Vec<i64>>) -> Result<Vec<i64>, String> {
        let count = self.plain()?;
        if count == -1 {
            return lent.cloned().ok_or_else(|| "-1 for a list that was not lent".into());
        }
        let count = usize::try_from(count).map_err(|_| "a bad length".to_string())?;
        let mut out = Vec::with_capacity(count.min(100_000));
        while out.len() < count {
            let (v, end) = self.number()?;
            let (run, v) = if end == b'*' { (v as usize, self.plain()?) } else { (1, v) };
            if out.len() + run > count {
                return Err("a run past the list's end".into());
            }
            let v = i64::try_from(v).map_err(|_| "a list's number beyond 64 bits".to_string())?;
            out.resize(out.len() + run, v);
        }
        Ok(out)
    }
}

/// The call, and its outcome if the line goes on.
pub fn read(text: &[u8]) -> Result<(Call, Option<Outcome>), String> {
    let mut w = Words { text, at: 0 };
    let kind = w.plain()? as u32;
    let shape = shape(kind).ok_or_else(|| format!("no kind {kind}"))?;
    let args = shape.args.iter().map(|_| w.plain()).collect::<Result<_, _>>()?;
    let lists = shape.lists.iter().map(|_| w.list(None)).collect::<Result<_, _>>()?;
    let call = Call { kind, args, lists };
    if w.done() {
        return Ok((call, None));
    }
    let nums = shape.nums.iter().map(|_| w.plain()).collect::<Result<_, _>>()?;
    let mut after = vec![];
    for a in shape.after {
        after.push(match a {
            After::Lent(k) => w.list(Some(&call.lists[*k]))?,
            After::New => w.list(None)?,
        });
    }
    if !w.done() {
        return Err("words past the line's end".into());
    }
    Ok((call, Some(Outcome { nums, lists: after })))
}
