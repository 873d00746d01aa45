//! The lowest byte that two ranges share and the elements that cover it, in plain Rust: by a loop over the elements, and by
//! the proved code's own algorithm.

/// The bytes base + k * stride + j, with k below count and j below size.
#[derive(Clone, Copy, Debug)]
pub struct Range {
    pub base: u32,
    pub stride: u16,
    pub count: u16,
    pub size: u8,
}

impl Range {
    /// Count at least 1, stride 0 exactly when it is 1, size 1, 2, 4 or 8, last byte at most 4,294,967,295.
    #[inline]
    pub fn is_good(&self) -> bool {
        self.count >= 1
            && (self.stride == 0) == (self.count == 1)
            && matches!(self.size, 1 | 2 | 4 | 8)
            && self.last_byte() <= u32::MAX as u64
    }

    /// For a count and size of at least 1.
    #[inline]
    pub fn last_byte(&self) -> u64 {
        self.start_of(self.count as u64 - 1) + (self.size as u64 - 1)
    }

    fn start_of(&self, element: u64) -> u64 {
        self.base as u64 + element * self.stride as u64
    }

    /// The lowest element that covers a byte, for a byte that some element covers: the first that ends past it.
    #[inline]
    pub fn element_at(&self, byte: u32) -> u16 {
        let (distance, size) = (byte - self.base, self.size as u32);
        if distance < size { 0 } else { ((distance - size) / self.stride as u32 + 1) as u16 }
    }
}

/// The lowest byte that two ranges share, and the lowest element of each that covers it.
#[derive(Clone, Copy, Debug, PartialEq, Eq)]
pub struct Overlap {
    pub byte: u32,
    pub first_element: u32,
    pub second_element: u32,
}

/// The form of the exported function, which all that are compared have: the two ranges, found, the byte, the two elements,
/// the place of a refusal; the answer is the refusal's number or 0.
pub type SharedByte = unsafe extern "C" fn(
    u32,
    u16,
    u16,
    u8,
    u32,
    u16,
    u16,
    u8,
    &mut u32,
    &mut u32,
    &mut u32,
    &mut u32,
    &mut usize,
) -> u32;

/// The byte with its elements or none, or refusal 5 at 1 or 2.
fn answer(
    first: Range,
    second: Range,
    lowest: impl Fn(Range, Range) -> Option<Overlap>,
) -> Result<Option<Overlap>, usize> {
    if !first.is_good() {
        return Err(1);
    }
    if !second.is_good() {
        return Err(2);
    }
    Ok(lowest(first, second))
}

/// Steps through the elements of both ranges in the order of their starts. An element that is passed over ends before the byte
/// that is found, so those that are left are the lowest that cover it.
fn by_elements(first: Range, second: Range) -> Option<Overlap> {
    let (mut i, mut j) = (0, 0);
    while i < first.count as u64 && j < second.count as u64 {
        let one = first.start_of(i);
        let other = second.start_of(j);
        if one + first.size as u64 <= other {
            i += 1;
        } else if other + second.size as u64 <= one {
            j += 1;
        } else {
            return Some(Overlap { byte: one.max(other) as u32, first_element: i as u32, second_element: j as u32 });
        }
    }
    None
}

/// The least (one, other) with other * pace + low <= one * stride <= other * pace + high, one below count and other
/// below limit.
fn first_pair(stride: u64, pace: u64, low: u64, high: u64, count: u64, limit: u64) -> Option<(u64, u64)> {
    if (count - 1) * stride < low {
        return None;
    }
    let element = low.div_ceil(stride);
    let start = element * stride;
    if start <= high {
        return Some((element, 0));
    }
    let (one, other) = first_pair(pace % stride, stride, start - high, start - low, limit, count - element)?;
    let sum = element + other + pace / stride * one;
    (sum < count).then_some((sum, one))
}

/// Euclid's algorithm on the strides. It finds the same pair as the loop: of each range the first element that shares a byte
/// with the other range.
#[inline]
pub fn by_euclid(first: Range, second: Range) -> Option<Overlap> {
    let in_order = first.base <= second.base;
    let (lower, upper) = if in_order { (first, second) } else { (second, first) };
    let distance = (upper.base - lower.base) as u64;
    if distance < lower.size as u64 {
        return Some(Overlap { byte: upper.base, first_element: 0, second_element: 0 });
    }
    let low = distance + 1 - lower.size as u64;
    let high = distance + upper.size as u64 - 1;
    let (one, other) = first_pair(
        lower.stride as u64,
        upper.stride as u64,
        low,
        high,
        lower.count as u64,
        upper.count as u64,
    )?;
    let byte = lower.start_of(one).max(upper.start_of(other)) as u32;
    let (first_element, second_element) =
        if in_order { (one as u32, other as u32) } else { (other as u32, one as u32) };
    Some(Overlap { byte, first_element, second_element })
}

macro_rules! as_exported {
    ($name:ident, $lowest:ident) => {
        #[inline(never)]
        pub extern "C" fn $name(
            base: u32,
            stride: u16,
            count: u16,
            size: u8,
            other_base: u32,
            other_stride: u16,
            other_count: u16,
            other_size: u8,
            found: &mut u32,
            byte: &mut u32,
            element: &mut u32,
            other_element: &mut u32,
            place: &mut usize,
        ) -> u32 {
            let first = Range { base, stride, count, size };
            let second = Range { base: other_base, stride: other_stride, count: other_count, size: other_size };
            let answer = answer(first, second, $lowest);
            let none = Overlap { byte: 0, first_element: 0, second_element: 0 };
            let overlap = answer.unwrap_or(None).unwrap_or(none);
            *found = matches!(answer, Ok(Some(_))) as u32;
            *byte = overlap.byte;
            *element = overlap.first_element;
            *other_element = overlap.second_element;
            *place = answer.err().unwrap_or(0);
            if answer.is_ok() { 0 } else { 5 }
        }
    };
}

as_exported!(shared_by_elements, by_elements);
as_exported!(shared_by_euclid, by_euclid);

/// Asks one of the three: the byte with its elements or none, or the place of refusal 5.
#[inline(always)]
pub fn ask(shared_byte: SharedByte, first: &Range, second: &Range) -> Result<Option<Overlap>, usize> {
    let (mut found, mut byte, mut first_element, mut second_element, mut place) = (0, 0, 0, 0, 0);
    // Any numbers may be passed, so the proved function is safe to call; so are those of Rust.
    let refusal = unsafe {
        shared_byte(
            first.base,
            first.stride,
            first.count,
            first.size,
            second.base,
            second.stride,
            second.count,
            second.size,
            &mut found,
            &mut byte,
            &mut first_element,
            &mut second_element,
            &mut place,
        )
    };
    match refusal {
        0 => Ok((found != 0).then_some(Overlap { byte, first_element, second_element })),
        _ => Err(place),
    }
}
