//! Ranges, lists and their checks.

/// What a call gives: its values, or the number of its refusal.
pub type Answer<T> = Result<T, u32>;

pub const UNITS_MOST: u32 = 16_777_216;
pub const LIST_MOST: usize = 65_536;
pub const SPARES_MOST: u32 = 65_536;

/// Refuses with `number` where there is a fault.
pub fn refuse(fault: bool, number: u32) -> Answer<()> {
    if fault {
        Err(number)
    } else {
        Ok(())
    }
}

/// N is 1 to 16,777,216.
pub fn check_size(n: u32) -> Answer<()> {
    refuse(n < 1 || n > UNITS_MOST, 1)
}

/// A sector has 512 or 576 bytes of data.
pub fn check_data_size(size: u32) -> Answer<()> {
    refuse(![512, 576].contains(&size), 1)
}

/// A list over a space of `size`: its length, then the lowest place at fault, 3 before 4.
pub fn check_list(size: u32, list: &[u32]) -> Answer<()> {
    refuse(list.len() > LIST_MOST, 2)?;
    for place in 0..list.len() {
        refuse(place > 0 && list[place] <= list[place - 1], 3)?;
        refuse(list[place] >= size, 4)?;
    }
    Ok(())
}

/// Writes `values` to the first places of `room`; the caller has checked that they fit.
pub fn fill<T: Copy>(room: &mut [T], values: &[T]) {
    for (place, value) in values.iter().enumerate() {
        room[place] = *value;
    }
}
