//! The questions before running and loading: each "no" has its number.

use crate::state::{DURATIONS, PAGE_REGISTERS, PORTS};

/// The most steps of one run.
const BUDGET_LIMIT: u32 = 1_000_000;

/// 1: memory is a multiple of 4,096 words, from 4,096 to 1,048,576.
pub(crate) fn memory(memory: &[u16]) -> Result<(), u32> {
    let size = memory.len();
    if size.is_multiple_of(4096) && (4096..=1_048_576).contains(&size) {
        Ok(())
    } else {
        Err(1)
    }
}

/// 2: there are exactly 512 page registers.
pub(crate) fn pages(pages: &mut [u16]) -> Result<&mut [u16; PAGE_REGISTERS], u32> {
    pages.try_into().map_err(|_| 2)
}

/// 3: there are exactly 1,024 ports.
pub(crate) fn ports(ports: &mut [u16]) -> Result<&mut [u16; PORTS], u32> {
    ports.try_into().map_err(|_| 3)
}

/// 17: there are exactly 257 durations.
pub(crate) fn durations(durations: &[u16]) -> Result<&[u16; DURATIONS], u32> {
    durations.try_into().map_err(|_| 17)
}

/// 4: the budget is at most 1,000,000. 5: the counter has room for it.
pub(crate) fn budget(counter: u32, budget: u32) -> Result<(), u32> {
    if budget > BUDGET_LIMIT {
        return Err(4);
    }
    match counter.checked_add(budget) {
        Some(_) => Ok(()),
        None => Err(5),
    }
}
