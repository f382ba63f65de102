//! Lists with a mark in every word, which show what a call has written.

/// A word of a list; no coordinate and no index of a drawn patch is its mark.
pub trait Word: Copy + PartialEq {
    const MARK: Self;
}

impl Word for u32 {
    const MARK: u32 = 0xDEAD_BEEF;
}

impl Word for u16 {
    const MARK: u16 = 0xBEEF;
}

pub fn marked<W: Word>(words: usize) -> Vec<W> {
    vec![W::MARK; words]
}

/// Whether the first words of a marked list, so many, were written, and none behind them.
pub fn is_written<W: Word>(list: &[W], words: usize) -> bool {
    let (written, behind) = list.split_at(words);
    written.iter().all(|word| *word != W::MARK) && is_untouched(behind)
}

pub fn is_untouched<W: Word>(list: &[W]) -> bool {
    list.iter().all(|word| *word == W::MARK)
}
