//! "Tools that read a map get the page a map register names as a part of the caller's memory, or an empty part if it isn't
//! wholly below L."

use kt11b::{map_page, LONGEST_MEMORY};

#[test]
fn a_part_of_the_callers_memory() {
    let memory: Vec<u8> = (0..65_536u32).map(|place| (place / 512) as u8).collect();
    for word in [0o000001u16, 0o004005, 0o177001, 0o000177] {
        let page = map_page(&memory, word);
        let first = usize::from(word & 0o777) * 512;
        assert_eq!(page.len(), 512);
        assert!(std::ptr::eq(page.as_ptr(), &memory[first]));
        assert!(page.iter().all(|&byte| u16::from(byte) == word & 0o777));
    }
}

/// Every page number at lengths about its end, whatever N is.
#[test]
fn only_if_it_is_wholly_there() {
    let memory = vec![0u8; LONGEST_MEMORY + 1024];
    for page in 0..0o1000usize {
        for length in [0, 512 * page, 512 * page + 511, 512 * page + 512, 512 * page + 513] {
            let length = length.min(memory.len());
            let there = 512 * page + 512 <= length;
            for high in [0, 0o004000, 0o177000] {
                let found = map_page(&memory[..length], high | page as u16);
                assert_eq!(found.len(), if there { 512 } else { 0 }, "page {page:o} of {length}");
            }
        }
    }
}
