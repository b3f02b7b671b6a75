//! A plain model of the KT11-B paging unit, written from its rules alone, for comparison and as a speed baseline.

mod access;
mod instruction;
mod maps;
mod registers;
mod state;

pub mod bench;
pub mod generate;
pub mod options;

pub use instruction::Kind;
pub use maps::{is_simple, last_simple_page, map_page, pointed_place, route, Route};
pub use registers::Target;
pub use state::{
    FetchMemory, Reply, Unit, Wait, AV, DS, ERRORS, FCN, FEW_CELLS, IU, IV, KTAD, KTDT, KTEM, KTIC,
    KTPC, KTPS, KTSP, KTUM, MANY_CELLS, OTHER_COUNT, PV, RV, SS, UM, VECTORS, WV,
};
