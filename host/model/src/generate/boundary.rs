//! Walks at the boundary of a map register: of its last simple page, which is page N, and of the first page beyond it, N + 1.

use crate::access::{length_fits, Request};
use crate::bench::Call;
use crate::maps::{last_simple_page, route, Entry, Route};
use crate::registers::Target;
use crate::state::{Unit, Wait, KTAD, KTEM, KTUM};

/// The last simple page of a map register and the first beyond it. With N=127 there is none beyond.
pub(super) fn boundary_pages(register: u16) -> impl Iterator<Item = u16> {
    (last_simple_page(register)..128).take(2)
}

/// How a page at the boundary was walked: simple at p = N, and otherwise at p = N + 1.
#[derive(Clone, Copy, PartialEq, Eq, Debug)]
pub enum BoundaryWalk {
    ExecSimple,
    ExecPerProcess,
    UserSimple,
    UserShared,
}

impl BoundaryWalk {
    /// What the statistics call it.
    pub(super) fn name(self) -> &'static str {
        match self {
            BoundaryWalk::ExecSimple => "walk at p = N, exec simple",
            BoundaryWalk::ExecPerProcess => "walk at p = N + 1, exec per process",
            BoundaryWalk::UserSimple => "walk at p = N, user simple",
            BoundaryWalk::UserShared => "walk at p = N + 1, user shared",
        }
    }
}

/// The finished walks at a boundary that a call is going to make, each with N: of the access's own page, and of a window's inner one.
pub fn boundary_walks(unit: &Unit, memory: &[u8], call: Call) -> Vec<(BoundaryWalk, u16)> {
    let Some(request) = looking_up(unit, memory, call) else { return Vec::new() };
    let user = unit.user_mode();
    let mut probe = *unit;
    let outer = probe.reach(memory, &request, user, request.address);
    let mut walks = Vec::from_iter(walked(unit, &probe, user, request.address));
    if outer.is_ok_and(|outer| goes_to_window(unit, memory, &request, &outer)) {
        let reached = probe;
        let inner = unit.registers()[KTAD];
        // Whether the inner page refuses the access or not, its walk was made.
        let _ = probe.reach(memory, &request, true, inner);
        walks.extend(walked(&reached, &probe, true, inner));
    }
    walks
}

/// The access, if it is one that looks its page up: paged, and no sequence has a say.
fn looking_up(unit: &Unit, memory: &[u8], call: Call) -> Option<Request> {
    let Call::Access { operation, state, width, address, data } = call else { return None };
    let request = Request::shaped(operation, state, width, address, data)?;
    let in_sequence = unit.wait() != Wait::None || (unit.fcn() == 3 && !request.fetch());
    let looks_up = length_fits(memory.len()) && !in_sequence && unit.paged(&request);
    looks_up.then_some(request)
}

/// Whether an access that has reached its page goes on to the page of KTAD: its target is the window, it is no fetch, and privacy passes.
pub(super) fn goes_to_window(unit: &Unit, memory: &[u8], request: &Request, outer: &Entry) -> bool {
    let target = Target::at(outer.physical(request.address), memory.len(), unit.cells());
    target == Target::Window && !request.fetch() && !unit.breaks_privacy(request, outer)
}

/// "A finished walk fills the cell the counter names, then the counter steps": so it tells whether there was one.
fn walked(before: &Unit, after: &Unit, user: bool, address: u16) -> Option<(BoundaryWalk, u16)> {
    let stepped = before.counter() != after.counter();
    stepped.then(|| at_boundary(before, user, address >> 9)).flatten()
}

fn at_boundary(unit: &Unit, user: bool, page: u16) -> Option<(BoundaryWalk, u16)> {
    let registers = unit.registers();
    let [ktum, ktem] = [registers[KTUM], registers[KTEM]];
    let last_simple = last_simple_page(if user { ktum } else { ktem });
    let [is_last, is_next] = [page == last_simple, page == last_simple + 1];
    let walk = match route(ktum, ktem, user, page) {
        Route::ExecSimple(_) if is_last => BoundaryWalk::ExecSimple,
        Route::ExecPerProcess(_) if is_next => BoundaryWalk::ExecPerProcess,
        Route::UserSimple(_) if is_last => BoundaryWalk::UserSimple,
        Route::UserShared(_) if is_next => BoundaryWalk::UserShared,
        _ => return None,
    };
    Some((walk, last_simple))
}
