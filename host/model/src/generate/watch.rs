//! What the summary looks at before and after each call.

use super::boundary::{boundary_walks, goes_to_window, BoundaryWalk};
use super::stats::{filled_all_cells, went_round, Stats};
use super::stats::{CELLS_FILLED, COUNTER_ROUND, PAST_ALL_WORDS, UPPER_WORDS};
use crate::access::{unpaged_physical, Operation, Request};
use crate::bench::Call;
use crate::instruction::Kind;
use crate::maps::{pointed_place, route, tag_of, Route};
use crate::registers::{word_at, Target};
use crate::state::{Reply, Unit, Wait, DS, ERRORS, FEW_CELLS, KTAD, KTEM, KTUM, SS};

/// A call, the unit before it, and what is foreseen of it.
pub(super) struct Watch {
    before: Unit,
    call: Call,
    request: Option<Request>,
    mode: &'static str,
    look_up: Option<&'static str>,
    /// The walks at a boundary, each with N.
    boundary: Vec<(BoundaryWalk, u16)>,
    window: Option<&'static str>,
    /// Where step 10 looks for the target, and how the access got there.
    target: Option<(u32, &'static str)>,
    /// Places of the map words and pointers of the pages in the cells.
    held_places: Vec<u32>,
    held_pointers: Vec<u32>,
}

impl Watch {
    pub fn new(before: &Unit, memory: &[u8], call: Call) -> Watch {
        let request = match call {
            Call::Access { operation, state, width, address, data } => {
                Request::shaped(operation, state, width, address, data)
            }
            _ => None,
        };
        let mode = mode(before, &call, request.as_ref());
        let mut watch = Watch {
            before: *before,
            call,
            request,
            mode,
            look_up: None,
            boundary: boundary_walks(before, memory, call),
            window: None,
            target: None,
            held_places: Vec::new(),
            held_pointers: Vec::new(),
        };
        watch.foresee(memory);
        watch
    }

    /// Follows an access that no sequence takes as far as its outer page and its window.
    fn foresee(&mut self, memory: &[u8]) {
        let Some(request) = self.request else { return };
        if !self.mode.starts_with("FCN") {
            return;
        }
        if !self.before.paged(&request) {
            let physical = unpaged_physical(request.address);
            let target = Target::at(physical, memory.len(), self.before.cells());
            self.window = (target == Target::Window).then_some("unpaged");
            self.target = Some((physical, "unpaged"));
            return;
        }
        self.hold(memory);
        self.target = paged_target(&self.before, memory, &request);
        self.look_up = Some(look_up(&self.before, memory, &request));
        self.window = window(&self.before, memory, &request);
    }

    fn hold(&mut self, memory: &[u8]) {
        let registers = self.before.registers();
        for tag in self.before.tags().iter().copied().filter(|&tag| tag != 0) {
            let page = u16::from(tag & 0o177);
            match route(registers[KTUM], registers[KTEM], tag & 0o200 != 0, page) {
                Route::ExecZero => {}
                Route::ExecSimple(at) | Route::ExecPerProcess(at) | Route::UserSimple(at) => {
                    self.held_places.push(at);
                }
                Route::UserShared(at) => {
                    self.held_pointers.push(at);
                    let pointer = word_at(memory, at as usize).unwrap_or(0);
                    self.held_places.push(pointed_place(pointer));
                }
            }
        }
    }

    /// Counts the call, now that its reply is known.
    pub fn count(&self, stats: &mut Stats, after: &Unit, reply: Reply) {
        stats.answer(self.mode, reply.answer);
        stats.count_if(filled_all_cells(&self.before, after), CELLS_FILLED);
        stats.count_if(went_round(&self.before, after), COUNTER_ROUND);
        let user = if self.before.user_mode() { "user" } else { "exec" };
        match self.call {
            Call::Access { .. } => self.count_access(stats, after, reply),
            Call::Interrupt => stats.count(format!("interrupt {user}: answer {}", reply.answer)),
            Call::Trap { vector } => {
                stats.count(format!("trap {vector:02o}: answer {}", reply.answer));
                let taken = after.wait() != self.before.wait();
                stats.count_if(taken, format!("trap {vector:02o} {user}: taken"));
                let left = reply.answer == 0 && vector == 0o34 && !taken;
                stats.count_if(left, format!("trap 34 {user}: left to the processor"));
            }
            Call::Init => stats.count("INIT"),
        }
    }

    fn count_access(&self, stats: &mut Stats, after: &Unit, reply: Reply) {
        let Some(request) = self.request else { return };
        if let Some(look_up) = self.look_up {
            stats.count(format!("look-up: {look_up}"));
        }
        self.count_boundary(stats);
        if let Some(window) = self.window {
            stats.count(format!("window {window}: answer {}", reply.answer));
        }
        if let Some((0o777640..=0o777677, how)) = self.target {
            stats.count(format!("{UPPER_WORDS}, {how}: answer {}", reply.answer));
        }
        if let Some((0o777700..=0o777701, how)) = self.target {
            stats.count(format!("{PAST_ALL_WORDS}, {how}: answer {}", reply.answer));
        }
        if reply.answer == 0 && !self.mode.starts_with("FCN") {
            stats.count(sequence_name(self.before.wait()));
            return;
        }
        if self.mode.starts_with("FCN") && !request.fetch() && reply.answer != 3 {
            self.count_marks(stats, after, &request);
        }
        if request.fetch() {
            self.count_fetch(stats, after, reply);
        }
        if let (0, Some(physical)) = (reply.answer, reply.physical) {
            self.count_target(stats, &request, physical);
        }
    }

    /// The walks at a boundary, and apart from them those with the least and the greatest N.
    fn count_boundary(&self, stats: &mut Stats) {
        for (walk, last_simple) in &self.boundary {
            let name = walk.name();
            stats.count(name);
            let at_an_end = matches!(last_simple, 0 | 1 | 126 | 127);
            stats.count_if(at_an_end, format!("{name}, N = {last_simple}"));
        }
    }

    /// Which kinds of instruction moved SS and DS, and what kept them from moving.
    fn count_marks(&self, stats: &mut Stats, after: &Unit, request: &Request) {
        let kind = Kind::of(self.before.fetch_memory().last);
        let fcn = self.before.fcn();
        let risen = after.ktcs() & !self.before.ktcs();
        stats
            .count_if(risen & SS != 0, format!("SS set, FCN {fcn}, {kind:?}, {:?}", request.state));
        stats
            .count_if(risen & DS != 0, format!("DS set, FCN {fcn}, {kind:?}, {:?}", request.state));
        let executing = matches!(kind, Kind::Jsr | Kind::Rts | Kind::Rti | Kind::Trap);
        let flags = self.before.ktcs() & ERRORS != 0;
        stats.count_if(executing && flags, "SS and DS held by error flags");
    }

    fn count_fetch(&self, stats: &mut Stats, after: &Unit, reply: Reply) {
        let kind = Kind::of(reply.data);
        let was_public = self.before.fetch_memory().public;
        match reply.answer {
            0 => {
                let register = reply.physical >= Some(0o760000);
                stats.count_if(register, "fetch from a register");
                stats.count_if(!register, format!("fetch {kind:?}"));
                let entered = was_public && !after.fetch_memory().public;
                let entered = entered && kind == Kind::EntryPoint;
                stats.count_if(entered, "fetch at an entry point, public to private");
            }
            8 if was_public && kind != Kind::Privileged => stats.count("IV by entry point"),
            8 => stats.count("IV by privileged word or both"),
            _ => {}
        }
    }

    fn count_target(&self, stats: &mut Stats, request: &Request, physical: u32) {
        let width = if request.byte { "byte" } else { "word" };
        let action = match request.operation {
            _ if request.fetch() => "fetch",
            Operation::Dati | Operation::Datip => "read",
            Operation::Dato | Operation::Datob => "store",
        };
        let name = match Target::at(physical, 0o200000, self.before.cells()) {
            Target::Ktmr => "KTMR",
            Target::Ktcs => "KTCS",
            Target::Register(KTUM) => "KTUM",
            Target::Register(KTEM) => "KTEM",
            Target::Register(_) => "another register",
            Target::Scratchpad(cell) if self.before.tags()[cell] != 0 => "held scratchpad word",
            Target::Scratchpad(_) => "empty scratchpad word",
            _ => return self.count_map_store(stats, action, physical & !1),
        };
        let paged = if self.before.paged(request) { "paged" } else { "unpaged" };
        stats.count(format!("{name}: {width} {action}, {paged}"));
    }

    fn count_map_store(&self, stats: &mut Stats, action: &str, place: u32) {
        if action != "store" {
            return;
        }
        stats.count_if(self.held_places.contains(&place), "store into a map word of a held page");
        stats.count_if(self.held_pointers.contains(&place), "store into a pointer of a held page");
    }
}

fn sequence_name(wait: Wait) -> &'static str {
    match wait {
        Wait::None => "START: first read",
        Wait::SecondStart => "START: second read",
        Wait::Status => "SERVICE: first store",
        Wait::ProgramCounter => "SERVICE: second store",
    }
}

fn mode(unit: &Unit, call: &Call, request: Option<&Request>) -> &'static str {
    let request = match (call, request) {
        (Call::Access { .. }, Some(request)) => request,
        (Call::Access { .. }, None) => return "access of bad shape",
        (Call::Interrupt, _) => return "interrupt",
        (Call::Trap { .. }, _) => return "trap",
        (Call::Init, _) => return "INIT",
    };
    match (unit.wait(), unit.fcn(), unit.paged(request), unit.user_mode()) {
        (Wait::Status | Wait::ProgramCounter, ..) => "SERVICE due",
        (Wait::SecondStart, ..) => "START second due",
        (Wait::None, 3, ..) if !request.fetch() => "START first due",
        (Wait::None, 0, _, false) => "FCN 0 exec",
        (Wait::None, 0, _, true) => "FCN 0 user",
        (Wait::None, 1, false, false) => "FCN 1 unpaged exec",
        (Wait::None, 1, false, true) => "FCN 1 unpaged user",
        (Wait::None, 1, true, false) => "FCN 1 paged exec",
        (Wait::None, 1, true, true) => "FCN 1 paged user",
        (Wait::None, 2, _, false) => "FCN 2 exec",
        (Wait::None, 2, _, true) => "FCN 2 user",
        (Wait::None, _, _, false) => "FCN 3 fetch exec",
        (Wait::None, _, _, true) => "FCN 3 fetch user",
    }
}

/// How the outer page of a paged access gets its entry.
fn look_up(before: &Unit, memory: &[u8], request: &Request) -> &'static str {
    let user = before.user_mode();
    if !request.byte && request.address & 1 == 1 {
        return "none, odd word";
    }
    let tag = tag_of(user, request.address);
    match before.hit(tag) {
        Some(0..FEW_CELLS) if tag != 0 => return "hit",
        Some(_) if tag != 0 => return "hit, past the eighth cell",
        _ => {}
    }
    let mut probe = *before;
    let registers = before.registers();
    let finished = probe.entry(memory, user, request.address).is_ok();
    match route(registers[KTUM], registers[KTEM], user, request.address >> 9) {
        Route::ExecZero => "exec page 0",
        Route::ExecSimple(_) if finished => "walk, exec simple",
        Route::ExecPerProcess(_) if finished => "walk, exec per process",
        Route::UserSimple(_) if finished => "walk, user simple",
        Route::UserShared(_) if finished => "walk, user shared",
        Route::UserShared(place) if word_at(memory, place as usize).is_some() => {
            "walk ran off memory after a pointer"
        }
        Route::UserShared(_) => "walk ran off memory at a pointer",
        _ => "walk ran off memory at a map word",
    }
}

/// Where a paged access looks for its target, if nothing refuses it before.
fn paged_target(before: &Unit, memory: &[u8], request: &Request) -> Option<(u32, &'static str)> {
    let mut probe = *before;
    let outer = probe.reach(memory, request, before.user_mode(), request.address).ok()?;
    if !goes_to_window(before, memory, request, &outer) {
        let passes = !before.breaks_privacy(request, &outer);
        return passes.then(|| (outer.physical(request.address), "paged"));
    }
    let address = before.registers()[KTAD];
    let inner = probe.reach(memory, request, true, address).ok()?;
    Some((inner.physical(address), "by the window"))
}

/// Where a paged access to the window gets, or none if it is not one.
fn window(before: &Unit, memory: &[u8], request: &Request) -> Option<&'static str> {
    let mut probe = *before;
    let user = before.user_mode();
    let outer = probe.entry(memory, user, request.address).ok()?;
    if Target::at(outer.physical(request.address), memory.len(), before.cells()) != Target::Window {
        return None;
    }
    if request.fetch() {
        return Some("by fetch");
    }
    let reached = probe.reach(memory, request, user, request.address).is_ok();
    if !reached || probe.breaks_privacy(request, &outer) {
        return Some("outer fault");
    }
    let address = before.registers()[KTAD];
    let Ok(inner) = probe.entry(memory, true, address) else {
        return Some("inner, walk ran off memory");
    };
    Some(match Target::at(inner.physical(address), memory.len(), before.cells()) {
        Target::Window => "on window",
        Target::Memory(_) => "inner, memory",
        Target::Nothing => "inner, nothing there",
        _ => "inner, register",
    })
}
