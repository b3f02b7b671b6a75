//! The access call: its shape, its steps in 01's order, and what a refusal leaves behind.

use crate::instruction::Kind;
use crate::maps::{tag_of, Entry, RanOff};
use crate::registers::{Part, Target};
use crate::state::{
    Reply, Unit, Wait, AV, DS, ERRORS, FCN, IV, KTAD, KTDT, KTIC, KTPC, KTPS, KTSP, PV, RV, SS, UM,
    WV,
};

/// The lent memory ends at 760000o at the latest.
const LONGEST_MEMORY: usize = 0o760000;

/// "10 takes 9's place at step 6, also in the window's inner walk; 9 stays at step 10."
const RAN_OFF_MEMORY: u8 = 10;
const TIME_OUT: u8 = 9;

#[derive(Clone, Copy, PartialEq, Eq, Debug)]
pub(crate) enum Operation {
    Dati,
    Datip,
    Dato,
    Datob,
}

#[derive(Clone, Copy, PartialEq, Eq, Debug)]
pub(crate) enum State {
    Fetch,
    Source,
    Destination,
    Execute,
    Service,
}

/// An access whose shape is right.
#[derive(Clone, Copy, Debug)]
pub(crate) struct Request {
    pub operation: Operation,
    pub state: State,
    pub byte: bool,
    pub address: u16,
    pub data: u16,
}

/// Why and where a paged access was refused.
struct Fault {
    answer: u8,
    tag: u8,
    inner: bool,
}

fn operation_numbered(number: u64) -> Option<Operation> {
    match number {
        0 => Some(Operation::Dati),
        1 => Some(Operation::Datip),
        2 => Some(Operation::Dato),
        3 => Some(Operation::Datob),
        _ => None,
    }
}

fn state_numbered(number: u64) -> Option<State> {
    match number {
        0 => Some(State::Fetch),
        1 => Some(State::Source),
        2 => Some(State::Destination),
        3 => Some(State::Execute),
        4 => Some(State::Service),
        _ => None,
    }
}

impl Request {
    /// Step 1 without the memory's length.
    pub fn shaped(operation: u64, state: u64, width: u64, address: u16, data: u16) -> Option<Self> {
        let operation = operation_numbered(operation)?;
        let state = state_numbered(state)?;
        let byte = match width {
            0 => false,
            1 => true,
            _ => return None,
        };
        let width_fits = match operation {
            Operation::Dato => !byte,
            Operation::Datob => byte,
            Operation::Dati | Operation::Datip => true,
        };
        let fetch_fits = state != State::Fetch || (operation == Operation::Dati && !byte);
        let request = Request { operation, state, byte, address, data };
        (width_fits && fetch_fits).then_some(request)
    }

    pub fn fetch(&self) -> bool {
        self.state == State::Fetch
    }

    pub fn stores(&self) -> bool {
        matches!(self.operation, Operation::Dato | Operation::Datob)
    }

    /// "the store's data .. else 0"; all 16 bits, also of a DATOB.
    fn stored_data(&self) -> u16 {
        if self.stores() {
            self.data
        } else {
            0
        }
    }

    fn odd_word(&self, address: u16) -> bool {
        !self.byte && address & 1 == 1
    }

    fn part(&self, physical: u32) -> Part {
        match (self.byte, physical & 1) {
            (false, _) => Part::Word,
            (true, 0) => Part::Low,
            (true, _) => Part::High,
        }
    }
}

/// 160000o-177777o become 760000o-777777o.
pub(crate) fn unpaged_physical(address: u16) -> u32 {
    let top = if address >= 0o160000 { 0o600000 } else { 0 };
    u32::from(address) | top
}

pub(crate) fn length_fits(length: usize) -> bool {
    length & 1 == 0 && length <= LONGEST_MEMORY
}

/// The flag of a refusal; a time-out and a walk that ran off memory have none.
fn flag_of(answer: u8) -> u16 {
    match answer {
        4 => AV,
        5 => RV,
        6 => WV,
        7 => PV,
        8 => IV,
        _ => 0,
    }
}

impl Unit {
    /// One access, in the order of 01's eleven steps.
    pub fn access(
        &mut self,
        memory: &mut [u8],
        operation: u64,
        state: u64,
        width: u64,
        address: u16,
        data: u16,
    ) -> Reply {
        let request = match Request::shaped(operation, state, width, address, data) {
            Some(request) if length_fits(memory.len()) => request,
            _ => return Reply::bare(1),
        };
        if let Some(reply) = self.sequence(&request) {
            return reply;
        }
        let paged = self.paged(&request);
        if !paged && request.odd_word(address) {
            return Reply::bare(3);
        }
        self.step_four(&request);
        if paged {
            self.paged_access(memory, &request)
        } else {
            self.unpaged_access(memory, &request)
        }
    }

    /// Step 2: an access of a sequence, taken or refused; none if no sequence has a say.
    fn sequence(&mut self, request: &Request) -> Option<Reply> {
        match self.wait {
            Wait::Status | Wait::ProgramCounter => Some(self.service_store(request)),
            Wait::SecondStart => Some(self.start_read(request)),
            Wait::None if self.fcn() == 3 && !request.fetch() => Some(self.start_read(request)),
            Wait::None => None,
        }
    }

    fn service_store(&mut self, request: &Request) -> Reply {
        if request.operation != Operation::Dato || request.state != State::Service {
            return Reply::bare(2);
        }
        if self.wait == Wait::Status {
            self.registers[KTPS] = request.data;
            self.wait = Wait::ProgramCounter;
        } else {
            self.registers[KTSP] = request.address;
            self.registers[KTPC] = request.data;
            self.wait = Wait::None;
        }
        Reply::bare(0)
    }

    /// "They give KTPC, then KTPS, address ignored; the second sets UM, FCN 2 and clears fetch memory."
    fn start_read(&mut self, request: &Request) -> Reply {
        if request.fetch() || request.byte || request.operation != Operation::Dati {
            return Reply::bare(2);
        }
        if self.wait == Wait::None {
            self.wait = Wait::SecondStart;
            return Reply { data: self.registers[KTPC], ..Reply::bare(0) };
        }
        self.wait = Wait::None;
        self.ktcs = (self.ktcs & !FCN) | UM | 2;
        self.fetched = Default::default();
        Reply { data: self.registers[KTPS], ..Reply::bare(0) }
    }

    pub(crate) fn paged(&self, request: &Request) -> bool {
        match self.fcn() {
            0 => false,
            1 => matches!(request.state, State::Destination | State::Execute),
            _ => true,
        }
    }

    /// Step 4: the counts always; KTIC, SS and DS only while bits 15-11 are clear.
    fn step_four(&mut self, request: &Request) {
        let earlier = self.fetched;
        if !request.fetch() {
            let dato = u8::from(request.operation == Operation::Dato);
            self.fetched.accesses = (earlier.accesses + 1).min(2);
            self.fetched.datos = (earlier.datos + dato).min(2);
        }
        if self.ktcs & ERRORS != 0 {
            return;
        }
        match (self.fcn(), request.fetch()) {
            (2 | 3, true) => {
                self.registers[KTIC] = request.address;
                self.ktcs &= !(SS | DS);
            }
            (1 | 2, false) => {
                // The second is the one that takes its count from 1 to 2.
                let second_dato = earlier.datos == 1 && self.fetched.datos == 2;
                let second_access = earlier.accesses == 1;
                self.ktcs |= self.source_mark(request);
                self.ktcs |= self.destination_mark(request, second_dato, second_access);
            }
            _ => {}
        }
    }

    /// Source 3.3.2.1, SS clauses 1 to 4, for a non-fetch access in FCN 1 or 2.
    fn source_mark(&self, request: &Request) -> u16 {
        let normal = self.fcn() == 2;
        let dato = request.operation == Operation::Dato;
        let set = match Kind::of(self.fetched.last) {
            Kind::Jsr => dato,
            Kind::Trap => dato && normal,
            Kind::Rts | Kind::Rti => true,
            _ => false,
        };
        if set || (normal && request.state == State::Source) {
            SS
        } else {
            0
        }
    }

    /// Source 3.3.2.1, DS clauses 1 to 3, for a non-fetch access in FCN 1 or 2.
    fn destination_mark(&self, request: &Request, second_dato: bool, second_access: bool) -> u16 {
        let normal = self.fcn() == 2;
        let set = match Kind::of(self.fetched.last) {
            Kind::Trap => second_dato && normal,
            Kind::Rti => second_access,
            _ => false,
        };
        if set || request.state == State::Destination {
            DS
        } else {
            0
        }
    }

    /// An unpaged time-out leaves step 4, KTAD and KTDT, and no sequence.
    fn unpaged_access(&mut self, memory: &mut [u8], request: &Request) -> Reply {
        let physical = unpaged_physical(request.address);
        match Target::at(physical, memory.len(), self.cells) {
            Target::Window | Target::Nothing => {
                self.registers[KTAD] = request.address;
                self.registers[KTDT] = request.stored_data();
                Reply::bare(TIME_OUT)
            }
            target if request.fetch() => {
                let word = self.read(memory, target);
                self.remember(word, None);
                Reply { answer: 0, data: word, physical: Some(physical) }
            }
            target => self.transfer(memory, request, physical, target),
        }
    }

    /// Steps 5 to 11 for the outer page, then the window's inner access if that is the target.
    fn paged_access(&mut self, memory: &mut [u8], request: &Request) -> Reply {
        let user = self.user_mode();
        let tag = tag_of(user, request.address);
        let fault = |answer| Fault { answer, tag, inner: false };
        let entry = match self.reach(memory, request, user, request.address) {
            Ok(entry) => entry,
            Err(answer) => return self.refuse(request, fault(answer)),
        };
        if self.breaks_privacy(request, &entry) {
            return self.refuse(request, fault(7));
        }
        let physical = entry.physical(request.address);
        match Target::at(physical, memory.len(), self.cells) {
            Target::Window if !request.fetch() => self.window_access(memory, request),
            Target::Window | Target::Nothing => self.refuse(request, fault(TIME_OUT)),
            target if request.fetch() => self.fetch_access(memory, request, &entry, target),
            target => self.transfer(memory, request, physical, target),
        }
    }

    /// The inner access: a user's whatever UM is, with no privacy step.
    fn window_access(&mut self, memory: &mut [u8], request: &Request) -> Reply {
        let address = self.registers[KTAD];
        let tag = tag_of(true, address);
        let fault = |answer| Fault { answer, tag, inner: true };
        let entry = match self.reach(memory, request, true, address) {
            Ok(entry) => entry,
            Err(answer) => return self.refuse(request, fault(answer)),
        };
        let physical = entry.physical(address);
        match Target::at(physical, memory.len(), self.cells) {
            Target::Window | Target::Nothing => self.refuse(request, fault(TIME_OUT)),
            target => self.transfer(memory, request, physical, target),
        }
    }

    /// Steps 5 to 8 for one page: odd word, walk, residency, write key.
    pub(crate) fn reach(
        &mut self,
        memory: &[u8],
        request: &Request,
        user: bool,
        address: u16,
    ) -> Result<Entry, u8> {
        if request.odd_word(address) {
            return Err(4);
        }
        let entry = self.entry(memory, user, address).map_err(|RanOff| RAN_OFF_MEMORY)?;
        if !entry.resident() {
            return Err(5);
        }
        // DATIP needs the write key as the stores do.
        if request.operation != Operation::Dati && !entry.write_enabled() {
            return Err(6);
        }
        Ok(entry)
    }

    /// "Privacy: not a fetch, flag set, page private"; exec page 0 is never judged.
    pub(crate) fn breaks_privacy(&self, request: &Request, entry: &Entry) -> bool {
        !request.fetch() && self.fetched.public && !entry.public() && !entry.exec_zero
    }

    /// Step 11, the word rule, for a paged fetch.
    fn fetch_access(
        &mut self,
        memory: &[u8],
        request: &Request,
        entry: &Entry,
        target: Target,
    ) -> Reply {
        let word = self.read(memory, target);
        let physical = Some(entry.physical(request.address));
        let kind = Kind::of(word);
        let privileged = self.user_mode() && kind == Kind::Privileged;
        let entering = self.fetched.public && !entry.public() && !entry.exec_zero;
        if privileged || (entering && kind != Kind::EntryPoint) {
            let tag = tag_of(self.user_mode(), request.address);
            self.refuse(request, Fault { answer: 8, tag, inner: false });
            self.registers[KTDT] = word;
            return Reply { answer: 8, data: word, physical };
        }
        // A paged fetch is in FCN 2 or 3; a KT register never moves the flag.
        let from_memory = matches!(target, Target::Memory(_));
        self.remember(word, from_memory.then_some(entry.public()));
        Reply { answer: 0, data: word, physical }
    }

    /// What a fetch with answer 0 leaves in the fetch memory.
    fn remember(&mut self, word: u16, public: Option<bool>) {
        self.fetched.before = self.fetched.last;
        self.fetched.last = word;
        self.fetched.datos = 0;
        self.fetched.accesses = 0;
        if let Some(public) = public {
            self.fetched.public = public;
        }
    }

    /// The read or the store of an access that passed every step.
    fn transfer(
        &mut self,
        memory: &mut [u8],
        request: &Request,
        physical: u32,
        target: Target,
    ) -> Reply {
        let data = if request.stores() {
            self.store(memory, target, request.part(physical), request.data);
            0
        } else {
            self.read(memory, target)
        };
        Reply { answer: 0, data, physical: Some(physical) }
    }

    /// What a paged refusal changes.
    fn refuse(&mut self, request: &Request, fault: Fault) -> Reply {
        self.ktcs |= flag_of(fault.answer);
        if !fault.inner {
            self.registers[KTAD] = request.address;
        }
        self.registers[KTDT] = request.stored_data();
        self.enter_exec();
        if self.fcn() == 3 {
            self.ktcs = (self.ktcs & !FCN) | 2;
        }
        self.empty_cells_of(fault.tag);
        Reply::bare(fault.answer)
    }
}
