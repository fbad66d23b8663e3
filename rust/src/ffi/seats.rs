//! The functions of rtdb.h for plants, and the handle of a seat, whose methods are safe.
use std::cell::UnsafeCell;
use std::ffi::c_void;
use std::ptr::null_mut;

use crate::ffi::{told, Entry, Operation, RawTables, Refusal, StepAnswer, Stored, Tables, Time};

// A handle as C has it: null while it is closed.
#[repr(C)]
struct RawSeat {
    at: *mut c_void,
}

extern "C" {
    fn rtdb_plant_open(
        operator_seat: *mut RawSeat,
        tables: *const RawTables,
        room: usize,
        refusal: *mut Refusal,
    ) -> u32;
    fn rtdb_seat_open(
        operator_seat: *mut RawSeat,
        seat: *mut RawSeat,
        transaction: *mut u32,
    ) -> u32;
    fn rtdb_seat_close(seat: *mut RawSeat) -> u32;
    fn rtdb_seat_step(
        seat: *mut RawSeat,
        serial: u32,
        operation: Operation,
        answer: *mut StepAnswer,
    ) -> u32;
    fn rtdb_seat_plan(seat: *mut RawSeat, transaction: u32, tick: u64, answer: *mut Time) -> u32;
    fn rtdb_seat_plan_next(seat: *mut RawSeat, transaction: u32, answer: *mut Time) -> u32;
    fn rtdb_seat_idle(seat: *mut RawSeat, answer: *mut Time) -> u32;
    fn rtdb_seat_peek(seat: *mut RawSeat, item: u32, stored: *mut Stored) -> u32;
    fn rtdb_seat_drain(
        seat: *mut RawSeat,
        into: *mut Entry,
        places: usize,
        moved: *mut usize,
    ) -> u32;
    fn rtdb_seat_front(seat: *mut RawSeat, count: *mut u64) -> u32;
}

/// A seat's handle, which closes itself. It is not `Sync`, so the calls by it come one after the other.
pub(crate) struct SeatHandle(UnsafeCell<RawSeat>);

// SAFETY: it is proved of the handle's type that it may go to another thread.
unsafe impl Send for SeatHandle {}

// In each call the handle is this one's own, no other call uses it, since it is not `Sync`, and each answer is a local that has
// a value. An empty slice has a pointer that is not null.
impl SeatHandle {
    /// Opens a plant over the tables. The handle is that of the operator's seat.
    pub(crate) fn open(tables: &Tables, room: usize) -> Result<SeatHandle, (u32, Refusal)> {
        let mut raw = RawSeat { at: null_mut() };
        let mut refusal = Refusal::default();
        // SAFETY: each pointer and count of the tables is that of a slice, and the others are of locals.
        let status = unsafe { rtdb_plant_open(&mut raw, &tables.raw(), room, &mut refusal) };
        match status {
            0 => Ok(SeatHandle(UnsafeCell::new(raw))),
            _ => Err((status, refusal)),
        }
    }

    /// Opens the last transaction's seat that was not opened, and says which transaction's it is.
    pub(crate) fn open_next(&mut self) -> Result<(SeatHandle, u32), u32> {
        let mut raw = RawSeat { at: null_mut() };
        let mut transaction = 0;
        // SAFETY: as above.
        let status = unsafe { rtdb_seat_open(self.0.get(), &mut raw, &mut transaction) };
        told(status, (SeatHandle(UnsafeCell::new(raw)), transaction))
    }

    pub(crate) fn step(&mut self, serial: u32, operation: Operation) -> Result<StepAnswer, u32> {
        let mut answer = StepAnswer::default();
        // SAFETY: as above.
        told(
            unsafe { rtdb_seat_step(self.0.get(), serial, operation, &mut answer) },
            answer,
        )
    }

    pub(crate) fn plan(&mut self, transaction: u32, tick: u64) -> Result<Time, u32> {
        let mut answer = Time::default();
        // SAFETY: as above.
        told(
            unsafe { rtdb_seat_plan(self.0.get(), transaction, tick, &mut answer) },
            answer,
        )
    }

    pub(crate) fn plan_next(&mut self, transaction: u32) -> Result<Time, u32> {
        let mut answer = Time::default();
        // SAFETY: as above.
        told(
            unsafe { rtdb_seat_plan_next(self.0.get(), transaction, &mut answer) },
            answer,
        )
    }

    pub(crate) fn idle(&mut self) -> Result<Time, u32> {
        let mut answer = Time::default();
        // SAFETY: as above.
        told(unsafe { rtdb_seat_idle(self.0.get(), &mut answer) }, answer)
    }

    pub(crate) fn peek(&mut self, item: u32) -> Result<Stored, u32> {
        let mut stored = Stored::default();
        // SAFETY: as above.
        told(
            unsafe { rtdb_seat_peek(self.0.get(), item, &mut stored) },
            stored,
        )
    }

    /// Moves the oldest entries to the head of the slice, and answers how many.
    pub(crate) fn drain(&mut self, into: &mut [Entry]) -> Result<usize, u32> {
        let mut moved = 0;
        // SAFETY: as above; the pointer and the count are those of a slice.
        let status =
            unsafe { rtdb_seat_drain(self.0.get(), into.as_mut_ptr(), into.len(), &mut moved) };
        told(status, moved)
    }

    pub(crate) fn front(&self) -> u64 {
        let mut count = 0;
        // SAFETY: as above. The handle is open, so the status is 0.
        unsafe { rtdb_seat_front(self.0.get(), &mut count) };
        count
    }
}

impl Drop for SeatHandle {
    fn drop(&mut self) {
        // SAFETY: as above.
        unsafe { rtdb_seat_close(self.0.get()) };
    }
}
