//! One set of calls for the library and for each peer, all through the C
//! interface of include/corridor.h, so that none is called by a shorter way.

use crate::shell;

type ReadBlock =
    unsafe extern "C" fn(u8, u8, u8, *const u8, usize, *mut u8, usize, *mut usize) -> u32;
#[rustfmt::skip]
type WriteBlock = unsafe extern "C" fn(
    u8, u8, u8, u8, u8, *const u8, usize,
    *const u8, usize, *mut u8, usize, *mut usize,
) -> u32;
type Frame = unsafe extern "C" fn(u8, usize, *const u8, usize, *mut u8, usize, *mut usize) -> u32;
type Fixed = unsafe extern "C" fn(u8, *const u8, usize, *mut u8, usize, *mut usize) -> u32;
type Receive = unsafe extern "C" fn(u8, u8, u8, u8, *mut u8) -> u32;
#[rustfmt::skip]
type Submit = unsafe extern "C" fn(
    u8, u8, *mut Station, *mut u8, usize, *const u8, usize, *mut usize,
) -> u32;
#[rustfmt::skip]
type Acknowledge = unsafe extern "C" fn(
    u8, u8, *mut Station, *const u8, usize, u8, *mut usize,
) -> u32;
type Order = unsafe extern "C" fn(u8, u8, *mut Station, u8, *mut usize) -> u32;
#[rustfmt::skip]
type Send = unsafe extern "C" fn(
    u8, u8, *const Station, *const u8, usize, u8, *mut u8, usize, *mut usize,
) -> u32;
type TellOrder = unsafe extern "C" fn(*mut Receiver, u8, u8) -> u32;
#[rustfmt::skip]
type TellBlock = unsafe extern "C" fn(
    *mut Receiver, u8, *const u8, usize, *mut u8, usize, *mut usize,
) -> u32;
type Interleave = unsafe extern "C" fn(usize, *const u8, usize, *mut u8, usize) -> u32;
#[rustfmt::skip]
type ReplayPanel = unsafe extern "C" fn(
    u8, u8, *const u8, usize, *mut u8, usize, *mut Station, *mut u8, *mut usize,
) -> u32;
type Check16 = unsafe extern "C" fn(*const u8, usize) -> u16;
type Check32 = unsafe extern "C" fn(*const u8, usize) -> u32;
type Join16 = unsafe extern "C" fn(u16, usize, u16, usize, *mut usize) -> u32;
type Join32 = unsafe extern "C" fn(u32, usize, u32, usize, *mut usize) -> u32;

pub struct Calls {
    pub name: &'static str,
    read_block: ReadBlock,
    write_block: WriteBlock,
    read_frame: Frame,
    write_frame: Frame,
    receive: Receive,
    submit: Submit,
    acknowledge: Acknowledge,
    order: Order,
    send: Send,
    tell_order: TellOrder,
    tell_block: TellBlock,
    interleave: Interleave,
    deinterleave: Interleave,
    replay_panel: ReplayPanel,
    write_fixed: Fixed,
    read_fixed: Fixed,
    check_3: Check16,
    check_4: Check16,
    check_5: Check16,
    check_6: Check32,
    join_3: Join16,
    join_4: Join16,
    join_5: Join16,
    join_6: Join32,
}

/// The record of a sending station.
#[derive(Clone, Copy, Default, PartialEq, Eq, Debug)]
#[repr(C)]
pub struct Station {
    pub next: u8,
    pub stored: u8,
    pub cell: u8,
    pub lengths: [u16; 7],
    pub method: u8,
    pub former: u8,
    pub older: u8,
}

/// The record of a receiving station.
#[derive(Clone, Copy, Default, PartialEq, Eq, Debug)]
#[repr(C)]
pub struct Receiver {
    pub n: u8,
    pub w: u8,
    pub c: u8,
    pub method: u8,
    pub waiting: u8,
    pub number: u8,
}

/// A check, and the bytes of its part.
#[derive(Clone, Copy, Debug)]
pub struct Part {
    pub check: u32,
    pub length: usize,
}

/// What a block is written from, as codes and slices.
#[derive(Clone, Debug)]
pub struct Form {
    pub method: u8,
    pub parity: u8,
    pub code: u8,
    pub shape: u8,
    pub end_sign: u8,
    pub header: Vec<u8>,
    pub text: Vec<u8>,
}

// SAFETY of every call below: each pointer goes with the length of its own
// slice, outputs and answers are lent for writing, and none overlap.

/// A call by codes and slices.
macro_rules! by_slices {
    ($name:ident($($code:ident: $kind:ty),*; $lent:ident) $answer:ty) => {
        #[inline(always)]
        pub fn $name(&self, $($code: $kind,)* $lent: &[u8], out: &mut [u8], answer: &mut $answer) -> u32 {
            let answer = std::ptr::from_mut(answer).cast();
            unsafe { (self.$name)($($code,)* $lent.as_ptr(), $lent.len(), out.as_mut_ptr(), out.len(), answer) }
        }
    };
}

impl Calls {
    by_slices! { read_block(method: u8, parity: u8, code: u8; line) [usize; 5] }
    by_slices! { read_frame(method: u8, bits: usize; lent) usize }
    by_slices! { write_frame(method: u8, bits: usize; content) usize }
    by_slices! { write_fixed(degree: u8; content) usize }
    by_slices! { read_fixed(degree: u8; block) usize }

    #[inline(always)]
    pub fn write_block(&self, form: &Form, out: &mut [u8], value: &mut usize) -> u32 {
        let Form {
            method,
            parity,
            code,
            shape,
            end_sign,
            header,
            text,
        } = form;
        let (header, header_length) = (header.as_ptr(), header.len());
        let (text, text_length) = (text.as_ptr(), text.len());
        let (out, room) = (out.as_mut_ptr(), out.len());
        unsafe {
            (self.write_block)(
                *method,
                *parity,
                *code,
                *shape,
                *end_sign,
                header,
                header_length,
                text,
                text_length,
                out,
                room,
                value,
            )
        }
    }

    #[inline(always)]
    pub fn receive(&self, n: u8, w: u8, c: u8, number: u8, answer: &mut [u8; 2]) -> u32 {
        unsafe { (self.receive)(n, w, c, number, answer.as_mut_ptr()) }
    }

    #[inline(always)]
    pub fn submit(
        &self,
        (n, w): (u8, u8),
        station: &mut Station,
        store: &mut [u8],
        block: &[u8],
        value: &mut usize,
    ) -> u32 {
        let (room, store) = (store.len(), store.as_mut_ptr());
        let (length, block) = (block.len(), block.as_ptr());
        unsafe { (self.submit)(n, w, station, store, room, block, length, value) }
    }

    #[inline(always)]
    pub fn acknowledge(
        &self,
        (n, w): (u8, u8),
        station: &mut Station,
        store: &[u8],
        number: u8,
        value: &mut usize,
    ) -> u32 {
        let (room, store) = (store.len(), store.as_ptr());
        unsafe { (self.acknowledge)(n, w, station, store, room, number, value) }
    }

    #[inline(always)]
    pub fn order(
        &self,
        (n, w): (u8, u8),
        station: &mut Station,
        method: u8,
        value: &mut usize,
    ) -> u32 {
        unsafe { (self.order)(n, w, station, method, value) }
    }

    #[inline(always)]
    pub fn send(
        &self,
        (n, w): (u8, u8),
        station: &Station,
        store: &[u8],
        number: u8,
        out: &mut [u8],
        value: &mut usize,
    ) -> u32 {
        let (length, store) = (store.len(), store.as_ptr());
        let (room, out) = (out.len(), out.as_mut_ptr());
        unsafe { (self.send)(n, w, station, store, length, number, out, room, value) }
    }

    #[inline(always)]
    pub fn tell_order(&self, receiver: &mut Receiver, number: u8, method: u8) -> u32 {
        unsafe { (self.tell_order)(receiver, number, method) }
    }

    #[inline(always)]
    pub fn tell_block(
        &self,
        receiver: &mut Receiver,
        number: u8,
        line: &[u8],
        out: &mut [u8],
        answer: &mut [usize; 6],
    ) -> u32 {
        let (length, line) = (line.len(), line.as_ptr());
        let (room, out) = (out.len(), out.as_mut_ptr());
        unsafe {
            (self.tell_block)(
                receiver,
                number,
                line,
                length,
                out,
                room,
                answer.as_mut_ptr(),
            )
        }
    }

    #[inline(always)]
    pub fn interleave(&self, d: usize, text: &[u8], out: &mut [u8]) -> u32 {
        let (room, out) = (out.len(), out.as_mut_ptr());
        unsafe { (self.interleave)(d, text.as_ptr(), text.len(), out, room) }
    }

    #[inline(always)]
    pub fn deinterleave(&self, d: usize, line: &[u8], out: &mut [u8]) -> u32 {
        let (room, out) = (out.len(), out.as_mut_ptr());
        unsafe { (self.deinterleave)(d, line.as_ptr(), line.len(), out, room) }
    }

    #[inline(always)]
    pub fn replay_panel(
        &self,
        (n, w): (u8, u8),
        trace: &[u8],
        store: &mut [u8],
        (station, c): (&mut Station, &mut u8),
        value: &mut usize,
    ) -> u32 {
        let (length, trace) = (trace.len(), trace.as_ptr());
        let (room, store) = (store.len(), store.as_mut_ptr());
        unsafe { (self.replay_panel)(n, w, trace, length, store, room, station, c, value) }
    }

    /// The check of a method 3 to 6.
    #[inline(always)]
    pub fn check(&self, method: u8, content: &[u8]) -> u32 {
        let (content, length) = (content.as_ptr(), content.len());
        unsafe {
            match method {
                3 => u32::from((self.check_3)(content, length)),
                4 => u32::from((self.check_4)(content, length)),
                5 => u32::from((self.check_5)(content, length)),
                _ => (self.check_6)(content, length),
            }
        }
    }

    /// The joined check of a method 3 to 6; of 3 to 5 the low 16 bits count.
    #[inline(always)]
    pub fn join(&self, method: u8, first: Part, second: Part, value: &mut usize) -> u32 {
        let (a, b) = (first.check as u16, second.check as u16);
        unsafe {
            match method {
                3 => (self.join_3)(a, first.length, b, second.length, value),
                4 => (self.join_4)(a, first.length, b, second.length, value),
                5 => (self.join_5)(a, first.length, b, second.length, value),
                _ => (self.join_6)(
                    first.check,
                    first.length,
                    second.check,
                    second.length,
                    value,
                ),
            }
        }
    }
}

/// Declares the functions of a linked library and gathers them.
macro_rules! linked {
    ($calls:ident, $name:literal, $read_block:ident, $write_block:ident, $read_frame:ident, $write_frame:ident,
     $receive:ident, $submit:ident, $acknowledge:ident, $interleave:ident, $deinterleave:ident,
     $order:ident, $send:ident, $tell_order:ident, $tell_block:ident,
     $replay_panel:ident,
     $write_fixed:ident, $read_fixed:ident,
     $check_3:ident, $check_4:ident, $check_5:ident, $check_6:ident,
     $join_3:ident, $join_4:ident, $join_5:ident, $join_6:ident) => {
        #[rustfmt::skip]
        extern "C" {
            fn $read_block(_: u8, _: u8, _: u8, _: *const u8, _: usize, _: *mut u8, _: usize, _: *mut usize) -> u32;
            fn $write_block(_: u8, _: u8, _: u8, _: u8, _: u8, _: *const u8, _: usize,
                _: *const u8, _: usize, _: *mut u8, _: usize, _: *mut usize) -> u32;
            fn $read_frame(_: u8, _: usize, _: *const u8, _: usize, _: *mut u8, _: usize, _: *mut usize) -> u32;
            fn $write_frame(_: u8, _: usize, _: *const u8, _: usize, _: *mut u8, _: usize, _: *mut usize) -> u32;
            fn $receive(_: u8, _: u8, _: u8, _: u8, _: *mut u8) -> u32;
            fn $submit(_: u8, _: u8, _: *mut Station, _: *mut u8, _: usize,
                _: *const u8, _: usize, _: *mut usize) -> u32;
            fn $acknowledge(_: u8, _: u8, _: *mut Station, _: *const u8, _: usize, _: u8, _: *mut usize) -> u32;
            fn $order(_: u8, _: u8, _: *mut Station, _: u8, _: *mut usize) -> u32;
            fn $send(_: u8, _: u8, _: *const Station, _: *const u8, _: usize, _: u8,
                _: *mut u8, _: usize, _: *mut usize) -> u32;
            fn $tell_order(_: *mut Receiver, _: u8, _: u8) -> u32;
            fn $tell_block(_: *mut Receiver, _: u8, _: *const u8, _: usize, _: *mut u8, _: usize, _: *mut usize) -> u32;
            fn $interleave(_: usize, _: *const u8, _: usize, _: *mut u8, _: usize) -> u32;
            fn $deinterleave(_: usize, _: *const u8, _: usize, _: *mut u8, _: usize) -> u32;
            fn $replay_panel(_: u8, _: u8, _: *const u8, _: usize, _: *mut u8, _: usize,
                _: *mut Station, _: *mut u8, _: *mut usize) -> u32;
            fn $write_fixed(_: u8, _: *const u8, _: usize, _: *mut u8, _: usize, _: *mut usize) -> u32;
            fn $read_fixed(_: u8, _: *const u8, _: usize, _: *mut u8, _: usize, _: *mut usize) -> u32;
            fn $check_3(_: *const u8, _: usize) -> u16;
            fn $check_4(_: *const u8, _: usize) -> u16;
            fn $check_5(_: *const u8, _: usize) -> u16;
            fn $check_6(_: *const u8, _: usize) -> u32;
            fn $join_3(_: u16, _: usize, _: u16, _: usize, _: *mut usize) -> u32;
            fn $join_4(_: u16, _: usize, _: u16, _: usize, _: *mut usize) -> u32;
            fn $join_5(_: u16, _: usize, _: u16, _: usize, _: *mut usize) -> u32;
            fn $join_6(_: u32, _: usize, _: u32, _: usize, _: *mut usize) -> u32;
        }
        pub static $calls: Calls = Calls {
            name: $name,
            read_block: $read_block,
            write_block: $write_block,
            read_frame: $read_frame,
            write_frame: $write_frame,
            receive: $receive,
            submit: $submit,
            acknowledge: $acknowledge,
            order: $order,
            send: $send,
            tell_order: $tell_order,
            tell_block: $tell_block,
            interleave: $interleave,
            deinterleave: $deinterleave,
            replay_panel: $replay_panel,
            write_fixed: $write_fixed,
            read_fixed: $read_fixed,
            check_3: $check_3,
            check_4: $check_4,
            check_5: $check_5,
            check_6: $check_6,
            join_3: $join_3,
            join_4: $join_4,
            join_5: $join_5,
            join_6: $join_6,
        };
    };
}

#[rustfmt::skip]
linked!(LIBRARY, "library", corridor_read_block, corridor_write_block, corridor_read_frame, corridor_write_frame,
    corridor_receive, corridor_submit, corridor_acknowledge, corridor_interleave, corridor_deinterleave,
    corridor_order, corridor_send, corridor_tell_order, corridor_tell_block,
    corridor_replay_panel,
    corridor_write_fixed, corridor_read_fixed,
    corridor_check_3, corridor_check_4, corridor_check_5, corridor_check_6,
    corridor_join_3, corridor_join_4, corridor_join_5, corridor_join_6);
#[rustfmt::skip]
linked!(PLAIN_C, "C", plain_read_block, plain_write_block, plain_read_frame, plain_write_frame,
    plain_receive, plain_submit, plain_acknowledge, plain_interleave, plain_deinterleave,
    plain_order, plain_send, plain_tell_order, plain_tell_block,
    plain_replay_panel,
    plain_write_fixed, plain_read_fixed,
    plain_check_3, plain_check_4, plain_check_5, plain_check_6,
    plain_join_3, plain_join_4, plain_join_5, plain_join_6);

pub static RUST: Calls = Calls {
    name: "Rust",
    read_block: shell::read_block,
    write_block: shell::write_block,
    read_frame: shell::read_frame,
    write_frame: shell::write_frame,
    receive: shell::receive,
    submit: shell::submit,
    acknowledge: shell::acknowledge,
    order: shell::order,
    send: shell::send,
    tell_order: shell::tell_order,
    tell_block: shell::tell_block,
    interleave: shell::interleave,
    deinterleave: shell::deinterleave,
    replay_panel: shell::replay_panel,
    write_fixed: shell::write_fixed,
    read_fixed: shell::read_fixed,
    check_3: shell::check_3,
    check_4: shell::check_4,
    check_5: shell::check_3,
    check_6: shell::check_6,
    join_3: shell::join_3,
    join_4: shell::join_4,
    join_5: shell::join_3,
    join_6: shell::join_6,
};

extern "C" {
    fn plain_init();
    fn copy_submit(
        _: u8,
        _: u8,
        _: *mut Station,
        _: *mut u8,
        _: usize,
        _: *const u8,
        _: usize,
        _: *mut usize,
    ) -> u32;
    fn copy_interleave(_: usize, _: *const u8, _: usize, _: *mut u8, _: usize) -> u32;
    fn zlib_found() -> i32;
    fn zlib_check_6(content: *const u8, length: usize) -> u32;
    fn zlib_join_6(_: u32, _: usize, _: u32, _: usize, _: *mut usize) -> u32;
    fn libdeflate_found() -> i32;
    fn libdeflate_check_6(content: *const u8, length: usize) -> u32;
}

/// The copy alone, of a submission and of a text.
pub static MEMCPY: Calls = Calls {
    name: "memcpy",
    submit: copy_submit,
    interleave: copy_interleave,
    deinterleave: copy_interleave,
    ..PLAIN_C
};

/// The library's calls of blocks under KOI-7, whatever code is told.
pub static KOI7: Calls = Calls {
    name: "KOI-7",
    read_block: koi7_read_block,
    write_block: koi7_write_block,
    ..LIBRARY
};

#[rustfmt::skip]
unsafe extern "C" fn koi7_read_block(
    method: u8, parity: u8, _: u8, line: *const u8, length: usize,
    out: *mut u8, room: usize, values: *mut usize,
) -> u32 {
    corridor_read_block(method, parity, 0, line, length, out, room, values)
}

#[rustfmt::skip]
unsafe extern "C" fn koi7_write_block(
    method: u8, parity: u8, _: u8, shape: u8, end_sign: u8, header: *const u8, header_length: usize,
    text: *const u8, length: usize, out: *mut u8, room: usize, value: *mut usize,
) -> u32 {
    corridor_write_block(
        method, parity, 0, shape, end_sign, header, header_length, text, length, out, room, value,
    )
}

/// A content of the longest length, for the checks computed again.
static CONTENT: [u8; 65_536] = [0x5A; 65_536];

/// The check of so many bytes in place of a joined one.
macro_rules! again {
    ($name:ident, $kind:ty, $check:ident) => {
        unsafe extern "C" fn $name(
            _: $kind,
            first: usize,
            _: $kind,
            second: usize,
            value: *mut usize,
        ) -> u32 {
            *value = (LIBRARY.$check)(CONTENT.as_ptr(), first + second) as usize;
            0
        }
    };
}

again!(again_3, u16, check_3);
again!(again_4, u16, check_4);
again!(again_5, u16, check_5);
again!(again_6, u32, check_6);

/// The library's own check of the whole content, computed again.
pub static AGAIN: Calls = Calls {
    name: "again",
    join_3: again_3,
    join_4: again_4,
    join_5: again_5,
    join_6: again_6,
    ..LIBRARY
};

/// Plain C with zlib's crc32 as its check of method 6, and crc32_combine as
/// the joined one.
pub static ZLIB: Calls = Calls {
    name: "zlib",
    check_6: zlib_check_6,
    join_6: zlib_join_6,
    ..PLAIN_C
};

/// Plain C with libdeflate's crc32 as its check of method 6.
pub static LIBDEFLATE: Calls = Calls {
    name: "libdeflate",
    check_6: libdeflate_check_6,
    ..PLAIN_C
};

/// Which libraries with a crc32 are installed.
#[derive(Clone, Copy, Debug)]
pub struct Found {
    pub zlib: bool,
    pub libdeflate: bool,
}

/// Fills the tables of plain C; tells which libraries are there.
pub fn init() -> Found {
    // SAFETY: called once, before any other call and any thread.
    unsafe {
        plain_init();
        Found {
            zlib: zlib_found() == 1,
            libdeflate: libdeflate_found() == 1,
        }
    }
}
