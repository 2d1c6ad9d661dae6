//! The three sides: the proved library, the twin and plain C, behind one face. The only unsafe code stands here.

use crate::rows::Cycle;
use twin::{Cycled, Framed, Listed, Returned, Station};

/// One implementation and a station of its own.
pub trait Side {
    /// Its own answer of a cycle; turned into the twin's only where answers are compared.
    type Cycled: Into<Cycled>;
    /// Its own answer of a frame or a merged call.
    type Framed: Into<Framed>;
    /// Its own answer of a list.
    type Listed: Into<Listed>;
    /// Its own answer of a going back.
    type Returned: Into<Returned>;

    fn fresh() -> Self;
    fn cycle(&mut self, cycle: &Cycle) -> Self::Cycled;
    fn frame(&mut self, farm: u32, frame: &[u8], reply: &mut [u8]) -> Self::Framed;
    fn exchange(&mut self, farm: u32, frame: &[u8], reply: &mut [u8]) -> Self::Framed;
    fn versions(&self, farm: u32) -> Self::Listed;
    fn go_back(&mut self, farm: u32, version: u32) -> Self::Returned;
    /// It takes no station.
    fn check(request: &[u8], response: &[u8]) -> u8;
}

pub struct Twin(Station);

impl Side for Twin {
    type Cycled = Cycled;
    type Framed = Framed;
    type Listed = Listed;
    type Returned = Returned;

    fn fresh() -> Twin {
        Twin(Station::fresh())
    }

    fn cycle(&mut self, c: &Cycle) -> Cycled {
        self.0.cycle(c.axis, c.flags, c.stw1, c.nsoll, c.nist, c.fault)
    }

    fn frame(&mut self, farm: u32, frame: &[u8], reply: &mut [u8]) -> Framed {
        self.0.frame(farm, frame, reply)
    }

    fn exchange(&mut self, farm: u32, frame: &[u8], reply: &mut [u8]) -> Framed {
        self.0.exchange(farm, frame, reply)
    }

    fn versions(&self, farm: u32) -> Listed {
        self.0.versions(farm)
    }

    fn go_back(&mut self, farm: u32, version: u32) -> Returned {
        self.0.go_back(farm, version)
    }

    fn check(request: &[u8], response: &[u8]) -> u8 {
        twin::check(request, response)
    }
}

/// `struct llinkhiro_cycled` of `include/llinkhiro.h`.
#[repr(C)]
pub struct CCycled {
    rpm: i32,
    status: u16,
    state: u8,
    number: u8,
}

/// `struct llinkhiro_framed` of `include/llinkhiro.h`.
#[repr(C)]
pub struct CFramed {
    length: u16,
    stored: u16,
    number: u8,
}

/// `struct llinkhiro_listed` of `include/llinkhiro.h`.
#[repr(C)]
pub struct CListed {
    oldest: u16,
    kept: u16,
    number: u8,
}

/// `struct llinkhiro_returned` of `include/llinkhiro.h`.
#[repr(C)]
pub struct CReturned {
    stored: u16,
    version: u16,
    number: u8,
}

impl From<CCycled> for Cycled {
    fn from(c: CCycled) -> Cycled {
        Cycled { rpm: c.rpm, status: c.status, state: c.state, number: c.number }
    }
}

impl From<CFramed> for Framed {
    fn from(f: CFramed) -> Framed {
        Framed { length: f.length, stored: f.stored, number: f.number }
    }
}

impl From<CListed> for Listed {
    fn from(l: CListed) -> Listed {
        Listed { oldest: l.oldest, kept: l.kept, number: l.number }
    }
}

impl From<CReturned> for Returned {
    fn from(r: CReturned) -> Returned {
        Returned { stored: r.stored, version: r.version, number: r.number }
    }
}

/// A side with the face of `include/llinkhiro.h`, whose functions have these names. Those that take a frame have one face.
macro_rules! c_side {
    (
        $side:ident, $size:ident, $fresh:ident, $cycle:ident, $versions:ident, $go_back:ident, $check:ident,
        $($framed:ident: $name:ident),*
    ) => {
        extern "C" {
            fn $size() -> usize;
            fn $fresh(station: *mut u8, len: usize) -> u8;
            fn $cycle(
                station: *mut u8,
                len: usize,
                axis: u32,
                flags: u32,
                stw1: u16,
                nsoll: i16,
                nist: i16,
                fault: u16,
            ) -> CCycled;
            fn $versions(station: *const u8, len: usize, farm: u32) -> CListed;
            fn $go_back(station: *mut u8, len: usize, farm: u32, version: u32) -> CReturned;
            fn $check(request: *const u8, request_len: usize, response: *const u8, response_len: usize) -> u8;
            $(fn $name(
                station: *mut u8,
                len: usize,
                farm: u32,
                frame: *const u8,
                frame_len: usize,
                reply: *mut u8,
                reply_len: usize,
            ) -> CFramed;)*
        }

        pub struct $side(Vec<u8>);

        // SAFETY, of all calls: each pointer comes from a slice that lives through the call and has the length beside it.
        impl Side for $side {
            type Cycled = CCycled;
            type Framed = CFramed;
            type Listed = CListed;
            type Returned = CReturned;

            fn fresh() -> $side {
                let mut station = vec![0; unsafe { $size() }];
                assert_eq!(unsafe { $fresh(station.as_mut_ptr(), station.len()) }, 0, "no fresh station");
                $side(station)
            }

            fn cycle(&mut self, c: &Cycle) -> CCycled {
                let (at, len) = (self.0.as_mut_ptr(), self.0.len());
                unsafe { $cycle(at, len, c.axis, c.flags, c.stw1, c.nsoll, c.nist, c.fault) }
            }

            fn versions(&self, farm: u32) -> CListed {
                unsafe { $versions(self.0.as_ptr(), self.0.len(), farm) }
            }

            fn go_back(&mut self, farm: u32, version: u32) -> CReturned {
                unsafe { $go_back(self.0.as_mut_ptr(), self.0.len(), farm, version) }
            }

            fn check(request: &[u8], response: &[u8]) -> u8 {
                unsafe { $check(request.as_ptr(), request.len(), response.as_ptr(), response.len()) }
            }

            $(fn $framed(&mut self, farm: u32, frame: &[u8], reply: &mut [u8]) -> CFramed {
                let (at, len) = (self.0.as_mut_ptr(), self.0.len());
                unsafe { $name(at, len, farm, frame.as_ptr(), frame.len(), reply.as_mut_ptr(), reply.len()) }
            })*
        }
    };
}

c_side!(
    Ours, llinkhiro_size, llinkhiro_fresh, llinkhiro_cycle, llinkhiro_versions, llinkhiro_go_back, llinkhiro_check,
    frame: llinkhiro_frame, exchange: llinkhiro_exchange
);
c_side!(
    Plain, plain_size, plain_fresh, plain_cycle, plain_versions, plain_go_back, plain_check,
    frame: plain_frame, exchange: plain_exchange
);
