//! Fields and the runtime record: scroll's own reads and writes, as goblin uses them.
use crate::request::{hex, Request};
use crate::told;
use goblin::pe::exception::RuntimeFunction;
use scroll::{Endian, Pread, Pwrite, BE, LE};

fn order(request: &Request) -> Endian {
    if request.number(0) == 1 {
        BE
    } else {
        LE
    }
}

/// The bytes after a write, or before it where it is refused.
pub fn wrote<E>(bytes: &[u8], write: impl FnOnce(&mut [u8]) -> Result<usize, E>) -> String {
    let mut out = bytes.to_vec();
    match write(&mut out) {
        Ok(_) => format!("ok {}", hex(&out)),
        Err(_) => format!("no {}", hex(&out)),
    }
}

macro_rules! read {
    ($request:expr, $type:ty) => {{
        let s = $request.bytes_after(2)?;
        told(s.pread_with::<$type>($request.place(1), order($request)), |n| vec![n.to_string()])
    }};
}

macro_rules! next {
    ($request:expr, $type:ty) => {{
        let s = $request.bytes_after(2)?;
        let mut at = $request.place(1);
        told(s.gread_with::<$type>(&mut at, order($request)), |n| vec![n.to_string(), at.to_string()])
    }};
}

macro_rules! put {
    ($request:expr, $type:ty) => {{
        let s = $request.bytes_after(3)?;
        let n = $request.number(2) as $type;
        wrote(s, |out| out.pwrite_with(n, $request.place(1), order($request)))
    }};
}

pub fn answer(request: &Request) -> Option<String> {
    Some(match request.door.as_str() {
        "u8" => {
            let s = request.bytes_after(1)?;
            told(s.pread::<u8>(request.place(0)), |n| vec![n.to_string()])
        }
        "u16" => read!(request, u16),
        "u32" => read!(request, u32),
        "u64" => read!(request, u64),
        "next8" => {
            let s = request.bytes_after(1)?;
            let mut at = request.place(0);
            told(s.gread::<u8>(&mut at), |n| vec![n.to_string(), at.to_string()])
        }
        "next16" => next!(request, u16),
        "next32" => next!(request, u32),
        "next64" => next!(request, u64),
        "put8" => {
            let s = request.bytes_after(2)?;
            let n = request.number(1) as u8;
            wrote(s, |out| out.pwrite(n, request.place(0)))
        }
        "put16" => put!(request, u16),
        "put32" => put!(request, u32),
        "put64" => put!(request, u64),
        "runtime" => {
            let s = request.bytes_after(1)?;
            told(s.pread_with::<RuntimeFunction>(request.place(0), LE), |e| {
                vec![e.begin_address.to_string(), e.end_address.to_string(), e.unwind_info_address.to_string()]
            })
        }
        "runtime_put" => {
            let s = request.bytes_after(4)?;
            let e = RuntimeFunction {
                begin_address: request.number(1) as u32,
                end_address: request.number(2) as u32,
                unwind_info_address: request.number(3) as u32,
            };
            wrote(s, |out| out.pwrite_with(e, request.place(0), LE))
        }
        _ => return None,
    })
}
