//! Fat Mach-O: `MultiArch` and the members that it lists.
use crate::request::{hex, Request};
use crate::told;
use goblin::mach::fat::{FatArch, SIZEOF_FAT_ARCH, SIZEOF_FAT_HEADER};
use goblin::mach::MultiArch;

/// The member with that index, read where the iterator would read it.
fn member(bytes: &[u8], index: usize) -> Result<FatArch, ()> {
    let multi = MultiArch::new(bytes).map_err(|_| ())?;
    if index >= multi.narches {
        return Err(());
    }
    FatArch::parse(bytes, index * SIZEOF_FAT_ARCH + SIZEOF_FAT_HEADER).map_err(|_| ())
}

pub fn answer(request: &Request) -> Option<String> {
    Some(match request.door.as_str() {
        "fat" => {
            let bytes = request.bytes_after(0)?;
            told(MultiArch::new(bytes).and_then(|multi| multi.arches()), |arches| vec![arches.len().to_string()])
        }
        "fat_member" => {
            let bytes = request.bytes_after(1)?;
            told(member(bytes, request.place(0)), |a| {
                vec![a.cputype(), a.cpusubtype(), a.cpu_caps(), a.offset, a.size, a.align, a.is_64() as u32]
                    .iter()
                    .map(u32::to_string)
                    .collect()
            })
        }
        "fat_bytes" => {
            let bytes = request.bytes_after(1)?;
            told(member(bytes, request.place(0)), |a| vec![hex(a.slice(bytes))])
        }
        _ => return None,
    })
}
