//! GNU symbol versions: the sections' iterators.
use crate::request::Request;
use goblin::container::{Container, Ctx};
use goblin::elf::section_header::{SectionHeader, SHT_GNU_VERDEF, SHT_GNU_VERNEED, SHT_GNU_VERSYM};
use goblin::elf::symver::{VerdefSection, VerneedSection, VersymSection};
use scroll::{BE, LE};

fn ctx(request: &Request) -> Ctx {
    Ctx::new(Container::Big, if request.number(0) == 1 { BE } else { LE })
}

/// The section that the numbers behind the order say: start, size, stated count.
fn header(request: &Request, kind: u32, count: u64) -> Option<SectionHeader> {
    let mut header = SectionHeader::new();
    header.sh_type = kind;
    header.sh_offset = request.number(1);
    header.sh_size = request.number(2);
    header.sh_info = u32::try_from(count).ok()?;
    Some(header)
}

/// The number of rows, then the rows.
fn listed(rows: Vec<Vec<u64>>) -> String {
    let mut words = vec!["ok".to_string(), rows.len().to_string()];
    words.extend(rows.iter().flatten().map(u64::to_string));
    words.join(" ")
}

pub fn answer(request: &Request) -> Option<String> {
    let no = Some("no".to_string());
    match request.door.as_str() {
        "versym_count" | "versym" => {
            let one = request.door == "versym";
            let bytes = request.bytes_after(if one { 4 } else { 3 })?;
            let headers = [header(request, SHT_GNU_VERSYM, 0)?];
            let Ok(Some(section)) = VersymSection::parse(bytes, &headers, ctx(request)) else { return no };
            if one {
                let Some(v) = section.get_at(request.place(3)) else { return no };
                return Some(format!("ok {} {}", v.is_hidden() as u8, v.version()));
            }
            assert_eq!(section.iter().count(), section.len());
            Some(format!("ok {}", section.len()))
        }
        "verdefs" | "verdauxs" => {
            let bytes = request.bytes_after(5)?;
            let headers = [header(request, SHT_GNU_VERDEF, request.number(3))?];
            let Ok(Some(section)) = VerdefSection::parse(bytes, &headers, ctx(request)) else { return no };
            if request.door == "verdefs" {
                let rows: Vec<_> = section.iter().map(|d| {
                    vec![d.vd_version.into(), d.vd_flags.into(), d.vd_ndx.into(), d.vd_cnt.into(), d.vd_hash.into(), d.vd_aux.into(), d.vd_next.into()]
                }).collect();
                return if rows.len() as u64 <= request.number(4) { Some(listed(rows)) } else { no };
            }
            let Some(d) = section.iter().nth(request.place(4)) else { return no };
            let rows = d.iter().map(|a| vec![a.vda_name as u64, a.vda_next.into()]).collect();
            Some(listed(rows))
        }
        "verneeds" | "vernauxs" => {
            let bytes = request.bytes_after(5)?;
            let headers = [header(request, SHT_GNU_VERNEED, request.number(3))?];
            let Ok(Some(section)) = VerneedSection::parse(bytes, &headers, ctx(request)) else { return no };
            if request.door == "verneeds" {
                let rows: Vec<_> = section.iter().map(|n| {
                    vec![n.vn_version.into(), n.vn_cnt.into(), n.vn_file as u64, n.vn_aux.into(), n.vn_next.into()]
                }).collect();
                return if rows.len() as u64 <= request.number(4) { Some(listed(rows)) } else { no };
            }
            let Some(n) = section.iter().nth(request.place(4)) else { return no };
            let rows = n.iter().map(|a| vec![a.vna_hash.into(), a.vna_flags.into(), a.vna_other.into(), a.vna_name as u64, a.vna_next.into()]).collect();
            Some(listed(rows))
        }
        _ => None,
    }
}
