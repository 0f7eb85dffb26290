//! PE headers, sections and mapping, by the parts: `Header::parse` refuses for parts that are not ported.
use crate::ground::wrote;
use crate::request::{hex, Request};
use crate::told;
use goblin::pe::header::{CoffHeader, DosHeader};
use goblin::pe::optional_header::OptionalHeader;
use goblin::pe::options::ParseOptions;
use goblin::pe::section_table::SectionTable;
use goblin::pe::utils::find_offset;
use scroll::{Pread, Pwrite, LE};

/// A DOS header to write, from the bytes at `at`: `DosHeader::parse` looks at the PE signature too, so one is put after it and pointed to.
fn dos_to_write(bytes: &[u8], at: usize) -> Result<DosHeader, ()> {
    let mut alone = bytes.get(at..).ok_or(())?.to_vec();
    alone.truncate(64);
    let mut pointer = 0;
    if alone.len() == 64 {
        pointer = alone.pread_with(60, LE).map_err(|_| ())?;
        alone.pwrite_with(64u32, 60, LE).map_err(|_| ())?;
        alone.extend(b"PE\0\0");
    }
    let mut header = DosHeader::parse(&alone).map_err(|_| ())?;
    header.pe_pointer = pointer;
    Ok(header)
}

fn dos_values(h: &DosHeader) -> Vec<String> {
    let mut numbers = vec![
        h.signature,
        h.bytes_on_last_page,
        h.pages_in_file,
        h.relocations,
        h.size_of_header_in_paragraphs,
        h.minimum_extra_paragraphs_needed,
        h.maximum_extra_paragraphs_needed,
        h.initial_relative_ss,
        h.initial_sp,
        h.checksum,
        h.initial_ip,
        h.initial_relative_cs,
        h.file_address_of_relocation_table,
        h.overlay_number,
    ];
    numbers.extend(h.reserved);
    numbers.extend([h.oem_id, h.oem_info]);
    numbers.extend(h.reserved2);
    let mut words: Vec<_> = numbers.iter().map(u16::to_string).collect();
    words.push(h.pe_pointer.to_string());
    words
}

fn optional_values(h: &OptionalHeader) -> Vec<String> {
    let exceptions = h.data_directories.get_exception_table().map_or([0, 0], |d| [d.virtual_address, d.size]);
    let w = &h.windows_fields;
    let mut words = vec![h.standard_fields.magic.to_string()];
    words.extend([w.file_alignment, w.number_of_rva_and_sizes, exceptions[0], exceptions[1]].iter().map(u32::to_string));
    words
}

/// The headers of an image, by their parts.
pub struct Image {
    pub dos: DosHeader,
    pub coff: CoffHeader,
    pub optional: OptionalHeader,
    pub sections: Vec<SectionTable>,
    /// Where the section table starts.
    pub table: usize,
}

/// The parts in file order. `None` where there is no optional header.
pub fn image(bytes: &[u8]) -> Option<Result<Image, ()>> {
    let parsed = DosHeader::parse(bytes).map_err(|_| ()).and_then(|dos| {
        let at = dos.pe_pointer as usize + 4;
        Ok((dos, bytes.pread_with::<CoffHeader>(at, LE).map_err(|_| ())?))
    });
    let (dos, coff) = match parsed {
        Ok(pair) => pair,
        Err(()) => return Some(Err(())),
    };
    if coff.size_of_optional_header == 0 {
        return None;
    }
    let at = dos.pe_pointer as usize + 24;
    let table = at + coff.size_of_optional_header as usize;
    Some((|| {
        let optional = bytes.pread_with::<OptionalHeader>(at, LE).map_err(|_| ())?;
        let sections = coff.sections(bytes, &mut table.clone()).map_err(|_| ())?;
        Ok(Image { dos, coff, optional, sections, table })
    })())
}

fn image_values(image: &Image) -> Vec<String> {
    let (dos, coff) = (&image.dos, &image.coff);
    let mut words = vec![dos.pe_pointer.to_string(), coff.machine.to_string(), coff.number_of_sections.to_string()];
    words.extend([(dos.pe_pointer as usize + 24).to_string(), coff.size_of_optional_header.to_string()]);
    words.extend(optional_values(&image.optional));
    words.push(image.table.to_string());
    words
}

/// Row `index` of the table at `table`.
pub fn row(bytes: &[u8], table: usize, index: usize) -> Result<SectionTable, ()> {
    let mut at = index.checked_mul(40).and_then(|from| table.checked_add(from)).ok_or(())?;
    SectionTable::parse(bytes, &mut at, 0).map_err(|_| ())
}

fn row_values(s: &SectionTable) -> Vec<String> {
    let mut words = vec![hex(&s.name)];
    let numbers = [
        s.virtual_size,
        s.virtual_address,
        s.size_of_raw_data,
        s.pointer_to_raw_data,
        s.pointer_to_relocations,
        s.pointer_to_linenumbers,
        s.number_of_relocations as u32,
        s.number_of_linenumbers as u32,
        s.characteristics,
    ];
    words.extend(numbers.iter().map(u32::to_string));
    words
}

/// The rows in order, each looked at only where those before it do not hold the address.
fn mapped(bytes: &[u8], table: usize, count: usize, alignment: u32, address: usize) -> Result<usize, ()> {
    for index in 0..count {
        let section = row(bytes, table, index)?;
        if let Some(offset) = find_offset(address, &[section], alignment, &ParseOptions::default()) {
            return Ok(offset);
        }
    }
    Err(())
}

pub fn answer(request: &Request) -> Option<String> {
    Some(match request.door.as_str() {
        "dos" => {
            let bytes = request.bytes_after(1)?;
            told(bytes.get(request.place(0)..).ok_or(()).and_then(|part| DosHeader::parse(part).map_err(|_| ())), |h| dos_values(&h))
        }
        "dos_put" => {
            let bytes = request.bytes_after(3)?;
            let Ok(mut header) = dos_to_write(bytes, request.place(2)) else { return Some(format!("no {}", hex(bytes))) };
            header.signature = request.number(0) as u16;
            wrote(bytes, |out| out.pwrite_with(header, request.place(1), LE))
        }
        "coff" => {
            let bytes = request.bytes_after(1)?;
            told(bytes.pread_with::<CoffHeader>(request.place(0), LE), |h| {
                let words = [h.time_date_stamp, h.pointer_to_symbol_table, h.number_of_symbol_table];
                let mut values = vec![h.machine.to_string(), h.number_of_sections.to_string()];
                values.extend(words.iter().map(u32::to_string));
                values.extend([h.size_of_optional_header.to_string(), h.characteristics.to_string()]);
                values
            })
        }
        "optional" => {
            let bytes = request.bytes_after(2)?;
            told(bytes.pread_with::<OptionalHeader>(request.place(0), LE), |h| optional_values(&h))
        }
        "pe" => {
            let bytes = request.bytes_after(0)?;
            told(image(bytes)?, |image| image_values(&image))
        }
        "section" => {
            let bytes = request.bytes_after(3)?;
            if request.place(2) >= request.place(1) {
                return Some("no".to_string());
            }
            told(row(bytes, request.place(0), request.place(2)), |s| row_values(&s))
        }
        "find_offset" => {
            let bytes = request.bytes_after(4)?;
            let alignment = u32::try_from(request.number(2)).ok()?;
            told(mapped(bytes, request.place(0), request.place(1), alignment, request.place(3)), |n| vec![n.to_string()])
        }
        _ => return None,
    })
}
