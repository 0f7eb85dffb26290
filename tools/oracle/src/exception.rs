//! x64 exception data: lookup, unwind info, operations and scope tables.
use crate::request::{hex, Request};
use crate::{told, told_found};
use goblin::pe::data_directories::DataDirectory;
use goblin::pe::exception::{
    ExceptionData, Register, RuntimeFunction, ScopeTableEntry, StackFrameOffset, UnwindCode, UnwindHandler, UnwindInfo, UnwindOperation,
};
use goblin::pe::header::COFF_MACHINE_X86_64;
use goblin::pe::options::ParseOptions;
use goblin::pe::section_table::SectionTable;
use goblin::pe::utils::find_offset;
use scroll::{Pread, Pwrite, LE};

fn function_values(f: &RuntimeFunction) -> Vec<String> {
    vec![f.begin_address.to_string(), f.end_address.to_string(), f.unwind_info_address.to_string()]
}

/// The table that starts at `table`, as exception data whose addresses are offsets.
fn data<'a>(bytes: &'a [u8], table: usize, count: usize) -> Option<ExceptionData<'a>> {
    let mut options = ParseOptions::default();
    options.resolve_rva = false;
    let directory = DataDirectory { virtual_address: 0, size: u32::try_from(count.checked_mul(12)?).ok()? };
    ExceptionData::parse_with_opts(bytes.get(table..)?, directory, &[], 1, &options).ok()
}

/// A file and its section table, up to a row that is not whole: goblin maps by the rows in order.
struct Mapped<'a> {
    bytes: &'a [u8],
    sections: Vec<SectionTable>,
    alignment: u32,
}

impl<'a> Mapped<'a> {
    fn new(request: &Request, bytes: &'a [u8]) -> Mapped<'a> {
        let sections = (0..request.place(1)).map_while(|i| crate::pe::row(bytes, request.place(0), i).ok()).collect();
        Mapped { bytes, sections, alignment: request.number(2) as u32 }
    }

    /// The record at an address.
    fn record(&self, address: usize) -> Result<RuntimeFunction, ()> {
        let at = find_offset(address, &self.sections, self.alignment, &ParseOptions::default()).ok_or(())?;
        self.bytes.pread_with(at, LE).map_err(|_| ())
    }

    /// goblin's own: odd addresses are followed, chained infos are not.
    fn info(&self, function: RuntimeFunction) -> Result<UnwindInfo<'a>, ()> {
        let mut options = ParseOptions::default();
        options.resolve_rva = false;
        let nowhere = DataDirectory { virtual_address: 0, size: 0 };
        let data = ExceptionData::parse_with_opts(self.bytes, nowhere, &[], self.alignment, &options).map_err(|_| ())?;
        data.get_unwind_info(function, &self.sections).map_err(|_| ())
    }

    /// The info of a record, or the one at an index of those that it is chained to.
    fn chained(&self, function: RuntimeFunction, index: usize) -> Result<UnwindInfo<'a>, ()> {
        let mut info = self.info(function)?;
        for _ in 0..index {
            info = self.info(info.chained_info.ok_or(())?)?;
        }
        Ok(info)
    }

    /// How many links a record has, odd addresses and chained infos alike, and how many codes its infos have. `None` where infos are
    /// chained for ever, which goblin does not follow.
    fn all_codes(&self, function: RuntimeFunction) -> Option<Result<Vec<String>, ()>> {
        let (mut links, mut codes, mut next) = (0, 0, Some(function));
        while let Some(mut function) = next {
            if links > 100 {
                return None;
            }
            let Ok((info, count)) = self.info(function).and_then(|info| Ok((info.clone(), decoded(&info)?.len()))) else { return Some(Err(())) };
            while function.unwind_info_address % 2 != 0 {
                function = self.record(function.unwind_info_address as usize - 1).ok()?;
                links += 1;
            }
            next = info.chained_info;
            links += next.iter().count();
            codes += count;
        }
        Some(Ok(vec![links.to_string(), codes.to_string()]))
    }
}

/// Opening by the parts, in the order of docs/SPEC.md 8.1; goblin checks neither the order of the table nor that it lies in the file.
fn opened(bytes: &[u8]) -> Option<Result<Vec<String>, ()>> {
    let image = match crate::pe::image(bytes)? {
        Ok(image) => image,
        Err(()) => return Some(Err(())),
    };
    Some((|| {
        if image.coff.machine != COFF_MACHINE_X86_64 {
            return Err(());
        }
        let directory = *image.optional.data_directories.get_exception_table().ok_or(())?;
        let alignment = image.optional.windows_fields.file_alignment;
        let data = ExceptionData::parse(bytes, directory, &image.sections, alignment).map_err(|_| ())?;
        let address = directory.virtual_address as usize;
        let table = find_offset(address, &image.sections, alignment, &ParseOptions::default()).ok_or(())?;
        let numbers = [table, data.len(), image.table, image.sections.len(), alignment as usize];
        Ok(numbers.iter().map(usize::to_string).collect())
    })())
}

fn offset_values(offset: &StackFrameOffset) -> Vec<String> {
    match offset {
        StackFrameOffset::RSP(n) => vec!["0".to_string(), n.to_string()],
        StackFrameOffset::FP(n) => vec!["1".to_string(), n.to_string()],
    }
}

/// The code offset, a number for the kind, and its data.
fn code_values(code: &UnwindCode) -> Vec<String> {
    let mut words = vec![code.code_offset.to_string()];
    let mut add = |numbers: &[u32]| words.extend(numbers.iter().map(u32::to_string));
    match code.operation {
        UnwindOperation::PushNonVolatile(r) => add(&[0, r.0 as u32]),
        UnwindOperation::Alloc(n) => add(&[1, n]),
        UnwindOperation::SetFPRegister => add(&[2]),
        UnwindOperation::SaveNonVolatile(r, at) => {
            add(&[3, r.0 as u32]);
            words.extend(offset_values(&at));
        }
        UnwindOperation::SaveXMM(r, at) => {
            add(&[4, r.0 as u32]);
            words.extend(offset_values(&at));
        }
        UnwindOperation::Epilog { offset_low_or_size, offset_high_or_flags } => add(&[5, offset_low_or_size as u32, offset_high_or_flags as u32]),
        UnwindOperation::SaveXMM128(r, at) => {
            add(&[6, r.0 as u32]);
            words.extend(offset_values(&at));
        }
        UnwindOperation::PushMachineFrame(error) => add(&[7, error as u32]),
        UnwindOperation::Noop => add(&[8]),
        _ => add(&[9]),
    }
    words
}

pub fn info_values(bytes: &[u8], info: &UnwindInfo) -> Vec<String> {
    let mut words = vec![
        info.version.to_string(),
        info.size_of_prolog.to_string(),
        info.frame_register.0.to_string(),
        info.frame_register_offset.to_string(),
    ];
    let mut handler = |kind: u32, address: u32, data: &[u8]| {
        words.extend([kind.to_string(), address.to_string(), (bytes.len() - data.len()).to_string(), data.len().to_string()]);
    };
    match (&info.chained_info, &info.handler) {
        (Some(f), _) => {
            words.push("1".to_string());
            words.extend(function_values(f));
        }
        (None, Some(UnwindHandler::ExceptionHandler(address, data))) => handler(2, *address, data),
        (None, Some(UnwindHandler::TerminationHandler(address, data))) => handler(3, *address, data),
        (None, None) => words.push("0".to_string()),
    }
    words
}

/// All codes of an info, or the first that is refused.
fn decoded(info: &UnwindInfo) -> Result<Vec<UnwindCode>, ()> {
    let mut all = Vec::new();
    for code in info.unwind_codes() {
        all.push(code.map_err(|_| ())?);
    }
    Ok(all)
}

/// The code at an index, where none before it is refused: the iterator repeats an error for ever.
fn code(bytes: &[u8], at: usize, index: usize) -> Result<UnwindCode, ()> {
    let info = UnwindInfo::parse(bytes, at).map_err(|_| ())?;
    for (i, code) in info.unwind_codes().enumerate() {
        let code = code.map_err(|_| ())?;
        if i == index {
            return Ok(code);
        }
    }
    Err(())
}

/// The scope table in a handler's data, by an info whose exception handler has it.
fn scopes(data: &[u8]) -> Result<Vec<ScopeTableEntry>, ()> {
    let mut bytes = vec![9, 0, 0, 0, 0, 0, 0, 0];
    bytes.extend(data);
    scopes_at(&bytes, 0)
}

/// The scope table behind the info at an offset.
fn scopes_at(bytes: &[u8], at: usize) -> Result<Vec<ScopeTableEntry>, ()> {
    let info = UnwindInfo::parse(bytes, at).map_err(|_| ())?;
    Ok(info.c_scope_table_entries().ok_or(())?.collect())
}

fn scope_values(e: &ScopeTableEntry) -> Vec<String> {
    [e.begin, e.end, e.handler, e.target].iter().map(u32::to_string).collect()
}

fn function(request: &Request) -> RuntimeFunction {
    let n = |i| request.number(i) as u32;
    RuntimeFunction { begin_address: n(3), end_address: n(4), unwind_info_address: n(5) }
}

pub fn answer(request: &Request) -> Option<String> {
    Some(match request.door.as_str() {
        "lookup" => {
            let bytes = request.bytes_after(3)?;
            let data = data(bytes, request.place(0), request.place(1))?;
            let address = u32::try_from(request.number(2)).ok()?;
            told_found(data.find_function(address), |f| function_values(&f))
        }
        "exceptions" => {
            let bytes = request.bytes_after(0)?;
            told(opened(bytes)?, |words| words)
        }
        "record" => {
            let bytes = request.bytes_after(3)?;
            let data = data(bytes, request.place(0), request.place(1))?;
            if request.place(2) >= data.len() {
                return Some("no".to_string());
            }
            told(data.get_function(request.place(2)), |f| function_values(&f))
        }
        "register" => {
            let number = u8::try_from(request.number(0)).ok()?;
            // filled up with spaces, as the door hands it out
            format!("ok {}", hex(format!("{:6}", Register(number).name()).as_bytes()))
        }
        "unwind" => {
            let bytes = request.bytes_after(1)?;
            told(UnwindInfo::parse(bytes, request.place(0)), |info| info_values(bytes, &info))
        }
        "codes" => {
            let bytes = request.bytes_after(1)?;
            match UnwindInfo::parse(bytes, request.place(0)) {
                // more items than an info can have slots: the iterator repeats the error of a refused code for ever
                Ok(info) if info.unwind_codes().take(256).count() == 256 => "hang".to_string(),
                Ok(info) => format!("ok {}", info.unwind_codes().count()),
                Err(_) => "no".to_string(),
            }
        }
        "code" => {
            let bytes = request.bytes_after(2)?;
            told(code(bytes, request.place(0), request.place(1)), |c| code_values(&c))
        }
        "scopes" => {
            let data = request.bytes_after(0)?;
            told(scopes(data), |all| vec![all.len().to_string()])
        }
        "scope" => {
            let data = request.bytes_after(1)?;
            told(scopes(data).and_then(|all| all.get(request.place(0)).copied().ok_or(())), |e| scope_values(&e))
        }
        "scopes_at" => {
            let bytes = request.bytes_after(1)?;
            told(scopes_at(bytes, request.place(0)), |all| vec![all.len().to_string()])
        }
        "scope_at" => {
            let bytes = request.bytes_after(2)?;
            let found = scopes_at(bytes, request.place(0)).and_then(|all| all.get(request.place(1)).copied().ok_or(()));
            told(found, |e| scope_values(&e))
        }
        "record_at" => {
            let bytes = request.bytes_after(4)?;
            told(Mapped::new(request, bytes).record(request.number(3) as u32 as usize), |f| function_values(&f))
        }
        "info_of" => {
            let bytes = request.bytes_after(7)?;
            let image = Mapped::new(request, bytes);
            told(image.chained(function(request), request.place(6)), |info| info_values(bytes, &info))
        }
        "all_codes" => {
            let bytes = request.bytes_after(6)?;
            told(Mapped::new(request, bytes).all_codes(function(request))?, |words| words)
        }
        "scope_put" => {
            let bytes = request.bytes_after(5)?;
            let n = |i| request.number(i) as u32;
            let entry = ScopeTableEntry { begin: n(1), end: n(2), handler: n(3), target: n(4) };
            crate::ground::wrote(bytes, |out| out.pwrite_with(entry, request.place(0), LE))
        }
        _ => return None,
    })
}
