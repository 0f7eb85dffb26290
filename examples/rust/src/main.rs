//! Prints the operations that unwind an address of an x64 image, along the chain of its unwind infos: as examples/c does.
use hullsift::{Answer, Base, Code, Image, Info, Operation::*};
use std::process::exit;

fn refused<T>(what: &str) -> impl FnOnce(Answer) -> T + '_ {
    move |answer| {
        println!("{what}: refused with {}: {answer}", answer as u8);
        exit(1)
    }
}

fn print(code: &Code, info: &Info) {
    print!("  {:3} ", code.offset);
    match code.operation {
        Push(register) => println!("push {register}"),
        Alloc(size) => println!("alloc {size}"),
        SetFrame => println!("set {} to $rsp + {}", info.frame_register, info.frame_offset),
        Save(register, base, offset) | SaveLowXmm(register, base, offset) | SaveXmm(register, base, offset) => match base {
            Base::Rsp => println!("save {register} at $rsp + {offset}"),
            Base::Frame => println!("save {register} at {} + {offset}", info.frame_register),
        },
        MachineFrame { error_code } => println!("machine frame{}", if error_code { " with an error code" } else { "" }),
        Epilog { .. } | NoEffect => println!("no effect here"),
    }
}

fn number(word: &str) -> Option<u32> {
    match word.strip_prefix("0x") {
        Some(digits) => u32::from_str_radix(digits, 16).ok(),
        None => word.parse().ok(),
    }
}

fn main() {
    let words: Vec<String> = std::env::args().collect();
    let (file, address) = match (words.get(1).and_then(|path| std::fs::read(path).ok()), words.get(2).and_then(|word| number(word))) {
        (Some(file), Some(address)) => (file, address),
        _ => {
            println!("usage: unwind IMAGE ADDRESS");
            exit(2)
        }
    };
    let image = Image::open(&file).unwrap_or_else(refused("exceptions_open"));
    let found = image.find_function(address).unwrap_or_else(refused("find_function"));
    println!("function {:#x} to {:#x}", found.begin, found.end);
    let mut info = image.first_info(&found).unwrap_or_else(refused("first_info"));
    loop {
        println!("info of {:#x} after {} links", info.begin, info.links);
        for index in 0.. {
            match image.read_code(&info, index).unwrap_or_else(refused("read_code")) {
                Some(code) => print(&code, &info),
                None => break,
            }
        }
        match image.next_info(&info).unwrap_or_else(refused("next_info")) {
            Some(next) => info = next,
            None => return,
        }
    }
}
