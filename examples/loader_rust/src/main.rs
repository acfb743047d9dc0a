//! Lists the maps and programs of a BPF object file whose canonical file has a signature of Ed25519.
//!
//! The file is read once. What is verified is its canonical file, and the crate `object` reads those
//! bytes and no others: it never sees a label, a second symbol table or a source line that the signer
//! didn't sign. A loader such as aya takes the same bytes: `aya::Bpf::load(&canonical)`.

use object::{File, Object, ObjectSection, ObjectSymbol, SymbolKind};
use ring::signature::{UnparsedPublicKey, ED25519};
use std::error::Error;
use std::{env, fs, process};

/// A public key of Ed25519 in DER is these bytes and 32 of the key (RFC 8410).
const DER: [u8; 12] = [0x30, 0x2a, 0x30, 0x05, 0x06, 0x03, 0x2b, 0x65, 0x70, 0x03, 0x21, 0x00];

/// Objects of old releases have valid signatures: build with `LEAST_VERSION=N` in the environment, and
/// only objects of version N or later are listed.
const LEAST_VERSION: Option<&str> = option_env!("LEAST_VERSION");

fn read(name: &str) -> Result<Vec<u8>, String> {
    fs::read(name).map_err(|error| format!("{name}: {error}"))
}

/// The canonical file of an object, which is signed.
fn verify(key: &[u8], signature: &[u8], object: &[u8]) -> Result<Vec<u8>, Box<dyn Error>> {
    let key = match key.strip_prefix(&DER) {
        Some(key) if key.len() == 32 => key,
        _ => return Err("the key isn't a public key of Ed25519 in DER".into()),
    };
    let canonical = bpfcanon::object::canon(object)?;
    UnparsedPublicKey::new(&ED25519, key)
        .verify(&canonical, signature)
        .map_err(|_| "the signature isn't one of this object by this key")?;
    Ok(canonical)
}

/// Refuses objects of low versions. The version of an object is its variable in .rodata.version, which
/// is signed with the rest, or 0 if it has none.
fn check_version(canonical: &[u8]) -> Result<(), Box<dyn Error>> {
    let least: u32 = LEAST_VERSION.unwrap_or("0").parse()?;
    let file = File::parse(canonical)?;
    let content = match file.section_by_name(".rodata.version") {
        Some(section) => section.data()?,
        None => &[],
    };
    let version = match content.try_into() {
        Ok(bytes) if file.is_little_endian() => u32::from_le_bytes(bytes),
        Ok(bytes) => u32::from_be_bytes(bytes),
        Err(_) => 0,
    };
    if version < least {
        let text = format!("the object has version {version}, and only {least} or later is loaded");
        return Err(text.into());
    }
    Ok(())
}

/// Functions outside .text are programs; variables in .maps are maps.
fn list(canonical: &[u8]) -> Result<(), object::Error> {
    let file = File::parse(canonical)?;
    for symbol in file.symbols().filter(|symbol| symbol.is_global()) {
        let index = match symbol.section_index() {
            Some(index) => index,
            None => continue,
        };
        match (symbol.kind(), file.section_by_index(index)?.name()?) {
            (SymbolKind::Data, ".maps") => println!("map {}", symbol.name()?),
            (SymbolKind::Text, section) if section != ".text" => {
                println!("program {}", symbol.name()?)
            }
            _ => {}
        }
    }
    Ok(())
}

fn run(key: &str, signature: &str, name: &str) -> Result<(), Box<dyn Error>> {
    let (key, signature, object) = (read(key)?, read(signature)?, read(name)?);
    let canonical =
        verify(&key, &signature, &object).map_err(|error| format!("{name}: {error}"))?;
    check_version(&canonical)?;
    Ok(list(&canonical)?)
}

fn main() {
    let words: Vec<String> = env::args().collect();
    let done = match &words[..] {
        [_, key, signature, object] => run(key, signature, object),
        _ => {
            eprintln!("loader: usage: loader KEY SIGNATURE OBJECT");
            process::exit(2)
        }
    };
    if let Err(error) = done {
        eprintln!("loader: {error}");
        process::exit(1);
    }
}
