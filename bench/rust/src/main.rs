//! `json_peer KIND ROUNDS` reads a JSON text from standard input, decodes it as the kind and encodes
//! the result as text, this many times, and prints the sum of the lengths of what was decoded, as
//! `passkey_bench` does. `bench/json_peer.py` measures it. Without rounds it prints the encoding.
use passkey_types::webauthn::{
    AuthenticatedPublicKeyCredential, CollectedClientData, CreatedPublicKeyCredential,
    CredentialCreationOptions, CredentialRequestOptions,
};
use serde::{de::DeserializeOwned, Serialize};
use std::error::Error;
use std::io::Read;

type Rewrite = fn(&[u8]) -> serde_json::Result<String>;

fn rewrite<T: DeserializeOwned + Serialize>(text: &[u8]) -> serde_json::Result<String> {
    let value: T = serde_json::from_slice(text)?;
    serde_json::to_string(&value)
}

fn rewrite_named(kind: &str) -> Option<Rewrite> {
    match kind {
        "creation" => Some(rewrite::<CredentialCreationOptions>),
        "request" => Some(rewrite::<CredentialRequestOptions>),
        "created" => Some(rewrite::<CreatedPublicKeyCredential>),
        "authenticated" => Some(rewrite::<AuthenticatedPublicKeyCredential>),
        "client-data" => Some(rewrite::<CollectedClientData>),
        _ => None,
    }
}

fn main() -> Result<(), Box<dyn Error>> {
    let words: Vec<String> = std::env::args().skip(1).collect();
    let kind = words.first().ok_or("no kind")?;
    let rewrite = rewrite_named(kind).ok_or("no such kind")?;
    let mut text = Vec::new();
    std::io::stdin().read_to_end(&mut text)?;
    let Some(rounds) = words.get(1) else {
        println!("{}", rewrite(&text)?);
        return Ok(());
    };
    let mut sum: usize = 0;
    for _ in 0..rounds.parse::<u32>()? {
        if rewrite(&text).is_ok() {
            sum = sum.wrapping_add(text.len());
        }
    }
    println!("{sum}");
    Ok(())
}
