//! The gate for Rust, by the library for C (include/cose_gate.h). `check` checks MACs. `pass` is for signatures: the library goes by the
//! rules for headers and keys, and the caller says whether a signature is good under a key. `pass_tokens` is that for tokens.
use std::fmt;

/// How a call ended, and how long what it wrote is (include/cose_gate.h).
#[repr(C)]
#[derive(Debug, Clone, Copy)]
struct Answer {
    status: u32,
    length: usize,
    lines: usize,
}

/// A string, as C has it.
#[repr(C)]
struct Text {
    at: *const u8,
    length: usize,
}

/// `Terms`, as C has them.
#[repr(C)]
struct TokenTerms {
    earliest: i64,
    latest: i64,
    issuer: Text,
    audience: Text,
    needed: *const i64,
    needed_length: usize,
    named: *const Text,
    named_length: usize,
    has_issuer: bool,
    has_audience: bool,
    any_audience: bool,
}

/// A call over keys or digests, external data and an input, with two buffers.
type Call = unsafe extern "C" fn(
    given: *const u8,
    given_length: usize,
    aad: *const u8,
    aad_length: usize,
    input: *const u8,
    input_length: usize,
    out: *mut u8,
    out_length: usize,
    lines: *mut u8,
    lines_length: usize,
    nesting: usize,
    layers: usize,
    strict: bool,
) -> Answer;

macro_rules! declare {
    ($($name:ident),*) => {
        extern "C" {
            $(fn $name(
                given: *const u8, given_length: usize, aad: *const u8, aad_length: usize, input: *const u8, input_length: usize,
                out: *mut u8, out_length: usize, lines: *mut u8, lines_length: usize, nesting: usize, layers: usize, strict: bool,
            ) -> Answer;)*
            fn cose_gate_ask_tokens(
                keys: *const u8, keys_length: usize, token: *const TokenTerms, aad: *const u8, aad_length: usize, input: *const u8,
                input_length: usize, out: *mut u8, out_length: usize, lines: *mut u8, lines_length: usize, nesting: usize, layers: usize,
                strict: bool,
            ) -> Answer;
            fn cose_gate_key_parts(keys: *const u8, keys_length: usize, parts: *mut u8, parts_length: usize) -> Answer;
        }
    };
}
declare!(cose_gate_check, cose_gate_ask_ruled, cose_gate_pass_digests);

/// The limits of the program.
const NESTING: usize = 256;
const LAYERS: usize = 16;

/// What the gate says of an input that it went through.
#[derive(Debug)]
pub struct Checked {
    pub some_refused: bool,
    pub passed: Vec<u8>,
    pub lines: Vec<u8>,
}

/// Why the gate didn't go through an input.
#[derive(Debug)]
pub enum GateError {
    /// The limits are out of range.
    Limits,
    /// The bytes are no key set.
    Keys { lines: Vec<u8> },
    /// The input is no CBOR from some place on, or memory ran out; `passed` is what passed before.
    Stopped { passed: Vec<u8>, lines: Vec<u8> },
}

impl fmt::Display for GateError {
    fn fmt(&self, f: &mut fmt::Formatter) -> fmt::Result {
        match self {
            GateError::Limits => write!(f, "the limits are out of range"),
            GateError::Keys { .. } => write!(f, "the bytes are no key set"),
            GateError::Stopped { .. } => write!(f, "the input is no CBOR, or out of memory"),
        }
    }
}

impl std::error::Error for GateError {}

/// A call with buffers as long as they have to be: at first these.
fn run(mut room: usize, call: impl Fn(&mut [u8], &mut [u8]) -> Answer) -> Result<Checked, GateError> {
    let mut lines_room = 4096;
    loop {
        let (mut passed, mut lines) = (vec![0; room], vec![0; lines_room]);
        let answer = call(&mut passed, &mut lines);
        if answer.status == 5 || answer.lines > lines_room {
            // The answer says how long.
            room = room.max(answer.length);
            lines_room = lines_room.max(answer.lines);
            continue;
        }
        passed.truncate(answer.length);
        lines.truncate(answer.lines);
        return match answer.status {
            0 | 1 => Ok(Checked { some_refused: answer.status == 1, passed, lines }),
            2 => Err(GateError::Limits),
            3 => Err(GateError::Keys { lines }),
            _ => Err(GateError::Stopped { passed, lines }),
        };
    }
}

/// One of the calls, within the usual limits.
fn call(which: Call, given: &[u8], aad: &[u8], input: &[u8], strict: bool) -> Result<Checked, GateError> {
    // A slice's pointer is never null, and no two of these overlap.
    run(input.len(), |out, lines| unsafe {
        which(
            given.as_ptr(),
            given.len(),
            aad.as_ptr(),
            aad.len(),
            input.as_ptr(),
            input.len(),
            out.as_mut_ptr(),
            out.len(),
            lines.as_mut_ptr(),
            lines.len(),
            NESTING,
            LAYERS,
            strict,
        )
    })
}

/// Checks the MACs of a sequence of messages.
pub fn check(keys: &[u8], aad: &[u8], input: &[u8], strict: bool) -> Result<Checked, GateError> {
    call(cose_gate_check, keys, aad, input, strict)
}

/// A signature or MAC to verify.
#[derive(Debug, Clone, Copy)]
pub struct Signature<'a> {
    /// The message's tag: 17, 18 or 98.
    pub kind: u64,
    /// As COSE numbers it: -7 is ES256.
    pub algorithm: i64,
    /// It covers these, one after another.
    pub covered: [&'a [u8]; 3],
    pub signature: &'a [u8],
}

/// The parts of a key that fits: numbers of IANA's registries for COSE, 0 for none, and byte strings, empty if it has none.
#[derive(Debug, Clone, Copy)]
pub struct Key<'a> {
    /// 1 is OKP, 2 EC2, 3 RSA, 4 symmetric.
    pub kty: i64,
    pub algorithm: i64,
    /// 1 is P-256, 6 Ed25519.
    pub curve: i64,
    /// n of an RSA key, k of a symmetric one.
    pub n_or_k: &'a [u8],
    /// x of a key on a curve, e of an RSA key.
    pub x_or_e: &'a [u8],
    pub y: &'a [u8],
}

/// Takes a number off the front.
fn number(rest: &mut &[u8]) -> u64 {
    let (front, behind) = rest.split_at(8);
    *rest = behind;
    front.iter().rev().fold(0, |number, &byte| number << 8 | u64::from(byte))
}

/// Takes a byte string, which comes after its length, off the front.
fn text<'a>(rest: &mut &'a [u8]) -> &'a [u8] {
    let length = number(rest) as usize;
    let (front, behind) = rest.split_at(length);
    *rest = behind;
    front
}

/// The key whose parts these are.
fn key(mut rest: &[u8]) -> Key<'_> {
    let mut numbers = || number(&mut rest) as i64;
    let (kty, algorithm, curve) = (numbers(), numbers(), numbers());
    Key { kty, algorithm, curve, n_or_k: text(&mut rest), x_or_e: text(&mut rest), y: text(&mut rest) }
}

/// The digests of the good ones among the questions that blocks show. `docs/cose-ask.1` says what a block is.
fn accepted(mut blocks: &[u8], keys: &[Key], mut is_good: impl FnMut(&Signature, &Key) -> bool) -> Vec<u8> {
    let mut digests = Vec::new();
    while !blocks.is_empty() {
        let mut item = &text(&mut blocks)[32..];
        let (_verdict, _why, base) = (text(&mut item), text(&mut item), text(&mut item));
        while !item.is_empty() {
            let mut rest = text(&mut item);
            let (kind, algorithm) = (number(&mut rest), number(&mut rest) as i64);
            let mut places = text(&mut rest);
            let (front, back) = (number(&mut rest) as usize, number(&mut rest) as usize);
            let covered = [&base[..front], text(&mut rest), &base[back..]];
            let one = Signature { kind, algorithm, covered, signature: text(&mut rest) };
            while !places.is_empty() {
                if is_good(&one, &keys[number(&mut places) as usize]) {
                    digests.extend_from_slice(rest);
                    break;
                }
            }
        }
    }
    digests
}

/// The messages of a sequence all of whose signatures and MACs the rules for headers and keys allow, and `is_good` says to be good under one
/// of the keys that fit.
pub fn pass(keys: &[u8], aad: &[u8], input: &[u8], strict: bool, is_good: impl FnMut(&Signature, &Key) -> bool) -> Result<Checked, GateError> {
    pass_good(call(cose_gate_ask_ruled, keys, aad, input, strict), keys, aad, input, strict, is_good)
}

/// Which tokens pass (RFC 8392).
#[derive(Debug, Clone, Copy, Default)]
pub struct Terms<'a> {
    /// The second since 1970 that it is, and by how many clocks may differ.
    pub now: i64,
    pub leeway: i64,
    /// What iss has to be, if it has to be there.
    pub issuer: Option<&'a str>,
    /// What aud has to be or to have. If there is none, a token with an aud is refused, but with `any_audience`.
    pub audience: Option<&'a str>,
    pub any_audience: bool,
    /// The claims that have to be there, by their numbers, and by their names.
    pub needed: &'a [i64],
    pub named: &'a [&'a str],
}

fn lent(text: &str) -> Text {
    Text { at: text.as_ptr(), length: text.len() }
}

/// As `pass`, of tokens whose claims pass.
pub fn pass_tokens(keys: &[u8], terms: Terms, aad: &[u8], input: &[u8], strict: bool, is_good: impl FnMut(&Signature, &Key) -> bool) -> Result<Checked, GateError> {
    let named: Vec<Text> = terms.named.iter().map(|name| lent(name)).collect();
    let token = TokenTerms {
        earliest: terms.now.saturating_sub(terms.leeway),
        latest: terms.now.saturating_add(terms.leeway),
        issuer: lent(terms.issuer.unwrap_or("")),
        audience: lent(terms.audience.unwrap_or("")),
        needed: terms.needed.as_ptr(),
        needed_length: terms.needed.len(),
        named: named.as_ptr(),
        named_length: named.len(),
        has_issuer: terms.issuer.is_some(),
        has_audience: terms.audience.is_some(),
        any_audience: terms.any_audience,
    };
    let blocks = run(input.len(), |out, lines| unsafe {
        cose_gate_ask_tokens(
            keys.as_ptr(),
            keys.len(),
            &token,
            aad.as_ptr(),
            aad.len(),
            input.as_ptr(),
            input.len(),
            out.as_mut_ptr(),
            out.len(),
            lines.as_mut_ptr(),
            lines.len(),
            NESTING,
            LAYERS,
            strict,
        )
    });
    pass_good(blocks, keys, aad, input, strict, is_good)
}

/// The messages all of whose questions are among those of the blocks, and good. If the input can't be read from some place on, the blocks are
/// those before it.
fn pass_good(
    asked: Result<Checked, GateError>,
    keys: &[u8],
    aad: &[u8],
    input: &[u8],
    strict: bool,
    is_good: impl FnMut(&Signature, &Key) -> bool,
) -> Result<Checked, GateError> {
    let (blocks, stopped) = match asked {
        Ok(asked) => (asked.passed, None),
        Err(GateError::Stopped { passed, lines }) => (passed, Some(lines)),
        Err(fault) => return Err(fault),
    };
    let parts = run(keys.len(), |out, _| unsafe { cose_gate_key_parts(keys.as_ptr(), keys.len(), out.as_mut_ptr(), out.len()) })?.passed;
    let mut rest = parts.as_slice();
    let mut listed = Vec::new();
    while !rest.is_empty() {
        listed.push(key(text(&mut rest)));
    }
    let digests = accepted(&blocks, &listed, is_good);
    let checked = call(cose_gate_pass_digests, &digests, aad, input, strict)?;
    match stopped {
        None => Ok(checked),
        // Memory ran out for the blocks.
        Some(lines) => Err(GateError::Stopped { passed: checked.passed, lines }),
    }
}

#[cfg(test)]
mod tests {
    /// Of mixed.cbor the four messages under the key of 32 bytes, also the one with a wrong tag, which this doesn't look at.
    #[test]
    fn passes_what_is_called_good() {
        let read = |name| std::fs::read(format!("{}/../{name}.cbor", env!("CARGO_MANIFEST_DIR"))).unwrap();
        let of_32 = |one: &super::Signature, key: &super::Key| one.algorithm == 5 && (key.kty, key.algorithm, key.curve) == (4, 5, 0) && key.n_or_k.len() == 32;
        let checked = super::pass(&read("keys"), &[1], &read("mixed"), false, of_32).unwrap();
        assert!(checked.some_refused && checked.lines.ends_with(b"passed 4, refused 5\n"));
        // None of them is a token.
        let terms = super::Terms { named: &["scope"], needed: &[4], ..Default::default() };
        let checked = super::pass_tokens(&read("keys"), terms, &[1], &read("mixed"), false, of_32).unwrap();
        assert!(checked.passed.is_empty() && checked.lines.ends_with(b"passed 0, refused 9\n"));
    }
}
