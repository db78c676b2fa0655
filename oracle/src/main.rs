//! oracle scenes FILE [--any-length]
//!     for each packed scene of the file (its length in four bytes, most significant first, then its
//!     bytes) FORMAT 4's lines, from the Rust's own step with as many axes as the scene has; `skipped`
//!     where an average was -0, or where a scene that is not refused has another rule than the Rust's;
//!     with --any-length no scene is `too long`
//! oracle kernel [--flat]
//!     for each line of standard input with a distance and a radius (16 hex digits each): weight and
//!     slope, or the refusal; with --flat those of two axes

use std::io::{BufRead, Write};

use salva3d::run::bits;

const USE: &str = "oracle scenes FILE [--any-length]\noracle kernel [--flat] < FILE";

fn main() {
    let said = std::panic::take_hook();
    std::panic::set_hook(Box::new(move |info| {
        if !(info.payload().is::<salva2d::ZeroDensity>() || info.payload().is::<salva3d::ZeroDensity>()) {
            said(info)
        }
    }));
    let arguments: Vec<String> = std::env::args().skip(1).collect();
    let words: Vec<&str> = arguments.iter().map(String::as_str).collect();
    let done = match words[..] {
        ["scenes", file] => scenes(file, false),
        ["scenes", file, "--any-length"] => scenes(file, true),
        ["kernel"] => kernel(salva3d::run::kernel),
        ["kernel", "--flat"] => kernel(salva2d::run::kernel),
        _ => Err(USE.to_string()),
    };
    if let Err(message) = done {
        eprintln!("{message}");
        std::process::exit(2);
    }
}

/// By the Rust of two axes, if the scene's version has as many; a version that there is not is refused
/// by that of three.
fn lines(scene: &[u8], any_length: bool) -> String {
    if salva2d::scene::takes(scene) {
        salva2d::run::lines(scene, any_length)
    } else {
        salva3d::run::lines(scene, any_length)
    }
}

fn scenes(file: &str, any_length: bool) -> Result<(), String> {
    let all = std::fs::read(file).map_err(|e| format!("{file}: {e}"))?;
    let mut out = std::io::BufWriter::new(std::io::stdout().lock());
    let mut rest = &all[..];
    while !rest.is_empty() {
        let at = all.len() - rest.len();
        let short = || format!("{file}: ends within the length at byte {at}");
        let (length, after) = rest.split_first_chunk::<4>().ok_or_else(short)?;
        let length = u32::from_be_bytes(*length) as usize;
        if after.len() < length {
            return Err(format!("{file}: ends within the scene at byte {}", at + 4));
        }
        out.write_all(lines(&after[..length], any_length).as_bytes()).map_err(|e| e.to_string())?;
        rest = &after[length..];
    }
    out.flush().map_err(|e| e.to_string())
}

fn kernel(weight_and_slope: fn(f64, f64) -> [f64; 2]) -> Result<(), String> {
    let mut out = std::io::BufWriter::new(std::io::stdout().lock());
    for line in std::io::stdin().lock().lines() {
        let line = line.map_err(|e| e.to_string())?;
        let pair: Option<Vec<f64>> = line.split_whitespace().map(hex).collect();
        let text = match pair.as_deref() {
            Some([r, _]) if !(r.is_finite() && *r >= 0.0) => "refused 11".to_string(),
            Some([_, h]) if !(h.is_finite() && *h > 0.0) => "refused 12".to_string(),
            Some([r, h]) => weight_and_slope(*r, *h).map(bits).join(" "),
            _ => return Err(format!("not two doubles of 16 hex digits: {line}")),
        };
        writeln!(out, "{text}").map_err(|e| e.to_string())?;
    }
    out.flush().map_err(|e| e.to_string())
}

fn hex(word: &str) -> Option<f64> {
    if word.len() != 16 || word.starts_with('+') {
        return None;
    }
    u64::from_str_radix(word, 16).ok().map(f64::from_bits)
}
