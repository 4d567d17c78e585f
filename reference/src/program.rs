//! The program: the bytes of `job.chn` and of the script to the bytes of the output.

use crate::chain::Chain;
use crate::file;
use crate::map::Map;
use crate::refusal::{plain, Refusal};
use crate::script::{lines, parse, Call};

pub const MOST_BYTES: usize = 65_536;

pub fn run(chain_file: &[u8], script: &[u8]) -> Vec<u8> {
    let chain = match begin(chain_file, script) {
        Ok(chain) => chain,
        Err(refusal) => return refused(refusal).into_bytes(),
    };
    let mut map = Map::new(chain);
    let mut output = String::new();
    for line in lines(script) {
        match parse(line, map.chain.states) {
            Ok(Call::End) => {
                output += &map.close().sheet();
                break;
            }
            Ok(call) => output += &carry_out(&mut map, &call).unwrap_or_else(refused),
            Err(refusal) => output += &refused(refusal),
        }
    }
    output.into_bytes()
}

/// What comes first; a refusal here ends the program.
fn begin(chain_file: &[u8], script: &[u8]) -> Result<Chain, Refusal> {
    if chain_file.len() > MOST_BYTES {
        return Err(plain(22));
    }
    let chain = file::open(chain_file)?;
    if script.len() > MOST_BYTES {
        return Err(plain(22));
    }
    Ok(chain)
}

/// Carries out a call other than `E` and gives its line of output.
pub fn carry_out(map: &mut Map, call: &Call) -> Result<String, Refusal> {
    match call {
        Call::LayOut { grid, limit, sides } => map.lay_out(*grid, *limit, sides)?,
        Call::Cut { number, rate, place } => map.split(*number, *rate, *place)?,
        Call::Safe { number, v } => map.safe_witness(*number, v)?,
        Call::Unsafe { number, v, w } => map.unsafe_witness(*number, v, w)?,
        Call::Question { number } => return map.box_line(*number),
        Call::End => {}
    }
    Ok("ok\n".to_string())
}

fn refused(refusal: Refusal) -> String {
    format!("refused {} {}\n", refusal.number, refusal.place)
}
