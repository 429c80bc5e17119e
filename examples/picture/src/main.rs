//! Draws a scene: `abr-picture rates [FILE]` or `abr-picture closed-loop [FILE]`.

use std::ffi::OsString;
use std::process::ExitCode;

use abr_picture::{closed_loop, draw};
use abr_support::console::Console;

const CONSOLE: Console = Console {
    program: "abr-picture",
};

const HELP: &str = "\
usage: abr-picture SCENE [FILE]

Runs a scene over the ABR rate engine and draws the allowed rates over time, as an SVG.

  rates        two connections on one link under changing congestion
  closed-loop  ten sources that share an explicit-rate port; if a file is named, the feedbacks
               that each source took to its goals are printed
  FILE         where the picture goes; standard output without it

Exit status: 0 if the picture is made, 2 if not: the arguments are wrong, a call was refused, a
source took more feedbacks than it may, or the picture can't be written.
";

/// A picture, and what is said of it.
struct Drawn {
    svg: String,
    words: String,
}

fn main() -> ExitCode {
    let arguments: Vec<OsString> = std::env::args_os().skip(1).collect();
    let (scene, file) = match &arguments[..] {
        [help] if help == "--help" => return CONSOLE.help(HELP),
        [scene] => (scene, None),
        [scene, file] => (scene, Some(file.as_os_str())),
        _ => return CONSOLE.wrong_arguments("a scene and at most one file"),
    };
    let drawn = match scene.to_str() {
        Some("rates") => rates(),
        Some("closed-loop") => closed_loop(),
        _ => return CONSOLE.wrong_arguments("there is no such scene"),
    };
    match drawn {
        Err(why) => CONSOLE.complain(why),
        Ok(drawn) => match CONSOLE.write(file, drawn.svg.as_bytes()) {
            ExitCode::SUCCESS if file.is_some() => CONSOLE.write(None, drawn.words.as_bytes()),
            code => code,
        },
    }
}

/// Two connections.
fn rates() -> Result<Drawn, String> {
    let tracks = draw::tracks().map_err(refused)?;
    Ok(Drawn {
        svg: draw::svg(&tracks),
        words: String::new(),
    })
}

/// Ten sources, none of which takes more feedbacks to a goal than it may.
fn closed_loop() -> Result<Drawn, String> {
    let histories = closed_loop::run().map_err(refused)?;
    let shares = closed_loop::shares().map_err(refused)?;
    match closed_loop::report::late(&histories) {
        Some(why) => Err(why),
        None => Ok(Drawn {
            svg: closed_loop::draw::svg(&histories, &shares),
            words: closed_loop::report::table(&histories),
        }),
    }
}

fn refused(refusal: abr::Refusal) -> String {
    format!("refused: {refusal}")
}
