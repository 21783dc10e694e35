//! The tool as a user runs it, from the repository's root.

use std::fs;
use std::io::Write;
use std::path::{Path, PathBuf};
use std::process::{Command, Output, Stdio};

fn root() -> PathBuf {
    Path::new(env!("CARGO_MANIFEST_DIR")).join("../..").canonicalize().unwrap()
}

fn tool(words: &[&str]) -> Command {
    let mut command = Command::new(env!("CARGO_BIN_EXE_rjupholt"));
    command.args(words).current_dir(root()).stdin(Stdio::null());
    command
}

fn run(words: &[&str]) -> Output {
    tool(words).output().unwrap()
}

fn status(output: &Output) -> i32 {
    output.status.code().expect("no signal ended it")
}

fn printed(output: &Output) -> &str {
    std::str::from_utf8(&output.stdout).unwrap()
}

/// The status and the one line that say why there is no answer.
fn trouble(output: &Output) -> (i32, String) {
    let said = String::from_utf8(output.stderr.clone()).unwrap();
    assert!(output.stdout.is_empty() && said.ends_with('\n') && said.lines().count() == 1, "{output:?}");
    (status(output), said.trim_end().to_string())
}

/// A folder of its own for a test.
fn folder(name: &str) -> PathBuf {
    let folder = Path::new(env!("CARGO_TARGET_TMPDIR")).join(name);
    let _ = fs::remove_dir_all(&folder);
    fs::create_dir_all(&folder).unwrap();
    folder
}

fn cases() -> Vec<String> {
    let shapes = fs::read_dir(root().join("shapes")).unwrap().map(|entry| entry.unwrap().file_name().into_string().unwrap());
    let cases: Vec<String> = shapes.filter(|name| name.ends_with(".case")).map(|name| format!("shapes/{name}")).collect();
    assert!(cases.len() >= 40);
    cases
}

#[test]
fn every_example_works() {
    let all = run(&["--help"]);
    let commands: Vec<&str> =
        printed(&all).lines().filter(|line| line.starts_with("    ")).filter_map(|line| line.split_whitespace().next()).collect();
    assert_eq!(commands.len(), 11, "{commands:?}");
    for command in commands {
        let help = run(&[command, "--help"]);
        assert_eq!(status(&help), 0);
        let example = printed(&help).lines().last().unwrap().trim().strip_prefix("./rjupholt ").unwrap().to_string();
        let (plain, quoted) = example.split_once('\'').unwrap_or((&example, ""));
        let mut words: Vec<&str> = plain.split_whitespace().collect();
        words.extend(quoted.strip_suffix('\''));
        let answer = run(&words);
        assert!(status(&answer) <= 1 && answer.stderr.is_empty() && !answer.stdout.is_empty(), "{example}: {answer:?}");
    }
}

#[test]
fn statuses_that_a_script_can_use() {
    for (words, expected) in [
        (&["list", "shapes/H.case"][..], 0),
        (&["list", "shapes/H.case", "--bound", "7"], 3),
        (&["list", "shapes/H.case", "--board", "tso"], 0),
        (&["list", "shapes/H-spin.case"], 3),
        (&["ask", "shapes/H.case", "p1:r2=1 p1:r3=0"], 0),
        (&["ask", "shapes/H.case", "p1:r2=1,p1:r3=0"], 0),
        (&["ask", "shapes/H.case", ""], 0),
        (&["ask", "shapes/H-locked.case", "p1:r2=1 p1:r3=0"], 1),
        (&["ask", "shapes/H.case", "p1:r2=-"], 1),
        (&["ask", "shapes/H.case", "p1:r2=1", "--bound", "7"], 3),
        (&["replay", "shapes/H.case", "i0 i0 c0:1"], 0),
        (&["replay", "shapes/H.case", "i0 c0:1"], 1),
        (&["why", "shapes/H-locked.case", "i0 i1"], 0),
        (&["why", "shapes/H-locked.case", "i0 c0:0 i1"], 1),
        (&["boards", "shapes/LB.case"], 0),
        (&["boards", "shapes/two-spin.case"], 3),
        (&["check", "shapes"], 0),
    ] {
        let answer = run(words);
        assert!(status(&answer) == expected && answer.stderr.is_empty(), "{words:?}: {answer:?}");
    }
}

#[test]
fn a_bad_command_gets_one_line() {
    for words in [
        &[][..],
        &["lst"],
        &["list"],
        &["list", "shapes/H.case", "shapes/H.case"],
        &["list", "shapes/H.case", "--bound"],
        &["list", "shapes/H.case", "--bound", "many"],
        &["list", "shapes/H.case", "--bound", "97"],
        &["list", "shapes/H.case", "--board", "sc", "--bound", "49"],
        &["list", "shapes/H.case", "--board", "arm"],
        &["boards", "shapes/H.case", "--bound", "8"],
        &["ask", "shapes/H.case", "p1:r2"],
        &["ask", "shapes/H.case", "p1:r2=65536"],
        &["ask", "shapes/H.case", "p2:r2=1"],
        &["ask", "shapes/H.case", "p1:r8=1"],
        &["ask", "shapes/H.case", "p1:r2=1 p1:r2=1 p1:r2=1 p1:r2=1 p1:r2=1 p1:r2=1 p1:r2=1 p1:r2=1 p1:r2=1"],
        &["replay", "shapes/H.case", "i0 x1"],
        &["replay", "shapes/H.case", "c0"],
        &["draw", "shapes/H-locked.case", "p1:r2=1 p1:r3=0"],
        &["why", "shapes/H.case", "c0:0"],
        &["text", "shapes/H.case", "--svg"],
    ] {
        let (status, said) = trouble(&run(words));
        assert!(status == 2 && said.starts_with("rjupholt: "), "{words:?}: {said}");
    }
}

#[test]
fn a_bad_text_names_its_line() {
    let folder = folder("texts");
    let given = |text: &str| {
        let path = folder.join("bad.case");
        fs::write(&path, text).unwrap();
        let (status, said) = trouble(&run(&["list", path.to_str().unwrap()]));
        assert_eq!(status, 2);
        said.split_once("bad.case: ").unwrap().1.to_string()
    };
    for (text, line) in [
        ("case 2 2\nop 0 wrte 0 1\n", "line 2: `op 0 wrte 0 1` is no line here"),
        ("case 5 2\n", "line 1: `case 5 2` is no first line"),
        ("case 1 1", "line 1: `case 1 1` has no line feed at its end (code 17)"),
        ("case 1 1\r\n", "line 1: `case 1 1\r` ends with a carriage return"),
        ("case 1  1\n", "line 1: `case 1  1` has more than single spaces"),
        ("case 1 1\nmem 0 0\n", "line 2: `mem 0 0` is no line here"),
        ("case 1 1\nop 0 goto 5\n", "line 3: the text ends too early: a label"),
        ("case 1 1\nreg 0 1 1\nreg 0 0 0\n", "line 3: `reg 0 0 0` is no line here"),
        ("hello\n", "line 1: `hello` is no line of a case"),
        ("case 1 1\nop 0 write 0 1\n", "line 2: `op 0 write 0 1` reads a register that no preset gives"),
    ] {
        assert!(given(text).starts_with(line), "{text:?}: {}", given(text));
    }
}

#[test]
fn a_bad_block_names_its_field() {
    let folder = folder("blocks");
    let path = folder.join("bad.block");
    let mut block = run(&["block", "shapes/H.case"]).stdout;
    let mut given = |at: usize, byte: u8, sealed: bool| {
        block[at] ^= byte;
        let sum: u32 = (1..).zip(&block[..510]).map(|(n, &byte)| n * u32::from(byte)).sum();
        let check = (sum % 65_521) as u16 ^ u16::from(!sealed);
        block[510..].copy_from_slice(&check.to_le_bytes());
        fs::write(&path, &block).unwrap();
        block[at] ^= byte;
        let (status, said) = trouble(&run(&["list", path.to_str().unwrap()]));
        assert_eq!(status, 2);
        said
    };
    assert!(given(0, 0, false).ends_with("the block's check is wrong: bytes were changed or lost (code 2)"));
    assert!(given(95, 8, true).ends_with("byte 95, processor 0, instruction 0, b (code 6)"));
    assert!(given(95, 2, true).ends_with("byte 95, processor 0, instruction 0, b (code 19)"));
}

#[test]
fn a_bad_file_gets_one_line() {
    let folder = folder("files");
    let file = |name: &str, bytes: &[u8]| {
        let path = folder.join(name);
        fs::write(&path, bytes).unwrap();
        path.to_str().unwrap().to_string()
    };
    let huge = file("huge", &[]);
    fs::File::options().write(true).open(&huge).unwrap().set_len(1 << 30).unwrap();
    let inside = file("plain", b"x") + "/case";
    for (path, expected, words) in [
        (file("empty", b""), 2, "the file is empty, and so no case (code 17, line 1)"),
        (file("binary", &[0x7F, b'E', b'L', b'F', 2, 1, 1]), 2, "7 bytes that are no text, and a block has 512 (code 1)"),
        (huge.clone(), 2, "too long for a case: a block has 512 bytes, the longest text 1,369"),
        (folder.to_str().unwrap().to_string(), 4, "it is a directory"),
        (folder.join("missing").to_str().unwrap().to_string(), 4, "there is no such file"),
        (inside, 4, "it is not in a directory"),
    ] {
        for command in ["list", "boards", "text", "block"] {
            assert_eq!(trouble(&run(&[command, &path])), (expected, format!("rjupholt: {path}: {words}")));
        }
    }
    let shelved = run(&["shelf", &huge]);
    assert_eq!((status(&shelved), printed(&shelved)), (2, "refused 16\n"));
    assert_eq!(trouble(&run(&["shelf", folder.to_str().unwrap()])).0, 4);
    assert_eq!(trouble(&run(&["check", "README.md"])).0, 4);
    assert_eq!(trouble(&run(&["check", folder.to_str().unwrap()])).0, 2);
    assert_eq!(trouble(&run(&["replay", "shapes/H.case", "@missing"])).0, 4);
}

/// Root may read everything: it runs the tool as nobody, and where it cannot, this is said and not tried.
#[test]
#[cfg(unix)]
fn no_permission_gets_one_line() {
    use std::os::unix::fs::PermissionsExt;
    let folder = std::env::temp_dir().join(format!("rjupholt-{}", std::process::id()));
    fs::create_dir_all(&folder).unwrap();
    let (secret, copy) = (folder.join("secret.case"), folder.join("rjupholt"));
    fs::write(&secret, "case 1 1\n").unwrap();
    fs::copy(env!("CARGO_BIN_EXE_rjupholt"), &copy).unwrap();
    fs::set_permissions(&folder, fs::Permissions::from_mode(0o755)).unwrap();
    fs::set_permissions(&secret, fs::Permissions::from_mode(0o000)).unwrap();
    let mut command = match fs::File::open(&secret) {
        Err(_) => Command::new(&copy),
        Ok(_) => {
            let mut nobody = Command::new("setpriv");
            nobody.args(["--reuid=65534", "--regid=65534", "--clear-groups"]).arg(&copy);
            nobody
        }
    };
    let answer = command.args(["list", secret.to_str().unwrap()]).output();
    fs::remove_dir_all(&folder).unwrap();
    match answer {
        Ok(answer) => assert_eq!(trouble(&answer), (4, format!("rjupholt: {}: no permission", secret.display()))),
        Err(wrong) => eprintln!("not tried: root cannot run it as nobody: {wrong}"),
    }
}

#[test]
fn a_closed_pipe_gets_one_line() {
    for words in [&["list", "shapes/H.case"][..], &["--help"], &["block", "shapes/H.case"], &["check", "shapes"]] {
        let (reader, writer) = std::io::pipe().unwrap();
        drop(reader);
        let answer = tool(words).stdout(writer).stderr(Stdio::piped()).spawn().unwrap().wait_with_output().unwrap();
        let gone = "rjupholt: the answer could not be written: the reader of the pipe has gone";
        assert_eq!(trouble(&answer), (4, gone.to_string()));
    }
}

#[test]
fn one_form_gives_the_other() {
    for case in cases() {
        let text = fs::read(root().join(&case)).unwrap();
        assert_eq!(run(&["text", &case]).stdout, text, "{case}");
        let block = run(&["block", &case]).stdout;
        assert_eq!(block.len(), 512);
        let mut child = tool(&["text", "-"]).stdin(Stdio::piped()).stdout(Stdio::piped()).spawn().unwrap();
        child.stdin.take().unwrap().write_all(&block).unwrap();
        assert_eq!(child.wait_with_output().unwrap().stdout, text, "{case}");
    }
}

/// In the lines of the proved program, for every stored shelf.
#[test]
fn a_shelf_is_counted() {
    let shelves = root().join("bench/inputs/shelf");
    let inputs = fs::read_dir(shelves).unwrap().map(|entry| entry.unwrap().path());
    let inputs: Vec<PathBuf> = inputs.filter(|path| path.extension().is_some_and(|extension| extension == "in")).collect();
    assert!(inputs.len() >= 5);
    for input in inputs {
        let expected = fs::read(input.with_extension("out")).unwrap();
        assert_eq!(run(&["shelf", input.to_str().unwrap()]).stdout, expected, "{}", input.display());
    }
}

/// Every result of every smaller shape is asked for, and its run drawn both ways: it ends with that result.
#[test]
fn every_result_is_drawn() {
    let mut drawn = 0;
    for case in cases() {
        let list = run(&["list", &case]);
        let results: Vec<&str> = printed(&list).lines().skip(1).map(str::trim).collect();
        if results.len() > 4 || results.iter().any(|result| result.split(' ').count() > 8) {
            continue;
        }
        for result in results.into_iter().filter(|result| result.starts_with('p')) {
            let text = run(&["draw", &case, result]);
            assert!(printed(&text).contains(&format!("\nends with {result}\n")), "{case} {result}: {text:?}");
            let svg = run(&["draw", &case, result, "--svg"]);
            assert!(printed(&svg).starts_with("<svg ") && printed(&svg).ends_with("</svg>\n"), "{case} {result}");
            drawn += 1;
        }
    }
    assert!(drawn >= 40, "{drawn}");
}

#[test]
fn a_changed_result_is_found() {
    let folder = folder("check");
    for name in ["H.case", "H.results", "SB.case", "SB.results"] {
        fs::copy(root().join("shapes").join(name), folder.join(name)).unwrap();
    }
    let path = folder.to_str().unwrap();
    assert_eq!(printed(&run(&["check", path])), "2 shapes on four machines each, 0 differ from their results\n");
    let results = fs::read_to_string(folder.join("H.results")).unwrap();
    for changed in
        [results.replacen("results 3", "results 2", 1), results.replacen("p1 0 1 0 1", "p1 0 1 1 0", 1), results + "more\n"]
    {
        fs::write(folder.join("H.results"), changed).unwrap();
        let answer = run(&["check", path]);
        assert!(status(&answer) == 1 && printed(&answer).ends_with(", 1 differ from their results\n"), "{answer:?}");
        assert!(printed(&answer).contains("H.case: "));
    }
}

/// The picture that was rendered and looked at.
#[test]
fn the_picture_of_h() {
    let expected = fs::read_to_string(root().join("docs/H.svg")).unwrap();
    assert_eq!(printed(&run(&["draw", "shapes/H.case", "p1:r2=1 p1:r3=0", "--svg"])), expected);
}
