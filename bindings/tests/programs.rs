//! The programs in C and in Rust: `roll` prints for each sheet of examples/ what program `roll` in Rattle prints, `desk` what it should.
//! Program `shapes`, in Rattle and in C, writes the files that the reference implementation expects.

use fissures::{Shapefile, SHAPEFILES};
use reference::refusal::Refusal;
use reference::roll::roll;
use reference::shapefile::files;
use reference::sheet::read;
use std::fs::{self, File};
use std::io::Write;
use std::path::Path;
use std::process::{Command, Stdio};

/// The repository.
fn root() -> &'static Path {
    Path::new(env!("CARGO_MANIFEST_DIR")).parent().unwrap()
}

/// Runs a program in the repository's root; none if there is no such program.
fn run(program: &str, arguments: &str) -> Option<()> {
    let mut command = Command::new(program);
    let status = command.args(arguments.split(' ')).current_dir(root()).status().ok()?;
    assert!(status.success(), "{program} {arguments}");
    Some(())
}

fn prints_the_examples(program: &str) {
    run("examples/compare", program).expect("examples/compare");
}

/// Compiles a program of examples/c to target/NAME-c.
fn compile(name: &str) {
    let words = format!(
        "-std=c99 -Wall -Wextra -Werror -O1 -Ibindings examples/c/{name}.c target/staticlib/libfissures_c.a -o target/{name}-c"
    );
    run("cc", &words).expect("cc, which cargo links with too");
}

#[test]
fn in_c() {
    compile("roll");
    prints_the_examples("target/roll-c");
}

/// What target/desk-c prints for a sheet of examples/.
fn at_the_desk(sheet: &str) -> String {
    let sheet = File::open(root().join("examples").join(sheet)).expect("a sheet of examples/");
    let output = Command::new(root().join("target/desk-c")).stdin(sheet).output().expect("target/desk-c");
    assert!(output.status.success());
    String::from_utf8(output.stdout).expect("text")
}

#[test]
fn desk_in_c() {
    compile("desk");
    let steps = "track 1 ended on the trace of 2 (east), from the left\n\
                 track 2 ended on the trace of 3 (south), from the left\n2 still running\n\
                 track 3 ended on the trace of 4, from the left\n\
                 track 4 ended on the trace of 1 (north), from the left\n0 still running\n";
    assert_eq!(at_the_desk("E.sheet"), steps);
    let wall = "track 2 ended at wall 1 (quay), from the right\ntrack 1 ended at the edge\n0 still running\n";
    assert_eq!(at_the_desk("F.sheet"), wall);
    let meeting = "track 1 ended meeting 2 (east), from the left\n\
                   track 2 ended meeting 1 (north), from the right\n0 still running\n";
    assert_eq!(at_the_desk("B.sheet"), meeting);
    // After the two rows of time 10 one of the two tracks that are left has yet to open.
    let late =
        "track 3 ended meeting 4, from the left\ntrack 4 ended meeting 3 (south), from the right\n2 still running\n\
                track 1 ended at the edge\ntrack 2 ended on the trace of 1 (north), from the right\n0 still running\n";
    assert_eq!(at_the_desk("late.sheet"), late);
    let along = "track 1 ended on the trace of 2 (east), along its line\ntrack 2 ended at the edge\n0 still running\n";
    assert_eq!(at_the_desk("G.sheet"), along);
    let sides = "track 1 ended at wall 1 (quay), from the left\n\
                 track 2 ended at wall 2, from the right\n3 still running\n\
                 track 3 ended at wall 3, along its line\n\
                 track 4 ended meeting 5, from the left\n1 still running\n\
                 track 5 ended meeting 4, from the right\n0 still running\n";
    assert_eq!(at_the_desk("sides.sheet"), sides);
    assert_eq!(at_the_desk("K.sheet"), "0 still running\n");
    let facing = at_the_desk("facing.sheet");
    let both = "track 1 ended meeting 2 (east), along its line\n\
                track 2 ended meeting 1 (north), along its line\n7 still running\n";
    assert!(
        facing.starts_with(both) && facing.contains("track 3 ended on the trace of 4, along its line\n"),
        "{facing}"
    );
    assert_eq!(at_the_desk("refused.sheet"), "refused 10 9\n");
}

#[test]
fn in_rust() {
    run(env!("CARGO"), "build --release --offline -p roll").expect("cargo");
    let built = Path::new(env!("CARGO_TARGET_TMPDIR")).with_file_name("release");
    prints_the_examples(built.join("roll").to_str().unwrap());
}

/// The four files of a sheet, in the order of `SHAPEFILES`.
fn expected_files(sheet: &[u8]) -> Result<[Vec<u8>; 4], Refusal> {
    read(sheet).map(|records| files(&records, &roll(&records)))
}

/// What a program prints for a sheet.
fn prints(program: &Path, argument: &Path, sheet: &[u8]) -> String {
    let mut command = Command::new(program);
    let spawned = command.arg(argument).stdin(Stdio::piped()).stdout(Stdio::piped()).spawn();
    let mut child = spawned.unwrap_or_else(|error| panic!("{}: {error}", program.display()));
    // The program may leave the end of a long input unread.
    let _ = child.stdin.take().expect("piped").write_all(sheet);
    let output = child.wait_with_output().expect("its output");
    assert!(output.status.success());
    String::from_utf8(output.stdout).expect("text")
}

/// A refused sheet, those of examples/, and more, the longest among them.
fn sheets_for_files() -> Vec<Vec<u8>> {
    let examples = fs::read_dir(root().join("examples")).expect("examples/");
    let mut paths: Vec<_> = examples.map(|entry| entry.expect("an entry").path()).collect();
    paths.retain(|path| path.extension().is_some_and(|extension| extension == "sheet"));
    paths.sort_by_key(|path| (!path.ends_with("refused.sheet"), path.clone()));
    let read_in = paths.iter().map(|path| fs::read(path).expect("a sheet"));
    read_in.chain(reference::chosen::late::sheets()).collect()
}

/// Runs a program on sheet after sheet, under one name: the files of the last accepted one are there, and no others.
fn writes_the_files(program: &str) {
    let folder = Path::new(env!("CARGO_TARGET_TMPDIR")).join(program.replace('/', "-"));
    let _ = fs::remove_dir_all(&folder);
    fs::create_dir_all(&folder).expect("a folder");
    let mut written = None;
    for sheet in sheets_for_files() {
        let printed = prints(&root().join(program), &folder.join("base"), &sheet);
        match expected_files(&sheet) {
            Ok(files) => {
                let base = folder.join("base");
                let line = |(file, bytes): (&Shapefile, &Vec<u8>)| {
                    format!("{}-{} {}\n", base.display(), file.name, bytes.len())
                };
                assert_eq!(printed, SHAPEFILES.iter().zip(&files).map(line).collect::<String>());
                written = Some(files);
            }
            Err(Refusal { number, place }) => assert_eq!(printed, format!("refused {number} {place}\n")),
        }
        assert_eq!(fs::read_dir(&folder).expect("the folder").count(), if written.is_some() { 4 } else { 0 });
        for (file, bytes) in SHAPEFILES.iter().zip(written.iter().flatten()) {
            let path = folder.join(format!("base-{}", file.name));
            assert_eq!(fs::read(&path).expect("a file"), *bytes, "{}", path.display());
        }
    }
}

#[test]
fn shapes_in_rattle() {
    writes_the_files("target/bin/shapes");
}

#[test]
fn shapes_in_c() {
    compile("shapes");
    writes_the_files("target/shapes-c");
}

/// The script makes the folder, and its status says whether the files are there.
#[test]
fn sheet_shp() {
    let folder = Path::new(env!("CARGO_TARGET_TMPDIR")).join("sheet-shp");
    let _ = fs::remove_dir_all(&folder);
    let status = |sheet: &str| {
        let mut command = Command::new(root().join("tools/sheet-shp"));
        let command = command.arg(root().join("examples").join(sheet)).arg(folder.join("deep/base"));
        command.stdout(Stdio::null()).status().expect("tools/sheet-shp").code()
    };
    assert_eq!(status("refused.sheet"), Some(1));
    assert_eq!(status("none.sheet"), Some(2));
    assert!(!folder.join("deep/base-ends.shp").exists());
    assert_eq!(status("late.sheet"), Some(0));
    let sheet = fs::read(root().join("examples/late.sheet")).expect("a sheet");
    for (file, bytes) in SHAPEFILES.iter().zip(expected_files(&sheet).expect("accepted")) {
        assert_eq!(fs::read(folder.join(format!("deep/base-{}", file.name))).expect("a file"), bytes);
    }
}
